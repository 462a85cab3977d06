// A count in any of its forms, for the drivers of both benchmarks. One of them has no headers, so the types are plain: a long has 64 bits.

// Stores a count in so many bytes, and gives their number. Of a number that is too large the upper bits are lost.
static unsigned long put_count(unsigned char *to, unsigned long len, unsigned long v) {
    unsigned long first = len == 9, raw = first ? v : (2 * v + 1) << (len - 1);
    *to = 0;
    for (unsigned long i = first; i < len; i++) to[i] = (unsigned char)(raw >> 8 * (i - first));
    return len;
}
