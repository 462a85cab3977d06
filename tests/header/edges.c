/* Of counts: no byte outside a slice is read. The compiled reader takes eight bytes at once, so the slice lies against a page that may not be
 * touched, once before it and once behind it: a read outside ends the program. Each length of a count, with 0 to 20 bytes in the slice, at each
 * place of it, and places past its end and near the last that there are. Value, length, place and whether the length is the shortest are held
 * to a reader that goes bit by bit. In every other round the slice is zero from some byte on, so that many of its counts are long. */
#define _DEFAULT_SOURCE
#include <stdio.h>
#include <string.h>
#include <sys/mman.h>
#include <unistd.h>
#include "vekalumist.h"

enum { MOST = 20, ROUNDS = 200 };
static unsigned calls, longs, wrong;
static uint64_t seed = 88172645463325252u;

static uint8_t any(void) {
    seed ^= seed << 13;
    seed ^= seed >> 7;
    seed ^= seed << 17;
    return (uint8_t)(seed >> 32);
}

/* bit by bit: 0 and the count, or VEKA_SHORT */
static uint64_t plain(const uint8_t *s, size_t len, size_t at, veka_count_t *count) {
    size_t n = 1, bits = 0, least = 1;
    if (at >= len)
        return VEKA_SHORT;
    while (n < 9 && !(s[at] >> (n - 1) & 1))
        n++;
    if (len - at < n)
        return VEKA_SHORT;
    count->value = 0;
    /* the lowest n bits of up to eight bytes, or the first of nine, are no part of the value */
    for (size_t drop = n == 9 ? 8 : n, i = drop; i < 8 * n; i++, bits++)
        count->value |= (uint64_t)(s[at + i / 8] >> i % 8 & 1) << bits;
    count->len = n;
    count->next = at + n;
    /* a form of up to eight bytes holds seven bits a byte */
    while (least < 9 && count->value >> 7 * least)
        least++;
    count->shortest = n == least;
    return 0;
}

static void held(const uint8_t *s, size_t len, size_t at) {
    veka_count_t got, want;
    uint64_t place = 99, number;
    memset(&got, 0xA5, sizeof got);
    want = got;
    number = veka_read_count(s, len, at, &got, &place);
    calls++;
    longs += number == VEKA_OK && !got.shortest;
    if (number == plain(s, len, at, &want) && memcmp(&got, &want, sizeof got) == 0 && place == (number ? at : 99))
        return;
    wrong++;
    printf("%u of %u bytes: refusal %u\n", (unsigned)at, (unsigned)len, (unsigned)number);
}

int main(void) {
    size_t page = (size_t)sysconf(_SC_PAGESIZE);
    uint8_t *pages = (uint8_t *)mmap(NULL, 3 * page, PROT_READ | PROT_WRITE, MAP_PRIVATE | MAP_ANONYMOUS, -1, 0);
    if (pages == MAP_FAILED || mprotect(pages, page, PROT_NONE) || mprotect(pages + 2 * page, page, PROT_NONE)) {
        printf("no pages\n");
        return 2;
    }
    for (size_t len = 0; len <= MOST; len++)
        for (unsigned n = 1; n <= 9; n++)
            for (unsigned round = 0; round < ROUNDS; round++)
                for (size_t at = 0; at <= len; at++) {
                    uint8_t *first = pages + page, *last = pages + 2 * page - len;
                    size_t zeros = round % 2 ? at + 1 + any() % n : len;
                    for (size_t i = 0; i < len; i++)
                        first[i] = last[i] = i == at ? (uint8_t)((any() | 1) << (n - 1)) : i < zeros ? any() : 0;
                    held(first, len, at);
                    held(last, len, at);
                    held(last, len, len + 1 + at);
                    held(last, len, SIZE_MAX - at);
                }
    printf("%u counts, %u of them long, %u wrong\n", calls, longs, wrong);
    return wrong != 0;
}
