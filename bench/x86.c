// Runs one operation of rt's own x86-64 archive so many times: x86 OPERATION SIZE TIMES. It needs no
// library and has its own start, so that little but the operation is executed.
#pragma clang section text = "driver" // apart from the archive's code, so that its instructions are not counted

typedef unsigned char u8;
typedef unsigned int u32;
typedef unsigned long u64;

#include "form.h"

#define MOST 4096

// rows as plain numbers: there are no headers here
u64 veka_raw_scan(const u8 *s, u64 len, const u8 *marks, u64 max_nodes, _Bool allow, const u64 *bound, u64 *scanned, u64 *place);
u64 veka_raw_slots(const u8 *s, u64 len, const u64 *layout, const u64 *bound, u32 *table, u64 table_len, u64 *left, u64 *place);
u64 veka_raw_entry(const u8 *s, u64 len, const u64 *layout, u64 index, u64 *entry, u64 *place);
u64 veka_raw_digest_with_table(const u8 *s, u64 len, const u64 *layout, u64 index, const u32 *table, u64 table_len, u64 *digest, u64 *place);
u64 veka_raw_walk(const u8 *s, u64 len, u64 at, u64 *keys, u64 keys_len, u64 *walked, u64 *place);
u64 veka_raw_lookup(const u8 *s, u64 len, const u64 *keys, u64 keys_len, u64 n, const u64 *key, u64 *looked, u64 *place);
u64 veka_raw_read_count(const u8 *s, u64 len, u64 at, u64 *count, u64 *place);
u64 veka_raw_write(const u8 *marks, u64 max_nodes, u8 flags, const u32 *roots, u64 roots_len, const u8 *blocks, u64 blocks_len,
                   const u64 *words, u64 words_len, const u8 *external, u64 external_len, const u8 *hashes, u64 hashes_len, const u64 *keys,
                   u64 keys_len, const u64 *lengths, u64 lengths_len, const u64 *values, u64 values_len, const u64 *order, u64 order_len,
                   u8 *out, u64 out_len, u64 *size, u64 *place);

// The archive's only outside name. No accepted input reaches it.
void *memset(void *to, int x, u64 n) {
    for (u64 i = 0; i < n; i++) ((volatile u8 *)to)[i] = (u8)x;
    return to;
}

static const u8 marks[9] = {'M', 'A', 'S', 'T', 0, 0, 1, 1, 0xfe};
static const u64 max_nodes = 1 << 30, no_bound[2];
static u64 words[MOST], keys[4 * MOST], lengths[MOST], values[8 * MOST], offsets[MOST], order[MOST], claimed, layout[13], row[12], place;
static u8 digests[32 * MOST], file[512 * MOST];
static u32 table[MOST];
static u64 file_len, seed = 88172645463325252;

static u64 number(void) {
    seed ^= seed << 13;
    seed ^= seed >> 7;
    return seed ^= seed << 17;
}

static void leave(long code) {
    __asm__ volatile("syscall" : : "a"(231), "D"(code));
    __builtin_unreachable();
}

// Any refusal ends the run with its number.
static void must(u64 refusal) {
    if (refusal) leave((long)refusal);
}

// The kinds of the benchmark: a tenth External, half of them Block, of the rest mostly Join.
static u64 word(u64 i, u64 n) {
    u64 part = i * 10 / n, tag, x = number() >> 40;
    if (part < 1) return 8ul << 60;
    if (part < 6) return 3ul << 60 | 24 * i;
    tag = "\6\7\2\4\4\4\5\1\1\0\0\0\0\0\0\0\0\0\0\0"[x % 20];
    if (tag >= 6) return tag << 60;
    return tag << 60 | (tag < 2 ? i << 29 : 0) | i / 3;
}

static u64 externals_of(u64 n) {
    u64 externals = 0;
    for (u64 i = 0; i < n; i++) externals += words[i] >> 60 == 8;
    return externals;
}

// Writes the file of n nodes and a map of m entries, with the claim of their order that was made for it.
static void write_file(u64 n, u64 m) {
    u64 externals = externals_of(n), total = 0;
    for (u64 i = 0; i < m; i++) total += lengths[i];
    must(veka_raw_write(marks, max_nodes, 0, table, 1, file, 0, words, n, digests, 32 * externals, digests, 32 * (n - externals), keys,
                        4 * m, lengths, m, values, total, order, claimed, file, sizeof file, &file_len, &place));
}

static void scan(void) { must(veka_raw_scan(file, file_len, marks, max_nodes, 1, no_bound, layout, &place)); }
static void slots(u64 n) { must(veka_raw_slots(file, file_len, layout, no_bound, table, n, row, &place)); }
static void walk(u64 m) { must(veka_raw_walk(file, file_len, layout[11], offsets, m, row, &place)); }

// Keys by their first element: rising (way 1), falling (way 2) or, by an odd factor, in disorder (way 3). The writer is told their order.
static void make(u64 n, u64 m, int way) {
    for (u64 i = 0; i < n; i++) words[i] = word(i, n);
    for (u64 i = 0; i < m; i++) {
        u64 at = way == 2 ? m - 1 - i : way == 3 ? i * 2654435761 % m : i;
        keys[4 * i] = at << 40;
        order[at] = i;
        lengths[i] = number() % 9;
    }
    claimed = way > 1 ? m : 0;
    write_file(n, m);
    scan();
}

// The map once more with each length in 1 to 9 bytes: the writer has the shortest forms alone. All values are 0.
static void pad(u64 m) {
    u64 at = layout[11] + put_count(file + layout[11], 9, m);
    for (u64 i = 0; i < m; i++) {
        for (u64 k = 0; k < 32; k++) file[at++] = (u8)(keys[4 * i + k / 8] >> 8 * (k % 8));
        at += put_count(file + at, 1 + number() % 9, lengths[i]);
        for (u64 k = 0; k < 8 * lengths[i]; k++) file[at++] = 0;
    }
    file_len = at;
}

// n counts of so many bytes end to end in place of a file, and bytes behind the last. A random number is hardly ever less than they are for;
// a small one makes all of two bytes and more long.
static void make_counts(u64 n, u64 len, int small) {
    u64 at = 0;
    for (u64 i = 0; i < n; i++) at += put_count(file + at, len, small ? number() % 128 : number());
    file_len = at + 8;
}

static void count(u64 n, u64 len) {
    for (u64 i = 0; i < n; i++) must(veka_raw_read_count(file, file_len, len * i, row, &place));
}

static void entry(u64 n) {
    for (u64 i = 0; i < n; i++) must(veka_raw_entry(file, file_len, layout, i, row, &place));
}

static void digest(u64 n) {
    for (u64 i = 0; i < n; i++) must(veka_raw_digest_with_table(file, file_len, layout, i, table, n, row, &place));
}

static void lookup(u64 m) {
    for (u64 i = 0; i < m; i++) {
        u64 key[4] = {(i * 2654435761 % m) << 40};
        must(veka_raw_lookup(file, file_len, offsets, m, m, key, row, &place));
        if (!row[0]) leave(99);
    }
}

// The plain read, one word after the other, among the code that is counted.
#pragma clang section text = ".text"
__attribute__((noinline)) static void plain(u64 n) {
    u64 sum = 0;
    const u64 *from = (const u64 *)(file + layout[7]);
    for (u64 i = 0; i < n; i++) sum += from[i];
    row[0] = sum;
}
#pragma clang section text = "driver"

static int is(const char *a, const char *b) {
    while (*a && *a == *b) a++, b++;
    return *a == *b;
}

static u64 parse(const char *s) {
    u64 n = 0;
    for (; *s; s++) n = 10 * n + (u64)(*s - '0');
    return n;
}

// Of count-1 to count-9, or long-1 to long-9, the number, else 0.
static u64 number_behind(const char *head, const char *name) {
    for (; *head; head++, name++)
        if (*name != *head) return 0;
    return parse(name);
}

// Makes the input, and runs the operation so many times.
static void run(const char *name, u64 n, u64 times) {
    int way = is(name, "walk-falling") ? 2
              : is(name, "walk-shuffled") || is(name, "write-shuffled") ? 3
                                                                        : is(name, "walk-rising") || is(name, "walk-padded") ||
                                                                              is(name, "lookup") || is(name, "write-map");
    u64 small = number_behind("long-", name), len = small ? small : number_behind("count-", name);
    if (len) make_counts(n, len, small != 0);
    else make(way ? 16 : n, way ? n : 0, way);
    if (is(name, "walk-padded")) pad(n);
    if (is(name, "digest")) slots(n);
    if (is(name, "lookup")) walk(n);
    while (times--) {
        if (is(name, "plain")) plain(n);
        else if (is(name, "scan")) scan();
        else if (is(name, "slots")) slots(n);
        else if (is(name, "entry")) entry(n);
        else if (is(name, "digest")) digest(n);
        else if (is(name, "lookup")) lookup(n);
        else if (len) count(n, len);
        else if (is(name, "write")) write_file(n, 0);
        else if (is(name, "write-map") || is(name, "write-shuffled")) write_file(16, n);
        else walk(n);
    }
}

void start(u64 *stack) {
    char **args = (char **)(stack + 1);
    if (stack[0] != 4 || parse(args[2]) > MOST) leave(97);
    run(args[1], parse(args[2]), parse(args[3]));
    leave(0);
}

__attribute__((naked, noreturn)) void _start(void) {
    __asm__("mov %rsp, %rdi\n and $-16, %rsp\n call start\n");
}
