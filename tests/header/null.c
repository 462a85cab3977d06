/* Each function that takes a slice, called with null and length 0 in each slice and with a real pointer of length 0: number, place, answer and
 * lent memory are the same. And that the rows lie as the archive stores them, with what it says of long counts. Compiled as C11 and as C++17. */
#include <assert.h>
#include <stdio.h>
#include <stdlib.h>
#include <string.h>
#include "vekalumist.h"

static const veka_facts_t facts = {{'M', 'A', 'S', 'T'}, {0, 0, 2}, 2, 0xFC, (1 << 30) - 1};
static unsigned calls, slices, longs, wrong;

/* what one call leaves: everything that it may write, marked before */
typedef struct {
    uint64_t number, place, answer[13], out[4];
} after_t;

static after_t marked(void) {
    after_t after;
    memset(&after, 0xA5, sizeof after);
    return after;
}

static void compare(const char *name, const after_t *with_null, const after_t *with_pointer) {
    calls++;
    if (memcmp(with_null, with_pointer, sizeof *with_null) == 0)
        return;
    wrong++;
    printf("%s: refusal %s at %d with null, %s at %d without\n", name, veka_refusal_name(with_null->number), (int)with_null->place,
           veka_refusal_name(with_pointer->number), (int)with_pointer->place);
}

/* CALL is an expression over `after` and `none`, which is null or a pointer; `none` stands for each slice that is empty. */
#define TRY(name, count, kind, call)                                                                                                           \
    do {                                                                                                                                       \
        static kind real[4];                                                                                                                   \
        after_t both[2];                                                                                                                       \
        for (int i = 0; i < 2; i++) {                                                                                                          \
            after_t *after = &both[i];                                                                                                         \
            kind *none = i ? real : NULL;                                                                                                      \
            *after = marked();                                                                                                                 \
            after->number = (call);                                                                                                            \
            (void)none;                                                                                                                        \
        }                                                                                                                                      \
        slices += (count);                                                                                                                     \
        compare(name, &both[0], &both[1]);                                                                                                     \
    } while (0)

/* An answer of type T in the marked memory. */
#define INTO(T) ((T *)(void *)after->answer)

static const uint8_t one[1] = {1};
static const uint64_t zero_key[4] = {0};

static void over_a_file(void) {
    static const veka_layout_t empty = {0, 0, 0, 0, 0, 0, 0, 0, 0, 0, 0, 0}, some = {1, 1, 0, 1, 0, 0, 0, 0, 0, 1, 0, 0};
    static const veka_layout_t *const layouts[2] = {&empty, &some};
    static const uint64_t table64[1] = {0};
    static const uint32_t table32[1] = {0};
    static const veka_key_t key = {{0, 0, 0, 0}};
    uint64_t kept[2];
    uint32_t slots[2];
    TRY("read_count", 1, uint8_t, veka_read_count(none, 0, 0, INTO(veka_count_t), &after->place));
    TRY("flags", 1, uint8_t, veka_flags(none, 0, INTO(uint8_t), &after->place));
    TRY("scan", 1, uint8_t, veka_scan(none, 0, &facts, true, veka_no_bound(), INTO(veka_scanned_t), &after->place));
    for (int k = 0; k < 2; k++) {
        const veka_layout_t *l = layouts[k];
        TRY("root", 1, uint8_t, veka_root(none, 0, l, 0, INTO(uint32_t), &after->place));
        TRY("entry", 1, uint8_t, veka_entry(none, 0, l, 0, INTO(veka_entry_t), &after->place));
        TRY("children", 1, uint8_t, veka_children(none, 0, l, &after->place));
        TRY("order", 1, uint8_t, veka_order(none, 0, l, &after->place));
        TRY("strict", 1, uint8_t, veka_strict(none, 0, l, &after->place));
        TRY("digest", 1, uint8_t, veka_digest(none, 0, l, 0, INTO(veka_digest_t), &after->place));
        TRY("digest_with_table, s", 1, uint8_t, veka_digest_with_table(none, 0, l, 0, table32, 1, INTO(veka_digest_t), &after->place));
        TRY("digest_with_table, table", 1, uint32_t, veka_digest_with_table(one, 1, l, 0, none, 0, INTO(veka_digest_t), &after->place));
        TRY("digest_with_table, both", 2, uint32_t, veka_digest_with_table(NULL, 0, l, 0, none, 0, INTO(veka_digest_t), &after->place));
        TRY("slots, s", 1, uint8_t,
            (memset(slots, 7, sizeof slots),
             after->out[0] = veka_slots(none, 0, l, veka_bound(9), slots, 2, INTO(veka_bound_t), &after->place),
             memcpy(&after->out[1], slots, sizeof slots), after->out[0]));
        TRY("slots, table", 1, uint32_t, veka_slots(one, 1, l, veka_no_bound(), none, 0, INTO(veka_bound_t), &after->place));
    }
    TRY("places", 1, uint8_t, veka_places(none, 0, 0));
    TRY("walk, s", 1, uint8_t,
        (memset(kept, 7, sizeof kept), after->out[0] = veka_walk(none, 0, 0, kept, 2, INTO(veka_walked_t), &after->place),
         memcpy(&after->out[1], kept, sizeof kept), after->out[0]));
    TRY("walk, keys", 1, uint64_t, veka_walk(one, 1, 0, none, 0, INTO(veka_walked_t), &after->place));
    TRY("key, s", 1, uint8_t, veka_key(none, 0, table64, 1, 0, INTO(veka_key_t), &after->place));
    TRY("key, keys", 1, uint64_t, veka_key(one, 1, none, 0, 0, INTO(veka_key_t), &after->place));
    TRY("map_entry, s", 1, uint8_t, veka_map_entry(none, 0, table64, 1, 0, INTO(veka_map_entry_t), &after->place));
    TRY("map_entry, keys", 1, uint64_t, veka_map_entry(one, 1, none, 0, 0, INTO(veka_map_entry_t), &after->place));
    for (size_t n = 0; n < 2; n++) {
        TRY("lookup, s", 1, uint8_t, veka_lookup(none, 0, table64, 1, n, &key, INTO(veka_lookup_t), &after->place));
        TRY("lookup, keys", 1, uint64_t, veka_lookup(one, 1, none, 0, n, &key, INTO(veka_lookup_t), &after->place));
        TRY("values, s", 1, uint8_t, veka_values(none, 0, table64, 1, n, &key, INTO(veka_part_t), &after->place));
        TRY("values, keys", 1, uint64_t, veka_values(one, 1, none, 0, n, &key, INTO(veka_part_t), &after->place));
    }
}

static uint64_t written(const veka_parts_t *parts, after_t *after) {
    static uint8_t file[200];
    uint64_t number = veka_write(&facts, parts, file, sizeof file, &after->answer[0], &after->place);
    memcpy(&after->answer[1], file, 88);
    return number;
}

/* The parts of a node and a map entry; each in turn is empty, and so are all. */
static void parts(void) {
    static const uint32_t root[1] = {0};
    static const uint64_t word[1] = {8ull << 60}, length[1] = {1}, value[1] = {7}, order[1] = {0};
    static const uint8_t digest[32] = {0};
    static const veka_parts_t full = {0,    root, 1,        one, 1,      word, 1,     digest, 32,   NULL,
                                      0, zero_key, 4, length,   1,   value,  1,    order, 1};
    veka_parts_t p;
#define WITHOUT(part, kind) TRY("write, " #part, 1, kind, (p = full, p.part = none, p.part##_len = 0, written(&p, after)))
    WITHOUT(roots, uint32_t);
    WITHOUT(blocks, uint8_t);
    WITHOUT(words, uint64_t);
    WITHOUT(external, uint8_t);
    WITHOUT(hashes, uint8_t);
    WITHOUT(keys, uint64_t);
    WITHOUT(lengths, uint64_t);
    WITHOUT(values, uint64_t);
    WITHOUT(order, uint64_t);
    TRY("write, all", 9, uint8_t, (memset(&p, 0, sizeof p), written(&p, after)));
    TRY("write, out", 1, uint8_t, veka_write(&facts, &full, none, 0, &after->answer[0], &after->place));
    TRY("write_count", 1, uint8_t, veka_write_count(none, 0, 0, 5, &after->answer[0], &after->place));
}

/* What is not null is handed on: a whole file through the inline functions. */
static void whole(void) {
    static const uint64_t keys[8] = {9, 0, 0, 0, 5}, lengths[2] = {1, 0}, values[1] = {70}, words[1] = {3ull << 60};
    uint64_t order[2], table[2], size = 0, place = 0;
    uint8_t file[200];
    veka_parts_t p;
    veka_scanned_t scanned;
    const veka_layout_t *layout = &scanned.layout;
    veka_walked_t walked;
    veka_map_entry_t entry;
    memset(&p, 0, sizeof p);
    p.flags = 2;
    p.words = words, p.words_len = 1;
    p.keys = keys, p.keys_len = 8;
    p.lengths = lengths, p.lengths_len = 2;
    p.values = values, p.values_len = 1;
    veka_key_order(keys, 2, order);
    p.order = order, p.order_len = 2;
    if (order[0] != 1 || order[1] != 0 || veka_write(&facts, &p, file, sizeof file, &size, &place) != VEKA_OK ||
        veka_scan(file, size, &facts, true, veka_bound(8), &scanned, &place) != VEKA_OK || layout->has_node_hashes || scanned.long_counts ||
        veka_places(file, size, layout->advice_map_offset) != 2 ||
        veka_walk(file, size, layout->advice_map_offset, table, 2, &walked, &place) != VEKA_OK || walked.entries != 2 || walked.trailing ||
        walked.long_counts ||
        veka_map_entry(file, size, table, 2, 1, &entry, &place) != VEKA_OK || entry.key.n[0] != 9 || entry.len != 1 ||
        file[entry.values] != 70 || veka_version() != VEKA_VERSION) {
        printf("a whole file: refusal at %d\n", (int)place);
        wrong++;
    }
}

/* A row is N numbers without padding, the last of them at its end. */
#define ROW(T, N, last) static_assert(sizeof(T) == 8 * (N) && offsetof(T, last) == 8 * ((N)-1), #T " is " #N " numbers")
ROW(veka_layout_t, 12, advice_map_offset);
ROW(veka_scanned_t, 13, long_counts);
ROW(veka_count_t, 4, shortest);
ROW(veka_walked_t, 4, long_counts);

/* What one file says of its long counts: SCAN and WALK, or that it is refused with this number, and the rows are as they were. */
static void told_long(const char *file, size_t len, uint64_t refusal, uint64_t scan, uint64_t walk) {
    const uint8_t *s = (const uint8_t *)file;
    uint64_t number, place = 77, keys[1];
    veka_scanned_t scanned, marked_scan;
    veka_walked_t walked, marked_walk;
    memset(&marked_scan, 0xA5, sizeof marked_scan);
    memset(&marked_walk, 0xA5, sizeof marked_walk);
    scanned = marked_scan, walked = marked_walk;
    number = veka_scan(s, len, &facts, false, veka_no_bound(), &scanned, &place);
    if (number != VEKA_OK ? memcmp(&scanned, &marked_scan, sizeof scanned) != 0 : scanned.long_counts != scan)
        wrong++, printf("long counts of %u bytes: the scan differs\n", (unsigned)len);
    if (number == VEKA_OK) {
        number = veka_walk(s, len, scanned.layout.advice_map_offset, keys, 1, &walked, &place);
        if (number != VEKA_OK ? memcmp(&walked, &marked_walk, sizeof walked) != 0 : walked.long_counts != walk)
            wrong++, printf("long counts of %u bytes: the walk differs\n", (unsigned)len);
    }
    if (number != refusal)
        wrong++, printf("long counts of %u bytes: %s\n", (unsigned)len, veka_refusal_name(number));
    longs++;
}

/* Five counts of 0, for internal and external nodes, roots, block data and the map; then a map of one entry without values. */
static void long_counts(void) {
    static const uint8_t two[2] = {2, 0};
    veka_count_t count;
    uint64_t place = 77;
#define KEY "\0\0\0\0\0\0\0\0\0\0\0\0\0\0\0\0\0\0\0\0\0\0\0\0\0\0\0\0\0\0\0\0"
#define TOLD(counts, refusal, scan, walk) told_long("MAST\0\0\0\2" counts, 8 + sizeof(counts) - 1, refusal, scan, walk)
    TOLD("\1\1\1\1\1", VEKA_OK, 0, 0);
    TOLD("\2\0\1\1\1\1", VEKA_OK, 1, 0);
    TOLD("\1\2\0\1\1\1", VEKA_OK, 1, 0);
    TOLD("\1\1\2\0\1\1", VEKA_OK, 1, 0);
    TOLD("\1\1\1\2\0\1", VEKA_OK, 1, 0);
    TOLD("\1\1\1\1\2\0", VEKA_OK, 0, 1);
    TOLD("\0\0\0\0\0\0\0\0\0\4\0\0\200\0\0\0\0\0\0\0\2\0\0\0\0\0\0\0\0\0\0", VEKA_OK, 4, 1);
    TOLD("\1\1\1\1\3" KEY "\1", VEKA_OK, 0, 0);
    TOLD("\1\1\1\1\3" KEY "\2\0", VEKA_OK, 0, 1);
    TOLD("\1\1\1\1\6\0" KEY "\0\0\0\0\0\0\0\0\0", VEKA_OK, 0, 2);
    TOLD("\1\1\1\1\6\0" KEY "\2", VEKA_SHORT, 0, 0);
    TOLD("\2\0\2\0\2\0\2", VEKA_SHORT, 0, 0);
    TOLD("\2\0\2\0\2\0\2\0\2", VEKA_SHORT, 4, 0); /* the scan accepts it, and the walk does not */
    TOLD("\6\0\2\0\2\0\2\0\2\0", VEKA_SHORT, 0, 0); /* a node that is not there */
    if (veka_read_count(two, 2, 0, &count, &place) != VEKA_OK || count.value != 0 || count.len != 2 || count.next != 2 || count.shortest != 0 ||
        veka_read_count(two, 2, 1, &count, &place) != VEKA_SHORT || count.len != 2 || place != 1)
        wrong++, printf("the count of two bytes differs\n");
}

static void names(void) {
    static const struct {
        uint64_t number;
        const char *name;
    } some[] = {
        {VEKA_OK, "OK"}, {VEKA_SHORT, "SHORT"}, {VEKA_FILE_VERSION, "VERSION"}, {VEKA_PARTS, "PARTS"}, {24, "UNKNOWN"}, {UINT64_MAX, "UNKNOWN"},
    };
    for (size_t i = 0; i < sizeof some / sizeof *some; i++)
        if (strcmp(veka_refusal_name(some[i].number), some[i].name) != 0) {
            printf("refusal %d is named %s\n", (int)some[i].number, veka_refusal_name(some[i].number));
            wrong++;
        }
}

int main(void) {
    names();
    over_a_file();
    parts();
    whole();
    long_counts();
    printf("%u calls, %u slices, %u files with their long counts, %u differ\n", calls, slices, longs, wrong);
    return wrong ? EXIT_FAILURE : EXIT_SUCCESS;
}
