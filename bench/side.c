// One build's side: SIDE is its name (older, newer). With VK it has the functions of libcapi.a, over rows with lengths; else those of
// libvekalumist.a, by the header's inline functions. The header is this tree's, whose rows are the longest: of a build before version 0.4.0
// a scan, a walk and a count store one number less at the start of what is lent, and the rest stays.
#include <stdbool.h>
#include "pair.h"

#ifdef VK

uint64_t vk_scan(const uint8_t *, size_t, const uint64_t *, size_t, bool, uint64_t, size_t, uint64_t *, size_t);
uint64_t vk_slots(const uint8_t *, size_t, const uint64_t *, size_t, uint64_t, size_t, uint32_t *, size_t, uint64_t *, size_t);
uint64_t vk_entry(const uint8_t *, size_t, const uint64_t *, size_t, size_t, uint64_t *, size_t);
uint64_t vk_digest_with_table(const uint8_t *, size_t, const uint64_t *, size_t, size_t, const uint32_t *, size_t, uint64_t *, size_t);
uint64_t vk_children(const uint8_t *, size_t, const uint64_t *, size_t, uint64_t *, size_t);
uint64_t vk_order(const uint8_t *, size_t, const uint64_t *, size_t, uint64_t *, size_t);
uint64_t vk_strict(const uint8_t *, size_t, const uint64_t *, size_t, uint64_t *, size_t);
uint64_t vk_walk(const uint8_t *, size_t, size_t, uint64_t *, size_t, uint64_t *, size_t);
uint64_t vk_lookup(const uint8_t *, size_t, const uint64_t *, size_t, size_t, const uint64_t *, size_t, uint64_t *, size_t);
uint64_t vk_read_count(const uint8_t *, size_t, size_t, uint64_t *, size_t);
uint64_t vk_write(const uint64_t *, size_t, uint8_t, const uint32_t *, size_t, const uint8_t *, size_t, const uint64_t *, size_t,
                  const uint8_t *, size_t, const uint8_t *, size_t, const uint64_t *, size_t, const uint64_t *, size_t, const uint64_t *,
                  size_t, uint8_t *, size_t, uint64_t *, size_t);

static uint64_t row[12], facts[10];

static void set_facts(void) {
    for (int i = 0; i < 4; i++) facts[i] = magic[i];
    for (int i = 0; i < 3; i++) facts[4 + i] = version[i];
    facts[7] = hashless, facts[8] = reserved, facts[9] = max_nodes;
}

static void scan(void) {
    set_facts();
    for (size_t i = 0; i < scans; i++) must(vk_scan(file, file_len, facts, 10, true, 0, 0, layout, 12));
}

static void slots(void) { must(vk_slots(file, file_len, layout, 12, 0, 0, table, nodes, row, 12)); }
static void children(void) { must(vk_children(file, file_len, layout, 12, row, 12)); }
static void order(void) { must(vk_order(file, file_len, layout, 12, row, 12)); }
static void strict(void) { must(vk_strict(file, file_len, layout, 12, row, 12)); }
static void walk(void) { must(vk_walk(file, file_len, layout[11], offsets, entries, row, 12)); }

static void entry(void) {
    for (size_t i = 0; i < nodes; i++) must(vk_entry(file, file_len, layout, 12, indices[i], row, 12));
}

static void digest(void) {
    for (size_t i = 0; i < nodes; i++) must(vk_digest_with_table(file, file_len, layout, 12, indices[i], table, nodes, row, 12));
}

static void lookup(void) {
    for (size_t i = 0; i < entries; i++) {
        must(vk_lookup(file, file_len, offsets, entries, entries, keys + 4 * indices[i], 4, row, 12));
        must(!row[0]);
    }
}

static void write(void) {
    set_facts();
    must(vk_write(facts, 10, 0, table, 1, file, 0, words, nodes, digests, 32 * externals, digests, 32 * (nodes - externals), keys,
                  4 * entries, lengths, entries, values, held, out, sizeof out, row, 12));
    out_len = row[0];
}

static void count(void) {
    for (size_t i = 0; i < counts_held; i++) must(vk_read_count(counts, counts_len, places[i], row, 12));
}

// A refusal's place comes as the row's first number, and nothing is stored behind an answer's three.
static struct counted count_at(const uint8_t *s, size_t len, size_t at) {
    uint64_t got[5] = {MARK, MARK, MARK, MARK, MARK}, refusal = vk_read_count(s, len, at, got, 5);
    struct counted answer = {refusal, got[refusal ? 3 : 0], got[1], got[2], got[refusal ? 0 : 3], got[4]};
    return answer;
}

enum { call = 0, veka_version = 0 }; // no function there does nothing

#else

#include "vekalumist.h"

static uint64_t place;

static veka_facts_t facts_given(void) {
    veka_facts_t facts = {{magic[0], magic[1], magic[2], magic[3]}, {version[0], version[1], version[2]}, hashless, reserved, max_nodes};
    return facts;
}

static veka_layout_t *const at = (veka_layout_t *)layout;

static void scan(void) {
    veka_facts_t facts = facts_given();
    for (size_t i = 0; i < scans; i++) must(veka_scan(file, file_len, &facts, true, veka_no_bound(), (veka_scanned_t *)layout, &place));
}

static void slots(void) {
    veka_bound_t left;
    must(veka_slots(file, file_len, at, veka_no_bound(), table, nodes, &left, &place));
}

static void children(void) { must(veka_children(file, file_len, at, &place)); }
static void order(void) { must(veka_order(file, file_len, at, &place)); }
static void strict(void) { must(veka_strict(file, file_len, at, &place)); }

static void walk(void) {
    veka_walked_t walked;
    must(veka_walk(file, file_len, layout[11], offsets, entries, &walked, &place));
}

static void entry(void) {
    static veka_entry_t got;
    for (size_t i = 0; i < nodes; i++) must(veka_entry(file, file_len, at, indices[i], &got, &place));
}

static void digest(void) {
    static veka_digest_t got;
    for (size_t i = 0; i < nodes; i++) must(veka_digest_with_table(file, file_len, at, indices[i], table, nodes, &got, &place));
}

static void lookup(void) {
    static veka_lookup_t got;
    for (size_t i = 0; i < entries; i++) {
        must(veka_lookup(file, file_len, offsets, entries, entries, (const veka_key_t *)(keys + 4 * indices[i]), &got, &place));
        must(!got.found);
    }
}

// Keys that do not rise are sorted first, as a caller would.
static void write(void) {
    static uint64_t claim[MOST];
    if (!keys_rise) veka_key_order(keys, entries, claim);
    veka_facts_t facts = facts_given();
    veka_parts_t parts = {0,        table,          1,       file,                      0,    words,       nodes,
                          digests,  32 * externals, digests, 32 * (nodes - externals), keys, 4 * entries, lengths,
                          entries,  values,         held,    claim,                     keys_rise ? 0 : entries};
    uint64_t size;
    must(veka_write(&facts, &parts, out, sizeof out, &size, &place));
    out_len = size;
}

static void count(void) {
    static veka_count_t got;
    for (size_t i = 0; i < counts_held; i++) must(veka_read_count(counts, counts_len, places[i], &got, &place));
}

static void call(void) {
    for (size_t i = 0; i < counts_held; i++) must(!veka_version());
}

static struct counted count_at(const uint8_t *s, size_t len, size_t at) {
    veka_count_t got = {MARK, MARK, MARK, MARK};
    uint64_t where = MARK, refusal = veka_read_count(s, len, at, &got, &where);
    struct counted answer = {refusal, got.value, got.len, got.next, where, got.shortest};
    return answer;
}

#endif

const struct side SIDE = {veka_version, scan, slots, entry, digest, children, order, strict, walk, lookup, write, count, call, count_at};
