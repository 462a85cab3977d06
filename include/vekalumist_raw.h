/* vekalumist_raw.h: the exported functions of libvekalumist.a as they are, and the rows that cross. Include vekalumist.h instead: it says
 * what each function takes, answers and refuses, and lets a pointer of length 0 be null. Here none may be.
 *
 * A row of N numbers crosses as a pointer to a struct of N fields without padding, a buffer as a pointer and its number of elements.
 */
#ifndef VEKALUMIST_RAW_H
#define VEKALUMIST_RAW_H

#include <stdbool.h>
#include <stddef.h>
#include <stdint.h>

#ifdef __cplusplus
extern "C" {
#endif

/* What a format fixes, as far as it is bytes. */
typedef struct {
    uint8_t magic[4];   /* the file's first four bytes */
    uint8_t version[3]; /* the bytes after the flags */
    uint8_t hashless;   /* the flag bit of a file without node hashes: exactly one bit */
    uint8_t reserved;   /* the flag bits that must be zero; not the hashless bit */
} veka_marks_t;

/* How many bytes a reader may have to allocate. */
typedef struct {
    uint64_t bounded; /* 0: there is no bound */
    uint64_t bytes;
} veka_bound_t;

/* Where the sections of a file lie. The scan makes it, and so may anyone: every reader checks again what it reads by it. */
typedef struct {
    uint64_t node_count;             /* nodes, internal and external */
    uint64_t internal_node_count;    /* rows of the hashes, where there are any */
    uint64_t external_node_count;    /* rows of the external digests */
    uint64_t roots_count;            /* roots */
    uint64_t roots_offset;           /* bytes; a root has 4 */
    uint64_t basic_block_offset;     /* bytes */
    uint64_t basic_block_len;        /* bytes of block data */
    uint64_t node_entry_offset;      /* bytes; an entry has 8 */
    uint64_t external_digest_offset; /* bytes; a digest has 32 */
    uint64_t has_node_hashes;        /* 0: the file is hashless; else it has hashes */
    uint64_t node_hash_offset;       /* bytes; a hash has 32; 0 in a hashless file */
    uint64_t advice_map_offset;      /* bytes; for veka_walk */
} veka_layout_t;

/* What the scan gives of an accepted file. */
typedef struct {
    veka_layout_t layout;
    uint64_t long_counts; /* how many of its four counts are long, 0 to 4: internal nodes, external nodes, roots, bytes of block data */
} veka_scanned_t;

/* A node entry; a number that the kind has not is 0 where it is read. */
typedef struct {
    uint64_t kind;   /* VEKA_JOIN to VEKA_EXTERNAL */
    uint64_t first;  /* an id, or where a block's operations start */
    uint64_t second; /* the second id of VEKA_JOIN and VEKA_SPLIT */
} veka_entry_t;

/* A count (vint64) that was read. */
typedef struct {
    uint64_t value;
    uint64_t len;      /* its bytes, 1 to 9; longer forms than needed are read */
    uint64_t next;     /* the byte offset after it */
    uint64_t shortest; /* 1: its value has no shorter form; 0: it has one, and the count is long */
} veka_count_t;

/* The four numbers of a digest, and those of a key: two types, so that one is not taken for the other. */
typedef struct {
    uint64_t n[4];
} veka_digest_t;

typedef struct {
    uint64_t n[4];
} veka_key_t;

/* A walked map. */
typedef struct {
    uint64_t entries;     /* how many, and how many places of the key table were filled */
    uint64_t end;         /* the byte offset after the map */
    uint64_t trailing;    /* bytes that follow it: 0 exactly if nothing does */
    uint64_t long_counts; /* how many of its counts are long: its own, and the length of each entry */
} veka_walked_t;

/* An entry of the map. */
typedef struct {
    veka_key_t key;
    uint64_t len;    /* how many values; a value has 8 bytes */
    uint64_t values; /* the byte offset of the first */
} veka_map_entry_t;

/* Whether a key is in the map. */
typedef struct {
    uint64_t found;    /* 1: it is; 0: it is not, and the next two are 0 */
    uint64_t values;   /* the byte offset of its first value */
    uint64_t len;      /* how many values */
    uint64_t compared; /* how many keys were compared */
} veka_lookup_t;

/* A key's values as a part of the file. */
typedef struct {
    uint64_t found;  /* 1: the key is there; 0: it is not, and the next two are 0 */
    uint64_t offset; /* bytes */
    uint64_t bytes;  /* how many BYTES, 8 for each value */
} veka_part_t;

uint64_t veka_version(void);

uint64_t veka_raw_read_count(const uint8_t *s, size_t s_len, size_t at, veka_count_t *count, uint64_t *place);

uint64_t veka_shortest_len(uint64_t v);

uint64_t veka_raw_write_count(uint8_t *out, size_t out_len, size_t at, uint64_t v, uint64_t *next, uint64_t *place);

uint64_t veka_decode_entry(uint64_t word, veka_entry_t *entry, uint64_t *place);

uint64_t veka_encode_entry(const veka_entry_t *entry, uint64_t *word, uint64_t *place);

uint64_t veka_raw_flags(const uint8_t *s, size_t s_len, uint8_t *flags, uint64_t *place);

uint64_t veka_raw_scan(const uint8_t *s, size_t s_len, const veka_marks_t *marks, size_t max_nodes, bool allow, const veka_bound_t *bound,
                       veka_scanned_t *scanned, uint64_t *place);

uint64_t veka_raw_root(const uint8_t *s, size_t s_len, const veka_layout_t *layout, size_t index, uint32_t *root, uint64_t *place);

uint64_t veka_raw_entry(const uint8_t *s, size_t s_len, const veka_layout_t *layout, size_t index, veka_entry_t *entry, uint64_t *place);

uint64_t veka_raw_children(const uint8_t *s, size_t s_len, const veka_layout_t *layout, uint64_t *place);

uint64_t veka_raw_order(const uint8_t *s, size_t s_len, const veka_layout_t *layout, uint64_t *place);

uint64_t veka_raw_strict(const uint8_t *s, size_t s_len, const veka_layout_t *layout, uint64_t *place);

uint64_t veka_raw_digest(const uint8_t *s, size_t s_len, const veka_layout_t *layout, size_t index, veka_digest_t *digest,
                         uint64_t *place);

uint64_t veka_raw_digest_with_table(const uint8_t *s, size_t s_len, const veka_layout_t *layout, size_t index, const uint32_t *table,
                                    size_t table_len, veka_digest_t *digest, uint64_t *place);

uint64_t veka_raw_slots(const uint8_t *s, size_t s_len, const veka_layout_t *layout, const veka_bound_t *bound, uint32_t *table,
                        size_t table_len, veka_bound_t *left, uint64_t *place);

uint64_t veka_raw_places(const uint8_t *s, size_t s_len, size_t at);

uint64_t veka_raw_walk(const uint8_t *s, size_t s_len, size_t at, uint64_t *keys, size_t keys_len, veka_walked_t *walked,
                       uint64_t *place);

uint64_t veka_raw_key(const uint8_t *s, size_t s_len, const uint64_t *keys, size_t keys_len, size_t index, veka_key_t *key,
                      uint64_t *place);

uint64_t veka_raw_map_entry(const uint8_t *s, size_t s_len, const uint64_t *keys, size_t keys_len, size_t index, veka_map_entry_t *entry,
                            uint64_t *place);

uint64_t veka_raw_lookup(const uint8_t *s, size_t s_len, const uint64_t *keys, size_t keys_len, size_t n, const veka_key_t *key,
                         veka_lookup_t *looked, uint64_t *place);

uint64_t veka_raw_values(const uint8_t *s, size_t s_len, const uint64_t *keys, size_t keys_len, size_t n, const veka_key_t *key,
                         veka_part_t *part, uint64_t *place);

uint64_t veka_raw_write(const veka_marks_t *marks, size_t max_nodes, uint8_t flags, const uint32_t *roots, size_t roots_len,
                        const uint8_t *blocks, size_t blocks_len, const uint64_t *words, size_t words_len, const uint8_t *external,
                        size_t external_len, const uint8_t *hashes, size_t hashes_len, const uint64_t *keys, size_t keys_len,
                        const uint64_t *lengths, size_t lengths_len, const uint64_t *values, size_t values_len, const uint64_t *order,
                        size_t order_len, uint8_t *out, size_t out_len, uint64_t *size, uint64_t *place);

#ifdef __cplusplus
}
#endif

#endif
