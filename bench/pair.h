// What both builds are given, and what a build can do with it. pair.c makes the input and takes the times, side.c is compiled for each build,
// rust.c is the side of the published Rust's shims.
#include <stddef.h>
#include <stdint.h>

#define MOST 100000

// the format of the files, and a file with its parts
extern const uint8_t magic[4], version[3], hashless, reserved;
extern const size_t max_nodes;
extern uint64_t words[MOST], keys[4 * MOST], lengths[MOST], values[3 * MOST];
extern uint8_t digests[32 * MOST], file[128 * MOST], out[128 * MOST];
extern size_t nodes, entries, externals, held, file_len, out_len;
extern int keys_rise;

// what the readers by index need, and the indices in the order in which they are asked for. Behind the layout's twelve numbers is that of the long
// counts, which a build before version 0.4.0 does not store: all rows are lent as long as the longest that a build has.
extern uint64_t layout[13], offsets[MOST];
extern uint32_t table[MOST], indices[MOST];

// how often the file is scanned
extern size_t scans;

// counts end to end with some bytes behind the last, and their places in the order in which they are asked for
#define BEHIND 8
extern uint8_t counts[9 * MOST + BEHIND];
extern uint64_t places[MOST];
extern size_t counts_held, counts_len;

// ends the run on any refusal
void must(uint64_t refusal);

// The answer for one count, with all the memory that was lent for it: where nothing was stored the mark is left.
#define MARK 0xa55a3cc369960ff0u
struct counted {
    uint64_t refusal, value, len, next, place, shortest;
};

// call: `veka_version`, which is given nothing and only returns a number, as often as there are counts; a build before version 0.2.0 has none
struct side {
    uint64_t (*version)(void);
    void (*scan)(void), (*slots)(void), (*entry)(void), (*digest)(void), (*children)(void), (*order)(void), (*strict)(void), (*walk)(void),
        (*lookup)(void), (*write)(void), (*count)(void), (*call)(void);
    struct counted (*count_at)(const uint8_t *s, size_t len, size_t at);
};

// rust: the published Rust's shims, which have the counts alone, or nothing
extern const struct side older, newer, rust;
