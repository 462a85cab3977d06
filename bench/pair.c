// Two builds of the archive in one process, in turn and on the same input, so that what the machine does meanwhile befalls both:
// ns for one node, entry or count, and the ratio of the newer to the older, of the best rounds and of the best tenth. Counts have the
// reader of the published Rust's shims beside them, if it is there, and its ratio to the newer, of the best rounds. pair.sh builds it.
#include <inttypes.h>
#include <stdio.h>
#include <stdlib.h>
#include <string.h>
#include <time.h>

#include "form.h"
#include "pair.h"

#define ROUNDS 1500
#define SIDES 3

const uint8_t magic[4] = {'M', 'A', 'S', 'T'}, version[3] = {0, 0, 1}, hashless = 1, reserved = 0xfe;
const size_t max_nodes = 1 << 30;
uint64_t words[MOST], keys[4 * MOST], lengths[MOST], values[3 * MOST], layout[13], offsets[MOST];
uint8_t digests[32 * MOST], file[128 * MOST], out[128 * MOST];
uint32_t table[MOST], indices[MOST];
size_t nodes, entries, externals, held, file_len, out_len, scans = 1;
int keys_rise;
uint8_t counts[9 * MOST + BEHIND];
uint64_t places[MOST];
size_t counts_held, counts_len;

static const struct side *const sides[SIDES] = {&older, &newer, &rust};
static const char *const names[SIDES] = {"older", "newer", "Rust"};

// Nodes in the order of their classes, or of all kinds in any order, and no map; few nodes, in a file that is scanned n times (SMALL_PADDED: its
// counts in 9 bytes); a map with its keys so (PADDED: rising, and lengths in 1 to 9 bytes; FIVE: all lengths in 5, as of a packer that patches
// them later); or counts as in a map, of any length (LONG: of small numbers, so that all but those of one byte are long; HALF: half of them
// small), or of n bytes (BYTES + n).
enum input { CLASSES, MIXED, SMALL, SMALL_PADDED, RISING, PADDED, FIVE, FALLING, SHUFFLED, OF_MAP, ANY, LONG, HALF, BYTES };

static uint64_t seed = 88172645463325252;

static uint64_t number(void) {
    seed ^= seed << 13;
    seed ^= seed >> 7;
    return seed ^= seed << 17;
}

void must(uint64_t refusal) {
    if (refusal) {
        fprintf(stderr, "pair: refused %d\n", (int)refusal);
        exit(1);
    }
}

// A tenth External, half of them Block, the rest Join; or any of the nine kinds.
static uint64_t word(size_t i, size_t n, enum input input) {
    if (input == MIXED) {
        uint64_t kind = i ? number() % 9 : 8;
        return kind << 60 | (kind < 2 ? (uint64_t)(i / 2) << 30 | i / 3 : kind < 6 ? i / 2 : 0);
    }
    if (i * 10 < n) return 8ull << 60;
    if (i * 10 < 6 * n) return 3ull << 60 | 24 * i;
    return (uint64_t)(i / 2) << 30 | i / 3;
}

// Indices from 0 on, or shuffled.
static void ask(size_t n, int in_turn) {
    for (size_t i = 0; i < n; i++) indices[i] = (uint32_t)i;
    for (size_t i = n; !in_turn && i > 1; i--) {
        size_t j = number() % i;
        uint32_t kept = indices[i - 1];
        indices[i - 1] = indices[j];
        indices[j] = kept;
    }
}

// How long a count is. A map's are the numbers of values of its entries, one byte below 128, two below 16,384, and its own count of entries:
// of ten seven of one byte, and nearly all others of two. That is assumed, and not taken from stored files.
static size_t count_len(enum input input) {
    if (input == FIVE) return 5;
    if (input == PADDED || input == ANY || input == LONG || input == HALF) return 1 + number() % 9;
    if (input > BYTES) return input - BYTES;
    uint64_t part = number() % 100;
    return part < 70 ? 1 : part < 97 ? 2 : 3;
}

// n counts of random value, which of so many bytes is hardly ever less than they are for, or of a small one; and their places in the order of
// the indices.
static void make_counts(size_t n, enum input input) {
    static size_t begins[MOST];
    size_t at = 0;
    for (size_t i = 0; i < n; i++) {
        int small = input == LONG || (input == HALF && number() % 2);
        begins[i] = at;
        at += put_count(counts + at, count_len(input), small ? number() % 128 : number());
    }
    for (size_t i = 0; i < n; i++) places[i] = begins[indices[i]];
    counts_held = n;
    counts_len = at + BEHIND;
}

// The map once more, in the same place, with its lengths in longer forms: the writer has the shortest alone. All values are 0.
static void pad(enum input input) {
    uint8_t *to = file + layout[11];
    to += put_count(to, 9, entries);
    for (size_t i = 0; i < entries; i++) {
        memcpy(to, keys + 4 * i, 32);
        to += 32 + put_count(to + 32, count_len(input), lengths[i]);
        memset(to, 0, 8 * lengths[i]);
        to += 8 * lengths[i];
    }
    file_len = (size_t)(to - file);
}

// The file once more, from where it was written, with its four counts in 9 bytes each: it has one root and no block data.
static void pad_counts(void) {
    size_t rest = file_len - layout[5];
    uint8_t *to = file + 8;
    to += put_count(to, 9, layout[1]);
    to += put_count(to, 9, layout[2]);
    to += put_count(to, 9, 1);
    memcpy(to, out + layout[4], 4);
    to += 4 + put_count(to + 4, 9, 0);
    memcpy(to, out + layout[5], rest);
    file_len = (size_t)(to - file) + rest;
}

// A file of n nodes and no map, or of a few nodes and a map of n entries; or n counts.
static void make(size_t n, enum input input) {
    if (input >= OF_MAP) {
        make_counts(n, input);
        return;
    }
    nodes = input <= MIXED ? n : 16;
    entries = input <= SMALL_PADDED ? 0 : n;
    scans = 1;
    externals = held = 0;
    keys_rise = input <= FIVE;
    for (size_t i = 0; i < nodes; i++) externals += (words[i] = word(i, nodes, input)) >> 60 == 8;
    for (size_t i = 0; i < entries; i++) {
        keys[4 * i] = (uint64_t)(keys_rise ? i : input == FALLING ? entries - 1 - i : i * 2654435761u % entries) << 40;
        held += lengths[i] = number() % 3;
    }
    newer.write();
    memcpy(file, out, file_len = out_len);
    newer.scan();
    newer.slots();
    if (input == SMALL_PADDED) pad_counts();
    if (input == SMALL || input == SMALL_PADDED) scans = n;
    if (input == PADDED || input == FIVE) pad(input);
    else if (entries) newer.walk();
}

struct operation {
    const char *name;
    size_t run; // which of a side's
    enum input input;
    int in_turn;
    size_t most;
};

#define OF(run) offsetof(struct side, run)

static const struct operation operations[] = {
    {"scan", OF(scan), CLASSES, 1, MOST},
    {"scan, mixed", OF(scan), MIXED, 1, MOST},
    {"scan, 16 nodes", OF(scan), SMALL, 1, MOST}, // ns for the whole scan of a small file
    {"scan, 16, padded", OF(scan), SMALL_PADDED, 1, MOST},
    {"slots", OF(slots), CLASSES, 1, MOST},
    {"entry, in turn", OF(entry), CLASSES, 1, MOST},
    {"entry, random", OF(entry), CLASSES, 0, MOST},
    {"entry, mixed", OF(entry), MIXED, 1, MOST},
    {"digest, in turn", OF(digest), CLASSES, 1, MOST},
    {"digest, random", OF(digest), CLASSES, 0, MOST},
    {"children", OF(children), CLASSES, 1, MOST},
    {"children, mixed", OF(children), MIXED, 1, MOST},
    {"order", OF(order), CLASSES, 1, MOST},
    {"strict", OF(strict), CLASSES, 1, MOST},
    {"strict, mixed", OF(strict), MIXED, 1, MOST},
    {"walk, rising", OF(walk), RISING, 1, MOST},
    {"walk, padded", OF(walk), PADDED, 1, MOST},
    {"walk, 5 bytes", OF(walk), FIVE, 1, MOST},
    {"walk, falling", OF(walk), FALLING, 1, MOST},
    {"walk, shuffled", OF(walk), SHUFFLED, 1, MOST},
    {"lookup", OF(lookup), RISING, 0, MOST},
    {"write", OF(write), CLASSES, 1, MOST},
    {"write, map", OF(write), RISING, 1, MOST},
    // a build without the claim of an order is quadratic here
    {"write, falling", OF(write), FALLING, 1, 10000},
    {"write, shuffled", OF(write), SHUFFLED, 1, 10000},
    {"count, 1 byte", OF(count), BYTES + 1, 0, MOST},
    {"count, 2 bytes", OF(count), BYTES + 2, 0, MOST},
    {"count, 3 bytes", OF(count), BYTES + 3, 0, MOST},
    {"count, 4 bytes", OF(count), BYTES + 4, 0, MOST},
    {"count, 5 bytes", OF(count), BYTES + 5, 0, MOST},
    {"count, 6 bytes", OF(count), BYTES + 6, 0, MOST},
    {"count, 7 bytes", OF(count), BYTES + 7, 0, MOST},
    {"count, 8 bytes", OF(count), BYTES + 8, 0, MOST},
    {"count, 9 bytes", OF(count), BYTES + 9, 0, MOST},
    {"count, any length", OF(count), ANY, 0, MOST},
    {"count, long", OF(count), LONG, 0, MOST},
    {"count, half long", OF(count), HALF, 0, MOST},
    {"count, map", OF(count), OF_MAP, 0, MOST},
    {"call alone", OF(call), OF_MAP, 0, MOST}, // what a count pays at least beside its reading
};

// What a build has to say of the shortest form: the number's bits tell how many bytes that has. Before version 0.4.0 and of a refusal nothing.
static uint64_t shortest_due(const struct side *side, const struct counted *got) {
    if (got->refusal || !side->version || side->version() < 400) return MARK;
    size_t bits = 0;
    for (uint64_t v = got->value; v; v >>= 1) bits++;
    return got->len == (bits > 56 ? 9 : bits > 7 ? (bits + 6) / 7 : 1);
}

// All sides must say the same of the count at a place: the builds in all that they store and leave, the Rust in its value and the place after it.
static void hold(const uint8_t *s, size_t len, size_t at) {
    struct counted got[SIDES];
    int same = 1;
    for (int k = 0; k < SIDES; k++) {
        if (!sides[k]->count_at) continue;
        got[k] = sides[k]->count_at(s, len, at);
        same &= !got[k].refusal == !got[0].refusal && got[k].value == got[0].value && got[k].next == got[0].next;
        if (k < 2) same &= got[k].shortest == shortest_due(sides[k], &got[k]);
    }
    if (same && memcmp(&got[0], &got[1], offsetof(struct counted, shortest)) == 0) return;
    fprintf(stderr, "pair: not the same count at %zu of %zu bytes:", at, len);
    for (size_t i = 0; i < len; i++) fprintf(stderr, " %02x", s[i]);
    for (int k = 0; k < SIDES; k++)
        if (sides[k]->count_at)
            fprintf(stderr,
                    "\n  %s: refusal %" PRIu64 ", value %" PRIx64 ", len %" PRIx64 ", next %" PRIx64 ", place %" PRIx64 ", shortest %" PRIx64,
                    names[k], got[k].refusal, got[k].value, got[k].len, got[k].next, got[k].place, got[k].shortest);
    fprintf(stderr, "\n");
    exit(1);
}

// Each length of a count with 0 to 20 bytes left from its start on, any bytes before, in and behind it and behind the end, half of them of a
// number that may have a shorter form; and places from the end on and up to 2^64.
static void hold_counts(void) {
    static uint64_t bytes[6];
    uint8_t *s = (uint8_t *)bytes;
    size_t asked = 0;
    for (size_t round = 0; round < 11000; round++)
        for (size_t left = 0; left <= 20; left++)
            for (unsigned n = 1; n <= 9; n++) {
                for (size_t i = 0; i < sizeof bytes / sizeof *bytes; i++) bytes[i] = number();
                size_t at = number() % 16, len = at + left;
                s[at] = (uint8_t)((s[at] | 1u) << (n - 1));
                if (round % 2) put_count(s + at, n, number() >> number() % 64);
                hold(s, len, at);
                hold(s, len, len + number() % 16);
                hold(s, len, SIZE_MAX - number() % 32);
                asked++;
            }
    printf("%zu counts, and twice as many places at or past the end: the same answers of older%s\n", asked,
           rust.count_at ? ", newer and Rust" : " and newer");
}

static double now(void) {
    struct timespec t;
    clock_gettime(CLOCK_MONOTONIC, &t);
    return 1e9 * (double)t.tv_sec + (double)t.tv_nsec;
}

static void (*call_of(const struct side *side, const struct operation *operation))(void) {
    void (*call)(void);
    memcpy(&call, (const char *)side + operation->run, sizeof call);
    return call;
}

static double run(const struct side *side, const struct operation *operation) {
    void (*call)(void) = call_of(side, operation);
    double from = now();
    call();
    return now() - from;
}

static int compare(const void *a, const void *b) {
    double x = *(const double *)a, y = *(const double *)b;
    return x < y ? -1 : x > y;
}

static void row(const struct operation *operation, size_t n) {
    static double took[SIDES][ROUNDS];
    size_t rounds = n < 10000 ? ROUNDS : n < 100000 ? ROUNDS / 5 : ROUNDS / 25;
    size_t among = call_of(&rust, operation) ? SIDES : SIDES - 1;
    // kinds and lengths in any order are new to all each time: a file that comes again is learnt by heart
    enum input input = operation->input;
    int anew = input == MIXED || input == PADDED || input == OF_MAP || input == ANY || input == LONG || input == HALF;
    ask(n, operation->in_turn);
    make(n, input);
    // the slow ones fewer times
    double once = run(sides[0], operation);
    if (once > 1e7) rounds = 15;
    for (size_t i = 0; i < among * rounds; i++) {
        if (anew && i % among == 0) make(n, input);
        size_t which = (i + i / among) % among; // each is the first of a round as often as the others
        took[which][i / among] = run(sides[which], operation);
    }
    for (size_t which = 0; which < among; which++) qsort(took[which], rounds, sizeof(double), compare);
    printf("%-17s %7zu %9.3f %9.3f %7.3f %7.3f", operation->name, n, took[0][0] / (double)n, took[1][0] / (double)n, took[1][0] / took[0][0],
           took[1][rounds / 10] / took[0][rounds / 10]);
    if (among == SIDES)
        printf(" %9.3f %10.3f\n", took[2][0] / (double)n, took[2][0] / took[1][0]);
    else
        printf(" %9s %10s\n", "-", "-");
    fflush(stdout);
}

// pair [NAME ..]: the operations whose names start so, or all
int main(int argc, char **argv) {
    hold_counts();
    printf("%-17s %7s %9s %9s %7s %7s %9s %10s\n", "operation", "size", "older", "newer", "ratio", "tenth", "Rust", "Rust/newer");
    for (size_t n = 1000; n <= MOST; n *= 10)
        for (size_t k = 0; k < sizeof operations / sizeof *operations; k++) {
            int wanted = argc == 1;
            for (int i = 1; i < argc; i++) wanted |= strncmp(operations[k].name, argv[i], strlen(argv[i])) == 0;
            int can = call_of(&older, &operations[k]) && call_of(&newer, &operations[k]);
            if (wanted && can && n <= operations[k].most) row(&operations[k], n);
        }
}
