// The side of the published Rust's shims: counts alone, by the library of published/. Without PUBLISHED it can do nothing.
#include "pair.h"

#ifdef PUBLISHED

uint64_t published_read_count(const uint8_t *s, size_t len, size_t at, uint64_t *value, uint64_t *next);

static void count(void) {
    static uint64_t value, next;
    for (size_t i = 0; i < counts_held; i++) must(published_read_count(counts, counts_len, places[i], &value, &next));
}

// It says no length, no place and nothing of the shortest form.
static struct counted count_at(const uint8_t *s, size_t len, size_t at) {
    struct counted answer = {0, MARK, MARK, MARK, MARK, MARK};
    answer.refusal = published_read_count(s, len, at, &answer.value, &answer.next);
    return answer;
}

const struct side rust = {.count = count, .count_at = count_at};

#else

const struct side rust = {0};

#endif
