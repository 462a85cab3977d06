/* layout FILE: prints where the sections of a compiled program file lie, or why it is refused.
 * cc -std=c11 -I include examples/layout.c OUT/libvekalumist.a -o layout */
#include <inttypes.h>
#include <stdio.h>
#include <stdlib.h>
#include "vekalumist.h"

/* the facts that samples/ is written under; a store names its own */
static const veka_facts_t facts = {{'M', 'A', 'S', 'T'}, {0, 0, 2}, 2, 0xFC, (1 << 30) - 1};

/* All bytes of a file, or null if it cannot be read. */
static uint8_t *read_all(const char *path, size_t *len) {
    uint8_t *bytes = NULL;
    size_t held = 0, room = 0, got = 1;
    FILE *in = fopen(path, "rb");
    if (!in)
        return NULL;
    while (got > 0) {
        if (held == room) {
            uint8_t *more = (uint8_t *)realloc(bytes, room = 2 * room + 4096);
            if (!more)
                break;
            bytes = more;
        }
        got = fread(bytes + held, 1, room - held, in);
        held += got;
    }
    if (got > 0 || ferror(in)) {
        free(bytes);
        bytes = NULL;
    }
    fclose(in);
    *len = held;
    return bytes;
}

static void show(const veka_layout_t *at, const veka_walked_t *map) {
    printf("nodes %" PRIu64 " internal %" PRIu64 " external %" PRIu64 "\n", at->node_count, at->internal_node_count,
           at->external_node_count);
    printf("roots %" PRIu64 " at %" PRIu64 "\n", at->roots_count, at->roots_offset);
    printf("blocks %" PRIu64 " at %" PRIu64 "\n", at->basic_block_len, at->basic_block_offset);
    printf("entries at %" PRIu64 "\n", at->node_entry_offset);
    printf("external digests at %" PRIu64 "\n", at->external_digest_offset);
    if (at->has_node_hashes)
        printf("node hashes at %" PRIu64 "\n", at->node_hash_offset);
    else
        printf("node hashes none\n");
    printf("advice at %" PRIu64 " end %" PRIu64 "\n", at->advice_map_offset, map->end);
    if (map->trailing)
        fprintf(stderr, "%" PRIu64 " bytes follow the map\n", map->trailing);
}

int main(int argc, char **argv) {
    veka_scanned_t scanned;
    const veka_layout_t *layout = &scanned.layout;
    veka_walked_t map;
    uint64_t number, place, places, *keys = NULL;
    size_t len = 0;
    uint8_t *file = argc == 2 ? read_all(argv[1], &len) : NULL;
    if (!file) {
        fprintf(stderr, "usage: layout FILE, where FILE can be read\n");
        return 2;
    }
    number = veka_scan(file, len, &facts, true, veka_no_bound(), &scanned, &place);
    if (number == VEKA_OK) {
        places = veka_places(file, len, layout->advice_map_offset);
        keys = (uint64_t *)calloc(places, sizeof *keys);
        if (places && !keys) {
            fprintf(stderr, "layout: no memory for %" PRIu64 " keys\n", places);
            return 2;
        }
        number = veka_walk(file, len, layout->advice_map_offset, keys, places, &map, &place);
    }
    if (number == VEKA_OK)
        show(layout, &map);
    else
        printf("refused %" PRIu64 " at %" PRIu64 "\n", number, place);
    free(keys);
    free(file);
    return number == VEKA_OK ? 0 : 1;
}
