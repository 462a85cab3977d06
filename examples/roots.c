/* roots FILE: prints each root of a compiled program file with its node and its digest,
   then how many entries the advice map has, where it ends, and how many bytes follow.
   Status 1 if the file is refused, 2 for wrong use or a file that cannot be read. */
#include <inttypes.h>
#include <stdio.h>
#include <stdlib.h>
#include "vekalumist.h"

/* Reads to the end of the file, whatever its size, into *bytes, which the caller frees. */
static bool read_all(FILE *in, uint8_t **bytes, size_t *len) {
    size_t room = 0, got = 0;
    do {
        *len += got;
        if (*len == room) {
            room = room == 0 ? 65536 : 2 * room;
            uint8_t *more = (uint8_t *)realloc(*bytes, room);
            if (more == NULL) return false;
            *bytes = more;
        }
        got = fread(*bytes + *len, 1, room - *len, in);
    } while (got > 0);
    return !ferror(in);
}

static int refused(uint64_t number, uint64_t place) {
    fprintf(stderr, "refused: %s at %" PRIu64 "\n", veka_refusal_name(number), place);
    return 1;
}

static int print_roots(const uint8_t *file, size_t len) {
    veka_facts_t facts = {{'M', 'A', 'S', 'T'}, {0, 0, 2}, 0x02, 0xFC, (1 << 30) - 1};
    veka_scanned_t scanned;
    const veka_layout_t *layout = &scanned.layout;
    uint64_t place, number = veka_scan(file, len, &facts, true, veka_no_bound(), &scanned, &place);
    if (number != VEKA_OK) return refused(number, place);
    for (uint64_t i = 0; i < layout->roots_count; i++) {
        uint32_t node;
        veka_digest_t d;
        number = veka_root(file, len, layout, i, &node, &place);
        if (number != VEKA_OK) return refused(number, place);
        printf("root: node %" PRIu32 ", ", node);
        number = veka_digest(file, len, layout, node, &d, &place);
        if (number != VEKA_OK) printf("no digest: %s\n", veka_refusal_name(number));
        else printf("%016" PRIx64 " %016" PRIx64 " %016" PRIx64 " %016" PRIx64 "\n", d.n[0], d.n[1], d.n[2], d.n[3]);
    }
    veka_walked_t map;
    uint64_t places = veka_places(file, len, layout->advice_map_offset);
    uint64_t *keys = (uint64_t *)calloc(places, sizeof *keys);
    if (keys == NULL && places > 0) {
        perror("key places");
        return 2;
    }
    number = veka_walk(file, len, layout->advice_map_offset, keys, places, &map, &place);
    free(keys);
    if (number != VEKA_OK) return refused(number, place);
    printf("map: %" PRIu64 " entries, ends at byte %" PRIu64 ", %" PRIu64 " bytes follow\n", map.entries, map.end, map.trailing);
    return 0;
}

int main(int argc, char **argv) {
    uint8_t *file = NULL;
    size_t len = 0;
    int status = 2;
    FILE *in = argc == 2 ? fopen(argv[1], "rb") : NULL;
    if (argc != 2) fprintf(stderr, "usage: roots FILE\n");
    else if (in == NULL || !read_all(in, &file, &len)) perror(argv[1]);
    else status = print_roots(file, len);
    if (in != NULL) fclose(in);
    free(file);
    return status;
}
