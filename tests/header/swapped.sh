#!/bin/sh
# swapped.sh: calls with two arguments swapped, or one of another type in its place, do not compile, as C11 and as C++17; the same calls in
# their right form do, so that it is the swap that is refused.
set -eu
top=$(cd "$(dirname "$0")/../.." && pwd)
work=$(mktemp -d)
trap 'rm -rf "$work"' EXIT

# compiles CALL: as C11 and as C++17; with one word only if both say the same
compiles() {
    cat >"$work/call.c" <<CALL
#include "vekalumist.h"
uint64_t call(const uint8_t *s, size_t n, veka_facts_t facts, veka_bound_t bound, veka_layout_t layout, veka_entry_t entry,
              veka_digest_t digest, veka_key_t key, veka_walked_t walked, veka_map_entry_t map_entry, veka_lookup_t looked, veka_part_t part,
              veka_parts_t parts, veka_marks_t marks, veka_scanned_t scanned, const uint64_t *keys, const uint32_t *table, uint8_t *out,
              uint64_t *size, uint64_t *place);
uint64_t call(const uint8_t *s, size_t n, veka_facts_t facts, veka_bound_t bound, veka_layout_t layout, veka_entry_t entry,
              veka_digest_t digest, veka_key_t key, veka_walked_t walked, veka_map_entry_t map_entry, veka_lookup_t looked, veka_part_t part,
              veka_parts_t parts, veka_marks_t marks, veka_scanned_t scanned, const uint64_t *keys, const uint32_t *table, uint8_t *out,
              uint64_t *size, uint64_t *place) {
    (void)s, (void)n, (void)facts, (void)bound, (void)layout, (void)entry, (void)digest, (void)key, (void)walked, (void)map_entry;
    (void)looked, (void)part, (void)parts, (void)marks, (void)scanned, (void)keys, (void)table, (void)out, (void)size, (void)place;
    return $1;
}
CALL
    c=no cpp=no
    gcc -std=c11 -Wall -Wextra -Werror -pedantic -I "$top/include" -fsyntax-only "$work/call.c" 2>/dev/null && c=yes
    g++ -std=c++17 -Wall -Wextra -Werror -pedantic -I "$top/include" -fsyntax-only -x c++ "$work/call.c" 2>/dev/null && cpp=yes
    [ "$c" = "$cpp" ] && echo "$c" || echo "$c as C11, $cpp as C++17"
}

tried=0 bad=0
# expect ANSWER CALL
expect() {
    tried=$((tried + 1))
    got=$(compiles "$2")
    [ "$got" = "$1" ] || { echo "compiles: $got: $2"; bad=$((bad + 1)); }
}

expect yes 'veka_entry(s, n, &layout, 0, &entry, place)'
expect no 'veka_entry(s, n, &entry, 0, &layout, place)'
expect no 'veka_entry(s, n, &layout, 0, place, &entry)'
expect no 'veka_entry(n, s, &layout, 0, &entry, place)'
expect no 'veka_entry(s, n, 0, &layout, &entry, place)'
expect yes 'veka_digest(s, n, &layout, 0, &digest, place)'
expect no 'veka_digest(s, n, &layout, 0, &key, place)'
expect yes 'veka_lookup(s, n, keys, n, n, &key, &looked, place)'
expect no 'veka_lookup(s, n, keys, n, n, &digest, &looked, place)'
expect no 'veka_lookup(s, n, keys, n, n, &looked, &key, place)'
expect no 'veka_lookup(keys, n, s, n, n, &key, &looked, place)'
expect yes 'veka_values(s, n, keys, n, n, &key, &part, place)'
expect no 'veka_values(s, n, keys, n, n, &key, &looked, place)'
expect yes 'veka_scan(s, n, &facts, true, bound, &scanned, place)'
expect no 'veka_scan(s, n, &facts, bound, true, &scanned, place)'
expect no 'veka_scan(s, n, &marks, true, bound, &scanned, place)'
expect no 'veka_scan(s, n, &scanned, true, bound, &facts, place)'
expect no 'veka_scan(s, n, &facts, true, bound, &layout, place)' # as it was before 0.4.0: a layout has no room for the long counts
expect yes 'veka_entry(s, n, &scanned.layout, 0, &entry, place)'
expect no 'veka_entry(s, n, &scanned, 0, &entry, place)'
expect yes 'veka_digest_with_table(s, n, &layout, 0, table, n, &digest, place)'
expect no 'veka_digest_with_table(s, n, &layout, 0, keys, n, &digest, place)'
expect yes 'veka_walk(s, n, 0, size, 1, &walked, place)'
expect no 'veka_walk(s, n, 0, keys, 1, &walked, place)' # what is written is not const
expect no 'veka_walk(s, n, 0, size, 1, &bound, place)'
expect yes 'veka_map_entry(s, n, keys, n, 0, &map_entry, place)'
expect no 'veka_map_entry(s, n, keys, n, 0, &entry, place)'
expect yes 'veka_write(&facts, &parts, out, n, size, place)'
expect no 'veka_write(&parts, &facts, out, n, size, place)'
expect no 'veka_write(&facts, &parts, s, n, size, place)'
expect yes 'veka_encode_entry(&entry, size, place)'
expect no 'veka_encode_entry(size, &entry, place)'

echo "$tried calls, $bad wrong"
[ "$bad" -eq 0 ]
