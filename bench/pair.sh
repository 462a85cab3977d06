#!/bin/sh
# pair.sh OLDER NEWER [NAME ..]: two archives in one process, in turn: ns for one node, entry or count and the ratio of the newer to the older, for
# three sizes; with names only the operations that start so. OLDER and NEWER are folders as tools/archive.sh makes them, with libvekalumist.a or, of
# a build before version 0.2.0, libcapi.a. It needs gcc and objcopy. Where VEKALUMIST_PUBLISHED names the folder of the published files, as for
# run.sh, counts are read by its shims' reader too, for which it needs cargo: the crate's own is not among those files.
set -eu
[ $# -ge 2 ] || { echo "usage: pair.sh OLDER NEWER [NAME ..]" >&2; exit 2; }
here=$(cd "$(dirname "$0")" && pwd)
older=$(cd "$1" && pwd)
newer=$(cd "$2" && pwd)
shift 2
top=$(cd "$here/.." && pwd)
published=
if [ -n "${VEKALUMIST_PUBLISHED:-}" ]; then
    VEKALUMIST_PUBLISHED=$(cd "$VEKALUMIST_PUBLISHED" && pwd)
    CARGO_TARGET_DIR=${CARGO_TARGET_DIR:-$top/target/cargo}
    export VEKALUMIST_PUBLISHED CARGO_TARGET_DIR
    cargo build --manifest-path "$here/published/Cargo.toml" --release --offline --quiet
    published=$(cd "$CARGO_TARGET_DIR" && pwd)/release/libpublished_side.a
fi
work=$(mktemp -d)
trap 'rm -rf "$work"' EXIT
cd "$work"

# side NAME FOLDER: its operations and its archive in one object, in which no name but its own can be seen. All code begins at multiples of
# 256 bytes: the same code at two places that are not alike took times that differed by a twentieth. The shims' library lies as it comes: it
# took a tenth more when it was laid so.
side() {
    lib=$2/libvekalumist.a vk=
    [ -f "$lib" ] || lib=$2/libcapi.a vk=-DVK
    gcc -O2 -Wall -Wextra $vk -DSIDE="$1" -I "$top/include" -c "$here/side.c" -o side.o
    ld -r side.o "$lib" -o "$1.o"
    objcopy --keep-global-symbol="$1" --set-section-alignment '.text*=256' "$1.o"
}
side older "$older"
side newer "$newer"
gcc -O2 -Wall -Wextra ${published:+-DPUBLISHED} -I "$here" "$here/pair.c" "$here/rust.c" older.o newer.o ${published:+"$published"} \
    -lm -ldl -lpthread -o pair
./pair "$@"
