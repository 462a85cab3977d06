#!/bin/sh
# archive.sh REPO OUT: proves the crate vekalumist_c of REPO and what it stands on, builds its archive as rt does, and leaves it as
# OUT/libvekalumist.a, with its version, as veka_version gives it, in OUT/libvekalumist.version. The kit runs on x86-64, and builds for it alone.
set -eu
[ $# -eq 2 ] || { echo "usage: archive.sh REPO OUT" >&2; exit 2; }
repo=$(cd "$1" && pwd)
mkdir -p "$2"
out=$(cd "$2" && pwd)
machine=$(uname -m)
[ "$machine" = x86_64 ] || { echo "archive.sh: no archive for $machine" >&2; exit 1; }
command -v rt >/dev/null || { echo "archive.sh: rt, the Rattle kit's command, is not on the PATH" >&2; exit 1; }

# a line for each crate of which rt says that it is proved, as it comes
shown() {
    crate=
    while IFS= read -r line; do
        case $line in
        'crate '*) crate=${line#crate } ;;
        'logic=proved '*) echo "rt: ${crate%%:*} proved" >&2 ;;
        esac
    done
}

# rt's own words are kept in a file
cd "$repo/crates/vekalumist_c"
ended=$({ { rt lib 2>&1 3>&- && echo 0 >&3 || echo 1 >&3; } | tee "$out/build.log" | shown; } 3>&1)
[ "$ended" = 0 ] || { tail "$out/build.log" >&2; exit 1; }
cp out/libvekalumist_c.a "$out/libvekalumist.a"
sed -n 's/^const VERSION: u64 = \([0-9]*\);$/\1/p' ../vekalumist/src/lib.rt >"$out/libvekalumist.version"
