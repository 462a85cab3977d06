#!/bin/sh
# x86.sh: instructions per node, entry or count of the archive. valgrind counts those between the call of an exported function and its return:
# the driver's own code is not counted, but for the plain read. An operation is run once and twice, and the difference is one run; that of
# two sizes, divided by the nodes between them, is free of what a call costs by itself.
# VEKALUMIST_ARCHIVE names the folder of the archive; else tools/archive.sh makes it.
set -eu
here=$(cd "$(dirname "$0")" && pwd)
work=$here/../target/bench
mkdir -p "$work"
archive=${VEKALUMIST_ARCHIVE:-}
if [ -z "$archive" ]; then
    archive=$work/archive
    sh "$here/../tools/archive.sh" "$here/.." "$archive"
fi
lib=$archive/libvekalumist.a
tools=$(dirname "$(rt doc)")/toolchain/bin
command -v valgrind >/dev/null || { echo "x86.sh: no valgrind" >&2; exit 1; }

"$tools/clang" --target=x86_64-unknown-linux-gnu --no-default-config -march=x86-64 -O2 -ffreestanding -fno-builtin \
    -fno-stack-protector -fno-pie -c "$here/x86.c" -o "$work/x86.o"
"$tools/ld.lld" -static --gc-sections -Ttext=0x400000 --section-start=driver=0x800000 -o "$work/x86" "$work/x86.o" "$lib"

# count OPERATION SIZE TIMES: the instructions of a whole run
count() {
    valgrind --tool=callgrind --callgrind-out-file=/dev/null --collect-atstart=no --toggle-collect='veka_*' --toggle-collect=plain \
        "$work/x86" "$@" 2>"$work/x86.log" || return 1
    sed -n 's/.*Collected : //p' "$work/x86.log"
}

# once OPERATION SIZE: the instructions of one run of the operation
once() {
    two=$(count "$1" "$2" 2) && one=$(count "$1" "$2" 1) && echo $((two - one))
}

low=512 high=1024
printf '%-14s %10s %12s %12s\n' operation "per node" "at $low" "at $high"
for operation in plain scan slots entry digest walk-rising walk-padded walk-falling walk-shuffled lookup write write-map write-shuffled \
    count-1 count-2 count-3 count-4 count-5 count-6 count-7 count-8 count-9 long-2 long-3 long-5 long-8 long-9; do
    if a=$(once $operation $low) && b=$(once $operation $high); then
        awk -v name=$operation -v a="$a" -v b="$b" -v low=$low -v high=$high \
            'BEGIN { printf "%-14s %10.2f %12d %12d\n", name, (b - a) / (high - low), a, b }'
    else
        printf '%-14s %10s\n' $operation "not there"
    fi
done
rm -f "$work/x86.log"
