#!/bin/sh
# wrapper.sh PUBLISHED: all that stands around the proved archive, in one command. The declarations in three languages; the Rust crate: layout,
# clippy, tests, documentation with its tests, without the standard library, its build script, README's example; the C header (null with length
# 0 in every slice, nothing read outside one, swapped arguments); the examples on every sample, in C as C11 and as C++17; the program mast on
# samples, made-up files and one of 100 MB, and its man page; the small program and its script on whole files; and the comparison with the
# published Rust, whose files are in the folder PUBLISHED. The archive is proved and built first, or taken from the folder in
# VEKALUMIST_ARCHIVE. One line for each step; status 0 only if all agree. What the steps say themselves is kept in target/wrapper/.
set -eu
published=${1:-${VEKALUMIST_PUBLISHED:-}}
if [ $# -gt 1 ] || [ ! -d "$published" ]; then
    echo "usage: wrapper.sh PUBLISHED, the folder of the published Rust files (or named by VEKALUMIST_PUBLISHED)" >&2
    exit 2
fi
VEKALUMIST_PUBLISHED=$(cd "$published" && pwd)
root=$(cd "$(dirname "$0")/.." && pwd)
cd "$root"
work=$root/target/wrapper
mkdir -p "$work"
CARGO_TARGET_DIR=$root/target/cargo
export VEKALUMIST_PUBLISHED CARGO_TARGET_DIR

# step NAME COMMAND..: runs it, its words in a file; a step that fails shows their end and is the last
step() {
    name=$1
    shift
    "$@" >"$work/$name.log" 2>&1 || {
        tail -n 30 "$work/$name.log"
        echo "$name: failed"
        exit 1
    }
}

if [ -n "${VEKALUMIST_ARCHIVE:-}" ]; then
    VEKALUMIST_ARCHIVE=$(cd "$VEKALUMIST_ARCHIVE" && pwd)
    [ -r "$VEKALUMIST_ARCHIVE/libvekalumist.a" ] || { echo "archive: VEKALUMIST_ARCHIVE has no libvekalumist.a"; exit 1; }
    echo "archive: taken as it is"
else
    VEKALUMIST_ARCHIVE=$work/archive
    step archive sh tools/archive.sh "$root" "$VEKALUMIST_ARCHIVE"
    echo "archive: proved and built"
fi
export VEKALUMIST_ARCHIVE

step signatures python3 tools/signatures.py
echo "signatures: $(tail -n 1 "$work/signatures.log")"

# rust_crate NAME WORD..: cargo on the Rust crate
rust_crate() {
    name=$1 does=$2
    shift 2
    step "$name" cargo "$does" --offline --manifest-path rust/Cargo.toml "$@"
}
step format cargo fmt --check --manifest-path rust/Cargo.toml
rust_crate clippy clippy --all-targets -- -D warnings
rust_crate clippy_no_std clippy --no-default-features -- -D warnings
for features in --no-default-features --all-features; do
    step doc env RUSTDOCFLAGS="-D warnings" cargo doc --offline --no-deps --manifest-path rust/Cargo.toml "$features"
done
rust_crate test_no_std test --no-default-features
rust_crate rust test
passed() { awk "/Doc-tests/ { doc = 1 } /^test result: ok/ && doc == $1 { n += \$4 } END { print n + 0 }" "$work/rust.log"; }
[ "$(passed 0)" -gt 0 ] && [ "$(passed 1)" -gt 0 ] || { echo "rust: no tests"; exit 1; }
echo "rust: formatted, clippy has no warnings, $(passed 0) tests and $(passed 1) of the documentation passed"

step no_std cargo build --release --offline --manifest-path tests/no_std/Cargo.toml
step no_std_link gcc tests/no_std/run.c -Wl,--gc-sections "$CARGO_TARGET_DIR/release/libno_std.a" -o "$work/no_std"
step no_std_run "$work/no_std"
echo "without the standard library: $(cat "$work/no_std_run.log")"
step build_script sh tests/build_script/run.sh "$VEKALUMIST_ARCHIVE"
echo "build script: $(tail -n 1 "$work/build_script.log")"

# README's example
step layout cargo run --offline --manifest-path rust/Cargo.toml --example layout -- samples/advice.mast
cat >"$work/want" <<'WANT'
3 nodes, entries at byte 17
root: node 2, Join 0 1
  child: node 0, External
  child: node 1, Block 0
0x0000000000000000020000000000000000000000000000000000000000000000: 0 values at byte 228
0x0100000000000000000000000000000000000000000000000000000000000000: 3 values at byte 171
key 1,0,0,0: [7, 8, 9]
the map ends at byte 228, and 0 bytes follow
WANT
tail -n 8 "$work/layout.log" | cmp -s - "$work/want" || { echo "rust example: differs"; exit 1; }
# readme LANGUAGE: the code of that language in README
readme() { sed -n "/^\`\`\`$1\$/,/^\`\`\`\$/p" README.md | sed '/^```/d'; }
readme rust >"$work/readme.rs"
tail -n +2 rust/examples/layout.rs | cmp -s - "$work/readme.rs" || { echo "rust example: README has another"; exit 1; }
echo "rust example: agrees, and is README's"

# compiled NAME SOURCE: a C program with the archive, as C11 into NAME_c and as C++17 into NAME_cpp
compiled() {
    strict="-Wall -Wextra -Werror -pedantic -O2 -I include"
    step "$1_c" gcc -std=c11 $strict "$2" "$VEKALUMIST_ARCHIVE/libvekalumist.a" -o "$work/$1_c"
    step "$1_cpp" g++ -std=c++17 $strict -x c++ "$2" -x none "$VEKALUMIST_ARCHIVE/libvekalumist.a" -o "$work/$1_cpp"
}
compiled null tests/header/null.c
for as in c cpp; do
    step "null_${as}_run" "$work/null_$as"
    echo "null with length 0, as $as: $(tail -n 1 "$work/null_${as}_run.log")"
done
compiled edges tests/header/edges.c
for as in c cpp; do
    step "edges_${as}_run" "$work/edges_$as"
    echo "counts, nothing outside a slice, as $as: $(tail -n 1 "$work/edges_${as}_run.log")"
done
step swapped sh tests/header/swapped.sh
echo "swapped arguments: $(tail -n 1 "$work/swapped.log")"
compiled layout examples/layout.c
{ readme c; echo 'int main(void) { return show(NULL, 0) == 1 ? 0 : 1; }'; } >"$work/readme.c"
compiled readme "$work/readme.c"
for as in c cpp; do
    "$work/readme_$as" >"$work/got" || { echo "c of README: status $?"; exit 1; }
    [ "$(cat "$work/got")" = 'refused 1 (SHORT) at 0' ] || { echo "c of README: differs"; exit 1; }
done
echo "c of README: compiles and runs, as C11 and as C++17"

# example FILE STATUS TEXT: on FILE the example prints TEXT and ends so, and says on standard error how many bytes follow the map, where some do
example() {
    printf '%b\n' "$3" >"$work/want"
    after=0
    case $3 in *' end '*) after=$(($(wc -c <"$1") - ${3##* end })) ;; esac
    if [ "$after" -gt 0 ]; then echo "$after bytes follow the map"; fi >"$work/follows"
    for as in c cpp; do
        ended=0
        "$work/layout_$as" "$1" >"$work/got" 2>"$work/complaint" || ended=$?
        [ "$ended" = "$2" ] || { echo "c example: $1: status $ended"; exit 1; }
        cmp -s "$work/want" "$work/got" || { echo "c example: $1: differs"; diff "$work/want" "$work/got" || true; exit 1; }
        cmp -s "$work/follows" "$work/complaint" || { echo "c example: $1: differs on what follows the map"; exit 1; }
    done
}
step samples samples/make.py --check
samples/make.py --list >"$work/list"
tried=0
while read -r name wanted text; do
    example "samples/$name" "$wanted" "$text"
    tried=$((tried + 1))
done <"$work/list"
[ "$tried" -gt 0 ] || { echo "c example: no samples"; exit 1; }
# a file above the small program's 65,536 bytes, with bytes after its map
{ cat samples/advice.mast; head -c 100000 /dev/zero; } >"$work/long.mast"
example "$work/long.mast" 0 "$(sed -n 's/^advice.mast 0 //p' "$work/list")"
echo "c example: $tried samples and a long file agree, as C11 and as C++17"

# two programs written from README alone, on every sample: the status is that of the sample, and what they say of some is known
compiled roots examples/roots.c
step find cargo build --offline --manifest-path examples/rust/Cargo.toml
step find_clippy cargo clippy --offline --manifest-path examples/rust/Cargo.toml -- -D warnings
step find_format cargo fmt --check --manifest-path examples/rust/Cargo.toml
# ends LABEL STATUS COMMAND..: the command ends so; what it says, on both streams, goes to a file
ends() {
    label=$1 expected=$2 ended=0
    shift 2
    "$@" >"$work/got" 2>&1 || ended=$?
    [ "$ended" = "$expected" ] || { echo "$label: status $ended"; cat "$work/got"; exit 1; }
}
# tells LABEL TEXT: the last line of it is TEXT
tells() {
    [ "$(tail -n 1 "$work/got")" = "$2" ] || { echo "$1: differs"; cat "$work/got"; exit 1; }
}
while read -r name wanted _; do
    [ "$name" != root-beyond.mast ] || wanted=1 # both ask for every root
    for as in c cpp; do
        ends "roots of $name" "$wanted" "$work/roots_$as" "samples/$name"
    done
    ends "find in $name" "$wanted" "$CARGO_TARGET_DIR/debug/find" "samples/$name" 1,0,0,0
done <"$work/list"
ends 'roots of digests.mast' 0 "$work/roots_c" samples/digests.mast
grep -qx 'root: node 3, 6766656463626160 6f6e6d6c6b6a6968 7776757473727170 7f7e7d7c7b7a7978' "$work/got" || { echo "roots of digests.mast: differs"; exit 1; }
tells 'roots of digests.mast' 'map: 0 entries, ends at byte 178, 0 bytes follow'
ends 'roots of bad-tag.mast' 1 "$work/roots_c" samples/bad-tag.mast
tells 'roots of bad-tag.mast' 'refused: TAG at 17'
ends 'find in advice.mast' 0 "$CARGO_TARGET_DIR/debug/find" samples/advice.mast 0x0100000000000000000000000000000000000000000000000000000000000000
tells 'find in advice.mast' 9
ends 'find in twice.mast' 1 "$CARGO_TARGET_DIR/debug/find" samples/twice.mast 1,0,0,0
tells 'find in twice.mast' 'find: refused 19 (DUPLICATE) at byte 107: the key was there before'
ends 'find, wrong use' 1 "$CARGO_TARGET_DIR/debug/find" samples/advice.mast
echo "the two programs written from README alone: $tried samples agree"

rust_crate mast build --release --bin mast
mast=$CARGO_TARGET_DIR/release/mast
step man python3 tools/man.py --check "$mast"
echo "man page: made from the help, $(tail -n 1 "$work/man.log")"

step program sh tests/mast_layout/run.sh
echo "small program: $(tail -n 1 "$work/program.log")"
step script sh tests/mast_layout/script.sh
echo "its script: $(tail -n 1 "$work/script.log")"

step mast_run python3 tests/mast/run.py "$mast" "$root/crates/mast_layout/out/mast_layout"
echo "mast: $(grep ' took ' "$work/mast_run.log"); $(tail -n 1 "$work/mast_run.log")"

step beside_rust cargo run --release --offline --manifest-path tests/beside_rust/Cargo.toml
echo "beside the published Rust: $(tail -n 1 "$work/beside_rust.log")"
