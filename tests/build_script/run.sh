#!/bin/sh
# run.sh ARCHIVE: the Rust crate's build script, with the proved archive in the folder ARCHIVE. What it says where rt is not there, where there
# is no archive, or one for another machine or of another version; and that it proves a copy: with an rt that only hands the archive over, the build succeeds, what
# rt says comes to standard error, and nothing is written into the source tree.
set -eu
[ $# -eq 1 ] && [ -r "$1/libvekalumist.a" ] || { echo "usage: run.sh ARCHIVE" >&2; exit 2; }
archive=$(cd "$1" && pwd)/libvekalumist.a
root=$(cd "$(dirname "$0")/../.." && pwd)
work=$(mktemp -d)
trap 'rm -rf "$work"' EXIT
tried=0
agreed=0

# a clean copy of what the build reads, and a folder with cargo's tools and no rt
mkdir "$work/repo" "$work/bin" "$work/kit"
cp -R "$root/rust" "$root/crates.txt" "$work/repo"
mkdir "$work/repo/tools" "$work/repo/crates"
cp "$root/tools/archive.sh" "$work/repo/tools"
for crate in wire vekalumist vekalumist_c; do
    mkdir "$work/repo/crates/$crate"
    cp -R "$root/crates/$crate/src" "$work/repo/crates/$crate"
done
rm -rf "$work/repo/rust/target"
for tool in cargo rustc cc gcc ld as sh cat cp mkdir rm sed tee grep tail uname dirname basename pwd; do
    ln -s "$(command -v $tool)" "$work/bin/$tool"
done

# build NAME PATH: builds the library; what is said goes to a file
build() {
    ended=0
    PATH=$2 CARGO_TARGET_DIR=$work/target-$1 cargo build -vv --offline --lib --manifest-path "$work/repo/rust/Cargo.toml" \
        >"$work/$1.log" 2>&1 || ended=$?
}

# agrees LABEL COMMAND..: the command succeeds
agrees() {
    tried=$((tried + 1))
    label=$1
    shift
    if "$@"; then agreed=$((agreed + 1)); else
        echo "$label: differs"
    fi
}

# fails NAME PATH TEXT: the build ends with an error that has TEXT, and without a panic
fails() {
    build "$1" "$2"
    agrees "$1, status" [ "$ended" != 0 ]
    agrees "$1, text" grep -q "^error: .*$3" "$work/$1.log"
    agrees "$1, no panic" sh -c "! grep -q panicked '$work/$1.log'"
}

unset VEKALUMIST_ARCHIVE
# rustup's stand-ins need their own variables; they are inherited
fails no_rt "$work/bin" 'rt, the Rattle kit.s command, is not on the PATH'
export VEKALUMIST_ARCHIVE="$work/nowhere"
fails no_archive "$work/bin" 'VEKALUMIST_ARCHIVE: there is no .*nowhere/libvekalumist.a'

# other BYTE: an archive whose first object is for another machine
mkdir "$work/other" "$work/text" "$work/older" "$work/alone"
cp "$(dirname "$archive")/libvekalumist.version" "$work/other"
python3 - "$archive" "$work/other/libvekalumist.a" <<'CODE'
import sys
data = bytearray(open(sys.argv[1], "rb").read())
at = data.index(b"\x7fELF") + 18
data[at:at + 2] = b"\xb7\0" if data[at] == 0x3E else b"\x3e\0"
open(sys.argv[2], "wb").write(data)
CODE
VEKALUMIST_ARCHIVE=$work/other
fails other_machine "$work/bin" 'libvekalumist.a is for .*, and this build for '
echo 'no archive' >"$work/text/libvekalumist.a"
VEKALUMIST_ARCHIVE=$work/text
fails no_object "$work/bin" 'is for no machine that is known here'
cp "$archive" "$work/older"
cp "$archive" "$work/alone"
echo 200 >"$work/older/libvekalumist.version"
VEKALUMIST_ARCHIVE=$work/older
fails older "$work/bin" 'libvekalumist.version says 200, and this crate is '
VEKALUMIST_ARCHIVE=$work/alone
fails no_version "$work/bin" 'libvekalumist.version is not there, and this crate is '
VEKALUMIST_ARCHIVE=$(dirname "$archive")
build named "$work/bin"
agrees 'a named archive' [ "$ended" = 0 ]

# an rt that says it proves, and hands the archive over; on x86-64 archive.sh takes it as it is
if [ "$(uname -m)" = x86_64 ]; then
    unset VEKALUMIST_ARCHIVE
    cat >"$work/kit/rt" <<RT
#!/bin/sh
case \$1 in
lib)
    printf '%s\n' 'crate wire: modules loaded=0 checked=9' 'logic=proved functions=1'
    mkdir -p out && cp "$archive" out/libvekalumist_c.a && pwd >"$work/proved_in"
    ;;
esac
RT
    chmod +x "$work/kit/rt"
    find "$work/repo" -type f -exec cksum {} + | sort >"$work/before"
    build made "$work/kit:$work/bin"
    find "$work/repo" -type f -exec cksum {} + | sort >"$work/after"
    agrees 'made' [ "$ended" = 0 ]
    agrees 'made, how far it is' grep -q 'rt: wire proved' "$work/made.log"
    agrees 'made, in a copy' grep -q "^$work/target-made/" "$work/proved_in"
    agrees 'made, the source tree as it was' cmp -s "$work/before" "$work/after"
    rm "$work/proved_in"
    export CARGO_BUILD_TARGET=aarch64-unknown-linux-gnu
    fails other_target "$work/kit:$work/bin" 'no archive for aarch64-unknown-linux-gnu can be made on x86_64'
    agrees 'another target, nothing proved' [ ! -e "$work/proved_in" ]
    unset CARGO_BUILD_TARGET
    printf '#!/bin/sh\n[ "$1" = version ] || { echo "rt: wire NOT PROVED"; exit 1; }\n' >"$work/kit/rt"
    fails not_proved "$work/kit:$work/bin" 'the library was not proved and built'
    agrees 'not proved, what rt said' grep -q 'rt: wire NOT PROVED' "$work/not_proved.log"
fi

echo "$agreed of $tried agree"
[ "$agreed" -eq "$tried" ]
