#!/bin/sh
# Runs the small program on whole files and compares what it writes with the paper's pages, byte for byte: all of standard output, and all of
# standard error. `rt` must be on the path. RUN may name what runs the program.
# It ends 'N of M agree', with status 0 where all do.
set -eu
root=$(cd "$(dirname "$0")/../.." && pwd)
cd "$root"
program=$root/crates/mast_layout/out/mast_layout
# proved, built, and run once on nothing
(cd crates/mast_layout && rt run </dev/null) >/dev/null 2>&1 || { echo 'mast_layout is not proved'; exit 1; }
work=$(mktemp -d)
trap 'rm -rf "$work"' EXIT
agreed=0
tried=0

# put FILE HEX..: the bytes of hexadecimal words
put() {
    name=$1
    shift
    : >"$work/$name"
    for byte in $(printf '%s' "$*" | tr -d ' ' | sed 's/../& /g'); do
        printf "\\$(printf '%03o' "0x$byte")" >>"$work/$name"
    done
}

# zeros FILE COUNT: so many zero bytes after what FILE has
zeros() {
    head -c "$2" /dev/zero >>"$work/$1"
}

# agrees LABEL ERROR TEXT: the program wrote TEXT to standard output, and ERROR to standard error
agrees() {
    tried=$((tried + 1))
    printf '%s' "$2" >"$work/error"
    printf '%s' "$3" >"$work/text"
    if cmp -s "$work/text" "$work/got" && cmp -s "$work/error" "$work/err"; then
        agreed=$((agreed + 1))
    else
        echo "$1: differs"
        cat "$work/got" "$work/err"
    fi
}

# program WORD..: the program on its standard input
program() {
    ${RUN:-} "$program" "$@" >"$work/got" 2>"$work/err"
}

# says LABEL FILE ERROR TEXT [WORD..]: so it does on FILE
says() {
    label=$1 file=$2 error=$3 text=$4
    shift 4
    program "$@" <"$work/$file"
    agrees "$label" "$error" "$text"
}

# piped LABEL FILE TEXT: so it does where FILE comes through a pipe: whole, byte by byte, and in pieces with pauses
piped() {
    cat "$work/$2" | program
    agrees "$1, through a pipe" '' "$3"
    dd if="$work/$2" bs=1 2>/dev/null | program
    agrees "$1, byte by byte" '' "$3"
    { head -c 5 "$work/$2"; sleep 0.03; tail -c +6 "$work/$2" | head -c 40; sleep 0.03; tail -c +46 "$work/$2"; } | program
    agrees "$1, in pieces" '' "$3"
}

header='4D415354 02 000002'
counts='05 03 03 02000000 03 AB'
entries='0000000000000080 0000000000000030 0100000000000000'
digest='0000000000000000000000000000000000000000000000000000000000000000'
newline='
'
page='nodes 3 internal 2 external 1
roots 1 at 11
blocks 1 at 16
entries at 17
external digests at 41
node hashes none
advice at 73 end 74
'
hashed='nodes 3 internal 2 external 1
roots 1 at 11
blocks 1 at 16
entries at 17
external digests at 41
node hashes at 73
advice at 137 end 138
'
empty='nodes 0 internal 0 external 0
roots 0 at 11
blocks 0 at 12
entries at 12
external digests at 12
node hashes at 12
advice at 12 end 13
'

usage="mast_layout: give no words, or five: MAGIC VERSION HASHLESS RESERVED MAXIMUM$newline"
magic="mast_layout: the magic is not 8 hexadecimal digits$newline"
version="mast_layout: the version is not 6 hexadecimal digits$newline"
hashless="mast_layout: the hashless mask is not 2 hexadecimal digits$newline"
reserved="mast_layout: the reserved mask is not 2 hexadecimal digits$newline"
maximum="mast_layout: the node maximum is not a decimal number below 2^64$newline"

put p10 "$header $counts $entries $digest 01"
says 'P10' p10 '' "$page"
put with "4D415354 00 000002 $counts $entries $digest $digest $digest 01"
says 'P10 with hashes' with '' "$hashed"
put empty '4D415354 00 000002 01 01 01 01 01'
says 'no node: hashes at the map' empty '' "$empty"

put three '585858'
says 'three bytes of wrong magic' three '' "refused 1 at 0$newline"
put four '58585858'
says 'wrong magic' four '' "refused 2 at 0$newline"
put version '4D415354 FF 000003'
says 'version before flags' version '' "refused 3 at 5$newline"
put flags '4D415354 FF 000002'
says 'reserved flags' flags '' "refused 4 at 4$newline"
put tag "$header $counts 0000000000000090 0000000000000030 0100000000000000 $digest 01"
says 'tag 9' tag '' "refused 9 at 17$newline"
put nomap "$header $counts $entries $digest"
says 'no map' nomap '' "refused 1 at 73$newline"
put cutkey "$header $counts $entries $digest 03 00"
says 'a key cut off' cutkey '' "refused 1 at 74$newline"
put twice "$header $counts $entries $digest 05 $digest 01 $digest 01"
says 'a key twice' twice '' "refused 19 at 107$newline"

# 1,900 keys that rise, each with no values: 33 bytes an entry, after the count B2 1D
put keys "$header $counts $entries $digest B21D"
printf "$(awk 'BEGIN { for (i = 0; i < 1900; i++) { printf "\\%03o\\%03o", i % 256, int(i / 256); for (j = 0; j < 30; j++) printf "\\000"; printf "\\001" } }')" >>"$work/keys"
many=$(printf '%s' "$page" | sed 's/end 74/end 62775/')$newline
says '1,900 keys' keys '' "$many"
cp "$work/keys" "$work/again"
head -c 107 "$work/keys" | tail -c 32 >>"$work/again"
printf '\001' >>"$work/again"
printf '\266' | dd of="$work/again" bs=1 seek=73 conv=notrunc 2>/dev/null
says '1,901 keys, the last as the first' again '' "refused 19 at 62775$newline"

cp "$work/p10" "$work/most"
zeros most 65462
says '65,536 bytes' most '' "$page"
cp "$work/most" "$work/more"
zeros more 1
says '65,537 bytes' more '' "refused 20 at 65536$newline"
cp "$work/more" "$work/far"
zeros far 100000
says '165,537 bytes' far '' "refused 20 at 65536$newline"
: >"$work/nothing"
says 'nothing' nothing '' "refused 1 at 0$newline"
says 'a directory, which cannot be read' . "mast_layout: standard input: Is a directory$newline" ''

piped 'P10' p10 "$page"
piped '1,900 keys' keys "$many"
piped '65,537 bytes' more "refused 20 at 65536$newline"

# the five words
says 'the stand-in facts as words' p10 '' "$page" 4D415354 000002 02 FC 1073741823
says 'digits of the other case' p10 '' "$page" 4d415354 000002 02 fc 1073741823
says 'another magic' p10 '' "refused 2 at 0$newline" 4D415355 000002 02 FC 1073741823
says 'another version' p10 '' "refused 3 at 5$newline" 4D415354 000102 02 FC 1073741823
says 'another hashless mask' p10 '' "refused 1 at 16$newline" 4D415354 000002 01 FC 1073741823
says 'a reserved mask with the hashless bit' p10 '' "refused 21 at 0$newline" 4D415354 000002 02 FE 1073741823
says 'a maximum of 3 nodes' p10 '' "$page" 4D415354 000002 02 FC 3
says 'a maximum of 2 nodes' p10 '' "refused 7 at 8$newline" 4D415354 000002 02 FC 2
says 'a mask of two bits' p10 '' "refused 21 at 0$newline" 4D415354 000002 03 FC 2
says 'the masks in the other order' p10 '' "refused 21 at 0$newline" 4D415354 000002 FC 02 1073741823

# other facts, with a file for them: each word changed alone gives the answer of its own place, and no two of the words can change places
# (the magic, the version, a file that should have hashes, a bit that is reserved, one node too many)
put other "4D415355 44 030201 $counts $entries $digest 01"
says 'other facts' other '' "$page" 4D415355 030201 40 03 3
says 'other facts, another magic' other '' "refused 2 at 0$newline" 4D415354 030201 40 03 3
says 'other facts, another version' other '' "refused 3 at 5$newline" 4D415355 030202 40 03 3
says 'other facts, another hashless mask' other '' "refused 1 at 16$newline" 4D415355 030201 80 03 3
says 'other facts, another reserved mask' other '' "refused 4 at 4$newline" 4D415355 030201 40 07 3
says 'other facts, another maximum' other '' "refused 7 at 8$newline" 4D415355 030201 40 03 2

# wrong words
long=$(printf '%05000d' 2)
sixty=$(printf '%064d' 1073741823)
says 'one word' p10 "$usage" '' 4D415354
says 'one empty word' p10 "$usage" '' ''
says 'four words' p10 "$usage" '' 4D415354 000002 02 FC
says 'six words' p10 "$usage" '' 4D415354 000002 02 FC 2 2
says 'six words, the last empty' p10 "$usage" '' 4D415354 000002 02 FC 1073741823 ''
says 'six words, the last of 5,000 bytes' p10 "$usage" '' 4D415354 000002 02 FC 1073741823 "$long"
says 'six words of 64 bytes' p10 "$usage" '' "$sixty" "$sixty" "$sixty" "$sixty" "$sixty" "$sixty"
says 'three words, the second of 5,000 bytes' p10 "$usage" '' 4D415354 "$long" 02
says '2,000 words' p10 "$usage" '' $(awk 'BEGIN { while (i++ < 2000) print 2 }')
says 'a magic of 7 digits' p10 "$magic" '' 4D41535 000002 02 FC 2
says 'a magic of 9 digits' p10 "$magic" '' 4D4153540 000002 02 FC 2
says 'a version that is no number' p10 "$version" '' 4D415354 00000g 02 FC 2
says 'a version of 5,000 bytes' p10 "$version" '' 4D415354 "$long" 02 FC 2
says 'an empty mask' p10 "$hashless" '' 4D415354 000002 '' FC 2
says 'a mask of three digits' p10 "$reserved" '' 4D415354 000002 02 FCF 2
says 'no maximum' p10 "$maximum" '' 4D415354 000002 02 FC ''
says 'a maximum of 2^64' p10 "$maximum" '' 4D415354 000002 02 FC 18446744073709551616
says 'a maximum with a sign' p10 "$maximum" '' 4D415354 000002 02 FC -1
says 'a maximum of 64 digits' p10 '' "$page" 4D415354 000002 02 FC "$sixty"
says 'a maximum of 65 digits' p10 "$maximum" '' 4D415354 000002 02 FC "0$sixty"
says 'five empty words' p10 "$magic" '' '' '' '' '' ''

# wrong words leave the input unread
{ program 4D415354; cat >"$work/got"; } <"$work/three"
agrees 'wrong words, and the input after them' "$usage" XXX

echo "$agreed of $tried agree"
[ "$agreed" -eq "$tried" ]
