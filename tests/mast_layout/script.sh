#!/bin/sh
# Runs the script mast-layout on every sample and in each of its uses, and compares its status, all of standard output and all of standard error.
# What it says of the samples is read from samples/make.py. `rt` must be on the path; what is not proved yet is proved first.
# It ends 'N of M agree', with status 0 where all do.
set -eu
root=$(cd "$(dirname "$0")/../.." && pwd)
cd "$root"
(cd crates/mast_layout && rt run </dev/null) >/dev/null 2>&1 || { echo 'mast_layout is not proved'; exit 1; }
work=$(mktemp -d)
trap 'rm -rf "$work"' EXIT
WORK=$work
export WORK
agreed=0
tried=0
newline='
'

# counts LABEL COMMAND..: one more case, which agrees if COMMAND succeeds
counts() {
    tried=$((tried + 1))
    label=$1
    shift
    if "$@"; then
        agreed=$((agreed + 1))
    else
        echo "$label: differs"
        echo "status $status"
        cat "$work/got" "$work/err"
    fi
}

# ended STATUS ERROR TEXT: what ran last ended with STATUS, wrote TEXT to standard output, and ERROR to standard error
ended() {
    printf '%s' "$2" >"$work/error"
    printf '%s' "$3" >"$work/text"
    [ "$status" = "$1" ] && cmp -s "$work/error" "$work/err" && cmp -s "$work/text" "$work/got"
}

# runs COMMAND..: runs it on the standard input that it is given
runs() {
    status=0
    "$@" >"$work/got" 2>"$work/err" || status=$?
}

# says LABEL STATUS ERROR TEXT [WORD..]: so the script ends, given the words; it is named and found as the two variables say
says() {
    label=$1 wanted=$2 error=$3 text=$4
    shift 4
    runs env PATH="$path" "$script" "$@"
    counts "$label" ended "$wanted" "$error" "$text"
}
path=$PATH
script=$root/mast-layout

# every sample, by name, and two of them on standard input; where FILE is named, another file is on standard input
samples/make.py --list >"$work/list"
other=samples/bad-tag.mast
while read -r name wanted text; do
    text=$(printf '%b' "$text")$newline
    says "$name" "$wanted" '' "$text" "samples/$name" <"$other"
    case $name in
    p10.mast) page=$text ;;
    twice.mast) twice=$text ;;
    esac
done <"$work/list"
says 'no word' 0 '' "$page" <samples/p10.mast
says 'no word, refused' 1 '' "$twice" <samples/twice.mast
says '-' 0 '' "$page" - <samples/p10.mast
says '- after --' 0 '' "$page" -- - <samples/p10.mast
says '-- alone' 0 '' "$page" -- <samples/p10.mast
mkfifo "$work/pipe"
cat samples/p10.mast >"$work/pipe" &
says 'through a pipe' 0 '' "$page" <"$work/pipe"

# the words, in each number
usage='usage: mast-layout [FILE] [MAGIC VERSION HASHLESS RESERVED MAXIMUM]'
facts='4D415354 000002 02 FC 3'
says 'two words' 2 "$usage$newline" '' samples/p10.mast 4D415354 <"$other"
says 'three words' 2 "$usage$newline" '' samples/p10.mast 4D415354 000002 <"$other"
says 'four words' 2 "$usage$newline" '' 4D415354 000002 02 FC <samples/p10.mast
says 'five words' 0 '' "$page" $facts <samples/p10.mast
says 'five words, a maximum of 2 nodes' 1 '' "refused 7 at 8$newline" 4D415354 000002 02 FC 2 <samples/p10.mast
says 'six words' 0 '' "$page" samples/p10.mast $facts <"$other"
says 'six words, another magic' 1 '' "refused 2 at 0$newline" samples/p10.mast 4D415355 000002 02 FC 3 <"$other"
says 'six words, the first -' 0 '' "$page" - $facts <samples/p10.mast
says 'six words after --' 0 '' "$page" -- samples/p10.mast $facts <"$other"
says 'seven words' 2 "$usage$newline" '' samples/p10.mast $facts 3 <"$other"
says 'a wrong magic' 2 "mast_layout: the magic is not 8 hexadecimal digits$newline" '' samples/p10.mast MAST 000002 02 FC 3 <"$other"
says 'a wrong maximum' 2 "mast_layout: the node maximum is not a decimal number below 2^64$newline" '' 4D415354 000002 02 FC x <samples/p10.mast
says 'a word that is empty' 2 "mast_layout: the version is not 6 hexadecimal digits$newline" '' 4D415354 '' 02 FC 3 <samples/p10.mast
says 'an unknown option' 2 "mast-layout: there is no option --hel$newline$usage$newline" '' --hel <samples/p10.mast
says 'an unknown option before FILE' 2 "mast-layout: there is no option -x$newline$usage$newline" '' -x samples/p10.mast <"$other"

# files that cannot be read
says 'a missing file' 2 "mast-layout: cannot read samples/none\\n.mast$newline" '' 'samples/none\n.mast' <samples/p10.mast
says 'a missing file, with facts' 2 "mast-layout: cannot read none$newline" '' none $facts <samples/p10.mast
says 'an empty name' 2 "mast-layout: cannot read $newline" '' '' <samples/p10.mast
says 'a directory' 2 "mast-layout: cannot read samples$newline" '' samples <samples/p10.mast
says 'a directory on standard input' 2 "mast_layout: standard input: Is a directory$newline" '' <samples
says 'standard input closed' 2 "mast-layout: cannot read -$newline" '' <&-
says 'standard input closed, with facts' 2 "mast-layout: cannot read -$newline" '' $facts <&-
says 'FILE, and standard input closed' 0 '' "$page" samples/p10.mast <&-

# sizes: the most that is read, and one byte more
{ cat samples/p10.mast; head -c 65462 /dev/zero; } >"$work/most"
{ cat "$work/most"; echo; } >"$work/more"
says '65,536 bytes' 0 '' "$page" "$work/most" <"$other"
says '65,537 bytes' 1 '' "refused 20 at 65536$newline" "$work/more" <"$other"

# from another folder: FILE is named from there, whatever its name, and the script is found through links and by PATH
mkdir "$work/away" "$work/links"
cd "$work/away"
other=$root/$other
cp "$root/samples/p10.mast" 'a b'
cp "$root/samples/p10.mast" ./-x
says 'from another folder' 0 '' "$page" 'a b' <"$other"
says './-x' 0 '' "$page" ./-x <"$other"
says '-x after --' 0 '' "$page" -- -x <"$other"
says '-x' 2 "mast-layout: there is no option -x$newline$usage$newline" '' -x <"$other"
ln -s "$root/mast-layout" "$work/links/absolute"
ln -s absolute "$work/links/relative"
ln -s ../links/relative "$work/links/third"
script=$work/links/absolute
says 'a link' 0 '' "$page" 'a b' <"$other"
script=$work/links/relative
says 'a relative link to a link' 0 '' "$page" 'a b' <"$other"
script=../links/third
says 'a link to a link to a link' 0 '' "$page" 'a b' <"$other"
script=third path=$work/links:$PATH
says 'a link, by PATH' 0 '' "$page" 'a b' <"$other"
script=mast-layout path=$root:$PATH
says 'by PATH' 0 '' "$page" 'a b' <"$other"
cd "$root"
script=./mast-layout path=$PATH
runs sh mast-layout samples/p10.mast <"$other"
counts 'as a word of sh' ended 0 '' "$page"

# a full disk: what is not printed is neither a page nor a refusal
status=0
./mast-layout samples/p10.mast >/dev/full 2>/dev/null || status=$?
counts 'an output that cannot be written' [ "$status" = 2 ]

# a PATH with the script's few tools and no rt; help needs none, and nothing built
mkdir "$work/tools"
for tool in cat dirname readlink; do ln -s "$(command -v "$tool")" "$work/tools/$tool"; done
path=$work/tools
says 'no rt' 2 "mast-layout: rt, of the Rattle kit, is not on the PATH$newline" '' samples/p10.mast <"$other"
runs env PATH="$path" ./mast-layout --help <"$other"
help=$(cat "$work/got")
counts 'help' ended 0 '' "$help$newline"
for part in "$usage$newline" "FILE '-', or no FILE, is standard input" '8, 6, 2 and 2 hexadecimal' 'MAST (4D415354) 000002 02 FC 1073741823' \
    "65,536 bytes is 'refused 20 at 65536'" "program 'mast'" 'Status 0:' ' 1: the file was refused' ' 2: wrong use'; do
    case $help in *"$part"*) true ;; *) false ;; esac && found=0 || found=1
    counts "help names: $part" [ "$found" = 0 ]
done
says '-h' 0 '' "$help$newline" -h <"$other"
says 'help with more words' 0 '' "$help$newline" --help a b c <"$other"

# another rt in its place: what it says as it proves, all on standard error. It reads its input, which must not be the script's, and keeps what has
# been shown so far once it has written more than what lies between holds: by then the line before has been read
mkdir "$work/rt"
cat >"$work/rt/rt" <<'EOF'
#!/bin/sh
[ "$1" = run ] || exit 1
cat >"$WORK/read"
echo 'refused 1 at 0'
exec >&2
echo 'rt: wire: begins with what a check kept'
echo 'fn page::program::program: proved'
echo 'crate page: modules loaded=0 checked=92'
echo 'logic=proved functions=11'
head -c $((68 * $(getconf PAGESIZE))) /dev/zero | tr '\0' .
cp "$WORK/err" "$WORK/so_far"
echo
echo 'crate mast_layout: modules loaded=170 checked=12'
[ ! -e "$WORK/fails" ] || { echo 'logic=not-proved'; exit 1; }
echo 'logic=proved functions=8'
echo 'rt: running out/mast_layout; to give it other input, run that file yourself'
EOF
chmod +x "$work/rt/rt"
path=$work/rt:$PATH
first="rt: page proved$newline"
says 'what is proved is shown' 0 "${first}rt: mast_layout proved$newline" "$page" <samples/p10.mast
counts 'what is proved is shown as it comes' [ "$(cat "$work/so_far")$newline" = "$first" ]
counts 'rt has no input' [ ! -s "$work/read" ]
: >"$work/fails"
failed="${first}rt: mast_layout NOT PROVED$newline"
failed="${failed}mast-layout: its program is not proved and built; crates/mast_layout/out/log has what was said$newline"
says 'a proof that fails' 2 "$failed" '' samples/p10.mast <"$other"
rm "$work/fails"
program=crates/mast_layout/out/mast_layout
mv "$program" "$work/program"
runs env PATH="$path" ./mast-layout samples/p10.mast <"$other"
mv "$work/program" "$program"
counts 'a program that cannot be run' [ "$status" = 2 ]

echo "$agreed of $tried agree"
[ "$agreed" -eq "$tried" ]
