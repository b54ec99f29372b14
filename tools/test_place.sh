#!/usr/bin/env bash
# Tests of ./place: every sample tape and text of words gives its lines, and each way to call it does what --help says.
set -uo pipefail
cd "$(dirname "$0")/.." || exit 2
folder=$(mktemp -d) || exit 2
trap 'rm -rf "$folder"' EXIT
wrong=0

# same WHAT STATUS EXPECTED COMMAND ..: the command ends in time with this status, and prints the file EXPECTED
same() {
    local what=$1 status=$2 expected=$3
    shift 3
    timeout 60 "$@" >"$folder/out" 2>"$folder/err"
    set -- $?
    if [ "$1" -ne "$status" ] || ! cmp -s "$folder/out" "$expected"; then
        echo "test_place: $what: status $1, and this was printed:"
        cat "$folder/out" "$folder/err"
        wrong=1
    fi
}

# said WORDS: so the last command's message reads
said() {
    grep -qF -- "$1" "$folder/err" || { echo "test_place: no '$1' in: $(cat "$folder/err")"; wrong=1; }
}

for tape in examples/*.tape; do
    same "$tape" 0 "${tape%.tape}.lines" ./place "$tape"
done
for words in examples/*.words; do
    same "$words" 0 "$words.lines" ./place "${words%.words}.tape" "$words"
done
first=examples/first.lines
same "standard input" 0 $first bash -c './place <examples/first.tape'
same "-" 0 $first bash -c './place - <examples/first.tape'
same "a file, standard input closed" 0 $first bash -c './place examples/first.tape <&-'
same "standard input closed" 1 /dev/null bash -c './place <&-'
said "standard input is closed"
ln -s "$PWD/place" "$folder/link"
same "a link to it" 0 $first "$folder/link" examples/first.tape
python3 tools/tape.py show examples/first.tape $first >"$folder/shown"
same "--show" 0 "$folder/shown" ./place --show examples/first.txt
same "--show of standard input" 0 "$folder/shown" bash -c './place --show <examples/first.txt'
same "--show of a bad line" 1 /dev/null bash -c 'echo no record | ./place --show'
said "-:1: 'no' is not a record"
page=examples/service words=examples/service.words
same "a tape by standard input" 0 $words.lines bash -c "./place - $words <$page.tape"
same "words by standard input" 0 $words.lines bash -c "./place $page.tape - <$words"
same "a tape and words, standard input closed" 0 $words.lines bash -c "./place $page.tape $words <&-"
same "words by standard input, closed" 1 /dev/null bash -c "./place $page.tape - <&-"
said "standard input is closed"
same "both by standard input" 1 /dev/null bash -c "./place - - <$words"
said "one file, not two"

# alone LINE TAPE WORDS: this one line stands alone
alone() {
    echo "$1" >"$folder/line"
    same "$1 alone" 0 "$folder/line" ./place "$2" "$3"
}

head -c 65537 /dev/zero >"$folder/long"
head -c 100 $words >"$folder/cut"
# 65,535 words, all of width 0, with a line height of 0; and a byte more
{ printf '\377\377' && head -c 262160 /dev/zero; } >"$folder/longest"
{ cat "$folder/longest" && printf '\0'; } >"$folder/longer"
alone "R 9" $page.tape "$folder/longest"
alone "T 0" $page.tape "$folder/longer"
alone "T 0" $page.tape "$folder/cut"
alone "T 0" $page.tape /dev/null
alone "T 44" examples/first.tape "$folder/cut"
alone "L" "$folder/long" "$folder/cut"

python3 tools/tape.py show $page.tape $page.lines >"$folder/shown"
{ echo && python3 tools/tape.py words show $words $words.lines; } >>"$folder/shown"
same "--show of two texts" 0 "$folder/shown" ./place --show $page.txt $words.txt
same "--show of a page by standard input" 0 "$folder/shown" bash -c "./place --show - $words.txt <$page.txt"
same "--show of words by standard input" 0 "$folder/shown" bash -c "./place --show $page.txt - <$words.txt"
same "--show of a bad line of words" 1 /dev/null bash -c "echo left 10x30 | ./place --show $page.txt -"
said "-:1: 'left' does not belong here"
./place --help >"$folder/help"
same "-h" 0 "$folder/help" ./place -h
for named in --show WORDS; do
    grep -q -- $named "$folder/help" || { echo "test_place: --help does not name $named"; wrong=1; }
done
same "an unknown option" 1 /dev/null ./place --shown examples/first.txt
said "is no option"
same "an option behind a file" 1 /dev/null ./place examples/first.txt --show
said "is no option"
same "three files" 1 /dev/null ./place $page.tape $words $words
said "two files at most"
same "no such file" 1 /dev/null ./place "$folder/none"
said "$folder/none"
same "no such tape" 1 /dev/null ./place "$folder/none" $words
said "$folder/none"
same "no such words" 1 /dev/null ./place $page.tape "$folder/none"
said "$folder/none"
same "words that can't be read" 1 /dev/null ./place $page.tape "$folder"
said "$folder: "
[ "$wrong" -eq 0 ] && echo "place: as expected"
exit "$wrong"
