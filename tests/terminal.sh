#!/usr/bin/env bash
# What is printed on a terminal: what it would obey is escaped, octet by octet. In a pipe or a file each octet stays.
set -u
cd "$(dirname -- "$0")/.." || exit 1
. tests/lib/common.bash

# on_terminal COMMAND..: the command with a terminal of its own as standard output, which puts a CR before each LF.
on_terminal() {
    local status=0
    SHELL=$(command -v bash) script -qec "$(printf '%q ' timeout 300 "$@") 2>$(printf %q "$work/beside")" /dev/null \
        >"$work/typescript" || status=$?
    cat "$work/beside" >&2
    sed 's/\r$//' "$work/typescript"
    return "$status"
}

take_program
if ! command -v script >"$work/tool"; then
    lacking 'what is printed on a terminal (script is not installed)'
    finish
    exit
fi

# A name that would show `valid` in place of its line, and hide what follows; and a next line (U+0085), a separator of
# lines (U+2028) and a mark that turns the direction of text (U+202E).
hidden=$'z\e[1G\e[2Kvalid\e[8m'
cp -r examples/first-bag "$work/odd"
for name in "$hidden" $'\302\205valid' $'\342\200\250valid' $'\342\200\256valid' $'tab\there' '100%'; do
    printf 1 >"$work/odd/data/$name"
done
piped=$'manifest-sha256.txt: unlisted: data/100%25
manifest-sha256.txt: unlisted: data/tab\there
manifest-sha256.txt: unlisted: data/z\e[1G\e[2Kvalid\e[8m
manifest-sha256.txt: unlisted: data/\302\205valid
manifest-sha256.txt: unlisted: data/\342\200\250valid
manifest-sha256.txt: unlisted: data/\342\200\256valid
not complete'
shown='manifest-sha256.txt: unlisted: data/100%25
manifest-sha256.txt: unlisted: data/tab%09here
manifest-sha256.txt: unlisted: data/z%1B[1G%1B[2Kvalid%1B[8m
manifest-sha256.txt: unlisted: data/%C2%85valid
manifest-sha256.txt: unlisted: data/%E2%80%A8valid
manifest-sha256.txt: unlisted: data/%E2%80%AEvalid
not complete'
expect 'names in a file' 1 "$piped" bag check "$work/odd"
expect 'names in a pipe' 0 "$piped" sh -c './bag check "$1" | cat' sh "$work/odd"
expect 'names on a terminal' 1 "$shown" on_terminal ./bag check "$work/odd"
expect 'a valid bag on a terminal' 0 valid on_terminal ./bag check examples/first-bag
# Characters of two to four octets at the end of each buffer, and each that would be obeyed.
python3 -B tests/lib/shown.py "$work/each" >"$work/each.shown" || exit
expect 'each character on a terminal' 1 "$(cat "$work/each.shown")" on_terminal ./bag check "$work/each"

expect 'a word on a terminal' 64 'unknown algorithm a%1B[8m%0A%E2%80%8Fb' \
    on_terminal ./bag make examples/first-bag "$work/new" $'a\e[8m\n\342\200\217b'
expect 'help on a terminal' 0 "$(./bag make --help)" on_terminal ./bag make --help
expect 'nothing on a terminal' 64 'bag: check, make, begin, intake, report, audit, fetch, export, list' \
    on_terminal ./bag
expect 'begin on a terminal' 0 new on_terminal ./bag begin "$work/ledger" t1 examples/first-bag
expect 'intake on a terminal' 1 'refused data/100%25: not listed
taken data/a.txt
taken data/e.txt
refused data/tab%09here: not listed
refused data/z%1B[1G%1B[2Kvalid%1B[8m: not listed
refused data/%C2%85valid: not listed
refused data/%E2%80%A8valid: not listed
refused data/%E2%80%AEvalid: not listed' on_terminal ./bag intake "$work/ledger" t1 "$work/odd"
explain 'a name on standard error' 3 "bag: $work/%E2%80%AE%1B%0A%25: No such file or directory (os error 2)" \
    bag check "$work/"$'\342\200\256\e\n%'
finish
