#!/usr/bin/env bash
# Each allocation of memory fails in turn: the program reports that and nothing else, or gives the answer that it gives
# with enough memory. The tests in Rattle are run in the same way; the calls of the libraries are in refusals.sh. For a
# command on a ledger some allocations fail, spread over all; with the option --all every one fails.
set -u
cd "$(dirname -- "$0")/.." || exit 1
. tests/lib/common.bash
take_program
# What was tried: runs of a test or of the program in which no allocation failed, and runs in which one did.
runs=0
refusals=0
# For a test with at most this many allocations each one fails; for a test with more, a hundred of them, spread over
# all.
most=1000

# refusing NUMBER COMMAND..: runs the command with this allocation failing (none for 0). That a ledger needs memory to be
# opened may be said on standard error, and is left out.
refusing() {
    local status=0
    rm -f -- "$work/asked" "$work/refused"
    LD_PRELOAD="$work/no_memory.so" REFUSE=$1 ASKED="$work/asked" REFUSED="$work/refused" "${@:2}" 2>"$work/errors" ||
        status=$?
    grep -avxE 'bag: .*: it has [0-9]+ octets, and opening it takes as much memory and a little more' "$work/errors" >&2
    return "$status"
}

# count_asked: sets `asked` to the number of allocations of the last command. Fails if the counting library reported
# none.
count_asked() {
    runs=$((runs + 1))
    asked=0
    read -r asked <"$work/asked" && [[ $asked =~ ^[0-9]+$ ]]
} 2>"$work/no count"

# count_refusal NAME NUMBER: this allocation of the last command failed.
count_refusal() {
    if [ -e "$work/refused" ]; then
        refusals=$((refusals + 1))
    else
        echo "$1: allocation $2 of $asked was never asked for"
    fi
}

# each_growth WORD..: runs the program with these words once with no failing allocation, and then once for each
# allocation, which fails. What is on standard error belongs to the answer: there it is said what is wrong with words
# that are no command.
each_growth() {
    local answer status=0 printed number
    answer=$(refusing 0 "$program" "$@" 2>&1) || status=$?
    answer="$status $answer"
    count_asked || echo "no allocations were counted"
    [ "$asked" -gt 10 ] || echo "only $asked allocations were counted"
    for number in $(seq "$asked"); do
        status=0
        printed=$(refusing "$number" "$program" "$@" 2>&1) || status=$?
        count_refusal "$*" "$number"
        case "$status $printed" in
        "$answer" | '3 bag: memory') ;;
        *) echo "allocation $number of $asked: status $status: $printed" ;;
        esac
    done
    refusing 1 "$program" "$@"
}

# each_growth_of_make SRC ALG..: the same for a new bag, into which something was written, or which is not there.
each_growth_of_make() {
    local answer printed number status=0
    answer=$(refusing 0 "$program" make "$1" "$work/made" "${@:2}") || status=$?
    [ "$status" -eq 0 ] || echo "status $status: $answer"
    count_asked || echo "no allocations were counted"
    [ "$asked" -gt 10 ] || echo "only $asked allocations were counted"
    for number in $(seq "$asked"); do
        rm -rf -- "$work/made"
        status=0
        printed=$(refusing "$number" "$program" make "$1" "$work/made" "${@:2}") || status=$?
        count_refusal "$1" "$number"
        case "$status $printed" in
        "0 $answer") [ -d "$work/made/data" ] || echo "allocation $number of $asked: nothing is made" ;;
        '3 bag: memory')
            [ ! -e "$work/made" ] || [ -n "$(ls "$work/made")" ] \
                || echo "allocation $number of $asked: an empty folder is left"
            ;;
        *) echo "allocation $number of $asked: status $status: $printed" ;;
        esac
    done
    rm -rf -- "$work/made"
    refusing 1 "$program" make "$1" "$work/made" "${@:2}"
}

# each_growth_of_fetch LEDGER PATH FOLDER: fetches the file with this path, once with no failing allocation, and then
# with each that comes after the ledger was opened. It is taken, or not for want of memory, which is not told as a
# failure of the folder.
each_growth_of_fetch() {
    local printed number first status=0
    cp "$1" "$work/fetching"
    refusing 0 "$program" fetch "$work/fetching" t1 "$work/no folder" >"$work/told" 2>&1 || status=$?
    count_asked && first=$asked || echo "no allocations were counted"
    status=0
    printed=$(refusing 0 "$program" fetch "$work/fetching" t1 "$3") || status=$?
    [ "$status $printed" = "0 taken $2" ] || echo "status $status: $printed"
    count_asked || echo "no allocations were counted"
    [ "$asked" -gt "$((first + 10))" ] || echo "only $((asked - first)) allocations were counted"
    for number in $(seq "$((first - 30))" "$asked"); do
        cp "$1" "$work/fetching"
        status=0
        printed=$(refusing "$number" "$program" fetch "$work/fetching" t1 "$3") || status=$?
        count_refusal "$2" "$number"
        case "$status $printed" in
        "0 taken $2" | "3 refused $2: memory" | '3 bag: memory') ;;
        *) echo "allocation $number of $asked: status $status: $printed" ;;
        esac
        rm -f "$work/fetching-wal"
    done
}

# each_growth_of_failed START TOLD WORD..: runs a command that fails on a folder, as the user nobody and after this
# start of a shell, once for each allocation, which fails. Where the answer is that files can't be used, that is told of
# this one, even if no memory is left by then.
each_growth_of_failed() {
    local asked number printed status words
    asked=0
    chmod 711 "$work"
    rm -rf "$work/open"
    mkdir -m 777 "$work/open"
    cp "$program" "$work/open/program"
    install -m 666 /dev/null "$work/open/asked"
    install -m 666 /dev/null "$work/open/refused"
    for ((number = 0; number <= asked; number++)); do
        status=0
        words=(LD_PRELOAD="$work/no_memory.so" REFUSE="$number" ASKED="$work/open/asked" REFUSED="$work/open/refused")
        rm -rf "$work/open/made"
        printed=$(nobody sh -c "$1"'; exec env "$@"' sh "${words[@]}" "$work/open/program" "${@:3}" 2>"$work/told") \
            || status=$?
        [ "$number" -gt 0 ] || read -r asked <"$work/open/asked"
        case "$status $printed: $(<"$work/told")" in
        '3 bag: memory: ') ;;
        "3 bag: files: bag: $2") [ "$number" -gt 0 ] || echo told ;;
        *) echo "allocation $number of $asked: status $status: $printed: $(<"$work/told")" ;;
        esac
    done
    [ "$asked" -gt 10 ] || echo "only $asked allocations were counted"
}

# files_of NUMBER: makes a bag with this many payload files, and a fetch.txt that lists them.
files_of() {
    mkdir -p "$work/of $1/data"
    cp examples/first-bag/bagit.txt "$work/of $1"
    (cd "$work/of $1" && seq -w "$1" | (cd data && split -l 1 -a 4 -) && md5sum data/* >manifest-md5.txt \
        && sed 's|^[^ ]*  |http://example.org/ - |' manifest-md5.txt >fetch.txt)
}

# asked_by COMMAND NUMBER: how often this command asks for memory with the bag of this many files.
asked_by() {
    local bag="$work/of $2" ledger="$work/of $2.ledger" name=t1
    [ "$1" != fetch ] || name=t2
    case $1 in
    check) set -- "$1" "$bag" ;;
    make) set -- "$1" "$bag" "$bag.made" md5 ;;
    begin | intake | fetch) set -- "$1" "$ledger" "$name" "$bag" ;;
    export) set -- "$1" "$ledger" "$name" "$bag.exported" ;;
    report | audit) set -- "$1" "$ledger" "$name" ;;
    esac
    refusing 0 "$program" "$@" >"$work/printed_by_asked" || echo "$*: status $?"
    count_asked || echo "no allocations were counted"
}

# asks_in_line COMMAND: for more files it asks for memory more often, by about as much for each file as before.
asks_in_line() {
    local least less
    asked_by "$1" 100 && least=$asked
    asked_by "$1" 200 && less=$asked
    asked_by "$1" 400
    [ "$((least < less && 2 * (asked - less) < 5 * (less - least)))" -eq 1 ] || echo "$least, $less, $asked"
}

# list_tests CRATE PROGRAM: keeps the names of the crate's tests. Their number agrees with the list and with the
# sources.
list_tests() {
    local written
    written=$(find "crates/$1/src" -name '*.rt' -exec cat {} + | grep -c '^ *#\[test\]$')
    [ "$written" -gt 0 ] || echo "no test in the sources"
    "$2" --list >"$work/list" || echo "the list of tests ends with status $?"
    sed -n 's/: test$//p' "$work/list" >"$work/names"
    diff <(sed 's/$/: test/' "$work/names" && echo "tests: $written") "$work/list"
}

# memory SIDE: this side of a comparison, left or right, reports that memory ran out.
memory() {
    grep -qE "^ *$1: .*(\b(Memory|AllocError|AllocFailed)\b|bag: memory)" "$work/told"
}

# failed_write SIDE: this side of a comparison has the status 3 and no line, as after a failed write.
failed_write() {
    grep -qE "^ *$1: \(3, Some\(\"\"\)\)" "$work/told"
}

# tells STATUS: a test that ended with this status failed only because memory ran out, as its error or its comparison
# shows.
tells() {
    case $1 in
    101) grep -qxE 'error: ([A-Za-z]+\()*(Memory|OutOfMemory|AllocError|AllocFailed)\b.*' "$work/told" ;;
    134) { memory left && ! memory right; } || { failed_write left && ! failed_write right; } ;;
    *) false ;;
    esac
}

# in_each_test CRATE PROGRAM PATTERN: runs each test of the crate whose name doesn't match, once with no failing
# allocation, and then with each allocation failing. It passes, or fails because memory ran out.
in_each_test() {
    local name number status step
    list_tests "$1" "$2"
    sed -i -E "/$3/d" "$work/names"
    while IFS= read -r name; do
        apart refusing 0 "$2" "$name" &>"$work/told" || { echo "$name fails" && cat "$work/told"; }
        count_asked || echo "$name: no allocations were counted"
        step=$((asked > most ? asked / 100 : 1))
        for number in $(seq 1 "$step" "$asked"); do
            status=0
            apart refusing "$number" "$2" "$name" &>"$work/told" || status=$?
            count_refusal "$name" "$number"
            [ "$status" -eq 0 ] || tells "$status" \
                || { echo "$name: allocation $number of $asked: status $status" && cat "$work/told"; }
        done
    done <"$work/names"
}

# apart COMMAND..: runs the command in an empty folder.
apart() {
    rm -rf -- "$work/apart" && mkdir "$work/apart" && (cd "$work/apart" && "$@")
}

# more_refusals COMMAND..: runs the command, and checks that allocations failed in it.
more_refusals() {
    local before=$refusals
    "$@"
    [ "$refusals" -gt "$before" ] || echo "no allocation failed"
}

if cc -shared -fPIC -O1 -o "$work/no_memory.so" tests/lib/no_memory.c 2>"$work/no cc"; then
    bags='whole-format first-bag two-manifests several-faults oxum-wrong oxum-repeated unknown-algorithm listed-twice
        faulty-lines no-declaration no-manifest manifest-not-listed fetch-not-listed fetch-length'
    for bag in $bags; do
        expect "no memory for a check of $bag" 3 'bag: memory' each_growth check "examples/$bag"
    done
    # A path that is longer than most names, for which there must be room all the same.
    cp -r examples/first-bag "$work/long path"
    long_path=data/$(printf 'folder/%.0s' {1..200})file
    mkdir -p "$work/long path/${long_path%/*}"
    printf abc >"$work/long path/$long_path"
    (cd "$work/long path" && sha256sum "$long_path") >>"$work/long path/manifest-sha256.txt"
    expect 'no memory for a check of a long path' 3 'bag: memory' each_growth check "$work/long path"
    cp -r "$work/long path" "$work/long hole"
    echo "http://example.org/ - $long_path" >"$work/long hole/fetch.txt"
    rm -r "$work/long hole/data"
    expect 'a long hole: begin' 0 new "$program" begin "$work/long ledger" t1 "$work/long hole"
    expect 'no memory for a fetch of a long path' 0 '' \
        more_refusals each_growth_of_fetch "$work/long ledger" "$long_path" "$work/long path"
    cp -r examples/first-bag "$work/locked"
    chmod -R a+rX "$work/locked" "$work/no_memory.so"
    chmod 000 "$work/locked/data/a.txt"
    denied='Permission denied (os error 13)'
    expect 'no memory for a file that may not be read' 0 told \
        each_growth_of_failed : "$work/locked/data/a.txt: $denied" check "$work/locked"
    chmod 000 "$work/locked/manifest-sha256.txt"
    expect 'no memory for a tag file that may not be read' 0 told \
        each_growth_of_failed : "$work/locked/manifest-sha256.txt: $denied" check "$work/locked"
    # A folder that can be made, and in which nothing can; and files that take a part.
    mkdir -p "$work/ten"
    touch "$work/ten"/{0..9}
    expect 'no memory for a folder that is not made' 0 told \
        each_growth_of_failed 'umask 777' "$work/open/made/data: $denied" make "$work/ten" "$work/open/made" md5
    expect 'no memory for a tag file that takes a part' 0 told \
        each_growth_of_failed 'trap "" XFSZ; ulimit -f 1' \
        "$work/open/made/manifest-sha512.txt: File too large (os error 27)" \
        make "$work/ten" "$work/open/made" sha512
    head -c 20000 /dev/zero >"$work/ten/9"
    expect 'no memory for a file that takes a part' 0 told \
        each_growth_of_failed 'trap "" XFSZ; ulimit -f 1' "$work/open/made/data/9: File too large (os error 27)" \
        make "$work/ten" "$work/open/made" md5
    expect 'no memory for a new bag' 3 'bag: memory' each_growth_of_make "$work/long path" sha256 md5
    for words in check help 'help make' --version 'list one more' 'make a' 'intake --no'; do
        # shellcheck disable=SC2086
        expect "no memory for the words $words" 3 'bag: memory' each_growth $words
    done
    # An audit reads the pieces of what is held once more, which takes memory for each, and a report does not.
    mkdir -p "$work/pieces/data"
    cp examples/first-bag/bagit.txt "$work/pieces"
    seq 400000 | head -c 1310720 >"$work/pieces/data/a" # 20 pieces
    (cd "$work/pieces" && sha256sum data/a) >"$work/pieces/manifest-sha256.txt"
    expect 'pieces: begin' 0 new "$program" begin "$work/ledger" t1 "$work/pieces"
    expect 'pieces: intake' 0 'taken data/a' "$program" intake "$work/ledger" t1 "$work/pieces"
    # audit_asks_more: an audit asks for memory more often than a report, at least once for each piece.
    audit_asks_more() {
        local report
        refusing 0 "$program" report "$work/ledger" t1
        count_asked && report=$asked
        refusing 0 "$program" audit "$work/ledger" t1
        count_asked && [ $((asked - report)) -ge 20 ]
    }
    expect 'an audit reads what is held again, and a report does not' 0 $'valid\nvalid' audit_asks_more
    # asks_once_for_a_piece: an audit asks for memory as often for a piece of 65,536 octets as for a file of one line,
    # or nearly.
    asks_once_for_a_piece() {
        local name more=() number
        for name in t1 t2; do
            refusing 0 "$program" report "$work/ledger" "$name" >"$work/printed_by_asked"
            count_asked && number=$asked
            refusing 0 "$program" audit "$work/ledger" "$name" >"$work/printed_by_asked"
            count_asked && more+=($((asked - number)))
        done
        [ $((more[0])) -le $((2 * 20 * more[1])) ] || echo "${more[*]}"
    }
    expect 'a file of one line: begin' 0 new "$program" begin "$work/ledger" t2 examples/first-bag
    expect 'a file of one line: intake' 0 $'taken data/a.txt\ntaken data/e.txt' \
        "$program" intake "$work/ledger" t2 examples/first-bag
    expect 'a piece of a file is asked for once' 0 '' asks_once_for_a_piece
    # What was read, and what is held, is not gone through once more for each file.
    for number in 1 8 64 100 200 400; do files_of "$number"; done
    for command in check make begin intake report audit export; do
        expect "allocations for more files: $command" 0 '' asks_in_line "$command"
    done
    for number in 100 200 400; do
        expect "allocations for $number files: another transfer" 0 new \
            "$program" begin "$work/of $number.ledger" t2 "$work/of $number"
    done
    expect 'allocations for more files: fetch' 0 '' asks_in_line fetch
    # Of short files some are gathered until their digests are taken, and each once.
    for number in 1 8 64; do
        expect "a transfer of $number files" 0 new "$program" begin "$work/of $number.ledger" t1 "$work/of $number"
        "$program" intake "$work/of $number.ledger" t1 "$work/of $number" >"$work/printed_by_asked"
    done
    # gathers_once: for each of 56 files more, memory is asked for about as often as for each of seven.
    gathers_once() {
        local least less
        asked_by report 1 && least=$asked
        asked_by report 8 && less=$asked
        asked_by report 64
        [ $((7 * (asked - less))) -le $((2 * 56 * (less - least))) ] || echo "$least, $less, $asked"
    }
    expect 'allocations for short files that are gathered: report' 0 '' gathers_once
    allocations=60
    [ "${1-}" != --all ] || allocations=0
    expect 'no memory for the commands' 0 '' \
        env TMPDIR="$work" sh -c 'python3 -B tests/lib/failing_commands.py "$@" >"$0"' \
        "$work/tried" "$program" "$allocations" allocations "$work/no_memory.so"
    cat "$work/tried"
    # Left out are tests that say whether an answer was right, and not what it was.
    left_out='^(ledgers|sinks)::'
    tests=$PWD/crates/bag_tests/out/bag_tests_tests
    if [ -x "$tests" ]; then
        expect 'no memory for the tests in Rattle' 0 '' more_refusals in_each_test bag_tests "$tests" "$left_out"
    else
        lacking 'failing allocations in the tests in Rattle (./test builds their program)'
    fi
    echo "$runs runs with enough memory, $refusals with one failing allocation"
    expect 'allocations failed' 0 '' [ "$refusals" -gt 500 ]
else
    lacking 'failing allocations (no C compiler is installed)'
fi
finish
