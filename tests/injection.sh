#!/usr/bin/env bash
# Faults of the machine while the program runs: files that change, system calls that fail, little memory, and outputs
# that accept only part. Each run ends with its status and one clear line, or with a verdict that the rules allow. For a
# command on a ledger some system calls fail, spread over all with the same name; with the option --all every one fails.
set -u
cd "$(dirname -- "$0")/.." || exit 1
. tests/lib/common.bash

take_program

# big NAME: makes a bag with a sparse payload file that takes many seconds to read but no room on the disk, followed by
# data/z. Between them are as many files as are opened side by side, so that data/z is opened when the large one was
# read.
big() {
    local between
    cp -r examples/first-bag "$work/$1"
    truncate -s 64G "$work/$1/data/b.bin" && touch "$work/$1/data/z" || return
    printf '%064d  data/b.bin\n%064d  data/z\n' 0 0 >>"$work/$1/manifest-sha256.txt"
    for between in {10..41}; do
        touch "$work/$1/data/m$between"
        printf '%s  data/m%s\n' e3b0c44298fc1c149afbf4c8996fb92427ae41e4649b934ca495991b7852b855 "$between" \
            >>"$work/$1/manifest-sha256.txt"
    done
}

# while_reading FOLDER COMMAND: starts a check, and stops it as soon as data/b.bin is open. Truncates that file, runs
# the command, which changes the folder, and then lets the check go on.
while_reading() {
    local pid status=0
    ./bag check "$1" &
    pid=$!
    for _ in {1..3000}; do
        [ -z "$(find "/proc/$pid/fd" -lname "$1/data/b.bin" 2>"$work/gone")" ] || break
        sleep 0.01
    done
    [ -n "$(find "/proc/$pid/fd" -lname "$1/data/b.bin" 2>"$work/gone")" ] || echo 'data/b.bin was never open'
    kill -STOP "$pid"
    (cd "$1" && truncate -s 0 data/b.bin && eval "$2")
    kill -CONT "$pid"
    timeout 60 tail -s 0.05 --pid="$pid" -f /dev/null || kill "$pid"
    wait "$pid" || status=$?
    return "$status"
}

if big shrinks; then
    cut_off='manifest-sha256.txt: digest: data/b.bin
manifest-sha256.txt: digest: data/z
complete, not valid'
    expect 'a file that shrinks' 1 "$cut_off" while_reading "$work/shrinks" true
    big grows
    expect 'a file that comes after the folder was looked at' 1 "$cut_off" while_reading "$work/grows" 'touch data/y'
    big vanishes
    expect 'a file that vanishes' 3 'bag: files' while_reading "$work/vanishes" 'rm data/z'
    big becomes-directory
    expect 'a file that becomes a directory' 3 'bag: files' \
        while_reading "$work/becomes-directory" 'rm data/z && mkdir data/z'
    big moves
    expect 'a file whose directory moves away' 3 'bag: files' while_reading "$work/moves" 'mv data k'
    big again
    expect 'a manifest that changes when it was read' 1 "$cut_off" \
        while_reading "$work/again" 'echo x >manifest-sha256.txt'
else
    lacking 'files that change (no sparse files)'
fi

# A bag with many faults, whose lines exceed what a pipe can hold.
cp -r examples/first-bag "$work/many"
(cd "$work/many/data" && seq -f "%0150.0f" 5000 | xargs touch)
many_faults() {
    sed -n '1,/^not complete$/p' <(seq -f 'manifest-sha256.txt: unlisted: data/%0150.0f' 5000; echo 'not complete')
}
expect 'many lines' 1 "$(many_faults)" ./bag check "$work/many"
expect 'many lines on a full output' 3 '' full ./bag check "$work/many"

# closed_pipe COMMAND..: the output is a pipe whose reader has ended.
mkfifo "$work/pipe"
closed_pipe() {
    local status=0
    exec 7<>"$work/pipe"
    exec 8>"$work/pipe"
    exec 7<&-
    "$@" >&8 || status=$?
    exec 8>&-
    return "$status"
}
expect 'a pipe that nobody reads' 3 '' closed_pipe ./bag check examples/first-bag
expect 'a pipe that nobody reads, and no words' 3 '' closed_pipe ./bag
expect 'many lines on a pipe that nobody reads' 3 '' closed_pipe ./bag check "$work/many"

# head_of COMMAND..: the reader ends after the first line. The status is the command's.
head_of() {
    "$@" | head -n 1
    return "${PIPESTATUS[0]}"
}
expect 'a reader that goes after a line' 3 "$(many_faults | head -n 1)" head_of ./bag check "$work/many"

# small_file COMMAND..: the output is a file that accepts only part of it.
small_file() (
    trap '' XFSZ
    ulimit -f 64
    "$@" >"$work/small"
)
expect 'a file that takes a part' 3 '' small_file ./bag check "$work/many"

# short_of_memory FOLDER LINES STATUS: with more or less memory, the check prints these lines or `bag: memory`. The
# first limit is the least with which the program starts. Both answers must occur.
short_of_memory() {
    local limit status printed answers=''
    for limit in $(seq 2000 500 20000) $(seq 22000 2000 64000); do
        [ "$(ulimit -v "$limit" && "$program" 2>"$work/no start")" = \
            'bag: check, make, begin, intake, report, audit, fetch, export, list' ] || continue
        status=0
        printed=$(ulimit -v "$limit" && exec "$program" check "$1") || status=$?
        case "$status $printed" in
        "$3 $2") answers+=v ;;
        '3 bag: memory') answers+=m ;;
        *) echo "with $limit KiB: status $status: $printed" ;;
        esac
    done
    [[ $answers == *m*v* ]]
}
expect 'little memory, and many lines' 0 '' short_of_memory "$work/many" "$(many_faults)" 1
cp -r examples/first-bag "$work/large"
(yes 'Contact-Name: Ada' | head -n 200000; echo 'Payload-Oxum: 3.2') >"$work/large/bag-info.txt"
expect 'little memory, and a large tag file' 0 '' short_of_memory "$work/large" valid 0

# lines_or_none LINES COMMAND..: the command prints all of these lines or nothing.
lines_or_none() {
    local printed status=0
    printed=$("${@:2}") || status=$?
    [ -z "$printed" ] || [ "$printed" = "$1" ] || echo "$printed"
    return "$status"
}

# calls NAME COMMAND..: how many times the command makes this system call.
calls() {
    strace -o "$work/calls" -e "trace=$1" "${@:2}" >"$work/printed_by_calls"
    grep -c "^$1(" "$work/calls"
}

# The number of system calls that failed.
injected=0

# injects FAULT COMMAND..: runs the command under strace, which makes a system call fail, and checks that one did.
injects() {
    local status=0
    strace -o "$work/calls" -e "$@" || status=$?
    grep -qF '(INJECTED)' "$work/calls" || echo 'no call failed'
    return "$status"
}

# each_call NAME FAULT STATUS LINES [CAUSE]: checks a bag with all kinds of tag files, once for each of these calls,
# which then fails with this fault. Standard error names the folder or something in it, with this cause. The calls that
# the program makes before it looks at its arguments belong to its start.
each_call() {
    local nth status printed said start all
    start=$(calls "$1" "$program")
    all=$(calls "$1" "$program" check examples/whole-format)
    [ "$all" -gt "$start" ] || echo "no such call: $1"
    for nth in $(seq $((start + 1)) "$all"); do
        status=0
        printed=$(injects "inject=$1:$2:when=$nth" "$program" check examples/whole-format 2>"$work/told") || status=$?
        injected=$((injected + 1))
        said=$(sed 's|^bag: examples/whole-format[^:]*: ||' "$work/told")
        [ "$status $printed $said" = "$3 $4 ${5-}" ] || echo "call $nth: status $status: $printed: $said"
    done
}

if strace -o "$work/calls" true 2>"$work/no strace"; then
    expect 'no directory or file that can be opened' 0 '' \
        each_call openat error=EACCES 3 'bag: files' 'Permission denied (os error 13)'
    expect 'no handle left' 0 '' each_call openat error=EMFILE 3 'bag: files' 'Too many open files (os error 24)'
    expect 'directories and files that vanish' 0 '' \
        each_call openat error=ENOENT 3 'bag: files' 'No such file or directory (os error 2)'
    expect 'directories that break off' 0 '' \
        each_call getdents64 error=EIO 3 'bag: files' 'Input/output error (os error 5)'
    expect 'names without a file' 0 '' \
        each_call statx error=ENOENT 3 'bag: files' 'No such file or directory (os error 2)'
    expect 'files that break off' 0 '' each_call read error=EIO 3 'bag: files' 'Input/output error (os error 5)'
    expect 'reads that are interrupted' 0 '' \
        each_call read error=EINTR 3 'bag: files' 'Interrupted system call (os error 4)'
    expect 'files whose closing fails: they were read' 0 '' each_call close error=EIO 0 valid
    # What is printed is gathered, and written when there is much of it, or at the end.
    expect 'one write for a short output' 0 1 calls write "$program" check examples/several-faults
    # The folder of a file is made once: a hundred files in one folder need as many calls for folders as one.
    mkdir -p "$work/one/k" "$work/hundred/k"
    touch "$work/one/k/1" "$work/hundred/k/"{1..100}
    expect 'a folder of many files is made once' 0 \
        "$(calls mkdir "$program" make "$work/one" "$work/made of one" md5)" \
        calls mkdir "$program" make "$work/hundred" "$work/made of a hundred" md5
    # fails_once FILE NUMBER ARGUMENT..: this read of the file fails, and another try of it would not. A read that
    # failed is never made again.
    fails_once() {
        injects "inject=read:error=EIO:when=$2" -P "$1" "$program" "${@:3}"
    }
    mkdir "$work/once"
    cp examples/first-bag/*.txt "$work/once"
    echo 'http://example.org/a - data/a.txt' >"$work/once/fetch.txt"
    file=$PWD/examples/first-bag/data/a.txt
    for number in 1 2; do
        rm -f "$work/once/ledger"
        expect "a read that fails, $number: begin" 0 new "$program" begin "$work/once/ledger" t1 "$work/once"
        expect "a read that fails, $number: check" 3 'bag: files' fails_once "$file" "$number" check examples/first-bag
        expect "a read that fails, $number: make" 3 'bag: files' \
            fails_once "$file" "$number" make examples/first-bag "$work/once/made$number" md5
        expect "a read that fails, $number: fetch" 3 'refused data/a.txt: reader' \
            fails_once "$file" "$number" fetch "$work/once/ledger" t1 examples/first-bag
        expect "a read that fails, $number: intake" 3 $'refused data/a.txt: reader\ntaken data/e.txt' \
            fails_once "$file" "$number" intake "$work/once/ledger" t1 examples/first-bag
        expect "a read that fails, $number: what is held" 1 $'manifest-sha256.txt: missing: data/a.txt\nnot complete' \
            "$program" audit "$work/once/ledger" t1
    done
    # Of two files that fail the first by path is told, though its third read comes after the other could not be opened.
    mkdir "$work/two"
    head -c 1000000 /dev/zero >"$work/two/a"
    echo b >"$work/two/b"
    expect 'two files that fail: a bag' 0 'made 2 files, 1000002 octets' "$program" make "$work/two" "$work/both" md5
    two_fail() {
        injects 'inject=read:error=EIO:when=3' -e 'inject=openat:error=EACCES:when=2' -P "$work/both/data/a" -P \
            "$work/both/data/b" \
            "$program" check "$work/both"
    }
    explain 'two files that fail' 3 "bag: $work/both/data/a: Input/output error (os error 5)" two_fail
    expect 'two files that fail: they are sound' 0 valid "$program" check "$work/both"
    two_fail_in_a_new_bag() {
        injects 'inject=read:error=EIO:when=4' -e 'inject=openat:error=EACCES:when=2' -P "$work/two/a" -P \
            "$work/two/b" \
            "$program" make "$work/two" "$work/of two" md5
    }
    explain 'two files that fail: make' 3 "bag: $work/two/a: Input/output error (os error 5)" two_fail_in_a_new_bag
    # The second write to the first copy fails, and the other copy could not be begun.
    two_copies_fail() {
        injects 'inject=write:error=ENOSPC:when=2' -e 'inject=openat:error=EACCES:when=2' -P "$work/of both/data/a" -P \
            "$work/of both/data/b" \
            "$program" make "$work/two" "$work/of both" md5
    }
    explain 'two copies that fail: make' 3 "bag: $work/of both/data/a: No space left on device (os error 28)" \
        two_copies_fail
    # No octets are asked of the system where none are left to be read: of short files, and of files as long as a piece,
    # or nearly.
    mkdir "$work/pieces"
    for length in 0 1 65536 131071 131072 131073 262144 300000; do
        head -c "$length" /dev/zero >"$work/pieces/$length"
    done
    no_empty_reads() {
        strace -o "$work/calls" -e trace=read "$program" "$@"
        grep -E ', 0\) += ' "$work/calls"
    }
    for names in md5 'md5 sha512'; do
        # shellcheck disable=SC2086
        expect "no read of no octets: make by $names" 1 'made 8 files, 1020897 octets' \
            no_empty_reads make "$work/pieces" "$work/of pieces by $names" $names
        expect "no read of no octets: check by $names" 1 valid no_empty_reads check "$work/of pieces by $names"
    done
    # fails_at CALL ERROR NAME COMMAND..: the first of these calls on this name fails. Another try would not, and none
    # is made: what is told is the error of that one.
    fails_at() {
        injects "inject=$1:error=$2:when=1" -P "$3" "$program" "${@:4}"
    }
    mkdir -p "$work/few/k" "$work/few again"
    printf abc | tee "$work/few/a" >"$work/few/k/x"
    made="$work/few again/made"
    no_handle='Too many open files in system (os error 23)'
    no_link='Too many links (os error 31)'
    for name in '' /data /data/k; do
        told=$made$name
        [ "$name" != /data/k ] || told+=/x
        explain "make: a folder that is not made at first: $name" 3 "bag: $told: $no_link" \
            fails_at mkdir EMLINK "$made$name" make "$work/few" "$made" md5
        rm -rf "$made"
    done
    for name in data/a data/k/x bag-info.txt bagit.txt manifest-md5.txt tagmanifest-md5.txt; do
        explain "make: a file that is not made at first: $name" 3 "bag: $made/$name: $no_handle" \
            fails_at openat ENFILE "$made/$name" make "$work/few" "$made" md5
        expect "make: a file that is not made at first: $name is not there" 0 '' nothing "$made/$name"
        rm -r "$made"
        explain "make: a file that is not written at first: $name" 3 \
            "bag: $made/$name: Disk quota exceeded (os error 122)" \
            fails_at write EDQUOT "$made/$name" make "$work/few" "$made" md5
        expect "make: a file that is not written at first: $name is empty" 0 0 stat -c %s "$made/$name"
        rm -r "$made"
    done
    explain 'make: a file that is not opened at first' 3 "bag: $work/few/k/x: $no_handle" \
        fails_at openat ENFILE "$work/few/k/x" make "$work/few" "$made" md5
    expect 'make: a file that is not opened at first: no copy of it is begun' 0 '' nothing "$made/data/k/x"
    rm -r "$made"
    expect 'calls that fail once: a bag' 0 'made 2 files, 6 octets' "$program" make "$work/few" "$made" md5
    echo 'http://example.org/x - data/k/x' >"$made/fetch.txt"
    rm "$made/tagmanifest-md5.txt"
    explain 'check: a file that is not opened at first' 3 "bag: $made/data/k/x: $no_handle" \
        fails_at openat ENFILE "$made/data/k/x" check "$made"
    ledger="$work/few again/ledger"
    for name in bag-info.txt bagit.txt fetch.txt manifest-md5.txt; do
        explain "begin: a file that is not opened at first: $name" 3 "bag: $made/$name: $no_handle" \
            fails_at openat ENFILE "$made/$name" begin "$ledger" t1 "$made"
        expect "begin: a file that is not opened at first: $name: no ledger" 0 '' nothing "$ledger"
    done
    expect 'calls that fail once: begin' 0 new "$program" begin "$ledger" t1 "$made"
    expect 'intake: a file that is not opened at first' 3 $'refused data/a: reader\ntaken data/k/x' \
        fails_at openat ENFILE "$made/data/a" intake "$ledger" t1 "$made"
    expect 'calls that fail once: begin again' 0 new "$program" begin "$ledger" t2 "$made"
    for failure in 'statx EIO data' 'statx EIO data/k' 'statx EIO data/k/x' 'openat ENFILE data/k/x' \
        'read EIO data/k/x'; do
        read -r failing error name <<<"$failure"
        cause=supplier
        [ "$failing" != read ] || cause=reader
        expect "fetch: $failing of $name that fails at first" 3 "refused data/k/x: $cause" \
            fails_at "$failing" "$error" "$made/$name" fetch "$ledger" t2 "$made"
    done
    expect 'fetch: nothing is there at first' 1 'refused data/k/x: not supplied' \
        fails_at statx ENOENT "$made/data/k" fetch "$ledger" t2 "$made"
    explain 'fetch: a folder that is not looked up at first' 3 "bag: $made: Input/output error (os error 5)" \
        fails_at statx EIO "$made" fetch "$ledger" t2 "$made"
    exported="$work/few again/exported"
    for name in '' /data /data/k; do
        told=$exported$name
        [ "$name" != /data/k ] || told+=/x
        explain "export: a folder that is not made at first: $name" 3 "bag: $told: $no_link" \
            fails_at mkdir EMLINK "$exported$name" export "$ledger" t1 "$exported"
        rm -rf "$exported"
    done
    for name in bag-info.txt bagit.txt fetch.txt manifest-md5.txt data/k/x; do
        explain "export: a file that is not made at first: $name" 3 "bag: $exported/$name: $no_handle" \
            fails_at openat ENFILE "$exported/$name" export "$ledger" t1 "$exported"
        expect "export: a file that is not made at first: $name is not there" 0 '' nothing "$exported/$name"
        rm -r "$exported"
        explain "export: a file that is not written at first: $name" 3 \
            "bag: $exported/$name: Disk quota exceeded (os error 122)" \
            fails_at write EDQUOT "$exported/$name" export "$ledger" t1 "$exported"
        expect "export: a file that is not written at first: $name is empty" 0 0 stat -c %s "$exported/$name"
        rm -r "$exported"
    done
    # The system finds no memory for a folder that is looked through, looked up or made.
    start=$(calls openat "$program")
    for number in 1 2 3; do
        expect "no memory in the system for a folder, $number: check" 3 'bag: memory' \
            injects "inject=openat:error=ENOMEM:when=$((start + number))" "$program" check "$made"
    done
    expect 'no memory in the system for a folder: fetch' 3 'bag: memory' \
        fails_at statx ENOMEM "$made" fetch "$ledger" t2 "$made"
    expect 'no memory in the system for a folder: export' 3 'bag: memory' \
        fails_at mkdir ENOMEM "$exported" export "$ledger" t1 "$exported"
    expect 'no memory in the system for a folder: make' 3 'bag: memory' \
        fails_at mkdir ENOMEM "$exported" make "$work/few" "$exported" md5
    expect 'no memory in the system for a folder: none is made' 0 '' nothing "$exported"
    # The system finds no memory for a ledger that is opened: at each of the calls that open its file.
    for number in 1 2 3; do
        expect "no memory in the system for a ledger, $number" 3 'bag: memory' \
            injects "inject=openat:error=ENOMEM:when=$number" -P "$work/once/ledger" "$program" list "$work/once/ledger"
    done
    explain 'a ledger that cannot be looked at' 3 "bag: $work/once/ledger: Input/output error (os error 5)" \
        injects inject=statx:error=EIO -P "$work/once/ledger" "$program" list "$work/once/ledger"
    # Each call on a ledger, from the first that looks at its name to the last before the store reads it: the system's
    # error is told as it is, and that it finds no memory as that.
    strace -o "$work/calls" "$program" list "$work/once/ledger" >"$work/printed_by_calls"
    last=$(sed '/^fdatasync(/q' "$work/calls" | grep -nF "\"$work/once/ledger\"" | tail -n 1 | cut -d : -f 1)
    awk -F '(' -v last="$last" \
        '{ number[$1]++ } NR > last { exit } /^readlink\(/ { is_begun = 1 } is_begun { print $1, number[$1] }' \
        "$work/calls" | grep -E '^(readlink|statx|openat|fcntl|getrandom|fchown|fchmod|fsync) ' >"$work/numbered"
    expect 'calls on a ledger that is opened' 0 '' [ "$(wc -l <"$work/numbered")" -gt 25 ]
    while read -r name number; do
        # An empty log that such a command leaves is not made again.
        rm -f "$work/once/ledger-wal"
        explain "a ledger that cannot be opened: $name $number" 3 \
            "bag: $work/once/ledger: Input/output error (os error 5)" \
            injects "inject=$name:error=EIO:when=$number" "$program" list "$work/once/ledger"
        rm -f "$work/once/ledger-wal"
        expect "a ledger that cannot be opened: $name $number, without memory" 3 'bag: memory' \
            injects "inject=$name:error=ENOMEM:when=$number" "$program" list "$work/once/ledger"
    done <"$work/numbered"
    # From there on it is the store that fails.
    explain 'a ledger whose first page cannot be read' 3 "bag: $work/once/ledger: disk I/O error" \
        injects 'inject=pread64:error=EIO:when=1' -P "$work/once/ledger" "$program" list "$work/once/ledger"
    # A new ledger, of which each write in turn and all after it fail until it is made: nothing is left of it. In a file
    # that was empty and cannot be emptied again its log stays too, without which part of a first page would be no
    # database: so a ledger is made next.
    is_gone() {
        nothing "$1" && nothing "$1-wal"
    }
    strace -o "$work/calls" -e trace=pwrite64,openat "$program" begin "$work/once/made" t1 "$work/once" \
        >"$work/printed_by_calls"
    writes=$(sed '/once\/"/q' "$work/calls" | grep -c '^pwrite64(')
    expect 'writes to a new ledger' 0 '' [ "$writes" -gt 5 ]
    for number in $(seq "$writes"); do
        expect "a new ledger that cannot be written, $number of $writes" 3 'bag: store' \
            injects "inject=pwrite64:error=ENOSPC:when=$number+" "$program" begin "$work/once/new" t1 "$work/once"
        expect "a new ledger that cannot be written, $number of $writes: nothing is left" 0 '' is_gone "$work/once/new"
        : >"$work/once/empty"
        expect "an empty file that cannot be emptied again, $number of $writes" 3 'bag: store' \
            injects "inject=pwrite64:error=EIO:when=$number+" -e inject=ftruncate:error=EIO "$program" begin \
            "$work/once/empty" t1 "$work/once"
        expect "an empty file that cannot be emptied again, $number of $writes: once more" 0 new \
            "$program" begin "$work/once/empty" t1 "$work/once"
        rm -f "$work/once/new" "$work/once/new-wal" "$work/once/empty"
    done
    # The same where a single call fails: once the new file and its log are locked, from the last look at its name on.
    strace -o "$work/calls" "$program" begin "$work/once/made again" t1 "$work/once" >"$work/printed_by_calls"
    first=$(sed '/^fdatasync(/q' "$work/calls" | grep -nF "\"$work/once/made again\"" | tail -n 1 | cut -d : -f 1)
    awk -F '(' -v first="$first" '{ number[$1]++ } /once\/", O_RDONLY/ { exit } NR > first { print $1, number[$1] }' \
        "$work/calls" \
        | grep -E '^(statx|pread64|pwrite64|fdatasync) ' >"$work/numbered"
    expect 'calls on a new ledger that is locked' 0 '' [ "$(wc -l <"$work/numbered")" -gt 25 ]
    while read -r name number; do
        explain "a new ledger in which one call fails: $name $number" 3 "bag: $work/once/new: disk I/O error" \
            injects "inject=$name:error=EIO:when=$number" "$program" begin "$work/once/new" t1 "$work/once"
        expect "a new ledger in which one call fails: $name $number: nothing is left" 0 '' is_gone "$work/once/new"
        rm -f "$work/once/new" "$work/once/new-wal"
    done <"$work/numbered"
    # If the new file or its log cannot be opened and locked, the file stays and is empty, since another command may be
    # about to use it.
    made=$(grep -nE '^openat\(.*O_CREAT.* = [0-9]' "$work/calls" | head -n 1 | cut -d : -f 1)
    locked=$(sed '/^fdatasync(/q' "$work/calls" | grep -n '^fcntl(' | tail -n 1 | cut -d : -f 1)
    awk -F '(' -v made="$made" -v locked="$locked" \
        '{ number[$1]++ } NR > locked { exit } NR > made { print $1, number[$1] }' \
        "$work/calls" | grep -E '^(readlink|statx|openat|fcntl) ' >"$work/numbered"
    expect 'calls that lock a new ledger' 0 '' [ "$(wc -l <"$work/numbered")" -gt 10 ]
    while read -r name number; do
        explain "a new ledger that cannot be locked: $name $number" 3 \
            "bag: $work/once/new: Input/output error (os error 5)" \
            injects "inject=$name:error=EIO:when=$number" "$program" begin "$work/once/new" t1 "$work/once"
        expect "a new ledger that cannot be locked: $name $number: it is empty" 0 0 stat -c %s "$work/once/new"
        expect "a new ledger that cannot be locked: $name $number: once more" 0 new \
            "$program" begin "$work/once/new" t1 "$work/once"
        rm -f "$work/once/new"
    done <"$work/numbered"
    # A delivery that is not on the disk: the log of the ledger cannot be written to it, once it was begun.
    for number in {1..6}; do
        rm -f "$work/once/delivered" "$work/once/delivered-wal"
        expect "a delivery that fails, $number: begin" 0 new \
            "$program" begin "$work/once/delivered" t1 examples/first-bag
        explain "a delivery that fails, $number" 3 "bag: $work/once/delivered: disk I/O error" \
            injects "inject=fdatasync:error=EIO:when=$number" "$program" intake "$work/once/delivered" t1 \
            examples/first-bag
    done
    # Of a ledger in which no transfer was opened the log is removed first: without its file it would be that of another
    # one.
    removed() {
        strace -o "$work/calls" -e trace=/^unlink "$program" begin "$work/once/new" t1 "$work/two" \
            >"$work/printed_by_calls" 2>&1
        sed -n 's/^unlink[^"]*"\([^"]*\)".*/\1/p' "$work/calls"
    }
    expect 'a new ledger that is removed again' 0 "$work/once/new-wal"$'\n'"$work/once/new" removed
    # meanwhile CHANGE LEDGER WORD..: runs this command on a ledger, and does this to it after the first of these calls
    # on it, that which opens it if nothing else is said.
    meanwhile() {
        local pid status=0 call=${call-openat}
        rm -f "$work/calls"
        strace -f -o "$work/calls" -P "$2" -e "trace=$call" -e "inject=$call:signal=SIGSTOP:when=1" "$program" \
            "${@:3}" &
        for _ in {1..3000}; do
            pid=$(sed -n 's/^\([0-9]*\) *--- stopped by SIGSTOP ---$/\1/p' "$work/calls" 2>"$work/gone")
            [ -z "$pid" ] || break
            sleep 0.01
        done
        eval "$1"
        kill -CONT "$pid"
        wait $! || status=$?
        return "$status"
    }
    come() {
        call=statx meanwhile ': >"$2"' "$work/once/come" begin "$work/once/come" t1 examples/first-bag
    }
    explain 'a file that comes where a ledger is made' 3 "bag: $work/once/come: File exists (os error 17)" come
    expect 'a file that comes where a ledger is made: it stays' 0 '' [ -f "$work/once/come" ]
    cp "$work/once/ledger" "$work/once/emptied"
    explain 'a ledger that is emptied while it is opened' 3 "bag: $work/once/emptied: it is empty" \
        meanwhile ': >"$2"' "$work/once/emptied" list "$work/once/emptied"
    expect 'a ledger that is emptied while it is opened: no log is left' 0 '' nothing "$work/once/emptied-wal"
    explain 'a new ledger that another program writes to while it is opened' 3 \
        "bag: $work/once/octet: it is not a file that can be a database" \
        meanwhile 'printf x >"$2"' "$work/once/octet" begin "$work/once/octet" t1 "$work/once"
    expect 'a new ledger that another program writes to while it is opened: its octet stays' 0 '' \
        cmp "$work/once/octet" <(printf x)
    expect 'a new ledger that another program writes to while it is opened: no log is left' 0 '' \
        nothing "$work/once/octet-wal"
    # gone COMMAND..: a ledger that is removed after it was looked at and before it is opened.
    gone() {
        cp "$work/once/ledger" "$work/once/gone"
        call=statx meanwhile 'rm "$2"' "$work/once/gone" "$1" "$work/once/gone" "${@:2}"
    }
    expect 'a ledger that is removed before it is opened' 3 'bag: store' gone list
    expect 'a ledger that is removed before it is opened: none is made' 0 '' is_gone "$work/once/gone"
    expect 'a ledger that is removed before it is opened: begin' 3 'bag: store' gone begin t1 examples/first-bag
    expect 'a ledger that is removed before it is opened: begin makes none' 0 '' is_gone "$work/once/gone"
    explain 'a ledger that is removed when it was made' 3 "bag: $work/once/new: it is in use" \
        meanwhile 'rm "$2"' "$work/once/new" begin "$work/once/new" t1 "$work/once"
    expect 'a ledger that is removed when it was made: nothing is written' 0 '' \
        test ! -s "$work/once/new" -a ! -s "$work/once/new-wal"
    if own_mounts sh -c "mkdir '$work/disk' && mount -t tmpfs bag '$work/disk'" 2>"$work/no mount"; then
        # on_two_disks: a ledger, over which another disk is mounted while it is opened. The ledger on that one has the
        # same number.
        on_two_disks() {
            own_mounts bash -c \
                'disk() { mount -t tmpfs bag "$work/disk" && cp "$work/once/ledger" "$work/disk/ledger"; }
                disk && meanwhile disk "$work/disk/ledger" list "$work/disk/ledger"'
        }
        export -f meanwhile
        export work program
        explain 'a ledger in whose place another one comes' 3 "bag: $work/disk/ledger: it is in use" on_two_disks
    else
        lacking 'a ledger in whose place another one comes (no permission to mount a disk)'
    fi
    # A long ledger is not held in memory, but read again while it is verified.
    mkdir -p "$work/long/data"
    head -c 8M /dev/urandom >"$work/long/data/f"
    cp examples/first-bag/bagit.txt "$work/long"
    (cd "$work/long" && md5sum data/f >manifest-md5.txt)
    expect 'a long ledger' 0 new "$program" begin "$work/long ledger" t1 "$work/long"
    expect 'a long ledger: intake' 0 'taken data/f' "$program" intake "$work/long ledger" t1 "$work/long"
    reads=$(calls pread64 "$program" list "$work/long ledger")
    explain 'a ledger that cannot be read while it is verified' 3 "bag: $work/long ledger: disk I/O error" \
        injects "inject=pread64:error=EIO:when=$((reads - 100))" "$program" list "$work/long ledger"
    # So are two long payload files, one after the other. A read that fails is told, though it would not fail again.
    mkdir -p "$work/two/data"
    head -c 6M /dev/urandom >"$work/two/data/f"
    head -c 6M /dev/urandom >"$work/two/data/g"
    cp examples/first-bag/bagit.txt "$work/two"
    (cd "$work/two" && sha256sum data/f data/g >manifest-sha256.txt)
    expect 'two long payload files' 0 new "$program" begin "$work/two ledger" t1 "$work/two"
    expect 'two long payload files: intake' 0 'taken data/f'$'\n''taken data/g' \
        "$program" intake "$work/two ledger" t1 "$work/two"
    reads=$(calls pread64 "$program" list "$work/two ledger")
    expect 'two long payload files: a ledger that is read again' 0 '' [ "$reads" -gt 3000 ]
    for number in $(seq "$((reads - 2000))" 285 "$reads"); do
        explain "a read that fails once among two long payload files, $number of $reads" 3 \
            "bag: $work/two ledger: disk I/O error" \
            injects "inject=pread64:error=EIO:when=$number" "$program" list "$work/two ledger"
    done
    # If the first of them is damaged, that is told, and the second is not read. If a read of the first fails, that is told instead.
    python3 -c "import sqlite3, sys
db = sqlite3.connect(sys.argv[1])
db.execute('UPDATE piece SET body = zeroblob(65536) WHERE n = 95 AND item = (SELECT id FROM held WHERE path = ?)',
    ('data/f',))
db.commit()" "$work/two ledger"
    expect 'two long payload files, one damaged' 3 'bag: damaged t1 data/f' "$program" list "$work/two ledger"
    fewer=$(calls pread64 "$program" list "$work/two ledger")
    expect 'two long payload files, one damaged: the other is not read' 0 '' [ "$fewer" -lt "$((reads - 1000))" ]
    for number in $(seq "$((fewer - 1000))" 76 "$fewer"); do
        explain "a read of a damaged payload file that fails once, $number of $fewer" 3 \
            "bag: $work/two ledger: disk I/O error" \
            injects "inject=pread64:error=EIO:when=$number" "$program" list "$work/two ledger"
    done
    # The last reads of a command come after that: of names, of tag files and of pieces. A store that fails then is told
    # as that too.
    expect 'a long ledger: what begin would read' 0 again "$program" begin "$work/long ledger" t1 "$work/long"
    for command in list report audit begin intake export; do
        words=("$work/long ledger" t1)
        line='bag: store'
        case $command in
        list) words=("$work/long ledger") ;;
        begin) words+=("$work/long") ;;
        intake) words+=("$work/long") line='refused data/f: store' ;;
        export) words+=("$work/exported") ;;
        esac
        reads=$(calls pread64 "$program" "$command" "${words[@]}")
        for number in $(seq "$((reads - 4))" "$reads"); do
            rm -rf "$work/exported"
            expect "a ledger that cannot be read after it was verified, $number of $reads: $command" 3 "$line" \
                injects "inject=pread64:error=EIO:when=$number" "$program" "$command" "${words[@]}"
        done
    done
    # The error of such a read is told, and so is that of a read while a payload file is put in a ledger.
    for command in list report audit begin intake fetch export; do
        words=("$work/long ledger" t1)
        case $command in
        list) words=("$work/long ledger") ;;
        begin | intake | fetch) words+=("$work/long") ;;
        export) words+=("$work/exported") ;;
        esac
        rm -rf "$work/exported"
        reads=$(calls pread64 "$program" "$command" "${words[@]}")
        rm -rf "$work/exported"
        explain "the last read of a ledger fails: $command" 3 "bag: $work/long ledger: disk I/O error" \
            injects "inject=pread64:error=EIO:when=$reads" "$program" "$command" "${words[@]}"
    done
    mkdir -p "$work/another/data"
    head -c 200000 /dev/urandom >"$work/another/data/g"
    cp -r "$work/long" "$work/longer"
    cp "$work/another/data/g" "$work/longer/data"
    (cd "$work/longer" && md5sum data/* >manifest-md5.txt)
    expect 'a long ledger, and another file: begin' 0 new "$program" begin "$work/longer ledger" t1 "$work/longer"
    expect 'a long ledger, and another file: the long one' 0 'taken data/f' \
        "$program" intake "$work/longer ledger" t1 "$work/long"
    cp "$work/longer ledger" "$work/longer before"
    # before_answer CALL: how often the command that was traced last made this call before its answer.
    before_answer() {
        sed '/^write(1, /q' "$work/calls" | grep -c "^$1("
    }
    strace -o "$work/calls" "$program" intake "$work/longer ledger" t1 "$work/another" >"$work/printed_by_calls"
    reads=$(before_answer pread64)
    for number in $(seq "$((reads - 4))" "$reads"); do
        cp "$work/longer before" "$work/longer ledger"
        expect "a ledger that cannot be read where a file is put in it, $number of $reads" 0 "refused data/g: store
bag: $work/longer ledger: disk I/O error
3" sh -c '"$@" 2>&1; echo "$?"' sh strace -o "$work/calls" -e "inject=pread64:error=EIO:when=$number" \
            "$program" intake "$work/longer ledger" t1 "$work/another"
        expect "a ledger that cannot be read where a file is put in it, $number of $reads: it fails once" 0 1 \
            grep -c INJECTED "$work/calls"
        expect "a ledger that cannot be read where a file is put in it, $number of $reads: what is held" 1 \
            $'manifest-md5.txt: missing: data/g\nnot complete' "$program" report "$work/longer ledger" t1
    done
    # each_of FOUND CALL ERROR TEXT WORD..: runs the command on a copy of this ledger, or where there is none, once for
    # each of these calls before its answer, which fails. That error is told, and the file of a ledger stays as it was.
    each_of() {
        local number of start answered
        start=$(calls "$2" "$program")
        found_again "$1"
        strace -o "$work/calls" "$program" "${@:5}" >"$work/printed_by_calls"
        of=$(before_answer "$2")
        [ "$of" -gt "$((start + 9))" ] || echo "only $of calls"
        for number in $(seq "$((start + 1))" "$of"); do
            found_again "$1"
            answered=$(injects "inject=$2:error=$3:when=$number" "$program" "${@:5}" 2>&1) \
                && echo "call $number of $of: status 0"
            [ "$answered" = $'bag: store\n'"bag: $work/committed: $4" ] || echo "call $number of $of: $answered"
            [ "$1" = none ] || cmp "$work/$1" "$work/committed"
        done
    }
    found_again() {
        rm -f "$work/committed" "$work/committed-wal"
        [ "$1" = none ] || cp "$work/$1" "$work/committed"
    }
    expect 'calls on a ledger that fail: begin' 0 new "$program" begin "$work/begun" t1 examples/first-bag
    cp "$work/begun" "$work/opened"
    expect 'calls on a ledger that fail: intake' 0 $'taken data/a.txt\ntaken data/e.txt' \
        "$program" intake "$work/begun" t1 examples/first-bag
    expect 'calls on a ledger that fail: one of format 1' 0 '' python3 -B -c \
        'import sys; from ledger_files import SMALL, write_first; write_first(sys.argv[1], {"t1": SMALL})' "$work/older"
    for found in begun older; do
        expect "each read of a ledger that fails: list, $found" 0 '' \
            each_of "$found" pread64 EIO 'disk I/O error' list "$work/committed"
    done
    for failure in 'pwrite64 ENOSPC database or disk is full' 'pwrite64 EIO disk I/O error' \
        'fdatasync EIO disk I/O error'; do
        read -r failing error text <<<"$failure"
        expect "each $failing that fails with $error: a new ledger" 0 '' \
            each_of none "$failing" "$error" "$text" begin "$work/committed" t1 examples/first-bag
        expect "each $failing that fails with $error: another transfer" 0 '' \
            each_of begun "$failing" "$error" "$text" begin "$work/committed" t2 examples/first-bag
        expect "each $failing that fails with $error: a ledger of format 1" 0 '' \
            each_of older "$failing" "$error" "$text" list "$work/committed"
    done
    # each_after CALL ERROR TEXT LINES WORD..: the same, once for each of these calls after its answer: while the log is
    # copied into the file. The answer stands, and one line says that the log stays, and the first error. The next
    # command copies it.
    each_after() {
        local number of before answered status
        found_again opened
        strace -o "$work/calls" "$program" "${@:5}" >"$work/printed_by_calls"
        before=$(before_answer "$1")
        of=$(grep -c "^$1(" "$work/calls")
        [ "$of" -gt "$before" ] || echo "no such call after the answer"
        for number in "$((before + 1))+" $(seq "$((before + 1))" "$of"); do
            found_again opened
            status=0
            answered=$(injects "inject=$1:error=$2:when=$number" "$program" "${@:5}" 2>"$work/told") || status=$?
            [ "$status $answered" = "0 $4" ] || echo "call $number of $of: status $status: $answered"
            diff <(echo "bag: $work/committed: its log stays beside it, and both have to be kept together: $3") \
                "$work/told"
            [ -s "$work/committed-wal" ] || echo "call $number of $of: no log"
            answered=$("$program" "${@:5}" 2>&1)
            [ "$answered" = "$(sed 's/^taken/repeated/; s/^new/again/' <<<"$4")" ] \
                || echo "call $number of $of, once more: $answered"
            nothing "$work/committed-wal" || echo "call $number of $of, once more: there is a log"
        done
    }
    for failure in 'pwrite64 ENOSPC database or disk is full' 'pwrite64 EIO disk I/O error' \
        'fdatasync EIO disk I/O error' \
        'ftruncate EIO disk I/O error' 'pread64 EIO disk I/O error'; do
        read -r failing error text <<<"$failure"
        expect "each $failing after the answer that fails with $error: intake" 0 '' \
            each_after "$failing" "$error" "$text" \
            $'taken data/a.txt\ntaken data/e.txt' intake "$work/committed" t1 examples/first-bag
        expect "each $failing after the answer that fails with $error: begin" 0 '' \
            each_after "$failing" "$error" "$text" \
            new begin "$work/committed" t2 examples/first-bag
    done
    for error in ENOSPC EPIPE EIO EDQUOT; do
        expect "writes that fail with $error" 3 '' \
            injects "inject=write:error=$error" "$program" check examples/whole-format
    done
    # What the first write couldn't write may be written at the end, but the status stays.
    expect 'one write that fails' 3 '' lines_or_none valid \
        injects inject=write:error=ENOSPC:when=1 "$program" check examples/whole-format
    echo "$injected system calls failed, one at a time"
    expect 'calls failed' 0 '' [ "$injected" -gt 20 ]
    calls=5
    [ "${1-}" != --all ] || calls=0
    expect 'calls that fail in the commands' 0 '' \
        env TMPDIR="$work" sh -c 'python3 -B tests/lib/failing_commands.py "$@" >"$0"' \
        "$work/tried" "$program" "$calls" calls
    cat "$work/tried"
else
    lacking 'calls that fail (strace is not installed, or not permitted)'
fi
finish
