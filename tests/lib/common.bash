# shellcheck shell=bash
# The functions that the test scripts share. A script sources this file in the root of the repository, calls `expect`
# for each case, and ends with `finish`.

# With this set Python would pass over what the scripts assert.
unset PYTHONOPTIMIZE
# Where the Python files find those that they share.
export PYTHONPATH=$PWD/tests/lib:$PWD/tests/model:$PWD/tests/data
work=$(mktemp -d)
trap 'rm -rf -- "$work"' EXIT
passed=0
failed=0

# expect NAME STATUS LINES COMMAND..: the command ends with this status, prints these lines (none if LINES is empty) and
# prints nothing on standard error, except for one line that explains one of these. How long it takes is told if that is
# ten seconds or more.
expect() {
    local name=$1 wanted=$2 lines=$3 status=0 start=$SECONDS
    shift 3
    "$@" </dev/null >"$work/printed" 2>"$work/said" || status=$?
    printf '%s' "${lines:+$lines$'\n'}" >"$work/wanted"
    if diff -u "$work/wanted" "$work/printed" && explained "$wanted" "$lines" && [ "$status" -eq "$wanted" ]; then
        passed=$((passed + 1))
    else
        failed=$((failed + 1))
        echo "FAILED: $name: status $status instead of $wanted; the end of what it said on standard error:"
        tail -n 20 "$work/said"
    fi
    [ $((SECONDS - start)) -lt 10 ] || echo "took $((SECONDS - start)) s: $name"
}

# explained STATUS LINES: what was said on standard error is one line `bag: ..` if the lines say that folders, files or
# a ledger can't be used, that a transfer is refused for its name, a large tag file or other tag files, or that an
# algorithm is unknown; that or nothing if memory ran out; and otherwise nothing, that a folder has no payload, or that
# the log of a ledger stays. FORMAT.md, section 14, says which lines these are.
explained() {
    if [ "$1" -ne 0 ] && grep -qxE 'bag: (files|tag too large|too large|too many|not a ledger)|refused: (name|tag too large|differs)|.*: store' <<<"$2"; then
        [[ $(<"$work/said") == 'bag: '?* ]] && [ "$(wc -l <"$work/said")" -eq 1 ] && return
        cat "$work/said" && return 1
    fi
    if [ "$1" -eq 64 ] && [[ $2 == 'unknown algorithm '* ]]; then
        diff -u <(echo 'bag: the algorithms are md5, sha1, sha256 and sha512') "$work/said"
        return
    fi
    [ "$2" != 'bag: memory' ] || ! grep -qxE \
        'bag: .*: it has [0-9]+ octets, and opening it takes as much memory and a little more' "$work/said" || return 0
    diff -u /dev/null <(grep -avxE \
        'bag: .*: (it has no payload file below data/|its log stays beside it, and both have to be kept .*)' \
        "$work/said")
}

# explain NAME STATUS LINE COMMAND..: the command ends with this status, and says this line and nothing else on standard
# error. What it prints is for `expect`.
explain() {
    local name=$1 wanted=$2 line=$3 status=0
    shift 3
    "$@" </dev/null >"$work/printed" 2>"$work/said" || status=$?
    if diff -u <(printf '%s\n' "$line") "$work/said" && [ "$status" -eq "$wanted" ]; then
        passed=$((passed + 1))
    else
        failed=$((failed + 1))
        echo "FAILED: $name: status $status instead of $wanted"
    fi
}

# refuse NAME START COMMAND..: the command ends with status 64, prints nothing on standard output, and its output on
# standard error begins with START and ends with one LF.
refuse() {
    local name=$1 start=$2 status=0
    shift 2
    "$@" </dev/null >"$work/printed" 2>"$work/said" || status=$?
    if diff -u /dev/null "$work/printed" && [[ $(<"$work/said") == "$start"* ]] && [ "$status" -eq 64 ] \
        && cmp <(printf '%s\n' "$(<"$work/said")") "$work/said"; then
        passed=$((passed + 1))
    else
        failed=$((failed + 1))
        echo "FAILED: $name: status $status, and on standard error: $(<"$work/said")"
    fi
}

# bag ARGUMENT..: runs the program, and stops it after five minutes.
bag() {
    timeout 300 ./bag "$@"
}

# below FOLDER: lists what is below it by name, one per line; an LF in a name is written as a question mark.
below() {
    (cd "$1" && find . -mindepth 1 -printf '%P\0' | LC_ALL=C sort -z | tr '\n\0' '?\n')
}

# make_odd_names FOLDER: makes it, with files whose names want care: blanks, what is escaped, what a shell takes for a
# pattern.
make_odd_names() {
    mkdir -p "$1/two  blanks"
    printf 1 >"$1/ first blank"
    printf 2 >"$1/two  blanks/last blank "
    printf 3 >"$1/100%"
    printf 4 >"$1/%0A"
    printf 5 >"$1/"$'line\nfeed'
    printf 6 >"$1/"$'return\r'
    printf 7 >"$1/*\\?[é]"
    printf 8 >"$1/-"
}

# nothing FILE: nothing with this name exists.
nothing() {
    [ ! -e "$1" ] && [ ! -L "$1" ]
}

# nobody COMMAND..: runs the command as the user nobody if this script is run by root, who may read and write
# everything.
nobody() {
    if [ "$(id -u)" -eq 0 ]; then
        timeout 60 setpriv --reuid=65534 --regid=65534 --clear-groups "$@"
    else
        timeout 60 "$@"
    fi
}

# own_mounts COMMAND..: runs the command where it may mount file systems of its own, and stops it after ten minutes.
own_mounts() {
    timeout 600 unshare -m "$@"
}

# closed COMMAND.. and full COMMAND..: the command with a closed standard output, and with a full one.
closed() {
    "$@" >&-
}
full() {
    "$@" >/dev/full
}

# small_files COMMAND..: runs the command with files limited to 64 KiB.
small_files() (
    trap '' XFSZ
    ulimit -f 64
    exec "$@"
)

# program_sources: the sources of the crates that the program is made of, but for their tests.
program_sources() {
    local crates
    crates=$(sed -n 's/^bag_program: //p' crates.txt | tr ' ' '\n' | grep '^bag_')
    for crate in bag_program $crates; do
        find "crates/$crate/src" -name '*.rt' ! -name 'tests.rt' ! -path '*/tests/*'
    done | LC_ALL=C sort
}

# take_program: sets `program` to a copy of the program that ./bag runs, which anybody may run. It is built first if it
# has to be, whose output would disturb the first case.
take_program() {
    program=$work/program
    (top=$PWD && . ./program.sh && find_program && cp -- "$program" "$work/program" && chmod 755 "$work/program") ||
        { echo "FAILED: there is no program: status $?" && exit 1; }
}

# build_driver: builds the driver if necessary, and sets `driver` to its name. Without arguments it ends with status 64.
# If ONLY_BUILT is set, or without the kit, nothing is built, and the script is skipped.
build_driver() {
    driver=crates/bag_driver/out/bag_driver
    if [ ! -x "$driver" ] || [ -n "$(find crates.txt crates/*/{src,specs,proofs} -newer "$driver" -print -quit)" ]; then
        local status=0
        { [ -z "${ONLY_BUILT-}" ] && command -v rt >/dev/null; } || skip 'the driver is not built'
        (cd crates/bag_driver && rt run </dev/null >"$work/printed" 2>&1) || status=$?
        [ "$status" -eq 64 ] || { cat "$work/printed" && echo "FAILED: the driver was not built" && exit 1; }
    fi
}

# skip TEXT: ends the script, which tries nothing, and TEXT says why. If CI is set to true, that is a failure.
skip() {
    lacking "$1"
    [ "$failed" -eq 0 ] || exit 1
    exit 77
}

# lacking TEXT..: some cases are skipped, and TEXT says which and why. If CI is set to true, that is a failure.
lacking() {
    if [ "${CI-}" = true ]; then
        failed=$((failed + 1))
        echo "FAILED: skipped: $*"
    else
        echo "skipped: $*"
    fi
}

# finish: prints the last line, and returns the status of the script. A script that tried nothing fails.
finish() {
    echo "$passed passed, $failed failed"
    [ "$failed" -eq 0 ] && [ "$passed" -gt 0 ]
}
