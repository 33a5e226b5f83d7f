#!/usr/bin/env bash
# Lists of calls, in which one request for memory is refused, the first, the second and so on; and in which one call of
# a device fails, or is the last before a stop. A second program judges every answer, before it and after it, and
# sqlite3 reads what is left in files. With --all no call of a file is passed over.
set -u
cd "$(dirname -- "$0")/.." || exit 1
. tests/lib/common.bash

take_program
build_driver
if cc -shared -fPIC -O1 -o "$work/no_memory.so" tests/lib/no_memory.c 2>"$work/no cc"; then
    # It prints what it tried, or each list that is answered otherwise.
    expect 'each request for memory refused, and each call of a device' 0 '' \
        env TMPDIR="$work" sh -c 'out=$1; shift; python3 -B tests/refusals.py "$@" >"$out"' \
        sh "$work/tried" "$@" "$driver" "$program" "$work/no_memory.so"
    cat "$work/tried"
else
    lacking 'refused requests for memory (no C compiler is installed)'
fi
finish
