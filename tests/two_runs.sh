#!/usr/bin/env bash
# Two commands on one ledger at the same moment: what either answered is held afterwards.
set -u
cd "$(dirname -- "$0")/.." || exit 1
. tests/lib/common.bash

take_program
if strace -o "$work/calls" true 2>"$work/no strace"; then
    expect 'two commands at once' 0 '' env TMPDIR="$work" python3 -B tests/two_runs.py "$program" "$work/tried"
    cat "$work/tried"
else
    lacking 'two commands at once (strace is not installed, or not permitted)'
fi
finish
