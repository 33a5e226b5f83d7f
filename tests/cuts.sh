#!/usr/bin/env bash
# Power cuts at random moments of commands on ledgers, and of those that recover them. CUTS, by default 400, is the
# number of cuts.
set -u
cd "$(dirname -- "$0")/.." || exit 1
. tests/lib/common.bash

take_program
if strace -o "$work/calls" true 2>"$work/no strace"; then
    expect 'cuts' 0 '' env TMPDIR="$work" python3 -B tests/cuts.py "$program" "${CUTS-400}" '' "$work/cuts"
    cat "$work/cuts"
else
    lacking 'power cuts (strace is not installed, or not permitted)'
fi
finish
