#!/usr/bin/env bash
# Random commands on ledgers and folders, each answered as a second program does; with the option --all ten times as
# many.
set -u
cd "$(dirname -- "$0")/.." || exit 1
. tests/lib/common.bash

take_program
runs=200
[ "${1-}" != --all ] || runs=2000
# It prints how many there were, or the first command that is answered differently, with those before it.
expect 'random commands' 0 '' env TMPDIR="$work" sh -c 'python3 -B tests/random_commands.py "$1" "$2" 1 >"$3"' \
    sh "$program" "$runs" "$work/tried"
cat "$work/tried"
finish
