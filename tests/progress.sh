#!/usr/bin/env bash
# The line that shows on a terminal how far a command has come.
set -u
cd "$(dirname -- "$0")/.." || exit 1
. tests/lib/common.bash

take_program
expect 'progress' 0 '124 commands' env TMPDIR="$work" python3 -B tests/progress.py "$program"
finish
