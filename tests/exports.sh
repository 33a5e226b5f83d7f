#!/usr/bin/env bash
# Exports that break off, and files that come into their way.
set -u
cd "$(dirname -- "$0")/.." || exit 1
. tests/lib/common.bash

take_program
expect 'exports' 0 '9 limits, 5 in the way' env TMPDIR="$work" python3 -B tests/exports.py "$program"
finish
