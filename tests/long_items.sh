#!/usr/bin/env bash
# Ledgers with payload files of several pieces: they are opened, and where one is damaged, it is told.
set -u
cd "$(dirname -- "$0")/.." || exit 1
. tests/lib/common.bash

take_program
expect 'long payload files' 0 '60 opened, 60 damaged' \
    env TMPDIR="$work" python3 -B tests/long_items.py "$program"
finish
