#!/usr/bin/env bash
# Bags written in memory: each file is compared with what a second program makes, and each bag is put in a folder and
# judged by coreutils, by the program and by the reference.
set -u
cd "$(dirname -- "$0")/.." || exit 1
. tests/lib/common.bash

take_program
build_driver

if [ "$(command -v md5sum sha1sum sha256sum sha512sum | wc -l)" -eq 4 ]; then
    # It prints what it tried, or the first bag that is written or judged differently.
    expect 'new bags' 0 '' env TMPDIR="$work" sh -c 'python3 -B tests/new_bags.py 300 1 "$1" "$2" calls map >"$3"' \
        sh "$program" "$driver" "$work/tried"
    cat "$work/tried"
else
    lacking 'bags that are written (the digest programs of coreutils are not installed)'
fi
finish
