#!/usr/bin/env bash
# Bags from their beginning to their end, each as one chain: a bag with holes, which is written, arrives, is completed,
# exported and checked; and ledgers that are released and adopted again.
set -u
cd "$(dirname -- "$0")/.." || exit 1
. tests/lib/common.bash

take_program
build_driver

[ -r /proc/self/syscall ] || skip '/proc does not say which call of the system a process is in'
if [ "$(command -v md5sum sha1sum sha256sum sha512sum | wc -l)" -eq 4 ]; then
    # It prints what it tried.
    expect 'chains' 0 '' env TMPDIR="$work" \
        python3 -B tests/chains.py "$program" "$driver" "$work/tried"
    cat "$work/tried"
else
    lacking 'chains of commands (the digest programs of coreutils are not installed)'
fi
finish
