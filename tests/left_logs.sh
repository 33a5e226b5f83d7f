#!/usr/bin/env bash
# Ledgers whose log is still next to them, because a command was killed or the log couldn't be copied.
set -u
cd "$(dirname -- "$0")/.." || exit 1
. tests/lib/common.bash

take_program
if [ -r /proc/self/syscall ]; then
    expect 'ledgers with a log' 0 \
        '7 logs used, 24 refused ledgers with a log, 5 names, 62 limits of memory, 17 of a file' \
        env TMPDIR="$work" python3 -B tests/left_logs.py "$program"
else
    lacking 'ledgers with a log (/proc does not say which call of the system a process is in)'
fi
finish
