#!/usr/bin/env bash
# The commands on ledgers of every kind, and in every order.
set -u
cd "$(dirname -- "$0")/.." || exit 1
. tests/lib/common.bash

take_program
tried='11 that are not ledgers, 21 damaged, 105 changed, 98 orders, 7 files read by sqlite3,'
tried+=' 5 deliveries whose rows were counted, 100000 payload files in one ledger, 82 full disks'
expect 'ledgers of every kind' 0 "$tried" \
    env TMPDIR="$work" python3 -B tests/command_ledgers.py "$program"
finish
