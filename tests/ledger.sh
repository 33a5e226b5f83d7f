#!/usr/bin/env bash
# Ledgers in databases whose files are in memory: their work is stopped at each call of a file.
set -u
cd "$(dirname -- "$0")/.." || exit 1
. tests/lib/common.bash

build_driver
expect 'stops, and rows' 0 '' python3 -B tests/ledger.py "$driver" "$work/stops"
cat "$work/stops"
finish
