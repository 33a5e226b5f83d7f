#!/usr/bin/env bash
# Random ledgers in files, which are opened again. They are made for LEDGER_SECONDS, by default 60, from the number
# LEDGER_SEED, by default another one each time.
set -u
cd "$(dirname -- "$0")/.." || exit 1
. tests/lib/common.bash

take_program
build_driver
# It prints the seed and what it tried.
expect 'random ledgers' 0 '' env TMPDIR="$work" python3 -B tests/random_ledgers.py \
    "$program" "$driver" "${LEDGER_SECONDS-60}" "${LEDGER_SEED-}" "$work/tried"
cat "$work/tried"
finish
