#!/usr/bin/env bash
# Commands on ledgers that are killed at random moments. KILLS, by default 150, is the number of kills.
set -u
cd "$(dirname -- "$0")/.." || exit 1
. tests/lib/common.bash

take_program
expect 'kills' 0 '' env TMPDIR="$work" python3 -B tests/kills.py "$program" "${KILLS-150}" '' "$work/kills"
cat "$work/kills"
finish
