#!/usr/bin/env bash
# Tables of bags: small ones for each rule, and hostile ones, with texts cut at each octet, odd names, endless lines and
# numbers, and the limits from both sides.
set -u
cd "$(dirname -- "$0")/.." || exit 1
. tests/lib/common.bash

take_program

for kind in small hostile; do
    case $kind in
    small) number=377 ;;
    hostile) number=330 ;;
    esac
    expect "each $kind bag has the answer that FORMAT.md requires" 0 "$number $kind bags: 0 answered differently" \
        env TMPDIR="$work" python3 -B tests/hostile.py "$kind" "$program"
done
finish
