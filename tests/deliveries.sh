#!/usr/bin/env bash
# Worked cases, and random lists of deliveries, with losses, repeats, damage and other transfers in between. The
# receiver answers them as a second program does, with a map and with a database, both in memory. Then random ledgers,
# which are opened again.
set -u
cd "$(dirname -- "$0")/.." || exit 1
. tests/lib/common.bash

build_driver
expect 'random lists of deliveries, over a map' 0 '10000 lists of 166738 events: all answered alike' \
    env TMPDIR="$work" python3 -B tests/deliveries.py 10000 1 "$driver" calls map
python3 -B tests/data/long_lists.py growing >"$work/growing" || exit
python3 -B tests/data/long_lists.py many >"$work/many" || exit
growing=$(python3 -B tests/data/long_lists.py growing --answers) || exit
many=$(python3 -B tests/data/long_lists.py many --answers) || exit
for keeper in map sqlite; do
    expect "worked cases, over $keeper" 0 '163 worked answers: 0 otherwise' \
        python3 -B tests/data/worked_answers.py "$driver" calls "$keeper"
    expect "256 growing files in one run, over $keeper" 0 "$growing" \
        sh -c '"$1" calls "$2" <"$3"' sh "$driver" "$keeper" "$work/growing"
    expect "65,540 payload files, and as many tag files, over $keeper" 0 "$many" \
        sh -c '"$1" calls "$2" <"$3"' sh "$driver" "$keeper" "$work/many"
done
expect 'random lists of deliveries, over a database' 0 '10000 lists of 166738 events: all answered alike' \
    env TMPDIR="$work" python3 -B tests/deliveries.py 10000 1 "$driver" calls sqlite
expect 'random ledgers that are opened again' 0 \
    '1000 ledgers with 2575 transfers, opened again 3065 times: all answered alike' \
    env TMPDIR="$work" python3 -B tests/reopened.py 1000 1 "$driver" calls sqlite
finish
