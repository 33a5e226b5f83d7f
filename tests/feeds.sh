#!/usr/bin/env bash
# Tag files that come in pieces: worked texts, and the tag files of the examples and of random bags, cut at each place.
# The driver reads each whole and from its pieces, and a second program reads it too.
set -u
cd "$(dirname -- "$0")/.." || exit 1
. tests/lib/common.bash

build_driver
expect 'tag files in pieces' 0 '19 worked texts, and 14282 others that were cut in 1218132 ways: all read alike' \
    python3 -B tests/feeds.py 4000 1 "$driver"
finish
