#!/usr/bin/env bash
# Where want of memory, or an error of the database, is made by hand and not passed on: these places, as the sources
# have them, and no other. Contracts let such an answer pass wherever a call can fail, since they can't say when memory
# runs out; so a function that gave up at a length which it can't count would meet its contract. With --list the places
# are printed.
#
# If this fails: look at each place with a plus. It is right where the answer tells of a request for memory that was
# refused just before (or of an error of a call), and wrong where it depends on anything else, such as a number or a
# length. If all are right, renew the list: `bash tests/made_by_hand.sh --list >tests/data/made_by_hand.list`.
set -u
cd "$(dirname -- "$0")/.." || exit 1
. tests/lib/common.bash

# Each place with the file, the function that it stands in, and what is made there. What stands before `=>`, or is
# compared, is not made. `AllocError` after a comma or a colon is a type.
places() {
    program_sources | xargs awk '
        FNR == 1 { name = "-"; file = FILENAME; sub(/^crates\//, "", file); sub(/src\//, "", file) }
        match($0, /^ *(pub(\([a-z]+\))? )?(const )?fn [a-z0-9_]+/) {
            name = substr($0, RSTART, RLENGTH)
            sub(/.*fn /, "", name)
        }
        {
            sub(/\/\/.*/, "")
            sub(/.*=>/, "")
            gsub(/matches!\(.*|[!=]= *[A-Za-z:]+|if let .* = /, "")
            while (match($0, /(^ *|[(|] *)AllocError|[A-Za-z]+::(OutOf)?Memory|ErrorCode::[A-Za-z]+/)) {
                made = substr($0, RSTART, RLENGTH)
                $0 = substr($0, RSTART + RLENGTH)
                gsub(/[(| ]/, "", made)
                if ($0 !~ /^[A-Za-z0-9_]/) print file, name, made
            }
        }' | LC_ALL=C sort
}

if [ "${1-}" = --list ]; then
    places
    exit
fi
expect 'want of memory that is made by hand' 0 '' diff -U 0 tests/data/made_by_hand.list <(places)
[ "$failed" -eq 0 ] || sed -n '/^# If this fails/,/^set/s/^# //p' tests/made_by_hand.sh
finish
