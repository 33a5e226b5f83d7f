#!/usr/bin/env bash
# Ledgers of format 1, which are moved to format 2, and ledgers that older versions of the program wrote.
set -u
cd "$(dirname -- "$0")/.." || exit 1
. tests/lib/common.bash

take_program
tried='100013 payload files moved, 7 first commands, 54 changed, 81 full disks'
expect 'ledgers of format 1' 0 "$tried" env TMPDIR="$work" python3 -B tests/first_format.py "$program"

# write_first FILE: makes a ledger of format 1 with one transfer, t1.
write_first() {
    python3 -B -c 'import sys; from ledger_files import SMALL, write_first; write_first(sys.argv[1], {"t1": SMALL})' "$1"
}

# A ledger that may not be written, or whose log may not be made, stays what it was.
chmod 711 "$work"
cp "$program" "$work/program" && chmod a+rx "$work/program"
mkdir "$work/open" "$work/locked"
write_first "$work/open/ledger"
cp "$work/open/ledger" "$work/was"
cp "$work/open/ledger" "$work/locked/ledger"
chmod 777 "$work/open"
chmod 555 "$work/locked"
chmod 444 "$work/open/ledger"
chmod 666 "$work/locked/ledger"
for place in open locked; do
    expect "a ledger of format 1 that cannot be written, $place" 3 'bag: store' \
        nobody "$work/program" list "$work/$place/ledger"
    expect "it stays what it was, $place" 0 '' cmp "$work/was" "$work/$place/ledger"
    expect "nothing else is made, $place" 0 ledger below "$work/$place"
done
chmod 666 "$work/open/ledger"
expect 'it can be written again' 0 valid nobody "$work/program" audit "$work/open/ledger" t1

# A ledger as the versions 1.0.0 to 1.2.0 wrote it is opened, and no octet of it changes.
gzip -dc tests/data/written_by_1.0.0.gz >"$work/old" && cp "$work/old" "$work/ledger"
expect 'an older ledger: its names' 0 $'t1\nt3\nt5' bag list "$work/ledger"
expect 'an older ledger: audit' 0 valid bag audit "$work/ledger" t1
expect 'an older ledger: a transfer that is not complete' 1 $'manifest-sha256.txt: missing: data/e.txt\nnot complete' \
    bag report "$work/ledger" t3
expect 'an older ledger: two pieces' 0 valid bag audit "$work/ledger" t5
expect 'an older ledger stays what it was' 0 '' cmp "$work/old" "$work/ledger"
finish
