#!/usr/bin/env bash
# What is said on standard error if folders, files or ledgers can't be used: the texts of FORMAT.md, section 14, to the
# octet. The texts of the system are those of strerror.
set -u
cd "$(dirname -- "$0")/.." || exit 1
. tests/lib/common.bash
take_program

missing='No such file or directory (os error 2)'
denied='Permission denied (os error 13)'
exists='File exists (os error 17)'
no_directory='Not a directory (os error 20)'
too_large='File too large (os error 27)'
no_room='No space left on device (os error 28)'
too_long='File name too long (os error 36)'

# new NAME: a copy of a valid bag in a folder of this name.
new() {
    cp -r examples/first-bag "$work/$1"
}

# A folder as a whole, by each command that opens or makes one.
expect 'a ledger' 0 new bag begin "$work/ledger" t1 examples/first-bag
touch "$work/file"
mkdir "$work/there"
for words in check "begin $work/ledger t2" "intake $work/ledger t1" "fetch $work/ledger t1"; do
    explain "${words%% *}: nothing is there" 3 "bag: $work/none: $missing" bag $words "$work/none"
    explain "${words%% *}: no name" 3 'bag: : the name is empty' bag $words ''
done
for words in check "begin $work/ledger t2" "intake $work/ledger t1"; do
    explain "${words%% *}: a plain file" 3 "bag: $work/file: $no_directory" bag $words "$work/file"
done
explain 'fetch: a plain file' 3 "bag: $work/file: not a directory" bag fetch "$work/ledger" t1 "$work/file"
explain 'make: no name of the payload' 3 'bag: : the name is empty' bag make '' "$work/made" md5
explain 'make: no name for the bag' 3 'bag: : the name is empty' bag make examples/first-bag/data '' md5
explain 'export: no name' 3 'bag: : the name is empty' bag export "$work/ledger" t1 ''
explain 'make: no payload is there' 3 "bag: $work/none: $missing" bag make "$work/none" "$work/made" md5
explain 'intake: the second folder is not there' 3 "bag: $work/none: $missing" \
    bag intake "$work/ledger" t1 examples/first-bag "$work/none"
explain 'intake: the first of two that cannot be opened' 3 "bag: $work/none: $missing" \
    bag intake "$work/ledger" t1 "$work/none" "$work/file"
explain 'intake: the first of two the other way round' 3 "bag: $work/file: $no_directory" \
    bag intake "$work/ledger" t1 "$work/there" "$work/file" "$work/none"
for words in "make examples/first-bag/data DST md5" "export $work/ledger t1 DST"; do
    explain "${words%% *}: it exists" 3 "bag: $work/there: $exists" bag ${words/DST/"$work/there"}
    explain "${words%% *}: no folder for it" 3 "bag: $work/none/made: $missing" bag ${words/DST/"$work/none/made"}
    explain "${words%% *}: in a plain file" 3 "bag: $work/file/made: $no_directory" bag ${words/DST/"$work/file/made"}
done
# The root, and the folder in which the program runs, are there already.
for there in / . ..; do
    explain "make: $there" 3 "bag: $there: $exists" bag make examples/first-bag/data "$there" md5
    explain "export: $there" 3 "bag: $there: $exists" bag export "$work/ledger" t1 "$there"
done
long=$work/$(printf 'k%.0s' {1..300})
explain 'a name that is too long' 3 "bag: $long: $too_long" bag check "$long"
explain 'fetch: a name that is too long' 3 "bag: $long: $too_long" bag fetch "$work/ledger" t1 "$long"
ln -s loop "$work/loop"
explain 'fetch: a link to itself' 3 "bag: $work/loop: Too many levels of symbolic links (os error 40)" \
    bag fetch "$work/ledger" t1 "$work/loop"
explain 'a full output' 3 "bag: $work/none: $missing" full bag check "$work/none"
explain 'a closed output' 3 "bag: $work/none: $missing" closed bag check "$work/none"
expect 'a wrong name of a transfer has no more to it' 1 'bag: no transfer' bag report "$work/ledger" t2

# A ledger that can't be used. The texts of a database are those of the kit's sqlite.
for command in list "report t1" "intake t1 examples/first-bag"; do
    words=(${command#* }) && [ "$command" != list ] || words=()
    used() {
        bag "${command%% *}" "$@" "${words[@]}"
    }
    explain "$command: nothing is there" 3 "bag: $work/none: it does not exist" used "$work/none"
    explain "$command: an empty file" 3 "bag: $work/file: it is empty" used "$work/file"
done
printf '%042d' 0 >"$work/alone-wal"
for words in "list $work/alone" "begin $work/alone t1 examples/first-bag"; do
    explain "${words%% *}: a log without its ledger" 3 \
        "bag: $work/alone: it is missing or empty, and its log is what is left of a ledger" \
        bag $words
done
explain 'a folder for a ledger' 3 "bag: $work/there: it is not a file that can be a database" bag list "$work/there"
for words in 'list /' 'begin / t1 examples/first-bag'; do
    explain "${words%% *}: the root of the system for a ledger" 3 'bag: /: it is not a file that can be a database' \
        bag $words
done
explain 'a slash after the name of a ledger' 3 "bag: $work/ledger/: it does not exist" bag list "$work/ledger/"
explain 'begin: a folder for a ledger' 3 "bag: $work/there: it is not a file that can be a database" \
    bag begin "$work/there" t1 examples/first-bag
mkfifo "$work/pipe"
explain 'a fifo for a ledger' 3 "bag: $work/pipe: it is not a file that can be a database" bag list "$work/pipe"
printf S >"$work/octet"
explain 'one octet for a ledger' 3 "bag: $work/octet: it is not a file that can be a database" bag list "$work/octet"
for length in 2 99; do
    head -c "$length" /dev/zero >"$work/short"
    explain "$length octets for a ledger" 3 "bag: $work/short: it is not a database" bag list "$work/short"
done
seq 9999 >"$work/text"
explain 'a text for a ledger' 3 "bag: $work/text: it is not a database" bag list "$work/text"
explain 'begin: a text for a ledger' 3 "bag: $work/text: it is not a database" \
    bag begin "$work/text" t1 examples/first-bag
python3 -c 'import sqlite3, sys; sqlite3.connect(sys.argv[1]).executescript("CREATE TABLE visits (page TEXT)")' \
    "$work/other"
explain 'another database' 3 "bag: $work/other: it is a database, but not a ledger" bag list "$work/other"
# A ledger that is longer than the memory that there is. What is beside it as its log counts too.
mkdir "$work/long"
head -c 33554432 /dev/zero >"$work/long/z"
expect 'a long ledger: its bag' 0 'made 1 files, 33554432 octets' bag make "$work/long" "$work/long bag" md5
expect 'a long ledger: begin' 0 new bag begin "$work/long ledger" t1 "$work/long bag"
expect 'a long ledger: intake' 0 'taken data/z' bag intake "$work/long ledger" t1 "$work/long bag"
short_of_memory() {
    (ulimit -v 32768 && exec "$program" "$@")
}
octets=$(stat -c %s "$work/long ledger")
for words in "list LEDGER" "report LEDGER t1" "begin LEDGER t2 $work/long@bag"; do
    words=(${words//LEDGER/"$work/long@ledger"})
    needs="bag: $work/long ledger: it has $octets octets, and opening it takes as much memory and a little more"
    explain "${words[0]}: a ledger that is longer than memory" 3 "$needs" short_of_memory "${words[@]//@/ }"
    expect "${words[0]}: a ledger that is longer than memory: what is printed" 3 'bag: memory' short_of_memory "${words[@]//@/ }"
done
printf '%050d' 0 >"$work/long ledger-wal"
explain 'a ledger that is longer than memory, and its log' 3 "${needs/"$octets"/"$((octets + 50))"}" short_of_memory list "$work/long ledger"
expect 'a ledger that is longer than memory is held' 0 t1 bag list "$work/long ledger"
rm -r "$work/long" "$work/long bag" "$work/long ledger"
# A ledger that was cut short, wherever more than its header is left: SQLite finds less than that says.
for length in 512 4095 4096 "$(($(stat -c %s "$work/ledger") / 2))" "$(($(stat -c %s "$work/ledger") - 1))"; do
    head -c "$length" "$work/ledger" >"$work/short ledger"
    explain "a ledger of $length octets" 3 "bag: $work/short ledger: database disk image is malformed" \
        bag list "$work/short ledger"
done
for words in "begin LEDGER t1 examples/first-bag" "intake LEDGER t1 examples/first-bag" "report LEDGER t1" \
    "audit LEDGER t1" \
    "fetch LEDGER t1 examples/first-bag" "export LEDGER t1 $work/made"; do
    head -c 20000 "$work/ledger" >"$work/short"
    explain "${words%% *}: a ledger that was cut short" 3 "bag: $work/short: database disk image is malformed" \
        bag ${words/LEDGER/"$work/short"}
    expect "${words%% *}: a ledger that was cut short stays" 0 '' cmp "$work/short" <(head -c 20000 "$work/ledger")
done
python3 -B -c \
    'import sys; from ledger_files import write_first; write_first(sys.argv[1], {"t1": {"data/b": b"b"}})' "$work/taken"
python3 -c \
    'import sqlite3, sys; sqlite3.connect(sys.argv[1]).executescript("CREATE TABLE held (id INTEGER PRIMARY KEY)")' \
    "$work/taken"
explain 'a ledger of format 1 beside a table of another program' 3 "bag: $work/taken: the name is taken" \
    bag list "$work/taken"
ln -s nowhere "$work/leads nowhere"
explain 'list: a link that leads to nothing' 3 "bag: $work/leads nowhere: it does not exist" \
    bag list "$work/leads nowhere"
explain 'begin: a link that leads to nothing' 3 "bag: $work/leads nowhere: $exists" \
    bag begin "$work/leads nowhere" t1 examples/first-bag
expect 'begin: a link that leads to nothing: nothing is made' 0 '' nothing "$work/nowhere"
explain 'begin: no folder for a ledger' 3 "bag: $work/none/ledger: $missing" \
    bag begin "$work/none/ledger" t1 examples/first-bag
explain 'begin: a plain file for the folder of a ledger' 3 "bag: $work/file/ledger: $no_directory" \
    bag begin "$work/file/ledger" t1 examples/first-bag
explain 'list: a plain file for the folder of a ledger' 3 "bag: $work/file/ledger: it does not exist" \
    bag list "$work/file/ledger"
for words in "list $work/loop" "begin $work/loop t1 examples/first-bag"; do
    explain "${words%% *}: a link to itself for a ledger" 3 \
        "bag: $work/loop: Too many levels of symbolic links (os error 40)" bag $words
done
explain 'list: no folder for a ledger' 3 "bag: $work/none/ledger: it does not exist" bag list "$work/none/ledger"
explain 'a name of a ledger that is too long' 3 "bag: $long: $too_long" bag begin "$long" t1 examples/first-bag
ln "$work/ledger" "$work/second name"
# Its log has a name that is too long, though its own is not.
name_252=$work/$(printf 'k%.0s' {1..252})
explain 'a name of a ledger that is too long with its log' 3 "bag: $name_252: $too_long" \
    bag begin "$name_252" t1 examples/first-bag
expect 'a name of a ledger that is too long with its log: nothing is made' 0 '' nothing "$name_252"
mkdir "$work/odd"$'\377'
explain 'a ledger in a folder whose name is not UTF-8' 3 'bag: ledger: invalid filename' \
    env -C "$work/odd"$'\377' "$PWD/bag" begin ledger t1 "$PWD/examples/first-bag"
explain 'list: a name of a ledger that is too long with its log' 3 "bag: $name_252: $too_long" bag list "$name_252"
explain 'a ledger with two names' 3 "bag: $work/ledger: it has several names, or is not a plain file" \
    bag list "$work/ledger"
rm "$work/second name"
printf 'a journal' >"$work/ledger-journal"
explain 'a journal' 3 "bag: $work/ledger: there is a rollback journal beside it" bag list "$work/ledger"
rm "$work/ledger-journal"
mkdir "$work/ledger-journal"
explain 'a folder for a journal' 3 "bag: $work/ledger: there is a rollback journal beside it" bag list "$work/ledger"
rmdir "$work/ledger-journal"
: >"$work/ledger-journal"
expect 'a journal without octets' 0 t1 bag list "$work/ledger"
rm "$work/ledger-journal"
mkdir "$work/ledger-wal"
explain 'a folder for a log' 3 "bag: $work/ledger: it has several names, or is not a plain file" bag list "$work/ledger"
rmdir "$work/ledger-wal"
printf 'a log' >"$work/ledger-wal"
ln "$work/ledger-wal" "$work/log"
explain 'a log with two names' 3 "bag: $work/ledger: it has several names, or is not a plain file" \
    bag list "$work/ledger"
expect 'a log with two names: it stays' 0 '' cmp "$work/ledger-wal" <(printf 'a log')
rm "$work/ledger-wal" "$work/log"
# locked COMMAND..: runs it while another program holds the locks of SQLite on the ledger.
locked() {
    python3 -c 'import fcntl, os, subprocess, sys
fcntl.lockf(os.open(sys.argv[1], os.O_RDWR), fcntl.LOCK_EX, 512, 1 << 30)
sys.exit(subprocess.run(sys.argv[2:]).returncode)' "$work/ledger" "$@"
}
explain 'a ledger that is open' 3 "bag: $work/ledger: it is in use" locked ./bag list "$work/ledger"
ln -s ledger "$work/linked"
explain 'a ledger that is open, by a link' 3 "bag: $work/linked: it is in use" locked ./bag list "$work/linked"
explain 'a name with control characters for a ledger' 3 "bag: $work/a%25%0Ab: it does not exist" \
    bag list "$work/a%"$'\n'b
explain 'a ledger that is open, and a closed output' 3 "bag: $work/ledger: it is in use" \
    closed locked ./bag list "$work/ledger"
explain 'a ledger, and a full output' 3 "bag: $work/none: it does not exist" full bag list "$work/none"

# A transfer that is refused.
rule='a name has 1 to 64 of the characters a to z, 0 to 9 and -'
for pair in Letters/L lettErs/E a_b/_ accession.2024-01/. '2024 letters/ ' é1É/é "it's/'" /; do
    name=${pair%/*} odd=${pair##*/}
    for ledger in ledger new; do
        explain "begin as '$name', in $ledger" 1 "bag: $name: $rule${odd:+, not '$odd'}" bag begin "$work/$ledger" "$name" examples/first-bag
    done
done
explain 'begin as a name with a control character' 1 "bag: a%0A: $rule, not '%0A'" bag begin "$work/ledger" $'a\n' examples/first-bag
explain 'begin as a name with what is an escape' 1 "bag: 100%25: $rule, not '%25'" bag begin "$work/ledger" 100% examples/first-bag
name_64=$(printf 'n%.0s' {1..64})
explain 'begin as a name of 65 letters' 1 "bag: ${name_64}n: $rule" bag begin "$work/ledger" "${name_64}n" examples/first-bag
explain 'begin as a name of 65 letters, the last a capital' 1 "bag: ${name_64}N: $rule, not 'N'" \
    bag begin "$work/ledger" "${name_64}N" examples/first-bag
explain 'begin: the names of the ledger and of the transfer change places' 1 "bag: my.ledger: $rule, not '.'" \
    bag begin "$work/t1" my.ledger examples/first-bag
explain 'begin as no name, and a full output' 3 "bag: T1: $rule, not 'T'" full bag begin "$work/ledger" T1 examples/first-bag
new others
echo x >"$work/others/x"
explain 'begin with other tag files' 1 'bag: t1: it is open with other tag files, which are never replaced; use another name' \
    bag begin "$work/ledger" t1 "$work/others"
expect 'begin with other tag files, under another name' 0 new bag begin "$work/ledger" others "$work/others"

# A folder without a payload.
nothing_below='it has no payload file below data/'
explain 'intake: the payload in place of the bag' 0 "bag: examples/first-bag/data: $nothing_below" \
    bag intake "$work/ledger" t1 examples/first-bag/data
explain 'intake: an empty folder after another' 0 "bag: $work/there: $nothing_below" \
    bag intake "$work/ledger" t1 examples/first-bag "$work/there" examples/first-bag/data
explain 'intake: an empty folder, and a slash after its name' 0 "bag: $work/there/: $nothing_below" \
    bag intake "$work/ledger" t1 "$work/there/"
mkdir "$work/there"$'\t\033'
explain 'intake: an empty folder whose name has control characters' 0 "bag: $work/there%09%1B: $nothing_below" \
    bag intake "$work/ledger" t1 "$work/there"$'\t\033'
name=$(printf 'k%.0s' {1..200})
for number in 2 5 19; do
    long_there=$work/there$(printf "/$name%.0s" $(seq "$number"))
    mkdir -p "$long_there"
    explain "intake: an empty folder whose name has ${#long_there} octets" 0 "bag: $long_there: $nothing_below" \
        bag intake "$work/ledger" t1 examples/first-bag "$long_there"
done
rm -r "$work/there/$name"
explain 'intake: an empty folder, and a refusal' 1 "bag: $work/there: $nothing_below" \
    bag intake "$work/ledger" t2 "$work/there" examples/first-bag

# What is below a folder.
new link
ln -s a.txt "$work/link/data/b.txt"
explain 'a link' 3 "bag: $work/link/data/b.txt: it is a symbolic link" bag check "$work/link"
explain 'a slash after the name' 3 "bag: $work/link//data/b.txt: it is a symbolic link" bag check "$work/link/"
explain 'make: a link' 3 "bag: $work/link/data/b.txt: it is a symbolic link" bag make "$work/link/data" "$work/made" md5
new fifo
mkfifo "$work/fifo/data/pipe"
explain 'a fifo' 3 "bag: $work/fifo/data/pipe: it is a named pipe, a socket or a device" bag check "$work/fifo"
new socket
python3 -c 'import socket, sys; socket.socket(socket.AF_UNIX).bind(sys.argv[1])' "$work/socket/s"
explain 'a socket' 3 "bag: $work/socket/s: it is a named pipe, a socket or a device" bag check "$work/socket"
new octets
touch "$work/octets/data/"$'\377'
explain 'a name that is not UTF-8' 3 "bag: $work/octets/data/: a name in it is not UTF-8" bag check "$work/octets"
new data
rm -r "$work/data/data"
touch "$work/data/data"
explain 'a plain file named data' 3 "bag: $work/data/data: the path is that of the payload directory" \
    bag check "$work/data"
below=$(printf "$name/%.0s" {1..20})
new deep
(cd "$work/deep/data" && for _ in {1..21}; do mkdir "$name" && cd "$name" || exit; done)
explain 'a name that the system cannot reach' 3 "bag: $work/deep/data/$below: $too_long" bag check "$work/deep"
new escaped
ln -s . "$work/escaped/data/a%b"$'\n\t\033[1m\302\233\177'é
explain 'a name with control characters' 3 \
    "bag: $work/escaped/data/a%25b%0A%09%1B[1m%C2%9B%7Fé: it is a symbolic link" bag check "$work/escaped"

# What may not be read or written.
chmod 711 "$work"
new locked
mkdir -m 777 "$work/open"
chmod -R a+rX "$work/locked"
chmod 000 "$work/locked/data/a.txt"
file=$(printf 'f%.0s' {1..72})
mkdir "$work/s"
(cd "$work/s" && for _ in {1..20}; do mkdir "$name" && cd "$name" || exit; done && touch "$file")
explain 'a path in the bag of 4,097 octets' 3 "bag: s/$below$file: the path has more than 4,096 octets" \
    env -C "$work" "$work/program" make s made md5
explain 'a file that may not be read' 3 "bag: $work/locked/data/a.txt: $denied" \
    nobody "$work/program" check "$work/locked"
explain 'make: a file that may not be read' 3 "bag: $work/locked/data/a.txt: $denied" \
    nobody "$work/program" make "$work/locked/data" "$work/open/made" md5
chmod 000 "$work/locked/bagit.txt"
explain 'begin: a file that may not be read' 3 "bag: $work/locked/bagit.txt: $denied" \
    nobody "$work/program" begin "$work/open/ledger" t1 "$work/locked"
# Tag files are read by path, and the first that may not be read, or is too large, is told.
chmod 000 "$work/locked/manifest-sha256.txt"
begin_locked() {
    nobody "$work/program" begin "$work/open/ledger" t1 "$work/locked"
}
explain 'begin: two files that may not be read' 3 "bag: $work/locked/bagit.txt: $denied" begin_locked
truncate -s 16777217 "$work/locked/z.bin"
chmod 644 "$work/locked/z.bin"
explain 'begin: two files that may not be read, and one past the limit behind them' 3 \
    "bag: $work/locked/bagit.txt: $denied" begin_locked
mv "$work/locked/z.bin" "$work/locked/a.bin"
expect 'begin: a file past the limit, and two behind it that may not be read' 1 'refused: tag too large' begin_locked
explain 'begin: a file past the limit, and two behind it that may not be read' 1 \
    "bag: $work/locked/a.bin: it has more than 16,777,216 octets, or more than 100,000 lines" begin_locked
rm "$work/locked/a.bin"
chmod 000 "$work/locked/data"
explain 'a directory that may not be read' 3 "bag: $work/locked/data/: $denied" \
    nobody "$work/program" check "$work/locked"
chmod 000 "$work/locked"
explain 'a folder that may not be read' 3 "bag: $work/locked: $denied" nobody "$work/program" check "$work/locked"
chmod -R 755 "$work/locked"
expect 'a ledger as nobody' 0 new nobody "$work/program" begin "$work/open/its own" t1 "$work/locked"
printf 'a log' >"$work/open/its own-wal"
chmod 000 "$work/open/its own-wal"
explain 'a log that may not be read' 3 "bag: $work/open/its own: $denied" \
    nobody "$work/program" list "$work/open/its own"
expect 'a log that may not be read: it stays' 0 '' cmp "$work/open/its own-wal" <(printf 'a log')
chmod 600 "$work/ledger"
explain 'a ledger that may not be read' 3 "bag: $work/ledger: $denied" nobody "$work/program" list "$work/ledger"
explain 'a folder that takes no ledger' 3 "bag: $work/there/ledger: $denied" \
    nobody "$work/program" begin "$work/there/ledger" t1 "$work/locked"
explain 'make: a folder that may not be written' 3 "bag: $work/there/made: $denied" \
    nobody "$work/program" make "$work/locked/data" "$work/there/made" md5

# Limits.
new large
head -c 16777217 /dev/zero | tr '\0' A >"$work/large/bagit.txt"
explain 'a tag file past the limit' 3 "bag: $work/large/bagit.txt: it has more than 16,777,216 octets" \
    bag check "$work/large"
mv "$work/large" "$work/large%"$'\n'
explain 'a tag file past the limit, in a folder with control characters' 3 \
    "bag: $work/large%25%0A/bagit.txt: it has more than 16,777,216 octets" \
    bag check "$work/large%"$'\n'
explain 'a tag file past the limit, and a slash after the name' 3 \
    "bag: $work/large%25%0A//bagit.txt: it has more than 16,777,216 octets" \
    bag check "$work/large%"$'\n/'
cp -r examples/empty-payload "$work/lines"
mkdir -p "$work/lines/data"
yes '' | head -n 100001 >"$work/lines/manifest-sha256.txt"
explain 'lines past the limit' 3 "bag: $work/lines/manifest-sha256.txt: it has more than 100,000 lines" \
    bag check "$work/lines"
past='it has more than 16,777,216 octets, or more than 100,000 lines'
explain 'begin: a tag file past the limit' 1 "bag: $work/large%25%0A/bagit.txt: $past" bag begin "$work/ledger" large "$work/large%"$'\n'
explain 'begin: lines past the limit' 1 "bag: $work/lines/manifest-sha256.txt: $past" bag begin "$work/ledger" lines "$work/lines"
mkdir "$work/files"
(cd "$work/files" && seq 200001 | xargs touch)
explain 'files past the limit' 3 "bag: $work/files: it has more than 200,000 files" bag check "$work/files"

# The root of the system, in which something is no part of a bag; which of these is told first depends on the system.
below_root() {
    timeout 120 "$work/program" check / 2>&1 >/dev/null | sed 's|^bag: //[^/:][^:]*: .*|something below it|'
}
expect 'the root of the system' 0 'something below it' below_root

# Limits of make, and of intake.
explain 'make: files past the limit' 1 "bag: $work/files: it has more than 100,000 files" \
    bag make "$work/files" "$work/made" md5
expect 'make: nothing is left' 0 '' nothing "$work/made"
rm -r "$work/files"
# A path of 5 + 19 * 201 + 4 octets, and 128 or 40 digits, two spaces and LF: 3,959 or 3,871 octets a line.
mkdir "$work/wide"
(cd "$work/wide" && for _ in {1..19}; do mkdir "$name" && cd "$name" || exit; done && seq 1000 5399 | xargs touch)
explain 'make: a manifest past the limit' 1 \
    "bag: $work/wide: manifest-sha512.txt would have more than 16,777,216 octets" \
    bag make "$work/wide" "$work/made" sha512 md5
explain 'make: a manifest past the limit, by another algorithm' 1 \
    "bag: $work/wide: manifest-sha1.txt would have more than 16,777,216 octets" \
    bag make "$work/wide" "$work/made" md5 sha1
mkdir -p "$work/crowd/data"
(cd "$work/crowd/data" && seq 1000001 | xargs touch)
explain 'intake: files past the limit' 3 "bag: $work/crowd: it has more than 1,000,000 payload files below data/" \
    bag intake "$work/ledger" t2 "$work/there" "$work/crowd"
rm "$work/crowd/data/1"
explain 'intake: as many files as may be' 1 "bag: $work/there: $nothing_below" \
    bag intake "$work/ledger" t2 "$work/there" "$work/crowd"
rm -r "$work/crowd"

# A file that can't be written whole, and a disk without room.
mkdir "$work/payload"
head -c 200000 /dev/zero >"$work/payload/A"
explain 'make: a file that is cut short' 3 "bag: $work/cut/data/A: $too_large" \
    small_files "$work/program" make "$work/payload" "$work/cut" md5
expect 'a bag to export' 0 'made 1 files, 200000 octets' bag make "$work/payload" "$work/bag" md5
expect 'a transfer to export' 0 new bag begin "$work/large ledger" t1 "$work/bag"
expect 'a transfer to export: its payload' 0 'taken data/A' bag intake "$work/large ledger" t1 "$work/bag"
explain 'export: a file that is cut short' 3 "bag: $work/out/data/A: $too_large" \
    small_files "$work/program" export "$work/large ledger" t1 "$work/out"
if own_mounts sh -c "mkdir '$work/disk' && mount -t tmpfs -o size=100k bag '$work/disk'" 2>"$work/no mount"; then
    on_disk() {
        own_mounts sh -c \
            'mount -t tmpfs -o size=100k bag "$1/disk" && "$1/program" make "$1/payload" "$1/disk/bag" md5' sh "$work"
    }
    explain 'a full disk' 3 "bag: $work/disk/bag/data/A: $no_room" on_disk
    # On a disk that has room for its own folder and that of the bag, or for data/ too, and for nothing more.
    on_folders() {
        own_mounts sh -c \
            'mount -t tmpfs -o nr_inodes="$2" bag "$1/disk" && "$1/program" make "$1/payload" "$1/disk/bag" "$3"' sh \
            "$work" "$@"
    }
    explain 'a disk without room for data/' 3 "bag: $work/disk/bag/data: $no_room" on_folders 2 md5
    for name in md5 sha512; do
        explain "a disk without room for a file, by $name" 3 "bag: $work/disk/bag/data/A: $no_room" on_folders 3 "$name"
    done
    # The same where the file is in a folder, which finds no room, or takes the last. What an export makes before are
    # two tag files.
    mkdir -p "$work/below/k"
    echo x >"$work/below/k/x"
    expect 'a file in a folder: its bag' 0 'made 1 files, 2 octets' bag make "$work/below" "$work/bag of below" md5
    rm "$work/bag of below/bag-info.txt" "$work/bag of below/tagmanifest-md5.txt"
    expect 'a file in a folder: begin' 0 new bag begin "$work/ledger of below" t1 "$work/bag of below"
    expect 'a file in a folder: intake' 0 'taken data/k/x' bag intake "$work/ledger of below" t1 "$work/bag of below"
    on_few() {
        own_mounts sh -c \
            'mount -t tmpfs -o nr_inodes="$2" bag "$1/disk" && work=$1 && shift 2 && exec "$work/program" "$@"' sh \
            "$work" "$@"
    }
    for number in 3 4; do
        for name in md5 sha512; do
            explain "a disk without room for a folder or its file, $number, by $name" 3 \
                "bag: $work/disk/bag/data/k/x: $no_room" \
                on_few "$number" make "$work/below" "$work/disk/bag" "$name"
        done
        explain "export: a disk without room for a folder or its file, $number" 3 \
            "bag: $work/disk/bag/data/k/x: $no_room" \
            on_few "$((number + 2))" export "$work/ledger of below" t1 "$work/disk/bag"
    done
    explain 'export: a disk without room for the folder' 3 "bag: $work/disk/bag: $no_room" \
        on_few 1 export "$work/ledger of below" t1 "$work/disk/bag"
    explain 'export: a disk without room for data/' 3 "bag: $work/disk/bag/data: $no_room" \
        on_few 2 export "$work/ledger of below" t1 "$work/disk/bag"
    explain 'export: a disk without room for a tag file' 3 "bag: $work/disk/bag/manifest-md5.txt: $no_room" \
        on_few 4 export "$work/ledger of below" t1 "$work/disk/bag"
    # on_full_disk COMMAND..: on a disk that a ledger of one transfer finds no room on, or its payload.
    on_full_disk() {
        own_mounts sh -c \
            'mount -t tmpfs -o size="$1" bag "$2/disk" && shift && work=$1 && shift &&
                "$work/program" begin "$work/disk/ledger" t1 "$work/bag" >/dev/null && exec "$work/program" "$@"' \
            sh 100k "$work" "$@"
    }
    explain 'a ledger on a full disk' 3 "bag: $work/disk/ledger: database or disk is full" \
        on_full_disk intake "$work/disk/ledger" t1 "$work/bag"
    # That comes before a folder that has nothing to deliver.
    for folders in 'there bag' 'bag there'; do
        # shellcheck disable=SC2086
        explain "a ledger on a full disk, and an empty folder: $folders" 3 \
            "bag: $work/disk/ledger: database or disk is full" \
            on_full_disk intake "$work/disk/ledger" t1 $(printf "$work/%s " $folders)
    done
    # A transfer that can't be committed, and a ledger of format 1 that can't be moved.
    cp -r examples/first-bag "$work/noted"
    yes 'Contact-Name: Ada' | head -n 2000 >"$work/noted/bag-info.txt"
    next_on_disk() {
        own_mounts sh -c 'mount -t tmpfs -o size=300k bag "$1/disk" && "$1/program" begin "$1/disk/ledger" t1 "$1/bag" \
            && exec "$1/program" begin "$1/disk/ledger" t2 "$1/noted"' sh "$work"
    }
    # The first command leaves its log, for whose copy there is no room.
    explain 'another transfer on a full disk' 3 \
        "bag: $work/disk/ledger: its log stays beside it, and both have to be kept together: \
database or disk is full
bag: $work/disk/ledger: database or disk is full" next_on_disk
    # That a log stays is told, and not why a transfer is refused.
    refused_on_disk() {
        own_mounts sh -c 'mount -t tmpfs -o size=300k bag "$1/disk" && "$1/program" begin "$1/disk/ledger" t1 "$1/bag" 2>"$1/no matter"
            exec "$1/program" begin "$1/disk/ledger" T2 "$1/noted"' sh "$work"
    }
    explain 'a refusal on a full disk' 1 "bag: $work/disk/ledger: its log stays beside it, and both have to be kept together: \
database or disk is full" refused_on_disk
    python3 -B -c \
        'import sys; from ledger_files import write_first
write_first(sys.argv[1], {"t1": {"data/b": bytes(60_000)}})' \
        "$work/first"
    first_on_disk() {
        own_mounts sh -c \
            'mount -t tmpfs -o size=100k bag "$1/disk" && cp "$1/first" "$1/disk/ledger" &&
                exec "$1/program" list "$1/disk/ledger"' \
            sh "$work"
    }
    explain 'a ledger of format 1 on a full disk' 3 "bag: $work/disk/ledger: database or disk is full" first_on_disk
    # The second file is not stored either, since the store failed before. What is told is still why that was.
    later_on_disk() {
        own_mounts sh -c \
            'mount -t tmpfs -o size=300k bag "$1/disk" && cd "$1" && "$1/program" begin disk/ledger t1 bag || exit
            "$1/program" intake disk/ledger t1 bag bag 2>&1; echo "$?"' sh "$work"
    }
    expect 'a full disk, and a file after that' 0 'new
refused data/A: store
refused data/A: store
bag: disk/ledger: database or disk is full
3' later_on_disk
else
    lacking 'a full disk (no permission to mount one)'
fi

# muted: an export that is cut short, with a closed standard error. Nothing is said while a file is open, so what it
# wrote is part of the payload file and nothing else.
muted() {
    small_files "$work/program" export "$work/large ledger" t1 "$work/muted" >"$work/heard" 2>&-
    cat "$work/heard"
    head -c 65536 "$work/payload/A" | cmp - "$work/muted/data/A"
}
expect 'a closed standard error' 0 'bag: files' muted
finish
