#!/usr/bin/env bash
# The commands on a ledger, with real ledgers and folders: what they print, their statuses, and what exists afterwards.
set -u
cd "$(dirname -- "$0")/.." || exit 1
. tests/lib/common.bash

# put FILE TEXT: writes the file, and makes its parent folders.
put() {
    mkdir -p -- "$(dirname -- "$1")" && printf %s "$2" >"$1"
}

# brought NAME PATH TEXT: makes a folder with this name and one payload file.
brought() {
    put "$work/$1/$2" "$3"
}

# new_tags NAME: makes a folder with this name and the tag files of the first bag.
new_tags() {
    mkdir -p "$work/$1"
    cp examples/first-bag/*.txt "$work/$1"
}

# same_bag FOLDER FOLDER: both are valid bags, and have the same files.
same_bag() {
    bag check "$1" && bag check "$2" && diff -r "$1" "$2"
}

# digests COMMAND FOLDER FILE..: the digests that this command of coreutils computes, with names relative to the folder.
digests() {
    (cd "$2" && "$1" -- "${@:3}")
}

# sql FILE TEXT: the answer of sqlite3.
sql() {
    sqlite3 "$1" "$2"
}

a_sha256=ba7816bf8f01cfea414140de5dae2223b00361a396177a9cb410ff61f20015ad
e_sha256=e3b0c44298fc1c149afbf4c8996fb92427ae41e4649b934ca495991b7852b855
declaration=$'BagIt-Version: 1.0\nTag-File-Character-Encoding: UTF-8\n'
both_missing='manifest-sha256.txt: missing: data/a.txt
manifest-sha256.txt: missing: data/e.txt
not complete'

take_program
ledger=$work/ledger
new_tags tags
cp -r examples/first-bag "$work/whole"

refuse 'begin without words' 'error: the following required arguments were not provided:' bag begin
refuse 'begin without a folder' 'error: the following required arguments were not provided:' bag begin "$ledger" t1
refuse 'begin with two folders' "error: unexpected argument 'more' found" bag begin "$ledger" t1 "$work/tags" more
refuse 'intake without a folder' 'error: the following required arguments were not provided:' bag intake "$ledger" t1
refuse 'report without a name' 'error: the following required arguments were not provided:' bag report "$ledger"
refuse 'audit with a folder' "error: unexpected argument 'more' found" bag audit "$ledger" t1 more
refuse 'fetch without a folder' 'error: the following required arguments were not provided:' bag fetch "$ledger" t1
refuse 'export without a folder' 'error: the following required arguments were not provided:' bag export "$ledger" t1
refuse 'list without a ledger' 'error: the following required arguments were not provided:' bag list
refuse 'list with a name' "error: unexpected argument 't1' found" bag list "$ledger" t1
refuse 'an option' "error: unexpected argument '--force' found" bag begin --force "$ledger" t1 "$work/tags"
expect 'nothing was made' 0 '' nothing "$ledger"

# new_mode: begins a transfer in a new ledger where nothing is masked, and prints the mode of its file.
new_mode() {
    (umask 0 && bag begin "$work/mode" t1 "$work/tags" && stat -c %a "$work/mode")
}
expect 'a new ledger: its owner alone may write to it' 0 $'new\n644' new_mode

# A transfer that arrives in one folder.
expect 'begin' 0 new bag begin "$ledger" t1 "$work/tags"
# A log without its ledger, whose file is gone or empty. Of a ledger that was never made 41 octets are left at most, and
# `begin` takes them up; a longer log is all that is left of a ledger, and no command touches it.
# alone SIZE FOUND: a log of this size beside no file, or an empty one.
alone() {
    rm -f "$work/gone"
    [ "$2" = none ] || : >"$work/gone"
    head -c "$1" /dev/urandom | tee "$work/gone log" >"$work/gone-wal"
}
# is_alone FOUND: both are as they were.
is_alone() {
    cmp "$work/gone log" "$work/gone-wal" &&
        if [ "$1" = none ]; then nothing "$work/gone"; else [ -f "$work/gone" ] && [ ! -s "$work/gone" ]; fi
}
reading=('list GONE' 'report GONE t1' 'audit GONE t1' "intake GONE t1 $work/whole" "fetch GONE t1 $work/whole" \
    "export GONE t1 $work/new")
begins=("begin GONE t1 $work/tags" "begin GONE T1 $work/tags" "begin GONE t1 $work/nodir")
for found in none empty; do
    for size in 42 278656; do
        alone "$size" "$found"
        for words in "${reading[@]}" "${begins[@]}"; do
            # shellcheck disable=SC2086
            expect "a log of $size octets alone, $found: $words" 3 'bag: store' bag ${words/GONE/"$work/gone"}
            expect "a log of $size octets alone, $found: $words: it stays as it is" 0 '' is_alone "$found"
        done
    done
    for size in 1 41; do
        alone "$size" "$found"
        for words in "${reading[@]}"; do
            # shellcheck disable=SC2086
            expect "a log of $size octets alone, $found: $words" 3 'bag: not a ledger' bag ${words/GONE/"$work/gone"}
            expect "a log of $size octets alone, $found: $words: it stays as it is" 0 '' is_alone "$found"
        done
        expect "a log of $size octets alone, $found: begin" 0 new bag begin "$work/gone" t1 "$work/tags"
        expect "a log of $size octets alone, $found: begin: it is gone" 0 '' nothing "$work/gone-wal"
    done
done
expect 'a transfer of which nothing came' 1 "$both_missing" bag report "$ledger" t1
expect 'a transfer of which nothing came, audited' 1 "$both_missing" bag audit "$ledger" t1
expect 'intake' 0 $'taken data/a.txt\ntaken data/e.txt' bag intake "$ledger" t1 "$work/whole"
expect 'intake again' 0 $'repeated data/a.txt\nrepeated data/e.txt' bag intake "$ledger" t1 "$work/whole"
expect 'report' 0 valid bag report "$ledger" t1
expect 'audit' 0 valid bag audit "$ledger" t1
expect 'list' 0 t1 bag list "$ledger"
expect 'export' 0 'exported 4 files' bag export "$ledger" t1 "$work/exported"
expect 'export: it is the bag that came' 0 $'valid\nvalid' same_bag "$work/whole" "$work/exported"
expect 'begin again' 0 again bag begin "$ledger" t1 "$work/whole"
new_tags changed
sed -i 1s/b/B/ "$work/changed/manifest-sha256.txt"
expect 'begin with other tag files' 1 'refused: differs' bag begin "$ledger" t1 "$work/changed"
expect 'what is held stays' 0 valid bag audit "$ledger" t1

# A name that no transfer has.
for name in t2 T1 '' 't 1' -; do
    expect "intake as '$name'" 1 'refused data/a.txt: no transfer
refused data/e.txt: no transfer' bag intake "$ledger" "$name" "$work/whole"
    expect "report of '$name'" 1 'bag: no transfer' bag report "$ledger" "$name"
    expect "audit of '$name'" 1 'bag: no transfer' bag audit "$ledger" "$name"
    expect "fetch of '$name'" 1 'bag: no transfer' bag fetch "$ledger" "$name" "$work/whole"
    expect "export of '$name'" 1 'bag: no transfer' bag export "$ledger" "$name" "$work/new"
    expect "export of '$name': nothing is made" 0 '' nothing "$work/new"
done
long_name=$(printf 'n%.0s' {1..64})
for name in '' T1 't 1' t_1 é "${long_name}n"; do
    expect "begin as '$name'" 1 'refused: name' bag begin "$ledger" "$name" "$work/tags"
    expect "begin as '$name', in a new ledger" 1 'refused: name' bag begin "$work/new" "$name" "$work/tags"
    expect "begin as '$name': no ledger is made" 0 '' nothing "$work/new"
done
expect 'the longest name' 0 new bag begin "$ledger" "$long_name" "$work/tags"
expect 'a name of hyphens' 0 new bag begin -- "$ledger" --- "$work/tags"
expect 'a name of a digit' 0 new bag begin "$ledger" 0 "$work/tags"
expect 'all names' 0 "---
0
$long_name
t1" bag list "$ledger"

# Deliveries in any order: each folder contains one file.
brought a data/a.txt abc
brought e data/e.txt ''
brought abd data/a.txt abd
brought abcd data/a.txt abcd
brought x data/e.txt x
brought z data/z abc
expect 'in one order' 0 new bag begin "$work/one" t1 "$work/tags"
expect 'in one order: deliveries' 1 'taken data/e.txt
taken data/a.txt
repeated data/a.txt
refused data/a.txt: digest sha256
refused data/z: not listed' bag intake "$work/one" t1 "$work"/{e,a,a,abd,z}
expect 'in one order: report' 0 valid bag report "$work/one" t1
expect 'in another order' 0 new bag begin "$work/other" t1 "$work/tags"
expect 'in another order: deliveries' 1 'refused data/a.txt: digest sha256
refused data/z: not listed
taken data/a.txt
taken data/e.txt
repeated data/a.txt' bag intake "$work/other" t1 "$work"/{abd,z,a,e,a}
expect 'in another order: report' 0 valid bag report "$work/other" t1
expect 'in one order: export' 0 'exported 4 files' bag export "$work/one" t1 "$work/one bag"
expect 'in another order: export' 0 'exported 4 files' bag export "$work/other" t1 "$work/other bag"
expect 'in any order the bag is the same' 0 $'valid\nvalid' same_bag "$work/one bag" "$work/other bag"
expect 'another transfer' 0 new bag begin "$work/other" t3 "$work/tags"
expect 'another transfer: one file' 0 'taken data/e.txt' bag intake "$work/other" t3 "$work/e"
expect 'another transfer: report' 1 $'manifest-sha256.txt: missing: data/a.txt\nnot complete' \
    bag report "$work/other" t3
expect 'another transfer: the other file' 0 'taken data/a.txt' bag intake "$work/other" t3 "$work/a"
expect 'another transfer: report again' 0 valid bag report "$work/other" t3
expect 'both names' 0 $'t1\nt3' bag list "$work/other"

# Listed lengths and digests.
new_tags lengths
printf '%s\n' 'http://example.org/a 3 data/a.txt' 'http://example.org/e - data/e.txt' >"$work/lengths/fetch.txt"
expect 'lengths' 0 new bag begin "$work/length" t1 "$work/lengths"
expect 'lengths: deliveries' 1 'refused data/a.txt: length
refused data/a.txt: digest sha256
taken data/a.txt
refused data/e.txt: digest sha256' bag intake "$work/length" t1 "$work"/{abcd,abd,a,x}
printf '%s\n' 'http://example.org/a 4 data/a.txt' 'http://example.org/a 3 data/a.txt' >"$work/lengths/fetch.txt"
expect 'two lengths' 0 new bag begin "$work/length" t2 "$work/lengths"
expect 'two lengths: none is right' 1 'refused data/a.txt: length
refused data/a.txt: length' bag intake "$work/length" t2 "$work/a" "$work/abcd"

# A transfer without payload files is complete at once.
put "$work/empty/bagit.txt" "$declaration"
: >"$work/empty/manifest-sha256.txt"
expect 'no payload' 0 new bag begin "$work/no payload" t1 "$work/empty"
expect 'no payload: report' 0 valid bag report "$work/no payload" t1
expect 'no payload: export' 0 'exported 2 files' bag export "$work/no payload" t1 "$work/empty bag"
expect 'no payload: the files' 0 $'bagit.txt\ndata\nmanifest-sha256.txt' below "$work/empty bag"
expect 'no payload: intake of nothing' 0 '' bag intake "$work/no payload" t1 "$work/empty" "$work/tags"

# Many folders, of which the last alone has files.
expect 'many folders: begin' 0 new bag begin "$work/folders" t1 "$work/tags"
mkdir "$work/bare"
# shellcheck disable=SC2046
expect 'many folders' 0 $'taken data/a.txt\ntaken data/e.txt' \
    env -C "$work" "$PWD/bag" intake folders t1 $(yes bare | head -n 70000) whole

# A bag with two algorithms and a hole that a supplier fills.
mkdir -p "$work/hole/data" "$work/supplier"
printf abc >"$work/hole/data/a.txt"
printf '%s' "$declaration" >"$work/hole/bagit.txt"
printf '%s\n' 'Source-Organization: Test' 'Payload-Oxum: 3.2' >"$work/hole/bag-info.txt"
printf '%s\n' 'http://example.org/e 0 data/e.txt' >"$work/hole/fetch.txt"
: >"$work/supplier/e"
for alg in md5 sha512; do
    {
        digests "${alg}sum" "$work/hole" data/a.txt
        printf '%s  data/e.txt\n' "$(digests "${alg}sum" "$work/supplier" e | cut -d ' ' -f 1)"
    } >"$work/hole/manifest-$alg.txt"
done
for alg in md5 sha512; do
    digests "${alg}sum" "$work/hole" bag-info.txt bagit.txt fetch.txt manifest-md5.txt manifest-sha512.txt \
        >"$work/tagmanifest-$alg.txt"
done
mv "$work"/tagmanifest-*.txt "$work/hole"
hole_missing='manifest-md5.txt: missing: data/e.txt
manifest-sha512.txt: missing: data/e.txt
bag-info.txt: Payload-Oxum wrong
not complete'
expect 'a hole: the lengths of the tag files' 0 '44 bag-info.txt
54 bagit.txt
34 fetch.txt
90 manifest-md5.txt
282 manifest-sha512.txt
240 tagmanifest-md5.txt
720 tagmanifest-sha512.txt' env -C "$work/hole" sh -c 'stat -c "%s %n" *.txt'
expect 'a hole: check' 1 "$hole_missing" bag check "$work/hole"
expect 'a hole: begin' 0 new bag begin "$work/holes" w "$work/hole"
expect 'a hole: intake' 0 'taken data/a.txt' bag intake "$work/holes" w "$work/hole"
expect 'a hole: report' 1 "$hole_missing" bag report "$work/holes" w
expect 'a supplier without it' 1 'refused data/e.txt: not supplied' bag fetch "$work/holes" w "$work/hole"
mkdir -p "$work/of a directory/data/e.txt" "$work/of a link/data" "$work/of a lost link/data" "$work/of a fifo/data"
expect 'a supplier of a directory' 3 'refused data/e.txt: supplier' bag fetch "$work/holes" w "$work/of a directory"
ln -s "$work/supplier/e" "$work/of a link/data/e.txt"
expect 'a supplier of a link' 3 'refused data/e.txt: supplier' bag fetch "$work/holes" w "$work/of a link"
ln -s none "$work/of a lost link/data/e.txt"
expect 'a supplier of a link that leads nowhere' 3 'refused data/e.txt: supplier' \
    bag fetch "$work/holes" w "$work/of a lost link"
mkfifo "$work/of a fifo/data/e.txt"
expect 'a supplier of a fifo, which is never opened' 3 'refused data/e.txt: supplier' \
    bag fetch "$work/holes" w "$work/of a fifo"
brought 'linked' files/e.txt ''
ln -s files "$work/linked/data"
expect 'a supplier whose directory is a link' 3 'refused data/e.txt: supplier' bag fetch "$work/holes" w "$work/linked"
put "$work/of a file/data" ''
expect 'a supplier with a file for the directory' 1 'refused data/e.txt: not supplied' \
    bag fetch "$work/holes" w "$work/of a file"
expect 'a supplier of another file' 1 'refused data/e.txt: length' bag fetch "$work/holes" w "$work/x"
expect 'no supplier' 3 'bag: files' bag fetch "$work/holes" w "$work/none"
expect 'a file for a supplier' 3 'bag: files' bag fetch "$work/holes" w "$work/e/data/e.txt"
expect 'nothing was taken' 1 "$hole_missing" bag audit "$work/holes" w
expect 'a supplier' 0 'taken data/e.txt' bag fetch "$work/holes" w "$work/e"
expect 'a supplier: nothing is left to fetch' 0 '' bag fetch "$work/holes" w "$work/e"
expect 'a supplier: nothing is asked for' 0 '' bag fetch "$work/holes" w "$work/of a directory"
expect 'a hole: report' 0 valid bag report "$work/holes" w
expect 'a hole: audit' 0 valid bag audit "$work/holes" w
expect 'a hole: export' 0 'exported 9 files' bag export "$work/holes" w "$work/filled"
: >"$work/hole/data/e.txt"
expect 'a hole: the bag with its hole filled' 0 $'valid\nvalid' same_bag "$work/hole" "$work/filled"

# Several entries, one of which lists a file again.
new_tags entries
printf '%s\n' 'http://example.org/e 0 data/e.txt' 'http://example.org/1 - data/a.txt' \
    'http://example.org/2 3 data/a.txt' \
    >"$work/entries/fetch.txt"
expect 'entries' 0 new bag begin "$work/several" t1 "$work/entries"
expect 'entries: none is supplied' 1 'refused data/e.txt: not supplied
refused data/a.txt: not supplied
refused data/a.txt: not supplied' bag fetch "$work/several" t1 "$work/empty"
expect 'entries: a damaged one' 1 'refused data/e.txt: not supplied
refused data/a.txt: digest sha256
refused data/a.txt: digest sha256' bag fetch "$work/several" t1 "$work/abd"
expect 'entries: one of them' 1 $'refused data/e.txt: not supplied\ntaken data/a.txt' \
    bag fetch "$work/several" t1 "$work/a"
expect 'entries: the other' 0 'taken data/e.txt' bag fetch "$work/several" t1 "$work/e"
expect 'entries: a payload without a fetch.txt' 0 '' bag fetch "$work/other" t1 "$work/e"

# refused NAME STATUS LINE FOLDER: no transfer is opened with its tag files, no ledger is made, and an existing one
# stays as it was.
refused() {
    sha256sum "$ledger" >"$work/before"
    expect "$1" "$2" "$3" bag begin "$ledger" new "$4"
    expect "$1: the ledger stays" 0 '' sha256sum --check --quiet "$work/before"
    expect "$1, in a new ledger" "$2" "$3" bag begin "$work/new" new "$4"
    expect "$1: no ledger is made" 0 '' nothing "$work/new"
    expect "$1: nor a log" 0 '' nothing "$work/new-wal"
}
# but NAME FILE TEXT: makes a folder with the tag files of the first bag, except for one file.
but() {
    new_tags "$1"
    printf '%b' "$3" >"$work/$1/$2"
}
manifest="$a_sha256  data/a.txt\n$e_sha256  data/e.txt\n"
refused 'no bagit.txt' 1 'refused: no bagit.txt' "$work/a"
but marked bagit.txt "\xef\xbb\xbf$declaration"
refused 'a marked bagit.txt' 1 'refused: bagit.txt: byte order mark' "$work/marked"
but short bagit.txt 'BagIt-Version: 1.0'
refused 'a short bagit.txt' 1 'refused: bagit.txt: line count' "$work/short"
put "$work/no manifest/bagit.txt" "$declaration"
refused 'no manifest' 1 'refused: no payload manifest' "$work/no manifest"
but upwards manifest-sha256.txt "$manifest$e_sha256  data/../k\n"
refused 'a path upwards' 1 'refused: manifest-sha256.txt:3: path' "$work/upwards"
but outside manifest-sha256.txt "$manifest$e_sha256  k\n"
refused 'a tag file in a manifest' 1 'refused: manifest-sha256.txt:3: wrong place' "$work/outside"
but twice manifest-sha256.txt "$manifest$a_sha256  data/a.txt\n"
refused 'a path twice' 1 'refused: manifest-sha256.txt:3: twice' "$work/twice"
but one-manifest manifest-md5.txt '900150983cd24fb0d6963f7d28e17f72  data/a.txt\n'
refused 'a path in one manifest alone' 1 'refused: manifest-md5.txt: unlisted: data/e.txt' "$work/one-manifest"
but label bag-info.txt 'L : v\n'
refused 'a bad label' 1 'refused: bag-info.txt:1: label' "$work/label"
but oxum bag-info.txt 'Payload-Oxum: 3\n'
refused 'a bad Oxum' 1 'refused: bag-info.txt: Payload-Oxum form' "$work/oxum"
but two-oxums bag-info.txt 'Payload-Oxum: 3.2\nPayload-Oxum: 3.2\n'
refused 'two Oxums' 1 'refused: bag-info.txt: Payload-Oxum repeated' "$work/two-oxums"
but url fetch.txt '1http:x - data/a.txt\n'
refused 'a bad url' 1 'refused: fetch.txt:1: url' "$work/url"
but not-in fetch.txt 'http://example.org/z - data/z\n'
refused 'an entry that is not listed' 1 'refused: fetch.txt: not in manifest-sha256.txt: data/z' "$work/not-in"
but not-listed tagmanifest-sha256.txt ''
refused 'a manifest that is not listed' 1 'refused: tagmanifest-sha256.txt: not listed: manifest-sha256.txt' \
    "$work/not-listed"
but wrong-digest tagmanifest-sha256.txt "$e_sha256  manifest-sha256.txt\n"
refused 'a wrong digest of a manifest' 1 'refused: tagmanifest-sha256.txt: digest: manifest-sha256.txt' \
    "$work/wrong-digest"
but lost tagmanifest-sha256.txt "$(cd "$work/tags" && sha256sum manifest-sha256.txt)\n$e_sha256  notes.txt\n"
refused 'a tag file that is missing' 1 'refused: tagmanifest-sha256.txt: missing: notes.txt' "$work/lost"
but clash manifest-sha256.txt "$a_sha256  data/a%25\n$a_sha256  data/a%25/b\n"
refused 'a file in a file' 1 'refused: clash data/a%25' "$work/clash"
but version bagit.txt 'BagIt-Version: 0.96\nTag-File-Character-Encoding: UTF-8\n'
refused 'another version' 2 'outside: version' "$work/version"
but encoding bagit.txt 'BagIt-Version: 1.0\nTag-File-Character-Encoding: ISO-8859-1\n'
refused 'another encoding' 2 'outside: encoding' "$work/encoding"
but algorithm manifest-sha224.txt ''
refused 'another algorithm' 2 'outside: algorithm sha224' "$work/algorithm"
new_tags large
head -c 16777217 /dev/zero >"$work/large/notes.bin"
refused 'a tag file past the limit' 1 'refused: tag too large' "$work/large"
truncate -s 16777216 "$work/large/notes.bin"
expect 'a tag file at the limit' 0 new bag begin "$work/limits" octets "$work/large"
cp -r "$work/empty" "$work/lines"
yes '' | head -n 100001 >"$work/lines/manifest-sha256.txt"
refused 'a line past the limit' 1 'refused: tag too large' "$work/lines"
sed -i 1d "$work/lines/manifest-sha256.txt"
expect 'lines at the limit' 0 new bag begin "$work/limits" lines "$work/lines"
refused 'no folder' 3 'bag: files' "$work/none"
refused 'a file for the folder' 3 'bag: files' "$work/tags/bagit.txt"
refused 'an empty name of a folder' 3 'bag: files' ''
expect 'no folder, and no name of a transfer' 3 'bag: files' bag begin "$ledger" T1 "$work/none"
expect 'no folder for a ledger' 3 'bag: store' bag begin "$work/none/ledger" t1 "$work/tags"
expect 'no folder for a ledger: none is made' 0 '' nothing "$work/none"

# What isn't allowed in a bag ends a command before it does any work.
mkdir "$work/with link" "$work/with fifo" "$work/other octets" "$work/plain data"
for folder in 'with link' 'with fifo' 'other octets' 'plain data'; do
    cp -r examples/first-bag/. "$work/$folder"
done
ln -s a.txt "$work/with link/data/b.txt"
mkfifo "$work/with fifo/data/pipe"
touch "$work/other octets/data/"$'\377'
rm -r "$work/plain data/data"
touch "$work/plain data/data"
expect 'a new transfer' 0 new bag begin "$work/none taken" t1 "$work/tags"
for folder in 'with link' 'with fifo' 'other octets' 'plain data' none 'e/data/e.txt'; do
    refused "begin with '$folder'" 3 'bag: files' "$work/$folder"
    expect "intake of '$folder'" 3 'bag: files' bag intake "$work/none taken" t1 "$work/$folder"
    expect "intake of '$folder' after another" 3 'bag: files' \
        bag intake "$work/none taken" t1 "$work/whole" "$work/$folder"
    expect "intake of '$folder' for no transfer" 3 'bag: files' \
        bag intake "$work/none taken" t2 "$work/whole" "$work/$folder"
done
expect 'a folder that can not be opened: nothing was taken' 1 "$both_missing" bag audit "$work/none taken" t1
expect 'a link that leads to a folder' 0 '' ln -s whole "$work/a link"
expect 'a link that leads to a folder: begin' 0 again bag begin "$work/none taken" t1 "$work/a link"
expect 'a link that leads to a folder: intake' 0 $'taken data/a.txt\ntaken data/e.txt' \
    bag intake "$work/none taken" t1 "$work/a link"

# stays NAME FOLDER: an export leaves what already exists as it was.
stays() {
    find "$2" -printf '%P %y %T@ %s\n' 2>"$work/gone" | LC_ALL=C sort >"$work/before"
    expect "$1" 3 'bag: files' bag export "$ledger" t1 "$2"
    expect "$1, and no transfer" 3 'bag: files' bag export "$ledger" t2 "$2"
    find "$2" -printf '%P %y %T@ %s\n' 2>"$work/gone" | LC_ALL=C sort >"$work/after"
    expect "$1: it stays as it was" 0 '' diff "$work/before" "$work/after"
}
stays 'export into a bag' "$work/exported"
mkdir "$work/empty folder"
stays 'export into an empty folder' "$work/empty folder"
stays 'export into a file' "$work/e/data/e.txt"
ln -s nowhere "$work/dangling"
stays 'export into a link that leads nowhere' "$work/dangling"
stays 'export below no folder' "$work/none/new"
stays 'export into an empty name' ''
expect 'export of a transfer that is not whole' 0 'exported 2 files' bag export "$ledger" 0 "$work/part"
expect 'export of a transfer that is not whole: it is told' 1 "$both_missing" bag check "$work/part"
expect 'export, with a slash at the end' 0 'exported 4 files' bag export "$ledger" t1 "$work/slash/"
expect 'export, with a slash at the end: the bag' 0 $'valid\nvalid' same_bag "$work/whole" "$work/slash"

# Names of files.
make_odd_names "$work/names"
mkdir "$work/names/k"
printf 9 >"$work/names/größe"
printf 10 >"$work/names/manifest-sha256.txt"
printf 11 >"$work/names/k.txt"
printf 12 >"$work/names/k/x"
printf 13 >"$work/names/k0"
expect 'names' 0 'made 13 files, 17 octets' bag make "$work/names" "$work/named" sha1 sha256
expect 'names: begin' 0 new bag begin "$work/a ledger's name %0A é" names "$work/named"
expect 'names: intake' 0 'taken data/ first blank
taken data/%250A
taken data/*\?[é]
taken data/-
taken data/100%25
taken data/größe
taken data/k.txt
taken data/k/x
taken data/k0
taken data/line%0Afeed
taken data/manifest-sha256.txt
taken data/return%0D
taken data/two  blanks/last blank ' bag intake "$work/a ledger's name %0A é" names "$work/named"
expect 'names: export' 0 'exported 19 files' bag export "$work/a ledger's name %0A é" names "$work/again %0A"
expect 'names: the bag' 0 $'valid\nvalid' same_bag "$work/named" "$work/again %0A"
printf x >"$work/named/data/"$'more\n%'
rm -r "$work/named"/data/[!m]*
expect 'names: one that is not listed' 1 'repeated data/manifest-sha256.txt
refused data/more%0A%25: not listed' bag intake "$work/a ledger's name %0A é" names "$work/named"

# Folders whose names begin as the name of another does. The octets of a slash are above those of a hyphen and a dot.
for name in a 'a ' 'a!' a-1 a.b a0 ab; do
    put "$work/alike/$name/$name/x" x
    put "$work/alike/$name/x" x
done
expect 'names that begin alike' 0 'made 14 files, 14 octets' bag make "$work/alike" "$work/alike bag" md5
expect 'names that begin alike: begin' 0 new bag begin "$work/alike ledger" t1 "$work/alike bag"
expect 'names that begin alike: intake' 0 "$(cut -c 35- "$work/alike bag/manifest-md5.txt" | sed 's/^/taken /')" \
    bag intake "$work/alike ledger" t1 "$work/alike bag"
expect 'names that begin alike: export' 0 'exported 18 files' bag export "$work/alike ledger" t1 "$work/alike again"
expect 'names that begin alike: the bag' 0 $'valid\nvalid' same_bag "$work/alike bag" "$work/alike again"

# The longest path that can be opened from a folder with a one-letter name has 4,093 octets.
name=$(printf 'k%.0s' {1..225})
mkdir -p "$work/long/b/data"
(cd "$work/long/b/data" && for _ in {1..18}; do mkdir "$name" && cd "$name" || exit; done \
    && printf abc >"$(printf 'f%.0s' {1..18})")
long_path=data/$(printf "$name/%.0s" {1..18})$(printf 'f%.0s' {1..18})
but long/t manifest-sha256.txt "$a_sha256  $long_path\n"
expect 'a long path: its octets' 0 4091 expr length "$long_path"
expect 'a long path: begin' 0 new env -C "$work/long" "$PWD/bag" begin l t1 t
expect 'a long path: intake' 0 "taken $long_path" env -C "$work/long" "$PWD/bag" intake l t1 b
expect 'a long path: export' 0 'exported 3 files' env -C "$work/long" "$PWD/bag" export l t1 x
expect 'a long path: the bag' 0 valid env -C "$work/long" "$PWD/bag" check x

# Names that could be taken for something else.
expect 'a ledger named as an option' 0 new env -C "$work" "$PWD/bag" begin -- --ledger t1 tags
expect 'a ledger named as an option: list' 0 t1 env -C "$work" "$PWD/bag" list -- --ledger
expect 'a ledger named as an option: it is there' 0 '' test -f "$work/--ledger"
expect 'from another directory' 0 valid env -C "$work" "$PWD/bag" report ledger t1

# Many files, and a large one.
mkdir "$work/many"
(cd "$work/many" && seq -w 20000 | split -l 1 -a 4 -)
expect 'many files' 0 'made 20000 files, 120000 octets' bag make "$work/many" "$work/many bag" sha256
expect 'many files: begin' 0 new bag begin "$work/large ledger" many "$work/many bag"
expect 'many files: intake' 0 "$(cut -c 67- "$work/many bag/manifest-sha256.txt" | sed 's/^/taken /')" \
    bag intake "$work/large ledger" many "$work/many bag"
expect 'many files: report' 0 valid bag report "$work/large ledger" many
expect 'many files: export' 0 'exported 20004 files' bag export "$work/large ledger" many "$work/many again"
expect 'many files: the bag' 0 $'valid\nvalid' same_bag "$work/many bag" "$work/many again"
mkdir "$work/one file"
head -c 50000007 /dev/zero | tr '\0' A >"$work/one file/A"
expect 'a large file' 0 'made 1 files, 50000007 octets' bag make "$work/one file" "$work/large bag" md5 sha512
expect 'a large file: begin' 0 new bag begin "$work/large ledger" one "$work/large bag"
expect 'a large file: intake' 0 'taken data/A' bag intake "$work/large ledger" one "$work/large bag"
expect 'a large file: audit' 0 valid bag audit "$work/large ledger" one
expect 'a large file: export' 0 'exported 7 files' bag export "$work/large ledger" one "$work/large again"
expect 'a large file: the bag' 0 $'valid\nvalid' same_bag "$work/large bag" "$work/large again"

# rows LEDGER: how many rows there are of payload files, and of their pieces.
rows() {
    python3 - "$1" <<'PYTHON'
import sqlite3, sys
database = sqlite3.connect(sys.argv[1])
print(*(database.execute(f"SELECT count(*) FROM {table}").fetchone()[0] for table in ("held", "piece")))
PYTHON
}
put "$work/past/bagit.txt" "$declaration"
put "$work/past/manifest-md5.txt" $'d41d8cd98f00b204e9800998ecf8427e  data/A\n'
mkdir "$work/past/data"
truncate -s 1073741825 "$work/past/data/A"
expect 'a file past the limit: begin' 0 new bag begin "$work/limit" past "$work/past"
expect 'a file past the limit' 1 'refused data/A: too large' bag intake "$work/limit" past "$work/past"
expect 'a file past the limit: the log is gone' 0 '' nothing "$work/limit-wal"
expect 'a file past the limit: nothing is held' 0 '0 0' rows "$work/limit"
expect 'a file past the limit: report' 1 $'manifest-md5.txt: missing: data/A\nnot complete' \
    bag report "$work/limit" past
# The digest of 1,073,741,824 octets 0 is that of md5sum.
mv "$work/past" "$work/at"
put "$work/at/manifest-md5.txt" $'cd573cfaace07e7949bc0c46028904ff  data/A\n'
truncate -s 1073741824 "$work/at/data/A"
expect 'a file at the limit: begin' 0 new bag begin "$work/limit" at "$work/at"
expect 'a file at the limit' 0 'taken data/A' bag intake "$work/limit" at "$work/at"
expect 'a file at the limit: all of it is held' 0 '1 16384' rows "$work/limit"
expect 'a file at the limit: report' 0 valid bag report "$work/limit" at
expect 'a file at the limit: audit' 0 valid bag audit "$work/limit" at
expect 'a file at the limit: export' 0 'exported 3 files' bag export "$work/limit" at "$work/at again"
expect 'a file at the limit: the bag' 0 '' diff -r "$work/at" "$work/at again"
rm -r "$work/limit" "$work/at/data/A" "$work/at again"

# Files that may not be read or written.
chmod 711 "$work"
mkdir "$work/open" "$work/locked"
chmod 777 "$work/open"
chmod 555 "$work/locked"
cp -r examples/first-bag "$work/unread"
touch "$work/unread/data/z"
chmod -R a+rX "$work/tags" "$work/unread" "$work/e"
chmod 000 "$work/unread/data/a.txt" "$work/unread/data/z"
expect 'as nobody' 0 new nobody "$work/program" begin "$work/open/ledger" t1 "$work/tags"
expect 'payload files that may not be read: begin' 0 again \
    nobody "$work/program" begin "$work/open/ledger" t1 "$work/unread"
expect 'payload files that may not be read: intake' 3 'refused data/a.txt: reader
taken data/e.txt
refused data/z: not listed' nobody "$work/program" intake "$work/open/ledger" t1 "$work/unread"
expect 'payload files that may not be read, for no transfer' 1 'refused data/a.txt: no transfer
refused data/e.txt: no transfer
refused data/z: no transfer' nobody "$work/program" intake "$work/open/ledger" t2 "$work/unread"
expect 'payload files that may not be read: report' 1 $'manifest-sha256.txt: missing: data/a.txt\nnot complete' \
    nobody "$work/program" report "$work/open/ledger" t1
chmod 000 "$work/unread/bagit.txt"
expect 'a tag file that may not be read' 3 'bag: files' nobody "$work/program" begin "$work/open/new" t1 "$work/unread"
expect 'a tag file that may not be read: no ledger is made' 0 '' nothing "$work/open/new"
expect 'a tag file that may not be read, and no name' 1 'refused: name' \
    nobody "$work/program" begin "$work/open/new" T1 "$work/unread"
expect 'a folder that takes no ledger' 3 'bag: store' nobody "$work/program" begin "$work/locked/ledger" t1 "$work/tags"
expect 'a folder that takes no bag' 3 'bag: files' \
    nobody "$work/program" export "$work/open/ledger" t1 "$work/locked/bag"
expect 'a folder that takes nothing: nothing is made' 0 '' below "$work/locked"
new_tags fetched
echo 'http://example.org/a - data/a.txt' >"$work/fetched/fetch.txt"
chmod -R a+rX "$work/fetched"
expect 'a supplier that may not be read: begin' 0 new \
    nobody "$work/program" begin "$work/open/ledger" t3 "$work/fetched"
expect 'a supplier that may not be read' 3 'refused data/a.txt: supplier' \
    nobody "$work/program" fetch "$work/open/ledger" t3 "$work/unread"
chmod 000 "$work/unread/data"
expect 'a directory that may not be read: intake' 3 'bag: files' \
    nobody "$work/program" intake "$work/open/ledger" t1 "$work/unread"
expect 'a directory that may not be read: fetch' 3 'refused data/a.txt: supplier' \
    nobody "$work/program" fetch "$work/open/ledger" t3 "$work/unread"
chmod 755 "$work/unread/data"
chmod 000 "$work/open/ledger"
for words in "report $work/open/ledger t1" "audit $work/open/ledger t1" "list $work/open/ledger" \
    "begin $work/open/ledger t1 $work/tags" "intake $work/open/ledger t1 $work/e" "fetch $work/open/ledger t1 $work/e" \
    "export $work/open/ledger t1 $work/open/new"; do
    # shellcheck disable=SC2086
    expect "a ledger that may not be read: ${words%% *}" 3 'bag: store' nobody "$work/program" $words
done
expect 'a ledger that may not be read: no bag is made' 0 '' nothing "$work/open/new"

# A full disk, and outputs that are closed or full.
if own_mounts sh -c "mkdir '$work/disk' && mount -t tmpfs -o size=1m bag '$work/disk'" 2>"$work/no mount"; then
    # on_disk: a transfer on a disk of 1 MiB, each command followed by its status.
    on_disk() {
        own_mounts sh -c 'mount -t tmpfs -o size=1m bag "$1/disk" && cd "$1" || exit
            "$1/program" begin disk/ledger one "large again"; echo "$?"
            "$1/program" intake disk/ledger one "large again" 2>&1; echo "$?"
            "$1/program" report disk/ledger one; echo "$?"
            "$1/program" export disk/ledger one disk/bag; echo "$?"' sh "$work"
    }
    expect 'a full disk' 0 'new
0
refused data/A: store
bag: disk/ledger: database or disk is full
3
manifest-md5.txt: missing: data/A
manifest-sha512.txt: missing: data/A
bag-info.txt: Payload-Oxum wrong
not complete
1
exported 6 files
0' on_disk
    # on_small_disk: an empty file, on a disk that has no room for a ledger. It stays empty, and no log is left.
    on_small_disk() {
        own_mounts sh -c 'mount -t tmpfs -o size=16k bag "$1/disk" && cd "$1" && : >disk/ledger || exit
            "$1/program" begin disk/ledger one tags 2>&1; echo "$?"
            stat -c "%n %s" disk/*' sh "$work"
    }
    expect 'a full disk, and an empty file for a ledger' 0 'bag: store
bag: disk/ledger: database or disk is full
3
disk/ledger 0' on_small_disk
else
    lacking 'a full disk (no permission to mount one)'
fi
expect 'an export that is cut short' 3 'bag: files' \
    small_files "$work/program" export "$work/large ledger" one "$work/cut"
expect 'an export that is cut short: what was written stays' 0 $'bagit.txt\nbag-info.txt\ndata/A' \
    env -C "$work/cut" sh -c 'find bagit.txt bag-info.txt data -type f'
# After a failure of the store, what is not listed is told as that.
cp -r "$work/large again" "$work/large and more"
echo more >"$work/large and more/data/B"
expect 'a ledger that cannot grow: begin' 0 new bag begin "$work/small ledger" one "$work/large again"
expect 'a ledger that cannot grow, and a file that is not listed' 3 \
    $'refused data/A: store\nrefused data/B: not listed' \
    small_files "$work/program" intake "$work/small ledger" one "$work/large and more"
for output in closed full; do
    heard=("$output" bag)
    ledger=$work/$output
    expect "a $output output: begin" 3 '' "${heard[@]}" begin "$ledger" t1 "$work/tags"
    expect "a $output output: the transfer is open" 0 t1 bag list "$ledger"
    expect "a $output output: intake" 3 '' "${heard[@]}" intake "$ledger" t1 "$work/e" "$work/a"
    expect "a $output output: what came is held" 0 valid bag audit "$ledger" t1
    expect "a $output output: report" 3 '' "${heard[@]}" report "$ledger" t1
    expect "a $output output: audit" 3 '' "${heard[@]}" audit "$ledger" t1
    expect "a $output output: list" 3 '' "${heard[@]}" list "$ledger"
    expect "a $output output: export" 3 '' "${heard[@]}" export "$ledger" t1 "$work/$output bag"
    expect "a $output output: the bag is there" 0 $'valid\nvalid' same_bag "$work/whole" "$work/$output bag"
    expect "a $output output: a transfer to fetch" 0 new bag begin "$ledger" t2 "$work/entries"
    expect "a $output output: fetch" 3 '' "${heard[@]}" fetch "$ledger" t2 "$work/whole"
    expect "a $output output: what was fetched is held" 0 valid bag audit "$ledger" t2
done
finish
