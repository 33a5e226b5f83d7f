#!/usr/bin/env bash
# Each kind of thing that a disk can hold, in each place where a command meets one: what is printed, and that what was
# there stays as it was. Cases that program.sh, make.sh, commands.sh and command_ledgers.py have are left out here.
set -u
cd "$(dirname -- "$0")/.." || exit 1
. tests/lib/common.bash

take_program
chmod 711 "$work"

# bag ARGUMENT..: runs the program, which must not wait for anything.
bag() {
    timeout 20 "$work/program" "$@"
}

# What links lead to is in `outside`, one thing of each kind in `kinds`, and what a command is given in `place`.
outside=$work/outside kinds=$work/kinds place=$work/place
mkdir -p "$outside/folder/k" "$kinds" "$place"
printf abc | tee "$outside/file" "$outside/folder/f" >"$outside/folder/k/f"
ln -s loop "$outside/loop"
mkfifo "$outside/fifo"
printf abc >"$kinds/a file"
mkdir "$kinds/a folder"
ln -s "$outside/file" "$kinds/a link to a file"
ln -s "$outside/folder" "$kinds/a link to a folder"
ln -s "$outside/nothing" "$kinds/a link to nothing"
ln -s "$outside/loop" "$kinds/a link to itself"
ln -s "$outside/fifo" "$kinds/a link to a fifo"
mkfifo "$kinds/a fifo"
python3 -c 'import os, stat, sys; os.mknod(sys.argv[1], stat.S_IFSOCK | 0o644)' "$kinds/a socket"
specials=('a fifo' 'a socket')
if mknod "$kinds/a device" c 1 3 2>"$work/no device"; then
    specials+=('a device')
else
    lacking 'devices (mknod is not permitted)'
fi
# What no bag can hold, and what of it doesn't stand for a folder either.
odd=('a link to a folder' 'a link to a file' 'a link to nothing' 'a link to itself' 'a link to a fifo' "${specials[@]}")
no_folders=("${odd[@]:1}")

# put KIND NAME: makes a thing of this kind.
put() {
    cp -a -- "$kinds/$1" "$2"
}

# fresh [FOLDER]: `place` is a copy of the folder, or empty.
fresh() {
    chmod -R u+rwX "$place"
    rm -rf -- "$place"
    if [ $# -eq 0 ]; then mkdir "$place"; else cp -r -- "$1" "$place"; fi
}

# listed FOLDER..: all that is below the folders, with types, modes, inodes, lengths and times, what links lead to, and
# the digests of files.
listed() {
    {
        find "$@" -mindepth 1 -printf '%p %y %m %i %s %T@ %l\n' | LC_ALL=C sort
        find "$@" -type f -exec sha256sum -- {} + | LC_ALL=C sort
    } 2>"$work/gone"
}

# keeps NAME STATUS LINES COMMAND..: as `expect`, and what is in `place` and `outside` stays as it was.
keeps() {
    listed "$place" "$outside" >"$work/before"
    expect "$@"
    listed "$place" "$outside" >"$work/after"
    expect "$1: what was there stays" 0 '' diff "$work/before" "$work/after"
}

# no_new NAME: no bag and no ledger was made.
no_new() {
    expect "$1: nothing is made" 0 '' nothing "$work/new"
    expect "$1: nor a log" 0 '' nothing "$work/new-wal"
}

a_sha256=ba7816bf8f01cfea414140de5dae2223b00361a396177a9cb410ff61f20015ad
both_missing='manifest-sha256.txt: missing: data/a.txt
manifest-sha256.txt: missing: data/e.txt
not complete'
whole=$work/whole
cp -r examples/first-bag "$whole"
mkdir "$work/tags"
cp examples/first-bag/*.txt "$work/tags"
ledger=$work/ledger
expect 'a transfer' 0 new bag begin "$ledger" t1 "$work/tags"

# The folder that a command is given.
for kind in "${no_folders[@]}"; do
    fresh
    put "$kind" "$place/odd"
    keeps "check of $kind" 3 'bag: files' bag check "$place/odd"
    keeps "make of $kind" 3 'bag: files' bag make "$place/odd" "$work/new" md5
    keeps "begin of $kind" 3 'bag: files' bag begin "$ledger" t1 "$place/odd"
    keeps "begin of $kind, in a new ledger" 3 'bag: files' bag begin "$work/new" t1 "$place/odd"
    no_new "$kind"
    keeps "intake of $kind" 3 'bag: files' bag intake "$ledger" t1 "$place/odd"
    keeps "intake of $kind after a folder" 3 'bag: files' bag intake "$ledger" t1 "$whole" "$place/odd"
    keeps "fetch from $kind" 3 'bag: files' bag fetch "$ledger" t1 "$place/odd"
done
expect 'the folder of a command: nothing was taken' 1 "$both_missing" bag audit "$ledger" t1

# Below the folder of a command: at the top, in the payload, and among the tag files.
# put_below KIND FOLDER: makes a thing of this kind in the folder.
put_below() {
    case $1 in
    'a file named in other octets') printf abc >"$2/"$'odd\377' ;;
    'a folder named in other octets') mkdir "$2/"$'odd\377' ;;
    *) put "$1" "$2/odd" ;;
    esac
}
for kind in "${odd[@]}" 'a file named in other octets' 'a folder named in other octets'; do
    for below in . data/k tags/k; do
        fresh examples/first-bag
        mkdir -p "$place/$below"
        put_below "$kind" "$place/$below"
        keeps "check with $kind in $below" 3 'bag: files' bag check "$place"
        keeps "make with $kind in $below" 3 'bag: files' bag make "$place" "$work/new" md5
        keeps "begin with $kind in $below" 3 'bag: files' bag begin "$ledger" t1 "$place"
        keeps "begin with $kind in $below, in a new ledger" 3 'bag: files' bag begin "$work/new" t1 "$place"
        no_new "$kind in $below"
        keeps "intake with $kind in $below" 3 'bag: files' bag intake "$ledger" t1 "$place"
    done
done

# In place of a file or folder of the bag. A link leads to just that file or folder.
for name in bagit.txt manifest-sha256.txt data data/a.txt; do
    for kind in 'a link' "${specials[@]}"; do
        fresh examples/first-bag
        rm -rf "$outside/moved"
        mv "$place/$name" "$outside/moved"
        if [ "$kind" = 'a link' ]; then
            ln -s "$outside/moved" "$place/$name"
        else
            put "$kind" "$place/$name"
        fi
        keeps "check with $kind for $name" 3 'bag: files' bag check "$place"
        keeps "begin with $kind for $name" 3 'bag: files' bag begin "$ledger" t1 "$place"
        keeps "intake with $kind for $name" 3 'bag: files' bag intake "$ledger" t1 "$place"
    done
done
expect 'below the folder of a command: nothing was taken' 1 "$both_missing" bag audit "$ledger" t1

# A supplier: in place of the file, and on the way to it.
mkdir "$work/hole"
cp examples/first-bag/bagit.txt "$work/hole"
echo "$a_sha256  data/k/f" >"$work/hole/manifest-sha256.txt"
echo 'http://example.org/f - data/k/f' >"$work/hole/fetch.txt"
holes=$work/holes
expect 'a transfer with a hole' 0 new bag begin "$holes" t1 "$work/hole"
# supplied_by KIND NAME: `place` is a supplier with this kind of thing at this path.
supplied_by() {
    fresh
    mkdir -p "$(dirname -- "$place/$2")"
    put "$1" "$place/$2"
}
for kind in "${odd[@]}"; do
    for name in data data/k data/k/f; do
        supplied_by "$kind" "$name"
        keeps "fetch with $kind for $name" 3 'refused data/k/f: supplier' bag fetch "$holes" t1 "$place"
    done
done
supplied_by 'a file' data/k
keeps 'fetch with a file for data/k' 1 'refused data/k/f: not supplied' bag fetch "$holes" t1 "$place"
supplied_by 'a folder' data/k
keeps 'fetch with an empty folder for data/k' 1 'refused data/k/f: not supplied' bag fetch "$holes" t1 "$place"
supplied_by 'a folder' data/k/f
keeps 'fetch with a folder for data/k/f' 3 'refused data/k/f: supplier' bag fetch "$holes" t1 "$place"
expect 'fetch: nothing was taken' 1 $'manifest-sha256.txt: missing: data/k/f\nnot complete' bag audit "$holes" t1
# What else is there doesn't matter, and the folder itself may be a link.
fresh
mkdir -p "$place/data/k"
printf abc >"$place/data/k/f"
for kind in "${odd[@]}"; do
    for below in . data data/k; do
        put "$kind" "$place/$below/$kind"
    done
done
touch "$place/"$'\377' "$place/data/k/"$'\377'
ln -s "$place" "$work/link to the supplier"
cp "$holes" "$work/holes before"
keeps 'fetch from a link to a folder with all kinds of things' 0 'taken data/k/f' \
    bag fetch "$holes" t1 "$work/link to the supplier"
expect 'fetch from a link to a folder with all kinds of things: it is held' 0 valid bag audit "$holes" t1
# The same folder by other names, and the root, which has none of it.
for name in "$place/" "$work/link to the supplier/" "$place/../place/." "$place//"; do
    cp "$work/holes before" "$work/other holes"
    keeps "fetch from a folder as $name" 0 'taken data/k/f' bag fetch "$work/other holes" t1 "$name"
done
for name in / //; do
    cp "$work/holes before" "$work/other holes"
    keeps "fetch from the root as $name" 1 'refused data/k/f: not supplied' bag fetch "$work/other holes" t1 "$name"
done
cp "$work/holes before" "$work/other holes"
keeps 'fetch from the folder itself' 0 'taken data/k/f' env -C "$place" timeout 20 "$work/program" fetch \
    "$work/other holes" t1 .

# opening NAME STATUS LINES COMMAND..: as `expect`; what the command opens is in the file `calls`.
opening() {
    local name=$1 status=$2 lines=$3
    shift 3
    expect "$name" "$status" "$lines" strace -f -o "$work/calls" -e 'trace=/^(open|close)' "$work/program" "$@"
}
# unopened NAME STATUS LINES COMMAND..: the same, and it opens nothing that is named `odd`.
unopened() {
    opening "$@"
    expect "$1: nothing is opened" 1 '' grep -F /odd "$work/calls"
}
# opened_once NAME FOLDER TEST..: of the files in the folder those of which this test of find holds were opened, each
# once.
opened_once() {
    (cd "$2" && find . -type f "${@:3}" -printf '%P\n' | LC_ALL=C sort) >"$work/wanted opened"
    grep -vF O_DIRECTORY "$work/calls" | sed -n "s|.*openat(AT_FDCWD, \"$2/\([^\"]*\)\".*|\1|p" \
        | LC_ALL=C sort >"$work/opened"
    expect "$1: each file is opened once" 0 '' diff "$work/wanted opened" "$work/opened"
}
# most_open FOLDER: how many files of the folder were open at a time, at most.
most_open() {
    awk -v opens="openat(AT_FDCWD, \"$1/" '
        index($0, opens) && !/O_DIRECTORY/ && $NF ~ /^[0-9]+$/ { open[$NF] = 1; if (++count > most) most = count }
        match($0, /close\([0-9]+\)/) && (substr($0, RSTART + 6, RLENGTH - 7) in open) {
            delete open[substr($0, RSTART + 6, RLENGTH - 7)]
            count--
        }
        END { print most + 0 }' "$work/calls"
}
if strace -o "$work/calls" true 2>"$work/no strace"; then
    opening 'what is opened' 0 valid check "$whole"
    expect 'what is opened: it is seen' 0 '' grep -qF "$whole/data/a.txt" "$work/calls"
    # More files than are read before their digests are taken, some of them longer than what is held until then.
    many=$work/seventy made=$work/seventy-bag
    mkdir -p "$many/k"
    (cd "$many" && seq -w 70 | split -l 1 -a 3 -)
    head -c 200000 /dev/zero | tee "$many/long" "$many/x" >"$many/k/long"
    opening 'opened once: make' 0 'made 73 files, 600210 octets' make "$many" "$made" md5 sha256
    opened_once 'make' "$many"
    for folder in "$many" "$made"; do
        expect 'make: files that are open at a time' 0 32 most_open "$folder"
    done
    opening 'one at a time: make by SHA-512' 0 'made 73 files, 600210 octets' make "$many" "$work/seventy by sha512" \
        sha512
    expect 'make by SHA-512: files that are open at a time' 0 1 most_open "$many"
    (cd "$made" && sed 's|^[^ ]*  |http://example.org/ - |' manifest-md5.txt >fetch.txt && echo note >note \
        && rm tagmanifest-md5.txt)
    (cd "$made" && sha256sum bag-info.txt bagit.txt fetch.txt manifest-*.txt >tagmanifest-sha256.txt)
    opening 'opened once: check' 0 valid check "$made"
    opened_once 'check, which reads no file that is not listed' "$made" ! -name note
    opening 'opened once: begin' 0 new begin "$work/seventy-ledger" t1 "$made"
    opened_once 'begin, which reads no payload' "$made" ! -path './data/*'
    expect 'begin: files that are open at a time' 0 1 most_open "$made"
    opening 'opened once: intake' 0 "$(cut -c 35- "$made/manifest-md5.txt" | sed 's/^/taken /')" \
        intake "$work/seventy-ledger" t1 "$made"
    opened_once 'intake, which reads the payload alone' "$made" -path './data/*'
    expect 'intake: files that are open at a time' 0 1 most_open "$made"
    expect 'opened once: another transfer' 0 new bag begin "$work/seventy-ledger" t2 "$made"
    opening 'opened once: fetch' 0 "$(cut -c 35- "$made/manifest-md5.txt" | sed 's/^/taken /')" \
        fetch "$work/seventy-ledger" t2 "$made"
    opened_once 'fetch, which reads what it asks for alone' "$made" -path './data/*'
    expect 'fetch: files that are open at a time' 0 1 most_open "$made"
    # A second tag manifest, which does not list all that the first lists.
    (cd "$made" && md5sum manifest-*.txt >tagmanifest-md5.txt)
    opening 'opened once: check by two tag manifests' 0 valid check "$made"
    opened_once 'check by two tag manifests' "$made" ! -name note
    mkdir "$work/odd hole"
    cp examples/first-bag/bagit.txt "$work/odd hole"
    echo "$a_sha256  data/odd" >"$work/odd hole/manifest-sha256.txt"
    echo 'http://example.org/f - data/odd' >"$work/odd hole/fetch.txt"
    expect 'what is opened: a transfer' 0 new bag begin "$holes" t2 "$work/odd hole"
    for kind in "${odd[@]}"; do
        fresh examples/first-bag
        put "$kind" "$place/data/odd"
        unopened "check that opens no $kind" 3 'bag: files' check "$place"
        unopened "make that opens no $kind" 3 'bag: files' make "$place" "$work/new" md5
        unopened "begin that opens no $kind" 3 'bag: files' begin "$ledger" t1 "$place"
        unopened "intake that opens no $kind" 3 'bag: files' intake "$ledger" t1 "$place"
        unopened "fetch that opens no $kind" 3 'refused data/odd: supplier' fetch "$holes" t2 "$place"
    done
else
    lacking 'what is opened (strace is not installed, or not permitted)'
fi

# The ledger. Each command on it is given a folder that is all right.
commands=(begin intake report audit fetch export list)
as=(bag)

# refuses NAME LINE LEDGER [COMMAND..]: each command on a ledger, or each of these, prints this line and makes nothing.
refuses() {
    local name=$1 line=$2 file=$3 command words
    shift 3
    for command in "${@:-${commands[@]}}"; do
        words=(t1)
        case $command in
        begin | intake | fetch) words+=("$whole") ;;
        export) words+=("$work/new") ;;
        list) words=() ;;
        esac
        keeps "$name: $command" 3 "$line" "${as[@]}" "$command" "$file" "${words[@]}"
    done
    no_new "$name"
}

for kind in 'a link to a file' 'a link to a folder' 'a link to a fifo' "${specials[@]}"; do
    fresh
    put "$kind" "$place/ledger"
    refuses "$kind for a ledger" 'bag: not a ledger' "$place/ledger"
done
for kind in 'a file' 'a link to a file' 'a link to nothing' 'a link to a fifo' "${specials[@]}"; do
    fresh
    put "$kind" "$place/odd"
    for name in "$place/odd/ledger" "$place/odd/none/ledger"; do
        refuses "$name, below $kind" 'bag: not a ledger' "$name" "${commands[@]:1}"
        refuses "$name, below $kind" 'bag: store' "$name" begin
    done
done
fresh
refuses 'no name for a ledger' 'bag: not a ledger' '' "${commands[@]:1}"
refuses 'no name for a ledger' 'bag: store' '' begin
fresh
expect 'a ledger with two names' 0 new bag begin "$place/ledger" t1 "$work/tags"
expect 'a ledger with two names: a file' 0 $'taken data/a.txt\ntaken data/e.txt' bag intake "$place/ledger" t1 "$whole"
ln "$place/ledger" "$outside/another name"
refuses 'a ledger with two names' 'bag: store' "$place/ledger"
refuses 'a ledger by its other name' 'bag: store' "$outside/another name"
rm "$place/ledger"
expect 'a ledger with one name' 0 valid bag audit "$outside/another name" t1
mkdir "$place/folder"
ln -s "$place/folder" "$outside/linked"
expect 'a ledger below a link to a folder' 0 new bag begin "$outside/linked/ledger" t1 "$whole"
expect 'a ledger below a link to a folder: it is in the folder' 0 t1 bag list "$place/folder/ledger"

# The log beside a ledger. What else is in its place is not followed, and stays.
for kind in 'a folder' 'a link to a file' 'a link to a folder' 'a link to nothing' 'a link to a fifo' \
    "${specials[@]}"; do
    fresh
    cp "$ledger" "$place/ledger"
    put "$kind" "$place/ledger-wal"
    refuses "$kind for a log" 'bag: store' "$place/ledger"
done

# A file without octets, by its name and by a link: what a refused beginning leaves is a ledger without a transfer.
# refused_beginning NAME STATUS LINE WORD..: a beginning with these words is refused, and the next one is not.
refused_beginning() {
    local name=$1 status=$2 line=$3 by
    shift 3
    for by in ledger link; do
        fresh
        touch "$place/ledger"
        ln -s ledger "$place/link"
        expect "an empty file by its $by, $name" "$status" "$line" bag begin "$place/$by" "$@"
        expect "an empty file by its $by, $name: it is a ledger" 0 '' bag list "$place/$by"
        expect "an empty file by its $by, $name: what is there" 0 $'ledger\nlink' below "$place"
        expect "an empty file by its $by, $name: begin" 0 new bag begin "$place/$by" t1 "$whole"
        expect "an empty file by its $by, $name: the transfer" 0 t1 bag list "$place/ledger"
    done
}
refused_beginning 'no name' 1 'refused: name' T1 "$whole"
refused_beginning 'no folder' 3 'bag: files' t1 "$work/none"
refused_beginning 'a folder with a link' 3 'bag: files' t1 "$place"

# The folder that a command makes: nothing may be there, in any form.
mkdir "$work/letters"
printf abc >"$work/letters/a.txt"
for kind in "${odd[@]}"; do
    fresh
    put "$kind" "$place/odd"
    for name in "$place/odd" "$place/odd/"; do
        keeps "make into $kind, as $name" 3 'bag: files' bag make "$work/letters" "$name" md5
        keeps "make into $kind, as $name, by an unknown algorithm" 3 'bag: files' bag make "$work/letters" "$name" md4
        keeps "export into $kind, as $name" 3 'bag: files' bag export "$ledger" t1 "$name"
        keeps "export of no transfer into $kind, as $name" 3 'bag: files' bag export "$ledger" t2 "$name"
    done
done
for kind in 'a file' "${no_folders[@]}"; do
    fresh
    put "$kind" "$place/odd"
    keeps "make below $kind" 3 'bag: files' bag make "$work/letters" "$place/odd/new" md5
    keeps "export below $kind" 3 'bag: files' bag export "$ledger" t1 "$place/odd/new"
done
fresh
put 'a link to a folder' "$place/odd"
expect 'export of no transfer below a link to a folder' 1 'bag: no transfer' bag export "$ledger" t2 "$place/odd/new"
expect 'export of no transfer below a link to a folder: nothing is made' 0 '' nothing "$outside/folder/new"
expect 'export below a link to a folder' 0 'exported 2 files' bag export "$ledger" t1 "$place/odd/new"
expect 'export below a link to a folder: the files' 0 $'bagit.txt\ndata\nmanifest-sha256.txt' \
    below "$outside/folder/new"
rm -r "$outside/folder/new"
expect 'make below a link to a folder' 0 'made 1 files, 3 octets' bag make "$work/letters" "$place/odd/new" md5
expect 'make below a link to a folder: the bag' 0 valid bag check "$outside/folder/new"
rm -r "$outside/folder/new"

# Files and folders without permission. What root makes here, nobody has to read and write.
chmod -R a+rX "$whole" "$work/tags" "$work/letters" "$work/hole"
# locked NAME..: `place` is a bag that nobody may change, in which these have no permissions, or MODE=NAME has.
locked() {
    local name
    fresh examples/first-bag
    mkdir -p "$place/data/k" "$place/tags/k"
    printf abc | tee "$place/tags/notes" >"$place/data/k/f"
    chmod -R a+rX "$place"
    for name in "$@"; do
        case $name in
        *=*) chmod "${name%%=*}" "$place/${name#*=}" ;;
        *) chmod 000 "$place/$name" ;;
        esac
    done
}
open=$work/open
mkdir "$open"
chmod 777 "$open"
as=(nobody "$work/program")
expect 'as nobody: a transfer' 0 new "${as[@]}" begin "$open/ledger" t1 "$work/tags"
locked
expect 'as nobody: nothing is locked' 1 $'manifest-sha256.txt: unlisted: data/k/f\nnot complete' \
    "${as[@]}" check "$place"
for name in . data data/k tags tags/k 111=. 111=data/k 111=tags 444=tags; do
    locked "$name"
    keeps "check with a locked folder $name" 3 'bag: files' "${as[@]}" check "$place"
    keeps "make with a locked folder $name" 3 'bag: files' "${as[@]}" make "$place" "$open/new" md5
    keeps "begin with a locked folder $name" 3 'bag: files' "${as[@]}" begin "$open/ledger" t1 "$place"
    keeps "intake with a locked folder $name" 3 'bag: files' "${as[@]}" intake "$open/ledger" t1 "$place"
    expect "a locked folder $name: nothing is made" 0 ledger below "$open"
done
locked tags/notes
rm -r "$place/data/k"
keeps 'check with a locked tag file that no manifest lists: it is not read' 0 valid "${as[@]}" check "$place"
locked data/k/f
keeps 'check with a locked file that no manifest lists' 3 'bag: files' "${as[@]}" check "$place"
keeps 'intake with a locked file that no manifest lists' 1 'taken data/a.txt
taken data/e.txt
refused data/k/f: not listed' "${as[@]}" intake "$open/ledger" t1 "$place"
expect 'as nobody: a transfer with a hole' 0 new "${as[@]}" begin "$open/holes" t1 "$work/hole"
for name in . data data/k data/k/f 444=. 444=data/k 200=data/k/f; do
    locked "$name"
    keeps "fetch with $name locked" 3 'refused data/k/f: supplier' "${as[@]}" fetch "$open/holes" t1 "$place"
done
fresh
mkdir -p "$place/data/k/f"
chmod 000 "$place/data/k/f"
keeps 'fetch with a locked folder in place of the file' 3 'refused data/k/f: supplier' "${as[@]}" fetch "$open/holes" \
    t1 "$place"
fresh
printf abc >"$place/data"
chmod 000 "$place/data"
keeps 'fetch with a locked file in place of a folder' 1 'refused data/k/f: not supplied' \
    "${as[@]}" fetch "$open/holes" t1 "$place"
keeps 'fetch from a locked file' 3 'bag: files' "${as[@]}" fetch "$open/holes" t1 "$place/data"
locked 111=. 111=data 111=data/k
keeps 'fetch from folders that can not be listed' 0 'taken data/k/f' "${as[@]}" fetch "$open/holes" t1 "$place"

# A ledger that nobody may read, write or find.
ledger_of_mode() {
    fresh
    mkdir "$place/at"
    cp "$open/ledger" "$place/at/ledger"
    ln -s at/ledger "$place/link"
    chmod "$2" "$place/at/ledger"
    chmod "$1" "$place/at"
}
for modes in '777 444' '777 222' '000 666' '666 666'; do
    # shellcheck disable=SC2086
    ledger_of_mode $modes
    refuses "a ledger with the modes $modes" 'bag: store' "$place/at/ledger"
    refuses "a link to a ledger with the modes $modes" 'bag: store' "$place/link"
done
ledger_of_mode 777 666
expect 'a ledger that may be written' 0 valid "${as[@]}" audit "$place/at/ledger" t1

# What is made in place of things that nobody may look into, and below them.
for kind in file folder; do
    fresh
    if [ "$kind" = file ]; then touch "$place/locked"; else mkdir "$place/locked"; fi
    chmod 777 "$place"
    chmod 000 "$place/locked"
    for name in locked locked/new; do
        keeps "make of $name, a locked $kind" 3 'bag: files' "${as[@]}" make "$work/letters" "$place/$name" md5
        keeps "export of $name, a locked $kind" 3 'bag: files' "${as[@]}" export "$open/ledger" t1 "$place/$name"
    done
done
# With this mask a command can make a folder, but nothing in it.
masked() (
    umask 777
    "$@"
)
fresh
chmod 777 "$place"
keeps 'make of a folder that takes nothing: it is removed again' 3 'bag: files' \
    masked "${as[@]}" make "$work/letters" "$place/new" md5
keeps 'export into a folder that takes nothing: it is removed again' 3 'bag: files' \
    masked "${as[@]}" export "$open/ledger" t1 "$place/new"
expect 'begin of a ledger that can not be opened again' 3 'bag: store' \
    masked "${as[@]}" begin "$place/new" t1 "$work/tags"
expect 'begin of a ledger that can not be opened again: it stays' 0 new below "$place"
expect 'begin of a ledger that can not be opened again: it is empty' 0 0 stat -c %s "$place/new"

# Names that are as long as the system allows.
letters=$(printf 'k%.0s' {1..255})
signs=$(printf '\u20ac%.0s' {1..85})
long=$work/long
mkdir "$long"
for name in "$letters" "$signs"; do
    kind=${name:0:1}
    at=$long/$name
    mkdir -p "$at/source/$name"
    printf abc | tee "$at/source/$name/$name" >"$at/source/$name/f"
    expect "long names, $kind: make" 0 'made 2 files, 6 octets' bag make "$at/source" "$at/made" sha256
    printf x >"$at/made/$name"
    mkdir "$at/$name"
    mv "$at/made" "$at/$name/$name"
    made=$at/$name/$name
    printf 'http://example.org/ - data/%s/f\n' "$name" >"$made/fetch.txt"
    rm "$made/tagmanifest-sha256.txt"
    expect "long names, $kind: check" 0 valid bag check "$made"
    expect "long names, $kind: begin" 0 new bag begin "$at/ledger" t1 "$made"
    mkdir -p "$at/sent/data/$name"
    mv "$made/data/$name/f" "$at/sent/data/$name/f"
    expect "long names, $kind: intake" 0 "taken data/$name/$name" bag intake "$at/ledger" t1 "$made"
    expect "long names, $kind: fetch" 0 "taken data/$name/f" bag fetch "$at/ledger" t1 "$at/sent"
    mv "$at/sent/data/$name/f" "$made/data/$name/f"
    expect "long names, $kind: report" 0 valid bag report "$at/ledger" t1
    mkdir "$at/exported"
    expect "long names, $kind: export" 0 'exported 7 files' bag export "$at/ledger" t1 "$at/exported/$name"
    expect "long names, $kind: the bag" 0 '' diff -r "$made" "$at/exported/$name"
done
expect 'a name that is too long: check' 3 'bag: files' bag check "$long/${letters}k"
expect 'a name that is too long: make' 3 'bag: files' bag make "$work/letters" "$long/${letters}k" md5
expect 'a name that is too long: begin' 3 'bag: store' bag begin "$long/${letters}k" t1 "$whole"
expect 'a name that is too long: export' 3 'bag: files' bag export "$ledger" t1 "$long/${letters}k"
word=$(printf 'k/%.0s' {1..2500})
expect 'a word that is too long: check' 3 'bag: files' bag check "$word"
expect 'a word that is too long: make' 3 'bag: files' bag make "$word" "$work/new" md5
expect 'a word that is too long: make, its second' 3 'bag: files' bag make "$work/letters" "$word" md5
expect 'a word that is too long: begin' 3 'bag: files' bag begin "$ledger" t1 "$word"
expect 'a word that is too long: begin, its first' 3 'bag: store' bag begin "$word" t1 "$whole"
expect 'a word that is too long: intake' 3 'bag: files' bag intake "$ledger" t1 "$word"
expect 'a word that is too long: fetch' 3 'bag: files' bag fetch "$ledger" t1 "$word"
expect 'a word that is too long: export' 3 'bag: files' bag export "$ledger" t1 "$word"
no_new 'a word that is too long'
# Names with more octets at their ends are looked up beside a ledger.
expect 'a long name of a ledger' 0 new bag begin "$long/${letters:8}" t1 "$whole"
expect 'a long name of a ledger: list' 0 t1 bag list "$long/${letters:8}"

# Paths that are as long as the system allows: 4,095 octets with the name of the folder.
# deep FOLDER START LENGTH: makes a file with the octets abc below the folder. Its path begins with START and has this
# many octets; `path` is set to it.
deep() {
    local rest=$(($3 - ${#2}))
    path=$2
    while [ "$rest" -gt 256 ]; do
        path+=/${letters:0:199}
        rest=$((rest - 200))
    done
    path+=/${letters:0:rest-1}
    python3 - "$1" "$path" <<'PYTHON'
import os, sys
*folders, name = sys.argv[2].split("/")
for folder in sys.argv[1], *folders:
    os.makedirs(folder, exist_ok=True)
    os.chdir(folder)
with open(name, "x", encoding="ascii") as file:
    file.write("abc")
PYTHON
}
# here ARGUMENT..: runs the program in the folder `deep`, so that names can be short.
here() {
    env -C "$work/deep" timeout 20 "$work/program" "$@"
}
# bag_of FOLDER LENGTH: makes a bag whose only payload file has a path of this many octets.
bag_of() {
    deep "$work/deep/$1" data "$2"
    cp examples/first-bag/bagit.txt "$work/deep/$1"
    echo "$a_sha256  $path" >"$work/deep/$1/manifest-sha256.txt"
    echo "http://example.org/ - $path" >"$work/deep/$1/fetch.txt"
}
mkdir "$work/deep"
bag_of b 4093
expect 'the longest path: check' 0 valid here check b
expect 'the longest path: begin' 0 new here begin l t1 b
expect 'the longest path: intake' 0 "taken $path" here intake l t1 b
expect 'the longest path: begin again' 0 new here begin l t2 b
expect 'the longest path: fetch' 0 "taken $path" here fetch l t2 b
expect 'the longest path: report' 0 valid here report l t2
expect 'the longest path: export' 0 'exported 4 files' here export l t1 x
expect 'the longest path: the bag' 0 valid here check x
expect 'the longest path: export into a folder with a longer name' 3 'bag: files' here export l t1 xx
# The paths of a bag that is made begin with data/.
deep "$work/deep/s" k 4088
expect 'the longest path: make' 0 'made 1 files, 3 octets' here make s m md5
expect 'the longest path: the bag that is made' 0 valid here check m
expect 'the longest path: make into a folder with a longer name' 3 'bag: files' here make s mm md5
for length in 4094 4095 4096 4097 5000; do
    bag_of "c$length" "$length"
    mv "$work/deep/c$length" "$work/deep/c"
    expect "a path of $length octets: check" 3 'bag: files' here check c
    expect "a path of $length octets: begin" 3 'bag: files' here begin l t1 c
    expect "a path of $length octets: intake" 3 'bag: files' here intake l t1 c
    echo "$a_sha256  data/k" >"$work/deep/c/manifest-sha256.txt"
    rm "$work/deep/c/fetch.txt"
    expect "a path of $length octets that is not listed: check" 3 'bag: files' here check c
    expect "a path of $length octets that is not listed: begin" 3 'bag: files' here begin n t1 c
    expect "a path of $length octets that is not listed: intake" 3 'bag: files' here intake l t1 c
    rm -r "$work/deep/c"
    cp -r examples/first-bag "$work/deep/c"
    deep "$work/deep/c" tags "$length"
    expect "a tag file with a path of $length octets: check" 3 'bag: files' here check c
    expect "a tag file with a path of $length octets: begin" 3 'bag: files' here begin n t1 c
    expect "a tag file with a path of $length octets: intake" 3 'bag: files' here intake l t1 c
    expect "a path of $length octets: make" 3 'bag: files' here make c m2 md5
    rm -r "$work/deep/c"
done
deep "$work/deep/t" tags 4093
cp examples/first-bag/*.txt "$work/deep/t"
expect 'the longest path of a tag file: begin' 0 new here begin n t1 t
expect 'the longest path of a tag file: export' 0 'exported 3 files' here export n t1 e
expect 'the longest path of a tag file: check' 1 "$both_missing" here check e
for length in 4094 4095 4096; do
    fresh
    bag_of "f$length" "$length"
    mkdir "$work/deep/empty$length"
    mv "$work/deep/f$length"/*.txt "$work/deep/empty$length"
    expect "fetch of a path of $length octets: begin" 0 new here begin "l$length" t1 "empty$length"
    mv "$work/deep/f$length" "$work/deep/f"
    expect "fetch of a path of $length octets" 3 "refused $path: supplier" here fetch "l$length" t1 f
    mv "$work/deep/f" "$work/deep/f$length"
done

# Words in other octets are no command.
fresh
other=$place/$'odd\377'
for words in check list report audit 'begin ledger t1' 'intake ledger t1' 'intake ledger t1 whole' 'fetch ledger t1' \
    'export ledger t1'; do
    # shellcheck disable=SC2086
    refuse "other octets in $words" 'error: an argument is not UTF-8' env -C "$work" "$work/program" $words "$other"
done
refuse 'other octets in the source' 'error: an argument is not UTF-8' bag make "$other" "$work/new" md5
refuse 'other octets in the destination' 'error: an argument is not UTF-8' bag make "$work/letters" "$other" md5
refuse 'other octets in a ledger' 'error: an argument is not UTF-8' bag begin "$other" t1 "$whole"
no_new 'other octets'
expect 'other octets: nothing is there' 0 '' below "$place"
finish
