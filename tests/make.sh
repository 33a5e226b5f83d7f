#!/usr/bin/env bash
# `bag make` on real folders: what it prints, its status, what it leaves behind, and what other tools say about it.
set -u
cd "$(dirname -- "$0")/.." || exit 1
. tests/lib/common.bash

# valid_bag SRC DST: DST is a valid bag, and its payload is the files in SRC.
valid_bag() {
    bag check "$2" && diff -r "$1" "$2/data"
}

# sums COMMAND DST MANIFEST: the command of coreutils accepts the digests and paths in the manifest.
sums() {
    (cd "$2" && "$1" --check --strict --quiet "$3")
}

# info DST: prints bag-info.txt.
info() {
    cat "$1/bag-info.txt"
}

# names_by ALG: the names in a bag of the files below, with manifests by this algorithm.
names_by() {
    printf '%s\n' bag-info.txt bagit.txt data data/a.txt data/k data/k/x data/k0 "manifest-$1.txt" "tagmanifest-$1.txt"
}

take_program

refuse 'no folders' 'error: the following required arguments were not provided:' bag make
refuse 'one folder' 'error: the following required arguments were not provided:' bag make "$work/letters"
refuse 'no algorithm' 'error: the following required arguments were not provided:' bag make "$work/letters" "$work/one"
refuse 'in other letters' "error: unrecognized subcommand 'Make'" bag Make "$work/letters" "$work/one" sha256

mkdir -p "$work/letters/k"
printf abc >"$work/letters/a.txt"
printf defgh >"$work/letters/k/x"
touch "$work/letters/k0"
expect 'one algorithm' 0 'made 3 files, 8 octets' bag make "$work/letters" "$work/one" sha256
expect 'one algorithm: it is valid' 0 valid valid_bag "$work/letters" "$work/one"
expect 'one algorithm: the files' 0 "$(names_by sha256)" below "$work/one"
expect 'one algorithm: the manifest' 0 '' sums sha256sum "$work/one" manifest-sha256.txt
expect 'one algorithm: the tag manifest' 0 '' sums sha256sum "$work/one" tagmanifest-sha256.txt
expect 'one algorithm: the elements' 0 'Payload-Oxum: 8.3' info "$work/one"

expect 'all algorithms' 0 'made 3 files, 8 octets' bag make "$work/letters" "$work/all" sha512 md5 sha256 sha1
expect 'all algorithms: it is valid' 0 valid valid_bag "$work/letters" "$work/all"
for alg in md5 sha1 sha256 sha512; do
    expect "$alg: the manifest" 0 '' sums "${alg}sum" "$work/all" "manifest-$alg.txt"
    expect "$alg: the tag manifest" 0 '' sums "${alg}sum" "$work/all" "tagmanifest-$alg.txt"
done
expect 'an algorithm twice' 0 'made 3 files, 8 octets' bag make "$work/letters" "$work/twice" md5 md5
expect 'an algorithm twice: it counts once' 0 "$(names_by md5)" below "$work/twice"
# shellcheck disable=SC2046
expect 'an algorithm 70,000 times' 0 'made 3 files, 8 octets' \
    bag make "$work/letters" "$work/often" $(yes md5 | head -n 70000)
expect 'an algorithm 70,000 times: it is the same bag' 0 '' diff -r "$work/twice" "$work/often"
expect 'slashes at the ends' 0 'made 3 files, 8 octets' bag make "$work/letters/" "$work/slash/" md5
expect 'slashes at the ends: it is valid' 0 valid valid_bag "$work/letters" "$work/slash"
ln -s letters "$work/link"
expect 'a link that leads to the folder' 0 'made 3 files, 8 octets' bag make "$work/link" "$work/linked" md5
expect 'a link that leads to the folder: it is valid' 0 valid valid_bag "$work/letters" "$work/linked"
expect 'from another directory' 0 'made 3 files, 8 octets' env -C "$work" "$PWD/bag" make letters here md5
expect 'from another directory: it is valid' 0 valid valid_bag "$work/letters" "$work/here"
expect 'a bag as a payload' 0 'made 7 files, 547 octets' bag make "$work/one" "$work/nested" sha256
expect 'a bag as a payload: it is valid' 0 valid valid_bag "$work/one" "$work/nested"

cp -r "$work/letters" "$work/inside"
expect 'a bag in its payload' 0 'made 3 files, 8 octets' bag make "$work/inside" "$work/inside/bag" md5
expect 'a bag in its payload: it is valid' 0 valid valid_bag "$work/letters" "$work/inside/bag"

make_odd_names "$work/names"
printf 9 >"$work/names/data"
printf 10 >"$work/names/manifest-sha256.txt"
expect 'names' 0 'made 10 files, 11 octets' bag make "$work/names" "$work/named" sha256
expect 'names: it is valid' 0 valid valid_bag "$work/names" "$work/named"
expect 'names: the spellings' 0 ' data/ first blank
 data/%250A
 data/*\?[é]
 data/-
 data/100%25
 data/data
 data/line%0Afeed
 data/manifest-sha256.txt
 data/return%0D
 data/two  blanks/last blank ' cut -c 66- "$work/named/manifest-sha256.txt"

# Folders whose names begin as the name of another does. The octets of a slash are above those of a hyphen and a dot.
for name in a 'a ' 'a!' a-1 a.b a0 ab; do
    mkdir -p "$work/alike/$name/$name"
    printf x | tee "$work/alike/$name/x" >"$work/alike/$name/$name/x"
done
# The same where nothing below the shorter name comes before the file in it.
for name in b b-1 b.b; do
    mkdir "$work/alike/$name"
    printf x >"$work/alike/$name/x"
done
expect 'names that begin alike' 0 'made 17 files, 17 octets' bag make "$work/alike" "$work/alike bag" sha256
expect 'names that begin alike: it is valid' 0 valid valid_bag "$work/alike" "$work/alike bag"

mkdir -p "$work/empty/none/at all"
expect 'a folder without files' 0 'made 0 files, 0 octets' bag make "$work/empty" "$work/no files" sha1
expect 'a folder without files: the files' 0 'bag-info.txt
bagit.txt
data
manifest-sha1.txt
tagmanifest-sha1.txt' below "$work/no files"
expect 'a folder without files: it is valid' 0 valid bag check "$work/no files"

mkdir "$work/many"
(cd "$work/many" && seq 1000 | split -l 1 -a 3 -)
expect 'a thousand files' 0 'made 1000 files, 3893 octets' bag make "$work/many" "$work/many bag" sha256
expect 'a thousand files: it is valid' 0 valid valid_bag "$work/many" "$work/many bag"
# Digests of files shorter than 131,072 octets are taken together, 32 at most, in their order among longer ones.
mkdir "$work/mixed"
(cd "$work/mixed" && seq 100 199 | split -l 1 -a 3 -d -) # x000 to x099, of four octets each
for length in 0 1 65535 65536 65537 131071 131072 131073 300000; do
    seq "$length" 400000 | head -c "$length" >"$work/mixed/x003 $length"
    seq "$length" 400000 | tail -c "$length" >"$work/mixed/x064 $length"
done
# listed DST ALG: the manifest has the lines that coreutils print for the payload, in the order of the paths.
listed() {
    (cd "$1" && find data -type f -print0 | LC_ALL=C sort -z | xargs -0 "$2sum" | diff - "manifest-$2.txt")
}
expect 'short files among long ones' 0 'made 118 files, 1780050 octets' \
    bag make "$work/mixed" "$work/mixed bag" md5 sha1 sha256 sha512
expect 'short files among long ones: it is valid' 0 valid valid_bag "$work/mixed" "$work/mixed bag"
for alg in md5 sha1 sha256 sha512; do
    expect "short files among long ones, $alg: the manifest" 0 '' listed "$work/mixed bag" "$alg"
done
mkdir "$work/large"
head -c 100000007 /dev/zero | tr '\0' A >"$work/large/A"
expect 'a large file' 0 'made 1 files, 100000007 octets' bag make "$work/large" "$work/large bag" md5 sha512
expect 'a large file: it is valid' 0 valid valid_bag "$work/large" "$work/large bag"

# refused NAME STATUS LINE SRC DST ALG..: nothing is made.
refused() {
    expect "$1" "$2" "$3" bag make "${@:4}"
    expect "$1: nothing is made" 0 '' nothing "$5"
}
refused 'an unknown algorithm' 64 'unknown algorithm sha224' "$work/letters" "$work/new" sha224
refused 'the first unknown one' 64 'unknown algorithm SHA256' "$work/letters" "$work/new" md5 SHA256 sha3
refused 'an unknown algorithm with a line feed' 64 'unknown algorithm a%0Ab' "$work/letters" "$work/new" $'a\nb'
refused 'an unknown algorithm with a carriage return' 64 'unknown algorithm a%0Db' "$work/letters" "$work/new" $'a\rb'
refused 'an unknown algorithm with a percent sign' 64 'unknown algorithm 100%25' "$work/letters" "$work/new" '100%'
refused 'an unknown algorithm, and a name with a slash at its end' 64 'unknown algorithm ' "$work/letters" \
    "$work/new/" ''
refused 'no payload' 3 'bag: files' "$work/none" "$work/new" sha256
refused 'no payload, and an unknown algorithm' 3 'bag: files' "$work/none" "$work/new" sha224
refused 'a file in place of the payload' 3 'bag: files' "$work/letters/a.txt" "$work/new" sha256
refused 'an empty name' 3 'bag: files' '' "$work/new" sha256
# Paths of 3,523 octets: data/, 14 folders with names of 250 and their slashes, and four. A line by SHA-512 has 131
# octets more: 128 digits, two blanks and LF. 4,591 such lines are 16,775,514, which leaves 1,702 of the 16,777,216 that
# a manifest may have: a line with a path of 1,571 octets, in the sixth folder, with a name of 60.
deep=$(printf 'n%.0s' {1..250})
sixth=$work/long/$deep/$deep/$deep/$deep/$deep/$deep
mkdir -p "$sixth/$deep/$deep/$deep/$deep/$deep/$deep/$deep/$deep"
(cd "$sixth/$deep/$deep/$deep/$deep/$deep/$deep/$deep/$deep" && seq -w 4591 | xargs touch)
name=$(printf 'x%.0s' {1..60})
touch "$sixth/$name"
expect 'as long a manifest as may be' 0 'made 4592 files, 0 octets' bag make "$work/long" "$work/longest" sha512
expect 'as long a manifest as may be: it is valid' 0 valid valid_bag "$work/long" "$work/longest"
expect 'as long a manifest as may be: its length' 0 16777216 stat -c %s "$work/longest/manifest-sha512.txt"
mv "$sixth/$name" "$sixth/x$name"
refused 'a manifest with an octet too many' 1 'bag: too large' "$work/long" "$work/new" sha512
refused 'a manifest with an octet too many, and a shorter one' 1 'bag: too large' "$work/long" "$work/new" sha512 md5
expect 'the shorter one' 0 'made 4592 files, 0 octets' bag make "$work/long" "$work/shorter" md5
mkdir "$work/with link" "$work/with fifo" "$work/other octets"
ln -s ../letters/a.txt "$work/with link/b.txt"
refused 'a link' 3 'bag: files' "$work/with link" "$work/new" sha256
mkfifo "$work/with fifo/pipe"
refused 'a fifo, which is never opened' 3 'bag: files' "$work/with fifo" "$work/new" sha256
touch "$work/other octets/"$'\377'
refused 'a name that is not UTF-8' 3 'bag: files' "$work/other octets" "$work/new" sha256
refused 'a folder for the bag whose own is not there' 3 'bag: files' "$work/letters" "$work/none/new" sha256
refused 'a folder for the bag below a file' 3 'bag: files' "$work/letters" "$work/letters/a.txt/new" sha256
expect 'no name for the bag' 3 'bag: files' bag make "$work/letters" '' sha256

# stays NAME DST: what already exists stays as it was.
stays() {
    find "$2" -printf '%P %y %T@ %s\n' 2>"$work/gone" | LC_ALL=C sort >"$work/before"
    expect "$1" 3 'bag: files' bag make "$work/letters" "$2" sha256
    expect "$1, and an unknown algorithm" 3 'bag: files' bag make "$work/letters" "$2" sha224
    find "$2" -printf '%P %y %T@ %s\n' 2>"$work/gone" | LC_ALL=C sort >"$work/after"
    expect "$1: it stays as it was" 0 '' diff "$work/before" "$work/after"
}
stays 'a bag that is there' "$work/one"
mkdir "$work/empty folder"
stays 'an empty folder that is there' "$work/empty folder"
stays 'a file that is there' "$work/letters/a.txt"
ln -s nowhere "$work/dangling"
stays 'a link that leads nowhere' "$work/dangling"
stays 'the payload itself' "$work/letters"

chmod 711 "$work"
mkdir "$work/open" "$work/locked"
chmod 777 "$work/open"
chmod 555 "$work/locked"
cp -r "$work/letters" "$work/unread"
chmod -R a+rX "$work/letters" "$work/unread"
expect 'as nobody' 0 'made 3 files, 8 octets' nobody "$work/program" make "$work/letters" "$work/open/bag" sha256
expect 'a folder that takes no other' 3 'bag: files' \
    nobody "$work/program" make "$work/letters" "$work/locked/bag" sha256
expect 'a folder that takes no other: nothing is made' 0 '' nothing "$work/locked/bag"
chmod 000 "$work/unread/k"
expect 'a directory that may not be read' 3 'bag: files' \
    nobody "$work/program" make "$work/unread" "$work/open/new" sha256
expect 'a directory that may not be read: nothing is made' 0 '' nothing "$work/open/new"
chmod 755 "$work/unread/k"
chmod 000 "$work/unread/k/x"
expect 'a file that may not be read' 3 'bag: files' nobody "$work/program" make "$work/unread" "$work/open/part" sha256
expect 'a file that may not be read: what was written stays' 0 'data
data/a.txt' below "$work/open/part"
chmod 755 "$work/unread/k/x"
chmod 000 "$work/unread/a.txt"
expect 'a first file that may not be read' 3 'bag: files' \
    nobody "$work/program" make "$work/unread" "$work/open/none" sha256
expect 'a first file that may not be read: the payload directory was made before it' 0 data below "$work/open/none"
chmod -R a+rX "$work/long"
chmod 000 "$sixth/x$name"
expect 'a manifest that is too long, and a file that may not be read' 1 'bag: too large' \
    nobody "$work/program" make "$work/long" "$work/open/long" sha512
expect 'a manifest that is too long: nothing is made' 0 '' nothing "$work/open/long"
expect 'a file that may not be read: no part is a bag' 1 $'no bagit.txt\nnot complete' bag check "$work/open/part"

expect 'a file that takes a part' 3 'bag: files' small_files "$work/program" make "$work/large" "$work/part" sha256
expect 'a file that takes a part: what was written stays' 0 'data
data/A' below "$work/part"

# On a disk that is full after some octets, or that has no room for another folder.
if own_mounts sh -c "mkdir '$work/disk' && mount -t tmpfs -o size=1m,nr_inodes=4 bag '$work/disk'" \
    2>"$work/no mount"; then
    # on_disk SRC: makes a bag on a disk of 1 MiB and four files or folders, including its own; then lists what is on
    # it.
    on_disk() {
        own_mounts sh -c '
            mount -t tmpfs -o size=1m,nr_inodes="$4" bag "$1/disk"
            status=0
            "$1/program" make "$2" "$1/disk/bag" $3 || status=$?
            cd "$1/disk" && find . -mindepth 1 -printf "%P\n" | LC_ALL=C sort
            exit "$status"' sh "$work" "$@"
    }
    expect 'a full disk' 3 'bag: files
bag
bag/data
bag/data/A' on_disk "$work/large" md5 100
    expect 'a disk with no room for the folder' 3 'bag: files' on_disk "$work/letters" md5 1
    expect 'a disk with room for the folder alone' 3 'bag: files' on_disk "$work/letters" md5 2
    expect 'a disk with room for no file' 3 'bag: files
bag
bag/data' on_disk "$work/letters" md5 3
    expect 'a disk with no room, and an unknown algorithm' 64 'unknown algorithm sha224' \
        on_disk "$work/letters" sha224 2
else
    lacking 'a full disk (no permission to mount one)'
fi

expect 'a closed output' 3 '' closed bag make "$work/letters" "$work/closed" sha256
expect 'a closed output: the bag is there' 0 valid valid_bag "$work/letters" "$work/closed"
expect 'a full output' 3 '' full bag make "$work/letters" "$work/full" sha256
expect 'a full output: the bag is there' 0 valid valid_bag "$work/letters" "$work/full"
expect 'a full output, and an unknown algorithm' 3 '' full bag make "$work/letters" "$work/new" sha224
expect 'a full output, and an unknown algorithm: nothing is made' 0 '' nothing "$work/new"
finish
