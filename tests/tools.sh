#!/usr/bin/env bash
# Other tools agree: coreutils on the examples, bags that a plain script makes, and random bags that a second program
# judges.
set -u
cd "$(dirname -- "$0")/.." || exit 1
. tests/lib/common.bash

take_program

# coreutils_lines FILE: prints the lines of a manifest in the form that coreutils check. Coreutils know only LF as a
# line end, take two characters after the digest and everything after them as the name, and spell LF, CR and `\` with a
# `\` before the line and in the name. So blanks, a mark and `./` become two spaces, and the escapes become those of
# coreutils.
coreutils_lines() {
    tr '\r' '\n' <"$1" | LC_ALL=C sed -E \
        -e '1s/^\xEF\xBB\xBF//' \
        -e '/^[ \t]*$/d' \
        -e 's/^([0-9A-Fa-f]+)[ \t]+\*?(\.\/)?/\1  /' \
        -e '/\\|%0[AaDd]/ { s/\\/\\\\/g; s/%0[Aa]/\\n/g; s/%0[Dd]/\\r/g; s/^/\\/ }' \
        -e 's/%25/%/g'
}

# listed_digests FOLDER: coreutils check every digest that the manifests and tag manifests list. An empty manifest lists
# none.
listed_digests() {
    local manifest algorithm
    for manifest in "$1"/*manifest-*.txt; do
        algorithm=${manifest##*manifest-}
        algorithm=${algorithm%.txt}
        coreutils_lines "$manifest" >"$work/lines"
        [ -s "$work/lines" ] || continue
        (cd "$1" && "${algorithm}sum" --check --strict --quiet "$work/lines" 2>"$work/warnings") || return
    done
}

# payload_octets FOLDER and payload_files FOLDER: the two numbers of Payload-Oxum.
payload_octets() {
    find "$1/data" -type f -exec cat {} + | wc -c
}
payload_files() {
    find "$1/data" -type f -printf x | wc -c
}

# Git keeps no empty directories, so the copies are checked.
cp -r examples "$work/examples"
mkdir -p "$work/examples/empty-payload/data"
valid=0
for folder in "$work"/examples/*/; do
    name=$(basename "$folder")
    printed=$(./bag check "$folder")
    status=$?
    expect "$name: the reference agrees" "$status" "$printed" python3 -B tests/model/reference.py "$folder"
    if [ "$printed" = valid ]; then
        valid=$((valid + 1))
        expect "$name: coreutils agree" 0 '' listed_digests "$folder"
    fi
done
expect 'seven examples are valid' 0 '' [ "$valid" -eq 7 ]
expect 'a damaged file: coreutils agree' 1 'data/a.txt: FAILED' listed_digests examples/damaged-file

# A payload with names that people use.
payload=$work/payload
mkdir -p "$payload/letters/1901" "$payload/empty names"
printf abc >"$payload/a.txt"
printf 'Dear Ada,\n' >"$payload/letters/1901/to Ada.txt"
printf 'na\303\257ve\n' >"$payload/letters/"$'na\303\257ve.txt'
printf '' >"$payload/empty names/no  octets"
head -c 200000 /dev/zero >"$payload/zeros.bin"

# new NAME: makes a folder with this name, the declaration and the payload, and nothing else.
new() {
    mkdir "$work/$1"
    printf 'BagIt-Version: 1.0\nTag-File-Character-Encoding: UTF-8\n' >"$work/$1/bagit.txt"
    cp -r "$payload" "$work/$1/data"
}

# sums TOOL OPTION..: the digests of the payload that a tool of coreutils computes, with paths relative to the current
# folder.
sums() {
    find data -type f -exec "$@" {} +
}

new plain
(cd "$work/plain" && sums sha256sum >manifest-sha256.txt)
expect 'sha256sum as it is' 0 valid ./bag check "$work/plain"
for algorithm in md5 sha1 sha512; do
    new "by-$algorithm"
    (cd "$work/by-$algorithm" && sums "${algorithm}sum" >"manifest-$algorithm.txt")
    expect "${algorithm}sum as it is" 0 valid ./bag check "$work/by-$algorithm"
done
new marks
(cd "$work/marks" && sums sha256sum --binary >manifest-sha256.txt)
expect 'a mark before each path' 0 valid ./bag check "$work/marks"
new dots
(cd "$work/dots" && find ./data -type f -exec sha256sum {} + >manifest-sha256.txt)
expect './ before each path' 0 valid ./bag check "$work/dots"
new marks-and-dots
(cd "$work/marks-and-dots" && find ./data -type f -exec sha256sum --binary {} + >manifest-sha256.txt)
expect 'a mark and ./ before each path' 0 valid ./bag check "$work/marks-and-dots"
new tabs
(cd "$work/tabs" && sums sha256sum | sed 's/  /\t/' >manifest-sha256.txt)
expect 'a tab before each path' 0 valid ./bag check "$work/tabs"
new upper-case
(cd "$work/upper-case" && sums sha256sum | sed 's/^[0-9a-f]*/\U&/' >manifest-sha256.txt)
expect 'digits in upper case' 0 valid ./bag check "$work/upper-case"
new crlf
(cd "$work/crlf" && sums sha256sum | sed 's/$/\r/' >manifest-sha256.txt && sed -i 's/$/\r/' bagit.txt)
expect 'CR LF at the end of each line' 0 valid ./bag check "$work/crlf"
new cr
(cd "$work/cr" && sums sha256sum | tr '\n' '\r' >manifest-sha256.txt && tr '\n' '\r' <bagit.txt >new \
    && mv new bagit.txt)
expect 'CR at the end of each line' 0 valid ./bag check "$work/cr"
new edited
(cd "$work/edited" && { printf '\357\273\277\n' && sums sha256sum | sed 's/$/\n/'; } | head -c -2 >manifest-sha256.txt)
expect 'a byte order mark, empty lines, and no ending at the last' 0 valid ./bag check "$work/edited"

new whole
(
    cd "$work/whole" || exit
    for algorithm in md5 sha1 sha256 sha512; do
        sums "${algorithm}sum" >"manifest-$algorithm.txt"
    done
    printf 'Contact-Name: Ada\r\nPayload-Oxum: %s.%s\r\n' "$(payload_octets .)" "$(payload_files .)" >bag-info.txt
    find data -type f -printf 'https://example.org/x %s %p\n' >fetch.txt
    for algorithm in md5 sha1 sha256 sha512; do
        "${algorithm}sum" bag-info.txt bagit.txt fetch.txt manifest-*.txt >"tagmanifest-$algorithm.txt"
    done
)
expect 'all tag files' 0 valid ./bag check "$work/whole"
printf abd >"$work/whole/data/a.txt"
expect 'all tag files, and a changed file' 1 "manifest-md5.txt: digest: data/a.txt
manifest-sha1.txt: digest: data/a.txt
manifest-sha256.txt: digest: data/a.txt
manifest-sha512.txt: digest: data/a.txt
complete, not valid" ./bag check "$work/whole"

expect 'random bags' 0 '4000 bags: all judged alike' python3 -B tests/tools.py "$program" 1 4000
expect 'the second receiver, on worked cases' 0 '165 worked answers: 0 otherwise' python3 -B tests/data/worked_answers.py
finish
