#!/usr/bin/env bash
# Sizes and numbers at a limit and just above it: what is too large is told as that, and not as want of memory. And
# files whose lengths are those of pieces, or nearly. Limits that program.sh, commands.sh, hostile.sh and deliveries.sh
# have are left out here.
set -u
cd "$(dirname -- "$0")/.." || exit 1
. tests/lib/common.bash

take_program

# bag ARGUMENT..: runs the program in the folder `work`, so that names can be short.
bag() {
    env -C "$work" timeout 120 "$program" "$@"
}

# little ARGUMENT..: the same with at most 2 GB of memory, into which no file fits that is far past a limit.
little() (
    ulimit -v 2000000
    bag "$@"
)

e_sha256=e3b0c44298fc1c149afbf4c8996fb92427ae41e4649b934ca495991b7852b855
declaration=$'BagIt-Version: 1.0\nTag-File-Character-Encoding: UTF-8\n'

# new_bag NAME: makes a bag with one payload file, which is empty.
new_bag() {
    mkdir -p "$work/$1/data"
    printf %s "$declaration" >"$work/$1/bagit.txt"
    echo "$e_sha256  data/e" >"$work/$1/manifest-sha256.txt"
    : >"$work/$1/data/e"
}

# refused NAME LINE BAG: no transfer is opened with the tag files of this folder, and no ledger is made.
refused() {
    expect "$1" 1 "$2" little begin new t1 "$3"
    expect "$1: no ledger is made" 0 '' nothing "$work/new"
}

# answered COMMAND..: the command prints the lines in the file `answers`, which are too many for a word.
answered() {
    local status=0
    "$@" >"$work/answered" || status=$?
    cmp "$work/answers" "$work/answered"
    return "$status"
}

# Tag files of 16,777,216 octets, and with one octet more.
# filled FILE LENGTH START OCTET END: writes a file of this length, in which the octet stands as often as needed between
# the start and the end.
filled() {
    {
        printf %s "$3"
        head -c $(($2 - ${#3} - ${#5})) /dev/zero | tr '\0' "$4"
        printf %s "$5"
    } >"$1"
}
new_bag small
listed=$(sha256sum "$work/small/manifest-sha256.txt")
for file in bagit.txt manifest-sha256.txt tagmanifest-sha256.txt bag-info.txt fetch.txt; do
    case $file in
    bagit.txt) parts=('' A '') ;;
    manifest-*) parts=("$e_sha256" ' ' $'data/e\n') ;;
    tagmanifest-*) parts=("${listed%% *}" ' ' $'manifest-sha256.txt\n') ;;
    bag-info.txt) parts=('Note: ' x '') ;;
    fetch.txt) parts=('http:' x $' 0 data/e\n') ;;
    esac
    new_bag tag
    filled "$work/tag/$file" 16777216 "${parts[@]}"
    expect "$file at the limit: its length" 0 16777216 stat -c %s "$work/tag/$file"
    case $file in
    bagit.txt)
        refused "$file at the limit: begin" 'refused: bagit.txt: line count' tag
        ;;
    *)
        expect "$file at the limit: check" 0 valid bag check tag
        expect "$file at the limit: begin" 0 new bag begin at t1 tag
        expect "$file at the limit: begin again" 0 again bag begin at t1 tag
        expect "$file at the limit: intake" 0 'taken data/e' bag intake at t1 tag
        for command in report audit; do
            expect "$file at the limit: $command" 0 valid bag "$command" at t1
        done
        expect "$file at the limit: fetch" 0 '' bag fetch at t1 tag
        expect "$file at the limit: list" 0 t1 bag list at
        expect "$file at the limit: export" 0 "exported $(find "$work/tag" -type f | wc -l) files" bag export at t1 out
        expect "$file at the limit: the bag" 0 '' diff -r "$work/tag" "$work/out"
        rm -r "$work/at" "$work/out"
        ;;
    esac
    filled "$work/tag/$file" 16777217 "${parts[@]}"
    [ "$file" = bagit.txt ] || expect "$file past the limit: check" 3 'bag: tag too large' bag check tag
    refused "$file past the limit: begin" 'refused: tag too large' tag
    if truncate -s 64G "$work/tag/$file"; then
        expect "$file far past the limit: check" 3 'bag: tag too large' little check tag
        refused "$file far past the limit: begin" 'refused: tag too large' tag
    else
        lacking "$file far past the limit (no sparse files)"
    fi
    rm -r "$work/tag"
done
new_bag tag
if truncate -s 64G "$work/tag/notes.bin"; then
    expect 'another tag file far past the limit: check, which reads none that is not listed' 0 valid little check tag
    refused 'another tag file far past the limit: begin' 'refused: tag too large' tag
else
    lacking 'another tag file far past the limit (no sparse files)'
fi
rm -r "$work/tag"

# Lines of the tag files of a transfer.
new_bag lines
for file in fetch.txt tagmanifest-sha256.txt bag-info.txt; do
    case $file in
    tagmanifest-*) first=${listed/"$work/small/"/} ;;
    *) first='' ;;
    esac
    { echo "$first" && yes '' | head -n 99999; } >"$work/lines/$file"
    expect "100,000 lines of $file: begin" 0 new bag begin lined "${file%%[-.]*}" lines
    echo >>"$work/lines/$file"
    if [ "$file" = bag-info.txt ]; then
        expect "100,001 lines of $file, which are not counted: begin" 0 new bag begin lined info lines
    else
        refused "100,001 lines of $file: begin" 'refused: tag too large' lines
        expect "100,001 lines of $file: check" 3 'bag: too many' bag check lines
    fi
    rm "$work/lines/$file"
done

# Payload files whose lengths are around those of pieces, of 65,536 octets. Their digests are those of coreutils, and
# their rows those that section 18 of docs/FORMAT.md asks for.
lengths=(65535 65536 65537 131071 131072 131073 196608 196609)
new_bag pieces
rm "$work/pieces/data/e" "$work/pieces/manifest-sha256.txt"
for length in "${lengths[@]}"; do
    seq "$length" 999999 | head -c "$length" >"$work/pieces/data/$length"
    echo "http://example.org/ $length data/$length" >>"$work/pieces/fetch.txt"
done
for alg in md5 sha512; do
    (cd "$work/pieces" && "${alg}sum" data/*) >"$work/pieces/manifest-$alg.txt"
done
# of_each BEFORE AFTER: a line for each file, in the order of their paths.
paths=$(printf 'data/%s\n' "${lengths[@]}" | LC_ALL=C sort)
of_each() {
    while IFS= read -r path; do printf '%s\n' "$1$path$2"; done <<<"$paths"
}
# pieces_of LEDGER TRANSFER: each payload file that is held, with its length and the lengths of its pieces in their
# order.
pieces_of() {
    python3 - "$work/$1" "$2" <<'PYTHON'
import sqlite3, sys
database = sqlite3.connect(sys.argv[1])
text = "SELECT held.id, path, size FROM held JOIN transfer ON transfer.id = transfer WHERE name = ? ORDER BY path"
for item, path, size in database.execute(text, sys.argv[2:]).fetchall():
    pieces = database.execute("SELECT n, length(body) FROM piece WHERE item = ? ORDER BY n", (item,)).fetchall()
    print(path, size, *(f"{n}:{length}" for n, length in pieces))
PYTHON
}
# wanted_pieces: the same, of all these files.
wanted_pieces() {
    local path rest number
    while IFS= read -r path; do
        rest=${path#data/} number=0
        printf '%s %s' "$path" "$rest"
        while [ "$rest" -gt 65536 ]; do
            printf ' %s:65536' "$number"
            rest=$((rest - 65536)) number=$((number + 1))
        done
        printf ' %s:%s\n' "$number" "$rest"
    done <<<"$paths"
}
expect 'pieces: check' 0 valid bag check pieces
expect 'pieces: make' 0 "made ${#lengths[@]} files, 983041 octets" bag make pieces/data made md5 sha512
expect 'pieces: the files that are made' 0 '' diff -r "$work/pieces/data" "$work/made/data"
for alg in md5 sha512; do
    expect "pieces: the manifest by $alg that is made" 0 '' \
        cmp "$work/pieces/manifest-$alg.txt" "$work/made/manifest-$alg.txt"
done
for way in intake fetch; do
    expect "pieces by $way: begin" 0 new bag begin ledger "$way" pieces
    # Each file with one octet changed, at several places, and with one octet less or more.
    for damage in 0 65534 last shorter longer; do
        cp -r "$work/pieces" "$work/damaged"
        for length in "${lengths[@]}"; do
            file=$work/damaged/data/$length
            case $damage in
            shorter) truncate -s -1 "$file" ;;
            longer) printf x >>"$file" ;;
            last) printf x | dd of="$file" bs=1 seek=$((length - 1)) conv=notrunc status=none ;;
            *) printf x | dd of="$file" bs=1 seek="$damage" conv=notrunc status=none ;;
            esac
        done
        case $damage in
        shorter | longer) cause=length ;;
        *) cause='digest md5' ;;
        esac
        expect "pieces by $way, damaged ($damage)" 1 "$(
            if [ "$way" = intake ]; then
                of_each 'refused ' ": $cause"
            else
                printf "refused data/%s: $cause\n" "${lengths[@]}"
            fi
        )" bag "$way" ledger "$way" damaged
        if [ "$way" = intake ] && [ "$cause" != length ]; then
            expect "pieces: check, damaged ($damage)" 1 "$(
                of_each 'manifest-md5.txt: digest: ' ''
                of_each 'manifest-sha512.txt: digest: ' ''
                echo 'complete, not valid'
            )" bag check damaged
        fi
        rm -r "$work/damaged"
    done
    expect "pieces by $way: nothing is held" 0 '' pieces_of ledger "$way"
    expect "pieces by $way" 0 "$(
        if [ "$way" = intake ]; then of_each 'taken ' ''; else printf 'taken data/%s\n' "${lengths[@]}"; fi
    )" bag "$way" ledger "$way" pieces
    expect "pieces by $way: what is held" 0 "$(wanted_pieces)" pieces_of ledger "$way"
    expect "pieces by $way: audit" 0 valid bag audit ledger "$way"
    expect "pieces by $way: export" 0 "exported $((${#lengths[@]} + 4)) files" bag export ledger "$way" "by $way"
    expect "pieces by $way: the bag" 0 '' diff -r "$work/pieces" "$work/by $way"
done

# A file of 1 GiB and an octet, from a supplier. That it is too large is told before its length is compared.
new_bag large
rm "$work/large/data/e"
echo 'http://example.org/ 5 data/e' >"$work/large/fetch.txt"
expect 'a file past the limit: begin' 0 new bag begin past t1 large
if truncate -s 1073741825 "$work/large/data/e"; then
    expect 'a file past the limit: fetch' 1 'refused data/e: too large' bag fetch past t1 large
    truncate -s 1073741824 "$work/large/data/e"
    expect 'a file at the limit: fetch' 1 'refused data/e: length' bag fetch past t1 large
    expect 'a file at the limit: report' 1 $'manifest-sha256.txt: missing: data/e\nnot complete' bag report past t1
else
    lacking 'a file past the limit (no sparse files)'
fi
rm -r "$work/large"

# A file of 4 GiB and an octet, and one behind it. The digests are those of md5sum.
new_bag vast
rm "$work/vast/data/e" "$work/vast/manifest-sha256.txt"
printf '%s  data/%s\n' f18c798ff5d450dfe4d3acdc12b621ff a 7fc56270e7a70fa81a5935b72eacbe29 b \
    >"$work/vast/manifest-md5.txt"
echo 'http://example.org/ 4294967297 data/a' >"$work/vast/fetch.txt"
echo 'Payload-Oxum: 4294967298.2' >"$work/vast/bag-info.txt"
if truncate -s 4294967297 "$work/vast/data/a"; then
    printf A >"$work/vast/data/b"
    expect 'a file of 4 GiB and an octet: check' 0 valid bag check vast
    expect 'a file of 4 GiB and an octet: make' 0 'made 2 files, 4294967298 octets' bag make vast/data made4g md5
    expect 'a file of 4 GiB and an octet: its length' 0 4294967297 stat -c %s "$work/made4g/data/a"
    for file in manifest-md5.txt bag-info.txt data/b; do
        expect "a file of 4 GiB and an octet: $file" 0 '' cmp "$work/vast/$file" "$work/made4g/$file"
    done
    rm -r "$work/made4g"
else
    lacking 'a file of 4 GiB and an octet (no sparse files)'
fi
rm -r "$work/vast"

# A file of 256 MiB and an octet in little memory: it is read, hashed and stored piece by piece.
# tight ARGUMENT..: runs the program with at most 64 MB of memory.
tight() (
    ulimit -v 64000
    bag "$@"
)
new_bag heavy
if truncate -s 268435457 "$work/heavy/data/e"; then
    (cd "$work/heavy" && sha256sum data/e >manifest-sha256.txt \
        && echo 'http://example.org/ 268435457 data/e' >fetch.txt)
    expect 'a file that fits into no memory: check' 0 valid tight check heavy
    expect 'a file that fits into no memory: make' 0 'made 1 files, 268435457 octets' tight make heavy/data heavier md5
    expect 'a file that fits into no memory: begin' 0 new tight begin light t1 heavy
    expect 'a file that fits into no memory: intake' 0 'taken data/e' tight intake light t1 heavy
    rm "$work/light"
    expect 'a file that fits into no memory: begin again' 0 new tight begin light t1 heavy
    expect 'a file that fits into no memory: fetch' 0 'taken data/e' tight fetch light t1 heavy
    rm -r "$work/light" "$work/heavier"
else
    lacking 'a file that fits into no memory (no sparse files)'
fi
rm -r "$work/heavy"
# The same for files that are so short that several are held until their digests are taken.
new_bag short
rm "$work/short/data/e"
for number in {1..1500}; do truncate -s 100000 "$work/short/data/$number"; done
(cd "$work/short" && find data -type f | LC_ALL=C sort | xargs md5sum >manifest-md5.txt && rm manifest-sha256.txt)
expect 'files that fit into no memory: check' 0 valid tight check short
expect 'files that fit into no memory: make' 0 'made 1500 files, 150000000 octets' tight make short/data shorter sha1
expect 'files that fit into no memory: begin' 0 new tight begin light t1 short
expect 'files that fit into no memory: intake' 0 "$(cut -c 35- "$work/short/manifest-md5.txt" | sed 's/^/taken /')" \
    tight intake light t1 short
rm -r "$work/light" "$work/short" "$work/shorter"
# Files that are read side by side, and those that they are copied to: no more of them are open, and no more of them is
# held, than of 32.
new_bag side
rm "$work/side/data/e"
for number in {1..300}; do truncate -s 400000 "$work/side/data/$number"; done
(cd "$work/side" && find data -type f | LC_ALL=C sort | xargs md5sum >manifest-md5.txt && rm manifest-sha256.txt)
few_handles() (
    ulimit -n "$1"
    tight "${@:2}"
)
expect 'files that are read side by side, with few handles: check' 0 valid few_handles 48 check side
expect 'files that are read side by side, with few handles: make' 0 'made 300 files, 120000000 octets' \
    few_handles 80 make side/data copied md5
rm -r "$work/side" "$work/copied"
# Files of which as many as are held of short ones would need all memory.
mkdir "$work/two"
for number in {1..100}; do truncate -s 2000000 "$work/two/$number"; done
expect 'files of two megabytes that fit into no memory: make' 0 'made 100 files, 200000000 octets' \
    tight make two twice sha1
expect 'files of two megabytes that fit into no memory: check' 0 valid tight check twice
rm -r "$work/two" "$work/twice"
# Lines past the limit aren't kept.
new_bag unkept
seq -f 'd41d8cd98f00b204e9800998ecf8427e  data/%07.0f' 349525 >"$work/unkept/manifest-md5.txt"
expect 'lines past the limit that fit into no memory: check' 3 'bag: too many' tight check unkept
rm -r "$work/unkept"

# Urls of any length.
new_bag urls
: >"$work/urls/fetch.txt"
for length in 2048 2049 10000 65536 1000000; do
    echo "$e_sha256  data/$length" >>"$work/urls/manifest-sha256.txt"
    : >"$work/urls/data/$length"
    filled "$work/url" "$length" http: x ''
    echo "$(<"$work/url") 0 data/$length" >>"$work/urls/fetch.txt"
done
expect 'urls: check' 0 valid bag check urls
expect 'urls: begin' 0 new bag begin ledger urls urls
expect 'urls: fetch' 0 $'taken data/2048\ntaken data/2049\ntaken data/10000\ntaken data/65536\ntaken data/1000000' \
    bag fetch ledger urls urls

# Names of transfers, of which the longest has 64 octets.
longest=$(printf 'n%.0s' {1..64})
filled "$work/name" 100000 '' n ''
expect 'the longest name: begin' 0 new bag begin names "$longest" small
expect 'the longest name: intake' 0 'taken data/e' bag intake names "$longest" small
expect 'the longest name: report' 0 valid bag report names "$longest"
expect 'the longest name: audit' 0 valid bag audit names "$longest"
expect 'the longest name: fetch' 0 '' bag fetch names "$longest" small
expect 'the longest name: export' 0 'exported 3 files' bag export names "$longest" named
for name in "${longest}n" "$(<"$work/name")"; do
    kind="a name of ${#name} octets"
    expect "$kind: begin" 1 'refused: name' bag begin names "$name" small
    expect "$kind: intake" 1 'refused data/e: no transfer' bag intake names "$name" small
    expect "$kind: report" 1 'bag: no transfer' bag report names "$name"
    expect "$kind: audit" 1 'bag: no transfer' bag audit names "$name"
    expect "$kind: fetch" 1 'bag: no transfer' bag fetch names "$name" small
    expect "$kind: export" 1 'bag: no transfer' bag export names "$name" unmade
    expect "$kind: no bag is made" 0 '' nothing "$work/unmade"
done
expect 'names: list' 0 "$longest" bag list names

# Paths of 4,096 octets, the longest, and of 4,097, in each list. No folder can have such a file.
letters=$(printf 'k%.0s' {1..199})
path=data$(printf "/$letters%.0s" {1..20})/${letters:0:91}
tag_path=tags$(printf "/$letters%.0s" {1..20})/${letters:0:91}
expect 'a path of 4,096 octets' 0 4096 expr length "$path"
new_bag paths
echo "$e_sha256  $path" >>"$work/paths/manifest-sha256.txt"
echo "http://example.org/ - $path" >"$work/paths/fetch.txt"
one_missing="manifest-sha256.txt: missing: $path
not complete"
expect 'a path of 4,096 octets: check' 1 "$one_missing" bag check paths
expect 'a path of 4,096 octets: begin' 0 new bag begin ledger paths paths
expect 'a path of 4,096 octets: intake' 0 'taken data/e' bag intake ledger paths paths
expect 'a path of 4,096 octets: fetch' 1 "refused $path: not supplied" bag fetch ledger paths paths
for command in report audit; do
    expect "a path of 4,096 octets: $command" 1 "$one_missing" bag "$command" ledger paths
done
expect 'a path of 4,096 octets: export' 0 'exported 4 files' bag export ledger paths pathed
cp "$work/paths/manifest-sha256.txt" "$work/manifest"
for file in manifest-sha256.txt fetch.txt tagmanifest-sha256.txt; do
    cp "$work/manifest" "$work/paths/manifest-sha256.txt"
    echo "http://example.org/ - $path" >"$work/paths/fetch.txt"
    case $file in
    manifest-*) echo "$e_sha256  ${path}k" >>"$work/paths/$file" ;;
    fetch.txt) echo "http://example.org/ - ${path}k" >>"$work/paths/$file" ;;
    tagmanifest-*)
        (cd "$work/paths" && sha256sum manifest-sha256.txt) >"$work/paths/$file"
        echo "$e_sha256  ${tag_path}k" >>"$work/paths/$file"
        ;;
    esac
    number=$(wc -l <"$work/paths/$file")
    expect "a path of 4,097 octets in $file: check" 1 "$file:$number: path
not complete" bag check paths
    refused "a path of 4,097 octets in $file: begin" "refused: $file:$number: path" paths
done
sed -i 's/k$//' "$work/paths/tagmanifest-sha256.txt"
refused 'a path of 4,096 octets in a tag manifest: begin' "refused: tagmanifest-sha256.txt: missing: $tag_path" paths

# Folders and a ledger with names of 3,800 octets and more, which is nearly as long as the system takes.
deep=$(printf "$letters/%.0s" {1..19})
(cd "$work" && mkdir -p "$deep" && cp -r small "$deep/b")
expect 'long names: check' 0 valid bag check "$deep/b"
expect 'long names: make' 0 'made 1 files, 0 octets' bag make "$deep/b/data" "$deep/made" md5
expect 'long names: begin' 0 new bag begin "$deep/l" t1 "$deep/b"
expect 'long names: intake' 0 'taken data/e' bag intake "$deep/l" t1 "$deep/b"
expect 'long names: fetch' 0 '' bag fetch "$deep/l" t1 "$deep/b"
expect 'long names: report' 0 valid bag report "$deep/l" t1
expect 'long names: audit' 0 valid bag audit "$deep/l" t1
expect 'long names: list' 0 t1 bag list "$deep/l"
expect 'long names: export' 0 'exported 3 files' bag export "$deep/l" t1 "$deep/out"
expect 'long names: the bag' 0 '' env -C "$work" diff -r small "$deep/out"

# More folders than `check` takes files: there is no such limit. They are made in memory, which is faster than on a
# disk.
if own_mounts sh -c "mkdir '$work/disk' && mount -t tmpfs bag '$work/disk'" 2>"$work/no mount"; then
    # in_folders ARGUMENT..: runs the program where `disk` is a bag with 200,001 folders besides its own.
    in_folders() {
        own_mounts sh -c \
            'mount -t tmpfs bag "$1/disk" && cp -r "$1/small/." "$1/disk" &&
                (cd "$1/disk" && seq 200001 | xargs mkdir) || exit
            cd "$1" && shift && exec timeout 120 "$@"' sh "$work" "$program" "$@"
    }
    expect '200,001 folders: check' 0 valid in_folders check disk
    expect '200,001 folders: begin' 0 new in_folders begin lfolders folders disk
else
    lacking '200,001 folders (no permission to mount a file system in memory)'
fi

# More files than `check` takes: there is no such limit for a transfer. And more than can be in a new bag.
new_bag many
(cd "$work/many/data" && seq 200001 | xargs touch)
expect '200,002 files: check' 3 'bag: too many' bag check many
expect '200,002 files: begin' 0 new bag begin lmany many many
{ seq 200001 && echo e; } | LC_ALL=C sort \
    | sed -e 's/^e$/taken data\/e/' -e 's/^[0-9].*/refused data\/&: not listed/' >"$work/answers"
expect '200,002 files: intake' 1 '' answered bag intake lmany many many
expect '200,002 files: make' 1 'bag: too large' bag make many/data made100k md5
expect '200,002 files: no bag is made' 0 '' nothing "$work/made100k"
(cd "$work/many/data" && seq 199998 200001 | xargs rm)
{ seq 199997 | LC_ALL=C sort | sed 's|^|manifest-sha256.txt: unlisted: data/|' \
    && echo 'not complete'; } >"$work/answers"
expect '199,997 files that no manifest lists: check' 1 '' answered bag check many
(cd "$work/many/data" && seq 100001 199997 | xargs rm)
expect '100,001 files: make' 1 'bag: too large' bag make many/data made100k md5
expect '100,001 files: no bag is made' 0 '' nothing "$work/made100k"
rm "$work/many/data/e"
expect '100,000 files: make' 0 'made 100000 files, 0 octets' bag make many/data made100k md5 sha1
expect '100,000 files: check' 0 valid bag check made100k
expect '100,000 files: begin' 0 new bag begin lmade made made100k
# Each digest is wrong: those of no octets begin with d.
rm "$work"/made100k/tagmanifest-*
sed -i 's/^d/e/' "$work"/made100k/manifest-*
for alg in md5 sha1; do
    seq 100000 | LC_ALL=C sort | sed "s|^|manifest-$alg.txt: digest: data/|"
done >"$work/answers" && echo 'complete, not valid' >>"$work/answers"
expect '200,000 wrong digests: check' 1 '' answered bag check made100k
rm -r "$work/many" "$work/made100k"

# As many files as four manifests can list, and none of them is there.
new_bag lost
rm "$work/lost/manifest-sha256.txt" "$work/lost/data/e"
for alg in md5 sha1 sha256 sha512; do
    digest=$("${alg}sum" </dev/null)
    seq -f "${digest%% *}  data/%06.0f" 100000 >"$work/lost/manifest-$alg.txt"
    seq -f "manifest-$alg.txt: missing: data/%06.0f" 100000
done >"$work/answers" && echo 'not complete' >>"$work/answers"
expect '400,000 faults: check' 1 '' answered bag check lost
expect '400,000 faults: begin' 0 new bag begin llost lost lost
expect '400,000 faults: report' 1 '' answered bag report llost lost
expect '400,000 faults: audit' 1 '' answered bag audit llost lost
rm -r "$work/lost" "$work/llost"

# As many entries of fetch.txt as a transfer may have, of which one is supplied; and many tag files.
new_bag entries
seq -w 100000 | sed 's|^|d41d8cd98f00b204e9800998ecf8427e  data/|' >"$work/entries/manifest-md5.txt"
seq -w 100000 | sed 's|^|http://example.org/ - data/|' >"$work/entries/fetch.txt"
rm "$work/entries/manifest-sha256.txt" "$work/entries/data/e"
: >"$work/entries/data/050000"
seq -w 100000 | sed -e 's|.*|refused data/&: not supplied|' -e 's|refused data/050000: .*|taken data/050000|' \
    >"$work/answers"
expect '100,000 entries: begin' 0 new bag begin lentries entries entries
expect '100,000 entries: fetch' 1 '' answered bag fetch lentries entries entries
new_bag notes
(cd "$work/notes" && seq 10000 | xargs touch)
expect '10,002 tag files: check' 0 valid bag check notes
expect '10,002 tag files: begin' 0 new bag begin lnotes notes notes
expect '10,002 tag files: begin again' 0 again bag begin lnotes notes notes
expect '10,002 tag files: intake' 0 'taken data/e' bag intake lnotes notes notes
expect '10,002 tag files: export' 0 'exported 10003 files' bag export lnotes notes noted
expect '10,002 tag files: the bag' 0 '' diff -r "$work/notes" "$work/noted"
rm -r "$work/notes" "$work/noted"

# As many files as `check` takes, each of them listed: as many payload files as a manifest can list, with as many
# entries, and tag files. By each command on a folder and on a ledger, and at last with faults. They are made in memory.
# in_memory COMMANDS: runs them where `b` is this bag; `bag` is the program, and `count` counts lines that begin alike.
in_memory() {
    own_mounts bash -c 'mount -t tmpfs bag "$1/memory" && cp -r "$1/small" "$1/memory/b" && cd "$1/memory/b" || exit
        program=$2
        rm manifest-sha256.txt data/* && mkdir notes
        (cd data && seq -w 100000 | xargs touch) && (cd notes && seq -w 99996 | xargs touch)
        find data -type f | LC_ALL=C sort | xargs md5sum >manifest-md5.txt
        sed "s/.* /http:x 0 /" manifest-md5.txt >fetch.txt
        find bagit.txt fetch.txt manifest-md5.txt notes -type f | xargs md5sum >tagmanifest-md5.txt
        bag() { "$program" "$@"; }
        count() { uniq -c -w 9 | sed "s/^ *//"; }
        cd .. && eval "$3"' bash "$work" "$program" "$1"
}
if own_mounts sh -c "mkdir '$work/memory' && mount -t tmpfs bag '$work/memory'" 2>"$work/no mount"; then
    expect '200,000 files, each listed, that are delivered' 0 'valid
new
100000 taken data/000001
valid
valid
exported 200000 files
again' in_memory 'bag check b && bag begin l t1 b && bag intake l t1 b | count && bag report l t1 && bag audit l t1 \
        && bag export l t1 x && diff -r b x && bag begin l t1 b'
    expect '200,000 files, each listed, that are fetched' 0 'new
100000 taken data/000001
valid' in_memory 'bag begin l t1 b && bag fetch l t1 b | count && bag report l t1'
    expect '200,000 files, each listed, of which the last have another digest' 1 'manifest-md5.txt: digest: data/100000
tagmanifest-md5.txt: digest: manifest-md5.txt
tagmanifest-md5.txt: digest: notes/99996
complete, not valid' in_memory \
    'sed -i "\$ s/^./0/" b/manifest-md5.txt && sed -i "/99996$/ s/^./0/" b/tagmanifest-md5.txt && bag check b'
    expect '200,000 files, each listed, with other lengths than their entries have' 0 \
        '100000 fetch.txt:1: length: data/000001
1 tagmanifest-md5.txt: digest: fetch.txt
1 not complete' in_memory 'sed -i "s/ 0 / 1 /" b/fetch.txt && bag check b | count'
else
    lacking '200,000 files, each listed (no permission to mount a file system in memory)'
fi

# A new bag whose manifest has 16,777,216 octets: 4,162 lines of 4,031, with paths of 3,900, and one of 194.
folders=$(printf "$letters/%.0s" {1..19})
folders+=${letters:0:3888-${#folders}}
mkdir -p "$work/source"
(cd "$work/source" && mkdir -p "$folders" && cd "$folders" && seq -w 100001 104162 | xargs touch)
: >"$work/source/z${letters:0:57}"
expect 'a manifest at the limit: make' 0 'made 4163 files, 0 octets' bag make source m sha512
expect 'a manifest at the limit: its length' 0 16777216 stat -c %s "$work/m/manifest-sha512.txt"
expect 'a manifest at the limit: check' 0 valid bag check m
mv "$work/source/z${letters:0:57}" "$work/source/z${letters:0:58}"
expect 'a manifest past the limit: make' 1 'bag: too large' bag make source n sha512
rm -rf "$work/source" "$work/m" "$work/n"

# More words than can be numbered in 16 bits.
mapfile -t words < <(yes small | head -n 65540)
mapfile -t algorithms < <(yes md5 | head -n 65540)
taken=$(echo 'taken data/e' && yes 'repeated data/e' | head -n 65539)
expect '65,540 folders: begin' 0 new bag begin lwords words small
expect '65,540 folders: intake' 0 "$taken" bag intake lwords words "${words[@]}"
expect '65,540 folders, and one that is not there: intake' 3 'bag: files' bag intake lwords words "${words[@]}" none
# Of each folder's files none is open any more when those of the next are read.
taken=$(echo 'taken data/e' && yes 'repeated data/e' | head -n 99)
expect '100 folders, with few handles: begin' 0 new few_handles 64 begin lhandles words small
expect '100 folders, with few handles: intake' 0 "$taken" few_handles 64 intake lhandles words "${words[@]:0:100}"
expect '65,540 algorithms, and another: make' 64 'unknown algorithm md4' \
    bag make small/data unmade "${algorithms[@]}" md4
expect '65,540 algorithms, and another: no bag is made' 0 '' nothing "$work/unmade"
finish
