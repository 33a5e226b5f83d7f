#!/usr/bin/env bash
# The scripts of docs/RECIPES.md and docs/bag.1, in dash and in bash. `download` runs with a `curl` that writes the url
# into the file, or fails if it ends in `gone`.
set -u
cd "$(dirname -- "$0")/.." || exit 1
. tests/lib/common.bash
top=$PWD

# recipe TEXT: the block of docs/RECIPES.md that has this text. The program is looked for in a folder of this script.
recipe() {
    awk -v text="$1" '
        /^```/ { if (is_block && index(block, text)) printf "%s", block; is_block = !is_block; block = ""; next }
        is_block { block = block $0 "\n" }' docs/RECIPES.md | sed "s|/usr/local/bin|$work/bin|"
}

mkdir "$work/bin" "$work/tags"
recipe '# download TAGS DIR' >"$work/download"
cat >"$work/bin/curl" <<'CURL'
#!/bin/sh
while [ $# -gt 1 ]; do
    [ "$1" != --output ] || file=$2
    [ "$1" != --url ] || url=$2
    shift
done
case $url in *gone) exit 22 ;; esac
printf %s "$url" >"$file"
CURL
chmod +x "$work/bin/curl"

# declared VERSION: the tag files declare this version.
declared() {
    printf 'BagIt-Version: %s\nTag-File-Character-Encoding: UTF-8\n' "$1" >"$work/tags/bagit.txt"
}

# listed LINE..: the lines of `fetch.txt`, in which printf's escapes are read.
listed() {
    printf '%b' "$@" >"$work/tags/fetch.txt"
}

# downloaded FOLDER: runs the script, and prints what it left out, and each file in the folder with what it holds.
downloaded() {
    local status=0
    (cd "$work" && PATH=$work/bin:$PATH bash download tags "$1" 2>"$work/told") || status=$?
    sed -n 's/^not downloaded: //p' "$work/told"
    find "$work/$1" -type f -printf '%P\0' | LC_ALL=C sort -z |
        (cd "$work/$1" && xargs -0 -I{} sh -c 'printf "%s=" "$1" && cat -- "$1" && echo' sh {})
    return "$status"
}

declared 1.0
listed '\xef\xbb\xbfhttp://x/1 - data/a\r\n' 'http://x/2\t3 \tdata/b%25%250A \n' '\n' \
    'http://x/3 - data/two%0alines\r' 'http://x/4 - data/d'
expect 'each line is read as FORMAT.md says' 0 'data/a=http://x/1
data/b%%0A =http://x/2
data/d=http://x/4
data/two
lines=http://x/3' downloaded into
declared 0.97
expect 'in version 0.97' 0 'data/a=http://x/1
data/b%%0A =http://x/2
data/b%25%250A =http://x/2
data/d=http://x/4
data/two
lines=http://x/3' downloaded into

declared 1.0
listed 'http://x/1 - data/a\n' 'http://x/2 - data/a\n' 'http://x/3 - data/a/b\n' 'http://x/gone - data/c\n' 'none\n' \
    'http://x/4 - data/../out\n' 'http://x/5 - data/b/../../../out\n' 'http://x/6 - data//out\n' \
    'http://x/7 - data/./out\n' \
    'http://x/8 - data\n' 'http://x/9 - data/\n' 'http://x/10 - bagit.txt\n' 'http://x/11 - /out\n'
left_out='folder: http://x/3 - data/a/b
curl: http://x/gone - data/c
not an entry: none
path: http://x/4 - data/../out
path: http://x/5 - data/b/../../../out
path: http://x/6 - data//out
path: http://x/7 - data/./out
path: http://x/8 - data
path: http://x/9 - data/
path: http://x/10 - bagit.txt
path: http://x/11 - /out'
expect 'what is left out' 1 "$left_out"$'\ndata/a=http://x/1' downloaded again
printf changed >"$work/again/data/a"
expect 'nothing is written over' 1 "$left_out"$'\ndata/a=changed' downloaded again
expect 'nothing is written beside the folder' 0 '' nothing "$work/out"

mkdir -p "$work/linked/data"
ln -s /nowhere "$work/linked/data/b"
expect 'nothing is written beside a link' 1 '' downloaded linked
# Scripts around `bag check`, by each shell. What a script starts by the name `sh` is the same shell.
printf '#!/bin/sh\nexec "%s/bag" "$@"\n' "$top" >"$work/bin/bag"
recipe '# keep: ' >"$work/keep"
sed -n '/^set -C$/,/^\.EE$/p' docs/bag.1 | sed '$d' >"$work/keep of the page"
recipe '# check-bags ' >"$work/bin/check-bags"
recipe 'MAILTO=' | sed -n "s|/srv|$work/srv|g; s/"'\\%/%/; s/^0 1 [*] [*] [*] //p' >"$work/nightly"
chmod +x "$work/bin/"*
shells=()
for shell in dash bash; do
    if tool=$(command -v "$shell"); then
        shells+=("$shell")
        mkdir "$work/$shell"
        ln -s "$tool" "$work/$shell/sh"
    else
        lacking "scripts by "$shell" (it is not installed)"
    fi
done

# by SHELL FOLDER COMMAND..: runs the command in the folder, with `bag` and the scripts on PATH. What it says is kept.
by() (
    cd "$2" || exit 1
    PATH=$work/$1:$work/bin:$PATH
    shift 2
    "$@" 2>"$work/told"
)

# desk EXAMPLE: begins anew, with a copy of the example as the folder `received`.
desk() {
    rm -rf -- "$work/desk"
    mkdir -p "$work/desk/archive"
    cp -r "examples/$1" "$work/desk/received"
}

# kept SHELL SCRIPT: runs the script on the desk, and prints where the bag is and what the report says.
kept() {
    local status=0
    by "$1" "$work/desk" sh "$work/$2" || status=$?
    (cd "$work/desk" && find . -name bagit.txt -printf '%h\n' && cat -- *report 2>/dev/null)
    return "$status"
}

for shell in "${shells[@]}"; do
    for script in keep 'keep of the page'; do
        name="$script, by $shell"
        desk first-bag
        expect "$name: a valid bag" 0 $'./archive/received\nvalid' kept "$shell" "$script"
        desk faulty-lines
        expect "$name: not valid" 1 \
            $'./received\nbag-info.txt:2: label\nfetch.txt:1: url\nmanifest-sha256.txt:1: digest form\nnot complete' \
            kept "$shell" "$script"
        desk version-0.96
        expect "$name: not judged" 2 $'./received\noutside: version' kept "$shell" "$script"
        desk first-bag
        for report in report received.report; do
            echo older >"$work/desk/$report"
        done
        expect "$name: a report that is there" 3 $'./received\nolder\nolder' kept "$shell" "$script"
        desk first-bag
        mkdir "$work/desk/"{report,received.report}
        expect "$name: a report that cannot be written" 3 './received' kept "$shell" "$script"
        desk first-bag
        mkdir "$work/desk/archive/received"
        echo other >"$work/desk/archive/received/file"
        expect "$name: the archive has another one" 3 $'./received\nvalid' kept "$shell" "$script"
        rm -r "$work/desk/archive" "$work/desk/"*report
        expect "$name: no archive" 3 $'./received\nvalid' kept "$shell" "$script"
    done
done

# Many bags: two of one last name, two whose reports would have one name, one in another, one with a name that is too
# long for a report, and two with odd names.
bags=$work/srv/bags
long=$(printf 'x%.0s' {1..200})
mkdir -p "$bags/2023" "$bags/2024" "$bags/$long/$long" "$work/srv/reports" "$work/none"
cp -r examples/first-bag "$bags/2023/a"
cp -r examples/missing-file "$bags/2024/a"
cp -r examples/first-bag "$bags/2024/b"
cp -r examples/first-bag "$bags/2024_b"
cp -r examples/first-bag "$bags/2024/a/data/inner"
cp -r examples/first-bag "$bags/$long/$long/c"
cp -r examples/version-0.96 "$bags/-d \$(e) 'f\\c"
cp -r examples/first-bag "$bags/g"$'\n'"0 h"
ln -s bags "$work/srv/link"

# lines SHELL COMMAND..: runs it in $work/srv, and prints each line with the two names that meet as one, and no long
# name.
lines() {
    local status=0
    by "$1" "$work/srv" "${@:2}" >"$work/lines" || status=$?
    sed "s/2024_b$/2024\/b/; s/$long/long/g" "$work/lines" | LC_ALL=C sort
    return "$status"
}
all='0 bags/2023/a
0 bags/2024/a/data/inner
0 bags/2024/b
0 bags/g?0 h
1 bags/2024/a
2 bags/-d $(e) '"'f"'\c
3 bags/2024/b
3 bags/long/long/c'
for shell in "${shells[@]}"; do
    name="check-bags, by $shell"
    reports=$work/reports-$shell
    expect "$name: as docs/RECIPES.md shows it" 1 "$(recipe '0 examples/first-bag')" \
        by "$shell" . check-bags "$reports" examples/f*
    expect "$name: the report that it names" 0 $'fetch.txt:1: length: data/a.txt\nnot complete' \
        cat "$reports/examples_fetch-length"
    expect "$name: reports that are there" 3 '' by "$shell" . check-bags "$reports" examples
    expect "$name: reports that cannot be made" 3 '' by "$shell" . check-bags "$work/none/none/reports" examples
    expect "$name: many bags" 3 "$all" lines "$shell" check-bags "$reports-all" bags
    expect "$name: two of one last name" 0 $'bags_2023_a:valid\nbags_2024_a:not complete' \
        by "$shell" "$reports-all" grep -x 'valid\|not complete' bags_2023_a bags_2024_a
    expect "$name: no bag" 3 '3 no bag' by "$shell" "$work" check-bags "$reports-none" none
    expect "$name: a folder that is not there" 3 $'0 examples/first-bag\n3 a folder' \
        by "$shell" . check-bags "$reports-gone" examples/first-bag gone
    expect "$name: a folder behind a link" 3 "${all//bags/link}" lines "$shell" check-bags "$reports-link" link
    # The other form, for bags that lie side by side.
    sed "s/-name bagit.txt -printf '%h\\\\0'/-mindepth 1 -maxdepth 1 -type d -print0/" "$work/bin/check-bags" \
        >"$work/side"
    cp -r examples/no-declaration "$work/none/lost"
    expect "$name: a bag without bagit.txt" 1 '1 none/lost' by "$shell" "$work" sh "$work/side" "$reports-side" none
    rm -r "$work/none/lost"
    # The form that leaves out a bag in the payload of another.
    sed "s/-name bagit.txt -printf '%h\\\\0'/-exec test -e '{}\/bagit.txt' ';' -print0 -prune/" "$work/bin/check-bags" \
        >"$work/outer"
    expect "$name: outer bags alone" 3 "$(grep -v inner <<<"$all")" \
        lines "$shell" sh "$work/outer" "$reports-outer" bags

    expect "nightly, by $shell" 0 "$(grep -v '^0' <<<"${all//bags/$bags}")" lines "$shell" sh "$work/nightly"
    mv "$bags" "$work/kept"
    cp -r examples/first-bag "$bags"
    rm -r "$work/srv/reports/"*
    expect "nightly, by $shell: all are valid" 1 '' by "$shell" "$work" sh "$work/nightly"
    rm -r "$bags" "$work/srv/reports/"*
    expect "nightly, by $shell: the folder is gone" 0 '3 a folder' by "$shell" "$work" sh "$work/nightly"
    mv "$work/kept" "$bags"
    rm -r "$work/srv/reports/"*
done

# A job of Slurm, and the report on ledgers. job SHELL NUMBER: runs the job with this number in $work.
recipe '#SBATCH ' >"$work/job"
recipe 'crontab: 0 3' | sed "s|/srv/|$work/srv/|" >"$work/report-ledgers"
printf '%s\n' examples/first-bag examples/missing-file >"$work/bags.txt"
ln -s "$top/examples" "$work/examples"
job() {
    by "$1" "$work" env SLURM_ARRAY_TASK_ID="$2" SLURM_ARRAY_JOB_ID="$1" sh "$work/job"
}
mkdir "$work/srv/ledgers"
./bag begin "$work/srv/ledgers/letters.ledger" letters examples/transfer/tags >"$work/lines"
for shell in "${shells[@]}"; do
    rm -rf -- "$work/reports"
    expect "a job, by $shell" 0 '' job "$shell" 1
    expect "a job on a bag that is not valid, by $shell" 1 '' job "$shell" 2
    expect "a job without a bag, by $shell" 3 '' job "$shell" 3
    expect "their reports, by $shell" 0 $'valid\nnot complete\nbag: files' \
        sh -c 'tail -q -n 1 "$1"*' sh "$work/reports/$shell-"
    rm -r "$work/reports"
    touch "$work/reports"
    expect "a job whose report cannot be made, by $shell" 3 '' job "$shell" 1
    expect "a report on ledgers, by $shell" 0 "letters.ledger:
$(./bag report "$work/srv/ledgers/letters.ledger" letters)" by "$shell" "$work" sh "$work/report-ledgers"
done
./bag intake "$work/srv/ledgers/letters.ledger" letters examples/transfer/second >"$work/lines"
./bag fetch "$work/srv/ledgers/letters.ledger" letters examples/transfer/supplier >"$work/lines"
for shell in "${shells[@]}"; do
    expect "a report on valid bags, by $shell" 0 '' by "$shell" "$work" sh "$work/report-ledgers"
done

# The table of differences: differs ROW EDIT: of the first bag after the edit the program says what the second column of
# the row that begins with these words has in quotes.
differs() {
    rm -rf -- "$work/case"
    cp -r examples/first-bag "$work/case"
    (cd "$work/case" && eval "$2")
    echo "$1" >>"$work/tried"
    ./bag check "$work/case" >"$work/lines" 2>"$work/told"
    expect "row: $1" 0 '' says "$1"
}

# says ROW: there is one such row, and each of these words is in what was said.
says() {
    local words
    words=$(grep -F "| $1" docs/RECIPES.md | cut -d '|' -f 3 | grep -o '`[^`]*`' | tr -d '`')
    [ -n "$words" ] && [ "$(grep -cF "| $1" docs/RECIPES.md)" -eq 1 ] || return
    while IFS= read -r word; do
        grep -q -- "\(^\|: \)$word\(:\|$\)" "$work/lines" || return
    done <<<"$words"
}

# listed_as PATH: gives the first line of the manifest another path.
listed_as() {
    sed -i "1s|data/a.txt|$1|" manifest-sha256.txt
}
differs '`manifest-sha3-256.txt` beside' 'echo garbage >manifest-sha3-256.txt'
differs '`manifest-sha-256.txt` alone' 'mv manifest-sha256.txt manifest-sha-256.txt'
differs '`manifest-sha384.txt`' 'cp manifest-sha256.txt manifest-sha384.txt'
differs '`manifest-SHA256.txt`' 'mv manifest-sha256.txt manifest-SHA256.txt'
for version in 0.93 0.96; do
    differs 'version 0.93 to 0.96' "sed -i 's/1.0/$version/' bagit.txt"
done
for encoding in ISO-8859-1 UTF-16 US-ASCII; do
    differs '`bagit.txt` names another' "sed -i 's/UTF-8/$encoding/' bagit.txt"
done
differs 'it names UTF-8' "printf 'Title: \\xe9\\n' >>bag-info.txt"
differs '`100%.txt` in a manifest' 'mv data/a.txt data/100%.txt; listed_as data/100%.txt'
differs '`100%25.txt` there' 'mv data/a.txt data/100%.txt; listed_as data/100%25.txt'
differs 'blanks at the end' "listed_as 'data/a.txt  '"
differs 'a line `# comment`' "sed -i '1i # by hand' manifest-sha256.txt"
differs 'the name of a file in NFD' "mv data/a.txt $'data/e\u0301'; listed_as $'data/\u00e9'"
differs 'two files whose names' "mv data/a.txt $'data/e\u0301'; listed_as $'data/e\u0301'
    mv data/e.txt $'data/\u00e9'; sed -i $'2s/e.txt/\u00e9/' manifest-sha256.txt"
differs 'a symbolic link' 'mv data/a.txt data/b.txt; ln -s b.txt data/a.txt'
for path in data/./a.txt data//a.txt; do
    differs '`data/./a.txt` or' "listed_as $path"
done
differs 'one path in two lines' 'sed -i 1p manifest-sha256.txt'
differs '`bagit.txt` with an empty third line' 'echo >>bagit.txt'
differs '`Label : value`' 'echo "Label : value" >bag-info.txt'
differs '`Label:value` there' 'echo "Label:value" >bag-info.txt'
for version in 0.97 1.0; do
    differs '`Payload-Oxum` twice' \
        "sed -i s/1.0/$version/ bagit.txt; printf 'Payload-Oxum: 3.2\n%.0s' 1 2 >bag-info.txt"
done
differs 'a tag manifest that' 'sha256sum bagit.txt >tagmanifest-sha256.txt'
rows=$(sed -n '/^## Where other tools differ/,/^## /p' docs/RECIPES.md | grep -c '^| [^I]')
expect 'each row was tried' 0 "$rows" sh -c 'sort -u "$1" | wc -l' sh "$work/tried"
finish
