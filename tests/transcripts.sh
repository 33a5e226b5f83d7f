#!/usr/bin/env bash
# The transcripts in the documents: each block marked `console` is run in a directory with the script `bag` and a fresh
# copy of the examples, must print what it shows, and removes what it made. So a reader can run one after the other in a
# clone.
set -u
cd "$(dirname -- "$0")/.." || exit 1
. tests/lib/common.bash
top=$PWD

take_program

# Git keeps no empty directories, so they are removed from the copy too.
mkdir "$work/fresh"
ln -s "$top/bag" "$work/fresh/bag"
cp -r examples "$work/fresh/examples"
find "$work/fresh/examples" -type d -empty -delete

fresh() {
    rm -rf "$work/transcript"
    cp -r "$work/fresh" "$work/transcript"
}

# left_behind: names what the commands left beside the script and the examples, and what they changed in these.
left_behind() {
    diff -rq --no-dereference "$work/fresh" "$work/transcript"
}

# transcript NAME: runs the commands of the block in $work/block.
transcript() {
    local command status=0
    fresh
    while IFS= read -r command; do
        echo "$ $command"
        # Only the status of the previous command is passed on, for `echo $?`.
        (cd "$work/transcript" && timeout 60 bash -c "(exit $status); $command" </dev/null 2>&1)
        status=$?
    done < <(sed -n 's/^\$ //p' "$work/block") >"$work/shown"
    expect "$1" 0 '' diff -u "$work/block" "$work/shown"
    expect "$1: nothing is left" 0 '' left_behind
}

for file in README.md examples/README.md docs/*.md; do
    mapfile -t lines <"$file"
    began=0
    for i in "${!lines[@]}"; do
        if [ "${lines[i]}" = '```console' ]; then
            began=$((i + 1))
            : >"$work/block"
        elif [ "$began" -gt 0 ] && [ "${lines[i]}" = '```' ]; then
            transcript "$file:$began"
            began=0
        elif [ "$began" -gt 0 ]; then
            printf '%s\n' "${lines[i]}" >>"$work/block"
        fi
    done
done

# Each example has a transcript.
for folder in examples/*/; do
    expect "$folder is shown in examples/README.md" 0 '' grep -qF "./bag check ${folder%/}" examples/README.md
done
finish
