#!/usr/bin/env bash
# proofs.sh [CRATE..]: the cost of the proofs, as in the table of docs/PROOFS.md. For each crate, or for those that are named: the seconds
# and the processor minutes of its proof from nothing, as `rt ci` makes it with one job, once the crates below it are proved, and the
# processor minutes of its must-fail edits, with the proof that goes before them. All is done on a copy of the files that git keeps. For
# every crate it takes some hours. It needs a kit whose `rt ci` takes names of crates, and keeps what it has proved.
set -eu -o pipefail
cd "$(dirname -- "$0")/.."
work=$(mktemp -d)
trap 'rm -rf -- "$work"' EXIT
mkdir "$work/all" "$work/edits"
git ls-files -z -- crates crates.txt HANDLES | tar -c --null -T - | tar -x -C "$work/all"
cd "$work/all"

export RT_JOBS=1
exec 3>&2

# What this machine has proved before is of other sources: each crate has a line more than there.
for root in crates/*/src/{lib,main}.rt; do
    [ ! -f "$root" ] || printf '\n// %s\n' "$work" >>"$root"
done
# The edits are tried apart.
for edits in crates/*/must-fail; do
    mkdir -p "$work/edits/${edits%/must-fail}"
    mv "$edits" "$work/edits/$edits"
done

# passes CRATE: proves the crate, and tries its edits if it has them. Shows what is said if that fails.
passes() {
    rt ci "$1" >"$work/said" 2>&1 || { cat "$work/said" >&3 && false; }
}

# cost CRATE: the seconds and the processor minutes that this takes.
cost() {
    local TIMEFORMAT='%R %U %S'
    { time passes "$1"; } 2>&1 | awk '{ printf "%d %.1f", $1, ($2 + $3) / 60 }'
}

[ $# -gt 0 ] || mapfile -t crates < <(grep -o '^bag_[a-z]*' crates.txt)
[ $# -eq 0 ] || crates=("$@")
printf '| %-14s | %7s | %7s | %7s |\n' Crate Seconds Minutes Edits
for crate in "${crates[@]}"; do
    for lower in $(sed -n "s/^$crate: *//p" crates.txt | tr ' ' '\n' | grep '^bag_'); do
        passes "$lower"
    done
    read -r seconds minutes < <(cost "$crate" && echo)
    edits=0
    if [ -d "$work/edits/crates/$crate/must-fail" ]; then
        cp -r "$work/edits/crates/$crate/must-fail" "crates/$crate"
        read -r _ edits < <(cost "$crate" && echo)
        rm -r "crates/$crate/must-fail"
    fi
    printf '| %-14s | %7s | %7s | %7s |\n' "\`$crate\`" "$seconds" "$minutes" "$edits"
done
