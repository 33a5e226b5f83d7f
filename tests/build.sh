#!/usr/bin/env bash
# The scripts `bag` and `build` where there is no release: when they build, and that `bag` passes on arguments, output
# and status. The program and the kit are stand-ins.
set -u
cd "$(dirname -- "$0")/.." || exit 1
. tests/lib/common.bash

# A repository of two crates, and two that aren't part of the program. The stand-in for rt makes a program that
# prints its arguments, one per line.
repository="$work/a repository"
crate=$repository/crates/bag_program
mkdir -p "$crate/src" "$crate/specs" "$crate/proofs" "$repository/crates/low/src" "$work/kit"
printf '# Each crate.\nlow: std\nlow_tests: low\nbag_program: low\nother: low\n' >"$repository/crates.txt"
touch "$crate/src/main.rt" "$crate/src/old.rt" "$crate/specs/Lib.antt" "$crate/proofs/Lib.antt"
cp bag build program.sh "$repository"
ln -s "$repository/bag" "$work/link"
cat >"$work/kit/rt" <<'KIT'
#!/bin/sh
echo "rt $1 in ${PWD##*/}" >>"$REPOSITORY/builds"
echo "so far: 3 of 40 functions checked; the verdict comes last"
echo "what rt says of ${PWD##*/}" >&2
[ ! -e "$REPOSITORY/broken-${PWD##*/}" ] || exit 1
mkdir -p out
if [ "$1" = lib ]; then
    mkdir -p out/rlib out/incremental
    {
        [ "$PWD" -ef "$REPOSITORY/crates/${PWD##*/}" ] || echo "${PWD##*/} is a copy"
        cat src/lib.rt ../low/out/rlib/made out/incremental/made
    } >>"$REPOSITORY/seen" 2>/dev/null
    echo "${PWD##*/} was built" >out/rlib/made
    echo "${PWD##*/} was proved" >out/incremental/made
    exit 0
fi
cat >out/bag_program.new <<'PROGRAM'
#!/bin/sh
[ "$#" -gt 0 ] || { echo "no words"; exit 64; }
printf '<%s>\n' "$@"
exit 7
PROGRAM
chmod +x out/bag_program.new
mv out/bag_program.new out/bag_program
exec out/bag_program
KIT
chmod +x "$work/kit/rt"
mkdir "$work/tools"
for tool in sh readlink find rm; do
    ln -s "$(command -v "$tool")" "$work/tools/$tool"
done
PATH=$work/kit:$PATH
export REPOSITORY=$repository

# builds COMMAND..: runs the command, and then prints how many times it built. Its standard error is kept.
builds() {
    local status=0
    : >"$repository/builds"
    "$@" 2>"$work/build" || status=$?
    echo "builds: $(grep -cs '^rt run' "$repository/builds")"
    return "$status"
}

# builds_after COMMAND..: does the same for a run of `bag` after the command, which edits something. File times are
# coarse.
builds_after() {
    sleep 0.1
    "$@"
    builds "$repository/bag" word
}

# without_kit COMMAND..: runs the command without rt on PATH.
without_kit() {
    PATH=$work/tools "$@"
}

expect 'the first run builds' 7 $'<word>\nbuilds: 1' builds "$repository/bag" word
expect 'each crate is built once, from below' 0 $'rt lib in low\nrt run in bag_program' cat "$repository/builds"
expect 'a build prints one line per crate' 0 $'bag: proving low\nbag: proving bag_program' cat "$work/build"
expect 'the output of rt is kept' 0 $'what rt says of low\nwhat rt says of bag_program' \
    grep '^what' "$crate/out/build.log"
expect 'the next run builds nothing' 7 $'<word>\nbuilds: 0' builds "$repository/bag" word
expect 'the next run says nothing of its own' 7 '<word>' "$repository/bag" word
expect 'arguments are passed on as they are' 7 $'<two  words>\n<>\n<-x>\n<*>' "$repository/bag" 'two  words' '' -x '*'
expect 'no arguments' 64 'no words' "$repository/bag"
expect 'through a link' 7 '<word>' "$work/link" word
expect 'from another directory' 7 '<word>' env -C / "$repository/bag" word
expect 'an edited source' 7 $'<word>\nbuilds: 1' builds_after touch "$crate/src/main.rt"
expect 'an edited definition' 7 $'<word>\nbuilds: 1' builds_after touch "$crate/specs/Lib.antt"
expect 'an edited proof' 7 $'<word>\nbuilds: 1' builds_after touch "$crate/proofs/Lib.antt"
expect 'an edited list of crates' 7 $'<word>\nbuilds: 1' builds_after touch "$repository/crates.txt"
expect 'a source that was removed' 7 $'<word>\nbuilds: 1' builds_after rm "$crate/src/old.rt"
expect 'a file that no build reads' 7 $'<word>\nbuilds: 0' builds_after touch "$crate/stdout"
expect 'a built program needs no kit' 7 '<word>' without_kit "$repository/bag" word
rm "$crate/out/bag_program"
expect 'no kit' 69 'builds: 0' builds without_kit "$repository/bag" word
expect 'no kit: one line says what is missing' 0 1 grep -c 'rt.*is not on PATH' "$work/build"
expect 'no kit: no other line' 0 1 grep -c '' "$work/build"
expect 'a build alone' 0 'builds: 1' builds "$repository/build"
expect 'a build alone, of nothing new' 0 'builds: 0' builds without_kit "$repository/build"
expect 'a program that was built alone' 7 '<word>' without_kit "$repository/bag" word
rm "$crate/out/bag_program"
expect 'a build alone without the kit' 69 'builds: 0' builds without_kit "$repository/build"

# fails_in CRATE: a build that fails in this crate.
fails_in() {
    local status=0
    touch "$repository/broken-$1"
    builds "$repository/bag" word || status=$?
    rm "$repository/broken-$1"
    return "$status"
}
expect 'a build that fails in the program' 70 'builds: 1' fails_in bag_program
kept="bag: the program was not built; see the output of rt in $crate/out/build.log"
expect 'a build that fails says where to look' 0 "$kept" tail -n 1 "$work/build"
expect 'the output of rt is there' 0 $'what rt says of low\nwhat rt says of bag_program' \
    grep '^what' "$crate/out/build.log"
expect 'a build that fails in a crate below' 70 'builds: 0' fails_in low
expect 'it says where to look' 0 "$kept" tail -n 1 "$work/build"
expect 'the output of rt, and nothing of the build before' 0 'what rt says of low' grep '^what' "$crate/out/build.log"

# on_terminal COMMAND..: runs the command on a terminal. Overwritten text is shown line by line, without trailing
# spaces.
on_terminal() {
    script -qec "$(printf '%q ' "$@")" "$work/typescript" | tr '\r' '\n' | sed 's/ *$//; /^$/d'
    return "${PIPESTATUS[0]}"
}
if [ "$(script -qec true "$work/typescript" 2>&1)" = '' ]; then
    far='bag: proving low
bag: proving low: 3 of 40 functions
bag: proving bag_program
bag: proving bag_program: 3 of 40 functions'
    rm -f "$crate/out/bag_program"
    expect 'a build on a terminal' 7 "$far"$'\n<word>' on_terminal "$repository/bag" word
    expect 'one line is written over' 0 1 grep -c 'proving' "$work/typescript"
    expect 'a run on a terminal that builds nothing' 7 '<word>' on_terminal "$repository/bag" word
    touch "$repository/broken-low"
    rm "$crate/out/bag_program"
    expect 'a build on a terminal that fails' 70 "$(head -n 2 <<<"$far")"$'\n'"$kept" on_terminal "$repository/bag" word
    rm "$repository/broken-low"
else
    lacking 'a build on a terminal (script is not installed)'
fi
expect 'the build after it' 7 $'<word>\nbuilds: 1' builds "$repository/bag" word

# Two crates that don't stand on each other: one of them is proved in a copy, if there is room.
printf '%s\n' 'low: std' 'left: low' 'low_tests: low' 'right: low std' 'bag_program: left right' 'other: low' \
    >"$repository/crates.txt"
mkdir -p "$repository/crates/"{left,right}/src
for name in low left right; do
    echo "the source of $name" >"$repository/crates/$name/src/lib.rt"
done
printf '#!/bin/sh\necho "$PROCESSORS"\n' >"$work/kit/nproc"
cat >"$work/kit/sed" <<SED
#!/bin/sh
case \$* in
*' /proc/meminfo') printf 'MemFree:  1 kB\nMemAvailable:  %s kB\n' "\$MEMORY" | '$(command -v sed)' "\$1" "\$2" ;;
*) exec '$(command -v sed)' "\$@" ;;
esac
SED
chmod +x "$work/kit/nproc" "$work/kit/sed"

# builds_all PROCESSORS [MEMORY]: builds with this many processors, and so many KiB of memory. Prints what was built,
# what the kit saw there, and which files there are then.
builds_all() {
    local status=0
    touch "$repository/crates.txt"
    : >"$repository/seen"
    PROCESSORS=$1 MEMORY=${2-12000000} builds "$repository/build" || status=$?
    sort "$repository/builds" "$repository/seen"
    (cd "$repository/crates" && LC_ALL=C ls -d ./*/out/*)
    return "$status"
}
files='./bag_program/out/bag_program
./bag_program/out/build.lock
./bag_program/out/build.log
./left/out/incremental
./left/out/rlib
./low/out/incremental
./low/out/rlib
./right/out/incremental
./right/out/rlib'
built='rt lib in left
rt lib in low
rt lib in right
rt run in bag_program
the source of left
the source of low
the source of right'
below='low was built
low was built'
rm -rf -- "$repository/crates/"*/out
expect 'two crates, from nothing, one by one' 0 "builds: 1
$below
$built
$files" builds_all 1
again="builds: 1
left was proved
low was built
$below
low was proved
right was proved
$built
$files"
expect 'two crates, from what was kept, one by one' 0 "$again" builds_all 1
expect 'two crates, where memory is little, one by one' 0 "$again" builds_all 4 11999999
rm -rf -- "$repository/crates/"*/out
expect 'two crates, from nothing, side by side' 0 "builds: 1
$below
right is a copy
$built
$files" builds_all 4
expect 'two crates, from what was kept, side by side' 0 "${again/right was/right is a copy$'\n'right was}" builds_all 4
for name in left right; do
    touch "$repository/broken-$name"
    # shellcheck disable=SC2034
    builds_all 4 >"$work/broken" && echo "$name"
    rm "$repository/broken-$name"
done >"$work/built"
expect 'if one of two crates fails, nothing is built' 0 '' cat "$work/built"
expect 'and the output of rt is there' 0 $'what rt says of left\nwhat rt says of low\nwhat rt says of right' \
    sh -c 'grep ^what "$1" | sort' sh "$crate/out/build.log"
expect 'the build after it, side by side' 0 "${again/right was/right is a copy$'\n'right was}" builds_all 4
finish
