#!/usr/bin/env bash
# The release: when `bag` and `install` take the released program, how `release/make` makes a release, and at the end
# whether the program that was built here is the released one. All but the last is tried in a repository of its own,
# with stand-ins for the programs, the kit and the system.
set -u
cd "$(dirname -- "$0")/.." || exit 1
. tests/lib/common.bash
top=$PWD

# The program stands on the crate `low`, and neither on its tests nor on `other`. In the order of octets Z is before a,
# and letters beyond ASCII are after both.
repository="$work/a repository"
mkdir -p "$repository"/{release,docs} "$repository/crates/low"/{src,specs,proofs,must-fail} \
    "$repository"/crates/{bag_program,low_tests,other}/src
cd "$repository" || exit 1
cp "$top"/{bag,build,install,program.sh} .
cp "$top/release/make" release/make
printf '# Each crate.\nlow: std\nlow_tests: low\nbag_program: low\nother: low\n' >crates.txt
for name in Z a 'a b' é; do
    printf '%s first' "$name" >"crates/low/src/$name.rt"
done
touch crates/low/src/none.rt crates/low/{specs,proofs}/Lib.antt crates/{bag_program,low_tests,other}/src/main.rt
echo 'the manual page' >docs/bag.1
mkdir completions
touch LICENSE-APACHE LICENSE-MIT release/NOTICES completions/{bag.bash,_bag}

# stand_in WORD: a program that prints its arguments, one per line after the word.
stand_in() {
    cat <<PROGRAM
#!/bin/sh
[ "\${1-}" != --version ] || { echo 'bag 9.8.7'; exit 0; }
[ "\$#" -gt 0 ] || { echo 'no words'; exit 64; }
printf '$1 <%s>\n' "\$@"
exit 7
PROGRAM
}
mkdir "$work/kit" "$work/tools" "$work/few"
stand_in built >"$work/built"
stand_in released >"$work/released"
chmod +x "$work/built" "$work/released"
cat >"$work/kit/rt" <<KIT
#!/bin/sh
case \$1 in
version) echo 'stand-in kit 1' ;;
run)
    mkdir -p out
    cp '$work/built' out/bag_program
    exec out/bag_program
    ;;
esac
KIT
cat >"$work/tools/uname" <<UNAME
#!/bin/sh
cat '$work/system'
UNAME
chmod +x "$work/kit/rt" "$work/tools/uname"
echo 'Linux x86_64' >"$work/system"
for tool in cat chmod date find gzip install mkdir mktemp mv readlink rm sed sh sha256sum sort touch xargs; do
    ln -s "$(command -v "$tool")" "$work/tools/$tool"
done
for tool in find readlink sh; do
    ln -s "$(command -v "$tool")" "$work/few/$tool"
done

# without_kit, with_kit, with_few COMMAND..: runs the command without the kit; with it; and with the few tools that a
# run needs which neither takes a digest nor unpacks. What it says on standard error is printed too.
# printed COMMAND..: runs the command with the kit, and keeps what it says there.
without_kit() {
    PATH=$work/tools "$@" 2>&1
}
with_kit() {
    PATH=$work/kit:$work/tools:$PATH "$@" 2>&1
}
with_few() {
    PATH=$work/few "$@" 2>&1
}

printed() {
    PATH=$work/kit:$work/tools:$PATH "$@" 2>"$work/lines"
}

# digest [FOLDER]: the digest of the sources by the script, and definition: by its definition.
digest() (
    top=${1-$repository}
    . ./program.sh
    sources_digest
)
definition() {
    python3 -B "$top/tests/release.py" "$repository"
}
sha256() {
    sha256sum <"$1" | sed 's/ .*//'
}

# released PROGRAM: makes a release of this program and the sources as they are.
released() {
    gzip -9nc "$1" >release/bag.gz
    cat >release/RELEASE <<RELEASE
Words for a reader.

version: 9.8.7
system: Linux x86_64
library: glibc 2.34
kit: stand-in kit 1
program: $(sha256 "$1")
sources: $(definition)
RELEASE
}
no_kit='bag: the program has to be built, but rt, the command of the Rattle kit, is not on PATH'
differ='bag: the sources are not those of release 9.8.7'
builds=$'bag: proving low\nbag: proving bag_program'

expect 'no release: the digest' 0 "$(definition)" digest
expect 'no release, and no kit' 69 "$no_kit" without_kit ./bag word
released "$work/released"
expect 'the released program' 7 'released <word>' without_kit ./bag word
expect 'a later run takes no digest and unpacks nothing' 7 'released <word>' with_few ./bag word
expect 'arguments are passed on as they are' 7 $'released <two  words>\nreleased <>\nreleased <-x>' \
    with_few ./bag 'two  words' '' -x
expect 'from another directory' 7 'released <word>' with_few "$(command -v env)" -C / "$repository/bag" word
ln -s "$repository/bag" "$work/link"
expect 'through a link' 7 'released <word>' with_few "$work/link" word
expect 'with the kit' 7 'released <word>' with_kit ./bag word
expect 'nothing was built' 0 '' nothing crates/bag_program/out
mkdir "$work/bin"
# put FOLDER: what `install` says of it.
put() {
    printf "$1/%s\\n" bin/bag share/bash-completion/completions/bag share/doc/bag/{LICENSE-APACHE,LICENSE-MIT,NOTICES} \
        share/man/man1/bag.1 share/zsh/site-functions/_bag
    echo "$1/bin is not on PATH"
}
expect 'installed' 0 "$(put "$work/bin")" without_kit ./install "$work/bin"
expect 'what is installed' 0 '' cmp "$work/released" "$work/bin/bin/bag"

# noticed NAME EDIT UNDOING: after the edit the released program isn't run, and after the undoing it is. File times are
# coarse.
noticed() {
    local before
    before=$(definition)
    sleep 0.05
    eval "$2"
    expect "$1" 69 "$differ"$'\n'"$no_kit" without_kit ./bag word
    expect "$1: the digest" 0 "$(definition)" digest
    expect "$1: another digest" 1 '' [ "$before" = "$(digest)" ]
    sleep 0.05
    eval "$3"
    expect "$1, undone" 7 'released <word>' without_kit ./bag word
    expect "$1, undone, and a later run" 7 'released <word>' with_few ./bag word
}
src=crates/low/src
noticed 'an octet' "printf 'a firsd' >$src/a.rt" "printf 'a first' >$src/a.rt"
noticed 'an octet, where the times are set back' \
    "cp -p $src/a.rt '$work/kept'; printf 'a firsd' >$src/a.rt; touch -r '$work/kept' $src/a.rt" \
    "cp -p '$work/kept' $src/a.rt"
noticed 'an octet more' "printf 'a first.' >$src/a.rt" "printf 'a first' >$src/a.rt"
noticed 'an octet that is moved to the next file' "printf 'a firs' >$src/a.rt; printf 't' >$src/none.rt" \
    "printf 'a first' >$src/a.rt; : >$src/none.rt"
noticed 'a file that is added' ": >crates/low/specs/New.antt" "rm crates/low/specs/New.antt"
noticed 'a hidden file that is added' ": >crates/bag_program/src/.new" "rm crates/bag_program/src/.new"
noticed 'a file that is removed' "mv $src/none.rt '$work/kept'" "mv '$work/kept' $src/none.rt"
noticed 'a file that is renamed' "mv $src/a.rt $src/b.rt" "mv $src/b.rt $src/a.rt"
noticed 'two files that are exchanged' "mv $src/a.rt '$work/kept'; mv $src/Z.rt $src/a.rt; mv '$work/kept' $src/Z.rt" \
    "mv $src/a.rt '$work/kept'; mv $src/Z.rt $src/a.rt; mv '$work/kept' $src/Z.rt"
noticed 'a file that is in another crate' "mv $src/none.rt crates/bag_program/src" \
    "mv crates/bag_program/src/none.rt $src"
noticed 'a folder that is removed' "mv crates/low/proofs '$work/proofs'" "mv '$work/proofs' crates/low/proofs"
noticed 'a folder that is added' "mkdir crates/bag_program/specs; : >crates/bag_program/specs/Lib.antt" \
    "rm -r crates/bag_program/specs"
noticed 'the list of crates' "cp crates.txt '$work/kept'; echo '# More.' >>crates.txt" "cp '$work/kept' crates.txt"

: >crates/low/must-fail/wrong.edit
mkdir crates/low/out
: >crates/low/out/kept
expect 'files that are no sources' 7 'released <word>' with_few ./bag word
echo more >>crates/low_tests/src/main.rt
echo more >>crates/other/src/main.rt
expect 'sources that the program does not stand on' 7 'released <word>' without_kit ./bag word

# A copy in another place, with other times, and a sort that orders as the locale says.
cp -r "$repository" "$work/copy"
find "$work/copy/crates" -exec touch -d 2001-02-03 {} +
mkdir "$work/locale"
cat >"$work/locale/sort" <<SORT
#!/bin/sh
[ "\${LC_ALL-}" = C ] || exec '$(command -v sort)' -r "\$@"
exec '$(command -v sort)' "\$@"
SORT
chmod +x "$work/locale/sort"
elsewhere() (
    PATH=$work/locale:$PATH
    LC_ALL=C.UTF-8 digest "$work/copy"
)
expect 'another place, other times and another locale' 0 "$(definition)" elsewhere
expect 'a copy runs too' 7 'released <word>' without_kit "$work/copy/bag" word
mv "$work/copy" "$work/moved"
expect 'a repository that was moved' 7 'released <word>' without_kit "$work/moved/bag" word

# Builds.
sleep 0.05
printf 'a firsd' >$src/a.rt
expect 'an edited source: why, and a build' 7 "$differ"$'\n'"$builds"$'\nbuilt <word>' with_kit ./bag word
touch $src/a.rt
expect 'only the program prints on standard output' 7 'built <word>' printed ./bag word
expect 'all else is on standard error' 0 "$differ"$'\n'"$builds" cat "$work/lines"
expect 'the run after a build' 7 'built <word>' with_few ./bag word
sleep 0.05
printf 'a first' >$src/a.rt
expect 'the edit undone' 7 'released <word>' with_kit ./bag word
expect 'the edit undone, and a later run' 7 'released <word>' with_few ./bag word
expect 'installed beside an older build' 0 "$(put "$work/bin")" without_kit ./install "$work/bin"
expect 'what is installed beside an older build' 0 '' cmp "$work/released" "$work/bin/bin/bag"
expect 'a build of released sources' 0 "$builds" with_kit ./build
expect 'it is run' 7 'built <word>' with_few ./bag word
expect 'it is installed' 0 "$(put "$work/bin")" without_kit ./install "$work/bin"
expect 'what is installed is the build' 0 '' cmp "$work/built" "$work/bin/bin/bag"
mv crates/bag_program/out "$work/out"
rm -rf release/out
expect 'the build removed' 7 'released <word>' without_kit ./bag word
mv "$work/out" crates/bag_program/out
expect 'a build of what is built' 0 '' without_kit ./build
expect 'it is run from then on' 7 'built <word>' with_few ./bag word
rm -r crates/bag_program/out
expect 'unpacked again' 7 'released <word>' without_kit ./bag word
mkdir crates/bag_program/out
sleep 0.05
cp "$work/built" crates/bag_program/out/bag_program
expect 'a build by the kit alone' 7 'built <word>' with_few ./bag word
rm -r crates/bag_program/out

# An edit while the program is unpacked, when the digest was taken.
mkdir "$work/slow"
cat >"$work/slow/gzip" <<GZIP
#!/bin/sh
printf 'a firsd' >'$repository/$src/a.rt'
sleep 0.05
exec '$(command -v gzip)' "\$@"
GZIP
chmod +x "$work/slow/gzip"
slow() {
    PATH=$work/slow:$work/tools:$PATH "$@" 2>&1
}
rm -r release/out
expect 'an edit meanwhile' 7 'released <word>' slow ./bag word
expect 'it is noticed' 69 "$differ"$'\n'"$no_kit" without_kit ./bag word
printf 'a first' >$src/a.rt

# Other releases.
expect 'that edit undone' 7 'released <word>' without_kit ./bag word
sed 's/released/other/' "$work/released" >"$work/other"
chmod +x "$work/other"
sleep 0.05
released "$work/other"
expect 'a release after a release' 7 'other <word>' without_kit ./bag word
expect 'a release after a release, and a later run' 7 'other <word>' with_few ./bag word
rm release/RELEASE
expect 'a release that was removed' 69 "$no_kit" without_kit ./bag word
released "$work/released"

# refused NAME LINE EDIT: after the edit the release, which isn't unpacked yet, is refused with this line, and nothing
# is left of it.
refused() {
    rm -rf release/out
    eval "$3"
    expect "$1" 69 "$2"$'\n'"$no_kit" without_kit ./bag word
    expect "$1: with the kit" 7 "$2"$'\n'"$builds"$'\nbuilt <word>' with_kit ./bag word
    expect "$1: nothing is left" 0 '' left
    rm -rf release/out crates/bag_program/out
    released "$work/released"
}
left() {
    [ ! -d release/out ] || ls -A release/out
}
damaged='bag: release/bag.gz is missing or damaged'
refused 'a program cut short' "$damaged" "truncate -s -1 release/bag.gz"
refused 'another program' "$damaged" "gzip -9nc '$work/other' >release/bag.gz"
refused 'no compressed program' "$damaged" "cp '$work/released' release/bag.gz"
refused 'no program' "$damaged" "rm release/bag.gz"
refused 'another processor' 'bag: release 9.8.7 is for Linux x86_64' "echo 'Linux aarch64' >'$work/system'"
echo 'Linux x86_64' >"$work/system"
printf '#!/bin/sh\necho "libc.so.6: version GLIBC_2.34 not found" >&2\nexit 1\n' >"$work/newer"
refused 'an older C library' 'bag: release 9.8.7 does not run here: it needs glibc 2.34' "released '$work/newer'"
refused 'the edit that all of these are compared with' "$differ" "printf 'a firsd' >$src/a.rt"
printf 'a first' >$src/a.rt
released "$work/released"

rm "$work/tools/gzip"
expect 'no gzip' 69 'bag: release 9.8.7 cannot be unpacked: gzip is not on PATH'$'\n'"$no_kit" without_kit ./bag word
ln -s "$(command -v gzip)" "$work/tools/gzip"

# Where `release` is another user's, or cannot be written, each run unpacks the program for itself.
temporary=$work/temporary
mkdir -m 1777 "$temporary"
chmod 755 "$work"
# visitor COMMAND..: runs it as a user who may not write here, with a folder of his own for temporary files.
visitor() {
    TMPDIR=$temporary nobody "$BASH" -c 'PATH=$1; "${@:2}" 2>&1' bash "$work/tools" "$@"
}
# there: what is in `release` and in that folder.
there() {
    find release "$temporary" -mindepth 1 -printf '%f\n' | LC_ALL=C sort
}
chmod a-w release
for run in first second; do
    expect "what cannot be written, the $run run" 7 'released <word>' visitor ./bag word
    expect "what cannot be written, the $run run: nothing is left" 0 $'NOTICES\nRELEASE\nbag.gz\nmake' there
done
mkdir -m 777 "$work/visitor"
expect 'installed from what cannot be written' 0 "$(put "$work/visitor")" visitor ./install "$work/visitor"
expect 'what is installed from there' 0 '' cmp "$work/released" "$work/visitor/bin/bag"
why=$no_kit
[ "$(id -u)" -ne 0 ] || why="bag: the program has to be built: let the owner of $repository run ./build"
temporary=$work/none expect 'no place to unpack' 69 \
    "bag: release 9.8.7 cannot be unpacked into $repository/release or $work/none"$'\n'"$why" visitor ./bag word
chmod u+w release
: >release/out
expect 'no folder to unpack into' 7 'released <word>' without_kit ./bag word
expect 'no folder to unpack into: nothing is left' 0 $'NOTICES\nRELEASE\nbag.gz\nmake\nout' there
rm release/out
if [ "$(id -u)" -eq 0 ]; then
    cp -r . "$work/clone"
    chown -R 65534:65534 "$work/clone"
    # foreign: names what the owner of the clone could not replace in it.
    foreign() {
        find "$work/clone" ! -user 65534
    }
    expect 'installed by root in a clone of another user' 0 "$(put "$work/root")" \
        without_kit "$work/clone/install" "$work/root"
    expect 'its owner can replace all that is there' 0 '' foreign
    expect 'run by root there' 7 'released <word>' without_kit "$work/clone/bag" word
    expect 'its owner can replace all that is there then' 0 '' foreign
    expect 'run by its owner' 7 'released <word>' visitor "$work/clone/bag" word
    expect 'and kept' 7 'released <word>' with_few "$work/clone/bag" word
    rm -r "$work/clone/release/out"
    mkdir "$work/clone/release/out"
    expect 'run by its owner, where root left a folder' 7 'released <word>' visitor "$work/clone/bag" word
    rmdir "$work/clone/release/out"
    echo more >>"$work/clone/$src/a.rt"
    expect 'installed by root where it has to be built' 69 \
        "$differ"$'\n'"bag: the program has to be built: let the owner of $work/clone run ./build" \
        with_kit "$work/clone/install" "$work/root"
    expect 'its owner can replace all that is there after it' 0 '' foreign
else
    lacking 'a clone of another user (this is not root)'
fi

# Many first runs at a time.
at_once() {
    local i
    rm -rf release/out
    for i in {1..8}; do
        without_kit ./bag "$i" >"$work/run$i" &
    done
    wait
    cat "$work"/run{1..8}
}
expect 'eight first runs at a time' 0 "$(printf 'released <%s>\n' {1..8})" at_once
expect 'only what is unpacked is left' 0 $'bag\nbag.folders' ls release/out

# compared FOLDER: compares the program that was built there with the released one.
compared() (
    top=$1
    . "$top/program.sh"
    name="release $(released version 2>&1)"
    if [ ! -e "$release" ]; then
        echo 'not compared: there is no release'
    elif ! is_built; then
        echo 'not compared: no program was built from these sources'
    elif [ "$(sources_digest)" != "$(released sources)" ]; then
        echo "not compared: the sources are not those of $name"
    elif ! kit=$(rt version) || [ "$kit" != "$(released kit)" ]; then
        echo "not compared: the kit is '$kit', and that of $name was '$(released kit)'"
    elif gzip -dc "$top/release/bag.gz" | cmp -s - "$built"; then
        echo "compared: the program that was built is that of $name"
    else
        echo "compared: the program that was built is not that of $name"
        return 1
    fi
)

# The making of a release. The stand-in for the program is compiled, since the release names the C library that it
# needs.
export HOME=$work GIT_CONFIG_NOSYSTEM=1
make_release() {
    PATH=$work/kit:$work/tools:$PATH release/make "$@" 2>&1
}
if ! command -v cc git objdump readelf >"$work/found" || [ "$(wc -l <"$work/found")" -ne 4 ]; then
    lacking 'the making of a release (a C compiler, git or binutils are not installed)'
else
    rm -rf release/out release/RELEASE release/bag.gz
    cat >"$work/program.c" <<'PROGRAM'
#include <stdio.h>
#include <string.h>

int main(int count, char **words) {
    if (count == 2 && strcmp(words[1], "--version") == 0) {
        return puts("bag 9.8.7") < 0;
    }
    for (int i = 1; i < count; i++) {
        printf("proved <%s>\n", words[i]);
    }
    return count == 1 ? 64 : 7;
}
PROGRAM
    cc -fstack-protector-all -o "$work/proved" "$work/program.c"
    printf 'out/\n' >.gitignore
    printf '# Changes\n\n## 9.8.7, 2020-01-02\n' >CHANGELOG.md
    printf '.TH BAG 1 2020-01-02 "bag 9.8.7" "User Commands"\n' >docs/bag.1
    {
        git init -q . && git config user.name Nobody && git config user.email nobody@localhost
        git add . && git commit -qm 'A stand-in'
    } >"$work/said" 2>&1 || { cat "$work/said" && exit 1; }
    proved() {
        mkdir -p crates/bag_program/out
        cp "$work/proved" crates/bag_program/out/bag_program
    }
    usage='usage: release/make VERSION (three numbers joined by dots)'
    expect 'no version' 64 "$usage" make_release
    expect 'two versions' 64 "$usage" make_release 9.8.7 9.8.7
    for version in '' 9.8 9.8.7.6 v9.8.7 9.8.x $'9.8.7\n9.8.7'; do
        expect "a version written $version" 64 "$usage" make_release "$version"
    done
    none='release: there is no program that was built from these sources: run ./test first'
    expect 'no program' 1 "$none" make_release 9.8.7
    proved
    sleep 0.05
    touch crates/low/specs/Lib.antt
    expect 'a source that is newer than the program' 1 "$none" make_release 9.8.7
    echo more >>crates/low/specs/Lib.antt
    sleep 0.05
    proved
    uncommitted='release: not everything in crates.txt and crates/ is committed'
    expect 'an edit that is not committed' 1 "$uncommitted" make_release 9.8.7
    : >crates/low/specs/Lib.antt
    : >crates/low/specs/New.antt
    sleep 0.05
    proved
    expect 'a file that is not committed' 1 "$uncommitted" make_release 9.8.7
    rm crates/low/specs/New.antt
    sleep 0.05
    proved
    expect 'another version than that of the program' 1 \
        "release: the program prints 'bag 9.8.7' as its version, not 'bag 9.8.8'" make_release 9.8.8
    without_rt() {
        PATH=$work/tools:/usr/bin:/bin release/make 9.8.7 2>/dev/null
    }
    [ -e /usr/bin/rt ] || [ -e /bin/rt ] || expect 'no kit to name' 1 '' without_rt
    sed -i 's/9\.8\.7/9.8.6/' CHANGELOG.md
    expect 'a version without changes' 1 'release: CHANGELOG.md has no part for 9.8.7' make_release 9.8.7
    git checkout -q CHANGELOG.md
    sed -i 's/9\.8\.7/9.8.6/' docs/bag.1
    expect 'a manual page of another version' 1 'release: docs/bag.1 does not name 9.8.7 at its head' make_release 9.8.7
    git checkout -q docs/bag.1
    expect 'nothing was written' 0 $'NOTICES\nmake' ls release
    stand_in script >crates/bag_program/out/bag_program
    expect 'a program that needs no C library' 1 'release: objdump finds no version of the C library in the program' \
        make_release 9.8.7
    proved
    rm -rf release/out
    make_release 9.8.7 >"$work/made" || { cat "$work/made" && failed=$((failed + 1)); }
    cp release/RELEASE "$work/RELEASE"
    cp release/bag.gz "$work/bag.gz"
    library=$(readelf -V "$work/proved" | grep -o 'GLIBC_[0-9.]*' | sort -Vu | tail -n 1)
    expect 'what the release says' 0 "version: 9.8.7
system: Linux x86_64
library: glibc ${library#GLIBC_}
kit: stand-in kit 1
program: $(sha256 "$work/proved")
sources: $(definition)" grep '^[a-z]*: ' release/RELEASE
    gzip -dc release/bag.gz >"$work/unpacked"
    expect 'the program in it' 0 '' cmp "$work/proved" "$work/unpacked"
    expect 'it prints what it says' 0 "$(<release/RELEASE)" head -n "$(wc -l <release/RELEASE)" "$work/made"
    sleep 1
    touch crates/bag_program/out/bag_program
    expect 'made once more' 0 "$(<"$work/made")" make_release 9.8.7
    expect 'made once more: the text' 0 '' cmp "$work/RELEASE" release/RELEASE
    expect 'made once more: the program' 0 '' cmp "$work/bag.gz" release/bag.gz

    git add . && git commit -qm 'A release'
    git clone -q . "$work/first clone" 2>"$work/said"
    (umask 077 && git clone -q . "$work/second" 2>"$work/said")
    for clone in "$work/first clone" "$work/second"; do
        expect "the digest in ${clone##*/}" 0 "$(definition)" digest "$clone"
        expect "the program in ${clone##*/}" 7 'proved <word>' without_kit "$clone/bag" word
        expect "a later run in ${clone##*/}" 7 'proved <word>' with_few "$clone/bag" word
        expect "git sees nothing new in ${clone##*/}" 0 '' git -C "$clone" status --porcelain
    done

    clone=$work/second
    expect 'nothing built to compare' 0 'not compared: no program was built from these sources' \
        with_kit compared "$clone"
    mkdir -p "$clone/crates/bag_program/out"
    cp "$work/proved" "$clone/crates/bag_program/out/bag_program"
    expect 'the same program' 0 'compared: the program that was built is that of release 9.8.7' \
        with_kit compared "$clone"
    printf x >>"$clone/crates/bag_program/out/bag_program"
    expect 'another program' 1 'compared: the program that was built is not that of release 9.8.7' \
        with_kit compared "$clone"
    sed -i 's/kit 1/kit 2/' "$work/kit/rt"
    expect 'another kit' 0 "not compared: the kit is 'stand-in kit 2', and that of release 9.8.7 was 'stand-in kit 1'" \
        with_kit compared "$clone"
    echo more >>"$clone/crates/bag_program/src/main.rt"
    sleep 0.05
    touch "$clone/crates/bag_program/out/bag_program"
    expect 'other sources' 0 'not compared: the sources are not those of release 9.8.7' with_kit compared "$clone"
    rm "$clone/release/RELEASE"
    expect 'no release to compare' 0 'not compared: there is no release' with_kit compared "$clone"
fi

# The program that was built here, and the release of this repository.
cd "$top" || exit 1
if compared "$top"; then
    passed=$((passed + 1))
else
    failed=$((failed + 1))
    echo 'FAILED: the released program'
fi
finish
