#!/usr/bin/env bash
# The script `test`: which parts it runs, what its last line and its status say, and that nothing is skipped where
# CI=true. The kit and the scripts are stand-ins. And tests/README.md: each script has one row, and no file is named that
# is not there.
set -u
cd "$(dirname -- "$0")/.." || exit 1
. tests/lib/common.bash

repository="$work/a repository"
mkdir -p "$repository"/{tests/lib,kit} "$repository"/crates/bag_{program,driver}/out
cp test "$repository"
cp tests/lib/common.bash "$repository/tests/lib"
# stands_for NAME LINE..: a script of these lines.
stands_for() {
    printf '%s\n' '#!/usr/bin/env bash' "${@:2}" >"$repository/$1"
    chmod +x "$repository/$1"
}
stands_for tests/refusals.sh 'exit 0'
stands_for tests/driven.sh 'set -u' '. tests/lib/common.bash' 'build_driver' 'expect driven 0 "" true' 'finish'

# tested KIT ARGUMENT..: what `test` prints at its end, and its status. KIT is a folder with the kit, or nothing.
tested() {
    local status=0
    env -u CI -u ONLY_BUILT PATH="$1${1:+:}$work/no kit" "$repository/test" "${@:2}" >"$work/all printed" 2>&1 ||
        status=$?
    grep -xE '== rt ci|(skipped|FAILED): (tests/|rt ).*|rt is not .*|usage: .*|[0-9]+ passed, .*' "$work/all printed"
    return "$status"
}
# All programs but the kit.
mkdir "$work/no kit"
for program in bash env mktemp rm cat sed wc awk nproc date touch xargs printf grep find flock dirname readlink true; do
    ln -s "$(type -P "$program")" "$work/no kit/$program"
done

expect 'without the kit' 0 \
    $'rt is not on PATH: nothing is proved\nskipped: tests/driven.sh\n1 passed, 0 failed, 1 skipped' tested ''
stands_for kit/rt '[ "$1" = ci ]'
expect 'with the kit, which builds no driver' 1 $'== rt ci\nFAILED: tests/driven.sh\n2 passed, 1 failed, 0 skipped' \
    tested "$repository/kit"
expect 'the scripts alone' 0 $'skipped: tests/driven.sh\n1 passed, 0 failed, 1 skipped' tested "$repository/kit" scripts
stands_for tests/refusals.sh 'exit 1'
expect 'a script that fails' 1 $'skipped: tests/driven.sh\nFAILED: tests/refusals.sh\n0 passed, 1 failed, 1 skipped' \
    tested '' scripts
stands_for kit/rt 'exit 1'
expect 'a gate that fails: no script is run' 1 $'== rt ci\nFAILED: rt ci\n0 passed, 1 failed, 0 skipped' \
    tested "$repository/kit"
expect 'another word' 64 'usage: ./test [scripts]' tested "$repository/kit" others
demanded() {
    env CI=true PATH="$work/no kit" "$repository/test" 2>&1 | sed -n '$p'
}
expect 'CI=true without the kit' 0 '0 passed, 1 failed, 0 skipped' demanded

# rows: the scripts that have a row of tests/README.md, each as often as it has one.
rows() {
    sed -n 's/^| `\([^`]*\.sh\)` |.*/tests\/\1/p' tests/README.md | LC_ALL=C sort
}
# named_only: the files that it names, and that are not there.
named_only() {
    grep -oE '`[^ `]+\.[a-z]+`' tests/README.md | tr -d '`' | while read -r name; do
        [ -f "tests/$name" ] || echo "$name"
    done
}
expect 'each script has one row' 0 "$(printf '%s\n' tests/*.sh | LC_ALL=C sort)" rows
expect 'no file is named that is not there' 0 '' named_only
# unnamed: the shared files that it does not name.
unnamed() {
    (cd tests && find lib model data -name __pycache__ -prune -o -type f -print) | while read -r name; do
        grep -qF "\`$name\`" tests/README.md || echo "$name"
    done
}
expect 'each shared file is named' 0 '' unnamed
# imports FILES IMPORTERS: the lines of the importers that import one of the files. Both are patterns.
imports() {
    local names
    names=$(cd tests && basename -as .py $1 | paste -sd '|')
    (cd tests && grep -nE "^(from|import) ($names)( |$)" $2)
}
expect 'a model imports only models' 1 '' imports 'lib/*.py data/*.py *.py' 'model/*.py'
expect 'no script is imported' 1 '' imports '*.py' '*.py */*.py'
finish
