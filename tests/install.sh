#!/usr/bin/env bash
# The script `install`, with its own folders to install into, and the manual page.
set -u
cd "$(dirname -- "$0")/.." || exit 1
. tests/lib/common.bash
top=$PWD

take_program

# installed PREFIX: the files below it with their modes.
installed() {
    find "$1" -type f -printf '%m %P\n' | LC_ALL=C sort -k 2
}
files='755 bin/bag
644 share/bash-completion/completions/bag
644 share/doc/bag/LICENSE-APACHE
644 share/doc/bag/LICENSE-MIT
644 share/doc/bag/NOTICES
644 share/man/man1/bag.1
644 share/zsh/site-functions/_bag'

# put PREFIX: what `install` says of these files, where PATH has no other `bag`.
put() {
    sed "s|^[0-9]* |$1/|" <<<"$files"
    echo "$1/bin is not on PATH"
}
PATH=/usr/bin:/bin

prefix=$work/a\ prefix
expect 'into a new folder' 0 "$(put "$prefix")" ./install "$prefix"
expect 'the files and their modes' 0 "$files" installed "$prefix"
expect 'the program from anywhere' 0 valid env -i -C / "$prefix/bin/bag" check "$top/examples/first-bag"
expect 'by its name' 1 $'no bagit.txt\nnot complete' env -C examples PATH="$prefix/bin" bag check no-declaration
expect 'without arguments' 64 'bag: check, make, begin, intake, report, audit, fetch, export, list' \
    env -i "$prefix/bin/bag"
expect 'the page is that of the repository' 0 '' cmp docs/bag.1 "$prefix/share/man/man1/bag.1"
for file in LICENSE-APACHE LICENSE-MIT release/NOTICES; do
    expect "$file is that of the repository" 0 '' cmp "$file" "$prefix/share/doc/bag/${file#release/}"
done
expect 'again, with PATH as it should be' 0 "$(put "$prefix" | sed '$d')" \
    env PATH="$prefix/bin:$PATH" ./install "$prefix"
mkdir "$work/other"
cp "$prefix/bin/bag" "$work/other/bag"
expect 'where PATH finds another one first' 0 "$(put "$prefix" | sed '$d')
the bag that PATH finds is another one: $work/other/bag" env PATH="$work/other:$prefix/bin:$PATH" ./install "$prefix"
expect 'again: the files and their modes' 0 "$files" installed "$prefix"
# narrow COMMAND..: runs the command with a mask that keeps files from others.
narrow() (
    umask 077
    "$@"
)
expect 'where files are kept from others' 0 "$(put "$work/narrow")" narrow ./install "$work/narrow"
expect 'where files are kept from others: the modes' 0 "$files" installed "$work/narrow"
expect 'where files are kept from others: the folders' 0 '755' \
    sh -c 'find "$1" -type d -printf "%m\n" | sort -u' sh "$work/narrow"
expect 'from another directory, and a folder named from there' 0 "$(put named/here)" \
    env -C "$work" "$top/install" named/here
expect 'the files below it' 0 "$files" installed "$work/named/here"

# refused COMMAND..: counts the lines on standard error, and returns the command's status.
refused() {
    local status=0
    "$@" 2>"$work/refusal" || status=$?
    wc -l <"$work/refusal"
    return "$status"
}
touch "$work/file"
expect 'below a file' 1 1 refused ./install "$work/file"
expect 'two arguments' 64 1 refused ./install "$work/one" "$work/other"
expect 'an argument that begins like an option' 64 1 refused ./install --help
expect 'an empty argument' 64 1 refused ./install ''

# The completions, by a shell that has nothing but what was installed. What is offered is what the program's help names.
# offered WORD..: what is offered for the last of these words, in one line.
offered() {
    bash --norc -c '
        . "$1"
        COMP_WORDS=("${@:2}") COMP_CWORD=$(($# - 2))
        _bag
        [ "${#COMPREPLY[@]}" -eq 0 ] || echo "${COMPREPLY[*]}"' bash "$prefix/share/bash-completion/completions/bag" \
    "$@"
}
commands=$("$prefix/bin/bag" --help | sed -n '/^Commands:/,/^$/s/^  \([a-z]*\) .*/\1/p' | tr '\n' ' ')
algorithms=$("$prefix/bin/bag" make --help | sed -n 's/^  <ALG>.*: //p' | tr -d ,)
expect 'bash: completed by a function' 0 'complete -o default -F _bag bag' \
    bash --norc -c '. "$1"; complete -p bag' bash "$prefix/share/bash-completion/completions/bag"
expect 'bash: the commands' 0 "$commands--help --version" offered bag ''
expect 'bash: the beginning of a command' 0 'export' offered bag ex
expect 'bash: an option' 0 '--version' offered bag --v
expect 'bash: the option of a command' 0 '--help' offered bag check -
expect 'bash: help of a command' 0 'intake' offered bag help in
expect 'bash: the algorithms' 0 "$algorithms" offered bag make SRC DST ''
expect 'bash: one more algorithm' 0 'sha256' offered bag make SRC DST md5 sha2
expect 'bash: files in other places' 0 '' offered bag make SRC m
expect 'bash: files for a check' 0 '' offered bag check ma
# offered_by_zsh WORD..: the same, by stand-ins for the functions that offer.
offered_by_zsh() {
    zsh -f -c '
        fpath=("$1" $fpath)
        _describe() { print -rn -- "${(@)${(P@)2}%%:*} " }
        compadd() { print -rn -- "${@[2,-1]}" }
        _files() { print -rn files }
        shift
        words=("$@") CURRENT=$#
        autoload -U _bag
        _bag' zsh "$prefix/share/zsh/site-functions" "$@" && echo
}
if command -v zsh >"$work/tool"; then
    expect 'zsh: completed by a function' 0 '_bag' zsh -f -c '
        fpath=("$1" $fpath); autoload -U compinit; compinit -D -u; print -r -- $_comps[bag]' \
        zsh "$prefix/share/zsh/site-functions"
    expect 'zsh: the commands' 0 "$commands--help --version" offered_by_zsh bag ''
    expect 'zsh: the option of a command' 0 '--help' offered_by_zsh bag check -
    expect 'zsh: help of a command' 0 "$commands" offered_by_zsh bag help ''
    expect 'zsh: the algorithms' 0 "$algorithms" offered_by_zsh bag make SRC DST ''
    expect 'zsh: files in other places' 0 'files' offered_by_zsh bag make SRC m
    expect 'zsh: files for a check' 0 'files' offered_by_zsh bag check ''
else
    echo 'skipped: the completion of zsh (it is not installed)'
fi

# Tools for manual pages differ between systems: whichever is installed checks the page.
page() {
    MANWIDTH=100 MANPAGER=cat man -l "$prefix/share/man/man1/bag.1" | col -bx | tr -s ' \n' '  '
}
if command -v mandoc >"$work/tool"; then
    expect 'the page has no faults' 0 '' mandoc -T lint -W warning docs/bag.1
elif command -v groff >"$work/tool"; then
    expect 'the page has no faults' 0 '' groff -man -ww -z -T utf8 docs/bag.1
else
    lacking 'faults of the page (neither mandoc nor groff is installed)'
fi
if command -v mandb apropos >"$work/tool" && [ "$(wc -l <"$work/tool")" -eq 2 ]; then
    mandb --user-db --create --quiet "$prefix/share/man" 2>"$work/said"
    for word in bag bagit check validate verify make create receive; do
        expect "found by the word $word" 0 'bag (1) - check (validate, verify), make (create) and receive BagIt bags' \
            sh -c 'apropos -l -M "$1" "$2" | tr -s " "' sh "$prefix/share/man" "$word"
    done
else
    lacking 'words that find the page (mandb and apropos are not installed)'
fi
if [ -n "$(page 2>"$work/no page")" ]; then
    page >"$work/page"
    while IFS= read -r text; do
        expect "the page names: $text" 0 '' grep -qF -- "$text" "$work/page"
    done <<'TEXTS'
bag check DIR
bag make SRC DST ALG...
bag begin LEDGER NAME DIR
bag intake LEDGER NAME DIR...
bag report LEDGER NAME
bag audit LEDGER NAME
bag fetch LEDGER NAME DIR
bag export LEDGER NAME DIR
bag list LEDGER
--version
made N files, M octets
unknown algorithm WORD
bag: clash
no bagit.txt
byte order mark
line count
encoding name
no data directory
no payload manifest
FILE:LINE: CAUSE
digest form
wrong place
twice
nothing to continue
TAGMANIFEST: not listed: MANIFEST
bag-info.txt: Payload-Oxum form
bag-info.txt: Payload-Oxum repeated
MANIFEST: missing: PATH
MANIFEST: unlisted: PATH
fetch.txt: not in MANIFEST: PATH
fetch.txt:LINE: length: PATH
bag-info.txt: Payload-Oxum wrong
MANIFEST: digest: PATH
complete, not valid
not complete
outside: version
outside: encoding
outside: algorithm NAME
bag: files
bag: tag too large
bag: too many
bag: too large
bag: memory
new
again
refused: CAUSE
tag too large
clash PATH
differs
taken PATH
repeated PATH
refused PATH: CAUSE
no transfer
not listed
reader
digest ALG
not supplied
supplier
exported N files
bag: no transfer
bag: not a ledger
bag: damaged NAME PATH
bag: store
bag: check, make, begin, intake, report, audit, fetch, export, list
TEXTS
else
    lacking 'texts of the page (man is not installed)'
fi
finish
