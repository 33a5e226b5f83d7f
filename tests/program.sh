#!/usr/bin/env bash
# The program on folders that git can't keep, with other command lines, and on outputs that are closed or full.
set -u
cd "$(dirname -- "$0")/.." || exit 1
. tests/lib/common.bash

# new NAME: makes a folder with this name and a copy of the first bag.
new() {
    cp -r examples/first-bag "$work/$1"
}

help=$(cat <<'HELP'
Checks, makes and receives bags of the BagIt File Packaging Format (RFC 8493)

Usage: bag <COMMAND>

Commands:
  check   Judges the bag in a folder
  make    Writes the bag of the files in a folder into a new one
  begin   Opens a transfer with the tag files of a bag; makes the ledger if there is none
  intake  Takes in the delivered payload files that are as the tag files list them
  fetch   Takes in the files that fetch.txt names and that are not held yet
  report  Judges the bag that is held
  audit   Judges the bag that is held, after reading and hashing all of it again
  export  Writes the bag that is held into a new folder
  list    Lists the names of the transfers
  help    Print this message or the help of the given subcommand(s)

Options:
  -h, --help     Print help
  -V, --version  Print version

Exit status:
  0   the bag is valid, or the command is done
  1   the bag is not valid, or something was refused
  2   the bag can't be judged here
  3   a folder, a file, the ledger, memory or the output couldn't be used, or a limit was exceeded
  64  an unknown command line

The manual page has every line: man bag, or docs/bag.1
HELP
)
help_of_check='Judges the bag in a folder

Usage: bag check <DIR>

Arguments:
  <DIR>  The folder

Options:
  -h, --help  Print help'

take_program

expect 'no words' 64 'bag: check, make, begin, intake, report, audit, fetch, export, list' bag
refuse 'a word that is no command' "error: unrecognized subcommand 'verify'" bag verify examples/first-bag
refuse 'a command in other letters' "error: unrecognized subcommand 'Check'" bag Check examples/first-bag
refuse 'an empty word' "error: " bag ''
refuse 'an option in place of a command' "error: unexpected argument '--verify' found" bag --verify
refuse 'the version of a command, by its letter' "error: unexpected argument '-V' found" bag check -V examples/first-bag
refuse 'the version of a command' "error: unexpected argument '--version' found" bag check --version examples/first-bag
refuse 'a command after the mark' "error: " bag -- check examples/first-bag
refuse 'the mark alone' "error: " bag --
refuse 'the beginning of a command' "error: unrecognized subcommand 'chec'" bag chec examples/first-bag
for words in 'validate check' 'verify check' 'create make'; do
    read -r word command <<<"$words"
    explain "$word, as other tools call it" 64 "error: unrecognized subcommand '$word'

  tip: here it is '$command'

Usage: bag <COMMAND>

For more information, try '--help'." bag "$word" examples/first-bag
done
refuse 'the beginning of a command, and help' "error: unrecognized subcommand 'chec'" bag chec --help
refuse 'help after a wrong word' "error: unexpected argument 'two' found" bag check examples/first-bag two --help
refuse 'a command without its folder' 'error: the following required arguments were not provided:' bag check
refuse 'a command with two folders' "error: unexpected argument 'two' found" bag check examples/first-bag two
refuse 'an option that is not there' "error: unexpected argument '-x' found" bag check -x examples/first-bag
refuse 'an argument that is not UTF-8' 'error: an argument is not UTF-8' bag check $'\377'
# unheard COMMAND..: the command with a full standard error. What can't be said changes no status.
unheard() {
    "$@" 2>/dev/full
}
expect 'an argument that is not UTF-8, and a full standard error' 64 '' unheard bag check $'\377'
expect 'a word that is no command, and a full standard error' 64 '' unheard bag verify
expect 'help' 0 "$help" bag --help
expect 'the version' 0 'bag 1.6.0' bag --version
expect 'the version, by its letter' 0 'bag 1.6.0' bag -V check examples/first-bag
expect 'help, whatever else is there' 0 "$help" bag --help examples/first-bag
expect 'help by its command' 0 "$help" bag help
expect 'help of a command' 0 "$help_of_check" bag check --help
refuse 'help of no command' "error: unrecognized subcommand 'verify'" bag help verify
expect 'help of a command, by the command for it' 0 "$help_of_check" bag help check
for words in --hel --h --vers 'check --hel'; do
    refuse "a part of an option: $words" "error: unexpected argument '${words#check }' found" bag $words
done
expect 'help of a command, by its letter' 0 "$help_of_check" bag check examples/first-bag -h

# The operands of each command, as at the head of the manual page.
operands() {
    for command in check make begin intake report audit fetch export list; do
        bag "$command" --help | sed -n 's/^Usage: //p'
    done
}
expect 'the operands of each command' 0 'bag check <DIR>
bag make <SRC> <DST> <ALG>...
bag begin <LEDGER> <NAME> <DIR>
bag intake <LEDGER> <NAME> <DIR>...
bag report <LEDGER> <NAME>
bag audit <LEDGER> <NAME>
bag fetch <LEDGER> <NAME> <DIR>
bag export <LEDGER> <NAME> <DIR>
bag list <LEDGER>' operands
# What the folders are for: the files of a bag, each at its path in it, but of begin only its tag files; or a new one.
folders() {
    for command in check make begin intake fetch export; do
        bag "$command" --help | sed -n "s/^  <\(SRC\|DST\|DIR\)>[. ]*/$command: /p"
    done
}
expect 'the folders of each command' 0 'check: The folder
make: The folder with the files
make: The folder for the bag, which must not exist yet
begin: The folder with the tag files
intake: The folders with the files, each at its path in the bag
fetch: The folder with the files, each at its path in the bag
export: The folder for the bag, which must not exist yet' folders
algorithms() {
    bag make --help | sed -n 's/^  <ALG>[. ]*//p'
}
expect 'the algorithms of make' 0 'The algorithms of its manifests: md5, sha1, sha256, sha512' algorithms
# What LEDGER and NAME are, which each command on ledgers says alike.
ledgers_and_names() {
    for command in begin intake report audit fetch export list; do
        bag "$command" --help | sed -n 's/^  <\(LEDGER\|NAME\)> */\1: /p'
    done | sort | uniq -c | sed 's/^ *//'
}
expect 'the ledger and the name of each command' 0 '7 LEDGER: The file of the ledger
6 NAME: The name of the transfer: 1 to 64 characters of a to z, 0 to 9 and -' ledgers_and_names

expect 'a folder after the mark' 0 valid bag check -- examples/first-bag
expect 'a folder before the mark' 0 valid bag check examples/first-bag --
expect 'a folder that is named as an option' 3 'bag: files' bag check -- --help
expect 'a folder that is named by a hyphen' 3 'bag: files' bag check -
expect 'a valid bag' 0 valid bag check examples/first-bag
expect 'a slash at the end' 0 valid bag check examples/first-bag/
expect 'from another directory' 0 valid env -C examples ../bag check first-bag
new 'a name  with blanks'
expect 'blanks in the name' 0 valid bag check "$work/a name  with blanks"
ln -s "$work/a name  with blanks" "$work/link"
expect 'a link that leads to the bag' 0 valid bag check "$work/link"
new changed
printf abd >"$work/changed/data/a.txt"
expect 'one changed octet' 1 $'manifest-sha256.txt: digest: data/a.txt\ncomplete, not valid' bag check "$work/changed"
new empty-directories
mkdir -p "$work/empty-directories/data/none/at all" "$work/empty-directories/tags"
expect 'empty directories are no files' 0 valid bag check "$work/empty-directories"
mkdir "$work/empty"
expect 'an empty folder' 1 $'no bagit.txt\nnot complete' bag check "$work/empty"
new unlisted
mkdir "$work/unlisted/data/k"
touch "$work/unlisted/data/k0" "$work/unlisted/data/k/x" "$work/unlisted/data/k.txt" "$work/unlisted/data/"$'l\nm%'
expect 'paths by their octets, and escaped' 1 "manifest-sha256.txt: unlisted: data/k.txt
manifest-sha256.txt: unlisted: data/k/x
manifest-sha256.txt: unlisted: data/k0
manifest-sha256.txt: unlisted: data/l%0Am%25
not complete" bag check "$work/unlisted"

expect 'no folder' 3 'bag: files' bag check "$work/none"
expect 'no folder of the name of a command' 3 'bag: files' bag check check
expect 'an empty name' 3 'bag: files' bag check ''
expect 'a file in place of the folder' 3 'bag: files' bag check examples/first-bag/bagit.txt
new link-to-file
ln -s a.txt "$work/link-to-file/data/b.txt"
expect 'a link to a file' 3 'bag: files' bag check "$work/link-to-file"
new link-to-directory
ln -s data "$work/link-to-directory/tags"
expect 'a link to a directory' 3 'bag: files' bag check "$work/link-to-directory"
new link-to-nothing
ln -s none "$work/link-to-nothing/data/b.txt"
expect 'a link that leads nowhere' 3 'bag: files' bag check "$work/link-to-nothing"
new payload-link
mv "$work/payload-link/data" "$work/elsewhere"
ln -s ../elsewhere "$work/payload-link/data"
expect 'a link in place of the payload directory' 3 'bag: files' bag check "$work/payload-link"
new fifo
mkfifo "$work/fifo/data/pipe"
expect 'a fifo, which is never opened' 3 'bag: files' bag check "$work/fifo"
new declaration-fifo
rm "$work/declaration-fifo/bagit.txt"
mkfifo "$work/declaration-fifo/bagit.txt"
expect 'a fifo in place of bagit.txt' 3 'bag: files' bag check "$work/declaration-fifo"
new other-octets
touch "$work/other-octets/data/"$'\377'
expect 'a name that is not UTF-8' 3 'bag: files' bag check "$work/other-octets"
new data-file
rm -r "$work/data-file/data"
touch "$work/data-file/data"
expect 'a plain file named data' 3 'bag: files' bag check "$work/data-file"
new deep
name=$(printf 'k%.0s' {1..200})
(cd "$work/deep/data" && for _ in {1..21}; do mkdir "$name" && cd "$name" || exit; done && touch file)
expect 'a path of more than 4,096 octets' 3 'bag: files' bag check "$work/deep"

chmod 711 "$work"
new locked
chmod -R a+rX "$work/locked"
expect 'the same, unlocked' 0 valid nobody "$work/program" check "$work/locked"
chmod 000 "$work/locked/data/a.txt"
expect 'a file that may not be read' 3 'bag: files' nobody "$work/program" check "$work/locked"
chmod 644 "$work/locked/data/a.txt"
chmod 000 "$work/locked/data"
expect 'a directory that may not be read' 3 'bag: files' nobody "$work/program" check "$work/locked"
chmod 000 "$work/locked"
expect 'a folder that may not be read' 3 'bag: files' nobody "$work/program" check "$work/locked"
chmod 755 "$work/locked" "$work/locked/data"

new large
head -c 16777217 /dev/zero | tr '\0' A >"$work/large/bagit.txt"
expect 'a bagit.txt past the limit' 3 'bag: tag too large' bag check "$work/large"
truncate -s 16777216 "$work/large/bagit.txt"
expect 'a bagit.txt at the limit' 1 $'bagit.txt: line count\nnot complete' bag check "$work/large"
cp -r examples/empty-payload "$work/lines"
mkdir -p "$work/lines/data"
yes '' | head -n 100000 >"$work/lines/manifest-sha256.txt"
expect 'a manifest of 100,000 lines' 0 valid bag check "$work/lines"
echo >>"$work/lines/manifest-sha256.txt"
expect 'a line more' 3 'bag: too many' bag check "$work/lines"
mkdir "$work/files"
(cd "$work/files" && seq 200000 | xargs touch)
expect 'a folder of 200,000 files' 1 $'no bagit.txt\nnot complete' bag check "$work/files"
touch "$work/files/200001"
expect 'a file more' 3 'bag: too many' bag check "$work/files"

expect 'a closed output' 3 '' closed bag check examples/first-bag
expect 'a closed output, and no words' 3 '' closed bag
expect 'a full output' 3 '' full bag check examples/first-bag
# unexplained COMMAND..: the same for a command that says why it can't be done; a line more ends what is printed.
unexplained() {
    local status=0
    unheard "$@" || status=$?
    echo "status $status"
}
expect 'a full standard error, and a folder that is not there' 0 $'bag: files\nstatus 3' \
    unexplained bag check "$work/none"
explain 'a full output, and a folder that is not there' 3 "bag: $work/none: No such file or directory (os error 2)" \
    full bag check "$work/none"
finish
