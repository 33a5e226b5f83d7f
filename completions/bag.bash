# shellcheck shell=bash
# Completion of bag in bash: commands, options and algorithms, and otherwise files and folders.
_bag() {
    local word=${COMP_WORDS[COMP_CWORD]} command=${COMP_WORDS[1]} words=
    local commands='check make begin intake fetch report audit export list help'
    if [ "$COMP_CWORD" -eq 1 ]; then
        words="$commands --help --version"
    elif [[ $word == -* ]]; then
        words=--help
    elif [ "$command" = help ]; then
        words=$commands
    elif [ "$command" = make ] && [ "$COMP_CWORD" -gt 3 ]; then
        words='md5 sha1 sha256 sha512'
    fi
    mapfile -t COMPREPLY < <(compgen -W "$words" -- "$word")
}
complete -o default -F _bag bag
