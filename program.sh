# shellcheck shell=sh
# Which program stands for the sources: one that was built here, the released one, or a new build. The scripts source
# this file, after they set `top` to the folder that it is in.

built=$top/crates/bag_program/out/bag_program
release=$top/release/RELEASE
unpacked=$top/release/out/bag

# is_current PROGRAM TEST FILE..: the program is there, and by this test of find no source and no FILE is newer.
is_current() {
    [ -x "$1" ] || return 1
    current=$1 by=$2
    shift 2
    newer=$(find "$@" "$top/crates.txt" "$top"/crates/*/src "$top"/crates/*/specs "$top"/crates/*/proofs \
        "$by" "$current" -print -quit) || return 1
    [ -z "$newer" ]
}

is_built() {
    is_current "$built" -newer
}

# The released program stays current only while each source is the same file as before, whatever time a tool gave it,
# and no folder of sources came or went.
is_unpacked() {
    [ -e "$release" ] && [ -x "$unpacked" ] && read -r known <"$unpacked.folders" || return 1
    join_folders
    [ "$known" = "$folders" ] && is_current "$unpacked" -cnewer "$release"
}

# join_folders: sets `folders` to the names of the folders of sources.
join_folders() {
    set -- "$top"/crates/*/src "$top"/crates/*/specs "$top"/crates/*/proofs
    folders=$*
}

# program_crates: the crates that the program stands on, lowest first, and its own. None of them is a crate of tests.
program_crates() {
    sed -n 's/^\([a-z][a-z0-9_]*\):.*/\1/p' "$top/crates.txt" | sed -e '/_tests$/d' -e '/^bag_program$/q'
}

# sources_digest: one digest over the names and contents of all that the program is built from: it is the SHA-256 of the
# lines that sha256sum prints for these files, in the order of the octets of their names.
sources_digest() (
    cd "$top" || exit
    for crate in $(program_crates); do
        for part in src specs proofs; do
            [ ! -e "crates/$crate/$part" ] || set -- "$@" "crates/$crate/$part"
        done
    done
    digest=$(find crates.txt "$@" ! -type d -print0 | LC_ALL=C sort -z |
        { xargs -0 sha256sum -- || echo 'a file cannot be read'; } | sha256sum)
    echo "${digest%% *}"
)

# released WHAT: what is said of it in release/RELEASE.
released() {
    sed -n "s/^$1: //p" "$release"
}

# unpack: unpacks the released program, if it is there and the sources are its own, and sets `program` to it. If not, a
# line says why.
unpack() {
    [ -e "$release" ] || return 1
    # The program gets the time at which the look at the sources started, so that a source edited meanwhile is newer.
    started=$(date +%s.%N)
    join_folders
    name="release $(released version)"
    new=$unpacked.$$
    if [ "$(uname -sm)" != "$(released system)" ]; then
        echo "bag: $name is for $(released system)" >&2
    elif [ "$(sources_digest)" != "$(released sources)" ]; then
        echo "bag: the sources are not those of $name" >&2
    elif ! command -v gzip >/dev/null; then
        echo "bag: $name cannot be unpacked: gzip is not on PATH" >&2
    elif [ "$({ gzip -dc "$top/release/bag.gz" 2>/dev/null || echo; } | sha256sum)" != "$(released program)  -" ]; then
        echo "bag: release/bag.gz is missing or damaged" >&2
    elif ! write_unpacked 2>/dev/null; then
        echo "bag: $name cannot be unpacked into $top/release or ${TMPDIR:-/tmp}" >&2
    elif ! "$new" --version </dev/null >/dev/null 2>&1; then
        echo "bag: $name does not run here: it needs $(released library)" >&2
    elif take_unpacked; then
        return
    fi
    rm -f -- "$new"
    return 1
}

# write_unpacked: unpacks the program into the file `new`. It is kept in release/out, if it is the clone's owner who runs
# this: a folder that somebody else made there he could not change. Else it is a file for one run.
write_unpacked() {
    { [ -O "$top/release" ] && mkdir -p "$top/release/out" && true >"$new"; } || new=$(mktemp -p "$top/release") ||
        new=$(mktemp) || return
    gzip -dc "$top/release/bag.gz" >"$new" && chmod 755 "$new" && touch -d "@$started" "$new"
}

# take_unpacked: sets `program` to what was unpacked. The file for one run has no name from then on.
take_unpacked() {
    program=$unpacked
    if [ "$new" = "$unpacked.$$" ]; then
        printf '%s\n' "$folders" >"$unpacked.folders" && mv -f -- "$new" "$unpacked"
    else
        exec 9<"$new" && rm -f -- "$new" && program=/proc/self/fd/9
    fi
}

# find_program: sets `program` to the one that stands for the sources, which is unpacked or built first if necessary.
# The newer of two is asked first, so that the times of the sources are read once.
find_program() {
    if [ "$unpacked" -nt "$built" ] && is_unpacked; then
        program=$unpacked
    elif is_built; then
        program=$built
    elif is_unpacked; then
        program=$unpacked
    elif ! unpack; then
        if [ ! -O "$top" ]; then
            echo "bag: the program has to be built: let the owner of $top run ./build" >&2
            exit 69
        fi
        "$top/build" || exit
        program=$built
    fi
}
