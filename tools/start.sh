# Read by the commands of bin/, which set root, the repository's folder; name, of the program in dist/; crate, which it
# is built from; and manifest, its file in dist/. Runs the program with the command's words, its standard input and its
# exit status passed through: the program that bin/prove built here, or else the one of dist/. Says on standard error
# where the sources were changed since.
built=$root/crates/$crate/out/$crate
manifest=$root/dist/$manifest

tell() {
    echo "$name: $*" >&2
}

# The crates that the program is made of, and the machine that it was made for, by the manifest.
crates= program=none
[ -r "$manifest" ] && while read -r word rest; do
    case $word in
        crates:) crates=$rest ;;
        program:) program=${rest%% *} ;;
    esac
done <"$manifest"
released=$root/dist/$program

# Whether code or a definition is newer than this file, or a folder of these, as one is where a file was removed. It
# starts no other program, so that it takes a few milliseconds.
is_older() {
    for crate in $crates; do
        for file in "$root/crates/$crate"/src "$root/crates/$crate"/src/*.rt "$root/crates/$crate"/src/*/ \
            "$root/crates/$crate"/src/*/*.rt "$root/crates/$crate"/src/*/*/ "$root/crates/$crate"/src/*/*/*.rt \
            "$root/crates/$crate"/specs "$root/crates/$crate"/specs/*.antt "$root/crates/$crate"/specs/*/ \
            "$root/crates/$crate"/specs/*/*.antt; do
            [ "$file" -nt "$1" ] && return 0
        done
    done
    return 1
}

# Whether the sources are those of the manifest: by their times, or else by their hash. If the hash is the same, the
# next call sees it by the times.
is_released() {
    is_older "$manifest" || return 0
    hash=$("$root/tools/sources_hash" "${manifest##*/}" 2>/dev/null)
    [ "$hash" = "$(sed -n 's/^sources: //p' "$manifest")" ] || return 1
    touch -c "$manifest" 2>/dev/null
    return 0
}

# Whether this machine is the one of the manifest's program.
is_system() {
    os= machine=
    { read -r os </proc/sys/kernel/ostype && read -r machine </proc/sys/kernel/arch; } 2>/dev/null
    [ -n "$machine" ] || os=$(uname -s) machine=$(uname -m)
    [ "$os $machine" = 'Linux x86_64' ]
}

if [ -x "$built" ] && ! is_older "$built"; then
    exec "$built" "$@"
fi
if is_system && [ -x "$released" ]; then
    is_released && exec "$released" "$@"
    [ -x "$built" ] || built=$released
fi
if [ ! -x "$built" ]; then
    tell "dist/ has the program for Linux on x86-64 alone. bin/prove $name proves and builds it," \
        "with the toolchain that README.md names"
    exit 3
fi
tell "the sources were changed since this program was built: bin/prove $name proves and builds it anew"
exec "$built" "$@"
