#!/bin/sh
# Runs the program with these words in this folder: the released one if the sources are those that
# it was built from, and otherwise one that is built here, with its proofs, whenever its sources
# have changed. With STEER_BUILD set to anything it is built here in any case. The words --help and
# --version are answered here: the program itself has no options. A build shows on standard error a
# line for each crate that it proves, with how many come after it; all output of the tools goes to
# out/steer.log in the crate. A failed build shows the end of that log and has status 1. The file
# out/steer.built names the kit of the last build.
root=$(cd "$(dirname "$(readlink -f "$0")")" && pwd) || exit 1
crate=$root/crates/steer
release=$root/release
stamp=$crate/out/steer.built
seen=$crate/out/release.seen
log=$crate/out/steer.log

# Lists one source, or one file that further arguments name, that is newer than the given file.
changed() {
    since=$1
    shift
    find "$@" "$root/crates.txt" "$root/HANDLES" "$root"/crates/*/src "$root"/crates/*/specs \
        "$root"/crates/*/proofs -newer "$since" 2>/dev/null | head -n 1
}

is_built() {
    [ -x "$crate/out/steer" ] && [ -f "$stamp" ] && [ -z "$(changed "$stamp")" ]
}

# The value after this name in release/RELEASE.
released() {
    sed -n "s/^$1 //p" "$release/RELEASE"
}

is_released() {
    [ -f "$release/RELEASE" ] && [ "$(uname -sm)" = "$(released system)" ] || return 1
    [ ! -f "$seen" ] || [ -n "$(changed "$seen" "$release")" ] || return 0
    mkdir -p "$crate/out" 2>/dev/null && touch "$seen.begun" 2>/dev/null
    [ "$("$release/sources.sh" hash)" = "$(released sources)" ] || return 1
    [ "$(sha256sum <"$release/steer")" = "$(released steer)  -" ] || return 1
    mv "$seen.begun" "$seen" 2>/dev/null
    return 0
}

# A line for each crate that the tools begin.
progress() {
    all=" $("$release/sources.sh" crates | tr '\n' ' ')"
    while read -r line; do
        case $line in
        "rt: chose --jobs "*)
            name=${line##* }
            # The crates after it.
            set -- ${all##*" $name "}
            echo "steer: $name, $# left"
            ;;
        esac
    done
}

build() {
    if ! command -v rt >/dev/null; then
        echo "steer: release/ has no program of these sources, and there is no rt to build one with" >&2
        return 1
    fi
    mkdir -p "$crate/out" && rt version >"$stamp.begun" || return 1
    echo "steer: building; from nothing this proves every crate first and takes minutes ($log)" >&2
    # With no words the program only says how it is used.
    (cd "$crate" && rt run) </dev/null 2>&1 | tee "$log" | progress >&2
    if grep -q '^rt: running out/steer' "$log"; then
        mv "$stamp.begun" "$stamp"
    else
        tail -n 20 "$log" >&2
        return 1
    fi
}

# The program to run is left in `program`.
choose() {
    if [ -z "${STEER_BUILD-}" ] && ! is_built && is_released; then
        program=$release/steer
    else
        is_built || build || return 1
        program=$crate/out/steer
    fi
}

# The man page as plain text.
help() {
    awk -f "$root/man/plain.awk" "$root/man/steer.1" | cat -s
}

# The version, the kit that built the program, and the program's SHA-256.
version() {
    choose || return 1
    if [ "$program" = "$release/steer" ]; then
        kit=$(released kit)
    else
        kit=$(cat "$stamp")
    fi
    echo "steer $(cat "$root/VERSION")"
    echo "kit ${kit:-$(rt version)}"
    echo "sha256 $(sha256sum <"$program" | cut -d ' ' -f 1)"
}

case $#${1-} in
1--help) help; exit ;;
1--version) version; exit ;;
esac
choose || exit 1
exec "$program" "$@"
