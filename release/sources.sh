#!/bin/sh
# With the word crates: the crates of which the program is built, each after those that it depends on.
# With the word hash: one SHA-256 over what the program is built from. That is, for each of these crates in
# that order, its line of crates.txt without the comment and with single spaces; HANDLES; and by their
# names in the order of their bytes all files of the crates' src/, without blank lines, lines that are
# comments and lines that begin with `ghost use`, which no code is made from. Specifications and proofs are
# not in it: they decide whether a program is built, and not which.
cd "$(dirname "$0")/.." || exit 1

crates() {
    awk -v wanted="$1" '
        { sub(/#.*/, "") }
        split($0, sides, ":") > 1 {
            split(sides[1], words, " ")
            below[words[1]] = sides[2]
            $1 = $1
            line[words[1]] = $0
        }
        function visit(name, names, count, i) {
            if (!(name in below) || name in seen) return
            seen[name] = 1
            count = split(below[name], names, " ")
            for (i = 1; i <= count; i++) visit(names[i])
            print wanted == "lines" ? line[name] : name
        }
        END { visit("steer") }
    ' crates.txt
}

files() {
    for name in $(crates names); do
        find "crates/$name/src" -type f
    done
}

# The lines of a source file that code can be made from.
code() {
    sed -e '/^[[:space:]]*$/d' -e '/^[[:space:]]*\/\//d' -e '/^[[:space:]]*ghost use /d' "$1"
}

case ${1-} in
crates) crates names ;;
hash)
    {
        crates lines
        cat HANDLES
        files | LC_ALL=C sort | while read -r file; do
            echo "file $file"
            code "$file"
        done
    } | sha256sum | cut -d ' ' -f 1
    ;;
*)
    echo "usage: sources.sh crates | hash" >&2
    exit 2
    ;;
esac
