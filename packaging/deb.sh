#!/bin/sh
# Makes a Debian package of the program in release/, the companions, a man page for each, and the
# completions, without building anything. The word names the folder to put it in, out/ by default.
# It needs dpkg-dev, help2man, gzip and python3. The same commit makes the same bytes.
root=$(cd "$(dirname "$(readlink -f "$0")")/.." && pwd) || exit 1
out=${1:-$root/out}
cd "$root" || exit 1
work=$(mktemp -d) || exit 1
trap 'rm -rf "$work"' EXIT
tree=$work/steer
share=$tree/usr/share
version=$(cat VERSION)
STEER=$root/release/steer
PYTHONDONTWRITEBYTECODE=1
SOURCE_DATE_EPOCH=${SOURCE_DATE_EPOCH:-$(git log -1 --format=%ct)}
maintainer=${DEBEMAIL:+"${DEBFULLNAME:-$DEBEMAIL} <$DEBEMAIL>"}
maintainer=${maintainer:-$(git log -1 --format='%an <%ae>')}
export STEER PYTHONDONTWRITEBYTECODE SOURCE_DATE_EPOCH

fail() {
    echo "deb.sh: $1" >&2
    exit 1
}

# The value after this name in release/RELEASE.
released() {
    sed -n "s/^$1 //p" release/RELEASE
}

check() {
    for program in dpkg-deb dpkg-shlibdeps help2man gzip python3; do
        command -v "$program" >/dev/null || fail "there is no $program"
    done
    [ "$(uname -sm)" = "$(released system)" ] || fail "the release is for $(released system)"
    [ "$(sha256sum <release/steer)" = "$(released steer)  -" ] ||
        fail "release/steer is not the program that release/RELEASE names"
}

# Puts the gzipped standard input at this path of the package.
packed() {
    mkdir -p "$(dirname "$share/$1")" && gzip -9nc >"$share/$1"
}

programs() {
    install -Dm755 release/steer "$tree/usr/lib/steer/steer"
    install -Dm755 packaging/steer "$tree/usr/bin/steer"
    mkdir -p "$share/steer"
    (cd tools && find steerlib -type f ! -name '*.pyc' -exec cp --parents {} "$share/steer" \;)
    for program in tools/steer-*; do
        name=${program##*/}
        sed '1s|^#!/usr/bin/env python3$|#!/usr/bin/python3|' "$program" >"$share/steer/$name"
        chmod 755 "$share/steer/$name"
        ln -s "../share/steer/$name" "$tree/usr/bin/$name"
    done
    awk -f man/plain.awk man/steer.1 | cat -s >"$share/steer/help.txt"
    {
        echo "steer $version"
        echo "kit $(released kit)"
        echo "sha256 $(released steer)"
    } >"$share/steer/version.txt"
}

# What a companion is in a few words, by the first line of its module.
purpose() {
    [ "$1" != steer-snap ] || echo "what a machine has set for a network device, as text"
    cat 2>/dev/null "tools/steerlib/programs/$(echo "${1#steer-}" | tr - _)"*.py |
        sed -n '1s/^"""\(steer-[a-z]*[^:]*: \)\{0,1\}\(.*\)\."*$/\2/p'
}

manuals() {
    packed man/man1/steer.1.gz <man/steer.1
    for program in tools/steer-*; do
        name=${program##*/}
        about=$(purpose "$name")
        help2man --no-info --section 1 --version-string "steer $version" \
            --name "${about:-companion of steer}" "$program" >"$work/$name.1" ||
            fail "help2man made no page of $name"
        packed "man/man1/$name.1.gz" <"$work/$name.1"
    done
}

completions() {
    folder=$share/bash-completion/completions
    install -Dm644 completions/steer.bash "$folder/steer"
    for program in tools/steer-*; do
        ln -s steer "$folder/${program##*/}"
    done
    install -Dm644 completions/_steer "$share/zsh/vendor-completions/_steer"
}

documents() {
    doc=$share/doc/steer
    install -Dm644 README.md "$doc/README.md"
    install -Dm644 tools/README.md "$doc/tools.md"
    install -m644 docs/*.md "$doc"
    mkdir -p "$doc/examples"
    install -m644 examples/* "$doc/examples"
    {
        cat packaging/copyright
        sed -e 's/^$/./' -e 's/^/ /' tools/steerlib/page/dygraphs/LICENSE
    } >"$doc/copyright"
    {
        echo "steer ($version) unstable; urgency=low"
        echo
        echo "  * What changed is in CHANGELOG.md of the sources."
        echo
        echo " -- $maintainer  $(LC_ALL=C date -u -R -d "@$SOURCE_DATE_EPOCH")"
    } | packed doc/steer/changelog.gz
    install -Dm644 packaging/lintian-overrides "$share/lintian/overrides/steer"
}

# The libraries that the program needs, as Debian names them.
libraries() {
    mkdir -p "$work/debian" && touch "$work/debian/control"
    (cd "$work" && dpkg-shlibdeps -O "$tree/usr/lib/steer/steer" 2>/dev/null) |
        sed -n 's/^shlibs:Depends=//p'
}

control() {
    mkdir "$tree/DEBIAN"
    depends=$(libraries)
    [ -n "$depends" ] || fail "dpkg-shlibdeps names no library"
    cat >"$tree/DEBIAN/control" <<END
Package: steer
Version: $version
Architecture: $(dpkg --print-architecture)
Maintainer: $maintainer
Installed-Size: $(du -sk --apparent-size "$tree/usr" | cut -f 1)
Depends: $depends, python3 (>= 3.8)
Recommends: ethtool, iproute2
Suggests: parallel, python3-distributed, slurm-wlm
Section: net
Priority: optional
Description: replay how Linux spreads network packets over processors
 steer takes the packets of a capture through RSS, RPS, RFS, accelerated RFS
 and XPS as the Linux manual describes them, and writes where each packet went
 and why. What it computes is proved.
 .
 Companion programs turn a machine's settings into a plan for it, compare
 plans, and show reports; these are tested and not proved.
END
    (cd "$tree" && find usr -type f -exec md5sum {} + | LC_ALL=C sort -k 2) >"$tree/DEBIAN/md5sums"
}

check
programs
manuals
completions
documents
control
find "$tree" -type d -exec chmod 755 {} +
find "$share" -type f ! -path "$share/steer/steer-*" -exec chmod 644 {} +
find "$tree" -exec touch -hd "@$SOURCE_DATE_EPOCH" {} +
mkdir -p "$out" &&
    dpkg-deb --root-owner-group -Zxz -b "$tree" "$out/steer_${version}_$(dpkg --print-architecture).deb"
