#!/bin/sh
# Puts the program that a gate left into release/, with its version, its SHA-256, the kit's line and
# the hash of the sources that it was built from. The word, if there is one, names the clone in
# which the gate ran; otherwise that is this one. The gate must have passed over the sources of this
# clone.
root=$(cd "$(dirname "$0")" && pwd) || exit 1
clone=${1:-$root}
gate=$clone/crates/steer/out/gate.txt
program=$clone/crates/steer/out/steer

fail() {
    echo "release: $1" >&2
    exit 1
}

[ -f "$gate" ] || fail "no gate has passed in $clone: .ci/run writes $gate"
sources=$("$root/release/sources.sh" hash) || exit 1
hash=$(sha256sum <"$program" | cut -d ' ' -f 1)
grep -qx "sources $sources" "$gate" || fail "the gate passed over other sources than this clone's"
grep -qx "steer $hash" "$gate" || fail "the program is not the one that the gate left"

cp "$program" "$root/release/steer" && chmod 755 "$root/release/steer" || exit 1
{
    echo "version $(cat "$root/VERSION")"
    grep -E '^(steer|sources|kit|system) ' "$gate"
} >"$root/release/RELEASE" || exit 1
cat "$root/release/RELEASE"
