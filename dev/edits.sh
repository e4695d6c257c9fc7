#!/bin/sh
# Tries the wrong bodies of dev/edits, which the gate does not: edits.sh [CRATE..], all of them if
# none is named. The prover must refuse each. The gate checks a crate with edits once more from
# nothing, so those of crates that cost much and seldom change stand here. It proves first what the
# crates depend on, and leaves no edit in crates/.
set -eu
cd "$(dirname "$0")/.."
[ $# -gt 0 ] || set -- $(ls dev/edits)
for crate; do
    if [ ! -d "dev/edits/$crate" ] || [ -e "crates/$crate/must-fail" ]; then
        echo "edits.sh: $crate has no edits in dev/edits, or has some in crates/$crate/must-fail" >&2
        exit 2
    fi
done
trap 'for crate; do rm -rf "crates/$crate/must-fail"; done' EXIT
trap 'exit 1' HUP INT TERM
for crate; do
    cp -r "dev/edits/$crate" "crates/$crate/must-fail"
done
rt must-fail "$@"
