#!/bin/sh
# Times the program on generated input, on two large replays, and on runs with threads: for each the command,
# its seconds (of the clock, of the processor) and its largest memory; of runs with threads also the packets
# that were dropped, which differ from run to run. The first word names the program, and is the one of
# this clone by default; the second says how often each is run, 3 by default.
root=$(cd "$(dirname "$0")/../.." && pwd) || exit 1
steer=$(realpath "${1:-$root/crates/steer/out/steer}") || exit 1
times=${2:-3}
inputs=$(mktemp -d) || exit 1
trap 'rm -rf "$inputs"' EXIT

if [ ! -x /usr/bin/time ]; then
    echo "bench: there is no /usr/bin/time" >&2
    exit 1
fi
python3 "$root/dev/bench/inputs.py" "$inputs" || exit 1

run() {
    count=0
    while [ "$count" -lt "$times" ]; do
        /usr/bin/time -f "$1: %e s, %U s user, %S s system, %M KB" "$steer" "$@" >"$inputs/out" || exit 1
        count=$((count + 1))
    done
    tail -n 1 "$inputs/out"
}

run_threads() {
    count=0
    while [ "$count" -lt "$times" ]; do
        /usr/bin/time -o "$inputs/took" -f "run $1 $2: %e s, %U s user, %S s system, %M KB" \
            "$steer" run "$1" "$2" >"$inputs/out" || exit 1
        echo "$(cat "$inputs/took"), $(grep -c '^p .* place drop$' "$inputs/out") dropped" >&2
        count=$((count + 1))
    done
    tail -n 1 "$inputs/out"
}

cd "$inputs" || exit 1
run gen 7 131072 512
run replay generated.json generated.pcap
run replay wide.json wide.pcap
for workers in 1 2 4 8; do
    run_threads "spread$workers.json" generated.pcap
done
for workers in 1 2 4 8; do
    run_threads "wide$workers.json" wide.pcap
done
