#!/bin/sh
# Round trips per second of a machine's end that is driven over a link in memory to a timer's end, beside the same in
# plain Rust, and its local units per second beside `direct`, in one run: `bench/machine/run.sh [RUNS] [UNITS]`. A run
# is 10,000 reads of a register, each three units, with a boundary each 1,000 units. It takes the best of five times of
# each, by processor time, compares what both print, and prints a line for each with the ratio (1.0 is as fast as plain
# Rust, or as `direct`; above is faster).
set -eu
runs=${1:-100}
units=${2:-50000000}
here=$(cd "$(dirname "$0")" && pwd)
work=$(mktemp -d)
trap 'rm -rf "$work"' EXIT
rustc -O --edition 2021 -o "$work/baseline" "$here/baseline.rs"
(cd "$here/../../crates/bench_machine" && rt run >"$work/build.log" 2>&1)
cp "$here/../../crates/bench_machine/out/bench_machine" "$work/bench_machine"

. "$here/../best.sh"

# What is timed, the two times and the other's name, and how many.
line() {
    per=$(echo "scale=2; $5 / ($2 * 1000000)" | bc)
    echo "$1: $2 s here, $3 s $4, $5 in all, $per million a second, ratio $(echo "scale=2; $3 / $2" | bc)"
}

ours=$(best "$work/bench_machine" round_trips "$runs")
cp "$work/out" "$work/ours"
theirs=$(best "$work/baseline" "$runs")
cmp -s "$work/ours" "$work/out" || { echo "round trips: the two print different results"; exit 1; }
line "round trips" "$ours" "$theirs" "in plain Rust" $((runs * 10000))

ours=$(best "$work/bench_machine" units "$units")
cp "$work/out" "$work/ours"
theirs=$(best "$work/bench_machine" direct "$units")
cmp -s "$work/ours" "$work/out" || { echo "units: the two print different results"; exit 1; }
line "units" "$ours" "$theirs" "by direct" "$units"
