#!/bin/sh
# Units per second of the machine, beside the same in plain Rust, in one run: `bench/bus/run.sh [UNITS]`.
# It takes the best of five runs of each, by processor time, and prints a line for each way with the ratio
# (1.0 is as fast as plain Rust, above is faster).
set -eu
units=${1:-30000000}
here=$(cd "$(dirname "$0")" && pwd)
work=$(mktemp -d)
trap 'rm -rf "$work"' EXIT
rustc -O -o "$work/baseline" "$here/baseline.rs"
(cd "$here/../../crates/bench_bus" && rt run >"$work/build.log" 2>&1)
cp "$here/../../crates/bench_bus/out/bench_bus" "$work/bench_bus"

. "$here/../best.sh"

for way in loop copy; do
    ours=$(best "$work/bench_bus" "$units" "$way")
    cp "$work/out" "$work/ours"
    theirs=$(best "$work/baseline" "$units" "$way")
    cmp -s "$work/ours" "$work/out" || { echo "$way: the two print different results"; exit 1; }
    echo "$way: $ours s here, $theirs s in plain Rust, $units units, ratio $(echo "scale=2; $theirs / $ours" | bc)"
done
