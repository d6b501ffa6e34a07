#!/bin/sh
# Packets per second through framer, session and a timer's end, beside the same in plain Rust, in one run: `bench/device/run.sh [RUNS]`.
# A run is a stream of 7,001 packets: reads and writes of registers, and syncs in which the timer's level rises and falls. It takes the
# best of five times of each, by processor time, and prints a line for each size of the pieces that are fed, with the ratio (1.0 is as
# fast as plain Rust, above is faster).
set -eu
runs=${1:-1000}
here=$(cd "$(dirname "$0")" && pwd)
work=$(mktemp -d)
trap 'rm -rf "$work"' EXIT
rustc -O --edition 2021 -o "$work/baseline" "$here/baseline.rs"
(cd "$here/../../crates/bench_device" && rt run >"$work/build.log" 2>&1)
cp "$here/../../crates/bench_device/out/bench_device" "$work/bench_device"

. "$here/../best.sh"

for piece in 4096 100; do
    ours=$(best "$work/bench_device" "$runs" "$piece")
    cp "$work/out" "$work/ours"
    theirs=$(best "$work/baseline" "$runs" "$piece")
    cmp -s "$work/ours" "$work/out" || { echo "pieces of $piece bytes: the two print different results"; exit 1; }
    packets=$(cut -d ' ' -f 1 "$work/ours")
    echo "pieces of $piece bytes: $ours s here, $theirs s in plain Rust, $packets packets, $(echo "scale=1; $packets / ($ours * 1000000)" | bc) million packets a second, ratio $(echo "scale=2; $theirs / $ours" | bc)"
done
