#!/bin/sh
# The echo example, a hart beside a timer, a UART and a DMA, for so many units (20,000,000 where none are named), run by
# `cosim local` under the schedules of number 0 and 1, beside `cosim direct`, in one run: `bench/local/run.sh [UNITS]`.
# It takes the best of five times of each, by processor time, compares what they print, and prints a line for each with
# its ratio to `direct` (2.0 takes twice as long). COSIM is the program; without it, that of dist/.
set -eu
here=$(cd "$(dirname "$0")" && pwd)
units=${1:-20000000}
program=${COSIM:-$here/../../dist/cosim}
work=$(mktemp -d)
trap 'rm -rf "$work"' EXIT
cp "$here"/../../examples/echo/* "$work"
cd "$work"
"$program" asm echo.s echo.bin
sed -i "s/^units = .*/units = $units/" echo.toml

. "$here/../best.sh"

direct=$(best "$program" direct echo.toml)
cp "$work/out" "$work/direct"
echo "direct: $direct s"
for number in 0 1; do
    local=$(best "$program" local echo.toml schedule "$number")
    head -n "$(wc -l <"$work/direct")" "$work/out" | cmp -s - "$work/direct" || { echo "local prints other lines"; exit 1; }
    echo "local, schedule $number: $local s, $(tail -n 1 "$work/out"), $(echo "scale=1; $local / $direct" | bc) times as long"
done
