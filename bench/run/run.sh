#!/bin/sh
# Reads of a timer that is a process of its own, 100,000 where no number is named, by `cosim run`, beside a bare exchange of messages of
# the same sizes between two processes in plain Rust, and in Python, in one run: `bench/run/run.sh [READS]`. It takes the best of five
# times of each, by the clock, since two processes wait for each other, and prints with each the processor seconds of both processes, and
# the ratio (1.0 is as fast, above is faster). COSIM is the program; without it, that of dist/.
set -eu
reads=${1:-100000}
here=$(cd "$(dirname "$0")" && pwd)
program=${COSIM:-$here/../../dist/cosim}
work=$(mktemp -d)
trap 'rm -rf "$work"' EXIT
rustc -O --edition 2021 -o "$work/baseline" "$here/baseline.rs"
cd "$work"
cat >machine.toml <<END
[machine]
kind = "script"
script = "script"
ram = 4096
quantum = 10000
units = $reads
[[port]]
kind = "timer"
socket = "timer.socket"
base = 0x10000000
size = 4096
line = 0
END
seq "$reads" | sed 's/.*/read 0 0x0 4/' >script

# The least seconds by the clock of five runs, and with them the processor seconds of all processes of that run.
best() {
    least=
    for _ in 1 2 3 4 5; do
        line=$( { command time -f '%e %U %S' "$@" >out; } 2>&1 | tail -n 1)
        taken=${line%% *}
        if [ -z "$least" ] || [ "$(echo "$taken < ${least%% *}" | bc)" = 1 ]; then least=$line; fi
    done
    echo "$least"
}

ours=$(best "$program" run machine.toml "$program")
"$program" direct machine.toml | cmp -s - out || { echo "run prints other lines"; exit 1; }
rust=$(best ./baseline socket "$reads")
python=$(best python3 "$here/baseline.py" socket "$reads")
ratio() { echo "scale=2; ${1%% *} / ${ours%% *}" | bc; }
told() { echo "$1" | sed 's/\(.*\) \(.*\) \(.*\)/\1 s, and \2 + \3 s of processors/'; }
echo "cosim run: $(told "$ours")"
echo "plain Rust: $(told "$rust"), ratio $(ratio "$rust")"
echo "Python: $(told "$python"), ratio $(ratio "$python")"
