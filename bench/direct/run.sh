#!/bin/sh
# Units per second of `direct`, beside a machine in plain Rust that prints the same text: `bench/direct/run.sh [UNITS]`.
# Three programs: the echo program with its timer, UART and DMA, a loop of one instruction for so many units (200,000,000 where
# none are named), and a loop that counts down in as many and then stops the machine. It takes the best of three runs of each, by
# processor time, compares what both print, and prints a line for each program with the ratio (1.0 is as fast as plain Rust, above is
# faster). Where qemu-system-riscv32 is installed, it runs the same count there, one instruction at a time (`-singlestep`).
# COSIM is the program; without it, the one that is built in crates/cosim.
set -eu
units=${1:-200000000}
here=$(cd "$(dirname "$0")" && pwd)
program=${COSIM:-$here/../../crates/cosim/out/cosim}
work=$(mktemp -d)
trap 'rm -rf "$work"' EXIT
rustc -O --edition 2021 -o "$work/machine" "$here/machine.rs"
cp "$here/../../examples/echo"/* "$work"
cd "$work"
"$program" asm echo.s echo.bin
printf 'loop:   jal   x0, loop\n' >loop.s
"$program" asm loop.s loop.bin
# 8,192 units for each step of the upper immediate, and then a store at the same place stops this machine and QEMU's.
cat >count.s <<SOURCE
        lui   x1, $((units / 8192))
loop:   addi  x1, x1, -1
        bne   x1, x0, loop
        lui   x2, 0x100
        lui   x3, 5
        addi  x3, x3, 0x555
        sw    x3, 0(x2)
SOURCE
"$program" asm count.s count.bin
counted=$((units / 8192 * 8192 + 5))
config() {
    cat >"$1.toml" <<CONFIG
[machine]
kind = "rv32i"
image = "$1.bin"
ram = 4096
quantum = 1000000
units = $2
CONFIG
}
config loop "$units"
config count "$counted"

times=3
. "$here/../best.sh"

# The program, its configuration, its units, and the words of the plain machine.
beside() {
    name=$1
    count=$2
    shift 2
    ours=$(best "$program" direct "$name.toml")
    cp "$work/out" "$work/ours"
    theirs=$(best "$work/machine" "$@")
    cmp -s "$work/ours" "$work/out" || { echo "$name: the two print different texts"; exit 1; }
    echo "$name: $ours s here, $theirs s in plain Rust, $count units, $(echo "$count / ($ours * 1000000)" | bc) million units a second, ratio $(echo "scale=2; $theirs / $ours" | bc)"
}

beside echo 2000000 echo.bin 262144 200 2000000 timer uart:input.bin:1000 dma
beside loop "$units" loop.bin 4096 1000000 "$units"
beside count "$counted" count.bin 4096 1000000 "$counted"
if command -v qemu-system-riscv32 >/dev/null; then
    single=-singlestep
    qemu-system-riscv32 -help | grep -q -e "^-singlestep" || single="-accel tcg,one-insn-per-tb=on"
    theirs=$(best qemu-system-riscv32 $single -M virt -m 16M -display none -serial none -monitor none -bios none \
        -device loader,file=count.bin,addr=0x80000000)
    echo "count: $theirs s in QEMU one instruction at a time, ratio $(echo "scale=2; $theirs / $ours" | bc)"
fi
