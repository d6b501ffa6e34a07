#!/bin/sh
# Runs an example and shows what it prints: `examples/run.sh hello`, `dma_copy` or `echo` assembles a firmware and runs it on a machine,
# first in one process and then with a process for each device, which prints the same;
# `examples/run.sh timer` starts a machine in Python, and a timer as a process that it talks to.
# It ends with 1 where that isn't what the example's file says (of the echo program the closing lines alone).
#
# The program is COSIM, where that is set; else the one that a build left in crates/cosim; else dist/cosim, exactly where its manifest
# is of these sources and of this file; else it is proved and built now. With --prove it is always proved and built.
set -eu
here=$(cd "$(dirname "$0")" && pwd)
top=$here/..
prove=no
if [ "${1:-}" = --prove ]; then
    prove=yes
    shift
fi
name=${1:?"usage: run.sh [--prove] hello|dma_copy|echo|timer"}
built=$top/crates/cosim/out/cosim
if [ $prove = yes ]; then
    "$top/dist/build"
    program=$built
elif [ -n "${COSIM:-}" ]; then
    program=$(realpath "$COSIM")
elif [ -x "$built" ]; then
    program=$built
elif "$top/dist/fits"; then
    echo "running dist/cosim, which was built of these sources; --prove proves and builds it here" >&2
    program=$top/dist/cosim
else
    echo "dist/cosim isn't of these sources: the program is proved and built now" >&2
    "$top/dist/build"
    program=$built
fi
work=$(mktemp -d)
trap 'rm -rf "$work"' EXIT
cp "$here/$name"/* "$work"
cd "$work"
if [ "$name" = timer ]; then
    python3 machine.py socket >printed &
    machine=$!
    while ! grep -q listening printed 2>/dev/null && kill -0 $machine 2>/dev/null; do sleep 0.02; done
    "$program" device socket timer 3 || { kill $machine; exit 1; }
    wait $machine
else
    "$program" asm "$name.s" "$name.bin"
    "$program" direct "$name.toml" >printed
    # the same with a process for each device
    "$program" run "$name.toml" "$program" | cmp - printed
fi
cat printed
if [ "$name" = echo ]; then grep -v '^@' printed >closing && mv closing printed; fi
cmp printed "$name.out"
