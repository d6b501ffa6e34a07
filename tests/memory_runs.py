#!/usr/bin/env python3
"""Runs machines of configurations over packets in memory, `memory_run config`, and compares what is printed with `cosim direct`.

Links are whole, and cut into pieces of one byte and of seven. The examples and worked machines are run, and machines that are drawn.
The script ends with 1 on any mismatch.
"""

import os
import random
import shutil
import sys
import tempfile

from support.configuration import device, script_machine
from support.machine import written
from support.program import MEMORY_RUN, PROGRAM, TOP, built, check, run, told

EXAMPLES = os.path.join(TOP, "examples")
CUTS = (0, 1, 7)
DRAWN = 20

# worked machines: their files, and lines that are among those printed
TIMER = {
    "c": script_machine(100) + device("timer", 0),
    "s": "write 0 0x4 4 0x5\nwrite 0 0x8 4 0x1\nwait 6\nwrite 0 0x4 4 0x64\nwait 1\n",
}
TIMER_LINES = ["@10 p0 line 0 = 1 due 5", "@10 p0 line 0 = 0 due 10"]

SECTOR = bytes(range(256)) * 2
DISK = {
    "c": script_machine(100, image="i") + device("disk", 0, disk='"d"'),
    "i": SECTOR,
    "d": bytes(512),
    "s": "write 0 0x8 4 0x80000000\nwrite 0 0x4 4 0x1\nwrite 0 0xc 4 0x3\nwait 7\nwrite 0 0x8 4 0x80000400\nwrite 0 0xc 4 0x1\nwait 8\n",
}
DISK_LINES = [
    f"@10 p0 fetch 0x80000000+64 due 2 = {SECTOR[:64].hex()} code 0",
    f"@20 p0 store 0x800005c0+64 due 20 = {SECTOR[448:].hex()} mask 0xffffffffffffffff code 0",
]

COPY = {
    "c": script_machine(40, image="i") + device("timer", 0) + device("dma", 1, lines='"posted"') + device("null", 2),
    "i": SECTOR,
    "s": "write 0 0x4 4 0x3\nwrite 0 0x8 4 0x1\nwrite 1 0x0 4 0x80000000\nwrite 1 0x4 4 0x80000800\nwrite 1 0x8 4 0x41\nwrite 1 0x10 4 0x3\n"
    "read 2 0x0 4\npost 2 0x0 4 0x1\nwait 8\nread 1 0x14 4\n",
}
COPY_LINES = [
    "@6 p2 read 0x0+4 = 0x0 code 2", "@10 p0 line 0 = 1 due 3",
    f"@10 p1 fetch 0x80000000+64 due 5 = {SECTOR[:64].hex()} code 0", "@10 p1 line 1 = 1 due 10", "stop halted 0 at 17",
]

# Registers of each kind: their addresses, each with values that a draw gives it.
SMALL = (0, 1, 2, 3, 5, 16, 64, 65, 200)
PLACES = (0x80000000, 0x80000001, 0x80000200, 0x80000FC0, 0x80001000, 0)
REGISTERS = {
    "null": {0: SMALL},
    "timer": {0: SMALL, 4: SMALL, 8: (0, 1, 1, 1), 12: SMALL},
    "uart": {0: SMALL, 4: SMALL, 8: (0, 1, 1), 12: SMALL},
    "dma": {0: PLACES, 4: PLACES, 8: SMALL, 12: (0, 0xFFFFFFFF, 0xF0F01234), 16: (0, 1, 1, 3, 3), 20: (0, 1, 2, 3)},
    "disk": {0: (0, 1, 2), 4: (0, 1, 2), 8: PLACES, 12: (0, 1, 3, 5, 7), 16: SMALL, 20: SMALL},
}
# what sets each kind to work
STARTS = {
    "null": ((0, 1),),
    "timer": ((4, 7), (8, 1)),
    "uart": ((8, 1), (0, 0x41)),
    "dma": ((0, 0x80000000), (4, 0x80000800), (8, 130), (16, 3)),
    "disk": ((4, 1), (8, 0x80000400), (12, 5)),
}
CAPS = ("[1, 2, 3]", "[1, 2]", "[2, 3]", "[1]", "[]")


def drawn_port(draw, number):
    kind = draw.choice(("null", "timer", "timer", "uart", "dma", "disk"))
    keys = {"lines": draw.choice(('"answered"', '"posted"')), "stores": draw.choice(('"answered"', '"posted"'))}
    keys["caps"] = draw.choice(CAPS[:2] if kind == "dma" else CAPS)
    if kind == "uart":
        keys |= {"input": '"u"', "gap": draw.choice((1, 3, 10))}
    if kind == "disk":
        keys |= {"disk": '"d"', "bad": draw.choice(("[]", "[1]"))}
    return kind, device(kind, number, **keys)


def drawn_line(draw, kinds):
    if draw.random() < 0.2:
        return f"wait {draw.randint(1, 12)}"
    port = draw.randrange(len(kinds))
    addr, values = draw.choice(list(REGISTERS[kinds[port]].items()))
    size = draw.choice((4, 4, 4, 4, 4, 4, 1, 2, 8))
    word = draw.choice(("read", "write", "write", "write", "post"))
    value = "" if word == "read" else f" 0x{draw.choice(values) % 256**size:x}"
    return f"{word} {port} 0x{addr:x} {size}{value}"


def start_lines(kinds):
    return "".join(f"write {port} 0x{addr:x} 4 0x{value:x}\n" for port, kind in enumerate(kinds) for addr, value in STARTS[kind])


def drawn_machine(seed):
    """The files of a machine of one to four ports, which a script sets to work; then it has 60 drawn lines."""
    draw = random.Random(seed)
    ports = [drawn_port(draw, number) for number in range(draw.randint(1, 4))]
    kinds = [kind for kind, _ in ports]
    return {
        "c": script_machine(draw.choice((50, 1000)), draw.choice((1, 3, 10, 64)), image="i") + "".join(text for _, text in ports),
        "i": draw.randbytes(4096),
        "u": draw.randbytes(20),
        "d": draw.randbytes(1024),
        "s": start_lines(kinds) + "".join(drawn_line(draw, kinds) + "\n" for _ in range(60)),
    }


def try_machine(name, folder, config, cuts, lines=()):
    """Each cut prints what `cosim direct` does, and these lines are among it."""
    wanted = run(["direct", config], folder)
    check(name, "the status of direct", (wanted.returncode, wanted.stderr), (0, b""))
    printed = wanted.stdout.decode().splitlines()
    for line in lines:
        check(name, f"whether {line!r} is printed", line in printed, True)
    for cut in cuts:
        ended = run(["config", config, str(cut)], folder, program=MEMORY_RUN)
        check(f"{name}, {cut or 'whole'}", "the status", (ended.returncode, ended.stderr), (0, b""))
        check(f"{name}, {cut or 'whole'}", "standard output", ended.stdout, wanted.stdout)


def try_files(name, files, lines=()):
    with tempfile.TemporaryDirectory() as folder:
        written(folder, {file: content if isinstance(content, bytes) else content.encode() for file, content in files.items()})
        try_machine(name, folder, "c", CUTS, lines)


def try_example(name, cuts):
    with tempfile.TemporaryDirectory() as folder:
        for file in os.listdir(os.path.join(EXAMPLES, name)):
            shutil.copy(os.path.join(EXAMPLES, name, file), folder)
        assembled = run(["asm", f"{name}.s", f"{name}.bin"], folder)
        check(name, "the status of asm", (assembled.returncode, assembled.stderr), (0, b""))
        try_machine(name, folder, f"{name}.toml", cuts)


def main():
    built()
    built(MEMORY_RUN, "memory_run")
    try_files("a timer", TIMER, TIMER_LINES)
    try_files("a disk's transfers", DISK, DISK_LINES)
    try_files("a timer, a DMA and a null device", COPY, COPY_LINES)
    for seed in range(DRAWN):
        try_files(f"machine {seed}", drawn_machine(seed))
    try_example("hello", CUTS)
    try_example("dma_copy", CUTS)
    try_example("echo", (0,))
    return told("memory_runs")


if __name__ == "__main__":
    sys.exit(main())
