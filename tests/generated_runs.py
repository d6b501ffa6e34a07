#!/usr/bin/env python3
"""Runs the machines that numbers generate, `cosim gen`, and compares each summary with what `cosim local` prints of the same machine.

The machine is generated here, from the rules of the draws and the text of the program, whose words are encoded by the formats of the
RISC-V manuals. It is written as a configuration with an image and an input, and run by `local` under the schedule of its number. Of the
lines that this prints those of calls are counted, and the others have to stand in the summary. The script ends with 1 on any mismatch.
"""

import os
import random
import struct
import sys
import tempfile

from support.program import built, check, run, told

BLOCKS = 4000
MTVEC, MEPC = 0x305, 0x341
NUMBERS = (0, 1, 2, 3, 7, 64, 65535, 4294967295)
DRAWN = 4

CONFIG = """\
[machine]
kind = "rv32i"
image = "image"
ram = 131072
quantum = {quantum}
units = 100000

[[port]]
kind = "timer"
base = 0x10000000
size = 4096
line = 0

[[port]]
kind = "uart"
base = 0x10001000
size = 4096
line = 1
input = "input"
gap = {gap}

[[port]]
kind = "dma"
base = 0x10002000
size = 4096
line = 2
"""


class Draws:
    """The generator of numbers that begins with x."""

    def __init__(self, x):
        self.x = x

    def next(self):
        self.x = (self.x * 6364136223846793005 + 1442695040888963407) % 2**64
        return self.x // 2**33


def lui(rd, upper):
    return upper << 12 | rd << 7 | 0x37


def jal(rd, distance):
    """Of a distance forward, below 2,048."""
    return (distance >> 1 & 0x3FF) << 21 | rd << 7 | 0x6F


def addi(rd, rs1, value):
    return (value & 0xFFF) << 20 | rs1 << 15 | rd << 7 | 0x13


def load_word(rd, offset, rs1):
    return (offset & 0xFFF) << 20 | rs1 << 15 | 2 << 12 | rd << 7 | 0x03


def store_word(rs2, offset, rs1):
    return (offset >> 5 & 0x7F) << 25 | rs2 << 20 | rs1 << 15 | 2 << 12 | (offset & 31) << 7 | 0x23


def csrrw(rd, csr, rs1):
    return csr << 20 | rs1 << 15 | 1 << 12 | rd << 7 | 0x73


def csrrs(rd, csr, rs1):
    return csr << 20 | rs1 << 15 | 2 << 12 | rd << 7 | 0x73


MRET = 0x30200073

PROLOGUE = [
    lui(10, 0x10000),
    lui(11, 0x10001),
    lui(12, 0x10002),
    lui(13, 0x100),
    jal(5, 20),  # to the sixth word from here, behind the handler
    csrrs(30, MEPC, 0),
    addi(30, 30, 4),
    csrrw(0, MEPC, 30),
    MRET,
    csrrw(0, MTVEC, 5),
    lui(6, 0x80010),
    store_word(6, 0, 12),
    lui(6, 0x80011),
    store_word(6, 4, 12),
    addi(6, 0, 256),
    store_word(6, 8, 12),
    addi(7, 0, 1),
]

EPILOGUE = [store_word(0, 0, 13), jal(0, 0)]


def block(a, b):
    kind = a % 4
    if kind == 0:
        return addi(8, 8, b % 2048)
    if kind == 1:
        return load_word(9, 4 * (b % 3), (10, 11, 12)[b // 3 % 3])
    if kind == 2:
        return store_word(8, 4 * (b % 3), (10, 11)[b // 3 % 2])
    return store_word(7, 16, 12)


def generated(number):
    """The files of the machine that a number generates."""
    draws = Draws(number)
    quantum = 1 + draws.next() % 500
    gap = 1 + draws.next() % 200
    received = bytes(draws.next() % 256 for _ in range(64))
    pairs = [(draws.next(), draws.next()) for _ in range(BLOCKS)]
    words = PROLOGUE + [block(a, b) for a, b in pairs] + EPILOGUE
    return {
        "config": CONFIG.format(quantum=quantum, gap=gap).encode(),
        "image": b"".join(struct.pack("<I", word) for word in words),
        "input": received,
    }


def try_number(number):
    name = f"gen {number}"
    with tempfile.TemporaryDirectory() as folder:
        for file, content in generated(number).items():
            with open(os.path.join(folder, file), "wb") as held:
                held.write(content)
        local = run(["local", "config", "schedule", str(number)], folder)
    check(name, "the status of local", (local.returncode, local.stderr), (0, b""))
    lines = local.stdout.decode().splitlines()
    calls = sum(line.startswith("@") for line in lines)
    check(name, "whether there are calls", calls > 0, True)
    ended = run(["gen", str(number)])
    check(name, "the status", (ended.returncode, ended.stderr), (0, b""))
    summary = [f"gen {number}", f"calls {calls}", *lines[calls:]]
    check(name, "the summary", ended.stdout.decode().splitlines(), summary)


def try_usage(words, index):
    ended = run(words)
    check(" ".join(words), "the fault", (ended.returncode, ended.stdout, ended.stderr), (1, b"", f"cosim: usage at word {index}\n".encode()))


def main():
    built()
    draw = random.Random("generated")
    for number in (*NUMBERS, *(draw.randrange(2**32) for _ in range(DRAWN))):
        try_number(number)
    try_usage(["gen"], 1)
    try_usage(["gen", "4294967296"], 1)
    try_usage(["gen", "01"], 1)
    try_usage(["gen", "1", "1"], 2)
    return told("generated_runs")


if __name__ == "__main__":
    sys.exit(main())
