#!/usr/bin/env python3
"""Runs machines of configurations as ends that exchange packets, `cosim local`, and compares what is printed with `cosim direct`.

The calls and the closing lines are those of `direct`, whatever the order of the steps: that of schedule 0, of a schedule by its number, or
of a file of steps. The link lines are those that a model counts from the calls. Of the steps the model knows how many are turns, and
between which numbers the deliveries lie. The examples and worked machines are run, and a hundred machines that are drawn.
The script ends with 1 on any mismatch.
"""

import os
import random
import re
import shutil
import sys
import tempfile

from memory_runs import COPY, DISK, EXAMPLES, TIMER, drawn_machine
from support.configuration import device, script_machine
from support.machine import written
from support.program import built, check, run, told

DRAWN = 100
SCHEDULES = (0, 1, 2, 4294967295)

# lui x1, 0x10000; addi x2, x0, 65; sw x2, 0(x1); lui x3, 0x100; sw x0, 0(x3); jal x0, 0
ONE_BYTE = bytes.fromhex("b7000010 13011004 23a02000 b7011000 23a00100 6f000000")


def hart_machine(quantum, units):
    return f'[machine]\nkind = "rv32i"\nimage = "i"\nram = 4096\nquantum = {quantum}\nunits = {units}\n'


UART = {"c": hart_machine(100, 1000) + device("uart", 0), "i": ONE_BYTE}
NO_UNITS = {"c": hart_machine(100, 0), "i": ONE_BYTE}
NULLS = {"c": script_machine(0, quantum=5) + device("null", 0) + device("null", 1), "s": ""}
CROSSING = {
    "c": script_machine(100, image="i") + device("dma", 0),
    "i": bytes([1, 2, 3, 4]),
    "s": "write 0 0x0 4 0x80000000\nwrite 0 0x4 4 0x80000100\nwrite 0 0x8 4 0x4\npost 0 0x10 4 0x1\nread 0 0x14 4\n",
}

# worked machines: their files, and the lines behind those of `direct` under schedule 0, where these were worked by hand
WORKED = {
    "a byte over the UART": (UART, ["link p0 out 3 156 back 3 152", "steps 20"]),
    "no units and no ports": (NO_UNITS, ["steps 1"]),
    "two null devices": (NULLS, ["link p0 out 2 72 back 2 72", "link p1 out 2 72 back 2 72", "steps 22"]),
    "a fetch that crosses a read": (CROSSING, ["link p0 out 9 652 back 8 560"]),
    "a timer": (TIMER, ["link p0 out 7 406 back 7 394"]),
    "a disk's transfers": (DISK, []),
    "a timer, a DMA and a null device": (COPY, []),
}

ACCESS = re.compile(r"@\d+ p(\d+) (read|write|post) 0x[0-9a-f]+\+(\d+) = ")
SERVED = re.compile(r"@\d+ p(\d+) (fetch|store) 0x[0-9a-f]+\+(\d+) due \d+ = [0-9a-f]*(?: mask 0x([0-9a-f]+))? code \d+")
LINE = re.compile(r"@\d+ p(\d+) line \d+ = [01] due \d+")
STOP = re.compile(r"stop (?:halted \d+|budget) at (\d+)")


class Link:
    """What the two ends of a port send: packets and bytes, first those to the device. A machine's end offers all capabilities."""

    def __init__(self, settings):
        caps = [int(cap) for cap in re.findall(r"\d", settings.get("caps", "[1, 2, 3]"))]
        self.header = 80 if 1 in caps else 58
        self.are_lines_answered = 3 in caps and settings.get("lines") != '"posted"'
        self.out = [1, 44]
        self.back = [1, 32 + 4 * len(caps)]
        self.posted = 0

    @staticmethod
    def add(sent, size):
        sent[0] += 1
        sent[1] += size

    def boundary(self):
        self.add(self.out, 28)
        self.add(self.back, 28)

    def access(self, word, size):
        self.add(self.out, self.header + (0 if word == "read" else size))
        if word != "post":
            self.add(self.back, self.header + (size if word == "read" else 0))

    def served(self, word, size, mask):
        enables = size if word == "store" and mask != 2**size - 1 else 0
        self.add(self.back, self.header + (size + enables if word == "store" else 0))
        self.add(self.out, self.header + (size if word == "fetch" else 0))

    def line(self):
        self.add(self.back, 41)
        if self.are_lines_answered:
            self.add(self.out, 41)
        else:
            self.posted += 1


def settings_of(config):
    """The quantum, and of each port the keys as they are spelled."""
    tables = [dict(re.findall(r"^(\w+) = (.*)$", table, re.MULTILINE)) for table in config.split("[[port]]")]
    return int(tables[0]["quantum"], 0), tables[1:]


def counted(config, lines):
    """The links that the lines of a run make, and how many turns the run has."""
    quantum, ports = settings_of(config)
    links = [Link(settings) for settings in ports]
    accesses = 0
    for line in lines:
        if found := ACCESS.match(line):
            links[int(found[1])].access(found[2], int(found[3]))
            accesses += 1
        elif found := SERVED.match(line):
            links[int(found[1])].served(found[2], int(found[3]), int(found[4] or "0", 16))
        elif found := LINE.match(line):
            links[int(found[1])].line()
    ticks = next(int(found[1]) for found in map(STOP.match, lines) if found)
    # each multiple of the quantum before the last tick has a boundary, and the end has one
    boundaries = max(ticks - 1, 0) // quantum + 1
    for link in links:
        for _ in range(boundaries):
            link.boundary()
    # A unit without an access, a boundary of a machine without ports, a packet that is sent or taken by the machine's end, one that is
    # taken by a device's end, a posted want that is served, and the hello of a device's end: each is a turn.
    turns = ticks - accesses + (0 if links else boundaries)
    turns += sum(2 * link.out[0] + link.back[0] + link.posted + 1 for link in links)
    return links, turns


def drawn_steps(draw, ports):
    """A list of steps, a line each."""
    def step():
        port, count = draw.randrange(ports), draw.choice((0, 1, 7, 64, 5000))
        return draw.choice(("m", f"d {port}", f"> {port} {count}", f"< {port} {count}"))

    return "".join(step() + "\n" for _ in range(draw.randrange(400)))


def try_order(name, folder, words, lines, model, most):
    """One order of the steps. At most so many of them are deliveries; each end of a link sends something. It gives the lines behind
    those of `direct`."""
    links, turns = model
    ended = run(["local", "c", *words], folder)
    check(name, "the status", (ended.returncode, ended.stderr), (0, b""))
    printed = ended.stdout.decode().splitlines()
    check(name, "the calls and the closing lines", printed[: len(lines)], lines)
    behind = printed[len(lines) :]
    wanted = [f"link p{port} out {link.out[0]} {link.out[1]} back {link.back[0]} {link.back[1]}" for port, link in enumerate(links)]
    check(name, "the link lines", behind[:-1], wanted)
    found = re.fullmatch(r"steps (\d+)", behind[-1]) if behind else None
    check(name, "whether the last line tells steps", found is not None, True)
    if found:
        steps = int(found[1])
        least = 2 * len(links)
        check(name, f"whether {steps} steps are {turns} turns and {least} to {most} deliveries", least <= steps - turns <= most, True)
    return behind


def try_orders(name, folder, schedules, lists, wanted=()):
    """The machine of the configuration `c` under these schedules, and under these lists of steps."""
    direct = run(["direct", "c"], folder)
    check(name, "the status of direct", (direct.returncode, direct.stderr), (0, b""))
    lines = direct.stdout.decode().splitlines()
    with open(os.path.join(folder, "c"), encoding="utf-8") as file:
        model = counted(file.read(), lines)
    packets = sum(link.out[0] + link.back[0] for link in model[0])
    size = sum(link.out[1] + link.back[1] for link in model[0])
    # a delivery of schedule 0 hands over all that was sent
    behind = try_order(f"{name}, no order", folder, [], lines, model, packets)
    check(name, f"whether {wanted} are the first lines behind", behind[: len(wanted)], list(wanted))
    for number in schedules:
        same = try_order(f"{name}, schedule {number}", folder, ["schedule", str(number)], lines, model, size)
        if number == 0:
            check(name, "what schedule 0 prints behind", same, behind)
    for number, steps in enumerate(lists):
        written(folder, {"steps": steps.encode()})
        try_order(f"{name}, steps {number}", folder, ["steps", "steps"], lines, model, size)


def try_files(name, files, seed, wanted=()):
    draw = random.Random(seed)
    with tempfile.TemporaryDirectory() as folder:
        written(folder, {file: content if isinstance(content, bytes) else content.encode() for file, content in files.items()})
        ports = files["c"].count("[[port]]")
        lists = ["", "m\n"] + ([drawn_steps(draw, ports), drawn_steps(draw, ports)] if ports else [])
        try_orders(name, folder, (*SCHEDULES, draw.randrange(2**32)), lists, wanted)


def try_example(name, schedules):
    with tempfile.TemporaryDirectory() as folder:
        for file in os.listdir(os.path.join(EXAMPLES, name)):
            shutil.copy(os.path.join(EXAMPLES, name, file), folder)
        shutil.copy(os.path.join(folder, f"{name}.toml"), os.path.join(folder, "c"))
        assembled = run(["asm", f"{name}.s", f"{name}.bin"], folder)
        check(name, "the status of asm", (assembled.returncode, assembled.stderr), (0, b""))
        try_orders(name, folder, schedules, ["m\nm\n"])


def failing():
    """A file that isn't there, one whose folder takes no file, and an output that is full: a fault of the outside, and nothing is printed."""
    lacking = {**UART}
    del lacking["i"]
    unwritten = {**DISK, "c": DISK["c"].replace('disk = "d"', 'disk = "d"\nresult = "absent/r"')}
    for row, files, line in [
        ("no configuration", {}, b"cosim: outside: files 1\n"),
        ("no image", lacking, b"cosim: outside: files 1\n"),
        ("a result in no folder", unwritten, b"cosim: outside: files 1\n"),
    ]:
        with tempfile.TemporaryDirectory() as folder:
            written(folder, {name: content.encode() if isinstance(content, str) else content for name, content in files.items()})
            done = run(["local", "c"], folder)
            check(row, "the end", (done.returncode, done.stdout, done.stderr), (5, b"", line))
    with tempfile.TemporaryDirectory() as folder, open("/dev/full", "wb") as full:
        written(folder, {name: content.encode() if isinstance(content, str) else content for name, content in UART.items()})
        done = run(["local", "c"], folder, out=full)
        check("a full device", "the end", (done.returncode, done.stderr), (5, b"cosim: outside: out 1\n"))


def main():
    built()
    failing()
    for name, (files, wanted) in WORKED.items():
        try_files(name, files, name, wanted)
    for seed in range(DRAWN):
        try_files(f"machine {seed}", drawn_machine(seed), seed)
    try_example("hello", SCHEDULES)
    try_example("dma_copy", SCHEDULES)
    try_example("echo", ())
    return told("local_runs")


if __name__ == "__main__":
    sys.exit(main())
