#!/usr/bin/env python3
"""Runs firmware and scripts by the built program, `cosim direct`, as a process on real files.

Every example prints what its file says; every row compares the status, standard output and standard error.
The script ends with 1 on any mismatch.
"""

import hashlib
import os
import shutil
import sys
import tempfile

from support.program import TOP, built, check, run, told

EXAMPLES = os.path.join(TOP, "examples")

# lui x1, 0x10000; addi x2, x0, 65; sw x2, 0(x1); lui x3, 0x100; sw x0, 0(x3); jal x0, 0
ONE_BYTE = bytes.fromhex("b7000010 13011004 23a02000 b7011000 23a00100 6f000000")
# lui x1, 0x100; addi x2, x0, 7; sw x2, 0(x1)
HALTS = bytes.fromhex("b7001000 13017000 23a02000")
# jalr x0, 2(x0)
TRAPS = bytes.fromhex("67002000")
COPIED = bytes([1, 2, 3, 4])
SECTOR = bytes(range(256)) * 2


def registers(**values):
    return "regs " + " ".join(f"{values.get(f'x{n}', 0):08x}" for n in range(1, 32))


def ram(image, size):
    return "ram " + hashlib.sha256(image + bytes(size - len(image))).hexdigest()


def machine(kind, quantum, units, size=4096, **files):
    lines = ["[machine]", f'kind = "{kind}"', f"ram = {size}", f"quantum = {quantum}", f"units = {units}"]
    return "\n".join(lines + [f'{key} = "{name}"' for key, name in files.items()]) + "\n"


def port(kind, base, line, **files):
    lines = ["[[port]]", f'kind = "{kind}"', f"base = {base}", "size = 4096", f"line = {line}"]
    return "\n".join(lines + [f'{key} = "{name}"' for key, name in files.items()]) + "\n"


ONE_BYTE_LINES = ["@2 p0 write 0x0+4 = 0x41 code 0", "stop halted 0 at 5", "pc 80000014", registers(x1=0x10000000, x2=0x41, x3=0x100000), "lines 00000000"]

# the files of a row, status, lines on standard output, the line on standard error
ROWS = {
    "a byte over the UART": (
        {"c": machine("rv32i", 100, 1000, image="i") + port("uart", 0x10000000, 1), "i": ONE_BYTE},
        0, ONE_BYTE_LINES + [ram(ONE_BYTE, 4096), "out p0 41"], "",
    ),
    "the largest RAM": (
        {"c": machine("rv32i", 100, 1000, size=67108864, image="i") + port("uart", 0x10000000, 1), "i": ONE_BYTE},
        0, ONE_BYTE_LINES + [ram(ONE_BYTE, 67108864), "out p0 41"], "",
    ),
    "no units": (
        {"c": machine("rv32i", 100, 0, image="i"), "i": ONE_BYTE},
        0, ["stop budget at 0", "pc 80000000", registers(), "lines 00000000", ram(ONE_BYTE, 4096)], "",
    ),
    "a machine that halts with a code": (
        {"c": machine("rv32i", 4, 10, image="i"), "i": HALTS},
        0, ["stop halted 7 at 3", "pc 8000000c", registers(x1=0x100000, x2=7), "lines 00000000", ram(HALTS, 4096)], "",
    ),
    "two traps": (
        {"c": machine("rv32i", 100, 2, image="i"), "i": TRAPS},
        0, ["stop budget at 2", "pc 00000000", registers(), "lines 00000000", ram(TRAPS, 4096)], "",
    ),
    "a fetch that crosses a read": (
        {
            "c": machine("script", 10, 100, image="i", script="s") + port("dma", 0x10000000, 0),
            "i": COPIED,
            "s": "write 0 0x0 4 0x80000000\nwrite 0 0x4 4 0x80000100\nwrite 0 0x8 4 0x4\npost 0 0x10 4 0x1\nread 0 0x14 4\n",
        },
        0,
        [
            "@0 p0 write 0x0+4 = 0x80000000 code 0", "@1 p0 write 0x4+4 = 0x80000100 code 0", "@2 p0 write 0x8+4 = 0x4 code 0",
            "@3 p0 post 0x10+4 = 0x1", "@4 p0 read 0x14+4 = 0x1 code 0", "@5 p0 fetch 0x80000000+4 due 3 = 01020304 code 0",
            "@5 p0 store 0x80000100+4 due 5 = 01020304 mask 0xf code 0", "stop halted 0 at 5", "lines 00000000",
            ram(COPIED + bytes(252) + COPIED, 4096),
        ],
        "",
    ),
    "a copy that ends at the end of RAM": (
        {
            "c": machine("script", 10, 100, image="i", script="s") + port("dma", 0x10000000, 0),
            "i": bytes(0xFC0) + bytes([7]) * 64,
            "s": "write 0 0x0 4 0x80000fc0\nwrite 0 0x4 4 0x80000100\nwrite 0 0x8 4 0x82\nwrite 0 0x10 4 0x1\nwait 6\nread 0 0x14 4\n",
        },
        0,
        [
            "@0 p0 write 0x0+4 = 0x80000fc0 code 0", "@1 p0 write 0x4+4 = 0x80000100 code 0", "@2 p0 write 0x8+4 = 0x82 code 0",
            "@3 p0 write 0x10+4 = 0x1 code 0", f"@10 p0 fetch 0x80000fc0+64 due 3 = {'07' * 64} code 0",
            f"@10 p0 store 0x80000100+64 due 10 = {'07' * 64} mask 0xffffffffffffffff code 0",
            f"@10 p0 fetch 0x80001000+64 due 10 = {'00' * 64} code 2", "@10 p0 read 0x14+4 = 0x6 code 0", "stop halted 0 at 11",
            "lines 00000000", ram(bytes(256) + bytes([7]) * 64 + bytes(0xFC0 - 320) + bytes([7]) * 64, 4096),
        ],
        "",
    ),
    "a level that rises and falls": (
        {
            "c": machine("script", 10, 100, script="s") + port("timer", 0x10000000, 0),
            "s": "# a timer's script\nwrite 0 0x4 4 0x5\nwrite 0 0x8 4 0x1\nwait 6\n\nwrite 0 0x4 4 0x64\nwait 1\n",
        },
        0,
        [
            "@0 p0 write 0x4+4 = 0x5 code 0", "@1 p0 write 0x8+4 = 0x1 code 0", "@8 p0 write 0x4+4 = 0x64 code 0",
            "@10 p0 line 0 = 1 due 5", "@10 p0 line 0 = 0 due 10", "stop halted 0 at 10", "lines 00000000", ram(b"", 4096),
        ],
        "",
    ),
    "the earlier want before the lower port's": (
        {
            "c": machine("script", 10, 100, script="s") + port("timer", 0x10000000, 0) + port("timer", 0x10001000, 1),
            "s": "write 0 0x4 4 0x7\nwrite 0 0x8 4 0x1\nwrite 1 0x4 4 0x5\nwrite 1 0x8 4 0x1\nwait 6\n",
        },
        0,
        [
            "@0 p0 write 0x4+4 = 0x7 code 0", "@1 p0 write 0x8+4 = 0x1 code 0", "@2 p1 write 0x4+4 = 0x5 code 0", "@3 p1 write 0x8+4 = 0x1 code 0",
            "@10 p1 line 1 = 1 due 5", "@10 p0 line 0 = 1 due 7", "stop halted 0 at 10", "lines 00000003", ram(b"", 4096),
        ],
        "",
    ),
    "a disk with a bad sector": (
        {
            "c": machine("script", 10, 100, script="s") + port("disk", 0x10000000, 0, disk="d") + "bad = [1]\n",
            "d": bytes([0x11]) * 512 + bytes([0x22]) * 512,
            "s": "write 0 0x0 4 0x0\nwrite 0 0x4 4 0x2\nwrite 0 0x8 4 0x80000000\nwrite 0 0xc 4 0x1\nread 0 0x10 4\nwait 5\nread 0 0x10 4\n",
        },
        0,
        ["@0 p0 write 0x0+4 = 0x0 code 0", "@1 p0 write 0x4+4 = 0x2 code 0", "@2 p0 write 0x8+4 = 0x80000000 code 0", "@3 p0 write 0xc+4 = 0x1 code 0", "@4 p0 read 0x10+4 = 0x1 code 0"]
        + [f"@10 p0 store 0x{0x80000000 + 64 * n:x}+64 due {3 if n == 0 else 10} = {'11' * 64} mask 0xffffffffffffffff code 0" for n in range(8)]
        + ["@10 p0 read 0x10+4 = 0x6 code 0", "stop halted 0 at 11", "lines 00000000", ram(bytes([0x11]) * 512, 4096)],
        "",
    ),
    "starts that a disk refuses": (
        {
            "c": machine("script", 10, 100, script="s") + port("disk", 0x10000000, 0, disk="d") + "bad = [1]\n",
            "d": bytes(1024),
            "s": "write 0 0x4 4 0x0\nwrite 0 0xc 4 0x1\nwrite 0 0x0 4 0x1\nwrite 0 0x4 4 0x2\nwrite 0 0xc 4 0x1\nwrite 0 0x4 4 0x1\nwrite 0 0xc 4 0x1\nread 0 0x10 4\n"
            "write 0 0x0 4 0x0\nwrite 0 0x4 4 0x81\nwrite 0 0xc 4 0x3\nwrite 0 0x0 4 0x1\nwrite 0 0x4 4 0x1\nwrite 0 0xc 4 0x3\nread 0 0x10 4\nread 0 0x14 4\n",
        },
        0,
        [
            "@0 p0 write 0x4+4 = 0x0 code 0", "@1 p0 write 0xc+4 = 0x1 code 1", "@2 p0 write 0x0+4 = 0x1 code 0", "@3 p0 write 0x4+4 = 0x2 code 0",
            "@4 p0 write 0xc+4 = 0x1 code 1", "@5 p0 write 0x4+4 = 0x1 code 0", "@6 p0 write 0xc+4 = 0x1 code 0", "@7 p0 read 0x10+4 = 0x6 code 0",
            "@8 p0 write 0x0+4 = 0x0 code 0", "@9 p0 write 0x4+4 = 0x81 code 0", "@10 p0 write 0xc+4 = 0x3 code 1", "@11 p0 write 0x0+4 = 0x1 code 0",
            "@12 p0 write 0x4+4 = 0x1 code 0", "@13 p0 write 0xc+4 = 0x3 code 0", "@14 p0 read 0x10+4 = 0x6 code 0", "@15 p0 read 0x14+4 = 0x2 code 0",
            "stop halted 0 at 16", "lines 00000000", ram(b"", 4096),
        ],
        "",
    ),
    "a sector taken from RAM and given back": (
        {
            "c": machine("script", 10, 100, image="i", script="s") + port("disk", 0x10000000, 0, disk="d"),
            "i": SECTOR,
            "d": bytes(512),
            "s": "write 0 0x8 4 0x80000000\nwrite 0 0x0 4 0x0\nwrite 0 0x4 4 0x1\nwrite 0 0xc 4 0x3\nwait 6\nwrite 0 0x8 4 0x80000400\nwrite 0 0xc 4 0x1\nwait 8\n",
        },
        0,
        ["@0 p0 write 0x8+4 = 0x80000000 code 0", "@1 p0 write 0x0+4 = 0x0 code 0", "@2 p0 write 0x4+4 = 0x1 code 0", "@3 p0 write 0xc+4 = 0x3 code 0"]
        + [f"@10 p0 fetch 0x{0x80000000 + 64 * n:x}+64 due {3 if n == 0 else 10} = {SECTOR[64 * n : 64 * n + 64].hex()} code 0" for n in range(8)]
        + ["@10 p0 write 0x8+4 = 0x80000400 code 0", "@11 p0 write 0xc+4 = 0x1 code 0"]
        + [f"@20 p0 store 0x{0x80000400 + 64 * n:x}+64 due {11 if n == 0 else 20} = {SECTOR[64 * n : 64 * n + 64].hex()} mask 0xffffffffffffffff code 0" for n in range(8)]
        + ["stop halted 0 at 20", "lines 00000000", ram(SECTOR + bytes(512) + SECTOR, 4096)],
        "",
    ),
    "memory that ends within a sector": (
        {
            "c": machine("script", 10, 100, image="i", script="s") + port("disk", 0x10000000, 0, disk="d"),
            "i": bytes(0xF80) + bytes([0x33]) * 128,
            "d": bytes([0x11]) * 512,
            "s": "write 0 0x8 4 0x80000f80\nwrite 0 0x0 4 0x0\nwrite 0 0x4 4 0x1\nwrite 0 0xc 4 0x7\nwrite 0 0xc 4 0x0\nwait 5\n"
            "read 0 0x10 4\nwrite 0 0x8 4 0x80000000\nwrite 0 0xc 4 0x1\nwrite 0 0x14 4 0x3\nread 0 0x14 4\nwait 5\n",
        },
        0,
        [
            "@0 p0 write 0x8+4 = 0x80000f80 code 0", "@1 p0 write 0x0+4 = 0x0 code 0", "@2 p0 write 0x4+4 = 0x1 code 0",
            "@3 p0 write 0xc+4 = 0x7 code 0", "@4 p0 write 0xc+4 = 0x0 code 1",
            f"@10 p0 fetch 0x80000f80+64 due 3 = {'33' * 64} code 0", f"@10 p0 fetch 0x80000fc0+64 due 10 = {'33' * 64} code 0",
            f"@10 p0 fetch 0x80001000+64 due 10 = {'00' * 64} code 2", "@10 p0 line 0 = 1 due 10", "@10 p0 read 0x10+4 = 0x6 code 0",
            "@11 p0 write 0x8+4 = 0x80000000 code 0", "@12 p0 write 0xc+4 = 0x1 code 0", "@13 p0 write 0x14+4 = 0x3 code 1",
            "@14 p0 read 0x14+4 = 0x1 code 0", "@20 p0 line 0 = 0 due 12",
        ]
        + [f"@20 p0 store 0x{0x80000000 + 64 * n:x}+64 due 20 = {('33' if n < 2 else '11') * 64} mask 0xffffffffffffffff code 0" for n in range(8)]
        + ["stop halted 0 at 20", "lines 00000000", ram(bytes([0x33]) * 128 + bytes([0x11]) * 384 + bytes(0xF80 - 512) + bytes([0x33]) * 128, 4096)],
        "",
    ),
    "a script without a line": (
        {"c": machine("script", 10, 100, script="s"), "s": ""},
        0, ["stop halted 0 at 0", "lines 00000000", ram(b"", 4096)], "",
    ),
    "no configuration": ({}, 5, [], "cosim: outside: files 1\n"),
    "a text that isn't TOML": ({"c": "kind"}, 2, [], "cosim: config: Text\n"),
    "bytes that aren't UTF-8": ({"c": b"\xff"}, 2, [], "cosim: config: Text\n"),
    "an empty configuration": ({"c": ""}, 2, [], "cosim: config: Missing top machine\n"),
    "a quantum of 0": ({"c": machine("rv32i", 0, 1, image="i"), "i": HALTS}, 2, [], "cosim: config: Range machine quantum 0\n"),
    "an absent image": ({"c": machine("rv32i", 1, 1, image="i")}, 5, [], "cosim: outside: files 1\n"),
    "an empty image": ({"c": machine("rv32i", 1, 1, image="i"), "i": b""}, 3, [], "cosim: input: ImageEmpty\n"),
    "an image larger than RAM": ({"c": machine("rv32i", 1, 1, image="i"), "i": bytes(4097)}, 3, [], "cosim: input: ImageTooLarge 4096 4097\n"),
    "a faulty line of a script": ({"c": machine("script", 1, 1, script="s"), "s": "wait 1\nwait 0\n"}, 3, [], "cosim: input: Line 2\n"),
    "a script that isn't UTF-8": ({"c": machine("script", 1, 1, script="s"), "s": b"\xff"}, 3, [], "cosim: input: Line 1\n"),
    "too much input": (
        {"c": machine("rv32i", 1, 1, image="i") + port("uart", 0x10000000, 1, input="u"), "i": HALTS, "u": bytes(65537)},
        3, [], "cosim: input: UartInput 0 65537\n",
    ),
    "a disk image of wrong length": (
        {"c": machine("rv32i", 1, 1, image="i") + port("disk", 0x10000000, 1, disk="d"), "i": HALTS, "d": bytes(700)},
        3, [], "cosim: input: DiskImage 0 700\n",
    ),
}


# lengths and masks of copies from the front of RAM
COPIES = [(1, 0xFFFFFFFF), (64, 0), (65, 0xF0F01234), (65536, 0x80000001)]


def copy_row(length, mask):
    """A DMA's copy of a pattern, chunk by chunk: byte j of it is enabled where bit j mod 32 of the mask is set."""
    image = bytes(place % 251 for place in range(65536))
    after = bytearray(image + bytes(262144 - 65536))
    settings = [(0, 0x80000000), (4, 0x80010000), (8, length), (12, mask), (16, 1)]
    lines = [f"@{tick} p0 write 0x{addr:x}+4 = 0x{value:x} code 0" for tick, (addr, value) in enumerate(settings)]
    for place in range(0, length, 64):
        chunk = image[place : min(place + 64, length)]
        enabled = sum(1 << byte for byte in range(len(chunk)) if mask >> byte % 32 & 1)
        for byte, value in enumerate(chunk):
            if enabled >> byte & 1:
                after[65536 + place + byte] = value
        lines.append(f"@10 p0 fetch 0x{0x80000000 + place:x}+{len(chunk)} due {10 if place else 4} = {chunk.hex()} code 0")
        lines.append(f"@10 p0 store 0x{0x80010000 + place:x}+{len(chunk)} due 10 = {chunk.hex()} mask 0x{enabled:x} code 0")
    lines += ["@10 p0 read 0x14+4 = 0x2 code 0", "stop halted 0 at 11", "lines 00000000", ram(bytes(after), 262144)]
    script = "".join(f"write 0 0x{addr:x} 4 0x{value:x}\n" for addr, value in settings) + "wait 5\nread 0 0x14 4\n"
    files = {"c": machine("script", 10, 100, size=262144, image="i", script="s") + port("dma", 0x10000000, 0), "i": image, "s": script}
    return files, 0, lines, ""


def try_row(row, files, status, lines, error):
    with tempfile.TemporaryDirectory() as folder:
        for name, content in files.items():
            with open(os.path.join(folder, name), "wb") as file:
                file.write(content if isinstance(content, bytes) else content.encode())
        ended = run(["direct", "c"], folder)
        check(row, "the status", ended.returncode, status)
        check(row, "standard output", ended.stdout.decode().splitlines(), lines)
        check(row, "standard error", ended.stderr, error.encode())


def try_example(name):
    """Assembles the example's firmware, runs it, and compares what it prints; of the echo program the closing lines alone."""
    with tempfile.TemporaryDirectory() as folder:
        for file in os.listdir(os.path.join(EXAMPLES, name)):
            shutil.copy(os.path.join(EXAMPLES, name, file), folder)
        assembled = run(["asm", f"{name}.s", f"{name}.bin"], folder)
        check(name, "the status of asm", (assembled.returncode, assembled.stderr), (0, b""))
        ended = run(["direct", f"{name}.toml"], folder)
        with open(os.path.join(folder, f"{name}.out"), encoding="ascii") as file:
            wanted = file.read().splitlines()
        printed = ended.stdout.decode().splitlines()
        if name == "echo":
            printed = [line for line in printed if not line.startswith("@")]
        check(name, "the status", (ended.returncode, ended.stderr), (0, b""))
        check(name, "standard output", printed, wanted)


def try_full_device():
    """Output to a full device is a fault of the output, and no buffer swallows it."""
    if not os.path.exists("/dev/full"):
        return
    with tempfile.TemporaryDirectory() as folder, open("/dev/full", "wb") as full:
        with open(os.path.join(folder, "c"), "w", encoding="ascii") as file:
            file.write(machine("script", 1, 1, script="s"))
        with open(os.path.join(folder, "s"), "w", encoding="ascii") as file:
            file.write("wait 1\n")
        ended = run(["direct", "c"], folder, out=full)
        check("a full device", "the status", (ended.returncode, ended.stderr), (5, b"cosim: outside: out 1\n"))


built()
for row, (files, status, lines, error) in ROWS.items():
    try_row(row, files, status, lines, error)
for length, mask in COPIES:
    try_row(f"a copy of {length} bytes", *copy_row(length, mask))
for name in ["hello", "dma_copy", "echo"]:
    try_example(name)
try_full_device()
sys.exit(told("direct_process"))
