#!/usr/bin/env python3
"""Reads scripts by the built program, `cosim direct`, with two null devices: those that are taken, and the first faulty line of others.

The script ends with 1 on any mismatch.
"""

import os
import sys
import tempfile

from support.program import built, check, run, told

MACHINE = """[machine]
kind = "script"
script = "s"
ram = 4096
quantum = 100
units = 10
[[port]]
kind = "null"
base = 0x10000000
size = 4096
[[port]]
kind = "null"
base = 0x10001000
size = 4096
"""

# texts, and their first faulty line
REFUSED = [
    ("read 0 0x0", 1),
    ("read 0 0x0 4 4", 1),
    ("read 2 0x0 4", 1),
    ("read 0 0x0 3", 1),
    ("read 0 0x10000000000000000 4", 1),
    ("write 0 0x0 1 256", 1),
    ("write 0 0x0 4 0x100000000", 1),
    ("post 0 0x0 4", 1),
    ("Read 0 0x0 4", 1),
    ("read 0 0xA 4", 1),
    ("read 0 0X1 4", 1),
    ("read 0 0x01 4", 1),
    ("read 00 0 4", 1),
    ("read  0 0 4", 1),
    ("read 0 0 4 ", 1),
    (" read 0 0 4", 1),
    ("read\t0 0 4", 1),
    ("read 0 -1 4", 1),
    ("read 0 +1 4", 1),
    ("read 0 01 4", 1),
    ("read 0 0x 4", 1),
    ("read 0 18446744073709551616 4", 1),
    ("wait 0", 1),
    ("wait 1000001", 1),
    ("wait", 1),
    ("jump 1", 1),
    (" # no comment", 1),
    ("wait 1\r\n", 1),
    ("# a comment\n\nwait 1\nwait x\nwait y\n", 4),
]

# texts that are taken, and their calls; a null device refuses every access
TAKEN = [
    ("", []),
    ("\n\n# nothing\n", []),
    ("#\nread 0 0 1\n", ["@0 p0 read 0x0+1 = 0x0 code 2"]),
    ("read 1 0xffffffffffffffff 8", ["@0 p1 read 0xffffffffffffffff+8 = 0x0 code 2"]),
    (
        "write 1 18446744073709551615 8 0xffffffffffffffff\npost 0 0x10 2 65535\nwait 1000000",
        ["@0 p1 write 0xffffffffffffffff+8 = 0xffffffffffffffff code 2", "@1 p0 post 0x10+2 = 0xffff"],
    ),
]


def ended(folder, text):
    """What a machine with this script comes to: its status, the lines of its calls, and its line on standard error."""
    with open(os.path.join(folder, "s"), "w", encoding="ascii", newline="") as file:
        file.write(text)
    process = run(["direct", "c"], folder)
    calls = [line for line in process.stdout.decode().splitlines() if line.startswith("@")]
    return process.returncode, calls, process.stderr.decode()


def main():
    built()
    with tempfile.TemporaryDirectory() as folder:
        with open(os.path.join(folder, "c"), "w", encoding="ascii") as file:
            file.write(MACHINE)
        for text, line in REFUSED:
            check(text, "what is said", ended(folder, text), (3, [], f"cosim: input: Line {line}\n"))
        for text, calls in TAKEN:
            check(text, "what is said", ended(folder, text), (0, calls, ""))
    return told("script_lines")


if __name__ == "__main__":
    sys.exit(main())
