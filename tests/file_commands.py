#!/usr/bin/env python3
"""Starts the built program as a process for the commands over files, on real files.

Every row compares the status, what was written on standard output and error, and what is in the file that `asm` writes.
The script ends with 1 on any mismatch.
"""

import os
import sys
import tempfile

from support.program import built, check, run, told

# a hello with number 0, version 4.3 and the capabilities 1, 2 and 3, a sync request with number 7 at tick 1000, and their lines
HELLO = bytes.fromhex("00000001 00000018 00000000 00000000 00000000 0004 0003 00000020 0003 0000 00000001 00000002 00000003")
SYNC = bytes.fromhex("00000006 00000008 00000007 00000000 00000000 00000000000003e8")
HELLO_LINE = b"hello 0 0 0 4 3 1 2 3\n"
SYNC_LINE = b"sync 7 0 0 1000\n"
# a header of a command that is reserved
BAD_HEADER = bytes.fromhex("00000007 ffffffff 00000000 00000000 00000000")

MACHINE = """[machine]
kind = "rv32i"
image = "firmware"
ram = 4096
quantum = 100
units = 1000
"""
UART = b"""[[port]]
kind = "uart"
base = 0x10000000
size = 4096
line = 1
"""
RUN = b"""@2 p0 write 0x0+4 = 0x41 code 0
stop halted 0 at 5
pc 80000014
regs 10000000 00000041 00100000 %s
lines 00000000
ram c7eceb3c4f2890dd27340f3357ffa3d26ec0842a718a9ceb0dc424797e511d88
out p0 41
""" % b" ".join([b"00000000"] * 28)

FILES = {
    "stream": HELLO + SYNC,
    "cut": HELLO + SYNC[:27],
    "refused": HELLO + BAD_HEADER,
    "empty": b"",
    "text": HELLO_LINE + SYNC_LINE,
    "no text": HELLO_LINE + b"Sync 7 0 0 1000\n",
    "no utf8": b"\xff\n",
    # lines that are those of no packet: enables and a wide master in the old layout, a blank, nothing, a carriage return
    "old enables": b"write 1 0 0 2 0x0 0x0 4 0 4 0 41000000 ff",
    "old and wide": b"read 1 0 0 2 0x0 0x0 4 0 4 65536 - -\n",
    "a blank": SYNC_LINE + b"sync 7 0 0 1000 \nsync\n",
    "an empty line": SYNC_LINE + SYNC_LINE + b"\n",
    "a return": b"sync 7 0 0 1000\r\n",
    "no utf8 later": SYNC_LINE + b"\xff\n",
    "no last feed": b"sync 7 0 0 1000",
    # the longest nop, and one that is longer
    "longest": bytes.fromhex("00000000 00010000 00000000 00000000 00000000") + bytes(65536),
    "too long": bytes.fromhex("00000000 00010001 00000000 00000000 00000000"),
    "code": b"start: addi x1, x0, 5\n       jal x0, start\n",
    "no code": b"start: addi x1, x0, 5\nstart: ecall\n",
    "image": bytes.fromhex("93005000 6ff0dfff"),
    "five bytes": bytes(5),
    # a firmware that stores a byte into a UART and stops, its machine, and configurations that are refused
    "firmware": bytes.fromhex("b7000010 13011004 23a02000 b7011000 23a00100 6f000000"),
    "machine": MACHINE.encode() + UART,
    "no quantum": MACHINE.replace("quantum = 100", "quantum = 0").encode(),
    "no image": MACHINE.replace("firmware", "absent").encode(),
    "empty image": MACHINE.replace("firmware", "empty").encode(),
    "no toml": b"[machine",
}

# words, status, standard output, standard error
ROWS = [
    (["show", "stream"], 0, HELLO_LINE + SYNC_LINE, b""),
    (["show", "empty"], 0, b"", b""),
    (["show", "cut"], 3, HELLO_LINE, b"cosim: input: Truncated 44 27\n"),
    (["show", "refused"], 3, HELLO_LINE, b"cosim: input: Malformed 44 0 Translation 7\n"),
    (["show", "absent"], 5, b"", b"cosim: outside: files 1\n"),
    (["show", "."], 5, b"", b"cosim: outside: files 1\n"),
    (["pack", "text"], 0, HELLO + SYNC, b""),
    (["pack", "empty"], 0, b"", b""),
    (["pack", "no text"], 3, b"", b"cosim: input: Line 2\n"),
    (["pack", "no utf8"], 3, b"", b"cosim: input: Line 1\n"),
    (["pack", "absent"], 5, b"", b"cosim: outside: files 1\n"),
    (["pack", "old enables"], 3, b"", b"cosim: input: Line 1\n"),
    (["pack", "old and wide"], 3, b"", b"cosim: input: Line 1\n"),
    (["pack", "a blank"], 3, b"", b"cosim: input: Line 2\n"),
    (["pack", "an empty line"], 3, b"", b"cosim: input: Line 3\n"),
    (["pack", "a return"], 3, b"", b"cosim: input: Line 1\n"),
    (["pack", "no utf8 later"], 3, b"", b"cosim: input: Line 1\n"),
    (["pack", "no last feed"], 0, SYNC, b""),
    (["show", "longest"], 0, b"nop 0 0 0 loose\n", b""),
    (["show", "too long"], 3, b"", b"cosim: input: Malformed 0 4 TooLong 65537\n"),
    (["asm", "no code", "refused image"], 3, b"", b"cosim: input: Assembly 2 Twice\n"),
    (["asm", "no utf8", "refused image"], 3, b"", b"cosim: input: Assembly 1 Syntax\n"),
    (["asm", "code", "nowhere/out"], 5, b"", b"cosim: outside: files 1\n"),
    (["asm", "code", "out"], 0, b"", b""),
    (["dis", "out"], 0, b"addi x1, x0, 5\njal x0, -4\n", b""),
    (["dis", "empty"], 0, b"", b""),
    (["dis", "five bytes"], 3, b"", b"cosim: input: Words 5\n"),
    (["dis", "absent"], 5, b"", b"cosim: outside: files 1\n"),
    (["direct", "machine"], 0, RUN, b""),
    (["direct", "no quantum"], 2, b"", b"cosim: config: Range machine quantum 0\n"),
    (["direct", "no toml"], 2, b"", b"cosim: config: Text\n"),
    (["direct", "empty image"], 3, b"", b"cosim: input: ImageEmpty\n"),
    (["direct", "no image"], 5, b"", b"cosim: outside: files 1\n"),
    (["direct", "absent"], 5, b"", b"cosim: outside: files 1\n"),
    (["show"], 1, b"", b"cosim: usage at word 1\n"),
    (["asm", "code"], 1, b"", b"cosim: usage at word 2\n"),
    (["help", "dis"], 1, b"", b"cosim: usage at word 1\n"),
    (["show", b"\xff"], 1, b"", b"cosim: usage at word 1\n"),
]

# words whose text goes to a full device
FULL = [["show", "stream"], ["pack", "text"], ["dis", "image"], ["direct", "machine"], ["help"]]


def rows(folder):
    for words, status, text, line in ROWS:
        ended = run(words, folder)
        check(words, "the status", ended.returncode, status)
        check(words, "standard output", ended.stdout, text)
        check(words, "standard error", ended.stderr, line)
    with open(os.path.join(folder, "out"), "rb") as image:
        check("asm", "the image", image.read(), FILES["image"])
    check("asm", "the image of a refused text is there", os.path.exists(os.path.join(folder, "refused image")), False)


def full(folder):
    """Output to a full device is a fault of standard output: nothing swallows it."""
    for words in FULL:
        with open("/dev/full", "wb") as device:
            ended = run(words, folder, device)
        check(words, "the status on a full device", ended.returncode, 5)
        check(words, "standard error on a full device", ended.stderr, b"cosim: outside: out 1\n")


def help_text(folder):
    ended = run(["help"], folder)
    check("help", "the status", ended.returncode, 0)
    lines = ended.stdout.decode().splitlines()
    check("help", "the number of lines", len(lines), 18)
    check("help", "the first line", lines[0], "direct CONFIG")
    check("help", "the last line", lines[-1], "resume CONFIG FILE")


def main():
    built()
    with tempfile.TemporaryDirectory() as folder:
        for name, content in FILES.items():
            with open(os.path.join(folder, name), "wb") as file:
                file.write(content)
        rows(folder)
        full(folder)
        help_text(folder)
    return told("file_commands")


if __name__ == "__main__":
    sys.exit(main())
