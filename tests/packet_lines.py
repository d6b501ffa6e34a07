#!/usr/bin/env python3
"""Shows packets by the built program's `show`, and packs their lines by its `pack`.

Packets stand byte by byte, as the tables of the wire format give them. The script ends with 1 on any mismatch.
"""

import os
import sys
import tempfile

from support.program import built, check, run, told

SYNC = "00000006 00000008 00000007 00000000 00000000 00000000000003e8"
HELLO = "00000001 00000018 00000000 00000000 00000000 0004 0003 00000020 0003 0000 00000001 00000002 00000003"
OLD_READ = "00000003 00000026 00000001 00000000 00000000 0000000000000064 0000000000000000 0000000000000008 00000004 00000000 00000004 0000"
OLD_READ_ANSWER = "00000003 0000002a 00000001 00000002 00000000 0000000000000064 0000000000000000 0000000000000008 00000004 00000000 00000004 0000 2a000000"
# an extended write of 4 bytes with 4 enables: its header behind the length, its fields, and where its data and enables stand
WRITE_HEAD = "00000001 00000000 00000000 0000000000000002 0000000000000004 0000000000000000 00000004 00000000 00000004 0000 0000 00000000"
WRITE = f"00000004 00000044 {WRITE_HEAD} 00000050 00000000 00000054 00000004 41000000 ffff0000"
HELLO_LINE = "hello 0 0 0 4 3 1 2 3"
WRITE_LINE = "write 1 0 0 2 0x4 0x0 4 0 4 0 41000000 ffff0000"

# canonical packets and their lines
CANONICAL = [
    (SYNC, "sync 7 0 0 1000"),
    (HELLO, HELLO_LINE),
    (OLD_READ, "read 1 0 0 100 0x0 0x8 4 0 4 0 - -"),
    (OLD_READ_ANSWER, "read 1 2 0 100 0x0 0x8 4 0 4 0 2a000000 -"),
    (WRITE, WRITE_LINE),
    ("00000005 00000015 00000001 00000000 00000000 0000000000000005 0000000000000000 00000000 01", "interrupt 1 0 0 5 0 0 1"),
    ("00000005 00000015 00000001 00000000 00000000 00000000000003e8 0000000000000005 00000002 01", "interrupt 1 0 0 1000 5 2 1"),
    ("00000000 00000000 ffffffff 00000001 00000002", "nop 4294967295 1 2"),
    ("00000002 00000005 00000000 00000000 00000000 00000003 ff", "cfg 0 0 0 3 255"),
    ("00000002 00000005 00000000 00000000 00000000 00000100 07", "cfg 0 0 0 256 7"),
    # a read whose numbers are the greatest, in the extended layout
    (
        f"00000003 0000003c 00000000 00000000 00000000 {'ff' * 44} 00000050 00000000 00000000 00000000",
        "read 0 0 0 18446744073709551615 0xffffffffffffffff 0xffffffffffffffff 4294967295 4294967295 4294967295 18446744073709551615 - -",
    ),
]

# other spellings, their lines, and the canonical spelling of what they mean
LOOSE = [
    # four unused bytes before the capabilities
    ("00000001 0000001c 00000000 00000000 00000000 0004 0003 00000024 0003 0000 00000000 00000001 00000002 00000003", HELLO_LINE, HELLO),
    # bytes that mean nothing before two capabilities
    (
        "00000001 00000018 00000000 00000000 00000000 0004 0003 00000024 0002 0000 aaaaaaaa 00000001 00000003",
        "hello 0 0 0 4 3 1 3",
        "00000001 00000014 00000000 00000000 00000000 0004 0003 00000020 0002 0000 00000001 00000003",
    ),
    # enables before the data
    (f"00000004 00000048 {WRITE_HEAD} 00000058 00000000 00000054 00000004 00000000 ffff0000 41000000", WRITE_LINE, WRITE),
    # the longest nop, whose bytes mean nothing
    ("00000000 00010000 00000000 00000000 00000000" + "aa" * 65536, "nop 0 0 0", "00" * 20),
]

# packets that are refused, with the place and the cause
REFUSED = [
    # enables on the last byte of the data
    (f"00000004 00000044 {WRITE_HEAD} 00000050 00000000 00000053 00000004 41000000 ffff0000", "72 EnableRange 83 4"),
    ("00000001 00000010 00000000 00000000 00000000 0004 0003 ffffffff 0001 0000 00000001", "24 CapsRange 4294967295 1"),
    # a body that ends before its attributes do
    ("00000003 00000008 00000001 00000000 00000000 0000000000000064", "4 Length 38 8"),
    ("00000002 00000004 00000000 00000000 00000000 00000100", "4 Length 5 4"),
    ("00000007 ffffffff 00000000 00000000 00000000", "0 Translation 7"),
    ("00000009 00000000 00000000 00000000 00000000", "0 Command 9"),
    ("00000000 00010001 00000000 00000000 00000000", "4 TooLong 65537"),
]

# lines of no packet
NO_LINES = [
    # nothing, a name alone, an unknown one, and a name in upper case
    "",
    "nop",
    "null 0 0 0",
    "Sync 7 0 0 1000",
    # blanks at the front, at the end and twice, a tab, a word too few and one too many
    " sync 7 0 0 1000",
    "sync 7 0 0 1000 ",
    "sync 7  0 0 1000",
    "sync 7\t0 0 1000",
    "sync 7 0 0",
    "sync 7 0 0 1000 0",
    # the mark of a loose spelling
    "hello 0 0 0 4 3 1 2 3 loose",
    # a sign, a leading zero, another radix, and numbers above their fields
    "sync +7 0 0 1000",
    "sync 07 0 0 1000",
    "sync 0x7 0 0 1000",
    "sync 4294967296 0 0 1000",
    "sync 7 0 0 18446744073709551616",
    "cfg 0 0 0 3 256",
    "hello 0 0 0 65536 3",
    # attributes in decimal, with a leading zero, in upper case and too large
    "read 1 0 0 100 0 0x8 4 0 4 0 - -",
    "read 1 0 0 100 0x00 0x8 4 0 4 0 - -",
    "read 1 0 0 100 0x0 0xA 4 0 4 0 - -",
    "read 1 0 0 100 0x0 0x 4 0 4 0 - -",
    "read 1 0 0 100 0x0 0x10000000000000000 4 0 4 0 - -",
    # data that aren't there, digits in upper case, half a byte, no digit, and no enables
    "write 1 0 0 2 0x4 0x0 4 0 4 0 - -",
    "write 1 0 0 2 0x4 0x0 4 0 4 0 4100000A -",
    "write 1 0 0 2 0x4 0x0 4 0 4 0 4100000 -",
    "write 1 0 0 2 0x4 0x0 4 0 4 0 4100000g -",
    "write 1 0 0 2 0x4 0x0 4 0 4 0 41000000",
    # data that aren't as many as are carried, enables and a wide master in the old layout
    "read 1 0 0 100 0x0 0x8 4 0 4 0 2a000000 -",
    "write 1 0 0 2 0x0 0x0 4 0 4 0 41000000 ff",
    "read 1 0 0 2 0x0 0x0 4 0 4 65536 - -",
]


def ended(folder, command, content):
    """What a command of one file comes to: its status, and what it printed on standard output and error."""
    path = os.path.join(folder, "file")
    with open(path, "wb") as file:
        file.write(content)
    process = run([command, path])
    return process.returncode, process.stdout, process.stderr


def written(digits):
    return bytes.fromhex(digits)


def shown(folder):
    for digits, line in CANONICAL:
        check(line, "what is shown", ended(folder, "show", written(digits)), (0, f"{line}\n".encode(), b""))
        check(line, "what is packed", ended(folder, "pack", line.encode()), (0, written(digits), b""))
    for digits, line, canonical in LOOSE:
        check(line, "what is shown of a loose spelling", ended(folder, "show", written(digits)), (0, f"{line} loose\n".encode(), b""))
        check(line, "the canonical spelling", ended(folder, "pack", line.encode()), (0, written(canonical), b""))


def joined(folder):
    """Packets in one stream have their lines one after the other, each behind those before it."""
    digits, lines = zip(*CANONICAL)
    stream, text = written("".join(digits)), "".join(f"{line}\n" for line in lines).encode()
    check("all packets", "what is shown", ended(folder, "show", stream), (0, text, b""))
    check("all packets", "what is packed", ended(folder, "pack", text), (0, stream, b""))
    for cut in [1, 19, 20, 37]:
        told_of = f"cosim: input: Truncated 28 {cut}\n".encode()
        check("a cut stream", "what is shown", ended(folder, "show", (written(SYNC) + written(OLD_READ))[: 28 + cut]), (3, b"sync 7 0 0 1000\n", told_of))


def refused(folder):
    for digits, fault in REFUSED:
        for before in [b"", written(SYNC)]:
            lines = b"sync 7 0 0 1000\n" if before else b""
            told_of = f"cosim: input: Malformed {len(before)} {fault}\n".encode()
            check(fault, "what is shown", ended(folder, "show", before + written(digits)), (3, lines, told_of))
    for line in NO_LINES:
        text = f"sync 7 0 0 1000\n{line}\n".encode()
        check(line, "what is packed", ended(folder, "pack", text), (3, b"", b"cosim: input: Line 2\n"))


def main():
    built()
    with tempfile.TemporaryDirectory() as folder:
        shown(folder)
        joined(folder)
        refused(folder)
    return told("packet_lines")


if __name__ == "__main__":
    sys.exit(main())
