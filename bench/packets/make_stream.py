#!/usr/bin/env python3
"""Writes a stream of mixed packets, of at least the given number of MiB, that is the same at each run."""
import random
import struct
import sys


def header(cmd, body, number, flags=0, dev=0):
    return struct.pack(">5I", cmd, len(body), number, flags, dev) + body


def access(rng, cmd, number, flags, extended):
    carries = (cmd == 4) != bool(flags & 2)
    size = rng.choice((1, 2, 4, 8, 64, 512, 4096))
    data = rng.randbytes(size) if carries else b""
    fields = struct.pack(">QQQIII", number * 7, 4 if extended else 0, 0x80000000 + rng.randrange(1 << 20), size, 0, size)
    if not extended:
        return header(cmd, fields + struct.pack(">H", 0) + data, number, flags)
    enables = rng.choice((b"", b"\xff\x00")) if carries else b""
    place = 80 + len(data) if enables else 0
    tail = struct.pack(">HHIIIII", 0, 0, 0, 80, 0, place, len(enables))
    return header(cmd, fields + tail + data + enables, number, flags)


def packet(rng, number):
    kind = rng.randrange(10)
    if kind == 0:
        return header(6, struct.pack(">Q", number * 7), number, rng.choice((0, 2)))
    if kind == 1:
        return header(5, struct.pack(">QQIB", number * 7, 0, rng.randrange(32), rng.randrange(2)), number, rng.choice((0, 2, 4)))
    if kind == 2:
        return header(2, struct.pack(">IB", rng.randrange(1 << 32), rng.randrange(256)), number)
    if kind == 3:
        return header(0, bytes(rng.choice((0, 3))), number)
    return access(rng, rng.choice((3, 4)), number, rng.choice((0, 2)), rng.random() < 0.7)


def main():
    name, mebibytes = sys.argv[1], int(sys.argv[2])
    rng = random.Random(1)
    hello = struct.pack(">HHIHHIII", 4, 3, 32, 3, 0, 1, 2, 3)
    written, number = 0, 1
    with open(name, "wb") as out:
        written += out.write(header(1, hello, 0))
        while written < mebibytes << 20:
            written += out.write(packet(rng, number))
            number += 1
    print(f"{name}: {number} packets, {written} bytes")


main()
