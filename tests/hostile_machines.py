#!/usr/bin/env python3
"""Serves the built program, a device process, as machines that break a rule, over real Unix sockets.

Each row is what a machine sends and then closes, what the device has sent by then, and the fault that the program tells. Each is fed
whole, byte by byte and in pieces of seven bytes, where a piece goes out once the program has read the one before it.
The script ends with 1 on any mismatch.
"""

import struct
import sys

from support.configuration import config
from support.machine import ANSWER, CFG, EXTENDED, HELLO, INTERRUPT, NOP, POSTED, READ, RAM, SYNC, WRITE
from support.machine import Machine, access, coded, cut, fed, hello, interrupt, packet, sync, talk
from support.program import built, check, told

MET = hello()
CFG_PACKET = packet(CFG, 1, 0, bytes(5))
OLD = 0
COMPARE, CONTROL = 4, 8


def read(number, at, size=4, attributes=EXTENDED, **fields):
    return access(READ, number, 0, at, 0x100, size, attributes=attributes, **fields)


def write(number, at, flags=0, attributes=EXTENDED, **fields):
    return access(WRITE, number, flags, at, 0x100, 4, bytes(4), attributes=attributes, **fields)


def not_there(number, at, attributes=EXTENDED):
    """What a null device answers to a read of four bytes."""
    return access(READ, number, ANSWER, at, 0x100, 4, bytes(4), attributes=coded(2, attributes))


def bus_body(size=4, data=(80, 0), enables=(0, 0), length=None, attributes=EXTENDED):
    """A body of a write in the extended layout by hand: its number of bytes, and the places of data and enables."""
    fields = struct.pack(">QQQIIIHHIIIII", 0, attributes, 0, size, 0, size, 0, 0, 0, *data, *enables)
    return fields + bytes(length - len(fields) if length else 0)


# what a machine sends before it broke a rule, what the null device answers, and the fault
SESSION = {
    "it says nothing": (b"", b"", "Ended 0"),
    "it says a nop and nothing more": (packet(NOP, 0), b"", "Ended 20"),
    "it begins with a sync": (sync(7, 1000), b"", "HelloMissing 6"),
    "it begins with a read": (read(1, 0), b"", "HelloMissing 3"),
    "it begins with a write": (write(1, 0), b"", "HelloMissing 4"),
    "it begins with an interrupt": (interrupt(1, 0, 0, 1), b"", "HelloMissing 5"),
    "it begins with a cfg": (CFG_PACKET, b"", "HelloMissing 2"),
    "it begins with an answer": (sync(7, 1000, ANSWER), b"", "HelloMissing 6"),
    "it begins with a nop and goes on with a sync": (packet(NOP, 0) + sync(7, 1000), b"", "HelloMissing 6"),
    "it greets twice": (MET + MET, b"", "HelloAgain"),
    "it greets again behind a sync": (MET + sync(7, 1000) + hello(number=8), sync(7, 1000, ANSWER), "HelloAgain"),
    "it greets again in another version": (MET + hello(version=(3, 0)), b"", "HelloAgain"),
    "it has version 3": (hello((), version=(3, 0)), b"", "Version 3"),
    "it has version 5": (hello(version=(5, 3)), b"", "Version 5"),
    "it answers a hello that nobody asked for": (hello(flags=ANSWER), b"", "StrayAnswer 0 1"),
    "it sends a cfg": (MET + CFG_PACKET, b"", "Unsupported 2"),
    "it answers a cfg": (MET + packet(CFG, 1, ANSWER, bytes(5)), b"", "Unsupported 2"),
    "it interrupts a device": (MET + interrupt(1, 0, 0, 1), b"", "Unsupported 5"),
    "it interrupts a device at an earlier time": (MET + sync(1, 9) + interrupt(2, 8, 0, 1), sync(1, 9, ANSWER), "Unsupported 5"),
    "it answers a sync that nobody sent": (MET + sync(7, 1000, ANSWER), b"", "StrayAnswer 7 6"),
    "it answers a read that nobody sent": (MET + access(READ, 1, ANSWER, 0, 0, 4, bytes(4)), b"", "StrayAnswer 1 3"),
    "it answers a write that nobody sent": (MET + access(WRITE, 1, ANSWER, 0, 0, 4), b"", "StrayAnswer 1 4"),
    "it answers an interrupt that nobody sent": (MET + interrupt(0, 0, 0, 1, ANSWER), b"", "StrayAnswer 0 5"),
    "it answers its own sync": (MET + sync(7, 1000) + sync(7, 1000, ANSWER), sync(7, 1000, ANSWER), "StrayAnswer 7 6"),
    "it reads in the extended layout without capability 1": (hello(()) + read(1, 0), b"", "CapMissing 1"),
    "it writes in the extended layout without capability 1": (hello((2, 3)) + write(1, 0), b"", "CapMissing 1"),
    "it posts in the extended layout without capability 1": (hello(()) + write(1, 0, POSTED), b"", "CapMissing 1"),
    "it disables bytes without capability 2": (hello((1, 3)) + write(1, 0, enables=bytes([255, 0])), b"", "CapMissing 2"),
    "it enables all bytes without capability 2": (hello((1,)) + write(1, 0, enables=bytes([255])), b"", "CapMissing 2"),
    "it disables bytes of a read without any": (hello(()) + read(1, 0, enables=bytes([255])), b"", "CapMissing 1"),
    "it lacks capability 1 at an earlier time": (hello(()) + sync(1, 9) + read(2, 8), sync(1, 9, ANSWER), "CapMissing 1"),
    "its syncs go back": (MET + sync(7, 1000) + sync(8, 999), sync(7, 1000, ANSWER), "TimeBackwards 1000 999"),
    "its read is before its sync": (MET + sync(7, 1000) + read(8, 999), sync(7, 1000, ANSWER), "TimeBackwards 1000 999"),
    "its write is before its sync": (MET + sync(7, 1000) + write(8, 0), sync(7, 1000, ANSWER), "TimeBackwards 1000 0"),
    "its posted write is before its sync": (MET + sync(7, 1000) + write(8, 5, POSTED), sync(7, 1000, ANSWER), "TimeBackwards 1000 5"),
    "its sync is before its read": (MET + read(1, 6) + sync(2, 5), not_there(1, 6), "TimeBackwards 6 5"),
    "its sync is before its posted write": (MET + write(1, 6, POSTED) + sync(2, 5), b"", "TimeBackwards 6 5"),
    "its sync is before the greatest time": (MET + sync(1, 2**64 - 1) + sync(2, 0), sync(1, 2**64 - 1, ANSWER), f"TimeBackwards {2**64 - 1} 0"),
    "it goes on behind a fault": (MET + interrupt(1, 0, 0, 1) + sync(2, 5), b"", "Unsupported 5"),
}

# packets that aren't any: their bytes, and the place and cause that are told
MALFORMED = {
    "command 7": (packet(7, 1), "0 Translation 7"),
    "command 8 with a body that is too long": (bytes.fromhex("00000008 ffffffff") + bytes(12), "0 Translation 8"),
    "command 9": (packet(9, 1), "0 Command 9"),
    "the greatest command": (packet(2**32 - 1, 1), f"0 Command {2**32 - 1}"),
    "a body of 65,537 bytes": (bytes.fromhex("00000000 00010001") + bytes(12), "4 TooLong 65537"),
    "the longest body": (bytes.fromhex("00000003 ffffffff") + bytes(12), f"4 TooLong {2**32 - 1}"),
    "a hello without a version": (packet(HELLO, 0, 0, bytes(3)), "4 Length 4 3"),
    "a hello whose capabilities begin in its fields": (packet(HELLO, 0, 0, struct.pack(">HHIHHI", 4, 3, 31, 1, 0, 1)), "24 CapsRange 31 1"),
    "a hello that lacks a capability": (packet(HELLO, 0, 0, struct.pack(">HHIHHI", 4, 3, 32, 2, 0, 1)), "24 CapsRange 32 2"),
    "a short cfg": (packet(CFG, 1, 0, bytes(4)), "4 Length 5 4"),
    "a short interrupt": (packet(INTERRUPT, 1, 0, bytes(20)), "4 Length 21 20"),
    "a short sync": (packet(SYNC, 1, 0, bytes(7)), "4 Length 8 7"),
    "an empty read": (packet(READ, 1), "4 Length 38 0"),
    "a read that ends before the extended fields": (packet(READ, 1, 0, bus_body()[:59]), "4 Length 60 59"),
    "an old write that ends within its data": (packet(WRITE, 1, 0, bus_body(8, attributes=OLD)[:45]), "4 Length 46 45"),
    "an old answer that ends within its data": (packet(READ, 1, ANSWER, bus_body(8, attributes=OLD)[:40]), "4 Length 46 40"),
    "data in the fields": (packet(WRITE, 1, 0, bus_body(data=(79, 0), length=64)), "64 DataRange 79 4"),
    "data that pass the packet": (packet(WRITE, 1, 0, bus_body(data=(81, 0), length=64)), "64 DataRange 81 4"),
    "data whose end isn't a number of four bytes": (packet(WRITE, 1, 0, bus_body(data=(2**32 - 1, 0), length=64)), f"64 DataRange {2**32 - 1} 4"),
    "enables that pass the packet": (packet(READ, 1, 0, bus_body(enables=(80, 5), length=64)), "72 EnableRange 80 5"),
    "enables on the data": (packet(WRITE, 1, 0, bus_body(enables=(83, 1), length=64)), "72 EnableRange 83 1"),
}

# streams that end within a packet, what the null device answers, where the packet begins, and how much of it came
TRUNCATED = {
    "within the first header": (MET[:19], b"", "0 19"),
    "within the first body": (MET[:43], b"", "0 43"),
    "behind a header": (MET + sync(7, 1000)[:20], b"", "44 20"),
    "within a sync": (MET + sync(7, 1000)[:27], b"", "44 27"),
    "within a packet behind another": (MET + sync(7, 1000) + read(8, 1000)[:1], sync(7, 1000, ANSWER), "72 1"),
    "within a second hello": (MET + MET[:43], b"", "44 43"),
}

# Behind these a timer on line 3 asks for its level at tick 5, and the sync at 10 is open until that is answered.
SET = MET + access(WRITE, 1, 0, 0, CONTROL, 4, b"\1\0\0\0") + access(WRITE, 2, 0, 1, COMPARE, 4, b"\5\0\0\0") + sync(3, 10)
SET_SENT = access(WRITE, 1, ANSWER, 0, CONTROL, 4) + access(WRITE, 2, ANSWER, 1, COMPARE, 4) + interrupt(1, 5, 3, 1)
LEVEL = interrupt(1, 5, 3, 1, ANSWER)

TIMER = {
    "its level isn't answered": (SET, SET_SENT, f"Ended {len(SET)}"),
    "a nop in place of an answer": (SET + packet(NOP, 1, ANSWER), SET_SENT, f"Ended {len(SET) + 20}"),
    "half an answer": (SET + LEVEL[:30], SET_SENT, f"Truncated {len(SET)} 30"),
    "another number is answered": (SET + interrupt(2, 5, 3, 1, ANSWER), SET_SENT, "StrayAnswer 2 5"),
    "another command is answered": (SET + access(WRITE, 1, ANSWER, 5, 3, 4), SET_SENT, "StrayAnswer 1 4"),
    "a sync of that number is answered": (SET + sync(1, 5, ANSWER), SET_SENT, "StrayAnswer 1 6"),
    "it is answered twice": (SET + LEVEL + LEVEL, SET_SENT + sync(3, 10, ANSWER), "StrayAnswer 1 5"),
    "a second sync is sent": (SET + sync(4, 10), SET_SENT, "SecondRequest 4"),
    "a second sync of the same number is sent": (SET + sync(3, 11), SET_SENT, "SecondRequest 3"),
    "an earlier sync is sent": (SET + sync(4, 9), SET_SENT, "TimeBackwards 10 9"),
    "an earlier read is sent": (SET + access(READ, 4, 0, 9, 0, 4), SET_SENT, "TimeBackwards 10 9"),
    "a request is sent as its answer": (SET + interrupt(1, 5, 3, 1), SET_SENT, "Unsupported 5"),
}

# A DMA at port 3 that is told to copy 64 bytes asks for them first.
PORTS = {"c": config(("null", ""), ("timer", "line = 1"), ("null", ""), ("dma", 'line = 2\nsocket = "s"'))}
SETTINGS = [(0, RAM), (4, RAM + 64), (8, 64), (16, 1)]
COPY = MET + b"".join(access(WRITE, 1 + at, 0, at, addr, 4, value.to_bytes(4, "little")) for at, (addr, value) in enumerate(SETTINGS))
COPY_SENT = b"".join(access(WRITE, 1 + at, ANSWER, at, addr, 4) for at, (addr, _) in enumerate(SETTINGS)) + access(READ, 1, 0, 3, RAM, 64)
FETCHED = access(READ, 1, ANSWER, 3, RAM, 64, bytes(64))
STORE = access(WRITE, 2, 0, 3, RAM + 64, 64, bytes(64))

DMA = {
    "it has no capability": (hello(()), b"", "CapMissing 1"),
    "it lacks capability 1": (hello((2, 3)), b"", "CapMissing 1"),
    "it lacks capability 2": (hello((1, 3)), b"", "CapMissing 2"),
    "it has another version and no capability": (hello((), version=(5, 0)), b"", "Version 5"),
    "fewer bytes are answered": (COPY + access(READ, 1, ANSWER, 3, RAM, 63, bytes(63)), COPY_SENT, "WrongAnswer 1 64 63"),
    "more bytes are answered": (COPY + access(READ, 1, ANSWER, 3, RAM, 65, bytes(65)), COPY_SENT, "WrongAnswer 1 64 65"),
    "no bytes are answered": (COPY + access(READ, 1, ANSWER, 3, RAM, 0), COPY_SENT, "WrongAnswer 1 64 0"),
    "the read is answered as a write": (COPY + access(WRITE, 1, ANSWER, 3, RAM, 64), COPY_SENT, "StrayAnswer 1 4"),
    "the read is answered twice": (COPY + FETCHED + FETCHED, COPY_SENT + STORE, "StrayAnswer 1 3"),
    "the write is answered as a read": (COPY + FETCHED + access(READ, 2, ANSWER, 3, RAM, 64, bytes(64)), COPY_SENT + STORE, "StrayAnswer 2 3"),
    "the read isn't answered": (COPY, COPY_SENT, f"Ended {len(COPY)}"),
    "the write isn't answered": (COPY + FETCHED, COPY_SENT + STORE, f"Ended {len(COPY + FETCHED)}"),
    "half of the read's answer": (COPY + FETCHED[:90], COPY_SENT, f"Truncated {len(COPY)} 90"),
    "a malformed answer": (COPY + packet(READ, 1, ANSWER, bus_body(64)[:60]), COPY_SENT, f"Malformed {len(COPY)} 64 DataRange 80 64"),
}


def try_row(row, words, stream, sent, fault, port=0, files=None):
    """The device sends its hello, and then this."""
    for pieces in ("whole", 1, 7):
        name = f"{' '.join(words)}, {row}, {pieces}"

        def part(link):
            machine = Machine(link)
            fed(link, [stream] if pieces == "whole" else cut(stream, pieces))
            machine.rest()
            check(name, "what was sent", machine.received.hex(), (MET + sent).hex())

        talk(name, words, part, 4, f"cosim: peer p{port}: {fault}\n", files)


def main():
    built()
    for row, (stream, sent, fault) in SESSION.items():
        try_row(row, ["null"], stream, sent, fault)
    for row, (spelled, fault) in MALFORMED.items():
        try_row(row, ["null"], spelled, b"", f"Malformed 0 {fault}")
        try_row(row, ["null"], MET + sync(7, 1000) + spelled, sync(7, 1000, ANSWER), f"Malformed 72 {fault}")
    for row, (stream, sent, fault) in TRUNCATED.items():
        try_row(row, ["null"], stream, sent, f"Truncated {fault}")
    for row, (stream, sent, fault) in TIMER.items():
        try_row(row, ["timer", "3"], stream, sent, fault)
    for row, (stream, sent, fault) in DMA.items():
        try_row(row, ["c", "3"], stream, sent, fault, 3, PORTS)
    return told("hostile_machines")


if __name__ == "__main__":
    sys.exit(main())
