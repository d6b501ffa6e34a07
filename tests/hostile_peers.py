#!/usr/bin/env python3
"""Drives the end of a machine with one port over a link in memory, to peers that break a rule: `memory_run said`.

Each row is what a peer says and then nothing more, how driving the end ends, and what was sent by then; where calls were made, their
number, the ticks, and the front of the memory. Each is fed whole, byte by byte and in pieces of seven bytes, and a further turn answers
the same and sends nothing. The machine reads four bytes at address 0 and stops, where a row names no other script.
The script ends with 1 on any mismatch.
"""

import collections
import os
import struct
import sys
import tempfile

from support.machine import ANSWER, CFG, NOP, POSTED, RAM, READ, WRITE
from support.machine import access, coded, hello, interrupt, packet, sync, written
from support.program import MEMORY_RUN, built, check, run, told

# the attributes of the old layout
OLD = 0

MET = hello()
BARE = hello(())

# what the machine sends: 44 bytes, and with the read, or with a sync in its place, 124, 102 in the old layout, and 72
GREETED = MET
ASKED = GREETED + access(READ, 1, 0, 0, 0, 4)
ASKED_OLD = GREETED + access(READ, 1, 0, 0, 0, 4, attributes=OLD)
SYNCED = GREETED + sync(1, 0)

# The read is answered, and then the machine has stopped at tick 1: it sends its sync, which is to be answered too.
READ_ANSWER = access(READ, 1, ANSWER, 0, 0, 4, bytes(4))
GONE_ON = ASKED + sync(2, 1)
LAST = sync(2, 1, ANSWER)

BYTES = bytes.fromhex("112233445566")

Row = collections.namedtuple("Row", "said end sent calls ticks ram script units", defaults=(0, 0, "", None, 1000))


def fetch(number, at, addr=RAM, size=4, **fields):
    return access(READ, number, 0, at, addr, size, **fields)


def store(number, at, addr=RAM, data=BYTES, flags=0, **fields):
    return access(WRITE, number, flags, at, addr, len(data), data, **fields)


def fetched(number, at, data=bytes(4), addr=RAM, code=0):
    return access(READ, number, ANSWER, at, addr, len(data), data, attributes=coded(code))


def stored(number, at, addr=RAM, size=6, code=0):
    return access(WRITE, number, ANSWER, at, addr, size, attributes=coded(code))


def floods(*numbers):
    return b"".join(interrupt(number, 0, 0, 1, POSTED) for number in range(*numbers))


NOPS = packet(NOP, 0)

# up to the hellos
GREETING = {
    "it says nothing": Row(b"", "Ended 0", GREETED),
    "it ends within its hello": Row(MET[:43], "Truncated 0 43", GREETED),
    "a sync request, before any hello": Row(sync(0, 0), "HelloMissing 6", GREETED),
    "a read request, before any hello": Row(fetch(0, 0), "HelloMissing 3", GREETED),
    "a write request, before any hello": Row(store(0, 0), "HelloMissing 4", GREETED),
    "an interrupt, before any hello": Row(interrupt(0, 0, 0, 1), "HelloMissing 5", GREETED),
    "a cfg, before any hello": Row(packet(CFG, 0, 0, bytes(5)), "HelloMissing 2", GREETED),
    "an answer, before any hello": Row(READ_ANSWER, "HelloMissing 3", GREETED),
    "its hello with major 5": Row(hello(version=(5, 3)), "Version 5", GREETED),
    "its hello with major 3": Row(hello(version=(3, 3)), "Version 3", GREETED),
    "its hello as an answer": Row(hello(flags=ANSWER), "StrayAnswer 0 1", GREETED),
    "8,192 nops and no hello": Row(NOPS * 8192, "Flood 8192", GREETED),
    "8,191 nops and then its hello": Row(NOPS * 8191 + MET, "Flood 8192", GREETED),
    "8,190 nops, then its hello and the end": Row(NOPS * 8190 + MET, f"Ended {20 * 8190 + 44}", ASKED),
    "the end behind its hello": Row(MET, "Ended 44", ASKED),
}

# while the machine awaits the answer to its read
ANSWERING = {
    "a second hello": Row(MET + MET, "HelloAgain", ASKED),
    "a cfg": Row(MET + packet(CFG, 1, 0, bytes(5)), "Unsupported 2", ASKED),
    "an answer to a cfg": Row(MET + packet(CFG, 1, ANSWER, bytes(5)), "Unsupported 2", ASKED),
    "a sync request": Row(MET + sync(1, 0), "Unsupported 6", ASKED),
    "an interrupt, flags 4, id 1, time 0": Row(MET + interrupt(1, 0, 0, 1, POSTED), "EarlyPosted 1", ASKED),
    "an interrupt that has no answer without capability 3": Row(BARE + interrupt(1, 0, 0, 1), "EarlyPosted 1", ASKED_OLD),
    "a posted write": Row(MET + store(1, 0, flags=POSTED), "EarlyPosted 1", ASKED),
    "extended reads with ids 1 and 2": Row(MET + fetch(1, 0) + fetch(2, 0), "SecondRequest 2", ASKED),
    "an extended read and an interrupt": Row(MET + fetch(1, 0) + interrupt(2, 0, 0, 1), "SecondRequest 2", ASKED),
    "two extended reads with one id": Row(MET + fetch(1, 0) + fetch(1, 0), "SecondRequest 1", ASKED),
    "a hello with capabilities 2 and 3 only, then an extended read": Row(hello((2, 3)) + fetch(1, 0), "CapMissing 1", ASKED_OLD),
    "a hello without capability 2, then a write with enables": Row(hello((1, 3)) + store(1, 0, enables=b"\xff\0"), "CapMissing 2", ASKED),
    "one extended read, id 1, time 1": Row(MET + fetch(1, 1), "LateWant 0 1", ASKED),
    "an interrupt at the greatest time": Row(MET + interrupt(1, 2**64 - 1, 0, 1), f"LateWant 0 {2**64 - 1}", ASKED),
    "a header with command 7": Row(MET + packet(7, 1), "Malformed 44 0 Translation 7", ASKED),
    "a header with command 8": Row(MET + packet(8, 1), "Malformed 44 0 Translation 8", ASKED),
    "a header with command 9": Row(MET + packet(9, 1), "Malformed 44 0 Command 9", ASKED),
    "a body of 65,537 bytes": Row(MET + struct.pack(">5I", READ, 65537, 1, ANSWER, 0), "Malformed 44 4 TooLong 65537", ASKED),
    "an empty answer": Row(MET + packet(READ, 1, ANSWER), "Malformed 44 4 Length 38 0", ASKED),
    "an answer behind a nop that isn't any": Row(MET + NOPS + packet(9, 1, ANSWER), "Malformed 64 0 Command 9", ASKED),
    "30 bytes of a read answer, then the end": Row(MET + READ_ANSWER[:30], "Truncated 44 30", ASKED),
    "a read answer but its last byte": Row(MET + READ_ANSWER[:-1], "Truncated 44 83", ASKED),
    "a read answer with id 9": Row(MET + access(READ, 9, ANSWER, 0, 0, 4, bytes(4)), "StrayAnswer 9 3", ASKED),
    "a write's answer": Row(MET + access(WRITE, 1, ANSWER, 0, 0, 4), "StrayAnswer 1 4", ASKED),
    "an interrupt's answer": Row(MET + interrupt(1, 0, 0, 1, ANSWER), "StrayAnswer 1 5", ASKED),
    "a sync's answer": Row(MET + sync(1, 0, ANSWER), "StrayAnswer 1 6", ASKED),
    "the answer of the coming sync": Row(MET + LAST, "StrayAnswer 2 6", ASKED),
    "a read answer with code 0 and len 2 where 4 was asked": Row(MET + access(READ, 1, ANSWER, 0, 0, 2, bytes(2)), "WrongAnswer 1 4 2", ASKED),
    "a read answer with code 0 and no data": Row(MET + access(READ, 1, ANSWER, 0, 0, 0), "WrongAnswer 1 4 0", ASKED),
    "a read answer of 8 bytes": Row(MET + access(READ, 1, ANSWER, 0, 0, 8, bytes(8)), "WrongAnswer 1 4 8", ASKED),
    "8,192 nops and no answer": Row(MET + NOPS * 8192, "Flood 8192", ASKED),
    "8,191 nops and then the answer": Row(MET + NOPS * 8191 + READ_ANSWER + LAST, "Flood 8192", ASKED),
}

# from the machine's sync on: one call is made, one tick done
GATHERING = {
    "the end in place of the sync's answer": Row(MET + READ_ANSWER, "Ended 128", GONE_ON),
    "a sync's answer but its last byte": Row(MET + READ_ANSWER + LAST[:-1], "Truncated 128 27", GONE_ON),
    "a sync's answer with another id": Row(MET + READ_ANSWER + sync(3, 1, ANSWER), "StrayAnswer 3 6", GONE_ON),
    "the read's answer again": Row(MET + READ_ANSWER + READ_ANSWER, "StrayAnswer 1 3", GONE_ON),
    "a want later than the sync": Row(MET + READ_ANSWER + interrupt(1, 2, 0, 1), "LateWant 1 2", GONE_ON),
    "a posted want later than the sync": Row(MET + READ_ANSWER + interrupt(1, 2, 0, 1, POSTED), "LateWant 1 2", GONE_ON),
    "8,190 nops and the answer, then the end": Row(MET + NOPS * 8190 + READ_ANSWER, f"Ended {20 * 8190 + 128}", GONE_ON),
}

# wants that are served, and what ends the conversation behind them
SERVING = {
    "nothing else": Row(MET + READ_ANSWER + LAST, "done", GONE_ON, 1, 1),
    "an answer with code 2 and no data": Row(MET + access(READ, 1, ANSWER, 0, 0, 0, attributes=coded(2)) + LAST, "done", GONE_ON, 1, 1),
    "8,190 nops and then each answer": Row(MET + NOPS * 8190 + READ_ANSWER + NOPS * 8191 + LAST, "Flood 8192", GONE_ON, 1, 1),
    "8,190 nops before each answer": Row(MET + NOPS * 8190 + READ_ANSWER + NOPS * 8190 + LAST, "done", GONE_ON, 1, 1),
    "more behind the sync's answer": Row(MET + READ_ANSWER + LAST + packet(9, 1), "done", GONE_ON, 1, 1),
    "a want with the time of the latest request": Row(MET + fetch(1, 0) + READ_ANSWER + LAST, "done", GONE_ON + fetched(1, 0), 2, 1),
    "a want with the time of the sync": Row(MET + READ_ANSWER + fetch(1, 1) + LAST, "done", GONE_ON + fetched(1, 1), 2, 1),
    "a level with the time of the latest request": Row(MET + interrupt(1, 0, 3, 1) + READ_ANSWER + LAST, "done", GONE_ON + interrupt(1, 0, 3, 1, ANSWER), 2, 1),
    "a level of a line that isn't there": Row(MET + READ_ANSWER + interrupt(1, 1, 2**32 - 1, 1) + LAST, "done", GONE_ON + interrupt(1, 1, 2**32 - 1, 1, ANSWER), 2, 1),
    "a posted level": Row(MET + READ_ANSWER + interrupt(1, 1, 3, 1, POSTED) + LAST, "done", GONE_ON, 2, 1),
    "a write with enables ff00": Row(MET + READ_ANSWER + store(1, 1, enables=b"\xff\0") + LAST, "done", GONE_ON + stored(1, 1), 2, 1, "110033005500"),
    "a posted write with enables 00ff": Row(MET + READ_ANSWER + store(1, 1, flags=POSTED, enables=b"\0\xff") + LAST, "done", GONE_ON, 2, 1, "002200440066"),
    "a write, and a read of what it wrote": Row(
        MET + READ_ANSWER + store(1, 1) + fetch(2, 1, size=6) + LAST, "done", GONE_ON + stored(1, 1) + fetched(2, 1, BYTES), 3, 1, BYTES.hex(),
    ),
    "a write that passes the end of RAM": Row(
        MET + READ_ANSWER + store(1, 1, RAM + 4091) + LAST, "done", GONE_ON + stored(1, 1, RAM + 4091, code=2), 2, 1,
    ),
    "a read below RAM": Row(MET + READ_ANSWER + fetch(1, 1, 0) + LAST, "done", GONE_ON + fetched(1, 1, addr=0, code=2), 2, 1),
    "a read at the last address": Row(
        MET + READ_ANSWER + fetch(1, 1, 2**64 - 1) + LAST, "done", GONE_ON + fetched(1, 1, addr=2**64 - 1, code=2), 2, 1,
    ),
    "a read of nothing": Row(MET + READ_ANSWER + fetch(1, 1, size=0) + LAST, "done", GONE_ON + fetched(1, 1, b"", code=1), 1, 1),
    "a read of 4,096 bytes": Row(MET + READ_ANSWER + fetch(1, 1, size=4096) + LAST, "done", GONE_ON + fetched(1, 1, bytes(4096)), 1, 1),
    "wants that go back in time": Row(MET + READ_ANSWER + fetch(1, 1) + fetch(2, 0), "TimeBackwards 1 0", GONE_ON + fetched(1, 1), 2, 1),
    "a want, and then the end": Row(MET + READ_ANSWER + fetch(1, 1), "Ended 208", GONE_ON + fetched(1, 1), 2, 1),
}

# other scripts: of nothing, in no units, and of four reads
FOUR = "read 0 0x0 4\n" * 4
THREE_ANSWERED = b"".join(access(READ, number, ANSWER, number - 1, 0, 4, bytes(4)) for number in (1, 2, 3))
FOUR_ASKED = GREETED + b"".join(access(READ, number, 0, number - 1, 0, 4) for number in (1, 2, 3, 4))

SCRIPTS = {
    "an answer with id 5 where 4 is out": Row(
        MET + THREE_ANSWERED + access(READ, 5, ANSWER, 3, 0, 4, bytes(4)), "StrayAnswer 5 3", FOUR_ASKED, 3, 3, script=FOUR,
    ),
    "an answer with id 3 where 4 is out": Row(
        MET + THREE_ANSWERED + access(READ, 3, ANSWER, 3, 0, 4, bytes(4)), "StrayAnswer 3 3", FOUR_ASKED, 3, 3, script=FOUR,
    ),
    "8,192 interrupts at the sync": Row(MET + floods(1, 8193), "Flood 8192", SYNCED, 8191, 0, script="", units=0),
    "8,191 interrupts at the sync": Row(MET + floods(1, 8192), f"Ended {44 + 41 * 8191}", SYNCED, 8191, 0, script="", units=0),
    "8,191 interrupts and the sync's answer": Row(MET + floods(1, 8192) + sync(1, 0, ANSWER), "Flood 8192", SYNCED, 8191, 0, script="", units=0),
    "8,190 interrupts and the sync's answer": Row(MET + floods(1, 8191) + sync(1, 0, ANSWER), "done", SYNCED, 8190, 0, script="", units=0),
}


def lines_of(row):
    """What the program prints of a row."""
    end = row.end if row.end == "done" else f"cosim: peer p0: {row.end}"
    ram = bytes.fromhex(row.ram) + bytes(8 - len(row.ram) // 2)
    return [
        end, f"sent {len(row.sent)}", f"heard {row.sent.hex()}", f"calls {row.calls}", f"ticks {row.ticks}", f"ram {ram.hex()}", end, "further 0",
    ]


def try_row(name, row):
    with tempfile.TemporaryDirectory() as folder:
        written(folder, {"said": row.said} | ({} if row.script is None else {"script": row.script.encode()}))
        for piece in (0, 1, 7):
            words = ["said", "said", str(piece), str(row.units)] + ([] if row.script is None else ["script"])
            ended = run(words, folder, program=MEMORY_RUN)
            check(f"{name}, {piece or 'whole'}", "the status", (ended.returncode, ended.stderr), (0, b""))
            check(f"{name}, {piece or 'whole'}", "standard output", ended.stdout.decode().splitlines(), lines_of(row))


def main():
    built(MEMORY_RUN, "memory_run")
    for rows in (GREETING, ANSWERING, GATHERING, SERVING, SCRIPTS):
        for name, row in rows.items():
            if rows is GATHERING:
                row = row._replace(calls=1, ticks=1)
            try_row(name, row)
    return told("hostile_peers")


if __name__ == "__main__":
    sys.exit(main())
