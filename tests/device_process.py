#!/usr/bin/env python3
"""Starts the built program as a process, `cosim device`, and serves each kind of device over a real Unix socket as its machine.

Every row compares what the device answered and asked, the program's status, what it wrote on standard output and error, and the files
that it left. The script ends with 1 on any mismatch. Machines that break a rule are the rows of hostile_machines.py.
"""

import os
import socket
import subprocess
import sys
import tempfile

from support.configuration import config
from support.machine import ANSWER, RAM, READ, SECONDS, WRITE
from support.machine import Machine, accepted, access, coded, cut, ended, fed, hello, packet, started, sync, talk, written
from support.program import PROGRAM, TOP, built, check, told

MET = hello()
PATTERN = bytes(place % 251 for place in range(1024))

# registers
NOW, COMPARE, TIMER_CONTROL = 0, 4, 8
DATA, UART_STATUS, UART_CONTROL = 0, 4, 8
SOURCE, DESTINATION, LENGTH, MASK, DMA_CONTROL, DMA_STATUS = range(0, 24, 4)
SECTOR, COUNT, ADDRESS, DISK_CONTROL, DISK_STATUS, SIZE = range(0, 24, 4)


def fixed(row, words, pieces, sent, files=None):
    """A machine that sends these pieces and then nothing more, and all that the device sends."""

    def part(link):
        machine = Machine(link)
        fed(link, pieces)
        machine.rest()
        check(row, "what was sent", machine.received.hex(), sent.hex())

    talk(row, words, part, files=files)


def sets(machine, row, at, *settings):
    """Writes registers from a time on, one a tick."""
    for tick, (addr, value) in enumerate(settings, at):
        check(row, f"the code at {tick}", machine.write(tick, addr, value), 0)


def reads(machine, row, *registers):
    """Reads registers at their times; each has a code and a value."""
    for at, addr, code, value in registers:
        check(row, f"the read of {addr} at {at}", machine.read(at, addr), (code, value))


# The null device, and what every device answers alike


def null_devices():
    both, answered = MET + sync(7, 1000), MET + sync(7, 1000, ANSWER)
    fixed("hello and sync at once", ["null"], [both], answered)
    fixed("hello and sync in single bytes", ["null"], cut(both, 1), answered)
    fixed("hello, then sync", ["null"], [MET, sync(7, 1000)], answered)
    fixed("nops before the hello and behind it", ["null"], [packet(0, 9) + both + packet(0, 9, ANSWER, b"nop")], answered)
    fixed("two requests of one number", ["null"], [both + sync(7, 1000)], answered + sync(7, 1000, ANSWER))
    fixed("unknown flags", ["null"], [MET + sync(7, 1000, 0x80000008)], MET + sync(7, 1000, 0x8000000A))
    fixed("another minor version", ["null"], [hello((1, 9), version=(4, 9)) + sync(7, 1000)], answered)
    fixed("a write that nobody answers", ["null"], [MET + access(WRITE, 1, 4, 5, 0, 4, bytes(4)) + sync(7, 1000)], answered)


def refused_accesses():
    """What no device serves is answered with code 1, and reads with zeros; a null device answers code 2 to the others."""
    for row, asked, code, data in [
        ("a read of 4 bytes", (4, None), 2, bytes(4)),
        ("a read of 8 bytes", (8, 0), 2, bytes(8)),
        ("a read of 3 bytes", (3, None), 1, bytes(3)),
        ("a read of no bytes", (0, None), 1, b""),
        ("a read of a narrow stream", (4, 2), 1, bytes(4)),
        ("a read of 4,096 bytes", (4096, None), 1, bytes(4096)),
        ("a read of 4,097 bytes", (4097, 4097), 1, b""),
    ]:
        size, stream = asked
        read = access(READ, 1, 0, 5, 0x100, size, stream=stream)
        answer = access(READ, 1, ANSWER, 5, 0x100, len(data), data, attributes=coded(code), stream=size if stream is None else stream)
        fixed(row, ["null"], [MET + read], MET + answer)
    write = access(WRITE, 1, 0, 5, 0x100, 3, bytes(3))
    fixed("a write of 3 bytes", ["null"], [MET + write], MET + access(WRITE, 1, ANSWER, 5, 0x100, 3, attributes=coded(1)))
    old = access(READ, 1, 0, 5, 0x100, 4, attributes=0)
    answer = access(READ, 1, ANSWER, 5, 0x100, 4, bytes(4), attributes=coded(2, 0))
    fixed("a read in the old layout", ["null"], [hello(()) + old], MET + answer)


def answer_by_answer():
    """Each packet is answered before the next one is sent."""
    row = "a device answers hello and sync as they come"

    def part(link):
        machine = Machine(link)
        machine.greet()
        machine.sync(1000)
        check(row, "what was sent", machine.received.hex(), (MET + sync(1, 1000, ANSWER)).hex())

    talk(row, ["null"], part)


# A timer


def timer(line):
    row = f"a timer on line {line}"

    def part(link):
        machine = Machine(link)
        machine.greet()
        sets(machine, row, 0, (COMPARE, 50), (TIMER_CONTROL, 1))
        reads(machine, row, (2, NOW, 0, 2), (3, COMPARE, 0, 50), (4, TIMER_CONTROL, 0, 1), (5, 12, 2, 0))
        check(row, "the code of a write of NOW", machine.write(6, NOW, 0), 1)
        check(row, "the code of a write of 8 bytes", machine.write(7, COMPARE, 0, 8), 1)
        check(row, "the code of a write of 3 of 4 bytes", machine.write(8, COMPARE, 0, enables=bytes([255, 255, 0, 255])), 1)
        machine.sync(49)
        check(row, "what is asked before the tick", machine.asked, [])
        machine.sync(60)
        check(row, "what is asked at the tick", machine.asked, [("line", 50, line, 1)])
        reads(machine, row, (60, NOW, 0, 60))
        machine.post(61, COMPARE, 100)
        machine.sync(62)
        check(row, "what is asked behind it", machine.asked, [("line", 50, line, 1), ("line", 61, line, 0)])
        reads(machine, row, (63, COMPARE, 0, 100))

    talk(row, ["timer", str(line)], part)


def posted_levels(row, words, caps, files):
    """A timer whose levels aren't answered tells them at the next sync."""

    def part(link):
        machine = Machine(link, caps)
        machine.greet()
        sets(machine, row, 0, (COMPARE, 5), (TIMER_CONTROL, 1))
        machine.sync(10)
        check(row, "what is told at 10", machine.asked, [("posted", 5, 3, 1)])
        sets(machine, row, 11, (TIMER_CONTROL, 0))
        reads(machine, row, (12, TIMER_CONTROL, 0, 0))
        check(row, "what is told between syncs", machine.asked, [("posted", 5, 3, 1)])
        machine.sync(13)
        check(row, "what is told at 13", machine.asked, [("posted", 5, 3, 1), ("posted", 11, 3, 0)])

    talk(row, words, part, files=files)


def timers():
    timer(0)
    timer(3)
    timer(31)
    posted_levels("a machine without capability 3", ["timer", "3"], (1, 2), None)
    posted_levels("a machine without capabilities", ["timer", "3"], (), None)
    posted_levels("a port without capabilities", ["c", "0"], (1, 2, 3), {"c": config(("timer", 'line = 3\ncaps = []\nsocket = "s"'))})
    posted_levels("a port whose lines are posted", ["c", "0"], (1, 2, 3), {"c": config(("timer", 'line = 3\nlines = "posted"\nsocket = "s"'))})


# UARTs: the input of the other port isn't there, and isn't read


def uart(lines):
    row = f"a UART whose lines are {lines}"
    kind = "line" if lines == "answered" else "posted"
    keys = f'line = 5\nlines = "{lines}"\ninput = "input"\ngap = 10\nsocket = "s"'
    files = {"c": config(("uart", 'line = 4\ninput = "absent"\nsocket = "s"'), ("uart", keys)), "input": b"hi!"}

    def part(link):
        machine = Machine(link)
        machine.greet()
        reads(machine, row, (0, UART_STATUS, 0, 0), (1, DATA, 0, 0))
        sets(machine, row, 2, (UART_CONTROL, 1))
        machine.sync(25)
        reads(machine, row, (26, UART_STATUS, 0, 1), (27, DATA, 0, ord("h")), (28, DATA, 0, ord("i")))
        sets(machine, row, 29, (DATA, 0x141))
        check(row, "the code of a write of STATUS", machine.write(29, UART_STATUS, 1), 1)
        machine.sync(29)
        check(row, "what is asked by 29", machine.asked, [(kind, 10, 5, 1), (kind, 28, 5, 0)])
        machine.sync(40)
        reads(machine, row, (41, DATA, 0, ord("!")), (42, UART_STATUS, 0, 0), (43, DATA, 0, 0))
        machine.sync(50)
        check(row, "what is asked", machine.asked[2:], [(kind, 30, 5, 1), (kind, 41, 5, 0)])

    talk(row, ["c", "1"], part, files=files)


def without_input():
    row = "a UART without input"

    def part(link):
        machine = Machine(link)
        machine.greet()
        sets(machine, row, 0, (UART_CONTROL, 1), (DATA, 7))
        machine.sync(1000000)
        reads(machine, row, (1000000, UART_STATUS, 0, 0), (1000001, DATA, 0, 0))
        check(row, "what is asked", machine.asked, [])

    talk(row, ["c", "0"], part, files={"c": config(("uart", 'line = 5\nsocket = "s"'))})


# A DMA

DMA = {"c": config(("null", ""), ("dma", 'line = 2\nsocket = "s"'))}


def copied(row, length, mask):
    """A whole copy of a pattern from the front of RAM to 2,048 bytes behind it."""
    ram = PATTERN + bytes(3072)
    after = bytearray(ram)
    for byte in range(length):
        if mask >> byte % 32 & 1:
            after[2048 + byte] = ram[byte]
    asked = []
    for place in range(0, length, 64):
        size = min(64, length - place)
        asked += [("fetch", 10 if place else 4, RAM + place, size), ("store", 10, RAM + 2048 + place, size)]

    def part(link):
        machine = Machine(link, ram=ram)
        machine.greet()
        sets(machine, row, 0, (SOURCE, RAM), (DESTINATION, RAM + 2048), (LENGTH, length), (MASK, mask), (DMA_CONTROL, 3))
        machine.sync(10)
        check(row, "what is asked", machine.asked, asked + [("line", 10, 2, 1)])
        check(row, "the memory", bytes(machine.ram), bytes(after))
        reads(machine, row, (11, DMA_STATUS, 0, 2), (12, DMA_CONTROL, 0, 2))
        sets(machine, row, 13, (DMA_STATUS, 0))
        machine.sync(20)
        check(row, "what is asked behind it", machine.asked[len(asked) + 1 :], [("line", 13, 2, 0)])
        check(row, "the code of a start of no bytes", [machine.write(21, LENGTH, 0), machine.write(22, DMA_CONTROL, 1)], [0, 1])

    talk(row, ["c", "1"], part, files=DMA)


def copies():
    copied("a DMA that copies a byte", 1, 0xFFFFFFFF)
    copied("a DMA that copies three chunks", 130, 0xFFFFFFFF)
    copied("a DMA that leaves bytes out", 130, 0xF0F01234)
    copied("a DMA that leaves out all", 1000, 0)
    row = "a DMA whose copy ends at the end of RAM"

    def part(link):
        machine = Machine(link)
        machine.greet()
        sets(machine, row, 0, (SOURCE, RAM), (DESTINATION, RAM + 4032), (LENGTH, 65), (DMA_CONTROL, 1))
        check(row, "the code of a write while it copies", machine.write(4, LENGTH, 1), 1)
        machine.sync(10)
        asked = [("fetch", 3, RAM, 64), ("store", 4, RAM + 4032, 64), ("fetch", 10, RAM + 64, 1), ("store", 10, RAM + 4096, 1)]
        check(row, "what is asked", machine.asked, asked)
        reads(machine, row, (11, DMA_STATUS, 0, 6))

    talk(row, ["c", "1"], part, files=DMA)


# Disks: the image of the other port isn't there, and isn't read

IMAGE = bytes([0x11]) * 512 + bytes([0x22]) * 512 + bytes([0x33]) * 512
STORED = PATTERN[:512] + IMAGE[512:]


def disk_files(keys):
    ports = config(("disk", 'line = 1\ndisk = "absent"\nresult = "other"\nsocket = "s"'), ("disk", f'line = 4\ndisk = "disk"\nsocket = "s"\n{keys}'))
    return {"c": ports, "disk": IMAGE}


def transfers(machine, row):
    """Sector 1 to RAM, the front of RAM to sector 0, and sector 2, which is bad."""
    machine.greet()
    sets(machine, row, 0, (SECTOR, 1), (COUNT, 1), (ADDRESS, RAM + 1024), (DISK_CONTROL, 5))
    machine.sync(10)
    stores = [("store", 10 if place else 3, RAM + 1024 + place, 64) for place in range(0, 512, 64)]
    check(row, "what is asked for the way to RAM", machine.asked, stores + [("line", 10, 4, 1)])
    check(row, "the memory", bytes(machine.ram), PATTERN + IMAGE[512:1024] + bytes(2560))
    reads(machine, row, (11, DISK_STATUS, 0, 2), (12, SIZE, 0, 3))
    sets(machine, row, 13, (SECTOR, 0), (ADDRESS, RAM), (DISK_CONTROL, 7))
    machine.sync(20)
    fetches = [("fetch", 20, RAM + place, 64) for place in range(0, 512, 64)]
    check(row, "what is asked for the way to the disk", machine.asked[9:], [("line", 15, 4, 0)] + fetches + [("line", 20, 4, 1)])
    sets(machine, row, 21, (SECTOR, 2), (DISK_CONTROL, 3))
    reads(machine, row, (23, DISK_STATUS, 0, 6))
    check(row, "the code of a start behind the last sector", [machine.write(24, SECTOR, 3), machine.write(25, DISK_CONTROL, 1)], [0, 1])


def disk(row, keys, before, after, ends=lambda machine: None, status=0, line=""):
    """A disk's transfers in both directions, how the machine ends behind them and what is told, and the files that are there before and
    after, besides those that the configuration names for reading."""

    def part(link):
        machine = Machine(link, ram=PATTERN + bytes(3072))
        transfers(machine, row)
        return ends(machine)

    files = disk_files(keys)
    left = talk(row, ["c", "1"], part, status, line, {**files, **before})
    check(row, "the files that are left", left, {**files, **after})


def half_a_packet(machine):
    machine.send(sync(99, 30)[:5])
    return f"cosim: peer p1: Truncated {len(machine.sent) - 5} 5\n"


def unanswered(machine):
    """The machine doesn't answer the want of a transfer."""
    machine.serves = False
    sets(machine, "a disk whose want isn't answered", 26, (SECTOR, 0), (DISK_CONTROL, 1))
    machine.send(sync(99, 30))
    return f"cosim: peer p1: Ended {len(machine.sent)}\n"


def disks():
    bad, result = "bad = [2]", 'bad = [2]\nresult = "out"'
    old, stored = {"out": b"what was there before"}, {"out": STORED}
    disk("a disk whose sectors are written", result, {}, stored)
    disk("a disk whose sectors are written over a file", result, old, stored)
    disk("a disk that has no file for its sectors", bad, {}, {})
    disk("a disk whose machine sends half a packet", result, {}, {}, half_a_packet, 4)
    disk("a disk whose machine fails over a file", result, old, old, half_a_packet, 4)
    disk("a disk whose want isn't answered", result, old, old, unanswered, 4)
    disk("a disk whose sectors can't be written", 'bad = [2]\nresult = "no/out"', {}, {}, status=5, line="cosim: outside: files 1\n")


# Machines that are gone, and programs that don't connect


def peer_gone():
    """A machine that closes before it read anything: which fault the device meets isn't fixed, but it ends by itself."""
    row = "a machine that is gone"
    with tempfile.TemporaryDirectory() as folder, socket.socket(socket.AF_UNIX) as listener:
        path = os.path.join(folder, "socket")
        listener.bind(path)
        listener.listen()
        process = started(["device", path, "null"])
        accepted(listener, process).close()
        out, err = process.communicate(timeout=SECONDS)
        known = [(4, b"cosim: peer p0: Ended 0\n"), (5, b"cosim: outside: link p0 1\n")]
        check(row, "status and line among the known ones", (process.returncode, err) in known, True)
        check(row, "standard output", out, b"")


def early_ends():
    """A machine that closes behind its hello ends well, also where the device could want something."""
    for words, files in [(["null"], None), (["timer", "3"], None), (["c", "1"], DMA), (["c", "1"], disk_files(""))]:
        fixed(f"{words} of a machine that greets and closes", words, [MET], MET, files)


def unconnected(row, words, status, line, files=None):
    """The program ends before it connects."""
    with tempfile.TemporaryDirectory() as folder, socket.socket(socket.AF_UNIX) as listener:
        written(folder, files or {})
        listener.bind(os.path.join(folder, "socket"))
        listener.listen()
        process = started(["device", "socket", *words], folder)
        link = accepted(listener, process)
        check(row, "whether it connected", link is not None, False)
        ended(row, process, status, line)


def refused_ports():
    timer_port, uart_port = ("timer", 'line = 1\nsocket = "s"'), ("uart", 'line = 2\ninput = "input"\nsocket = "s"')
    disk_port = ("disk", 'line = 3\ndisk = "disk"\nsocket = "s"')
    unconnected("a configuration that isn't there", ["c", "0"], 5, "cosim: outside: files 1\n")
    unconnected("a configuration that isn't TOML", ["c", "0"], 2, "cosim: config: Text\n", {"c": b"port"})
    unconnected("a configuration without ports", ["c", "0"], 2, "cosim: config: Missing 0 kind\n", {"c": config()})
    unconnected("a port behind the last one", ["c", "1"], 2, "cosim: config: Missing 1 kind\n", {"c": config(timer_port)})
    unconnected("the greatest port", ["c", "4294967295"], 2, "cosim: config: Missing 4294967295 kind\n", {"c": config(timer_port)})
    unconnected("a port without a socket", ["c", "1"], 2, "cosim: config: Missing 1 socket\n", {"c": config(timer_port, ("null", ""))})
    twice = config(timer_port, timer_port)
    unconnected("two ports on one line", ["c", "0"], 2, "cosim: config: LineTwice 0 1\n", {"c": twice})
    unconnected("two ports on one line, and neither is meant", ["c", "2"], 2, "cosim: config: LineTwice 0 1\n", {"c": twice})
    unconnected("an input that isn't there", ["c", "1"], 5, "cosim: outside: files 1\n", {"c": config(timer_port, uart_port)})
    long = {"c": config(timer_port, uart_port), "input": bytes(65537)}
    unconnected("an input that is too long", ["c", "1"], 3, "cosim: input: UartInput 1 65537\n", long)
    for length in (0, 511, 700):
        files = {"c": config(timer_port, uart_port, disk_port), "disk": bytes(length)}
        unconnected(f"an image of {length} bytes", ["c", "2"], 3, f"cosim: input: DiskImage 2 {length}\n", files)
    unconnected("an image that isn't there", ["c", "0"], 5, "cosim: outside: files 1\n", {"c": config(disk_port)})


def refused_words():
    for words, index in [
        ([], 2),
        (["null", "more"], 3),
        (["null", "0", "more"], 4),
        ([b"\xff"], 2),
        (["timer"], 3),
        (["timer", "32"], 3),
        (["timer", "03"], 3),
        (["timer", "-1"], 3),
        (["timer", "3", "more"], 4),
        (["c"], 3),
        (["c", "007"], 3),
        (["c", "4294967296"], 3),
        (["c", "7", "more"], 4),
    ]:
        unconnected(f"the words {words}", words, 1, f"cosim: usage at word {index}\n")
    ended("no words", started([]), 1, "cosim: usage at word 0\n")
    ended("a device without a socket", started(["device"]), 1, "cosim: usage at word 1\n")


def example():
    """The machine of examples/timer and a timer, as the example's script starts them."""
    environment = {**os.environ, "COSIM": PROGRAM}
    done = subprocess.run([os.path.join(TOP, "examples", "run.sh"), "timer"], env=environment, capture_output=True, timeout=SECONDS, check=False)
    with open(os.path.join(TOP, "examples", "timer", "timer.out"), "rb") as file:
        check("examples/timer", "the end", (done.returncode, done.stdout, done.stderr), (0, file.read(), b""))


def main():
    built()
    null_devices()
    refused_accesses()
    answer_by_answer()
    timers()
    uart("answered")
    uart("posted")
    without_input()
    copies()
    disks()
    peer_gone()
    early_ends()
    refused_ports()
    refused_words()
    example()
    for words in ["null"], ["timer", "3"]:
        ended(f"no machine, {words}", started(["device", "/nowhere/socket", *words]), 5, "cosim: outside: net 1\n")
    return told("device_process")


if __name__ == "__main__":
    sys.exit(main())
