"""A small machine behind a Unix socket, which a device process talks to.

It greets, reads and writes registers, synchronises, and serves what the device asks of its memory and its interrupt lines. It reads
what the device sends only while it awaits an answer, so what passes between the two is the same in every run.

A packet is a header of five numbers of four bytes (command, bytes of the body, number, flags, device) and a body; its numbers have their
highest byte first. Data have the lowest byte of a value first.
"""

import collections
import contextlib
import fcntl
import os
import socket
import struct
import subprocess
import tempfile
import termios
import time

from support.program import PROGRAM, check, failures

SECONDS = 20

NOP, HELLO, CFG, READ, WRITE, INTERRUPT, SYNC = range(7)

# the flags of an answer and of a request that has none, and the attribute of the extended layout
ANSWER, POSTED = 2, 4
EXTENDED = 4

# where the memory begins
RAM = 0x80000000

Packet = collections.namedtuple("Packet", "command number flags device body")
Access = collections.namedtuple("Access", "time attributes addr size data enables")


def packet(command, number, flags=0, body=b""):
    return struct.pack(">5I", command, len(body), number, flags, 0) + body


def hello(caps=(1, 2, 3), number=0, flags=0, version=(4, 3)):
    body = struct.pack(">HHIHH", *version, 32, len(caps), 0) + b"".join(struct.pack(">I", cap) for cap in caps)
    return packet(HELLO, number, flags, body)


def sync(number, at, flags=0):
    return packet(SYNC, number, flags, struct.pack(">Q", at))


def interrupt(number, at, line, level, flags=0):
    return packet(INTERRUPT, number, flags, struct.pack(">QQIB", at, 0, line, level))


def access(command, number, flags, at, addr, size, data=b"", enables=b"", attributes=EXTENDED, stream=None):
    """A read or a write of so many bytes, or its answer. Enables have one byte for each data byte, or are repeated. A stream is as wide as
    there are bytes, unless another width is named."""
    body = struct.pack(">QQQIIIH", at, attributes, addr, size, 0, size if stream is None else stream, 0)
    if attributes & EXTENDED:
        body += struct.pack(">HIIIII", 0, 0, 80, 0, 80 + len(data) if enables else 0, len(enables))
    return packet(command, number, flags, body + data + enables)


def coded(code, attributes=EXTENDED):
    """The attributes of an answer with that code."""
    return attributes + 256 * code


def access_of(received):
    """The fields of a read or a write that was received, which is spelled as ends spell it."""
    at, attributes, addr, size = struct.unpack(">QQQI", received.body[:28])
    if not attributes & EXTENDED:
        return Access(at, attributes, addr, size, received.body[38:], b"")
    count = struct.unpack(">I", received.body[56:60])[0]
    rest = received.body[60:]
    return Access(at, attributes, addr, size, rest[: len(rest) - count], rest[len(rest) - count :])


def caps_of(received):
    """The capabilities of a hello that was received."""
    count = struct.unpack(">H", received.body[8:10])[0]
    return struct.unpack(f">{count}I", received.body[12 : 12 + 4 * count])


class Closed(Exception):
    """The device closed the link where a packet was awaited, or within one."""


class Unlawful(Exception):
    """The device sent what it may not send."""


def rest_of(link):
    """Says that nothing more comes, and gives what the other side sends until it closes. Where a link is closed with bytes that weren't
    read, the other side may see a failure in place of the end."""
    got = b""
    with contextlib.suppress(ConnectionResetError, BrokenPipeError):
        link.shutdown(socket.SHUT_WR)
        while piece := link.recv(4096):
            got += piece
    return got


class Machine:
    """One side of a link to a device. `asked` is what the device asked, in its order, `received` are all bytes that it sent, and `sent` all
    that were sent to it. A machine that doesn't serve leaves the device's requests without an answer."""

    def __init__(self, link, caps=(1, 2, 3), ram=bytes(4096), serves=True):
        self.link = link
        self.caps = caps
        self.common = ()
        self.ram = bytearray(ram)
        self.serves = serves
        self.next = 0
        self.device_next = 0
        self.asked = []
        self.received = b""
        self.sent = b""

    def send(self, spelled):
        self.sent += spelled
        self.link.sendall(spelled)

    def number(self):
        """The number of the next request."""
        self.next += 1
        return self.next - 1

    def layout(self):
        return EXTENDED if 1 in self.common else 0

    def bytes_of(self, count):
        got = b""
        while len(got) < count:
            piece = self.link.recv(count - len(got))
            if not piece:
                raise Closed(f"the device closed the link after {len(self.received)} bytes")
            got += piece
            self.received += piece
        return got

    def take(self):
        """The next packet of the device."""
        command, size, number, flags, device = struct.unpack(">5I", self.bytes_of(20))
        return Packet(command, number, flags, device, self.bytes_of(size))

    def rest(self):
        """Says that nothing more comes, and takes in what the device sends until it closes."""
        self.received += rest_of(self.link)

    def greet(self):
        """Both sides send their hello; what both offer is in common."""
        self.send(hello(self.caps, self.number()))
        theirs = self.take()
        if (theirs.command, theirs.number, theirs.flags) != (HELLO, 0, 0):
            raise Unlawful(f"{theirs} is no hello")
        self.device_next = 1
        self.common = tuple(cap for cap in caps_of(theirs) if cap in self.caps)

    def awaited(self, command, number):
        """The answer to the request of that number; what the device asks before it comes is served."""
        while True:
            came = self.take()
            if not came.flags & ANSWER:
                self.serve(came)
            elif (came.command, came.number, came.flags, came.device) == (command, number, ANSWER, 0):
                return came
            else:
                raise Unlawful(f"{came} doesn't answer command {command} with number {number}")

    def sync(self, at):
        """Brings the device to a time; everything that it asks until then is served."""
        number = self.number()
        self.send(sync(number, at))
        came = self.awaited(SYNC, number)
        if came.body != struct.pack(">Q", at):
            raise Unlawful(f"{came} answers a sync at {at}")

    def read(self, at, addr, size=4):
        """A read of a register: the code of its answer, and the value."""
        number, layout = self.number(), self.layout()
        self.send(access(READ, number, 0, at, addr, size, attributes=layout))
        got = access_of(self.awaited(READ, number))
        code = got.attributes // 256
        if got != Access(at, coded(code, layout), addr, size, got.data, b"") or len(got.data) != size:
            raise Unlawful(f"{got} answers a read of {size} bytes at {addr}")
        return code, int.from_bytes(got.data, "little")

    def write(self, at, addr, value, size=4, enables=b""):
        """A write of a register: the code of its answer."""
        number, layout = self.number(), self.layout()
        self.send(access(WRITE, number, 0, at, addr, size, value.to_bytes(size, "little"), enables, layout))
        got = access_of(self.awaited(WRITE, number))
        code = got.attributes // 256
        if got != Access(at, coded(code, layout), addr, size, b"", b""):
            raise Unlawful(f"{got} answers a write of {size} bytes at {addr}")
        return code

    def post(self, at, addr, value, size=4):
        """A write of a register that has no answer."""
        data = value.to_bytes(size, "little")
        self.send(access(WRITE, self.number(), POSTED, at, addr, size, data, attributes=self.layout()))

    def serve(self, came):
        """Does what the device asks, and answers it."""
        if came.number != self.device_next or came.device != 0:
            raise Unlawful(f"{came} should have number {self.device_next}")
        self.device_next += 1
        if came.command == INTERRUPT:
            self.serve_line(came)
        elif came.command == READ:
            self.serve_fetch(came.number, access_of(came))
        elif came.command == WRITE:
            self.serve_store(came.number, access_of(came))
        else:
            raise Unlawful(f"{came} is no request of a device")

    def answer(self, spelled):
        if self.serves:
            self.send(spelled)

    def serve_line(self, came):
        at, vector, line, level = struct.unpack(">QQIB", came.body)
        if vector != 0:
            raise Unlawful(f"{came} has a vector")
        posted = came.flags == POSTED
        self.asked.append(("posted" if posted else "line", at, line, level))
        if not posted and 3 in self.common:
            self.answer(interrupt(came.number, at, line, level, ANSWER))

    def place(self, asked):
        """Where an access stands in the memory, if it is wholly there."""
        place = asked.addr - RAM
        return place if 0 <= place <= len(self.ram) - asked.size else None

    def serve_fetch(self, number, asked):
        self.asked.append(("fetch", asked.time, asked.addr, asked.size))
        place = self.place(asked)
        code, data = (2, bytes(asked.size)) if place is None else (0, bytes(self.ram[place : place + asked.size]))
        attributes = coded(code, asked.attributes)
        self.answer(access(READ, number, ANSWER, asked.time, asked.addr, asked.size, data, attributes=attributes))

    def serve_store(self, number, asked):
        self.asked.append(("store", asked.time, asked.addr, asked.size))
        place = self.place(asked)
        if place is not None:
            for index, byte in enumerate(asked.data):
                if not asked.enables or asked.enables[index % len(asked.enables)]:
                    self.ram[place + index] = byte
        attributes = coded(2 if place is None else 0, asked.attributes)
        self.answer(access(WRITE, number, ANSWER, asked.time, asked.addr, asked.size, attributes=attributes))


def fed(link, pieces):
    """Sends pieces, each once the other side has read the one before it, as long as the other side reads."""
    with contextlib.suppress(BrokenPipeError, ConnectionResetError):
        for piece in pieces:
            until = time.monotonic() + SECONDS
            while struct.unpack("i", fcntl.ioctl(link, termios.TIOCOUTQ, bytes(4)))[0] and time.monotonic() < until:
                time.sleep(0)
            link.sendall(piece)


def cut(stream, size):
    """The bytes in pieces of that size."""
    return [stream[at : at + size] for at in range(0, len(stream), size)]


def started(words, folder=None, environment=None):
    return subprocess.Popen([PROGRAM, *words], cwd=folder, env=environment, stdin=subprocess.DEVNULL, stdout=subprocess.PIPE, stderr=subprocess.PIPE)


def accepted(listener, process):
    """The link of a program that connects, or nothing where it ends first."""
    listener.settimeout(0.05)
    until = time.monotonic() + SECONDS
    while time.monotonic() < until:
        has_ended = process.poll() is not None
        with contextlib.suppress(TimeoutError):
            link, _ = listener.accept()
            link.settimeout(SECONDS)
            return link
        if has_ended:
            return None
    raise TimeoutError("the program neither connected nor ended")


def ended(row, process, status, line):
    """The program's end, by itself."""
    try:
        out, err = process.communicate(timeout=SECONDS)
    except subprocess.TimeoutExpired:
        process.kill()
        process.communicate()
        failures.append(f"{row}: the program didn't end within {SECONDS} seconds")
        return
    check(row, "the status", process.returncode, status)
    check(row, "standard output", out, b"")
    check(row, "standard error", err.decode(), line)


def written(folder, files):
    """Writes files into a folder, by their names."""
    for name, content in files.items():
        with open(os.path.join(folder, name), "wb") as file:
            file.write(content)


def left_in(folder):
    """The files of a folder, by their names."""
    content = {}
    for name in os.listdir(folder):
        if os.path.isfile(os.path.join(folder, name)):
            with open(os.path.join(folder, name), "rb") as file:
                content[name] = file.read()
    return content


def talk(row, words, part, status=0, line="", files=None):
    """Starts `device socket WORDS` in a folder with these files and hands the machine's side of the link to `part`, which says what the
    machine does; then the machine sends nothing more and reads to the end, and the program's end is compared, with the line that `part`
    gives where it gives one. It gives the files that are left in the folder."""
    with tempfile.TemporaryDirectory() as folder, socket.socket(socket.AF_UNIX) as listener:
        written(folder, files or {})
        listener.bind(os.path.join(folder, "socket"))
        listener.listen()
        process = started(["device", "socket", *words], folder)
        try:
            link = accepted(listener, process)
            if link is None:
                failures.append(f"{row}: the program didn't connect")
            else:
                with link:
                    line = part(link) or line
                    rest_of(link)
        except (OSError, Closed, Unlawful) as error:
            failures.append(f"{row}: {type(error).__name__}: {error}")
        ended(row, process, status, line)
        return left_in(folder)
