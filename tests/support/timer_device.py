#!/usr/bin/env python3
"""A timer that isn't cosim's: it serves the port of a machine as `timer_device.py device SOCKET CONFIG PORT`, from the rules of the profile.

It offers all capabilities, has line 0, and knows registers NOW, COMPARE and CONTROL. It answers until the machine closes the link.
"""

import os
import socket
import struct
import sys

sys.path.insert(0, os.path.dirname(os.path.dirname(os.path.abspath(__file__))))
from support.machine import ANSWER, HELLO, INTERRUPT, READ, SYNC, WRITE  # noqa: E402
from support.machine import access, access_of, coded, hello, interrupt, packet, sync  # noqa: E402

NOW, COMPARE, CONTROL = 0, 4, 8


class Received:
    """A packet that was received."""

    def __init__(self, command, number, flags, body):
        self.command, self.number, self.flags, self.body = command, number, flags, body


class Timer:
    def __init__(self, link):
        self.link = link
        self.compare = 0xFFFFFFFF
        self.control = 0
        self.shown = 0
        self.seen = 0
        self.pending = None
        self.asked = None
        self.number = 0

    def level(self, at):
        return 1 if self.control and at >= self.compare else 0

    def apply(self, at):
        """The line rule: a level that differs from the one shown becomes pending."""
        if self.pending is None and self.level(at) != self.shown:
            self.pending = (at, self.level(at))

    def advance(self, at):
        if self.seen < self.compare <= at:
            self.apply(self.compare)
        self.seen = max(self.seen, at)
        self.apply(self.seen)

    def accessed(self, came):
        """The code and the value of an access."""
        self.advance(came.time)
        whole = came.size == 4 and all(byte == 255 for byte in came.enables)
        if not whole:
            return 1, 0
        if came.addr not in (NOW, COMPARE, CONTROL):
            return 2, 0
        return 0, {NOW: self.seen & 0xFFFFFFFF, COMPARE: self.compare, CONTROL: self.control}[came.addr]

    def answer(self, received):
        came = access_of(received)
        code, value = self.accessed(came)
        if received.command == WRITE:
            if code == 0 and came.addr == NOW:
                code = 1
            if code == 0:
                self.set(came)
            data = b""
        else:
            data = struct.pack("<I", value) if code == 0 else bytes(came.size)
        self.send(access(received.command, received.number, ANSWER, came.time, came.addr, came.size, data, attributes=coded(code, came.attributes)))

    def set(self, came):
        value = struct.unpack("<I", came.data)[0]
        if came.addr == COMPARE:
            self.compare = value
        else:
            self.control = value & 1
        self.apply(self.seen)

    def send(self, spelled):
        self.link.sendall(spelled)

    def next(self):
        self.number += 1
        return self.number - 1

    def ask(self):
        """Sends the level that is pending, and waits for its answer."""
        at, level = self.pending
        self.asked = self.next()
        self.send(interrupt(self.asked, at, 0, level))

    def fed(self):
        self.shown = self.pending[1]
        self.pending, self.asked = None, None
        self.apply(self.seen)

    def synced(self, received):
        """At a boundary all that is pending is asked before the answer."""
        at = struct.unpack(">Q", received.body)[0]
        self.advance(at)
        while self.pending is not None:
            self.ask()
            while self.asked is not None:
                self.take(self.received())
        self.send(sync(received.number, at, ANSWER))

    def take(self, received):
        if received.command == INTERRUPT:
            self.fed()
        elif received.command in (READ, WRITE):
            self.answer(received)
        elif received.command == SYNC:
            self.synced(received)
        elif received.command != HELLO:
            sys.exit(1)

    def bytes_of(self, count):
        got = b""
        while len(got) < count:
            piece = self.link.recv(count - len(got))
            if not piece:
                sys.exit(0 if not got and count == 20 else 1)
            got += piece
        return got

    def received(self):
        command, size, number, flags, _ = struct.unpack(">5I", self.bytes_of(20))
        return Received(command, number, flags, self.bytes_of(size))

    def serve(self):
        self.send(hello(number=self.next()))
        while True:
            self.take(self.received())


def main():
    link = socket.socket(socket.AF_UNIX)
    link.connect(sys.argv[2])
    Timer(link).serve()


main()
