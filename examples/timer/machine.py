#!/usr/bin/env python3
"""A machine of your own, which uses a timer of cosim.

It listens on a Unix socket. A process `cosim device SOCKET timer 3` connects to it and is the timer:

    python3 machine.py SOCKET
    cosim device SOCKET timer 3

A packet is a header of five numbers of four bytes (command, bytes of the body, number, flags, device) and a body. Flag 2 marks the answer to
the request of that number. Times are in ticks. Numbers have their highest byte first; the data of a register have their lowest byte first.
"""

import socket
import struct
import sys

HELLO, WRITE, INTERRUPT, SYNC = 1, 4, 5, 6
ANSWER = 2

# the timer's registers: its level is high from the tick COMPARE on, where bit 0 of CONTROL is set
COMPARE, CONTROL = 4, 8


class Machine:
    def __init__(self, link):
        self.link = link
        self.number = 0

    def send(self, command, number, flags, body):
        self.link.sendall(struct.pack(">5I", command, len(body), number, flags, 0) + body)

    def receive(self):
        command, size, number, flags, _ = struct.unpack(">5I", self.link.recv(20, socket.MSG_WAITALL))
        return command, number, flags, self.link.recv(size, socket.MSG_WAITALL)

    def request(self, command, body):
        """Sends a request and waits for its answer. An interrupt that comes before the answer is shown, and answered."""
        self.number += 1
        self.send(command, self.number, 0, body)
        while True:
            came, number, flags, body = self.receive()
            if flags & ANSWER:
                return body
            if came == INTERRUPT:
                tick, _, line, level = struct.unpack(">QQIB", body)
                print(f"interrupt: line {line} is {level} from tick {tick} on")
                self.send(INTERRUPT, number, ANSWER, body)

    def greet(self):
        """Each side says its version, and which of the capabilities 1, 2 and 3 it has."""
        self.send(HELLO, 0, 0, struct.pack(">HHIHHIII", 4, 3, 32, 3, 0, 1, 2, 3))
        major, minor = struct.unpack(">HH", self.receive()[3][:4])
        print(f"the timer speaks version {major}.{minor}")

    def write(self, tick, register, value):
        """Writes a register: time, attributes, address, number of bytes, width, width of the stream, master, and the data."""
        self.request(WRITE, struct.pack(">QQQIIIH", tick, 0, register, 4, 0, 4, 0) + struct.pack("<I", value))

    def sync(self, tick):
        """Brings the timer to a tick: whatever it has to say until then comes before the answer."""
        self.request(SYNC, struct.pack(">Q", tick))
        print(f"the timer is at tick {tick}")


def main():
    with socket.create_server(sys.argv[1], family=socket.AF_UNIX) as listener:
        print("listening", flush=True)
        link, _ = listener.accept()
    with link:
        machine = Machine(link)
        machine.greet()
        machine.write(1, COMPARE, 50)
        machine.write(2, CONTROL, 1)
        machine.sync(40)
        machine.sync(60)
        machine.write(61, CONTROL, 0)
        machine.sync(80)


main()
