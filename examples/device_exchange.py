#!/usr/bin/env python3
"""Starts a device program against a small peer and shows what they send each other.

The peer plays a machine: it listens on a Unix socket, sends its hello and one synchronisation request, and closes.
The device is `cosim device SOCKET null`. The program is crates/cosim/out/cosim; where it isn't there, `rt run` proves
and builds it first, which takes some minutes.
"""

import os
import socket
import struct
import subprocess
import sys
import tempfile

TOP = os.path.dirname(os.path.dirname(os.path.abspath(__file__)))
CRATE = os.path.join(TOP, "crates", "cosim")
PROGRAM = os.path.join(CRATE, "out", "cosim")

NAMES = {0: "nop", 1: "hello", 2: "cfg", 3: "read", 4: "write", 5: "interrupt", 6: "sync"}


def hello(caps):
    body = struct.pack(">HHIHH", 4, 3, 32, len(caps), 0) + b"".join(struct.pack(">I", cap) for cap in caps)
    return struct.pack(">5I", 1, len(body), 0, 0, 0) + body


def sync(number, tick):
    return struct.pack(">5IQ", 6, 8, number, 0, 0, tick)


def whole(link, count):
    """So many bytes, or fewer where the other side closed."""
    got = b""
    while len(got) < count and (piece := link.recv(count - len(got))):
        got += piece
    return got


def packet(link):
    """The next packet: its header of five numbers, and its body."""
    header = whole(link, 20)
    if len(header) < 20:
        sys.exit("the device closed the stream")
    return header, whole(link, struct.unpack(">5I", header)[1])


def show(side, header, body):
    cmd, _, number, flags, _ = struct.unpack(">5I", header)
    print(f"{side} {NAMES.get(cmd, cmd)} number {number} flags {flags}: {header.hex(' ', 4)} | {body.hex()}")


def main():
    if not os.path.exists(PROGRAM):
        print("building the program by `rt run`")
        subprocess.run(["rt", "run"], cwd=CRATE, stdout=subprocess.DEVNULL, stderr=subprocess.DEVNULL, check=False)
    with tempfile.TemporaryDirectory() as folder:
        path = os.path.join(folder, "socket")
        with socket.socket(socket.AF_UNIX) as listener:
            listener.bind(path)
            listener.listen()
            device = subprocess.Popen([PROGRAM, "device", path, "null"])
            link, _ = listener.accept()
            with link:
                link.settimeout(20)
                for sent in hello([1, 2, 3]), sync(7, 1000):
                    link.sendall(sent)
                    show("machine:", sent[:20], sent[20:])
                    show("device: ", *packet(link))
        status = device.wait(20)
        print(f"the device ended with status {status}")
        return status


if __name__ == "__main__":
    sys.exit(main())
