"""The same exchange in Python: `baseline.py SOCKET COUNT`. The second process is this program too."""

import os
import socket
import subprocess
import sys

ASKED, ANSWERED = 80, 84


def whole(link, size):
    got = b""
    while len(got) < size:
        piece = link.recv(size - len(got))
        if not piece:
            return None
        got += piece
    return got


def answer(name):
    link = socket.socket(socket.AF_UNIX)
    link.connect(name)
    while (asked := whole(link, ASKED)) is not None:
        link.sendall(asked + bytes(ANSWERED - ASKED))


def ask(name, count):
    listener = socket.socket(socket.AF_UNIX)
    listener.bind(name)
    listener.listen()
    child = subprocess.Popen([sys.executable, sys.argv[0], name])
    link, _ = listener.accept()
    os.unlink(name)
    total = 0
    for number in range(count):
        link.sendall(number.to_bytes(4, "big") + bytes(ASKED - 4))
        total += whole(link, ANSWERED)[3]
    link.close()
    child.wait()
    print(total)


if len(sys.argv) == 2:
    answer(sys.argv[1])
else:
    ask(sys.argv[1], int(sys.argv[2]))
