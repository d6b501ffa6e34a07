#!/usr/bin/env python3
"""Starts the built program on sparse files at the bound of what it reads, 134,217,728 bytes.

A file of that size is read, and one of a byte more is a failure of the files, whatever stands in it. The script ends with 1 on any mismatch.
"""

import os
import sys
import tempfile

from support.program import built, check, run, told

MOST = 134_217_728


def sparse(folder, name, size):
    with open(os.path.join(folder, name), "wb") as file:
        file.truncate(size)


def main():
    built()
    with tempfile.TemporaryDirectory() as folder:
        sparse(folder, "most", MOST)
        sparse(folder, "more", MOST + 1)
        # zeros are no line of packets
        for words, status, line in [
            (["pack", "most"], 3, b"cosim: input: Line 1\n"),
            (["pack", "more"], 5, b"cosim: outside: files 1\n"),
            (["show", "more"], 5, b"cosim: outside: files 1\n"),
            (["dis", "more"], 5, b"cosim: outside: files 1\n"),
            (["direct", "more"], 5, b"cosim: outside: files 1\n"),
        ]:
            ended = run(words, folder)
            check(words, "the status", ended.returncode, status)
            check(words, "standard output", ended.stdout, b"")
            check(words, "standard error", ended.stderr, line)
    return told("large_files")


if __name__ == "__main__":
    sys.exit(main())
