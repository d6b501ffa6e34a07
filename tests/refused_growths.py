#!/usr/bin/env python3
"""Refuses each growth of memory of the built programs in turn, and says how many were refused.

A small library, made here with the C compiler and loaded before the C library's own functions, counts the calls that ask for memory and
refuses the one with a given number. Each run then has to end with 6 and its line, or with the status, all bytes and all files of a run
that was refused nothing. Where there is no C compiler, the script says so and tries nothing. It ends with 1 on any mismatch.
"""

import contextlib
import os
import shutil
import socket
import subprocess
import sys
import tempfile

from support.configuration import config, device, script_machine
from support.machine import RAM, SECONDS, Closed, Machine, Unlawful, accepted, left_in, started, written
from support.program import MEMORY_RUN, PROGRAM, built, check, failures, told

MOST = 400

SHIM = r"""
#define _GNU_SOURCE
#include <dlfcn.h>
#include <stddef.h>
#include <stdlib.h>

static long asked = 0;

static int is_refused(void) {
    static long number = -2;
    if (number == -2) {
        const char *text = getenv("REFUSED_GROWTH");
        number = text ? atol(text) : -1;
    }
    return ++asked == number;
}

void *malloc(size_t size) {
    static void *(*next)(size_t);
    if (!next) next = dlsym(RTLD_NEXT, "malloc");
    return is_refused() ? NULL : next(size);
}

void *realloc(void *old, size_t size) {
    static void *(*next)(void *, size_t);
    if (!next) next = dlsym(RTLD_NEXT, "realloc");
    return is_refused() ? NULL : next(old, size);
}

int posix_memalign(void **out, size_t align, size_t size) {
    static int (*next)(void **, size_t, size_t);
    if (!next) next = dlsym(RTLD_NEXT, "posix_memalign");
    return is_refused() ? 12 : next(out, align, size);
}

void *aligned_alloc(size_t align, size_t size) {
    static void *(*next)(size_t, size_t);
    if (!next) next = dlsym(RTLD_NEXT, "aligned_alloc");
    return is_refused() ? NULL : next(align, size);
}
"""

DMA = {"c": config(("dma", 'line = 2\nsocket = "s"'))}
DISK = {"c": config(("disk", 'line = 2\ndisk = "disk"\nresult = "out"\nsocket = "s"')), "disk": bytes(512), "out": b"what was there before"}

# a machine that does what a script says, with a timer and a DMA that copies a chunk
MACHINE = {
    "c": (script_machine(40) + device("timer", 0) + device("dma", 1)).encode(),
    "s": b"write 0 0x4 4 0x3\nwrite 0 0x8 4 0x1\nwrite 1 0x0 4 0x80000000\nwrite 1 0x4 4 0x80000800\nwrite 1 0x8 4 0x41\n"
    b"write 1 0x10 4 0x3\nwait 8\nread 1 0x14 4\n",
}


def sets(machine, *settings):
    for tick, (addr, value) in enumerate(settings):
        machine.write(tick, addr, value)


def synchronises(machine):
    machine.sync(1000)


def sets_a_timer(machine):
    """The level of a timer rises and falls."""
    sets(machine, (4, 5), (8, 1))
    machine.sync(10)
    machine.write(11, 8, 0)
    machine.sync(20)


def copies(machine):
    """A DMA copies two chunks and raises its level."""
    sets(machine, (0, RAM), (4, RAM + 1024), (8, 100), (16, 3))
    machine.sync(10)
    machine.read(11, 20)


def stores(machine):
    """A disk takes a sector from the front of RAM."""
    sets(machine, (0, 0), (4, 1), (8, RAM), (12, 3))
    machine.sync(10)


def served(words, talks, files=None):
    """The device program with these words over a machine that greets, talks and closes: its status, its line, what it sent, and the files
    that it left."""

    def run(environment):
        with tempfile.TemporaryDirectory() as folder, socket.socket(socket.AF_UNIX) as listener:
            written(folder, files or {})
            listener.bind(os.path.join(folder, "socket"))
            listener.listen()
            process = started(["device", "socket", *words], folder, environment)
            sent = b""
            link = accepted(listener, process)
            if link is not None:
                machine = Machine(link, ram=bytes(range(256)) * 16)
                try:
                    with link, contextlib.suppress(OSError, Closed):
                        machine.greet()
                        talks(machine)
                        machine.rest()
                except Unlawful as error:
                    failures.append(f"{words}: {error}")
                sent = machine.received
            _, line = process.communicate(timeout=SECONDS)
            return process.returncode, line, sent, left_in(folder)

    return run


def listed(environment):
    """The same of the help text, which is printed and needs no machine."""
    done = subprocess.run([PROGRAM, "help"], env=environment, capture_output=True, timeout=SECONDS, check=False)
    return done.returncode, done.stderr, done.stdout, {}


def driven(files):
    """The same of a machine's end that is driven in memory over its devices' ends. The program of tests prints why it ended behind what it
    printed; where it has no room for its words, it says that they aren't right."""

    def run(environment):
        with tempfile.TemporaryDirectory() as folder:
            written(folder, files)
            words = [MEMORY_RUN, "config", "c", "0"]
            done = subprocess.run(words, cwd=folder, env=environment, capture_output=True, timeout=SECONDS, check=False)
            for status, line in ((6, b"NoMemory\n"), (1, b"Words\n")):
                if done.returncode == status and done.stdout.endswith(line):
                    return 6, b"cosim: no memory\n", done.stdout.removesuffix(line), {}
            return done.returncode, b"", done.stdout, {}

    return run


def refuse_each(row, run, shim, before):
    """How many growths were refused, until a run asks for no more. A run that is refused one leaves the files as before or as a whole run
    does."""
    environment = {**os.environ, "LD_PRELOAD": shim}
    whole = run(environment)
    check(row, "status and line of a run that is refused nothing", whole[:2], (0, b""))
    last, same = 0, 0
    for number in range(1, MOST):
        status, line, sent, files = ended = run({**environment, "REFUSED_GROWTH": str(number)})
        if ended == whole:
            same += 1
            if same > 8:
                break
            continue
        last, same = number, 0
        check(row, f"status and line at growth {number}", (status, line), (6, b"cosim: no memory\n"))
        check(row, f"what was sent at growth {number}", whole[2].startswith(sent), True)
        check(row, f"whether the files are whole at growth {number}", files in (before, whole[3]), True)
    return last


def main():
    built()
    built(MEMORY_RUN, "memory_run")
    compiler = shutil.which("cc") or shutil.which("gcc")
    if compiler is None:
        print("refused_growths: no C compiler here, skipped")
        return 0
    with tempfile.TemporaryDirectory() as folder:
        source, shim = os.path.join(folder, "shim.c"), os.path.join(folder, "shim.so")
        with open(source, "w", encoding="utf-8") as file:
            file.write(SHIM)
        subprocess.run([compiler, "-shared", "-fPIC", "-o", shim, source, "-ldl"], check=True)
        for row, run, files in [
            ("device null", served(["null"], synchronises), {}),
            ("device timer", served(["timer", "3"], sets_a_timer), {}),
            ("a DMA's device", served(["c", "0"], copies, DMA), DMA),
            ("a disk's device", served(["c", "0"], stores, DISK), DISK),
            ("a machine over its devices", driven(MACHINE), {}),
            ("help", listed, {}),
        ]:
            print(f"refused_growths: {refuse_each(row, run, shim, files)} growths of {row} were refused in turn")
    return told("refused_growths")


if __name__ == "__main__":
    sys.exit(main())
