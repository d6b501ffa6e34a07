"""The built programs, and the mismatches that a script of tests/ finds.

The program is COSIM, where that is set; else crates/cosim/out/cosim, where `rt ci` and `rt run` leave it; where it isn't there, `rt run`
builds it. So is the program that drives a machine's end over links in memory: MEMORY_RUN, or crates/memory_run/out/memory_run.
"""

import os
import subprocess
import sys

TOP = os.path.dirname(os.path.dirname(os.path.dirname(os.path.abspath(__file__))))


def place(crate, variable):
    """Where the program of a crate is."""
    return os.path.abspath(os.environ.get(variable) or os.path.join(TOP, "crates", crate, "out", crate))


PROGRAM = place("cosim", "COSIM")
MEMORY_RUN = place("memory_run", "MEMORY_RUN")
SECONDS = 60
SHOWN = 50

failures = []


def built(program=PROGRAM, crate="cosim"):
    """Builds a program where no run of the gate left it."""
    folder = os.path.join(TOP, "crates", crate)
    if not os.path.exists(program):
        subprocess.run(["rt", "run"], cwd=folder, stdout=subprocess.DEVNULL, stderr=subprocess.DEVNULL, check=False)
    if not os.path.exists(program):
        sys.exit(f"{program} isn't there, and `rt run` in {folder} didn't build it")


def run(words, folder=None, out=subprocess.PIPE, program=PROGRAM):
    """A program run to its end in a folder, with nothing on standard input."""
    return subprocess.run([program, *words], cwd=folder, stdin=subprocess.DEVNULL, stdout=out, stderr=subprocess.PIPE, timeout=SECONDS, check=False)


def check(row, what, got, wanted):
    if got != wanted:
        failures.append(f"{row}: {what} is {got!r}, and not {wanted!r}")


def told(script):
    """Prints the mismatches and their number; the status that the script is to end with."""
    for failure in failures[:SHOWN]:
        print(failure)
    print(f"{script}: {len(failures)} mismatches")
    return 1 if failures else 0
