#!/usr/bin/env python3
"""Runs machines with a process for each device, `cosim run`, and compares what is printed with `cosim direct`.

The examples and worked machines are run, one of them many times while other processes keep the processors busy. Then what goes wrong: a
child is killed at a moment that is drawn, a program isn't there, or ends at once, or never connects; a socket's file is there already, or
its folder isn't; the output is full; children end with other statuses than 0. Each row looks at the status, at the line on standard error,
and that no process and no socket file of the run is left. A timer that is written in Python serves a port.
The script ends with 1 on any mismatch, and each row by itself within a bound.
"""

import os
import random
import shutil
import signal
import socket
import subprocess
import sys
import tempfile
import time

from memory_runs import COPY, DISK, EXAMPLES, TIMER
from local_runs import CROSSING, NULLS, UART
from support.configuration import device, script_machine
from support.machine import written
from support.program import PROGRAM, SECONDS, built, check, run, told

AGAIN = 20
KILLED = 12
BUSY = 6
LONG = {"c": script_machine(4000000) + device("timer", 0) + device("timer", 1), "s": "write 0 0x4 4 0x5\n" + "read 0 0x0 4\n" * 60000}
TWO = {"c": script_machine(20) + device("timer", 0) + device("timer", 1), "s": "write 0 0x4 4 0x5\nread 1 0x0 4\n"}
RESULT = {**DISK, "c": DISK["c"].replace('disk = "d"', 'disk = "d"\nresult = "r"')}
MACHINES = {
    "a byte over the UART": UART,
    "two null devices": NULLS,
    "a fetch that crosses a read": CROSSING,
    "a timer": TIMER,
    "a disk's transfers, and its result": RESULT,
    "a timer, a DMA and a null device": COPY,
    "two timers": TWO,
}


def with_sockets(text):
    """The configuration with a socket for each port."""
    front, *ports = text.split("[[port]]\n")
    return front + "".join(f'[[port]]\nsocket = "p{number}"\n{port}' for number, port in enumerate(ports))


def written_in(folder, files):
    written(folder, {name: content.encode() if isinstance(content, str) else content for name, content in files.items()})


def folder_of(files):
    folder = tempfile.mkdtemp(prefix="run")
    written_in(folder, {**files, "c": with_sockets(files["c"])})
    return folder


def left(folder):
    """The processes that work in a folder."""
    found = []
    for name in os.listdir("/proc"):
        try:
            if name.isdigit() and os.readlink(f"/proc/{name}/cwd") == folder and open(f"/proc/{name}/cmdline", "rb").read():
                found.append(int(name))
        except OSError:
            pass
    return found


def sockets(folder):
    return sorted(name for name in os.listdir(folder) if name.startswith("p") and name[1:].isdigit())


def check_clean(row, folder, kept=()):
    """No process of the run is left, and no socket file. A killed process needs a moment to go."""
    end = time.monotonic() + 10
    while left(folder) and time.monotonic() < end:
        time.sleep(0.02)
    check(row, "the processes that are left", left(folder), [])
    check(row, "the socket files that are left", sockets(folder), list(kept))


def result_of(folder, done):
    """What a finished program printed, its status, and the files that it wrote."""
    result = os.path.join(folder, "r")
    return done.returncode, done.stdout, done.stderr, open(result, "rb").read() if os.path.exists(result) else None


def direct_text(folder):
    return run(["direct", "c"], folder).stdout


def same_text(row, files):
    folder = folder_of(files)
    local = result_of(folder, run(["local", "c"], folder))
    text = direct_text(folder)
    if os.path.exists(os.path.join(folder, "r")):
        os.remove(os.path.join(folder, "r"))
    check(row, "the run", result_of(folder, run(["run", "c", PROGRAM], folder)), (0, text, b"", local[3]))
    check_clean(row, folder)
    shutil.rmtree(folder)


def example_files(name):
    folder = os.path.join(EXAMPLES, name)
    files = {file: open(os.path.join(folder, file), "rb").read() for file in os.listdir(folder)}
    text = files[f"{name}.toml"].decode()
    return {**files, "c": "".join(line for line in text.splitlines(True) if not line.startswith("socket"))}


def examples():
    for name in ("hello", "dma_copy", "echo"):
        folder = folder_of(example_files(name))
        run(["asm", f"{name}.s", f"{name}.bin"], folder)
        check(name, "the run", result_of(folder, run(["run", "c", PROGRAM], folder)), (0, direct_text(folder), b"", None))
        check_clean(name, folder)
        shutil.rmtree(folder)


def under_load():
    """Busy processes on all processors, and runs with other priorities and on fewer processors: one text."""
    row = "runs beside busy processes"
    folder = folder_of(COPY)
    text = direct_text(folder)
    busy = [subprocess.Popen([sys.executable, "-c", "while True: pass"]) for _ in range(BUSY)]
    try:
        for number in range(AGAIN):
            front = [["nice", "-n", "10"], ["taskset", "-c", "0"], ["nice", "-n", "19", "taskset", "-c", "0"], []][number % 4]
            front = [word for word in front] if all(shutil.which(word) for word in front if word in ("nice", "taskset")) else []
            done = subprocess.run([*front, PROGRAM, "run", "c", PROGRAM], cwd=folder, capture_output=True, timeout=SECONDS, check=False)
            check(row, f"run {number}", result_of(folder, done), (0, text, b"", None))
    finally:
        for process in busy:
            process.kill()
            process.wait()
    check_clean(row, folder)
    shutil.rmtree(folder)


def children_of(folder, process):
    return [number for number in left(folder) if number != process.pid]


def killed(draw, number):
    """A child is killed at a moment that is drawn: its link or the wait for it fails, and nothing is printed; or the run was over."""
    row = f"a killed child {number}"
    folder = folder_of(LONG)
    process = subprocess.Popen([PROGRAM, "run", "c", PROGRAM], cwd=folder, stdout=subprocess.PIPE, stderr=subprocess.PIPE)
    while not children_of(folder, process) and process.poll() is None:
        time.sleep(0.002)
    time.sleep(draw.uniform(0, 0.15))
    children = children_of(folder, process)
    # where it hadn't connected yet, the run would wait for another
    if children and not sockets(folder):
        os.kill(draw.choice(children), signal.SIGKILL)
    try:
        out, err = process.communicate(timeout=SECONDS)
    except subprocess.TimeoutExpired:
        process.kill()
        out, err = process.communicate()
        check(row, "the end", "none", "in time")
    lines = (b"cosim: peer p", b"cosim: outside: link p", b"cosim: outside: spawner ")
    if process.returncode == 0:
        check(row, "what is printed", out == direct_text(folder), True)
    else:
        check(row, "the status", process.returncode in (4, 5), True)
        check(row, "what is printed", out, b"")
        check(row, "the line", err.splitlines()[-1].startswith(lines) if err else err, True)
    check_clean(row, folder)
    shutil.rmtree(folder)


def refused(row, files, words, status, line, kept=(), out=subprocess.PIPE, before=None):
    """A run that ends with a status and its line, prints nothing, and leaves nothing."""
    folder = folder_of(files)
    if before:
        before(folder)
    done = run(["run", "c", *words], folder, out)
    check(row, "the status", done.returncode, status)
    check(row, "the last line", done.stderr.decode().splitlines()[-1:], [line])
    check(row, "what is printed", done.stdout or b"", b"")
    check_clean(row, folder, kept)
    shutil.rmtree(folder)


def script_in(folder, text):
    name = os.path.join(folder, "program")
    with open(name, "w", encoding="utf-8") as file:
        file.write(text)
    os.chmod(name, 0o755)


def ending_with(*statuses):
    """A program that serves a port as cosim does, and then ends with the port's status."""
    cases = "".join(f'{port}) exit {status};; ' for port, status in enumerate(statuses))
    return lambda folder: script_in(folder, f'#!/bin/sh\n"{PROGRAM}" "$@" || exit 9\ncase "$4" in {cases}esac\n')


def refusals():
    refused("a child that ends with 3", TWO, ["./program"], 8, "cosim: child p0 status 3", before=ending_with(3, 0))
    refused("children that end with 3 and 4", TWO, ["./program"], 8, "cosim: child p0 status 3", before=ending_with(3, 4))
    refused("a second child that ends with 255", TWO, ["./program"], 8, "cosim: child p1 status 255", before=ending_with(0, 255))
    refused("a program that isn't there", TWO, ["./absent"], 5, "cosim: outside: spawner 1")
    refused("a socket's file that is there", TWO, [PROGRAM], 5, "cosim: outside: net 1", ("p1",), before=lambda folder: written(folder, {"p1": b""}))
    with open("/dev/full", "wb") as full:
        refused("an output that is full", TWO, [PROGRAM], 5, "cosim: outside: out 1", out=full)


def no_folder():
    row = "a socket whose folder isn't there"
    folder = tempfile.mkdtemp(prefix="run")
    written_in(folder, {**TWO, "c": with_sockets(TWO["c"]).replace('"p1"', '"absent/p1"')})
    done = run(["run", "c", PROGRAM], folder)
    check(row, "the end", (done.returncode, done.stdout, done.stderr), (5, b"", b"cosim: outside: net 1\n"))
    check_clean(row, folder)
    shutil.rmtree(folder)


def stranger(row, text):
    """A program that doesn't connect: the run waits in its accept, until another connects in its place and closes."""
    folder = folder_of(UART)
    script_in(folder, text)
    process = subprocess.Popen([PROGRAM, "run", "c", "./program"], cwd=folder, stdout=subprocess.PIPE, stderr=subprocess.PIPE)
    end = time.monotonic() + SECONDS
    while not sockets(folder) and time.monotonic() < end:
        time.sleep(0.01)
    time.sleep(0.3)
    check(row, "whether it waits", process.poll(), None)
    for child in children_of(folder, process):
        os.kill(child, signal.SIGKILL)
    link = socket.socket(socket.AF_UNIX)
    link.connect(os.path.join(folder, "p0"))
    link.close()
    out, err = process.communicate(timeout=SECONDS)
    check(row, "the status", process.returncode in (4, 5), True)
    check(row, "what is printed", out, b"")
    check(row, "the line", err.startswith((b"cosim: peer p0: ", b"cosim: outside: link p0 ")), True)
    check_clean(row, folder)
    shutil.rmtree(folder)


def foreign_timer():
    row = "a timer that is written in Python"
    folder = folder_of(TIMER)
    program = os.path.join(os.path.dirname(os.path.abspath(__file__)), "support", "timer_device.py")
    check(row, "the run", result_of(folder, run(["run", "c", program], folder)), (0, direct_text(folder), b"", None))
    check_clean(row, folder)
    shutil.rmtree(folder)


def main():
    built()
    draw = random.Random(23)
    for row, files in MACHINES.items():
        same_text(row, files)
    examples()
    under_load()
    for number in range(KILLED):
        killed(draw, number)
    refusals()
    no_folder()
    stranger("a program that ends at once", "#!/bin/sh\nexit 0\n")
    stranger("a program that never connects", "#!/bin/sh\nexec sleep 600\n")
    foreign_timer()
    return told("run_processes.py")


sys.exit(main())
