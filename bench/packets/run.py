#!/usr/bin/env python3
"""Times `cosim show` and `cosim pack` over a stream of mixed packets, beside plain Rust that does the same work, in one run.

    bench/packets/run.py COSIM [MEBIBYTES [show|pack]]

It times both commands, or the one that is named. Prints seconds (the best of three), the ratio to the baseline, and the peak memory of each.
"""
import os
import subprocess
import sys
import tempfile
import time

HERE = os.path.dirname(os.path.abspath(__file__))


def timed(words, out):
    """The best seconds of three runs, and the greatest peak memory in MiB."""
    best, peak = None, 0
    for _ in range(3):
        with open(out, "wb") as sink:
            begin = time.monotonic()
            child = subprocess.Popen(words, stdout=sink)
            _, status, usage = os.wait4(child.pid, 0)
            seconds = time.monotonic() - begin
        if status != 0:
            sys.exit(f"{words} ended with {status}")
        best = seconds if best is None else min(best, seconds)
        peak = max(peak, usage.ru_maxrss // 1024)
    return best, peak


def same(first, second):
    return subprocess.run(["cmp", "-s", first, second]).returncode == 0


def plain(text, out):
    """A text without the marks of loose spellings, which `pack` doesn't read."""
    with open(text, "rb") as lines, open(out, "wb") as sink:
        sink.writelines(line.replace(b" loose\n", b"\n") for line in lines)


def main():
    cosim, mebibytes = os.path.abspath(sys.argv[1]), int(sys.argv[2]) if len(sys.argv) > 2 else 64
    commands = sys.argv[3:] or ["show", "pack"]
    with tempfile.TemporaryDirectory() as folder:
        at = lambda name: os.path.join(folder, name)
        subprocess.run(["rustc", "--edition", "2021", "-O", "-o", at("baseline"), os.path.join(HERE, "baseline.rs")], check=True)
        subprocess.run([sys.executable, os.path.join(HERE, "make_stream.py"), at("show"), str(mebibytes)], check=True)
        if "pack" in commands:
            with open(at("text"), "wb") as text:
                subprocess.run([at("baseline"), "show", at("show")], stdout=text, check=True)
            plain(at("text"), at("pack"))
        for name in commands:
            base, base_peak = timed([at("baseline"), name, at(name)], at("expected"))
            ours, ours_peak = timed([cosim, name, at(name)], at("printed"))
            if not same(at("expected"), at("printed")):
                sys.exit(f"{name}: the two outputs differ")
            sizes = [os.path.getsize(at(file)) >> 20 for file in (name, "printed")]
            print(f"{name}: {sizes[0]} MiB to {sizes[1]} MiB; ours {ours:.2f} s, {ours_peak} MiB; plain Rust {base:.2f} s, {base_peak} MiB; ratio {ours / base:.2f}")


main()
