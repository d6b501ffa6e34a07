"""What the program stands on: its crates, the checksum of their sources, and the manifest of the program in this folder."""

import hashlib
import os
import subprocess

TOP = os.path.dirname(os.path.dirname(os.path.abspath(__file__)))
CRATES = os.path.join(TOP, "crates")
BUILT = os.path.join(CRATES, "cosim", "out", "cosim")
PROGRAM = os.path.join(TOP, "dist", "cosim")
MANIFEST = os.path.join(TOP, "dist", "manifest")


def lines():
    """The line of each crate in crates.txt."""
    with open(os.path.join(TOP, "crates.txt"), encoding="utf-8") as file:
        found = [line.split("#")[0].strip() for line in file]
    return {line.split(":")[0].split()[0]: line for line in found if line}


def named():
    """Each crate of crates.txt, with the libraries that its line names."""
    return {name: line.split(":", 1)[1].split() for name, line in lines().items()}


def all_crates():
    """Each crate of crates.txt, with those of them that it stands on."""
    found = named()
    return {name: [crate for crate in below if crate in found] for name, below in found.items()}


def kit_libraries(name):
    """The libraries of the kit that a crate's line names."""
    found = named()
    return [library for library in found[name] if library not in found]


def below(name):
    """The crates that this one stands on, and itself, lowest first."""
    crates = all_crates()
    order = []

    def visit(crate):
        if crate not in order:
            for lower in crates[crate]:
                visit(lower)
            order.append(crate)

    visit(name)
    return {crate: crates[crate] for crate in order}


def size(name):
    """How many bytes a crate's sources have, by which the time of its proof is guessed."""
    total = 0
    for part in ("proofs", "specs", "src"):
        for folder, _, files in os.walk(os.path.join(CRATES, name, part)):
            total += sum(os.path.getsize(os.path.join(folder, file)) for file in files)
    return total


def seconds():
    """The seconds that crates took in a build that was timed; `dist/build 4 --times` prints such a list."""
    with open(os.path.join(TOP, "dist", "seconds"), encoding="utf-8") as file:
        return {name: float(taken) for name, taken in (line.split() for line in file)}


def ways(crates):
    """Of each crate how long the longest way over the crates above it is, itself among them, in seconds. Of a crate that wasn't
    timed they are guessed by the bytes of its sources."""
    timed = seconds()
    longest = {}
    for name in reversed(crates):
        above = [longest[upper] for upper in crates if name in crates[upper]]
        longest[name] = timed.get(name, size(name) / 1000) + max(above, default=0)
    return longest


def add_sources(total, name):
    """Adds a crate's sources with their paths to a checksum, and what the crate stands on."""
    total.update(f"{name}: {' '.join(all_crates()[name])}\n".encode())
    for part in ("proofs", "specs", "src"):
        paths = []
        for folder, _, files in os.walk(os.path.join(CRATES, name, part)):
            paths += [os.path.join(folder, file) for file in files]
        for path in sorted(paths):
            with open(path, "rb") as file:
                total.update(os.path.relpath(path, TOP).encode() + b"\n" + hashlib.sha256(file.read()).digest())


def stamp(name, version):
    """The checksum of all that a crate is proved of by this version of the kit: its sources, and those of the crates below it."""
    total = hashlib.sha256(version.encode())
    for crate in sorted(below(name)):
        total.update(" ".join(kit_libraries(crate)).encode() + b"\n")
        add_sources(total, crate)
    return total.hexdigest()


def text(path):
    """What a file holds; nothing where it isn't there."""
    try:
        with open(path, encoding="utf-8") as file:
            return file.read()
    except OSError:
        return ""


def sources():
    """The checksum of all that the program is proved and built of: its crates' sources with their paths, what each crate stands
    on, and the handles that it may use."""
    total = hashlib.sha256()
    for name in sorted(below("cosim")):
        add_sources(total, name)
    with open(os.path.join(TOP, "HANDLES"), "rb") as handles:
        total.update(handles.read())
    return total.hexdigest()


def checksum(path):
    """The SHA-256 of a file."""
    with open(path, "rb") as file:
        return hashlib.sha256(file.read()).hexdigest()


def toolchain():
    """The line of `rt version`, or nothing where there is no rt."""
    try:
        told = subprocess.run(["rt", "version"], stdout=subprocess.PIPE, stderr=subprocess.DEVNULL, check=True)
    except (OSError, subprocess.CalledProcessError):
        return None
    return told.stdout.decode().strip()


def manifest():
    """The lines of the manifest, by what they tell; nothing where it can't be read."""
    try:
        with open(MANIFEST, encoding="utf-8") as lines:
            return dict(line.rstrip("\n").split(": ", 1) for line in lines)
    except (OSError, ValueError):
        return {}


def is_of_these_sources():
    """Whether the program of this folder is the one that the manifest tells of, and that is of the sources here."""
    told = manifest()
    return os.path.exists(PROGRAM) and told.get("program") == checksum(PROGRAM) and told.get("sources") == sources()
