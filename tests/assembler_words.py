#!/usr/bin/env python3
"""Compares the images that `cosim asm` writes with those of GNU's assembler for RISC-V, and lists them back by `cosim dis`.

It needs GNU binutils for RISC-V; where they aren't installed it says so and ends with 0.
The script ends with 1 on any mismatch.
"""

import os
import random
import re
import shutil
import subprocess
import sys
import tempfile

from support.program import TOP, built, failures, run, told

EXAMPLE = os.path.join(TOP, "examples", "one_byte.s")
PREFIXES = ["riscv64-unknown-elf-", "riscv32-unknown-elf-", "riscv64-linux-gnu-", "riscv64-elf-"]
TOOLS = ["as", "ld", "objcopy"]
ROUNDS = 40

REGISTER_FORMS = ["add", "sub", "sll", "slt", "sltu", "xor", "srl", "or", "and", "sra"]
IMMEDIATES = ["addi", "slti", "sltiu", "xori", "ori", "andi"]
SHIFTS = ["slli", "srli", "srai"]
ADDRESSED = ["jalr", "lb", "lh", "lw", "lbu", "lhu", "sb", "sh", "sw"]
BRANCHES = ["beq", "bne", "blt", "bge", "bltu", "bgeu"]
CSRS = ["mstatus", "misa", "mie", "mtvec", "mscratch", "mepc", "mcause", "mtval", "mip", "mvendorid", "marchid", "mimpid", "mhartid"]
WHOLE = ["ecall", "ebreak", "mret", "wfi"]

# a loop over labels on both sides of their uses, with comments and blanks
LABELS = """\
# counts down
start:  addi  x1, x0, 5
again:  beq   x1, x0, done
        addi  x1, x1, -1 # one less
        jal   x0, again
        .word 0xdeadbeef
done:
        bne   x1, x0, start
        jal   x5, again
"""


def tools():
    """The first prefix under which all tools are installed."""
    for prefix in PREFIXES:
        if all(shutil.which(prefix + tool) for tool in TOOLS):
            return prefix
    return None


def drawn_lines():
    """Each form with registers and numbers from all over their ranges, in the spelling of a listing."""
    draw = random.Random(1)

    def register():
        return f"x{draw.randrange(32)}"

    def small():
        return draw.choice([-2048, -1, 0, 1, 2047, draw.randrange(-2048, 2048)])

    def even(low, high):
        return 2 * draw.choice([low // 2, -1, 0, 1, high // 2, draw.randrange(low // 2, high // 2 + 1)])

    for _ in range(ROUNDS):
        for name in ["lui", "auipc"]:
            yield f"{name} {register()}, {draw.choice([0, 1, 0x80000, 0xfffff, draw.randrange(1 << 20)])}"
        yield f"jal {register()}, {even(-(1 << 20), (1 << 20) - 2)}"
        for name in BRANCHES:
            yield f"{name} {register()}, {register()}, {even(-4096, 4094)}"
        for name in ADDRESSED:
            yield f"{name} {register()}, {small()}({register()})"
        for name in IMMEDIATES:
            yield f"{name} {register()}, {register()}, {small()}"
        for name in SHIFTS:
            yield f"{name} {register()}, {register()}, {draw.randrange(32)}"
        for name in REGISTER_FORMS:
            yield f"{name} {register()}, {register()}, {register()}"
        for name in ["csrrw", "csrrs", "csrrc"]:
            yield f"{name} {register()}, {draw.choice(CSRS)}, {register()}"
        for name in ["csrrwi", "csrrsi", "csrrci"]:
            yield f"{name} {register()}, {draw.choice(CSRS)}, {draw.randrange(32)}"
        yield from WHOLE


def for_gnu(line):
    """The line with a distance from itself in place of a number as a target, which GNU takes as an address."""
    return re.sub(r"^((?:jal|b[a-z]+) .*, )(-?[0-9]+)$", lambda found: f"{found[1]}.{int(found[2]):+d}", line)


def gnu_image(prefix, folder, text):
    source, linked, image = (os.path.join(folder, name) for name in ["gnu.s", "gnu.elf", "gnu.bin"])
    with open(source, "w", encoding="ascii") as file:
        file.write(".option norvc\n.option norelax\n.text\n")
        file.writelines(for_gnu(line) + "\n" for line in text.splitlines())
    subprocess.run([prefix + "as", "-march=rv32i_zicsr", "-mabi=ilp32", source, "-o", linked + ".o"], check=True)
    subprocess.run([prefix + "ld", "-m", "elf32lriscv", "-Ttext=0x80000000", "--entry=0", linked + ".o", "-o", linked], check=True)
    subprocess.run([prefix + "objcopy", "-O", "binary", "-j", ".text", linked, image], check=True)
    with open(image, "rb") as file:
        return file.read()


def printed(row, words):
    """Standard output of the program, which has to end well and say nothing on standard error."""
    ended = run(words)
    if ended.returncode != 0 or ended.stderr:
        failures.append(f"{row}: `{words[0]}` ended with {ended.returncode} and {ended.stderr!r}")
    return ended.stdout


def our_image(row, folder, text):
    source, image = (os.path.join(folder, name) for name in ["ours.s", "ours.bin"])
    with open(source, "w", encoding="ascii") as file:
        file.write(text)
    if printed(row, ["asm", source, image]):
        failures.append(f"{row}: `asm` printed something")
    try:
        with open(image, "rb") as file:
            return file.read(), image
    except FileNotFoundError:
        return b"", image


def compare(row, prefix, folder, text):
    """The image by both assemblers, word by word; the path of ours."""
    ours, image = our_image(row, folder, text)
    gnu = gnu_image(prefix, folder, text)
    if len(ours) != len(gnu):
        failures.append(f"{row}: the image has {len(ours)} bytes, and GNU's {len(gnu)}")
    for at in range(0, min(len(ours), len(gnu)), 4):
        if ours[at:at + 4] != gnu[at:at + 4]:
            failures.append(f"{row}: word {at // 4} is {ours[at:at + 4][::-1].hex()}, and GNU's {gnu[at:at + 4][::-1].hex()}")
    return image


def main():
    prefix = tools()
    if prefix is None:
        print("assembler_words: skipped, since GNU binutils for RISC-V aren't installed")
        return 0
    built()
    with tempfile.TemporaryDirectory() as folder:
        lines = "".join(line + "\n" for line in drawn_lines())
        image = compare("each form", prefix, folder, lines)
        listed = printed("each form", ["dis", image]).decode("ascii")
        for number, (line, wanted) in enumerate(zip(listed.splitlines(), lines.splitlines()), 1):
            if line != wanted:
                failures.append(f"each form: line {number} is listed as {line!r}, and not {wanted!r}")
        if len(listed) != len(lines):
            failures.append(f"each form: {len(listed)} bytes are listed, and not {len(lines)}")
        compare("labels", prefix, folder, LABELS)
        with open(EXAMPLE, encoding="ascii") as file:
            compare("the example", prefix, folder, file.read())
    return told("assembler_words")


if __name__ == "__main__":
    sys.exit(main())
