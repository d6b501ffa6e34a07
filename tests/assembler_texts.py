#!/usr/bin/env python3
"""Assembles stored texts by the built program's `asm`, and lists words by its `dis`.

The expected words are those of GNU's assembler for RISC-V, and of the manual's drawings of the formats where GNU has no spelling for an
instruction, as for `fence` with every field. The script ends with 1 on any mismatch.
"""

import os
import struct
import sys
import tempfile

from support.program import built, check, run, told

# each instruction of the table, as it is listed
ROWS = [
    (0xffff_f0b7, "lui x1, 1048575"),
    (0x8000_0f97, "auipc x31, 524288"),
    (0x801f_f0ef, "jal x1, -2048"),
    (0xfff1_8167, "jalr x2, -1(x3)"),
    (0x8052_0063, "beq x4, x5, -4096"),
    (0x7e73_1fe3, "bne x6, x7, 4094"),
    (0xfe94_4fe3, "blt x8, x9, -2"),
    (0x00b5_50e3, "bge x10, x11, 2048"),
    (0x00d6_6f63, "bltu x12, x13, 30"),
    (0xc0f7_70e3, "bgeu x14, x15, -1024"),
    (0x8008_8803, "lb x16, -2048(x17)"),
    (0x7ff9_9903, "lh x18, 2047(x19)"),
    (0x004a_aa03, "lw x20, 4(x21)"),
    (0xaabb_cb03, "lbu x22, -1365(x23)"),
    (0x555c_dc03, "lhu x24, 1365(x25)"),
    (0x81ad_8023, "sb x26, -2048(x27)"),
    (0x7fce_9fa3, "sh x28, 2047(x29)"),
    (0xfdef_afa3, "sw x30, -33(x31)"),
    (0x0410_0113, "addi x2, x0, 65"),
    (0x8001_2093, "slti x1, x2, -2048"),
    (0x7ff2_3193, "sltiu x3, x4, 2047"),
    (0xfff3_4293, "xori x5, x6, -1"),
    (0x5554_6393, "ori x7, x8, 1365"),
    (0xaaa5_7493, "andi x9, x10, -1366"),
    (0x8130_810f, "fence 2067, x1, x2"),
    (0x3006_15f3, "csrrw x11, mstatus, x12"),
    (0xf147_26f3, "csrrs x13, mhartid, x14"),
    (0xfff8_37f3, "csrrc x15, 4095, x16"),
    (0x305f_d8f3, "csrrwi x17, mtvec, 31"),
    (0x3444_6073, "csrrsi x0, mip, 8"),
    (0x0000_f973, "csrrci x18, 0, 1"),
    (0x01fa_1993, "slli x19, x20, 31"),
    (0x001b_5a93, "srli x21, x22, 1"),
    (0x410c_5b93, "srai x23, x24, 16"),
    (0x01bd_0cb3, "add x25, x26, x27"),
    (0x41ee_8e33, "sub x28, x29, x30"),
    (0x0020_9fb3, "sll x31, x1, x2"),
    (0x0052_21b3, "slt x3, x4, x5"),
    (0x0083_b333, "sltu x6, x7, x8"),
    (0x00b5_44b3, "xor x9, x10, x11"),
    (0x00e6_d633, "srl x12, x13, x14"),
    (0x0118_67b3, "or x15, x16, x17"),
    (0x0149_f933, "and x18, x19, x20"),
    (0x417b_5ab3, "sra x21, x22, x23"),
    (0x0000_0073, "ecall"),
    (0x0010_0073, "ebreak"),
    (0x3020_0073, "mret"),
    (0x1050_0073, "wfi"),
    # an immediate that lies in a word in each of the ways
    (0xfe00_0ee3, "beq x0, x0, -4"),
    (0x81ce_8023, "sb x28, -2048(x29)"),
    (0x41f8_5793, "srai x15, x16, 31"),
    (0x3004_6073, "csrrsi x0, mstatus, 8"),
]

# words of no instruction, and their listing
DATA = [0, 0xABC, 0xFFFFFFFF]
DATA_LISTING = b".word 0x0\n.word 0xabc\n.word 0xffffffff\n"

# a program that sends one byte to a UART and stops
ONE_BYTE = """\
lui x1, 0x10000
addi x2, x0, 65
sw x2, 0(x1)
lui x3, 0x100
sw x0, 0(x3)
jal x0, 0
"""
ONE_BYTE_WORDS = [
    0x100000b7, 0x04100113, 0x0020a023, 0x001001b7, 0x0001a023, 0x0000006f,
]

# the beginning of a program: it points the trap vector at a handler that skips the instruction
PROLOGUE = """\
        lui   x10, 0x10000
        lui   x11, 0x10001
        lui   x12, 0x10002
        lui   x13, 0x100
        jal   x5, body
        csrrs x30, mepc, x0
        addi  x30, x30, 4
        csrrw x0, mepc, x30
        mret
body:   csrrw x0, mtvec, x5
        lui   x6, 0x80010
        sw    x6, 0(x12)
        lui   x6, 0x80011
        sw    x6, 4(x12)
        addi  x6, x0, 256
        sw    x6, 8(x12)
        addi  x7, x0, 1
"""
PROLOGUE_WORDS = [
    0x10000537, 0x100015b7, 0x10002637, 0x001006b7, 0x014002ef, 0x34102f73, 0x004f0f13, 0x341f1073,
    0x30200073, 0x30529073, 0x80010337, 0x00662023, 0x80011337, 0x00662223, 0x10000313, 0x00662423,
    0x00100393,
]

# a program that sends back each byte that a UART receives, sets its timer forward and starts a copy of memory
ECHO = """\
        lui   x10, 0x10000
        lui   x11, 0x10001
        lui   x12, 0x10002
        lui   x13, 0x100
        jal   x5, start
        csrrs x20, mcause, x0
        andi  x20, x20, 15
        addi  x21, x0, 7
        beq   x20, x21, tick
        lw    x22, 4(x11)
        beq   x22, x0, clear
        lw    x22, 0(x11)
        sw    x22, 0(x11)
clear:  sw    x0, 20(x12)
        mret
tick:   lw    x22, 0(x10)
        lui   x23, 0x1
        add   x22, x22, x23
        sw    x22, 4(x10)
        mret
start:  csrrw x0, mtvec, x5
        addi  x6, x0, 6
        sw    x6, 8(x13)
        addi  x6, x0, 1
        sw    x6, 12(x13)
        sw    x6, 8(x10)
        sw    x6, 8(x11)
        lui   x6, 0x1
        sw    x6, 4(x10)
        addi  x6, x6, -1920
        csrrw x0, mie, x6
        lui   x6, 0x80010
        sw    x6, 0(x12)
        lui   x6, 0x80020
        sw    x6, 4(x12)
        lui   x6, 0x10
        sw    x6, 8(x12)
        addi  x6, x0, 3
        sw    x6, 16(x12)
        csrrsi x0, mstatus, 8
loop:   jal   x0, loop
"""
ECHO_WORDS = [
    0x10000537, 0x100015b7, 0x10002637, 0x001006b7, 0x040002ef, 0x34202a73, 0x00fa7a13, 0x00700a93,
    0x015a0e63, 0x0045ab03, 0x000b0663, 0x0005ab03, 0x0165a023, 0x00062a23, 0x30200073, 0x00052b03,
    0x00001bb7, 0x017b0b33, 0x01652223, 0x30200073, 0x30529073, 0x00600313, 0x0066a423, 0x00100313,
    0x0066a623, 0x00652423, 0x0065a423, 0x00001337, 0x00652223, 0x88030313, 0x30431073, 0x80010337,
    0x00662023, 0x80020337, 0x00662223, 0x00010337, 0x00662423, 0x00300313, 0x00662823, 0x30046073,
    0x0000006f,
]

# texts of one word, as they may be spelled
SPELLINGS = [
    (" \tadd\tx1 ,\tx2,x3 # a sum", 0x003100b3),
    ("# none\n\n\t\n\nadd x1, x2, x3", 0x003100b3),
    ("addi x1, x0, -0", 0x00000093),
    ("addi x1, x0, 0x000", 0x00000093),
    ("fence", 0x0ff0000f),
    ("csrrw x0, 0x300, x5", 0x30029073),
    (".word 0xFFffffff", 0xffffffff),
    ("x1:jal x0, x1", 0x0000006f),
    ("jal: jal x0, jal", 0x0000006f),
    ("jal x0, end\nend:", 0x0040006f),
]

# texts that are refused: the line, and what is first wrong with it
FAULTS = [
    ("addi x2, x0, 4096", 1, "Range"),
    ("ecall\n\n# none\naddi x1, x0, y", 4, "Syntax"),
    ("nop", 1, "Name"),
    (".half 1", 1, "Name"),
    ("Add x1, x2, x3", 1, "Syntax"),
    ("add x32, x0, x0", 1, "Name"),
    ("add x01, x0, x0", 1, "Name"),
    ("add X1, x0, x0", 1, "Syntax"),
    ("add x1, 5, x0", 1, "Syntax"),
    ("add x1, , x2", 1, "Syntax"),
    ("add x1, x2", 1, "Syntax"),
    ("add x1, x2, x3, x4", 1, "Syntax"),
    ("add y, 5", 1, "Name"),
    ("ecall x0", 1, "Syntax"),
    ("fence 1", 1, "Syntax"),
    ("addi x1, x0, -0x1", 1, "Syntax"),
    ("addi x1, x0, 01", 1, "Syntax"),
    ("slli x1, x1, 32", 1, "Range"),
    ("lui x1, 0x100000", 1, "Range"),
    (".word -1", 1, "Range"),
    ("csrrw x0, mcycle, x0", 1, "Name"),
    ("csrrw x0, -1, x0", 1, "Range"),
    ("lw x1, 4 (x2)", 1, "Syntax"),
    ("jal x0, nowhere", 1, "Name"),
    ("jal x0, 3", 1, "Range"),
    ("beq x0, x0, 4096", 1, "Range"),
    ("a: b: ecall", 1, "Syntax"),
    ("a : ecall", 1, "Name"),
    ("a: ecall\na: ecall", 2, "Twice"),
    ("a:\na: nop", 2, "Twice"),
    # a branch over 1022 statements and a faulty one is 4096 bytes wide, which is one statement too far
    ("beq x0, x0, far\n" + "ecall\n" * 1022 + "nop\nfar: ecall\n", 1, "Range"),
]


def image_of(words):
    return struct.pack(f"<{len(words)}I", *words)


def assembled(folder, text):
    """What `asm` ends with, and the image that it wrote, where it wrote one."""
    source, image = (os.path.join(folder, name) for name in ["text", "image"])
    with open(source, "w", encoding="ascii") as file:
        file.write(text)
    if os.path.exists(image):
        os.remove(image)
    ended = run(["asm", source, image])
    if not os.path.exists(image):
        return ended, None
    with open(image, "rb") as file:
        return ended, file.read()


def has_words(folder, row, text, words):
    ended, image = assembled(folder, text)
    check(row, "the status", ended.returncode, 0)
    check(row, "the image", image, image_of(words))


def listed(folder, row, words, listing):
    image = os.path.join(folder, "words")
    with open(image, "wb") as file:
        file.write(image_of(words))
    ended = run(["dis", image])
    check(row, "the status of dis", ended.returncode, 0)
    check(row, "the listing", ended.stdout, listing)


def main():
    built()
    with tempfile.TemporaryDirectory() as folder:
        lines = "".join(line + "\n" for _, line in ROWS)
        has_words(folder, "each instruction", lines, [word for word, _ in ROWS])
        listed(folder, "each instruction", [word for word, _ in ROWS], lines.encode())
        listed(folder, "data", DATA, DATA_LISTING)
        has_words(folder, "one byte", ONE_BYTE, ONE_BYTE_WORDS)
        has_words(folder, "prologue", PROLOGUE, PROLOGUE_WORDS)
        has_words(folder, "echo", ECHO, ECHO_WORDS)
        has_words(folder, "the empty text", "", [])
        for text, word in SPELLINGS:
            has_words(folder, text, text, [word])
        for text, line, cause in FAULTS:
            ended, image = assembled(folder, text)
            check(text, "the status", ended.returncode, 3)
            check(text, "standard error", ended.stderr, f"cosim: input: Assembly {line} {cause}\n".encode())
            check(text, "the image", image, None)
    return told("assembler_texts")


if __name__ == "__main__":
    sys.exit(main())
