#!/usr/bin/env python3
"""Runs instructions by the built program, `cosim direct`, one small image a row, and reads the registers at its end.

Words, values and causes are those of the RISC-V manuals; they are written down here and not taken from the program. What a trap
left in the control registers is read by a handler of the image. The script ends with 1 on any mismatch.
"""

import hashlib
import os
import struct
import sys
import tempfile
from collections import namedtuple

from support.program import built, check, run, told

PC = 0x80000000
RAM = 4096
HANDLER = 0x100
# x20 to x23 become mcause, mtval, mepc and mstatus
READ_CAUSE = [0x34202A73, 0x34302AF3, 0x34102B73, 0x30002BF3]
SET_MTVEC = 0x30529073  # csrrw x0, mtvec, x5
ENABLE = 0x30046073  # csrrsi x0, mstatus, 8
ILLEGAL = 0xFFFFFFFF
WFI = 0x10500073

Run = namedtuple("Run", "calls stop pc regs lines ram")


def lui(rd, value):
    return value & 0xFFFFF000 | rd << 7 | 0x37


def addi(rd, rs1, value):
    return (value & 0xFFF) << 20 | rs1 << 15 | rd << 7 | 0x13


def load_word(rd, rs1, offset):
    return (offset & 0xFFF) << 20 | rs1 << 15 | 2 << 12 | rd << 7 | 0x03


def store_word(rs1, rs2, offset):
    return (offset >> 5 & 0x7F) << 25 | rs2 << 20 | rs1 << 15 | 2 << 12 | (offset & 31) << 7 | 0x23


def write_csr(number, rs1):
    return number << 20 | rs1 << 15 | 1 << 12 | 0x73


def read_csr(rd, number):
    return number << 20 | 2 << 12 | rd << 7 | 0x73


def put(rd, value):
    """The two instructions that give a register a value."""
    low = (value & 0xFFF ^ 0x800) - 0x800
    return [lui(rd, value - low & 0xFFFFFFFF), addi(rd, rd, low)]


def port(base, size, line, stores):
    return f'[[port]]\nkind = "timer"\nbase = {base}\nsize = {size}\nline = {line}\nstores = "{stores}"\n'


# two timers, of which the second is one byte range later, larger, and takes stores for which nobody waits
WINDOWS = port(0x10000000, 4096, 8, "answered") + port(0x10001000, 8192, 9, "posted")


def image_of(words, more=()):
    """RAM of 4,096 bytes with words at its front, and further words or bytes at places of their own."""
    image = bytearray(RAM)
    for place, content in [(0, words), *more]:
        content = content if isinstance(content, bytes) else struct.pack(f"<{len(content)}I", *content)
        image[place : place + len(content)] = content
    return bytes(image)


def ran(image, units, ports="", quantum=1000):
    """The run of an image for so many units."""
    with tempfile.TemporaryDirectory() as folder:
        with open(os.path.join(folder, "i"), "wb") as file:
            file.write(image)
        with open(os.path.join(folder, "c"), "w", encoding="ascii") as file:
            file.write(f'[machine]\nkind = "rv32i"\nimage = "i"\nram = {RAM}\nquantum = {quantum}\nunits = {units}\n{ports}')
        ended = run(["direct", "c"], folder)
    lines = ended.stdout.decode().splitlines()
    if ended.returncode != 0 or len(lines) < 5:
        return Run([], ended.stderr, None, [0] * 32, None, None)
    calls = [line for line in lines if line.startswith("@")]
    closing = dict(line.split(" ", 1) for line in lines[len(calls) :])
    regs = [0] + [int(word, 16) for word in closing["regs"].split()]
    return Run(calls, closing["stop"], int(closing["pc"], 16), regs, int(closing["lines"], 16), closing["ram"])


# word, x1, x2, and x3 after it
ARITHMETIC = [
    (0x002081B3, 0x7FFFFFFF, 0x00000001, 0x80000000),  # add x3, x1, x2
    (0x002081B3, 0xFFFFFFFF, 0x00000001, 0x00000000),  # add x3, x1, x2
    (0x402081B3, 0x00000000, 0x00000001, 0xFFFFFFFF),  # sub x3, x1, x2
    (0x402081B3, 0x80000000, 0x00000001, 0x7FFFFFFF),  # sub x3, x1, x2
    (0x002091B3, 0x00000003, 0x0000001F, 0x80000000),  # sll x3, x1, x2
    (0x002091B3, 0x00000005, 0x00000020, 0x00000005),  # sll x3, x1, x2
    (0x0020A1B3, 0x80000000, 0x7FFFFFFF, 0x00000001),  # slt x3, x1, x2
    (0x0020A1B3, 0x00000001, 0xFFFFFFFF, 0x00000000),  # slt x3, x1, x2
    (0x0020B1B3, 0x80000000, 0x7FFFFFFF, 0x00000000),  # sltu x3, x1, x2
    (0x0020B1B3, 0x00000000, 0x00000001, 0x00000001),  # sltu x3, x1, x2
    (0x0020C1B3, 0xFF00FF00, 0x0FF00FF0, 0xF0F0F0F0),  # xor x3, x1, x2
    (0x0020D1B3, 0x80000000, 0x0000001F, 0x00000001),  # srl x3, x1, x2
    (0x0020D1B3, 0x80000000, 0x00000020, 0x80000000),  # srl x3, x1, x2
    (0x4020D1B3, 0x80000000, 0x0000001F, 0xFFFFFFFF),  # sra x3, x1, x2
    (0x4020D1B3, 0x7FFFFFFF, 0x0000003F, 0x00000000),  # sra x3, x1, x2
    (0x4020D1B3, 0x80000000, 0x00000020, 0x80000000),  # sra x3, x1, x2
    (0x0020E1B3, 0xFF00FF00, 0x0FF00FF0, 0xFFF0FFF0),  # or x3, x1, x2
    (0x0020F1B3, 0xFF00FF00, 0x0FF00FF0, 0x0F000F00),  # and x3, x1, x2
    (0x7FF08193, 0x7FFFFFFF, 0x00000000, 0x800007FE),  # addi x3, x1, 2047
    (0x80008193, 0x00000000, 0x00000000, 0xFFFFF800),  # addi x3, x1, -2048
    (0x0000A193, 0xFFFFFFFF, 0x00000000, 0x00000001),  # slti x3, x1, 0
    (0x8000A193, 0x80000000, 0x00000000, 0x00000001),  # slti x3, x1, -2048
    (0xFFF0B193, 0x00000005, 0x00000000, 0x00000001),  # sltiu x3, x1, -1
    (0xFFF0B193, 0xFFFFFFFF, 0x00000000, 0x00000000),  # sltiu x3, x1, -1
    (0xFFF0C193, 0xFF00FF00, 0x00000000, 0x00FF00FF),  # xori x3, x1, -1
    (0x8000E193, 0x000007FF, 0x00000000, 0xFFFFFFFF),  # ori x3, x1, -2048
    (0x8000F193, 0xFFFFFFFF, 0x00000000, 0xFFFFF800),  # andi x3, x1, -2048
    (0x01F09193, 0x00000003, 0x00000000, 0x80000000),  # slli x3, x1, 31
    (0x00009193, 0x00000003, 0x00000000, 0x00000003),  # slli x3, x1, 0
    (0x01F0D193, 0x80000000, 0x00000000, 0x00000001),  # srli x3, x1, 31
    (0x41F0D193, 0x80000000, 0x00000000, 0xFFFFFFFF),  # srai x3, x1, 31
    (0x4000D193, 0x80000000, 0x00000000, 0x80000000),  # srai x3, x1, 0
    (0xFFFFF1B7, 0x00000000, 0x00000000, 0xFFFFF000),  # lui x3, 0xfffff
    (0x80000197, 0x00000000, 0x00000000, 0x00000010),  # auipc x3, 0x80000 at 0x80000010
    (0x7FFFF197, 0x00000000, 0x00000000, 0xFFFFF010),  # auipc x3, 0x7ffff at 0x80000010
    (0x00100193, 0x00000007, 0x00000007, 0x00000001),  # addi x3, x0, 1
    (0x00108013, 0x00000007, 0x00000007, 0x00000000),  # addi x0, x1, 1
    (0x0FF0000F, 0x00000007, 0x00000007, 0x00000000),  # fence
    (0x10500073, 0x00000007, 0x00000007, 0x00000000),  # wfi
]

# word, x1, x2, and how far it goes
BRANCHES = [
    (0x80208063, 0x00000005, 0x00000005, -4096),  # beq x1, x2, -4096
    (0x80208063, 0x00000005, 0x00000006, 4),  # beq x1, x2, -4096
    (0x7E209EE3, 0x00000005, 0x00000006, 4092),  # bne x1, x2, 4092
    (0x7E209EE3, 0x00000005, 0x00000005, 4),  # bne x1, x2, 4092
    (0x7E20CEE3, 0x80000000, 0x7FFFFFFF, 4092),  # blt x1, x2, 4092
    (0x7E20CEE3, 0x00000005, 0x00000005, 4),  # blt x1, x2, 4092
    (0x7E20DEE3, 0x00000005, 0x00000005, 4092),  # bge x1, x2, 4092
    (0x7E20DEE3, 0x80000000, 0x7FFFFFFF, 4),  # bge x1, x2, 4092
    (0x7E20EEE3, 0x7FFFFFFF, 0x80000000, 4092),  # bltu x1, x2, 4092
    (0x7E20EEE3, 0x80000000, 0x7FFFFFFF, 4),  # bltu x1, x2, 4092
    (0x7E20FEE3, 0x80000000, 0x7FFFFFFF, 4092),  # bgeu x1, x2, 4092
    (0x7E20FEE3, 0x7FFFFFFF, 0x80000000, 4),  # bgeu x1, x2, 4092
    (0x00208163, 0x00000005, 0x00000006, 4),  # beq x1, x2, 2, which isn't taken
]

# word at 0x80000008, x1, and pc after it; x3 is the address of the next instruction
JUMPS = [
    (0x800001EF, 0x00000000, 0x7FF00008),  # jal x3, -1048576
    (0x7FDFF1EF, 0x00000000, 0x80100004),  # jal x3, 1048572
    (0x800081E7, 0x80000011, 0x7FFFF810),  # jalr x3, -2048(x1)
    (0x7FF081E7, 0x80000001, 0x80000800),  # jalr x3, 2047(x1)
    (0x000081E7, 0x80000104, 0x80000104),  # jalr x3, 0(x1)
]

# word with x1 at 0x80000800, the last bytes of RAM, and x3 after it
LOADS = [
    (0x7FF08183, "80", 0xFFFFFF80),  # lb x3, 2047(x1)
    (0x7FF08183, "7f", 0x0000007F),  # lb x3, 2047(x1)
    (0x7FF0C183, "80", 0x00000080),  # lbu x3, 2047(x1)
    (0x7FE09183, "0080", 0xFFFF8000),  # lh x3, 2046(x1)
    (0x7FE0D183, "0080", 0x00008000),  # lhu x3, 2046(x1)
    (0x7FC0A183, "00000080", 0x80000000),  # lw x3, 2044(x1)
]

# word with x1 at 0x80000800 and x2 0x12345678, and the bytes at the front of RAM after it
STORES = [
    (0x80208023, "78"),  # sb x2, -2048(x1)
    (0x80209023, "7856"),  # sh x2, -2048(x1)
    (0x8020A023, "78563412"),  # sw x2, -2048(x1)
]

# address in x1, store of x2 and load of x3, and x3 after them, with 0xfedcba98 in x2
ENDS = [
    (0x80000000, 0x00208023, 0x00008183, 0xFFFFFF98),  # sb, lb
    (0x80000FFF, 0x00208023, 0x00008183, 0xFFFFFF98),  # sb, lb
    (0x80000FFF, 0x00208023, 0x0000C183, 0x00000098),  # sb, lbu
    (0x80000000, 0x00209023, 0x00009183, 0xFFFFBA98),  # sh, lh
    (0x80000FFE, 0x00209023, 0x00009183, 0xFFFFBA98),  # sh, lh
    (0x80000FFE, 0x00209023, 0x0000D183, 0x0000BA98),  # sh, lhu
    (0x80000000, 0x0020A023, 0x0000A183, 0xFEDCBA98),  # sw, lw
    (0x80000FFC, 0x0020A023, 0x0000A183, 0xFEDCBA98),  # sw, lw
    (0x80000FFC, 0x00209023, 0x0000A183, 0x0000BA98),  # sh, lw
    (0x80000FFC, 0x00208023, 0x0000A183, 0x00000098),  # sb, lw
]

# how far the target of a jump stands behind it
Behind = namedtuple("Behind", "bytes")

# word, x1, cause and value of the trap
TRAPS = [
    (0x003000E7, 5, 0, 2),  # jalr x1, 3(x0)
    (0x006000EF, 5, 0, Behind(6)),  # jal x1, 6
    (0x00108163, 5, 0, Behind(2)),  # beq x1, x1, 2
    (0x00000073, 5, 11, 0),  # ecall
    (0x00100073, 5, 3, 0),  # ebreak
    (ILLEGAL, 5, 2, ILLEGAL),
    (0xF14121F3, 5, 2, 0xF14121F3),  # csrrs x3, mhartid, x2, which would write it
    (0xF1401073, 5, 2, 0xF1401073),  # csrrw x0, mhartid, x0
    (0x7C0021F3, 5, 2, 0x7C0021F3),  # csrrs x3, 0x7c0, x0
    # misaligned accesses
    (0x00009183, 1, 4, 1),  # lh x3, 0(x1)
    (0x0000D183, 1, 4, 1),  # lhu x3, 0(x1)
    (0x0000A183, 1, 4, 1),  # lw x3, 0(x1)
    (0x00209023, 1, 6, 1),  # sh x2, 0(x1)
    (0x0020A023, 1, 6, 1),  # sw x2, 0(x1)
    (0x00009183, 0x80000FFF, 4, 0x80000FFF),  # lh x3, 0(x1) across the end of RAM
    (0x0020A023, 0x80000FFE, 6, 0x80000FFE),  # sw x2, 0(x1) across the end of RAM
    # accesses where nothing answers
    (0x00008003, 1, 5, 1),  # lb x0, 0(x1)
    (0x0000A183, 0x80001000, 5, 0x80001000),  # lw x3, 0(x1) behind RAM
    (0x00009183, 0x7FFFFFFE, 5, 0x7FFFFFFE),  # lh x3, 0(x1) before RAM
    (0x00208023, 0x7FFFFFFF, 7, 0x7FFFFFFF),  # sb x2, 0(x1) before RAM
    (0x0020A023, 0xFFFFFFFC, 7, 0xFFFFFFFC),  # sw x2, 0(x1) at the end
    (0x0020A023, 0x00100004, 7, 0x00100004),  # sw x2, 0(x1) of LINES
    (0x0000A183, 0x00100010, 5, 0x00100010),  # lw x3, 0(x1) behind TENABLE
    (0x00008183, 0x00100FFF, 5, 0x00100FFF),  # lb x3, 0(x1) at the end of the system block
    (0x00009183, 0x00100008, 5, 0x00100008),  # lh x3, 0(x1) of ENABLE
    (0x00208023, 0x00100000, 7, 0x00100000),  # sb x2, 0(x1) of POWER
    (0x0000A183, 0x0FFFFFFC, 5, 0x0FFFFFFC),  # lw x3, 0(x1) before the first window
    (0x0000A183, 0x10003000, 5, 0x10003000),  # lw x3, 0(x1) behind the last window
]

# accesses that a device refuses: word, x1, cause, and the call
REFUSED = [
    (0x0000A183, 0x10000100, 5, "p0 read 0x100+4 = 0x0 code 2"),  # lw x3, 0(x1) of no register
    (0x0000D183, 0x10000FFE, 5, "p0 read 0xffe+2 = 0x0 code 1"),  # lhu x3, 0(x1)
    (0x0020A023, 0x10000000, 7, "p0 write 0x0+4 = 0xfedcba98 code 1"),  # sw x2, 0(x1) of NOW
]

# accesses of windows: word, x1, and the call, with 0xfedcba98 in x2 at tick 7
CALLS = [
    (0x0000A183, 0x10000000, "p0 read 0x0+4 = 0x7 code 0"),  # lw x3, 0(x1)
    (0x00009183, 0x10000FFE, "p0 read 0xffe+2 = 0x0 code 1"),  # lh x3, 0(x1)
    (0x00208023, 0x10000FFF, "p0 write 0xfff+1 = 0x98 code 1"),  # sb x2, 0(x1)
    (0x0000A183, 0x10001000, "p1 read 0x0+4 = 0x7 code 0"),  # lw x3, 0(x1)
    (0x0020A023, 0x10001000, "p1 post 0x0+4 = 0xfedcba98"),  # sw x2, 0(x1)
    (0x00209023, 0x10002FFE, "p1 post 0x1ffe+2 = 0xba98"),  # sh x2, 0(x1)
    (0x0000C183, 0x10002FFF, "p1 read 0x1fff+1 = 0x0 code 1"),  # lbu x3, 0(x1)
]

# word and mscratch after it, with mscratch at 0x3c before and x1 0xf0
UPDATES = [
    (0x340091F3, 0x000000F0),  # csrrw x3, mscratch, x1
    (0x3400A1F3, 0x000000FC),  # csrrs x3, mscratch, x1
    (0x3400B1F3, 0x0000000C),  # csrrc x3, mscratch, x1
    (0x340FD1F3, 0x0000001F),  # csrrwi x3, mscratch, 31
    (0x3401E1F3, 0x0000003F),  # csrrsi x3, mscratch, 3
    (0x340671F3, 0x00000030),  # csrrci x3, mscratch, 12
]

# control registers: number, value at reset, and value after a write of all ones
STORED = [
    (0x300, 0x1800, 0x1888),
    (0x301, 0x40000100, 0x40000100),
    (0x304, 0, 0x880),
    (0x305, 0, 0xFFFFFFFD),
    (0x340, 0, 0xFFFFFFFF),
    (0x341, 0, 0xFFFFFFFC),
    (0x342, 0, 0xFFFFFFFF),
    (0x343, 0, 0xFFFFFFFF),
    (0x344, 0, 0),
]
READ_ONLY = [0xF11, 0xF12, 0xF13, 0xF14]
ABSENT = [0, 0x302, 0x306, 0x310, 0xB00, 0xF15]

# the line that rises, mie, the cause, and where a vectored handler begins behind the base
INTERRUPTS = [
    (0, 0x880, 0x80000007, 0x1C),
    (1, 0x880, 0x8000000B, 0x2C),
    (2, 0x880, 0x8000000B, 0x2C),
    (2, 0x080, 0x80000007, 0x1C),
    (2, 0x000, None, 0),
    (0, 0x800, None, 0),
]


def arithmetic():
    for word, x1, x2, x3 in ARITHMETIC:
        end = ran(image_of(put(1, x1) + put(2, x2) + [word]), 5)
        check(f"{word:08x} {x1:x} {x2:x}", "x0 to x31 and pc", (end.regs, end.pc), ([0, x1, x2, x3] + [0] * 28, PC + 20))


def branches():
    for word, x1, x2, way in BRANCHES:
        end = ran(image_of(put(1, x1) + put(2, x2) + [word]), 5)
        check(f"{word:08x} {x1:x} {x2:x}", "x0 to x31 and pc", (end.regs, end.pc), ([0, x1, x2] + [0] * 29, PC + 16 + way))
    for word, x1, pc in JUMPS:
        end = ran(image_of(put(1, x1) + [word]), 3)
        check(f"{word:08x} {x1:x}", "x3 and pc", (end.regs[3], end.pc), (PC + 12, pc))


def memory():
    for word, end_of_ram, x3 in LOADS:
        last = bytes.fromhex(end_of_ram)
        end = ran(image_of(put(1, 0x80000800) + [word], [(RAM - len(last), last)]), 3)
        check(f"{word:08x} {end_of_ram}", "x3 and pc", (end.regs[3], end.pc), (x3, PC + 12))
    for word, front in STORES:
        image = image_of(put(1, 0x80000800) + put(2, 0x12345678) + [word])
        stored = bytes.fromhex(front)
        end = ran(image, 5)
        wanted = hashlib.sha256(stored + image[len(stored) :]).hexdigest()
        check(f"{word:08x}", "RAM, x3 and pc", (end.ram, end.regs[3], end.pc), (wanted, 0, PC + 20))
    for addr, store, load, x3 in ENDS:
        end = ran(image_of(put(1, addr) + put(2, 0xFEDCBA98) + [store, load]), 6)
        check(f"{addr:x} {store:08x}", "x3 and pc", (end.regs[3], end.pc), (x3, PC + 24))


def trapped(row, setup, word, cause, value, ports=""):
    """Runs a word that traps, with MIE set; the calls that it made."""
    words = put(5, PC + HANDLER) + [SET_MTVEC, ENABLE] + setup + [word]
    place = PC + 4 * len(words) - 4
    value = place + value.bytes if isinstance(value, Behind) else value
    image = image_of(words, [(HANDLER, READ_CAUSE)])
    at_once, end = ran(image, len(words), ports), ran(image, len(words) + 4, ports)
    check(row, "pc after it", at_once.pc, PC + HANDLER)
    check(row, "mcause, mtval, mepc and mstatus", end.regs[20:24], [cause, value, place, 0x1880])
    check(row, "x3", end.regs[3], 0)
    return end.calls


def traps():
    for word, x1, cause, value in TRAPS:
        calls = trapped(f"{word:08x} {x1:x}", put(1, x1), word, cause, value, WINDOWS)
        check(f"{word:08x} {x1:x}", "the calls", calls, [])
    for word, x1, cause, call in REFUSED:
        calls = trapped(f"{word:08x} {x1:x}", put(1, x1) + put(2, 0xFEDCBA98), word, cause, x1, WINDOWS)
        check(f"{word:08x} {x1:x}", "the calls", calls, [f"@8 {call}"])
    # an instruction that can't be fetched, behind a jump to where nothing is
    for base in [0x10000000, 0x7FFFFFFC, 0x80001000]:
        end = ran(image_of(put(5, PC + HANDLER) + [SET_MTVEC] + put(1, base) + [0x00008067], [(HANDLER, READ_CAUSE)]), 11, WINDOWS)
        check(f"fetch at {base:x}", "mcause, mtval and mepc", end.regs[20:23], [1, base, base])


def windows():
    for word, x1, call in CALLS:
        words = put(1, x1) + put(2, 0xFEDCBA98) + [addi(0, 0, 0)] * 3 + [word]
        end = ran(image_of(words), len(words), WINDOWS)
        check(f"{word:08x} {x1:x}", "the calls", end.calls, [f"@7 {call}"])
        if "read" in call and "code 0" in call:
            check(f"{word:08x} {x1:x}", "x3 and pc", (end.regs[3], end.pc), (7, PC + 4 * len(words)))


def control_registers():
    for word, value in UPDATES:
        words = put(1, 0x3C) + [write_csr(0x340, 1)] + put(1, 0xF0) + [word, read_csr(4, 0x340)]
        end = ran(image_of(words), len(words))
        check(f"{word:08x}", "x3, x4 and pc", (end.regs[3], end.regs[4], end.pc), (0x3C, value, PC + 4 * len(words)))
    for number, at_reset, after in STORED:
        words = [read_csr(3, number), addi(1, 0, -1), write_csr(number, 1), read_csr(4, number)]
        end = ran(image_of(words), len(words))
        check(f"{number:x}", "x3, x4 and pc", (end.regs[3:5], end.pc), ([at_reset, after], PC + 16))
    for number in READ_ONLY:
        end = ran(image_of([addi(3, 0, 1), read_csr(3, number)]), 2)
        check(f"{number:x}", "x3 and pc", (end.regs[3], end.pc), (0, PC + 8))
        trapped(f"{number:x}", [], write_csr(number, 1), 2, write_csr(number, 1))
    for number in ABSENT:
        trapped(f"{number:x}", [], read_csr(3, number), 2, read_csr(3, number))
        trapped(f"{number:x}", [], write_csr(number, 1), 2, write_csr(number, 1))


def returns():
    """A trap goes to the base of a vectored handler too, MRET goes back, and a trap within a handler leaves MPIE 0."""
    # mepc goes one instruction on
    back = [read_csr(22, 0x341), addi(22, 22, 4), write_csr(0x341, 22), 0x30200073]
    words = put(5, PC + HANDLER + 1) + [SET_MTVEC, ENABLE, ILLEGAL, read_csr(24, 0x300)]
    end = ran(image_of(words, [(HANDLER, [read_csr(20, 0x342), read_csr(21, 0x343), read_csr(23, 0x300)] + back)]), len(words) + 7)
    check("a trap and its return", "mcause, mtval and mstatus", (end.regs[20], end.regs[21], end.regs[23]), (2, ILLEGAL, 0x1880))
    check("a trap and its return", "mepc, mstatus behind it and pc", (end.regs[22], end.regs[24], end.pc), (PC + 20, 0x1888, PC + 24))
    # a handler that breaks the first time, and returns behind that break the second time: bne x10, x11, 20 tells which
    handler = [addi(10, 10, 1), addi(11, 0, 1), 0x00B51A63, 0x00100073, read_csr(24, 0x300), WFI, WFI, read_csr(23, 0x300)] + back
    words = put(5, PC + HANDLER) + [SET_MTVEC, ENABLE, 0x00100073]
    end = ran(image_of(words, [(HANDLER, handler)]), len(words) + 4 + 8 + 1)
    check("a trap within a handler", "x10, mstatus, and mstatus behind it", (end.regs[10], end.regs[23], end.regs[24]), (2, 0x1800, 0x1880))
    check("a trap within a handler", "pc", end.pc, PC + HANDLER + 20)


def enabling(mode, mie):
    """Sets the handler and mie, ENABLE to 6 and TENABLE to 5, starts the timer, and reads POWER, ENABLE and TENABLE."""
    setup = put(5, PC + HANDLER + mode) + [SET_MTVEC] + put(13, 0x100000)
    setup += [addi(6, 0, 6), store_word(13, 6, 8), addi(6, 0, 5), store_word(13, 6, 12)] + put(6, mie) + [write_csr(0x304, 6)]
    setup += put(14, 0x10000000) + [store_word(14, 0, 4), addi(6, 0, 1), store_word(14, 6, 8)]
    return setup + [load_word(7, 13, 0), load_word(9, 13, 8), load_word(10, 13, 12)]


def interrupts():
    """A line rises at the boundary at 30. Then it is seen, pending and still not taken, and MIE is set at last."""
    for line, mie, cause, vector in INTERRUPTS:
        for mode in [0, 1]:
            setup = enabling(mode, mie)
            words = setup + [WFI] * (30 - len(setup)) + [load_word(8, 13, 4), read_csr(12, 0x344), ENABLE]
            place, behind = HANDLER + (vector if mode else 0), PC + 4 * len(words)
            image, ports = image_of(words + [WFI], [(place, READ_CAUSE)]), port(0x10000000, 4096, line, "answered")
            at_once, end = ran(image, len(words) + 1, ports, 30), ran(image, len(words) + 5, ports, 30)
            row = f"line {line}, mie {mie:x}, mode {mode}"
            check(row, "pc", at_once.pc, PC + place if cause else behind + 4)
            check(row, "POWER, LINES, ENABLE and TENABLE", end.regs[7:11], [0, 1 << line, 6, 5])
            check(row, "mip", end.regs[12], {0: 0x80, 1: 0x800, 2: 0x880}[line])
            check(row, "LINES at the end", end.lines, 1 << line)
            if cause:
                check(row, "mcause, mtval, mepc and mstatus", end.regs[20:24], [cause, 0, behind, 0x1880])


def main():
    built()
    for rows in [arithmetic, branches, memory, traps, windows, control_registers, returns, interrupts]:
        rows()
    return told("instructions")


if __name__ == "__main__":
    sys.exit(main())
