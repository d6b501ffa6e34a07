// The hart in plain Rust, changed in place: what the programs of bench/ run beside the proved one. They include this text, so that the
// compiler sees one module.

#[derive(Clone, Copy)]
struct Csrs {
    mstatus: u32,
    mie: u32,
    mtvec: u32,
    mscratch: u32,
    mepc: u32,
    mcause: u32,
    mtval: u32,
}

impl Csrs {
    fn read(&self, number: u32, pending: u32) -> Option<u32> {
        Some(match number {
            0x300 => self.mstatus,
            0x301 => 0x4000_0100,
            0x304 => self.mie,
            0x305 => self.mtvec,
            0x340 => self.mscratch,
            0x341 => self.mepc,
            0x342 => self.mcause,
            0x343 => self.mtval,
            0x344 => pending,
            0xf11..=0xf14 => 0,
            _ => return None,
        })
    }

    fn write(&mut self, number: u32, value: u32) -> bool {
        match number {
            0x300 => self.mstatus = value & 0x88 | 0x1800,
            0x304 => self.mie = value & 0x880,
            0x305 => self.mtvec = value & !2,
            0x340 => self.mscratch = value,
            0x341 => self.mepc = value & !3,
            0x342 => self.mcause = value,
            0x343 => self.mtval = value,
            0x301 | 0x344 => {}
            _ => return false,
        }
        true
    }

    fn interrupt(&self, pending: u32) -> Option<u32> {
        if self.mstatus & 8 == 0 {
            return None;
        }
        match self.mie & pending {
            shared if shared & 0x800 != 0 => Some(0x8000_000b),
            shared if shared & 0x80 != 0 => Some(0x8000_0007),
            _ => None,
        }
    }
}

#[derive(Clone, Copy)]
struct Hart {
    pc: u32,
    regs: [u32; 32],
    csrs: Csrs,
}

#[derive(Clone, Copy)]
struct Access {
    write: bool,
    addr: u32,
    size: u8,
    value: u32,
}

/// How a unit went: it is whole, it trapped, or an access is to be answered, which the instruction word finishes.
enum Done {
    Whole,
    Trapped,
    Bus(Access, u32),
}

fn i_imm(word: u32) -> u32 {
    (word as i32 >> 20) as u32
}

fn s_imm(word: u32) -> u32 {
    (word as i32 >> 25 << 5) as u32 | word >> 7 & 0x1f
}

fn b_imm(word: u32) -> u32 {
    (word as i32 >> 31 << 12) as u32 | (word >> 7 & 1) << 11 | (word >> 25 & 0x3f) << 5 | (word >> 8 & 0xf) << 1
}

fn j_imm(word: u32) -> u32 {
    (word as i32 >> 31 << 20) as u32 | word & 0xff000 | (word >> 20 & 1) << 11 | (word >> 21 & 0x3ff) << 1
}

impl Hart {
    fn reset(pc: u32) -> Hart {
        let csrs = Csrs { mstatus: 0x1800, mie: 0, mtvec: 0, mscratch: 0, mepc: 0, mcause: 0, mtval: 0 };
        Hart { pc, regs: [0; 32], csrs }
    }

    fn trap(&mut self, cause: u32, value: u32) -> Done {
        let csrs = &mut self.csrs;
        csrs.mstatus = 0x1800 | (csrs.mstatus >> 3 & 1) << 7;
        csrs.mepc = self.pc & !3;
        csrs.mcause = cause;
        csrs.mtval = value;
        let base = csrs.mtvec & !3;
        let vectored = csrs.mtvec & 3 == 1 && cause >> 31 == 1;
        self.pc = if vectored { base.wrapping_add(cause << 2) } else { base };
        Done::Trapped
    }

    fn set(&mut self, rd: usize, value: u32, pc: u32) -> Done {
        if rd != 0 {
            self.regs[rd] = value;
        }
        self.pc = pc;
        Done::Whole
    }

    fn jump(&mut self, rd: usize, target: u32) -> Done {
        if target % 4 != 0 {
            return self.trap(0, target);
        }
        self.set(rd, self.pc.wrapping_add(4), target)
    }

    /// Begins a unit with the word that was fetched, or none, and the interrupts that are pending.
    fn issue(&mut self, fetched: Option<u32>, pending: u32) -> Done {
        if let Some(cause) = self.csrs.interrupt(pending) {
            return self.trap(cause, 0);
        }
        let Some(word) = fetched else { return self.trap(1, self.pc) };
        let rd = (word >> 7 & 0x1f) as usize;
        let (a, b) = (self.regs[(word >> 15 & 0x1f) as usize], self.regs[(word >> 20 & 0x1f) as usize]);
        let (funct3, funct7) = (word >> 12 & 7, word >> 25);
        let next = self.pc.wrapping_add(4);
        let value = match word & 0x7f {
            0x37 => word & 0xffff_f000,
            0x17 => self.pc.wrapping_add(word & 0xffff_f000),
            0x6f => return self.jump(rd, self.pc.wrapping_add(j_imm(word))),
            0x67 if funct3 == 0 => return self.jump(rd, a.wrapping_add(i_imm(word)) & !1),
            0x63 => {
                let taken = match funct3 {
                    0 => a == b,
                    1 => a != b,
                    4 => (a as i32) < b as i32,
                    5 => (a as i32) >= b as i32,
                    6 => a < b,
                    7 => a >= b,
                    _ => return self.trap(2, word),
                };
                if taken {
                    return self.jump(0, self.pc.wrapping_add(b_imm(word)));
                }
                self.pc = next;
                return Done::Whole;
            }
            0x03 => {
                let addr = a.wrapping_add(i_imm(word));
                let size = match funct3 {
                    0 | 4 => 1,
                    1 | 5 => 2,
                    2 => 4,
                    _ => return self.trap(2, word),
                };
                if addr % size as u32 != 0 {
                    return self.trap(4, addr);
                }
                return Done::Bus(Access { write: false, addr, size, value: 0 }, word);
            }
            0x23 => {
                let addr = a.wrapping_add(s_imm(word));
                let (size, value) = match funct3 {
                    0 => (1, b & 0xff),
                    1 => (2, b & 0xffff),
                    2 => (4, b),
                    _ => return self.trap(2, word),
                };
                if addr % size as u32 != 0 {
                    return self.trap(6, addr);
                }
                return Done::Bus(Access { write: true, addr, size, value }, word);
            }
            0x13 => {
                let imm = i_imm(word);
                match (funct3, funct7) {
                    (0, _) => a.wrapping_add(imm),
                    (2, _) => ((a as i32) < imm as i32) as u32,
                    (3, _) => (a < imm) as u32,
                    (4, _) => a ^ imm,
                    (6, _) => a | imm,
                    (7, _) => a & imm,
                    (1, 0) => a << (imm & 0x1f),
                    (5, 0) => a >> (imm & 0x1f),
                    (5, 0x20) => (a as i32 >> (imm & 0x1f)) as u32,
                    _ => return self.trap(2, word),
                }
            }
            0x33 => match (funct3, funct7) {
                (0, 0) => a.wrapping_add(b),
                (0, 0x20) => a.wrapping_sub(b),
                (1, 0) => a << (b & 0x1f),
                (2, 0) => ((a as i32) < b as i32) as u32,
                (3, 0) => (a < b) as u32,
                (4, 0) => a ^ b,
                (5, 0) => a >> (b & 0x1f),
                (5, 0x20) => (a as i32 >> (b & 0x1f)) as u32,
                (6, 0) => a | b,
                (7, 0) => a & b,
                _ => return self.trap(2, word),
            },
            0x0f if funct3 == 0 => {
                self.pc = next;
                return Done::Whole;
            }
            0x73 => return self.system(word, rd, a, pending),
            _ => return self.trap(2, word),
        };
        self.set(rd, value, next)
    }

    fn system(&mut self, word: u32, rd: usize, a: u32, pending: u32) -> Done {
        match word {
            0x73 => return self.trap(11, 0),
            0x0010_0073 => return self.trap(3, 0),
            0x3020_0073 => {
                self.csrs.mstatus = 0x1880 | (self.csrs.mstatus >> 7 & 1) << 3;
                self.pc = self.csrs.mepc;
                return Done::Whole;
            }
            0x1050_0073 => {
                self.pc = self.pc.wrapping_add(4);
                return Done::Whole;
            }
            _ => {}
        }
        let (source, number) = (word >> 15 & 0x1f, word >> 20);
        let operand = if word & 0x4000 == 0 { a } else { source };
        let Some(old) = self.csrs.read(number, pending) else { return self.trap(2, word) };
        let new = match word >> 12 & 3 {
            1 => Some(operand),
            2 => (source != 0).then_some(old | operand),
            3 => (source != 0).then_some(old & !operand),
            _ => return self.trap(2, word),
        };
        if let Some(new) = new {
            if !self.csrs.write(number, new) {
                return self.trap(2, word);
            }
        }
        self.set(rd, old, self.pc.wrapping_add(4))
    }

    /// Ends the unit of an access, by what was answered, or none where it was refused.
    fn finish(&mut self, word: u32, answer: Option<u32>) {
        let (rd, funct3) = ((word >> 7 & 0x1f) as usize, word >> 12 & 7);
        let next = self.pc.wrapping_add(4);
        let a = self.regs[(word >> 15 & 0x1f) as usize];
        match (word & 0x7f == 0x03, answer) {
            (true, Some(answer)) => {
                let value = match funct3 {
                    0 => answer as i8 as u32,
                    1 => answer as i16 as u32,
                    4 => answer & 0xff,
                    5 => answer & 0xffff,
                    _ => answer,
                };
                self.set(rd, value, next);
            }
            (false, Some(_)) => self.pc = next,
            (true, None) => {
                self.trap(5, a.wrapping_add(i_imm(word)));
            }
            (false, None) => {
                self.trap(7, a.wrapping_add(s_imm(word)));
            }
        }
    }
}
