//! The machine of the crate `sys_bus` in plain Rust, over the programs of the crate `bench_bus`: RAM in pages that are made when they
//! are first touched, the system block, windows, and the hart changed in place. `baseline UNITS loop` and `baseline UNITS copy`.

use std::convert::TryInto;

include!("../hart.rs");
include!("machine.rs");

const LOOP: [u32; 7] = [
    0x0011_8193, // addi x3, x3, 1
    0x0031_9213, // slli x4, x3, 3
    0x0041_4133, // xor x2, x2, x4
    0x0031_32b3, // sltu x5, x2, x3
    0x0051_0133, // add x2, x2, x5
    0xfe01_96e3, // bne x3, x0, -20
    0xfe9f_f06f, // jal x0, -24
];
const COPY: [u32; 10] = [
    0x8000_10b7, // lui x1, 0x80001
    0x8000_2137, // lui x2, 0x80002
    0x8000_2237, // lui x4, 0x80002
    0x0000_a183, // lw x3, 0(x1)
    0x0011_8193, // addi x3, x3, 1
    0x0031_2023, // sw x3, 0(x2)
    0x0040_8093, // addi x1, x1, 4
    0x0041_0113, // addi x2, x2, 4
    0xfe40_96e3, // bne x1, x4, -20
    0xfddf_f06f, // jal x0, -36
];

fn main() {
    let words: Vec<String> = std::env::args().collect();
    let units: u64 = words[1].parse().unwrap();
    let program: &[u32] = if words[2] == "copy" { &COPY } else { &LOOP };
    let mut machine = Machine::with_program(program);
    for _ in 0..units {
        if machine.stopped.is_some() {
            break;
        }
        if let Some(bus) = machine.issue() {
            println!("{} {} {}", bus.port, bus.posted, bus.access.addr);
            break;
        }
    }
    println!("{} {} {}", machine.hart.pc, machine.hart.regs[2], machine.hart.regs[3]);
}
