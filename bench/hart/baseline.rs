//! The hart's units in plain Rust, over the program of the crate `bench_hart`: `baseline UNITS copy` issues and finishes
//! by value, `baseline UNITS place` in the hart's place.

include!("../hart.rs");

const BASE: u32 = 0x8000_0000;
const DATA: u32 = 0x8000_1000;
const PROGRAM: [u32; 13] = [
    0x8000_10b7, 0x0000_0113, 0x0000_a183, 0x0011_8193, 0x0031_9213, 0x0041_4133, 0x0031_32b3,
    0x0051_0133, 0x0020_a223, 0x0030_a023, 0x7ff1_f313, 0xfc03_1ee3, 0xfd9f_f06f,
];

enum Issue {
    Local(Hart),
    Bus(Access, u32),
    Trap(Hart),
}

#[inline(never)]
fn issue(hart: &Hart, fetched: Option<u32>, pending: u32) -> Issue {
    let mut next = *hart;
    match next.issue(fetched, pending) {
        Done::Whole => Issue::Local(next),
        Done::Trapped => Issue::Trap(next),
        Done::Bus(access, word) => Issue::Bus(access, word),
    }
}

#[inline(never)]
fn finish(hart: &Hart, word: u32, answer: Option<u32>) -> Hart {
    let mut next = *hart;
    next.finish(word, answer);
    next
}

fn fetch(pc: u32) -> Option<u32> {
    let offset = pc.wrapping_sub(BASE);
    if offset % 4 == 0 { PROGRAM.get(offset as usize / 4).copied() } else { None }
}

fn answer(data: &mut [u32; 64], access: Access) -> Option<u32> {
    let word = data.get_mut(access.addr.wrapping_sub(DATA) as usize / 4)?;
    if access.size != 4 {
        return None;
    }
    if access.write {
        *word = access.value;
    }
    Some(*word)
}

fn main() {
    let words: Vec<String> = std::env::args().collect();
    let units: u64 = words[1].parse().unwrap();
    let mut data = [0; 64];
    let mut hart = Hart::reset(BASE);
    if words[2] == "copy" {
        for _ in 0..units {
            hart = match issue(&hart, fetch(hart.pc), 0) {
                Issue::Local(next) | Issue::Trap(next) => next,
                Issue::Bus(access, word) => {
                    let answer = answer(&mut data, access);
                    finish(&hart, word, answer)
                }
            };
        }
    } else {
        for _ in 0..units {
            if let Done::Bus(access, word) = hart.issue(fetch(hart.pc), 0) {
                let answer = answer(&mut data, access);
                hart.finish(word, answer);
            }
        }
    }
    println!("{} {} {}", hart.pc, hart.regs[2], hart.regs[3]);
}
