//! A machine's end over a link in memory to a timer's end, all in plain Rust: what the crate `bench_machine` times as
//! `round_trips`, over the same program. `baseline RUNS`.

include!("../hart.rs");
include!("../bus/machine.rs");

// A bus packet and an access of a device have the names of what the hart asks for.
mod ends {
    use super::Machine;

    include!("../packets.rs");
    include!("../device/timer.rs");
    include!("../device/end.rs");
    include!("end.rs");
    include!("link.rs");

    const POLL: [u32; 4] = [
        0x1000_00b7, // lui x1, 0x10000
        0x0000_a183, // lw x3, 0(x1)
        0x0031_0133, // add x2, x2, x3
        0xff9f_f06f, // jal x0, -8
    ];

    // A fresh machine over a link to a fresh timer.
    pub fn run() -> (u64, usize, Machine) {
        let plan = Plan { quantum: 1000, units: 30_001 };
        let mut end = MachineEnd::new(Machine::with_program(&POLL), 1, plan);
        let mut links = [Link::new(End::new(Timer::new(0), ALL_CAPS, true))];
        drive(&mut end, &mut links).unwrap();
        (end.tick, end.calls.len(), end.master)
    }
}

fn main() {
    let words: Vec<String> = std::env::args().collect();
    let runs: u32 = words[1].parse().unwrap();
    let (mut units, mut calls, mut last) = (0, 0, (0, 0, 0));
    for _ in 0..runs {
        let (more_units, more_calls, machine) = ends::run();
        units += more_units;
        calls += more_calls;
        last = (machine.hart.pc, machine.hart.regs[2], machine.hart.regs[3]);
    }
    println!("{units} {calls} {} {} {}", last.0, last.1, last.2);
}
