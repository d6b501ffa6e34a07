// A machine in plain Rust that runs an image beside a timer, a UART and a DMA and prints what `cosim direct` prints: what the
// command is timed against, and an independent reading of the same rules.
//
// usage: machine IMAGE RAM QUANTUM UNITS [timer|uart|uart:INPUT:GAP|dma]...
// Port p is at 0x10000000 + 4096 p and has line p.

use std::fmt::Write as _;
use std::io::Write as _;

include!("../hart.rs");

const RAM: u32 = 0x8000_0000;
const SYSTEM: u32 = 0x0010_0000;
const WINDOWS: u32 = 0x1000_0000;

enum Call {
    Read { tick: u64, port: usize, addr: u32, size: u32, value: u32, code: u8 },
    Write { tick: u64, port: usize, addr: u32, size: u32, value: u32, code: u8 },
    Fetch { tick: u64, port: usize, addr: u64, due: u64, bytes: Vec<u8>, code: u8 },
    Store { tick: u64, port: usize, addr: u64, due: u64, bytes: Vec<u8>, mask: u64, code: u8 },
    Line { tick: u64, port: usize, level: bool, due: u64 },
}

/// The line rule: what level was shown, and what pends.
#[derive(Default)]
struct Wire {
    shown: bool,
    pending: Option<bool>,
    due: u64,
}

impl Wire {
    fn rule(&mut self, level: bool, at: u64) {
        if self.pending.is_none() && level != self.shown {
            self.pending = Some(level);
            self.due = at;
        }
    }
}

struct Timer { compare: u32, on: bool }

struct Uart { input: Vec<u8>, gap: u64, taken: usize, on: bool, sent: Vec<u8> }

struct Dma { src: u32, dst: u32, len: u32, mask: u32, on: bool, busy: bool, done: bool, error: bool, at: u32, held: Option<Vec<u8>>, chunk_due: u64 }

enum Kind { Timer(Timer), Uart(Uart), Dma(Dma) }

struct Device { kind: Kind, wire: Wire, seen: u64 }

enum Want { Line(bool), Fetch(u64, u32), Store(u64, Vec<u8>, u64) }

impl Device {
    /// When the level rises, or rose, where nothing else happens.
    fn rises(&self) -> Option<u64> {
        match &self.kind {
            Kind::Timer(t) => t.on.then_some(u64::from(t.compare)),
            Kind::Uart(u) => (u.on && u.taken < u.input.len()).then(|| (u.taken as u64 + 1) * u.gap),
            Kind::Dma(d) => (d.on && d.done && !d.busy).then_some(0),
        }
    }

    fn level(&self) -> bool {
        self.rises().is_some_and(|at| at <= self.seen)
    }

    fn advance(&mut self, tick: u64) {
        let rises = self.rises();
        let before = self.seen;
        self.seen = tick;
        let level = self.level();
        let at = match rises {
            Some(at) if level && at > before => at,
            _ => tick,
        };
        self.wire.rule(level, at);
    }

    fn access(&mut self, tick: u64, write: bool, addr: u32, size: u32, value: u32) -> (u8, u32) {
        self.advance(tick);
        if size != 4 {
            return (1, 0);
        }
        let seen = self.seen;
        let answer = match &mut self.kind {
            Kind::Timer(t) => match (addr, write) {
                (0, false) => (0, tick as u32),
                (4, false) => (0, t.compare),
                (8, false) => (0, t.on as u32),
                (4, true) => { t.compare = value; (0, 0) }
                (8, true) => { t.on = value & 1 == 1; (0, 0) }
                (0, true) => (1, 0),
                _ => (2, 0),
            },
            Kind::Uart(u) => {
                let there = u.taken < u.input.len() && (u.taken as u64 + 1) * u.gap <= seen;
                match (addr, write) {
                    (0, false) if there => { u.taken += 1; (0, u32::from(u.input[u.taken - 1])) }
                    (0, false) => (0, 0),
                    (4, false) => (0, there as u32),
                    (8, false) => (0, u.on as u32),
                    (0, true) => { u.sent.push(value as u8); (0, 0) }
                    (8, true) => { u.on = value & 1 == 1; (0, 0) }
                    (4, true) => (1, 0),
                    _ => (2, 0),
                }
            }
            Kind::Dma(d) => match (addr, write) {
                (0, false) => (0, d.src),
                (4, false) => (0, d.dst),
                (8, false) => (0, d.len),
                (12, false) => (0, d.mask),
                (16, false) => (0, (d.on as u32) << 1),
                (20, false) => (0, d.busy as u32 | (d.done as u32) << 1 | (d.error as u32) << 2),
                (0..=15, true) if d.busy && addr % 4 == 0 => (1, 0),
                (0, true) => { d.src = value; (0, 0) }
                (4, true) => { d.dst = value; (0, 0) }
                (8, true) => { d.len = value; (0, 0) }
                (12, true) => { d.mask = value; (0, 0) }
                (16, true) if value & 1 == 1 && (d.busy || d.len == 0 || d.len > 65536) => (1, 0),
                (16, true) => {
                    d.on = value & 2 == 2;
                    if value & 1 == 1 {
                        d.busy = true;
                        d.done = false;
                        d.error = false;
                        d.at = 0;
                        d.held = None;
                        d.chunk_due = seen;
                    }
                    (0, 0)
                }
                (20, true) => { d.done = false; d.error = false; (0, 0) }
                _ => (2, 0),
            },
        };
        let level = self.level();
        let had = self.wire.pending.is_some();
        self.wire.rule(level, tick);
        if !had && self.wire.pending.is_none() && matches!(&self.kind, Kind::Dma(d) if d.busy && d.at == 0 && d.held.is_none() && d.chunk_due == tick) {
            self.wire.due = tick;
        }
        answer
    }

    fn chunk(d: &Dma) -> u32 {
        (d.len - d.at).min(64)
    }

    fn want(&self) -> Option<Want> {
        if let Some(level) = self.wire.pending {
            return Some(Want::Line(level));
        }
        let Kind::Dma(d) = &self.kind else { return None };
        if !d.busy {
            return None;
        }
        let size = Device::chunk(d);
        Some(match &d.held {
            None => Want::Fetch(u64::from(d.src) + u64::from(d.at), size),
            Some(bytes) => {
                let mask = (0..size).fold(0u64, |mask, i| mask | u64::from(d.mask >> ((d.at + i) % 32) & 1) << i);
                Want::Store(u64::from(d.dst) + u64::from(d.at), bytes.clone(), mask)
            }
        })
    }

    fn feed(&mut self, code: u8, bytes: Vec<u8>) {
        if let Some(level) = self.wire.pending.take() {
            self.wire.shown = level;
        } else if let Kind::Dma(d) = &mut self.kind {
            if code != 0 {
                d.busy = false;
                d.done = true;
                d.error = true;
            } else if d.held.is_none() {
                d.held = Some(bytes);
            } else {
                d.at += Device::chunk(d);
                d.held = None;
                if d.at >= d.len {
                    d.busy = false;
                    d.done = true;
                }
            }
        }
        let level = self.level();
        self.wire.rule(level, self.seen);
        if self.want().is_some() {
            self.wire.due = self.seen;
        }
    }
}

struct Machine {
    ram: Vec<u8>,
    hart: Hart,
    lines: u32,
    enable: u32,
    tenable: u32,
    stop: Option<u32>,
    devices: Vec<Device>,
    calls: Vec<Call>,
    tick: u64,
}

impl Machine {
    fn place(&self, addr: u64, size: u64) -> Option<usize> {
        let base = u64::from(RAM);
        (addr >= base && addr + size <= base + self.ram.len() as u64).then(|| (addr - base) as usize)
    }

    fn pending(&self) -> u32 {
        ((self.lines & self.enable != 0) as u32) << 11 | ((self.lines & self.tenable != 0) as u32) << 7
    }

    /// A load or store that isn't in RAM, or none where it is refused.
    fn outside(&mut self, write: bool, addr: u32, size: u32, value: u32) -> Option<u32> {
        if addr.wrapping_sub(SYSTEM) < 4096 {
            if size != 4 || addr % 4 != 0 {
                return None;
            }
            return match (addr - SYSTEM, write) {
                (0, false) => Some(0),
                (4, false) => Some(self.lines),
                (8, false) => Some(self.enable),
                (12, false) => Some(self.tenable),
                (0, true) => { self.stop = Some(value); Some(0) }
                (8, true) => { self.enable = value; Some(0) }
                (12, true) => { self.tenable = value; Some(0) }
                _ => None,
            };
        }
        let port = (addr.wrapping_sub(WINDOWS) / 4096) as usize;
        if addr < WINDOWS || port >= self.devices.len() {
            return None;
        }
        let (tick, addr) = (self.tick, addr % 4096);
        let (code, got) = self.devices[port].access(tick, write, addr, size, value);
        let got = if write || code != 0 { 0 } else { got };
        self.calls.push(if write {
            Call::Write { tick, port, addr, size, value, code }
        } else {
            Call::Read { tick, port, addr, size, value: got, code }
        });
        (code == 0).then_some(got)
    }

    fn load_ram(&self, addr: u32, size: u8) -> Option<u32> {
        let at = self.place(u64::from(addr), u64::from(size))?;
        Some(match size {
            1 => u32::from(self.ram[at]),
            2 => u32::from(u16::from_le_bytes([self.ram[at], self.ram[at + 1]])),
            _ => u32::from_le_bytes([self.ram[at], self.ram[at + 1], self.ram[at + 2], self.ram[at + 3]]),
        })
    }

    fn store_ram(&mut self, addr: u32, size: u8, value: u32) -> Option<u32> {
        let at = self.place(u64::from(addr), u64::from(size))?;
        let size = usize::from(size);
        self.ram[at..at + size].copy_from_slice(&value.to_le_bytes()[..size]);
        Some(0)
    }

    /// The answer to a load or a store, or none where it is refused.
    fn answer(&mut self, access: Access) -> Option<u32> {
        let Access { write, addr, size, value } = access;
        let ram = if write { self.store_ram(addr, size, value) } else { self.load_ram(addr, size) };
        ram.or_else(|| self.outside(write, addr, u32::from(size), value))
    }

    /// One unit.
    fn unit(&mut self) {
        let fetched = self.load_ram(self.hart.pc, 4);
        let pending = self.pending();
        if let Done::Bus(access, word) = self.hart.issue(fetched, pending) {
            let answer = self.answer(access);
            self.hart.finish(word, answer);
        }
    }

    /// Serves the wants, that of the least due time first, and that of the least port among equals.
    fn boundary(&mut self) {
        for device in &mut self.devices {
            device.advance(self.tick);
        }
        loop {
            let next = (0..self.devices.len()).filter(|p| self.devices[*p].want().is_some()).min_by_key(|p| (self.devices[*p].wire.due, *p));
            let Some(port) = next else { return };
            let (tick, due) = (self.tick, self.devices[port].wire.due);
            match self.devices[port].want() {
                Some(Want::Line(level)) => {
                    self.lines = if level { self.lines | 1 << port } else { self.lines & !(1 << port) };
                    self.calls.push(Call::Line { tick, port, level, due });
                    self.devices[port].feed(0, Vec::new());
                }
                Some(Want::Fetch(addr, size)) => {
                    let (code, bytes) = match self.place(addr, u64::from(size)) {
                        Some(at) => (0, self.ram[at..at + size as usize].to_vec()),
                        None => (2, vec![0; size as usize]),
                    };
                    self.calls.push(Call::Fetch { tick, port, addr, due, bytes: bytes.clone(), code });
                    self.devices[port].feed(code, bytes);
                }
                Some(Want::Store(addr, bytes, mask)) => {
                    let code = match self.place(addr, bytes.len() as u64) {
                        Some(at) => {
                            for (i, byte) in bytes.iter().enumerate() {
                                if mask >> i & 1 == 1 {
                                    self.ram[at + i] = *byte;
                                }
                            }
                            0
                        }
                        None => 2,
                    };
                    self.calls.push(Call::Store { tick, port, addr, due, bytes, mask, code });
                    self.devices[port].feed(code, Vec::new());
                }
                None => {}
            }
        }
    }

    fn run(&mut self, quantum: u64, units: u64) {
        while self.stop.is_none() && self.tick < units {
            self.unit();
            self.tick += 1;
            if self.stop.is_none() && self.tick < units && self.tick % quantum == 0 {
                self.boundary();
            }
        }
        self.boundary();
    }
}

fn hex(bytes: &[u8]) -> String {
    bytes.iter().fold(String::new(), |mut text, byte| {
        let _ = write!(text, "{byte:02x}");
        text
    })
}

fn sha256(bytes: &[u8]) -> Vec<u8> {
    let primes = (2u32..312).filter(|n| (2..*n).all(|d| n % d != 0)).collect::<Vec<_>>();
    let root = |p: u32, power: f64| ((f64::from(p).powf(power).fract()) * 4294967296.0) as u32;
    let k = primes.iter().take(64).map(|p| root(*p, 1.0 / 3.0)).collect::<Vec<_>>();
    let mut h = primes.iter().take(8).map(|p| root(*p, 0.5)).collect::<Vec<_>>();
    let mut text = bytes.to_vec();
    text.push(0x80);
    while text.len() % 64 != 56 {
        text.push(0);
    }
    text.extend((bytes.len() as u64 * 8).to_be_bytes());
    for block in text.chunks(64) {
        let mut w = block.chunks(4).map(|c| u32::from_be_bytes([c[0], c[1], c[2], c[3]])).collect::<Vec<_>>();
        for i in 16..64 {
            let s0 = w[i - 15].rotate_right(7) ^ w[i - 15].rotate_right(18) ^ w[i - 15] >> 3;
            let s1 = w[i - 2].rotate_right(17) ^ w[i - 2].rotate_right(19) ^ w[i - 2] >> 10;
            w.push(w[i - 16].wrapping_add(s0).wrapping_add(w[i - 7]).wrapping_add(s1));
        }
        let mut v = h.clone();
        for i in 0..64 {
            let s1 = v[4].rotate_right(6) ^ v[4].rotate_right(11) ^ v[4].rotate_right(25);
            let t1 = v[7].wrapping_add(s1).wrapping_add(v[4] & v[5] ^ !v[4] & v[6]).wrapping_add(k[i]).wrapping_add(w[i]);
            let s0 = v[0].rotate_right(2) ^ v[0].rotate_right(13) ^ v[0].rotate_right(22);
            let t2 = s0.wrapping_add(v[0] & v[1] ^ v[0] & v[2] ^ v[1] & v[2]);
            v.rotate_right(1);
            v[4] = v[4].wrapping_add(t1);
            v[0] = t1.wrapping_add(t2);
        }
        for (a, b) in h.iter_mut().zip(v) {
            *a = a.wrapping_add(b);
        }
    }
    h.iter().flat_map(|n| n.to_be_bytes()).collect()
}

fn line_of(call: &Call, out: &mut String) {
    let _ = match call {
        Call::Read { tick, port, addr, size, value, code } => writeln!(out, "@{tick} p{port} read 0x{addr:x}+{size} = 0x{value:x} code {code}"),
        Call::Write { tick, port, addr, size, value, code } => writeln!(out, "@{tick} p{port} write 0x{addr:x}+{size} = 0x{value:x} code {code}"),
        Call::Fetch { tick, port, addr, due, bytes, code } => writeln!(out, "@{tick} p{port} fetch 0x{addr:x}+{} due {due} = {} code {code}", bytes.len(), hex(bytes)),
        Call::Store { tick, port, addr, due, bytes, mask, code } => {
            writeln!(out, "@{tick} p{port} store 0x{addr:x}+{} due {due} = {} mask 0x{mask:x} code {code}", bytes.len(), hex(bytes))
        }
        Call::Line { tick, port, level, due } => writeln!(out, "@{tick} p{port} line {port} = {} due {due}", u8::from(*level)),
    };
}

fn device(word: &str) -> Device {
    let parts = word.split(':').collect::<Vec<_>>();
    let kind = match parts[0] {
        "timer" => Kind::Timer(Timer { compare: u32::MAX, on: false }),
        "dma" => Kind::Dma(Dma { src: 0, dst: 0, len: 0, mask: u32::MAX, on: false, busy: false, done: false, error: false, at: 0, held: None, chunk_due: 0 }),
        _ => {
            let input = parts.get(1).map_or(Vec::new(), |name| std::fs::read(name).expect("input"));
            let gap = parts.get(2).map_or(1, |gap| gap.parse().expect("gap"));
            Kind::Uart(Uart { input, gap, taken: 0, on: false, sent: Vec::new() })
        }
    };
    Device { kind, wire: Wire::default(), seen: 0 }
}

fn main() {
    let words = std::env::args().skip(1).collect::<Vec<_>>();
    let number = |i: usize| words[i].parse::<u64>().expect("number");
    let image = std::fs::read(&words[0]).expect("image");
    let mut ram = vec![0; number(1) as usize];
    ram[..image.len()].copy_from_slice(&image);
    let devices = words[4..].iter().map(|word| device(word)).collect();
    let mut m = Machine {
        ram, hart: Hart::reset(RAM), lines: 0, enable: 0, tenable: 0, stop: None, devices, calls: Vec::new(), tick: 0,
    };
    m.run(number(2), number(3));
    let mut out = String::new();
    for call in &m.calls {
        line_of(call, &mut out);
    }
    let _ = match m.stop {
        Some(code) => writeln!(out, "stop halted {code} at {}", m.tick),
        None => writeln!(out, "stop budget at {}", m.tick),
    };
    let _ = write!(out, "pc {:08x}\nregs", m.hart.pc);
    for value in &m.hart.regs[1..] {
        let _ = write!(out, " {value:08x}");
    }
    let _ = writeln!(out, "\nlines {:08x}\nram {}", m.lines, hex(&sha256(&m.ram)));
    for (port, device) in m.devices.iter().enumerate() {
        if let Kind::Uart(uart) = &device.kind {
            let sent = m.calls.iter().filter_map(|call| match call {
                Call::Write { port: to, addr: 0, size: 4, value, .. } if *to == port => Some(*value as u8),
                _ => None,
            });
            let sent = sent.collect::<Vec<_>>();
            let _ = uart;
            let blank = if sent.is_empty() { "" } else { " " };
            let _ = writeln!(out, "out p{port}{blank}{}", hex(&sent));
        }
    }
    std::io::stdout().write_all(out.as_bytes()).expect("output");
}
