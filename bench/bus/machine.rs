// A machine in plain Rust over the hart of ../hart.rs: RAM in pages that are made when they are first touched, the
// system block, windows, and the hart changed in place.

const BASE: u32 = 0x8000_0000;
const PAGES: usize = 16;

struct Ram {
    pages: Vec<Option<Box<[u8; 4096]>>>,
}

impl Ram {
    fn place(&self, addr: u32, size: u8) -> Option<usize> {
        let at = addr.wrapping_sub(BASE) as usize;
        (at + size as usize <= self.pages.len() * 4096).then_some(at)
    }

    fn load(&self, addr: u32, size: u8) -> Option<u32> {
        let at = self.place(addr, size)?;
        let Some(page) = &self.pages[at / 4096] else { return Some(0) };
        let at = at % 4096;
        Some(match size {
            1 => page[at] as u32,
            2 => u16::from_le_bytes(page[at..at + 2].try_into().unwrap()) as u32,
            _ => u32::from_le_bytes(page[at..at + 4].try_into().unwrap()),
        })
    }

    fn store(&mut self, addr: u32, size: u8, value: u32) -> bool {
        let Some(at) = self.place(addr, size) else { return false };
        let page = self.pages[at / 4096].get_or_insert_with(|| Box::new([0; 4096]));
        let at = at % 4096;
        match size {
            1 => page[at] = value as u8,
            2 => page[at..at + 2].copy_from_slice(&(value as u16).to_le_bytes()),
            _ => page[at..at + 4].copy_from_slice(&value.to_le_bytes()),
        }
        true
    }
}

struct Window {
    base: u32,
    size: u32,
    posted: bool,
}

struct Bus {
    port: u32,
    posted: bool,
    access: Access,
}

struct Machine {
    hart: Hart,
    ram: Ram,
    windows: Vec<Window>,
    lines: u32,
    enable: u32,
    timer_enable: u32,
    stopped: Option<u32>,
    waiting: Option<(u32, u32)>,
}

impl Machine {
    // A machine at reset with one window, and a program at the front of RAM.
    fn with_program(program: &[u32]) -> Machine {
        let mut machine = Machine {
            hart: Hart::reset(BASE),
            ram: Ram { pages: (0..PAGES).map(|_| None).collect() },
            windows: vec![Window { base: 0x1000_0000, size: 4096, posted: false }],
            lines: 0,
            enable: 0,
            timer_enable: 0,
            stopped: None,
            waiting: None,
        };
        for (number, word) in program.iter().enumerate() {
            machine.ram.store(BASE + 4 * number as u32, 4, *word);
        }
        machine
    }

    fn system(&mut self, access: Access) -> Option<u32> {
        if access.size != 4 {
            return None;
        }
        match (access.addr % 4096, access.write) {
            (0, true) => self.stopped = Some(access.value),
            (8, true) => self.enable = access.value,
            (12, true) => self.timer_enable = access.value,
            (0, false) => {}
            (4, false) => return Some(self.lines),
            (8, false) => return Some(self.enable),
            (12, false) => return Some(self.timer_enable),
            _ => return None,
        }
        Some(0)
    }

    fn window(&self, access: Access) -> Option<Bus> {
        let end = access.addr as u64 + access.size as u64;
        let port = self
            .windows
            .iter()
            .position(|w| w.base <= access.addr && end <= w.base as u64 + w.size as u64)?;
        let window = &self.windows[port];
        Some(Bus {
            port: port as u32,
            posted: access.write && window.posted,
            access: Access { addr: access.addr - window.base, ..access },
        })
    }

    #[inline(never)]
    fn issue(&mut self) -> Option<Bus> {
        let fetched = self.ram.load(self.hart.pc, 4);
        let external = if self.lines & self.enable == 0 { 0 } else { 0x800 };
        let timer = if self.lines & self.timer_enable == 0 { 0 } else { 0x80 };
        let Done::Bus(access, word) = self.hart.issue(fetched, external | timer) else { return None };
        let answer = if access.write {
            self.ram.store(access.addr, access.size, access.value).then_some(0)
        } else {
            self.ram.load(access.addr, access.size)
        };
        if answer.is_some() {
            self.hart.finish(word, answer);
            return None;
        }
        if access.addr / 4096 == 256 {
            let answer = self.system(access);
            self.hart.finish(word, answer);
            return None;
        }
        match self.window(access) {
            Some(bus) => {
                self.waiting = Some((bus.port, word));
                Some(bus)
            }
            None => {
                self.hart.finish(word, None);
                None
            }
        }
    }

    // Ends the unit of an access of a window, by what was answered, or none where it was refused.
    #[allow(dead_code)]
    fn finish_window(&mut self, answer: Option<u32>) {
        if let Some((_, word)) = self.waiting.take() {
            self.hart.finish(word, answer);
        }
    }
}
