// A timer in plain Rust, and what every device is.

#[derive(Clone, Copy)]
struct Access {
    write: bool,
    posted: bool,
    addr: u64,
    size: u8,
    value: u64,
    lanes: u8,
}

#[derive(Clone, Copy)]
struct Answer {
    code: u8,
    value: u64,
}

#[derive(Clone, Copy)]
#[allow(dead_code)]
enum Want {
    Fetch { addr: u64, size: u8 },
    Store { addr: u64, size: u8, bytes: [u8; 64], mask: u64 },
    Line { line: u32, level: bool },
}

#[derive(Clone, Copy)]
#[allow(dead_code)]
struct Reply {
    code: u8,
    size: u8,
    bytes: [u8; 64],
}

trait Device {
    fn access(&mut self, tick: u64, access: Access) -> Answer;
    fn advance(&mut self, tick: u64);
    fn seen(&self) -> u64;
    fn want(&self) -> Option<Want>;
    fn due(&self) -> u64;
    fn feed(&mut self, reply: Reply);
}

// An interrupt line as its device drives it. At most one level is pending, the one that isn't shown.
struct Wire {
    line: u32,
    shown: bool,
    pending: bool,
    due: u64,
    seen: u64,
}

impl Wire {
    fn rule(&mut self, level: bool) {
        if !self.pending && self.shown != level {
            self.pending = true;
            self.due = self.seen;
        }
    }

    fn pass_rising(&mut self, rises: Option<u64>, tick: u64) {
        if let Some(rises) = rises.filter(|rises| *rises <= tick) {
            self.seen = self.seen.max(rises);
            self.rule(true);
        }
        self.seen = tick;
    }
}

struct Timer {
    compare: u32,
    enabled: bool,
    wire: Wire,
}

impl Timer {
    fn new(line: u32) -> Timer {
        Timer { compare: u32::MAX, enabled: false, wire: Wire { line, shown: false, pending: false, due: 0, seen: 0 } }
    }

    fn level(&self) -> bool {
        self.enabled && u64::from(self.compare) <= self.wire.seen
    }

    fn act(&mut self, access: &Access) -> Answer {
        let refused = |code: u8| Answer { code, value: 0 };
        let given = |value: u64| Answer { code: 0, value };
        if access.size != 4 || access.lanes & 15 != 15 {
            return refused(1);
        }
        match (access.addr, access.write) {
            (0, false) => given(self.wire.seen & 0xffff_ffff),
            (4, false) => given(u64::from(self.compare)),
            (8, false) => given(u64::from(self.enabled)),
            (0, true) => refused(1),
            (4, true) => {
                self.compare = access.value as u32;
                given(0)
            }
            (8, true) => {
                self.enabled = access.value & 1 == 1;
                given(0)
            }
            _ => refused(2),
        }
    }
}

impl Device for Timer {
    fn access(&mut self, tick: u64, access: Access) -> Answer {
        self.advance(tick);
        let answer = self.act(&access);
        let level = self.level();
        self.wire.rule(level);
        answer
    }

    fn advance(&mut self, tick: u64) {
        let rises = self.enabled.then_some(u64::from(self.compare));
        self.wire.pass_rising(rises, tick);
    }

    fn seen(&self) -> u64 {
        self.wire.seen
    }

    fn want(&self) -> Option<Want> {
        self.wire.pending.then_some(Want::Line { line: self.wire.line, level: !self.wire.shown })
    }

    fn due(&self) -> u64 {
        self.wire.due
    }

    fn feed(&mut self, _: Reply) {
        self.wire.shown = !self.wire.shown;
        self.wire.pending = false;
        let level = self.level();
        self.wire.rule(level);
    }
}
