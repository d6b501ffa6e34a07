// A device end in plain Rust: session, framer and end.

// A session

#[derive(Clone, Copy, PartialEq)]
struct Caps {
    base: bool,
    enables: bool,
    posted: bool,
}

#[derive(Clone, Copy, PartialEq, Debug)]
enum Command {
    Nop,
    Hello,
    Cfg,
    Read,
    Write,
    Interrupt,
    Sync,
}

fn command_of(body: &Body) -> Command {
    match body {
        Body::Nop => Command::Nop,
        Body::Hello { .. } => Command::Hello,
        Body::Cfg { .. } => Command::Cfg,
        Body::Read(_) => Command::Read,
        Body::Write(_) => Command::Write,
        Body::Interrupt { .. } => Command::Interrupt,
        Body::Sync { .. } => Command::Sync,
    }
}

#[derive(Clone, Copy)]
struct Ticket {
    id: u32,
    flags: u32,
    dev: u32,
}

#[derive(Clone, Copy)]
struct OwnRequest {
    command: Command,
    id: u32,
    len: u32,
}

#[derive(Clone, Copy, Debug)]
#[allow(dead_code)]
enum Fault {
    HelloMissing(u32),
    HelloAgain,
    Version(u16),
    CapMissing(u32),
    Unsupported(u32),
    StrayAnswer(u32, u32),
    WrongAnswer(u32, u32, u32),
    TimeBackwards(u64, u64),
    SecondRequest(u32),
    Flood,
}

enum Event {
    Nothing,
    Met,
    Asked(Ticket),
    Told,
    Answered,
    SyncDone,
}

struct Session {
    machine: bool,
    offers: Caps,
    needs: Caps,
    next: u32,
    common: Caps,
    greeted: bool,
    met: bool,
    own_sync: Option<OwnRequest>,
    own_other: Option<OwnRequest>,
    peer_sync: Option<Ticket>,
    peer_other: Option<Ticket>,
    peer_time: u64,
    // the packets of this wait, at a machine
    waited: u32,
}

const NO_CAPS: Caps = Caps { base: false, enables: false, posted: false };
const ALL_CAPS: Caps = Caps { base: true, enables: true, posted: true };

fn lacking(needs: Caps, has: Caps) -> Result<(), Fault> {
    if needs.base && !has.base {
        return Err(Fault::CapMissing(1));
    }
    if needs.enables && !has.enables {
        return Err(Fault::CapMissing(2));
    }
    if needs.posted && !has.posted {
        return Err(Fault::CapMissing(3));
    }
    Ok(())
}

fn is_extended(bus: &Bus) -> bool {
    bus.attributes & 4 != 0
}

fn code_of(bus: &Bus) -> u64 {
    bus.attributes >> 8 & 15
}

impl Session {
    fn new(machine: bool, offers: Caps, needs: Caps) -> Session {
        Session {
            machine,
            offers,
            needs,
            next: 0,
            common: NO_CAPS,
            greeted: false,
            met: false,
            own_sync: None,
            own_other: None,
            peer_sync: None,
            peer_other: None,
            peer_time: 0,
            waited: 0,
        }
    }

    fn number(&mut self) -> u32 {
        let id = self.next;
        self.next = id.wrapping_add(1);
        id
    }

    fn greet(&mut self, out: &mut Vec<u8>) {
        let caps = [(self.offers.base, 1), (self.offers.enables, 2), (self.offers.posted, 3)];
        let caps = caps.into_iter().filter(|cap| cap.0).map(|cap| cap.1).collect();
        let id = self.number();
        self.greeted = true;
        write_packet(&Packet { id, flags: 0, dev: 0, body: Body::Hello { major: 4, minor: 3, caps } }, out);
    }

    fn is_posted(&self, packet: &Packet) -> bool {
        match packet.body {
            Body::Write(_) => packet.flags & 4 != 0,
            Body::Interrupt { .. } => packet.flags & 4 != 0 || !self.common.posted,
            _ => false,
        }
    }

    fn meets(&mut self, major: u16, caps: &[u32], answer: bool, id: u32) -> Result<Event, Fault> {
        if self.met {
            return Err(Fault::HelloAgain);
        }
        if major != 4 {
            return Err(Fault::Version(major));
        }
        let has = Caps { base: caps.contains(&1), enables: caps.contains(&2), posted: caps.contains(&3) };
        lacking(self.needs, has)?;
        if answer {
            return Err(Fault::StrayAnswer(id, 1));
        }
        self.met = true;
        self.common = Caps {
            base: has.base && self.offers.base,
            enables: has.enables && self.offers.enables,
            posted: has.posted && self.offers.posted,
        };
        Ok(Event::Met)
    }

    fn hears_answer(&mut self, packet: &Packet, command: Command) -> Result<Event, Fault> {
        let own = if command == Command::Sync { self.own_sync } else { self.own_other };
        let own = own.filter(|own| own.id == packet.id && own.command == command);
        let Some(own) = own else { return Err(Fault::StrayAnswer(packet.id, command as u32)) };
        if let Body::Read(bus) = &packet.body {
            if code_of(bus) == 0 && bus.len != own.len {
                return Err(Fault::WrongAnswer(own.id, own.len, bus.len));
            }
        }
        if command == Command::Sync {
            self.own_sync = None;
            return Ok(Event::SyncDone);
        }
        self.own_other = None;
        Ok(Event::Answered)
    }

    fn hears_request(&mut self, packet: &Packet, command: Command) -> Result<Event, Fault> {
        let time = match &packet.body {
            Body::Read(bus) | Body::Write(bus) => {
                if is_extended(bus) && !self.common.base {
                    return Err(Fault::CapMissing(1));
                }
                if !bus.enables.is_empty() && !self.common.enables {
                    return Err(Fault::CapMissing(2));
                }
                bus.time
            }
            Body::Sync { time } if !self.machine => *time,
            Body::Interrupt { time, .. } if self.machine => *time,
            _ => return Err(Fault::Unsupported(command as u32)),
        };
        if time < self.peer_time {
            return Err(Fault::TimeBackwards(self.peer_time, time));
        }
        if self.is_posted(packet) {
            self.peer_time = time;
            return Ok(Event::Told);
        }
        let place = if command == Command::Sync { &mut self.peer_sync } else { &mut self.peer_other };
        if place.is_some() {
            return Err(Fault::SecondRequest(packet.id));
        }
        let ticket = Ticket { id: packet.id, flags: packet.flags, dev: packet.dev };
        *place = Some(ticket);
        self.peer_time = time;
        Ok(Event::Asked(ticket))
    }

    // A machine takes at most 8,191 packets in a wait.
    fn counted(&mut self) -> Result<(), Fault> {
        if self.machine {
            if self.waited >= 8191 {
                return Err(Fault::Flood);
            }
            self.waited += 1;
        }
        Ok(())
    }

    fn take(&mut self, packet: &Packet) -> Result<Event, Fault> {
        self.counted()?;
        let command = command_of(&packet.body);
        let answer = packet.flags & 2 != 0;
        match &packet.body {
            Body::Nop => return Ok(Event::Nothing),
            Body::Hello { major, caps, .. } => return self.meets(*major, caps, answer, packet.id),
            _ if !self.met => return Err(Fault::HelloMissing(command as u32)),
            Body::Cfg { .. } => return Err(Fault::Unsupported(2)),
            _ => {}
        }
        if answer { self.hears_answer(packet, command) } else { self.hears_request(packet, command) }
    }
}

// A device end

#[derive(Clone, Copy)]
#[allow(dead_code)]
enum Call {
    Access { tick: u64, port: u32, access: Access, answer: Answer },
    Served { tick: u64, port: u32, due: u64, want: Want, reply: Reply },
}

struct OpenSync {
    ticket: Ticket,
    time: u64,
}

// What a device end does with one packet.
struct Core<D> {
    device: D,
    answered_lines: bool,
    session: Session,
    open_sync: Option<OpenSync>,
    own: Option<Want>,
    calls: Vec<Call>,
}

fn bare_reply(code: u8) -> Reply {
    Reply { code, size: 0, bytes: [0; 64] }
}

fn reply_from(want: Want, body: &Body) -> Reply {
    match (want, body) {
        (Want::Fetch { size, .. }, Body::Read(bus)) => {
            let mut bytes = [0; 64];
            let code = code_of(bus) as u8;
            if code == 0 {
                let count = bus.payload.len().min(64);
                bytes[..count].copy_from_slice(&bus.payload[..count]);
            }
            Reply { code, size, bytes }
        }
        (Want::Store { .. }, Body::Write(bus)) => bare_reply(code_of(bus) as u8),
        _ => bare_reply(0),
    }
}

fn is_served(bus: &Bus) -> bool {
    matches!(bus.len, 1 | 2 | 4 | 8) && (bus.stream_width == 0 || bus.stream_width == bus.len)
}

fn access_of(write: bool, posted: bool, bus: &Bus) -> Access {
    let mut value = [0; 8];
    value[..bus.payload.len()].copy_from_slice(bus.payload);
    let lanes = if bus.enables.is_empty() {
        ((1u32 << bus.len) - 1) as u8
    } else {
        (0..bus.len as usize).fold(0, |lanes, at| lanes | u8::from(bus.enables[at % bus.enables.len()] != 0) << at)
    };
    Access { write, posted, addr: bus.addr, size: bus.len as u8, value: u64::from_le_bytes(value), lanes }
}

// What the machine is told of an answer.
fn plain(access: &Access, answer: Answer) -> Answer {
    if access.write {
        return Answer { code: if access.posted { 0 } else { answer.code }, value: 0 };
    }
    if answer.code != 0 {
        return Answer { code: answer.code, value: 0 };
    }
    let mut bytes = answer.value.to_le_bytes();
    for (at, byte) in bytes.iter_mut().enumerate() {
        if at >= access.size as usize || access.lanes >> at & 1 == 0 {
            *byte = 0;
        }
    }
    Answer { code: 0, value: u64::from_le_bytes(bytes) }
}

impl<D: Device> Core<D> {
    fn access(&mut self, tick: u64, access: Access) -> Answer {
        let answer = plain(&access, self.device.access(tick, access));
        self.calls.push(Call::Access { tick, port: 0, access, answer });
        answer
    }

    fn put_answer(&self, ticket: Ticket, body: Body, out: &mut Vec<u8>) {
        write_packet(&Packet { id: ticket.id, flags: ticket.flags | 2, dev: ticket.dev, body }, out);
    }

    fn answer_bus(&mut self, ticket: Ticket, write: bool, bus: &Bus, out: &mut Vec<u8>) {
        self.session.peer_other = None;
        let answered = |code: u8, len: u32, payload| Bus {
            attributes: bus.attributes & !0xf00 | u64::from(code) << 8,
            len,
            payload,
            enables: &[],
            ..*bus
        };
        if !is_served(bus) {
            let zeros = [0; 4096];
            if write {
                return self.put_answer(ticket, Body::Write(answered(1, bus.len, &[])), out);
            }
            let count = if bus.len <= 4096 { bus.len } else { 0 };
            return self.put_answer(ticket, Body::Read(answered(1, count, &zeros[..count as usize])), out);
        }
        let answer = self.access(bus.time, access_of(write, false, bus));
        if write {
            return self.put_answer(ticket, Body::Write(answered(answer.code, bus.len, &[])), out);
        }
        let bytes = answer.value.to_le_bytes();
        self.put_answer(ticket, Body::Read(answered(answer.code, bus.len, &bytes[..bus.len as usize])), out);
    }

    fn act(&mut self, packet: &Packet, event: Event, out: &mut Vec<u8>) {
        match (&packet.body, event) {
            (Body::Read(bus), Event::Asked(ticket)) => self.answer_bus(ticket, false, bus, out),
            (Body::Write(bus), Event::Asked(ticket)) => self.answer_bus(ticket, true, bus, out),
            (Body::Write(bus), Event::Told) => {
                if is_served(bus) {
                    self.access(bus.time, access_of(true, true, bus));
                }
            }
            (Body::Sync { time }, Event::Asked(ticket)) => {
                self.device.advance(*time);
                self.open_sync = Some(OpenSync { ticket, time: *time });
            }
            (body, Event::Answered) => {
                if let Some(want) = self.own {
                    self.feed(want, reply_from(want, body));
                }
            }
            (_, Event::Nothing | Event::Met | Event::SyncDone) => {}
            (_, Event::Asked(_) | Event::Told) => {}
        }
    }

    fn feed(&mut self, want: Want, reply: Reply) {
        let (tick, due) = (self.device.seen(), self.device.due());
        self.calls.push(Call::Served { tick, port: 0, due, want, reply });
        self.device.feed(reply);
        self.own = None;
    }

    fn bus_request<'a>(&self, addr: u64, payload: &'a [u8], len: u32, enables: &'a [u8]) -> Bus<'a> {
        let attributes = if self.session.common.base { 4 } else { 0 };
        let enables = if self.session.common.base && self.session.common.enables { enables } else { &[] };
        Bus { time: self.device.due(), attributes, addr, len, width: 0, stream_width: len, master: 0, payload, enables }
    }

    // Sends the request of a want, which is answered unless it is posted.
    fn ask(&mut self, want: Want, posted: bool, out: &mut Vec<u8>) {
        let mut enables = [255; 64];
        let (body, len) = match &want {
            Want::Fetch { addr, size } => (Body::Read(self.bus_request(*addr, &[], u32::from(*size), &[])), u32::from(*size)),
            Want::Store { addr, size, bytes, mask } => {
                let count = *size as usize;
                for (at, enable) in enables.iter_mut().enumerate() {
                    *enable = if mask >> at & 1 != 0 { 255 } else { 0 };
                }
                let all = enables[..count].iter().all(|enable| *enable != 0);
                let enables = if all { &[][..] } else { &enables[..count] };
                (Body::Write(self.bus_request(*addr, &bytes[..count], u32::from(*size), enables)), u32::from(*size))
            }
            Want::Line { line, level } => {
                (Body::Interrupt { time: self.device.due(), vector: 0, line: *line, val: u8::from(*level) }, 0)
            }
        };
        let command = command_of(&body);
        let packet = Packet { id: self.session.next, flags: if posted { 4 } else { 0 }, dev: 0, body };
        write_packet(&packet, out);
        let id = self.session.number();
        if !posted {
            self.session.own_other = Some(OwnRequest { command, id, len });
            self.own = Some(want);
        }
    }

    fn settle(&mut self, out: &mut Vec<u8>) {
        while self.session.met && self.own.is_none() {
            match self.device.want() {
                Some(want) => {
                    let is_line = matches!(want, Want::Line { .. });
                    if !is_line || (self.session.common.posted && self.answered_lines) {
                        return self.ask(want, false, out);
                    }
                    if self.open_sync.is_none() {
                        return;
                    }
                    self.ask(want, true, out);
                    self.feed(want, bare_reply(0));
                }
                None => {
                    if let Some(sync) = self.open_sync.take() {
                        self.session.peer_sync = None;
                        self.put_answer(sync.ticket, Body::Sync { time: sync.time }, out);
                    }
                    return;
                }
            }
        }
    }

    fn hear(&mut self, packet: &Packet, out: &mut Vec<u8>) -> Result<(), Fault> {
        let event = self.session.take(packet)?;
        self.act(packet, event, out);
        self.settle(out);
        Ok(())
    }
}

// The bytes that were received and not taken. Those of taken packets stay at the front until room is needed.
struct Framer {
    bytes: Vec<u8>,
    begin: usize,
    taken: u64,
}

impl Framer {
    fn feed(&mut self, bytes: &[u8]) {
        let room = self.bytes.capacity() - self.bytes.len();
        if bytes.len() > room && self.begin >= self.bytes.len() - self.begin {
            self.bytes.drain(..self.begin);
            self.begin = 0;
        }
        self.bytes.extend_from_slice(bytes);
    }

    fn skip(&mut self, size: usize) {
        self.begin += size;
        self.taken += size as u64;
    }
}

#[derive(Clone, Debug)]
#[allow(dead_code)]
enum EndFault {
    Malformed { start: u64, place: u32, cause: String },
    Session(Fault),
    // at a machine: a request that arose after the latest one that was sent, and the end of a stream
    LateWant(u64, u64),
    Ended,
}

enum Turn {
    NotYet,
    Greeted,
    Took,
}

// A fault is kept, and each later turn answers it.
struct End<D> {
    core: Core<D>,
    framer: Framer,
    fault: Option<EndFault>,
}

impl<D: Device> End<D> {
    fn new(device: D, offers: Caps, answered_lines: bool) -> End<D> {
        let session = Session::new(false, offers, NO_CAPS);
        let core = Core { device, answered_lines, session, open_sync: None, own: None, calls: Vec::new() };
        End { core, framer: Framer { bytes: Vec::new(), begin: 0, taken: 0 }, fault: None }
    }

    fn feed(&mut self, bytes: &[u8]) {
        if self.fault.is_none() {
            self.framer.feed(bytes);
        }
    }

    fn hear_front(&mut self, out: &mut Vec<u8>) -> Result<Turn, EndFault> {
        let start = self.framer.taken;
        let malformed = |refused: Refused| EndFault::Malformed { start, place: refused.place, cause: refused.cause };
        let held = &self.framer.bytes[self.framer.begin..];
        let Some(size) = whole_at_front(held).map_err(malformed)? else { return Ok(Turn::NotYet) };
        let packet = read_packet(&held[..size]).map_err(malformed)?;
        self.core.hear(&packet, out).map_err(EndFault::Session)?;
        self.framer.skip(size);
        Ok(Turn::Took)
    }

    fn turn(&mut self, out: &mut Vec<u8>) -> Result<Turn, EndFault> {
        if let Some(fault) = &self.fault {
            return Err(fault.clone());
        }
        if !self.core.session.greeted {
            self.core.session.greet(out);
            return Ok(Turn::Greeted);
        }
        let turn = self.hear_front(out);
        if let Err(fault) = &turn {
            self.fault = Some(fault.clone());
        }
        turn
    }
}
