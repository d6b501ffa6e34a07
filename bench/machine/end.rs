// A machine end in plain Rust: it sends its master's accesses and a boundary's syncs, takes answers, and serves the
// requests of devices.

#[derive(Clone, Copy)]
struct Plan {
    quantum: u64,
    units: u64,
}

#[derive(Clone, Copy)]
enum Phase {
    Greet(usize),
    Meet(usize),
    Run,
    AnswerFrom(usize, Access),
    SyncTo(usize),
    Gather,
    Done,
}

enum MachineTurn {
    NotYet(usize),
    Sent(usize),
    Unit,
    Marked,
    Served,
    Took,
    Done,
}

struct Port {
    session: Session,
    framer: Framer,
    // the bytes of a request that was taken and isn't served, and its time
    held: Option<(Vec<u8>, u64)>,
    // the time of the latest request that was sent
    last: u64,
}

impl Port {
    fn new() -> Port {
        let framer = Framer { bytes: Vec::new(), begin: 0, taken: 0 };
        Port { session: Session::new(true, ALL_CAPS, NO_CAPS), framer, held: None, last: 0 }
    }

    // Sends a request, which is answered unless it is posted.
    fn ask(&mut self, body: Body, len: u32, posted: bool, time: u64, out: &mut Vec<u8>) {
        let own = OwnRequest { command: command_of(&body), id: self.session.number(), len };
        write_packet(&Packet { id: own.id, flags: if posted { 4 } else { 0 }, dev: 0, body }, out);
        if own.command == Command::Sync {
            self.session.own_sync = Some(own);
        } else if !posted {
            self.session.own_other = Some(own);
        }
        self.last = time;
    }
}

struct MachineEnd {
    plan: Plan,
    phase: Phase,
    master: Machine,
    ports: Vec<Port>,
    calls: Vec<Call>,
    tick: u64,
    // the boundary at this tick is done
    marked: bool,
    fault: Option<(usize, EndFault)>,
}

fn time_of(body: &Body) -> u64 {
    match body {
        Body::Read(bus) | Body::Write(bus) => bus.time,
        Body::Interrupt { time, .. } | Body::Sync { time } => *time,
        _ => 0,
    }
}

impl MachineEnd {
    fn new(master: Machine, ports: usize, plan: Plan) -> MachineEnd {
        let phase = if ports == 0 { Phase::Run } else { Phase::Greet(0) };
        let ports = (0..ports).map(|_| Port::new()).collect();
        MachineEnd { plan, phase, master, ports, calls: Vec::new(), tick: 0, marked: false, fault: None }
    }

    fn is_last(&self) -> bool {
        self.master.stopped.is_some() || self.tick == self.plan.units
    }

    fn phase_after(&self) -> Phase {
        if self.is_last() { Phase::Done } else { Phase::Run }
    }

    // The port of which a packet is awaited, where one is.
    fn awaits(&self) -> Option<usize> {
        match self.phase {
            Phase::Meet(port) | Phase::AnswerFrom(port, _) => Some(port),
            Phase::Gather => self.ports.iter().position(|port| port.held.is_none() && port.session.own_sync.is_some()),
            _ => None,
        }
    }

    fn turn(&mut self, out: &mut Vec<u8>) -> Result<MachineTurn, (usize, EndFault)> {
        if let Some(fault) = &self.fault {
            return Err(fault.clone());
        }
        match self.awaits() {
            Some(port) => {
                let turn = self.hear_front(port).map_err(|fault| (port, fault));
                if let Err(fault) = &turn {
                    self.fault = Some(fault.clone());
                }
                turn
            }
            None => Ok(self.act(out)),
        }
    }

    fn act(&mut self, out: &mut Vec<u8>) -> MachineTurn {
        match self.phase {
            Phase::Greet(port) => self.greet(port, out),
            Phase::Meet(port) | Phase::AnswerFrom(port, _) => MachineTurn::NotYet(port),
            Phase::Run => self.run(out),
            Phase::SyncTo(port) => self.sync(port, out),
            Phase::Gather => self.serve_first(out),
            Phase::Done => MachineTurn::Done,
        }
    }

    fn greet(&mut self, port: usize, out: &mut Vec<u8>) -> MachineTurn {
        self.ports[port].session.greet(out);
        if port + 1 < self.ports.len() {
            self.phase = Phase::Greet(port + 1);
        } else {
            self.ports[0].session.waited = 0;
            self.phase = Phase::Meet(0);
        }
        MachineTurn::Sent(port)
    }

    // A unit, or the beginning of a boundary.
    fn run(&mut self, out: &mut Vec<u8>) -> MachineTurn {
        let due = !self.marked && (self.is_last() || (self.tick > 0 && self.tick % self.plan.quantum == 0));
        if !due {
            return self.work(out);
        }
        if self.ports.is_empty() {
            self.phase = self.phase_after();
            self.marked = true;
            return MachineTurn::Marked;
        }
        self.sync(0, out)
    }

    fn sync(&mut self, port: usize, out: &mut Vec<u8>) -> MachineTurn {
        self.ports[port].ask(Body::Sync { time: self.tick }, 0, false, self.tick, out);
        if port + 1 < self.ports.len() {
            self.phase = Phase::SyncTo(port + 1);
        } else {
            self.ports.iter_mut().for_each(|port| port.session.waited = 0);
            self.phase = Phase::Gather;
        }
        MachineTurn::Sent(port)
    }

    // A unit of the master: it is done, or its access is sent.
    fn work(&mut self, out: &mut Vec<u8>) -> MachineTurn {
        let Some(bus) = self.master.issue() else {
            self.tick += 1;
            self.marked = false;
            return MachineTurn::Unit;
        };
        let access = Access {
            write: bus.access.write,
            posted: bus.posted,
            addr: u64::from(bus.access.addr),
            size: bus.access.size,
            value: u64::from(bus.access.value),
            lanes: (1 << bus.access.size) - 1,
        };
        let port = bus.port as usize;
        self.phase = Phase::AnswerFrom(port, access);
        self.send(port, access, out);
        MachineTurn::Sent(port)
    }

    fn send(&mut self, port: usize, access: Access, out: &mut Vec<u8>) {
        let to = &mut self.ports[port];
        let bytes = access.value.to_le_bytes();
        let size = access.size as usize;
        let mut enables = [0; 8];
        for (at, enable) in enables.iter_mut().enumerate() {
            *enable = if access.lanes >> at & 1 != 0 { 255 } else { 0 };
        }
        let all = enables[..size].iter().all(|enable| *enable != 0);
        let common = to.session.common;
        let bus = Bus {
            time: self.tick,
            attributes: if common.base { 4 } else { 0 },
            addr: access.addr,
            len: size as u32,
            width: 0,
            stream_width: size as u32,
            master: 0,
            payload: if access.write { &bytes[..size] } else { &[] },
            enables: if all || !common.base || !common.enables { &[] } else { &enables[..size] },
        };
        let body = if access.write { Body::Write(bus) } else { Body::Read(bus) };
        to.ask(body, size as u32, access.posted, self.tick, out);
        if access.posted {
            self.finish(port, access, Answer { code: 0, value: 0 });
        } else {
            self.ports[port].session.waited = 0;
        }
    }

    // Ends the unit of an access by its answer, and keeps the call.
    fn finish(&mut self, port: usize, access: Access, answer: Answer) {
        self.master.finish_window((answer.code == 0).then_some(answer.value as u32));
        self.calls.push(Call::Access { tick: self.tick, port: port as u32, access, answer });
        self.phase = Phase::Run;
        self.tick += 1;
        self.marked = false;
    }

    // Takes the packet at the front of a port's bytes, if one is whole.
    fn hear_front(&mut self, port: usize) -> Result<MachineTurn, EndFault> {
        let from = &mut self.ports[port];
        let start = from.framer.taken;
        let malformed = |refused: Refused| EndFault::Malformed { start, place: refused.place, cause: refused.cause };
        let held = &from.framer.bytes[from.framer.begin..];
        let Some(size) = whole_at_front(held).map_err(malformed)? else { return Ok(MachineTurn::NotYet(port)) };
        let packet = read_packet(&held[..size]).map_err(malformed)?;
        let event = from.session.take(&packet).map_err(EndFault::Session)?;
        let answer = match (&packet.body, self.phase) {
            (Body::Read(bus), Phase::AnswerFrom(_, access)) => {
                let mut value = [0; 8];
                let count = bus.payload.len().min(8);
                value[..count].copy_from_slice(&bus.payload[..count]);
                Some((access, plain(&access, Answer { code: code_of(bus) as u8, value: u64::from_le_bytes(value) })))
            }
            (Body::Write(bus), Phase::AnswerFrom(_, access)) => {
                Some((access, plain(&access, Answer { code: code_of(bus) as u8, value: 0 })))
            }
            _ => None,
        };
        let mut met = false;
        match event {
            Event::Asked(_) | Event::Told => {
                let got = time_of(&packet.body);
                if from.last < got {
                    return Err(EndFault::LateWant(from.last, got));
                }
                from.held = Some((held[..size].to_vec(), got));
            }
            Event::Met => met = true,
            Event::Nothing | Event::Answered | Event::SyncDone => {}
        }
        from.framer.skip(size);
        match (event, answer) {
            (Event::Answered, Some((access, answer))) => self.finish(port, access, answer),
            (Event::SyncDone, _) => self.end_boundary(),
            _ => {}
        }
        if met {
            self.meet(port);
        }
        Ok(MachineTurn::Took)
    }

    // With the last answer to its syncs a boundary ends.
    fn end_boundary(&mut self) {
        let over = self.ports.iter().all(|port| port.held.is_none() && port.session.own_sync.is_none());
        if over && matches!(self.phase, Phase::Gather) {
            self.phase = self.phase_after();
            self.marked = true;
        }
    }

    fn meet(&mut self, port: usize) {
        if port + 1 < self.ports.len() {
            self.ports[port + 1].session.waited = 0;
            self.phase = Phase::Meet(port + 1);
        } else {
            self.phase = Phase::Run;
        }
    }

    // Serves the held request of the least time, and of the least port among equals.
    fn serve_first(&mut self, out: &mut Vec<u8>) -> MachineTurn {
        let held = self.ports.iter().enumerate().filter_map(|(port, of)| Some((of.held.as_ref()?.1, port)));
        let (_, port) = held.min().unwrap();
        let (bytes, _) = self.ports[port].held.take().unwrap();
        let Ok(packet) = read_packet(&bytes) else { unreachable!() };
        let posted = self.ports[port].session.is_posted(&packet);
        let body = self.serve(port as u32, &packet.body);
        if posted {
            return MachineTurn::Served;
        }
        self.ports[port].session.peer_other = None;
        write_packet(&Packet { id: packet.id, flags: packet.flags | 2, dev: packet.dev, body }, out);
        MachineTurn::Sent(port)
    }

    // Serves a request, and gives the body of the answer. Only lines are served here: no timer asks for memory.
    fn serve<'a>(&mut self, port: u32, body: &Body<'a>) -> Body<'a> {
        let Body::Interrupt { time, vector, line, val } = *body else { unimplemented!() };
        let level = val != 0;
        if line <= 31 {
            self.master.lines = self.master.lines & !(1 << line) | u32::from(level) << line;
        }
        let want = Want::Line { line, level };
        self.calls.push(Call::Served { tick: self.tick, port, due: time, want, reply: bare_reply(0) });
        Body::Interrupt { time, vector, line, val }
    }
}
