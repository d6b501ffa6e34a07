// A link in memory to a device end in plain Rust, and the drive of a machine end over its links.

// What a device end heard and said, and how much of that was received.
struct Link<D> {
    end: End<D>,
    heard: Vec<u8>,
    said: Vec<u8>,
    received: Vec<u8>,
}

impl<D: Device> Link<D> {
    fn new(end: End<D>) -> Link<D> {
        let mut link = Link { end, heard: Vec::new(), said: Vec::new(), received: Vec::new() };
        link.take_turns();
        link
    }

    // Takes every turn that the device end can.
    fn take_turns(&mut self) {
        while let Ok(Turn::Greeted | Turn::Took) = self.end.turn(&mut self.said) {}
    }

    fn write(&mut self, bytes: &[u8]) {
        self.heard.extend_from_slice(bytes);
        self.end.feed(bytes);
        self.take_turns();
    }

    fn read(&mut self, into: &mut [u8]) -> usize {
        let rest = &self.said[self.received.len()..];
        let count = rest.len().min(into.len());
        into[..count].copy_from_slice(&rest[..count]);
        self.received.extend_from_slice(&into[..count]);
        count
    }
}

fn drive<D: Device>(end: &mut MachineEnd, links: &mut [Link<D>]) -> Result<(), (usize, EndFault)> {
    let mut out = Vec::new();
    let mut piece = [0; 4096];
    loop {
        out.clear();
        match end.turn(&mut out)? {
            MachineTurn::Sent(port) => links[port].write(&out),
            MachineTurn::NotYet(port) => match links[port].read(&mut piece) {
                0 => return Err((port, EndFault::Ended)),
                count => end.ports[port].framer.feed(&piece[..count]),
            },
            MachineTurn::Done => return Ok(()),
            MachineTurn::Unit | MachineTurn::Marked | MachineTurn::Served | MachineTurn::Took => {}
        }
    }
}
