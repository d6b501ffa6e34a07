// Packets in plain Rust: what bytes mean, and how packets are spelled.

const MOST_BODY: u32 = 65_536;

fn u16_at(bytes: &[u8], at: usize) -> u16 {
    u16::from_be_bytes(bytes[at..at + 2].try_into().unwrap())
}

fn u32_at(bytes: &[u8], at: usize) -> u32 {
    u32::from_be_bytes(bytes[at..at + 4].try_into().unwrap())
}

fn u64_at(bytes: &[u8], at: usize) -> u64 {
    u64::from_be_bytes(bytes[at..at + 8].try_into().unwrap())
}

struct Bus<'a> {
    time: u64,
    attributes: u64,
    addr: u64,
    len: u32,
    width: u32,
    stream_width: u32,
    master: u64,
    payload: &'a [u8],
    enables: &'a [u8],
}

enum Body<'a> {
    Nop,
    Hello { major: u16, minor: u16, caps: Vec<u32> },
    Cfg { opt: u32, set: u8 },
    Read(Bus<'a>),
    Write(Bus<'a>),
    Interrupt { time: u64, vector: u64, line: u32, val: u8 },
    Sync { time: u64 },
}

struct Packet<'a> {
    id: u32,
    flags: u32,
    dev: u32,
    body: Body<'a>,
}

struct Refused {
    place: u32,
    cause: String,
}

fn refuse<T>(place: u32, cause: String) -> Result<T, Refused> {
    Err(Refused { place, cause })
}

fn read_bus(bytes: &[u8], carries: bool) -> Result<Bus<'_>, Refused> {
    let got = bytes.len() - 20;
    let length = |wanted: u64| refuse(4, format!("Length {wanted} {got}"));
    if got < 38 {
        return length(38);
    }
    let (attributes, len) = (u64_at(bytes, 28), u32_at(bytes, 44));
    let mut bus = Bus {
        time: u64_at(bytes, 20),
        attributes,
        addr: u64_at(bytes, 36),
        len,
        width: u32_at(bytes, 48),
        stream_width: u32_at(bytes, 52),
        master: u64::from(u16_at(bytes, 56)),
        payload: &[],
        enables: &[],
    };
    let carried = if carries { u64::from(len) } else { 0 };
    if attributes & 4 == 0 {
        if (got as u64) < 38 + carried {
            return length(38 + carried);
        }
        bus.payload = &bytes[58..58 + carried as usize];
        return Ok(bus);
    }
    if got < 60 {
        return length(60);
    }
    bus.master |= u64::from(u16_at(bytes, 58)) << 16 | u64::from(u32_at(bytes, 60)) << 32;
    let end = bytes.len() as u64;
    let (data, count) = (u64::from(u32_at(bytes, 64)), carried);
    if count != 0 {
        if data < 80 || data + count > end {
            return refuse(64, format!("DataRange {data} {count}"));
        }
        bus.payload = &bytes[data as usize..(data + count) as usize];
    }
    let (at, enables) = (u64::from(u32_at(bytes, 72)), u64::from(u32_at(bytes, 76)));
    if enables != 0 {
        let shares = count != 0 && at < data + count && data < at + enables;
        if at < 80 || at + enables > end || shares {
            return refuse(72, format!("EnableRange {at} {enables}"));
        }
        bus.enables = &bytes[at as usize..(at + enables) as usize];
    }
    Ok(bus)
}

fn read_hello(bytes: &[u8]) -> Result<Body<'_>, Refused> {
    let got = bytes.len() - 20;
    if got < 4 {
        return refuse(4, format!("Length 4 {got}"));
    }
    let (major, minor, mut caps) = (u16_at(bytes, 20), u16_at(bytes, 22), Vec::new());
    if got >= 12 {
        let (offset, count) = (u64::from(u32_at(bytes, 24)), u64::from(u16_at(bytes, 28)));
        if count != 0 {
            if offset < 32 || offset + 4 * count > bytes.len() as u64 {
                return refuse(24, format!("CapsRange {offset} {count}"));
            }
            let list = &bytes[offset as usize..(offset + 4 * count) as usize];
            caps.extend(list.chunks_exact(4).map(|cap| u32_at(cap, 0)));
        }
    }
    Ok(Body::Hello { major, minor, caps })
}

// The number of bytes of the packet that a stream begins with, where it is whole.
fn whole_at_front(stream: &[u8]) -> Result<Option<usize>, Refused> {
    if stream.len() < 20 {
        return Ok(None);
    }
    let (cmd, len) = (u32_at(stream, 0), u32_at(stream, 4));
    match cmd {
        0..=6 if len > MOST_BODY => refuse(4, format!("TooLong {len}")),
        0..=6 => {
            let size = 20 + len as usize;
            Ok(if stream.len() < size { None } else { Some(size) })
        }
        7 | 8 => refuse(0, format!("Translation {cmd}")),
        _ => refuse(0, format!("Command {cmd}")),
    }
}

fn read_packet(bytes: &[u8]) -> Result<Packet<'_>, Refused> {
    let (cmd, flags, got) = (u32_at(bytes, 0), u32_at(bytes, 12), bytes.len() - 20);
    let least = |wanted: usize| if got < wanted { refuse(4, format!("Length {wanted} {got}")) } else { Ok(()) };
    let answer = flags & 2 != 0;
    let body = match cmd {
        0 => Body::Nop,
        1 => read_hello(bytes)?,
        2 => {
            least(5)?;
            Body::Cfg { opt: u32_at(bytes, 20), set: bytes[24] }
        }
        3 => Body::Read(read_bus(bytes, answer)?),
        4 => Body::Write(read_bus(bytes, !answer)?),
        5 => {
            least(21)?;
            Body::Interrupt { time: u64_at(bytes, 20), vector: u64_at(bytes, 28), line: u32_at(bytes, 36), val: bytes[40] }
        }
        _ => {
            least(8)?;
            Body::Sync { time: u64_at(bytes, 20) }
        }
    };
    Ok(Packet { id: u32_at(bytes, 8), flags, dev: u32_at(bytes, 16), body })
}

fn write_bus(bus: &Bus, carries: bool, out: &mut Vec<u8>) {
    out.extend(bus.time.to_be_bytes());
    out.extend(bus.attributes.to_be_bytes());
    out.extend(bus.addr.to_be_bytes());
    out.extend(bus.len.to_be_bytes());
    out.extend(bus.width.to_be_bytes());
    out.extend(bus.stream_width.to_be_bytes());
    out.extend((bus.master as u16).to_be_bytes());
    if bus.attributes & 4 != 0 {
        let carried = if carries { bus.payload.len() as u32 } else { 0 };
        out.extend(((bus.master >> 16) as u16).to_be_bytes());
        out.extend(((bus.master >> 32) as u32).to_be_bytes());
        out.extend(80u32.to_be_bytes());
        out.extend(0u32.to_be_bytes());
        out.extend((if bus.enables.is_empty() { 0 } else { 80 + carried }).to_be_bytes());
        out.extend((bus.enables.len() as u32).to_be_bytes());
    }
    out.extend(bus.payload);
    out.extend(bus.enables);
}

fn write_packet(packet: &Packet, out: &mut Vec<u8>) {
    let start = out.len();
    let answer = packet.flags & 2 != 0;
    let cmd: u32 = match &packet.body {
        Body::Nop => 0,
        Body::Hello { .. } => 1,
        Body::Cfg { .. } => 2,
        Body::Read(_) => 3,
        Body::Write(_) => 4,
        Body::Interrupt { .. } => 5,
        Body::Sync { .. } => 6,
    };
    for number in [cmd, 0, packet.id, packet.flags, packet.dev] {
        out.extend(number.to_be_bytes());
    }
    match &packet.body {
        Body::Nop => {}
        Body::Hello { major, minor, caps } => {
            out.extend(major.to_be_bytes());
            out.extend(minor.to_be_bytes());
            out.extend(32u32.to_be_bytes());
            out.extend((caps.len() as u16).to_be_bytes());
            out.extend(0u16.to_be_bytes());
            caps.iter().for_each(|cap| out.extend(cap.to_be_bytes()));
        }
        Body::Cfg { opt, set } => {
            out.extend(opt.to_be_bytes());
            out.push(*set);
        }
        Body::Read(bus) => write_bus(bus, answer, out),
        Body::Write(bus) => write_bus(bus, !answer, out),
        Body::Interrupt { time, vector, line, val } => {
            out.extend(time.to_be_bytes());
            out.extend(vector.to_be_bytes());
            out.extend(line.to_be_bytes());
            out.push(*val);
        }
        Body::Sync { time } => out.extend(time.to_be_bytes()),
    }
    let len = (out.len() - start - 20) as u32;
    out[start + 4..start + 8].copy_from_slice(&len.to_be_bytes());
}
