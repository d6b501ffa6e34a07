//! The same work as `cosim show FILE` and `cosim pack FILE`, in plain Rust: what a careful programmer would write without proofs.
use std::fmt::Write as _;
use std::io::{self, Write as _};
use std::process::ExitCode;

include!("../packets.rs");

fn push_hex(bytes: &[u8], line: &mut String) {
    const DIGITS: &[u8; 16] = b"0123456789abcdef";
    if bytes.is_empty() {
        line.push('-');
    }
    for byte in bytes {
        line.push(DIGITS[usize::from(byte >> 4)] as char);
        line.push(DIGITS[usize::from(byte & 15)] as char);
    }
}

fn push_bus(name: &str, tag: &str, bus: &Bus, line: &mut String) {
    let _ = write!(
        line,
        "{name} {tag} {} {:#x} {:#x} {} {} {} {} ",
        bus.time, bus.attributes, bus.addr, bus.len, bus.width, bus.stream_width, bus.master
    );
    push_hex(bus.payload, line);
    line.push(' ');
    push_hex(bus.enables, line);
}

fn push_line(packet: &Packet, line: &mut String) {
    let tag = format!("{} {} {}", packet.id, packet.flags, packet.dev);
    match &packet.body {
        Body::Nop => line.push_str(&format!("nop {tag}")),
        Body::Hello { major, minor, caps } => {
            let _ = write!(line, "hello {tag} {major} {minor}");
            for cap in caps {
                let _ = write!(line, " {cap}");
            }
        }
        Body::Cfg { opt, set } => {
            let _ = write!(line, "cfg {tag} {opt} {set}");
        }
        Body::Read(bus) => push_bus("read", &tag, bus, line),
        Body::Write(bus) => push_bus("write", &tag, bus, line),
        Body::Interrupt { time, vector, line: number, val } => {
            let _ = write!(line, "interrupt {tag} {time} {vector} {number} {val}");
        }
        Body::Sync { time } => {
            let _ = write!(line, "sync {tag} {time}");
        }
    }
}

fn show(file: &[u8]) -> (String, Result<(), String>) {
    let (mut text, mut canonical, mut at) = (String::new(), Vec::new(), 0);
    while at < file.len() {
        let rest = &file[at..];
        let malformed = |refused: Refused| Err(format!("Malformed {at} {} {}", refused.place, refused.cause));
        let whole = match whole_at_front(rest) {
            Err(refused) => return (text, malformed(refused)),
            Ok(None) => return (text, Err(format!("Truncated {at} {}", rest.len()))),
            Ok(Some(whole)) => whole,
        };
        match read_packet(&rest[..whole]) {
            Err(refused) => return (text, malformed(refused)),
            Ok(packet) => {
                push_line(&packet, &mut text);
                canonical.clear();
                write_packet(&packet, &mut canonical);
                text.push_str(if canonical == rest[..whole] { "\n" } else { " loose\n" });
            }
        }
        at += whole;
    }
    (text, Ok(()))
}

fn number<T: std::str::FromStr>(word: Option<&str>) -> Option<T> {
    let word = word?;
    let plain = word == "0" || (!word.starts_with('0') && word.bytes().all(|digit| digit.is_ascii_digit()));
    if plain && !word.is_empty() { word.parse().ok() } else { None }
}

fn marked(word: Option<&str>) -> Option<u64> {
    let digits = word?.strip_prefix("0x")?;
    let lower = digits.bytes().all(|digit| matches!(digit, b'0'..=b'9' | b'a'..=b'f'));
    let plain = digits == "0" || (!digits.starts_with('0') && lower && !digits.is_empty());
    if plain { u64::from_str_radix(digits, 16).ok() } else { None }
}

fn unhex(word: Option<&str>) -> Option<Vec<u8>> {
    let word = word?;
    if word == "-" {
        return Some(Vec::new());
    }
    if word.is_empty() || word.len() % 2 != 0 {
        return None;
    }
    let digit = |byte: u8| match byte {
        b'0'..=b'9' => Some(byte - b'0'),
        b'a'..=b'f' => Some(byte - b'a' + 10),
        _ => None,
    };
    word.as_bytes().chunks_exact(2).map(|pair| Some(digit(pair[0])? << 4 | digit(pair[1])?)).collect()
}

fn pack_line(line: &str, out: &mut Vec<u8>) -> Option<()> {
    let mut words = line.split(' ');
    let kind = words.next()?;
    let (id, flags, dev) = (number(words.next())?, number(words.next())?, number(words.next())?);
    let (payload, enables);
    let body = match kind {
        "nop" => Body::Nop,
        "hello" => {
            let (major, minor) = (number(words.next())?, number(words.next())?);
            let mut caps = Vec::new();
            while let Some(word) = words.next() {
                caps.push(number(Some(word))?);
            }
            if caps.len() > 16_381 {
                return None;
            }
            Body::Hello { major, minor, caps }
        }
        "cfg" => Body::Cfg { opt: number(words.next())?, set: number(words.next())? },
        "read" | "write" => {
            let time = number(words.next())?;
            let (attributes, addr) = (marked(words.next())?, marked(words.next())?);
            let (len, width, stream_width): (u32, u32, u32) = (number(words.next())?, number(words.next())?, number(words.next())?);
            let master: u64 = number(words.next())?;
            payload = unhex(words.next())?;
            enables = unhex(words.next())?;
            let extended = attributes & 4 != 0;
            let carries = (kind == "read") == (flags & 2 != 0);
            let wanted = if carries { len as usize } else { 0 };
            let body = if extended { 60 } else { 38 } + payload.len() + enables.len();
            if (!extended && (master > 65_535 || !enables.is_empty())) || payload.len() != wanted || body > MOST_BODY as usize {
                return None;
            }
            let bus = Bus { time, attributes, addr, len, width, stream_width, master, payload: &payload, enables: &enables };
            if kind == "read" { Body::Read(bus) } else { Body::Write(bus) }
        }
        "interrupt" => Body::Interrupt {
            time: number(words.next())?,
            vector: number(words.next())?,
            line: number(words.next())?,
            val: number(words.next())?,
        },
        "sync" => Body::Sync { time: number(words.next())? },
        _ => return None,
    };
    if words.next().is_some() {
        return None;
    }
    write_packet(&Packet { id, flags, dev, body }, out);
    Some(())
}

fn pack(file: &[u8]) -> Result<Vec<u8>, String> {
    let text = std::str::from_utf8(file).map_err(|_| "Line 1".to_string())?;
    let mut out = Vec::new();
    for (at, line) in text.strip_suffix('\n').unwrap_or(text).split('\n').enumerate() {
        if text.is_empty() {
            break;
        }
        pack_line(line, &mut out).ok_or(format!("Line {}", at + 1))?;
    }
    Ok(out)
}

fn main() -> ExitCode {
    let words: Vec<String> = std::env::args().skip(1).collect();
    let [command, name] = &words[..] else { return ExitCode::from(1) };
    let Ok(file) = std::fs::read(name) else { return ExitCode::from(5) };
    let (bytes, result) = match command.as_str() {
        "show" => {
            let (text, result) = show(&file);
            (text.into_bytes(), result)
        }
        "pack" => match pack(&file) {
            Ok(bytes) => (bytes, Ok(())),
            Err(refusal) => (Vec::new(), Err(refusal)),
        },
        _ => return ExitCode::from(1),
    };
    if io::stdout().write_all(&bytes).is_err() {
        return ExitCode::from(5);
    }
    match result {
        Ok(()) => ExitCode::SUCCESS,
        Err(refusal) => {
            eprintln!("cosim: input: {refusal}");
            ExitCode::from(3)
        }
    }
}
