//! A timer's end in plain Rust: the framer, the session and the end that the crate `bench_device` times, over the same stream, for any
//! device. `baseline RUNS PIECE`.

include!("../packets.rs");
include!("timer.rs");
include!("end.rs");

const ROUNDS: u32 = 1000;
const PACKETS: u64 = 7001;

// What a machine sends

struct Sender {
    bytes: Vec<u8>,
    number: u32,
}

impl Sender {
    fn send(&mut self, flags: u32, body: Body) {
        write_packet(&Packet { id: self.number, flags, dev: 0, body }, &mut self.bytes);
        self.number += 1;
    }

    fn bus<'a>(&self, time: u64, attributes: u64, addr: u64, payload: &'a [u8], enables: &'a [u8]) -> Bus<'a> {
        Bus { time, attributes, addr, len: 4, width: 0, stream_width: 4, master: 0, payload, enables }
    }

    fn round(&mut self, round: u32) {
        let start = 16 * u64::from(round);
        let compare = (16 * round + 8).to_le_bytes();
        self.send(0, Body::Write(self.bus(start, 4, 4, &compare, &[255; 4])));
        self.send(4, Body::Write(self.bus(start + 1, 4, 8, &[1, 0, 0, 0], &[])));
        self.send(0, Body::Read(self.bus(start + 2, 4, 0, &[], &[])));
        self.send(0, Body::Sync { time: start + 10 });
        self.send(0, Body::Write(self.bus(start + 11, 4, 8, &[0; 4], &[])));
        self.send(0, Body::Read(self.bus(start + 12, 0, 4, &[], &[])));
        self.send(0, Body::Sync { time: start + 13 });
    }
}

fn make_stream() -> Vec<u8> {
    let mut sender = Sender { bytes: Vec::new(), number: 0 };
    sender.send(0, Body::Hello { major: 4, minor: 3, caps: vec![1, 2, 3] });
    for round in 0..ROUNDS {
        sender.round(round);
    }
    sender.bytes
}

fn main() {
    let words: Vec<String> = std::env::args().collect();
    let (runs, piece): (u64, usize) = (words[1].parse().unwrap(), words[2].parse().unwrap());
    let stream = make_stream();
    let (mut sent, mut checksum) = (0, 0u64);
    for left in 0..runs {
        let mut end = End::new(Timer::new(3), ALL_CAPS, false);
        let mut out = Vec::new();
        for bytes in stream.chunks(piece) {
            end.feed(bytes);
            loop {
                match end.turn(&mut out).unwrap() {
                    Turn::NotYet => break,
                    Turn::Greeted | Turn::Took => {}
                }
            }
            sent += out.len() as u64;
            if left + 1 == runs {
                checksum = out.iter().fold(checksum, |sum, byte| sum.wrapping_mul(31).wrapping_add(u64::from(*byte)));
            }
            out.clear();
        }
    }
    println!("{} {sent} {checksum}", runs * PACKETS);
}
