// Two processes that exchange messages of the sizes of a read and its answer over a Unix socket: `baseline SOCKET COUNT`. The second
// process is this program too.
use std::io::{Read, Write};
use std::os::unix::net::{UnixListener, UnixStream};
use std::process::Command;

const ASKED: usize = 80;
const ANSWERED: usize = 84;

fn answer(socket: &str) -> std::io::Result<()> {
    let mut link = UnixStream::connect(socket)?;
    let mut asked = [0; ASKED];
    let mut answered = [0; ANSWERED];
    while link.read_exact(&mut asked).is_ok() {
        answered[..ASKED].copy_from_slice(&asked);
        link.write_all(&answered)?;
    }
    Ok(())
}

fn ask(socket: &str, count: u32) -> std::io::Result<()> {
    let listener = UnixListener::bind(socket)?;
    let mut child = Command::new(std::env::current_exe()?).arg(socket).spawn()?;
    let (mut link, _) = listener.accept()?;
    std::fs::remove_file(socket)?;
    let mut asked = [0; ASKED];
    let mut answered = [0; ANSWERED];
    let mut sum = 0u64;
    for number in 0..count {
        asked[..4].copy_from_slice(&number.to_be_bytes());
        link.write_all(&asked)?;
        link.read_exact(&mut answered)?;
        sum += u64::from(answered[3]);
    }
    drop(link);
    child.wait()?;
    println!("{sum}");
    Ok(())
}

fn main() -> std::io::Result<()> {
    let words: Vec<String> = std::env::args().collect();
    match words.len() {
        2 => answer(&words[1]),
        _ => ask(&words[1], words[2].parse().unwrap()),
    }
}
