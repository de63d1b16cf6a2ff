//! What `bench/extract` compares `./cts extract` with: a plain Rust program, without a proof, that prints the same columns of the same four
//! items of a log. It reads the file whole, checks its head, takes its entries one by one, and prints for each of the packet its time and
//! the four values as they are shown with their units, with one write for each row, as the server's program does.
//!
//! Built by `rustc -O`: `extract LOG`.

use std::fs;
use std::io::{self, Write};
use std::process::ExitCode;

/// How many bytes the head of a log file has.
const HEAD: usize = 128;

/// An entry, as parts of the file.
struct Entry<'a> {
    seconds: u32,
    micros: u32,
    target: &'a [u8],
    packet: &'a [u8],
    bytes: &'a [u8],
}

/// Takes some bytes off the front.
fn take<'a>(left: &mut &'a [u8], count: usize) -> Option<&'a [u8]> {
    if left.len() < count {
        return None;
    }
    let (front, rest) = left.split_at(count);
    *left = rest;
    Some(front)
}

fn number(left: &mut &[u8]) -> Option<u32> {
    let bytes = take(left, 4)?;
    Some(u32::from_be_bytes([bytes[0], bytes[1], bytes[2], bytes[3]]))
}

fn name<'a>(left: &mut &'a [u8]) -> Option<&'a [u8]> {
    let count = usize::from(take(left, 1)?[0]);
    take(left, count)
}

fn entry<'a>(left: &mut &'a [u8]) -> Option<Entry<'a>> {
    let seconds = number(left)?;
    let micros = number(left)?;
    let target = name(left)?;
    let packet = name(left)?;
    let count = number(left)? as usize;
    let bytes = take(left, count)?;
    Some(Entry { seconds, micros, target, packet, bytes })
}

/// The row of a packet: TEMP1 by a polynomial with three places, MODE by its states, COUNT as it is, VOLTS by a polynomial with three places.
fn row(line: &mut Vec<u8>, entry: &Entry) -> io::Result<()> {
    let bytes = entry.bytes;
    let temp1 = f64::from(u16::from_be_bytes([bytes[1], bytes[2]]));
    let count = u32::from_be_bytes([bytes[4], bytes[5], bytes[6], bytes[7]]);
    let volts = f64::from(u16::from_be_bytes([bytes[8], bytes[9]]));
    write!(line, "{}.{:06}\t{:.3} C\t", entry.seconds, entry.micros, -100.0 + 0.003 * temp1)?;
    match bytes[3] {
        0 => line.extend_from_slice(b"OFF"),
        1 => line.extend_from_slice(b"ON"),
        mode => write!(line, "{mode}")?,
    }
    writeln!(line, "\t{count} N\t{:.3} V", 0.5 + 0.001 * volts)
}

fn main() -> ExitCode {
    let Some(file) = std::env::args().nth(1).and_then(|name| fs::read(name).ok()) else {
        return ExitCode::from(2);
    };
    if file.len() < HEAD || !file.starts_with(b"COSMOS2_TLM_") {
        return ExitCode::from(10);
    }
    let mut out = io::stdout();
    let mut left = &file[HEAD..];
    let mut line = b"TIME\tTEMP1\tMODE\tCOUNT\tVOLTS\n".to_vec();
    if out.write_all(&line).is_err() {
        return ExitCode::from(4);
    }
    while !left.is_empty() {
        let Some(entry) = entry(&mut left) else {
            return ExitCode::from(10);
        };
        if entry.target != b"INST" || entry.packet != b"HS" || entry.bytes.len() < 10 {
            continue;
        }
        line.clear();
        if row(&mut line, &entry).and_then(|()| out.write_all(&line)).is_err() {
            return ExitCode::from(4);
        }
    }
    ExitCode::SUCCESS
}
