//! What `bench/dump` compares `./cts dump` with: a plain Rust program, without a proof, that prints the same lines of a log file. It
//! reads the file whole, checks its head, takes its entries one by one, and prints for each its moment in UTC, its names and its bytes,
//! with one write for each line, as the server's program does.
//!
//! Built by `rustc -O`: `dump LOG`.

use std::fs;
use std::io::{self, Write};
use std::process::ExitCode;

/// How many bytes the head of a log file has.
const HEAD: usize = 128;

/// An entry, as parts of the file.
struct Entry<'a> {
    seconds: u32,
    micros: u32,
    target: &'a [u8],
    packet: &'a [u8],
    bytes: &'a [u8],
}

/// Takes some bytes off the front.
fn take<'a>(left: &mut &'a [u8], count: usize) -> Option<&'a [u8]> {
    if left.len() < count {
        return None;
    }
    let (front, rest) = left.split_at(count);
    *left = rest;
    Some(front)
}

fn number(left: &mut &[u8]) -> Option<u32> {
    let bytes = take(left, 4)?;
    Some(u32::from_be_bytes([bytes[0], bytes[1], bytes[2], bytes[3]]))
}

fn name<'a>(left: &mut &'a [u8]) -> Option<&'a [u8]> {
    let count = usize::from(take(left, 1)?[0]);
    take(left, count)
}

fn entry<'a>(left: &mut &'a [u8]) -> Option<Entry<'a>> {
    let seconds = number(left)?;
    let micros = number(left)?;
    let target = name(left)?;
    let packet = name(left)?;
    let count = number(left)? as usize;
    let bytes = take(left, count)?;
    Some(Entry { seconds, micros, target, packet, bytes })
}

/// Whether the file begins with the head of a log.
fn has_head(file: &[u8]) -> bool {
    file.len() >= HEAD
        && (file.starts_with(b"COSMOS2_TLM_") || file.starts_with(b"COSMOS2_CMD_"))
        && file[12..44].iter().all(u8::is_ascii_hexdigit)
        && file[44] == b'_'
}

/// The year, month and day of a day since 1970-01-01 (the civil calendar, by eras of 400 years from March on).
fn date(day: u64) -> (u64, u64, u64) {
    let shifted = day + 719_468;
    let (era, day_of_era) = (shifted / 146_097, shifted % 146_097);
    let year_of_era = (day_of_era - day_of_era / 1460 + day_of_era / 36_524 - day_of_era / 146_096) / 365;
    let day_of_year = day_of_era - (365 * year_of_era + year_of_era / 4 - year_of_era / 100);
    let month = (5 * day_of_year + 2) / 153;
    let day = day_of_year - (153 * month + 2) / 5 + 1;
    let month = if month < 10 { month + 3 } else { month - 9 };
    (era * 400 + year_of_era + u64::from(month <= 2), month, day)
}

fn put_digits(line: &mut Vec<u8>, bytes: &[u8], digits: &[u8; 16]) {
    for byte in bytes {
        line.extend_from_slice(&[digits[usize::from(byte >> 4)], digits[usize::from(byte & 15)]]);
    }
}

fn put_name(line: &mut Vec<u8>, name: &[u8]) {
    line.push(b' ');
    for byte in name {
        if matches!(byte, 0x21..=0x7e) && *byte != b'\\' {
            line.push(*byte);
        } else {
            line.extend_from_slice(b"\\x");
            put_digits(line, &[*byte], b"0123456789ABCDEF");
        }
    }
}

fn put_line(line: &mut Vec<u8>, entry: &Entry) -> io::Result<()> {
    let seconds = u64::from(entry.seconds) + u64::from(entry.micros / 1_000_000);
    let (year, month, day) = date(seconds / 86_400);
    let (hour, minute, second) = (seconds / 3600 % 24, seconds / 60 % 60, seconds % 60);
    write!(line, "{year:04}-{month:02}-{day:02} {hour:02}:{minute:02}:{second:02}.{:06}", entry.micros % 1_000_000)?;
    put_name(line, entry.target);
    put_name(line, entry.packet);
    line.push(b' ');
    put_digits(line, entry.bytes, b"0123456789abcdef");
    line.push(b'\n');
    Ok(())
}

/// Prints the lines of all whole entries; the place of the first byte that is in none, or none at the end of the file.
fn dump(file: &[u8], out: &mut impl Write) -> io::Result<Option<usize>> {
    if !has_head(file) {
        return Ok(Some(0));
    }
    let mut left = &file[HEAD..];
    let mut line = Vec::new();
    while !left.is_empty() {
        let place = file.len() - left.len();
        let Some(entry) = entry(&mut left) else {
            return Ok(Some(place));
        };
        line.clear();
        put_line(&mut line, &entry)?;
        out.write_all(&line)?;
    }
    Ok(None)
}

fn main() -> ExitCode {
    let Some(file) = std::env::args().nth(1).and_then(|name| fs::read(name).ok()) else {
        eprintln!("usage: dump LOG");
        return ExitCode::from(2);
    };
    match dump(&file, &mut io::stdout().lock()) {
        Ok(None) => ExitCode::SUCCESS,
        Ok(Some(place)) => {
            println!("log refused at {place}");
            ExitCode::from(10)
        }
        Err(_) => ExitCode::from(4),
    }
}
