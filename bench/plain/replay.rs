//! What `bench/replay` compares `./cts replay` with: a plain Rust program, without a proof, that does the same work for what the bench
//! asks of it. It reads the statements of a script by the common grammar (quotes, comments, joined lines), takes all events before
//! the first one is done, cuts the frames of a LENGTH protocol (offset 0, 16 bits, big-endian, one byte a count), finds for each frame
//! the first packet whose id fields hold, keeps the history within its limits, and prints the transcript, one write for each event.
//!
//! Built by `rustc -O`: `replay SCRIPT`.

use std::fmt;
use std::fs;
use std::io::{self, Write};
use std::process::ExitCode;

/// The most entries and bytes of a history.
const MOST_ENTRIES: u64 = 4_000_000;
const MOST_BYTES: u64 = 1_073_741_824;

/// The longest frame, and the longest piece.
const FRAME_LIMIT: usize = 1_048_576;
const PIECE_LIMIT: usize = 65_536;

/// Why a replay halts.
enum Halt {
    Refused { line: u32, cause: &'static str },
    Full { entries: u64, bytes: u64 },
    Write(io::Error),
}

impl fmt::Display for Halt {
    fn fmt(&self, f: &mut fmt::Formatter) -> fmt::Result {
        match self {
            Halt::Refused { line, cause } => write!(f, "refused: line {line}: {cause}"),
            Halt::Full { entries, bytes } => write!(f, "history full: {entries} entries, {bytes} bytes"),
            Halt::Write(error) => write!(f, "{error}"),
        }
    }
}

impl From<io::Error> for Halt {
    fn from(error: io::Error) -> Halt {
        Halt::Write(error)
    }
}

/// The words of one or more joined lines.
struct Statement {
    line: u32,
    words: Vec<Vec<u8>>,
}

/// An event of the script.
enum Event {
    SetTime { seconds: u32, micros: u32 },
    Opens,
    Piece(Vec<u8>),
    Finish,
}

/// A value that some bytes of a packet have to hold.
struct Id {
    offset: usize,
    value: u8,
}

/// A packet of the definitions.
struct Packet {
    name: &'static str,
    ids: Vec<Id>,
}

impl Packet {
    fn fits(&self, bytes: &[u8]) -> bool {
        self.ids.iter().all(|id| bytes.get(id.offset) == Some(&id.value))
    }
}

/// What an entry of the history says.
enum What {
    Opened,
    Packet { packet: Option<u32>, bytes: Box<[u8]> },
    Closed { held: u64 },
}

struct Entry {
    seconds: u32,
    micros: u32,
    what: What,
}

/// The words of a line without its end; whether its last word joins the next line.
fn words_of(line: &[u8], words: &mut Vec<Vec<u8>>) -> Option<bool> {
    let mut at = 0;
    let mut joins = false;
    while at < line.len() {
        match line[at] {
            b' ' | b'\t' | b'\r' => at += 1,
            b'#' => break,
            quote @ (b'"' | b'\'') => {
                let length = line[at + 1..].iter().position(|byte| *byte == quote)?;
                words.push(line[at + 1..at + 1 + length].to_vec());
                at += length + 2;
                joins = false;
            }
            _ => {
                let length = line[at..].iter().position(|byte| matches!(byte, b' ' | b'\t' | b'\r')).unwrap_or(line.len() - at);
                words.push(line[at..at + length].to_vec());
                joins = &line[at..at + length] == b"&";
                at += length;
            }
        }
    }
    if joins {
        words.pop();
    }
    Some(joins)
}

fn statements_of(text: &str) -> Result<Vec<Statement>, Halt> {
    let mut statements = Vec::new();
    let mut open = Statement { line: 1, words: Vec::new() };
    let mut joined = false;
    for (number, line) in (1..).zip(text.lines()) {
        if !joined {
            open.line = number;
        }
        joined = words_of(line.as_bytes(), &mut open.words).ok_or(Halt::Refused { line: number, cause: "WrongCount" })?;
        if !joined && !open.words.is_empty() {
            let words = std::mem::take(&mut open.words);
            statements.push(Statement { line: open.line, words });
        }
    }
    if joined {
        return Err(Halt::Refused { line: open.line, cause: "WrongCount" });
    }
    Ok(statements)
}

/// The bytes of hexadecimal digits, two a byte.
fn bytes_of(digits: &[u8]) -> Option<Vec<u8>> {
    if digits.len() % 2 != 0 {
        return None;
    }
    let value = |digit: u8| char::from(digit).to_digit(16).map(|value| value as u8);
    digits.chunks_exact(2).map(|pair| Some(value(pair[0])? * 16 + value(pair[1])?)).collect()
}

fn number_of(word: &[u8]) -> Option<u32> {
    std::str::from_utf8(word).ok()?.parse().ok()
}

/// The event of a statement, or why it is refused.
fn event_of(words: &[Vec<u8>]) -> Result<Event, &'static str> {
    let (keyword, rest) = words.split_first().ok_or("UnknownKeyword")?;
    let names = |who: &[u8]| if who.eq_ignore_ascii_case(b"I") { Ok(()) } else { Err("UnknownMaker") };
    match (keyword.to_ascii_uppercase().as_slice(), rest) {
        (b"TIME", [seconds, micros]) => Ok(Event::SetTime {
            seconds: number_of(seconds).ok_or("NotNumber")?,
            micros: number_of(micros).ok_or("NotNumber")?,
        }),
        (b"OPEN", [who]) => names(who).map(|()| Event::Opens),
        (b"BYTES", [who, digits]) => {
            names(who)?;
            let piece = bytes_of(digits).ok_or("BadHex")?;
            if piece.is_empty() || piece.len() > PIECE_LIMIT { Err("PieceSize") } else { Ok(Event::Piece(piece)) }
        }
        (b"CLOSE", [who, why]) => names(who).and(if why == b"PEER" { Ok(Event::Finish) } else { Err("UnknownWhy") }),
        (b"TIME" | b"OPEN" | b"BYTES" | b"CLOSE", _) => Err("WrongCount"),
        _ => Err("UnknownKeyword"),
    }
}

/// The server's state: its history, its clock, and the bytes of the connection that are in no frame yet.
struct World<W> {
    packets: Vec<Packet>,
    history: Vec<Entry>,
    bytes: u64,
    seconds: u32,
    micros: u32,
    held: Option<Vec<u8>>,
    text: Vec<u8>,
    out: W,
}

impl<W: Write> World<W> {
    fn new(packets: Vec<Packet>, out: W) -> World<W> {
        World { packets, history: Vec::new(), bytes: 0, seconds: 0, micros: 0, held: None, text: Vec::new(), out }
    }

    /// Appends an entry where the history has room for it, and writes its line.
    fn append(&mut self, what: What) -> Result<(), Halt> {
        let size = if let What::Packet { bytes, .. } = &what { bytes.len() as u64 } else { 0 };
        let entries = self.history.len() as u64;
        if entries + 1 > MOST_ENTRIES || self.bytes + size > MOST_BYTES {
            return Err(Halt::Full { entries, bytes: self.bytes });
        }
        self.bytes += size;
        let entry = Entry { seconds: self.seconds, micros: self.micros, what };
        write!(self.text, "{entries} {}.{:06} I ", entry.seconds, entry.micros)?;
        match &entry.what {
            What::Opened => self.text.extend_from_slice(b"OPENED"),
            What::Closed { held } => write!(self.text, "CLOSED PEER held {held} 0 0 0 skipped 0 empty 0 unposted 0 unsent 0")?,
            What::Packet { packet, bytes } => {
                let name = packet.map_or("UNKNOWN UNKNOWN", |number| self.packets[number as usize].name);
                write!(self.text, "PACKET {name} ")?;
                put_digits(&mut self.text, bytes);
            }
        }
        self.text.push(b'\n');
        self.history.push(entry);
        Ok(())
    }

    /// Posts each frame that stands once the piece is there.
    fn feed(&mut self, piece: &[u8], refused: Halt) -> Result<(), Halt> {
        let Some(mut held) = self.held.take() else {
            return Err(refused);
        };
        held.extend_from_slice(piece);
        let mut start = 0;
        while let [high, low, ..] = held[start..] {
            let length = usize::from(u16::from_be_bytes([high, low]));
            if length < 2 || length > FRAME_LIMIT {
                return Err(refused);
            }
            let Some(frame) = held.get(start..start + length) else {
                break;
            };
            let packet = self.packets.iter().position(|packet| packet.fits(frame)).map(|number| number as u32);
            self.append(What::Packet { packet, bytes: frame.into() })?;
            start += length;
        }
        held.drain(..start);
        self.held = Some(held);
        Ok(())
    }

    fn step(&mut self, line: u32, event: Event) -> Result<(), Halt> {
        let refused = Halt::Refused { line, cause: "NotEnabled" };
        match event {
            Event::SetTime { seconds, micros } => (self.seconds, self.micros) = (seconds, micros),
            Event::Opens if self.held.is_none() => {
                self.held = Some(Vec::new());
                self.append(What::Opened)?;
            }
            Event::Finish if self.held.is_some() => {
                let held = self.held.take().map_or(0, |held| held.len() as u64);
                self.append(What::Closed { held })?;
            }
            Event::Piece(piece) => self.feed(&piece, refused)?,
            Event::Opens | Event::Finish => return Err(refused),
        }
        self.out.write_all(&self.text)?;
        self.text.clear();
        Ok(())
    }
}

/// Writes bytes as hexadecimal digits.
fn put_digits(text: &mut Vec<u8>, bytes: &[u8]) {
    const DIGITS: &[u8; 16] = b"0123456789abcdef";
    for byte in bytes {
        text.extend_from_slice(&[DIGITS[usize::from(byte >> 4)], DIGITS[usize::from(byte & 15)]]);
    }
}

fn replay(script: &str, out: impl Write) -> Result<(), Halt> {
    let mut events = Vec::new();
    for statement in statements_of(script)? {
        let line = statement.line;
        let event = event_of(&statement.words).map_err(|cause| Halt::Refused { line, cause })?;
        events.push((line, event));
    }
    let packets = ["T P", "T NEVER"].map(|name| Packet { name, ids: Vec::new() });
    let mut world = World::new(packets.into(), out);
    for (line, event) in events {
        world.step(line, event)?;
    }
    writeln!(world.out, "END {}", world.history.len())?;
    Ok(())
}

fn main() -> ExitCode {
    let script = std::env::args().nth(1).and_then(|name| fs::read_to_string(name).ok());
    let Some(script) = script else {
        eprintln!("usage: replay SCRIPT");
        return ExitCode::from(2);
    };
    match replay(&script, io::stdout().lock()) {
        Ok(()) => ExitCode::SUCCESS,
        Err(halt) => {
            eprintln!("{halt}");
            ExitCode::FAILURE
        }
    }
}
