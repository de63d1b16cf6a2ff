//! What `bench/rehearse` compares `./cts rehearse` with: a plain Rust program, without a proof, that does the same work. It makes the
//! same events from the number, cuts the frames of both interfaces, finds for each frame its packet, keeps the history, judges the
//! one item with limits, reads each request of the client and answers it, builds and writes commands, lays out the telemetry log of
//! the whole history, and prints the eight lines.
//!
//! Built by `rustc -O`: `rehearse N`.

use std::collections::VecDeque;
use std::env;
use std::process::ExitCode;

const INSTRUMENT: u32 = 0;
const AUXILIARY: u32 = 1;
const SLOT: u32 = 16;
const DESK: u32 = 24;

/// What an entry of the history says.
enum What {
    Opened,
    Packet { number: usize, bytes: Vec<u8> },
    Closed,
    Command { interface: u32, bytes: Vec<u8> },
}

struct Entry {
    by: u32,
    seconds: u32,
    micros: u32,
    what: What,
}

/// The names of the packets, by their numbers.
const NAMES: [(&str, &str); 2] = [("INST", "HS"), ("AUX", "LINE")];

#[derive(Clone, Copy, PartialEq)]
enum Colour {
    RedLow,
    YellowLow,
    Green,
    YellowHigh,
    RedHigh,
}

fn temperature(bytes: &[u8]) -> f64 {
    -100.0 + 0.00305 * f64::from(u16::from_be_bytes([bytes[1], bytes[2]]))
}

fn colour(value: f64) -> Colour {
    if value <= -80.0 {
        Colour::RedLow
    } else if value <= -70.0 {
        Colour::YellowLow
    } else if value >= 80.0 {
        Colour::RedHigh
    } else if value >= 60.0 {
        Colour::YellowHigh
    } else {
        Colour::Green
    }
}

/// The server of a rehearsal.
struct Server {
    history: Vec<Entry>,
    /// The bytes of each interface that are no whole frame yet.
    parts: [Vec<u8>; 2],
    connected: [bool; 2],
    /// The places of commands that are not written yet.
    queue: VecDeque<usize>,
    current: Option<usize>,
    state: Option<Colour>,
    events: u64,
    refused: u64,
    written: u64,
}

impl Server {
    fn append(&mut self, by: u32, what: What) {
        self.history.push(Entry { by, seconds: 0, micros: 0, what });
    }

    fn open(&mut self, by: u32) {
        if let Some(connected) = self.connected.get_mut(by as usize) {
            *connected = true;
        }
        self.append(by, What::Opened);
    }

    fn close(&mut self, by: u32) {
        self.parts[by as usize].clear();
        self.connected[by as usize] = false;
        self.queue.clear();
        self.append(by, What::Closed);
    }

    fn piece(&mut self, by: u32, piece: &[u8]) {
        self.parts[by as usize].extend_from_slice(piece);
        while let Some((len, packet)) = frame(by, &self.parts[by as usize]) {
            self.parts[by as usize].drain(..len);
            self.packet(by, packet);
        }
    }

    fn packet(&mut self, by: u32, bytes: Vec<u8>) {
        let number = usize::from(by == AUXILIARY);
        if by == INSTRUMENT {
            let now = colour(temperature(&bytes));
            if self.state != Some(now) {
                self.state = Some(now);
                self.events += 1;
            }
            self.current = Some(self.history.len());
        }
        self.append(by, What::Packet { number, bytes });
    }

    fn call(&mut self, body: &str) -> String {
        let words = texts_of(body);
        let method = words.iter().position(|w| *w == "method").map(|n| words[n + 1]);
        let params = words.iter().position(|w| *w == "params").map(|n| words[n + 1]);
        match (method, params) {
            (Some("tlm"), Some("INST HS TEMP1")) => match self.current {
                Some(place) => match &self.history[place].what {
                    What::Packet { bytes, .. } => format!("{{\"id\":1,\"jsonrpc\":\"2.0\",\"result\":{}}}", temperature(bytes)),
                    _ => unreachable!(),
                },
                None => "{\"error\":{\"code\":-32001,\"message\":\"Never received\"},\"id\":1,\"jsonrpc\":\"2.0\"}".to_string(),
            },
            (Some("cmd"), Some(text)) => self.order(text),
            _ => "{\"error\":{\"code\":-32601,\"message\":\"Method not found\"},\"id\":1,\"jsonrpc\":\"2.0\"}".to_string(),
        }
    }

    fn order(&mut self, text: &str) -> String {
        let words: Vec<&str> = text.split(' ').collect();
        let duration: u32 = words[4].parse().unwrap();
        if duration > 10 {
            self.refused += 1;
            return format!("{{\"error\":{{\"code\":-32002,\"message\":\"Out of range: DURATION {duration} not in 0..10\"}},\"id\":1,\"jsonrpc\":\"2.0\"}}");
        }
        let bytes = vec![7, (duration >> 8) as u8, duration as u8];
        self.queue.push_back(self.history.len());
        self.append(DESK, What::Command { interface: INSTRUMENT, bytes });
        format!("{{\"id\":1,\"jsonrpc\":\"2.0\",\"result\":[\"{}\",\"{}\",{{\"DURATION\":{duration}}}]}}", words[0], words[1])
    }

    fn write(&mut self) {
        let place = self.queue.pop_front().unwrap();
        if let What::Command { bytes, .. } = &self.history[place].what {
            let mut spelling = ((bytes.len() + 2) as u16).to_be_bytes().to_vec();
            spelling.extend_from_slice(bytes);
            self.written += spelling.len() as u64;
        }
    }

    /// The telemetry log of the history, without its head.
    fn log(&self) -> Vec<u8> {
        let mut log = Vec::new();
        for entry in &self.history {
            if let What::Packet { number, bytes } = &entry.what {
                let (target, packet) = NAMES[*number];
                log.extend_from_slice(&entry.seconds.to_be_bytes());
                log.extend_from_slice(&entry.micros.to_be_bytes());
                for name in [target, packet] {
                    log.push(name.len() as u8);
                    log.extend_from_slice(name.as_bytes());
                }
                log.extend_from_slice(&(bytes.len() as u32).to_be_bytes());
                log.extend_from_slice(bytes);
            }
        }
        log
    }
}

/// The first whole frame of what was fed, its length and the packet in it.
fn frame(by: u32, bytes: &[u8]) -> Option<(usize, Vec<u8>)> {
    if by == INSTRUMENT {
        let len = usize::from(u16::from_be_bytes([*bytes.first()?, *bytes.get(1)?]));
        bytes.get(2..len).map(|packet| (len, packet.to_vec()))
    } else {
        let end = bytes.iter().position(|b| *b == b'\n')?;
        Some((end + 1, bytes[..end].to_vec()))
    }
}

/// The texts of a request, in order; those of the rehearsal have no escapes.
fn texts_of(body: &str) -> Vec<&str> {
    body.split('"').skip(1).step_by(2).collect()
}

/// The numbers of the generator.
fn next(x: u64) -> u64 {
    x.wrapping_mul(6_364_136_223_846_793_005).wrapping_add(1_442_695_040_888_963_407)
}

fn choice(server: &mut Server, r: u64) {
    match r % 8 {
        0..=3 => {
            let count = ((r / 8) % 65_536) as u16;
            let [high, low] = count.to_be_bytes();
            let frame = [0, 6, 1, high, low, ((r / 524_288) % 2) as u8];
            let cut = (1 + (r / 1_048_576) % 5) as usize;
            server.piece(INSTRUMENT, &frame[..cut]);
            server.piece(INSTRUMENT, &frame[cut..]);
        }
        4 => {
            let mut line = vec![b'A'; (1 + (r / 8) % 40) as usize];
            line.push(b'\n');
            server.piece(AUXILIARY, &line);
        }
        5 => {
            server.call("{\"jsonrpc\":\"2.0\",\"method\":\"tlm\",\"params\":[\"INST HS TEMP1\"],\"id\":1}");
        }
        6 => {
            let duration = (r / 8) % 12;
            let body = format!("{{\"jsonrpc\":\"2.0\",\"method\":\"cmd\",\"params\":[\"INST COLLECT with DURATION {duration}\"],\"id\":1}}");
            server.call(&body);
            if duration <= 10 {
                server.write();
            }
        }
        _ => {
            server.close(INSTRUMENT);
            server.open(INSTRUMENT);
        }
    }
}

/// MD5 of RFC 1321.
fn md5(bytes: &[u8]) -> String {
    const SHIFTS: [[u32; 4]; 4] = [[7, 12, 17, 22], [5, 9, 14, 20], [4, 11, 16, 23], [6, 10, 15, 21]];
    let table: Vec<u32> = (1..=64).map(|n| (f64::from(n).sin().abs() * 4_294_967_296.0) as u32).collect();
    let mut state = [0x6745_2301_u32, 0xefcd_ab89, 0x98ba_dcfe, 0x1032_5476];
    let mut padded = bytes.to_vec();
    padded.push(0x80);
    while padded.len() % 64 != 56 {
        padded.push(0);
    }
    padded.extend_from_slice(&(8 * bytes.len() as u64).to_le_bytes());
    for block in padded.chunks(64) {
        let word = |n: usize| u32::from_le_bytes([block[4 * n], block[4 * n + 1], block[4 * n + 2], block[4 * n + 3]]);
        let [mut a, mut b, mut c, mut d] = state;
        for n in 0..64 {
            let (f, g) = match n / 16 {
                0 => ((b & c) | (!b & d), n),
                1 => ((d & b) | (!d & c), (5 * n + 1) % 16),
                2 => (b ^ c ^ d, (3 * n + 5) % 16),
                _ => (c ^ (b | !d), (7 * n) % 16),
            };
            let sum = a.wrapping_add(f).wrapping_add(table[n]).wrapping_add(word(g));
            (a, d, c, b) = (d, c, b, b.wrapping_add(sum.rotate_left(SHIFTS[n / 16][n % 4])));
        }
        for (sum, part) in state.iter_mut().zip([a, b, c, d]) {
            *sum = sum.wrapping_add(part);
        }
    }
    state.iter().flat_map(|word| word.to_le_bytes()).map(|byte| format!("{byte:02x}")).collect()
}

fn main() -> ExitCode {
    let Some(number) = env::args().nth(1).and_then(|word| word.parse::<u64>().ok()) else {
        eprintln!("usage: rehearse N");
        return ExitCode::from(2);
    };
    let mut server = Server {
        history: Vec::new(),
        parts: [Vec::new(), Vec::new()],
        connected: [false; 2],
        queue: VecDeque::new(),
        current: None,
        state: None,
        events: 0,
        refused: 0,
        written: 0,
    };
    for by in [INSTRUMENT, AUXILIARY, SLOT] {
        server.open(by);
    }
    let mut x = number;
    for _ in 0..number {
        x = next(x);
        choice(&mut server, x >> 33);
    }
    let log = server.log();
    let packets = server.history.iter().filter(|e| matches!(e.what, What::Packet { .. })).count();
    let commands = server.history.iter().filter(|e| matches!(e.what, What::Command { interface: INSTRUMENT, .. } if e.by == DESK)).count();
    let entries = server.history.len();
    println!("entries {entries}\npackets {packets}\ncommands {commands}\nrefused {}\nevents {}", server.refused, server.events);
    println!("log bytes {}\nlog md5 {}\nEND {entries}", log.len(), md5(&log));
    ExitCode::SUCCESS
}
