//! What `bench/replay logs` compares the logs of a replay with: it reads a file, appends its bytes to another one in a number of
//! pieces of about one length, and syncs it.
//!
//! Built by `rustc -O`: `append FILE COPY PIECES`.

use std::env;
use std::error::Error;
use std::fs::{self, File};
use std::io::Write;

fn main() -> Result<(), Box<dyn Error>> {
    let words: Vec<String> = env::args().collect();
    let bytes = fs::read(&words[1])?;
    let pieces: usize = words[3].parse()?;
    let mut copy = File::create(&words[2])?;
    for piece in bytes.chunks(bytes.len().div_ceil(pieces.max(1)).max(1)) {
        copy.write_all(piece)?;
    }
    copy.sync_all()?;
    Ok(())
}
