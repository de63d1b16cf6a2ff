//! What `bench/turn` compares the turn with: a mutex of the standard library round a list of numbers, and a load of an atomic number,
//! without a proof. Built by `rustc -O`: `turn holds THREADS COUNT`, `turn looks COUNT` or `turn beside COUNT`.

use std::env;
use std::hint::black_box;
use std::process::ExitCode;
use std::sync::Mutex;
use std::sync::atomic::{AtomicU64, Ordering};
use std::thread;

/// Locks the list so often, and adds to the number what came to it, as a hold does.
fn hold(list: &Mutex<Vec<u64>>, count: &AtomicU64, times: u64) {
    for _ in 0..times {
        let held = list.lock().unwrap();
        let before = held.len();
        count.fetch_add((black_box(&held).len() - before) as u64, Ordering::SeqCst);
    }
}

fn look(count: &AtomicU64, times: u64) {
    for _ in 0..times {
        black_box(count.load(Ordering::SeqCst));
    }
}

fn main() -> ExitCode {
    let words: Vec<String> = env::args().skip(1).collect();
    let list = Mutex::new(Vec::new());
    let count = AtomicU64::new(0);
    let number = |at: usize| words.get(at).and_then(|word| word.parse().ok()).unwrap_or(0);
    match words.first().map(String::as_str) {
        Some("holds") => thread::scope(|scope| {
            for _ in 0..number(1) {
                scope.spawn(|| hold(&list, &count, number(2)));
            }
        }),
        Some("looks") => look(&count, number(1)),
        Some("beside") => thread::scope(|scope| {
            scope.spawn(|| hold(&list, &count, number(1)));
            scope.spawn(|| look(&count, number(1)));
        }),
        _ => return ExitCode::from(2),
    }
    ExitCode::SUCCESS
}
