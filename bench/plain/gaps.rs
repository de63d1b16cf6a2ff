//! What `bench/append` loads into a replay: it stands before `write`, and measures how long the program works from one put of a text to the next,
//! by the clock of the thread's processor time. At the put of the end it writes to standard error how many there were, their mean and the longest
//! of them, in nanoseconds, with the number of the put after it. What comes before the end itself is left out.
//!
//! Built by `rustc -O --crate-type cdylib`, and loaded by LD_PRELOAD.

use std::ffi::{c_int, c_long, c_void};
use std::sync::atomic::{AtomicU64, Ordering::Relaxed};

const WRITE: c_long = 1;
const THREAD_CPUTIME: c_int = 3;

static LAST: AtomicU64 = AtomicU64::new(0);
static COUNT: AtomicU64 = AtomicU64::new(0);
static SUM: AtomicU64 = AtomicU64::new(0);
static LONGEST: AtomicU64 = AtomicU64::new(0);
static AT: AtomicU64 = AtomicU64::new(0);

extern "C" {
    fn syscall(number: c_long, ...) -> c_long;
    fn clock_gettime(clock: c_int, time: *mut [i64; 2]) -> c_int;
}

fn now() -> u64 {
    let mut time = [0, 0];
    unsafe { clock_gettime(THREAD_CPUTIME, &mut time) };
    time[0] as u64 * 1_000_000_000 + time[1] as u64
}

fn put_begins() {
    let last = LAST.load(Relaxed);
    if last == 0 {
        return;
    }
    let worked = now() - last;
    let count = COUNT.fetch_add(1, Relaxed) + 1;
    SUM.fetch_add(worked, Relaxed);
    if worked > LONGEST.load(Relaxed) {
        LONGEST.store(worked, Relaxed);
        AT.store(count, Relaxed);
    }
}

/// # Safety
///
/// As that of the C library.
#[no_mangle]
pub unsafe extern "C" fn write(file: c_int, bytes: *const c_void, count: usize) -> isize {
    let ends = file == 1 && count > 4 && std::slice::from_raw_parts(bytes.cast::<u8>(), 4) == b"END ";
    if ends {
        tell();
    } else if file == 1 {
        put_begins();
    }
    let done = syscall(WRITE, file as c_long, bytes, count);
    if file == 1 {
        LAST.store(now(), Relaxed);
    }
    done as isize
}

fn tell() {
    let (count, sum) = (COUNT.load(Relaxed), SUM.load(Relaxed));
    let text = format!("{count} {} {} {}\n", sum / count.max(1), LONGEST.load(Relaxed), AT.load(Relaxed));
    unsafe { syscall(WRITE, 2 as c_long, text.as_ptr(), text.len()) };
}
