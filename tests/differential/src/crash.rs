//! Says what was under way when a signal stops the process, as a touched guard page does.

use std::sync::atomic::{AtomicU64, AtomicUsize, Ordering::Relaxed};

extern "C" {
    fn signal(number: i32, handler: extern "C" fn(i32)) -> usize;
    fn write(file: i32, bytes: *const u8, count: usize) -> isize;
    fn _exit(status: i32) -> !;
}

/// SIGILL, SIGTRAP, SIGABRT, SIGBUS, SIGFPE and SIGSEGV on Linux.
const SIGNALS: [i32; 6] = [4, 5, 6, 7, 8, 11];
const STANDARD_ERROR: i32 = 2;

#[derive(Clone, Copy)]
pub enum Phase {
    Grammar,
    Covers,
    Case,
    Sequence,
    Post,
    List,
    Racing,
}

/// The phases' names, in their order.
const PHASES: [&str; 7] = [
    " in grammar run ",
    " in list of records ",
    " in case ",
    " in sequence ",
    " in post ",
    " in list ",
    " in race ",
];

static SEED: AtomicU64 = AtomicU64::new(0);
static PHASE: AtomicUsize = AtomicUsize::new(0);
static NUMBER: AtomicU64 = AtomicU64::new(0);

/// From now on, such a signal prints the seed and what was noted last, and ends the process.
pub fn report_signals(seed: u64) {
    SEED.store(seed, Relaxed);
    for number in SIGNALS {
        // SAFETY: the handler only reads atomics, writes to a file descriptor and leaves.
        unsafe { signal(number, on_signal) };
    }
}

/// Notes what is under way.
pub fn note(phase: Phase, number: u64) {
    PHASE.store(phase as usize, Relaxed);
    NUMBER.store(number, Relaxed);
}

extern "C" fn on_signal(number: i32) {
    write_text("differential: stopped by signal ");
    write_number(number as u64);
    write_text(PHASES[PHASE.load(Relaxed)]);
    write_number(NUMBER.load(Relaxed));
    write_text(", seed ");
    write_number(SEED.load(Relaxed));
    write_text("\n");
    // SAFETY: leaves the process.
    unsafe { _exit(1) }
}

fn write_text(text: &str) {
    write_bytes(text.as_bytes());
}

fn write_bytes(bytes: &[u8]) {
    // SAFETY: the bytes are those of the slice.
    unsafe { write(STANDARD_ERROR, bytes.as_ptr(), bytes.len()) };
}

/// Writes a number without memory from the heap, which a signal handler may not ask for.
fn write_number(number: u64) {
    let mut digits = [0; 20];
    let mut at = digits.len();
    let mut rest = number;
    loop {
        at -= 1;
        digits[at] = b'0' + (rest % 10) as u8;
        rest /= 10;
        if rest == 0 {
            break;
        }
    }
    write_bytes(&digits[at..]);
}
