//! A line on standard error that says how far the program is, if a terminal shows it.

use crate::show::grouped;
use std::io::{stderr, stdout, IsTerminal, Write};
use std::sync::atomic::{AtomicBool, Ordering::Relaxed};
use std::time::{Duration, Instant};

/// Whether a line may be shown, and whether one is.
static ALLOWED: AtomicBool = AtomicBool::new(false);
static SHOWN: AtomicBool = AtomicBool::new(false);

/// Lets the line be shown on a terminal; where the output is long, or parts of lines, not beside output on a terminal.
pub fn allow(long_output: bool) {
    ALLOWED.store(stderr().is_terminal() && !(long_output && stdout().is_terminal()), Relaxed);
}

/// Shows a line in place of the last one. That it cannot be written is no failure.
fn say(what: &str) {
    if ALLOWED.load(Relaxed) {
        let _ = write!(stderr(), "\r{what}\x1b[K");
        SHOWN.store(true, Relaxed);
    }
}

/// Takes the line away, if there is one.
pub fn clear() {
    if SHOWN.swap(false, Relaxed) {
        let _ = write!(stderr(), "\r\x1b[K");
    }
}

/// From this length of a file on, opening a grid may take a second.
const LONG: usize = 1 << 28;

/// Says that a grid is being opened, where that takes a while.
pub fn opening(file: &[u8]) {
    if file.len() >= LONG {
        say("opening the grid");
    }
}

/// How far a walk is.
pub struct Progress {
    total: u64,
    done: u64,
    next: Instant,
}

/// A short walk is not shown at all.
const FIRST: Duration = Duration::from_millis(1000);
const PAUSE: Duration = Duration::from_millis(200);

impl Progress {
    pub fn new(total: u64) -> Self {
        Self { total, done: 0, next: Instant::now() + FIRST }
    }

    /// So many records more.
    pub fn add(&mut self, records: usize) {
        self.done += records as u64;
        if Instant::now() >= self.next {
            say(&format!("{} of {} records, {} %", grouped(self.done), grouped(self.total), 100 * self.done / self.total.max(1)));
            self.next = Instant::now() + PAUSE;
        }
    }
}

impl Drop for Progress {
    fn drop(&mut self) {
        clear();
    }
}
