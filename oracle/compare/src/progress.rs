//! Shows how far a comparison is.

use std::time::{Duration, Instant};

pub struct Progress {
    what: &'static str,
    count: u64,
    shown: Instant,
}

impl Progress {
    pub fn new(what: &'static str, count: u64) -> Progress {
        Progress {
            what,
            count,
            shown: Instant::now(),
        }
    }

    /// Prints a line now and then.
    pub fn show(&mut self, done: u64) {
        if self.shown.elapsed() > Duration::from_secs(5) {
            eprintln!("{done} of {} {}", self.count, self.what);
            self.shown = Instant::now();
        }
    }
}
