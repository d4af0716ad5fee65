//! What is done so far, on standard error.

use crate::tally::grouped;
use std::time::{Duration, Instant};

const PAUSE: Duration = Duration::from_secs(2);
/// The clock is looked at once in so many cases.
const STRIDE: u64 = 64;

pub struct Progress {
    what: &'static str,
    done: u64,
    since: Instant,
    said: Instant,
}

impl Progress {
    pub fn new() -> Self {
        Progress { what: "", done: 0, since: Instant::now(), said: Instant::now() }
    }

    /// A new kind of cases, behind a word on the one before.
    pub fn begin(&mut self, what: &'static str) {
        if self.done > 0 {
            self.say(", done");
        }
        *self = Progress { what, ..Progress::new() };
    }

    pub fn step(&mut self) {
        self.done += 1;
        if self.done.is_multiple_of(STRIDE) && self.said.elapsed() >= PAUSE {
            self.said = Instant::now();
            self.say("");
        }
    }

    fn say(&self, end: &str) {
        let rate = self.done as f64 / self.since.elapsed().as_secs_f64();
        eprintln!("{}: {} cases, {} a second{end}", self.what, grouped(self.done), grouped(rate as u64));
    }
}
