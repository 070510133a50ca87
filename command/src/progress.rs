//! How far a file is read, for a person who waits.

use crate::say::shown;
use std::io::{self, IsTerminal, Write};
use std::time::{Duration, Instant};

/// Nobody needs to be told of less.
const PATIENCE: Duration = Duration::from_secs(1);
/// Between two tellings.
const PAUSE: Duration = Duration::from_millis(200);

pub struct Progress<'a> {
    name: &'a str,
    watched: bool,
    next: Instant,
    told: bool,
}

impl<'a> Progress<'a> {
    pub fn of(name: &'a str) -> Progress<'a> {
        Progress { name, watched: io::stderr().is_terminal(), next: Instant::now() + PATIENCE, told: false }
    }

    /// So many bytes of so many are read.
    pub fn at(&mut self, done: u64, all: u64) {
        if !self.watched || Instant::now() < self.next {
            return;
        }
        let percent = u128::from(done) * 100 / u128::from(all.max(1));
        _ = write!(io::stderr(), "\r{}: {percent}%\x1b[K", shown(self.name));
        self.told = true;
        self.next = Instant::now() + PAUSE;
    }
}

impl Drop for Progress<'_> {
    /// The line is given back, for the answer.
    fn drop(&mut self) {
        if self.told {
            _ = write!(io::stderr(), "\r\x1b[K");
        }
    }
}
