//! A line on standard error that says how far the work is, where somebody looks at it.

use std::io::{self, IsTerminal, Write};
use std::time::{Duration, Instant};

pub struct Progress {
    shown: bool,
    last: Option<Instant>,
}

impl Progress {
    /// Shown when standard error is a terminal.
    pub fn new() -> Progress {
        Progress {
            shown: io::stderr().is_terminal(),
            last: None,
        }
    }

    /// Never shown.
    pub fn none() -> Progress {
        Progress {
            shown: false,
            last: None,
        }
    }

    /// Ten times a second at most.
    pub fn say(&mut self, words: impl FnOnce() -> String) {
        let lately = |t: Instant| t.elapsed() < Duration::from_millis(100);
        if !self.shown || self.last.is_some_and(lately) {
            return;
        }
        self.last = Some(Instant::now());
        let mut out = io::stderr().lock();
        let _ = write!(out, "\r\x1b[K{}", words());
        let _ = out.flush();
    }
}

impl Default for Progress {
    fn default() -> Progress {
        Progress::new()
    }
}

impl Drop for Progress {
    fn drop(&mut self) {
        if self.shown && self.last.is_some() {
            let _ = write!(io::stderr().lock(), "\r\x1b[K");
        }
    }
}
