//! A line on standard error that tells how far a run is and about how long it has still to go.

use std::fs;
use std::io::{self, Write};
use std::time::{Duration, Instant};

/// Progress over so many units of work.
pub struct Line {
    what: &'static str,
    total: usize,
    start: Instant,
    shown: Option<Instant>,
    terminal: bool,
    width: usize,
}

impl Line {
    /// Starts at 0 of `total`.
    pub fn start(what: &'static str, total: usize) -> Line {
        // The library is for Linux, where this names the terminal if standard error is one.
        let target = fs::read_link("/proc/self/fd/2").unwrap_or_default();
        let terminal = target.starts_with("/dev/pts") || target.starts_with("/dev/tty");
        Line { what, total, start: Instant::now(), shown: None, terminal, width: 0 }
    }

    /// Tells that `done` units are done. A terminal's line is written over; elsewhere a line comes now and then, so that logs stay short.
    pub fn at(&mut self, done: usize, doing: &str) {
        let pause = if self.terminal { Duration::from_millis(100) } else { Duration::from_secs(10) };
        if self.shown.map_or(false, |then| then.elapsed() < pause) {
            return;
        }
        self.shown = Some(Instant::now());
        let gone = self.start.elapsed().as_secs_f64();
        let mut text = format!("{}: {done} of {}, {doing}, {gone:.0} s", self.what, self.total);
        if done > 0 && done < self.total {
            text += &format!(", about {:.0} s to go", gone * (self.total - done) as f64 / done as f64);
        }
        if self.terminal {
            eprint!("\r{text:<width$}", width = self.width);
            self.width = text.chars().count();
            let _ = io::stderr().flush();
        } else {
            eprintln!("{text}");
        }
    }

    /// Takes the line off a terminal, so that other text can be printed; the next `at` shows it again.
    pub fn clear(&mut self) {
        if self.terminal {
            eprint!("\r{:<width$}\r", "", width = self.width);
            self.shown = None;
            self.width = 0;
        }
    }
}
