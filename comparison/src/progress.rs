//! The progress of a long run: a line on the terminal, and whether its time is over.

use crate::table::grouped;
use std::io::{IsTerminal, Write};
use std::time::{Duration, Instant};

/// How often the line is rewritten, and after how many inputs the clock is asked.
const EVERY: Duration = Duration::from_millis(500);
const INPUTS: u64 = 256;

pub struct Progress {
    start: Instant,
    /// None: one round, however long it takes.
    seconds: Option<u64>,
    terminal: bool,
    shown: Instant,
    inputs: u64,
    round: u64,
}

impl Progress {
    pub fn new(seconds: Option<u64>) -> Progress {
        let start = Instant::now();
        let terminal = seconds.is_some() && std::io::stderr().is_terminal();
        Progress { start, seconds, terminal, shown: start, inputs: 0, round: 1 }
    }

    /// The same in the next round.
    pub fn next_round(self) -> Progress {
        Progress { round: self.round + 1, ..self }
    }

    pub fn round(&self) -> u64 {
        self.round
    }

    pub fn elapsed(&self) -> Duration {
        self.start.elapsed()
    }

    pub fn time_is_over(&self) -> bool {
        self.seconds.is_some_and(|seconds| self.elapsed() >= Duration::from_secs(seconds))
    }

    /// Counts an input of this kind.
    pub fn tick(&mut self, kind: &str) {
        self.inputs += 1;
        if !self.terminal || !self.inputs.is_multiple_of(INPUTS) || self.shown.elapsed() < EVERY {
            return;
        }
        self.shown = Instant::now();
        let (seconds, of) = (self.elapsed().as_secs(), self.seconds.unwrap_or(0));
        let line = format!("{seconds} of {of} s, round {}, {} inputs: {kind}", self.round, grouped(self.inputs));
        eprint!("\r{line:<78.78}");
        std::io::stderr().flush().ok();
    }

    /// Removes the line, so that something else can be written.
    pub fn clear(&self) {
        if self.terminal {
            eprint!("\r{:<78}\r", "");
        }
    }
}
