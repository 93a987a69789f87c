//! How far a long run has come, on standard error: one line that is rewritten on a terminal, else a line now and then.

use std::io::{stderr, IsTerminal, Write};
use std::time::{Duration, Instant};

/// How often a terminal is told, and how often a file or a pipe.
const TERMINAL: Duration = Duration::from_secs(2);
const OTHERWISE: Duration = Duration::from_secs(15);

pub struct Progress {
    name: String,
    total: u64,
    start: Instant,
    told: Instant,
    terminal: bool,
    line_stands: bool,
}

impl Progress {
    pub fn new(name: &str, total: u64) -> Progress {
        let start = Instant::now();
        let terminal = stderr().is_terminal();
        Progress { name: name.to_string(), total, start, told: start, terminal, line_stands: false }
    }

    /// Tells how far the run has come, if it is time to.
    pub fn tick(&mut self, done: u64) {
        let pause = if self.terminal { TERMINAL } else { OTHERWISE };
        if self.told.elapsed() < pause {
            return;
        }
        self.told = Instant::now();
        let line = line(&self.name, done, self.total, self.start.elapsed());
        // A run is not stopped because nobody looks on.
        let _ = if self.terminal { write!(stderr(), "\r{line}\x1B[K") } else { writeln!(stderr(), "{line}") };
        self.line_stands = self.terminal;
    }

    /// Takes the line away from the terminal.
    pub fn end(&mut self) {
        if self.line_stands {
            let _ = write!(stderr(), "\r\x1B[K");
        }
    }
}

/// Done of how many, percent, cases a second, time left.
fn line(name: &str, done: u64, total: u64, elapsed: Duration) -> String {
    let percent = u128::from(done) * 100 / u128::from(total.max(1));
    let speed = done as f64 / elapsed.as_secs_f64().max(0.001);
    let left =
        if done == 0 { "?".to_string() } else { span((total.saturating_sub(done) as f64 / speed).ceil() as u64) };
    format!("{name}: {done} of {total}, {percent} %, {speed:.0} cases a second, {left} left")
}

/// Seconds as a person says them.
fn span(seconds: u64) -> String {
    match (seconds / 3600, seconds / 60 % 60, seconds % 60) {
        (0, 0, s) => format!("{s} s"),
        (0, m, s) => format!("{m} min {s:02} s"),
        (h, m, _) => format!("{h} h {m:02} min"),
    }
}

#[cfg(test)]
mod tests {
    use super::*;

    #[test]
    fn the_line_says_how_far_the_run_has_come() {
        let line = |done, seconds| line("join", done, 1000, Duration::from_secs(seconds));
        assert_eq!(line(250, 10), "join: 250 of 1000, 25 %, 25 cases a second, 30 s left");
        assert_eq!(line(0, 10), "join: 0 of 1000, 0 %, 0 cases a second, ? left");
        assert_eq!(line(999, 999), "join: 999 of 1000, 99 %, 1 cases a second, 1 s left");
        assert_eq!(line(1, 90), "join: 1 of 1000, 0 %, 0 cases a second, 24 h 58 min left");
    }

    #[test]
    fn spans_are_told_in_two_units_at_most() {
        let told: Vec<String> = [0, 59, 60, 3599, 3600, 90_061].map(span).to_vec();
        assert_eq!(told, ["0 s", "59 s", "1 min 00 s", "59 min 59 s", "1 h 00 min", "25 h 01 min"]);
    }
}
