//! The line that shows on a terminal how far a run is.

use super::report::rate;
use crate::output::Output;
use std::io::{self, IsTerminal, Write};
use std::time::{Duration, Instant};

/// The line is written anew after so long at the earliest.
const PAUSE: Duration = Duration::from_millis(100);

pub struct Progress {
    shown: bool,
    columns: usize,
    done: usize,
    start: Instant,
    last: Option<Instant>,
}

impl Progress {
    /// Of so many columns to treat; shown if somebody may look at it.
    pub fn new(output: Output, columns: usize) -> Progress {
        let shown = !output.quiet && !output.json && io::stderr().is_terminal();
        Progress { shown, columns, done: 0, start: Instant::now(), last: None }
    }

    /// One more column is done.
    pub fn count(&mut self) {
        self.done += 1;
        if self.shown && self.last.is_none_or(|last| last.elapsed() >= PAUSE) {
            self.last = Some(Instant::now());
            let line = line(self.done, self.columns, self.start.elapsed());
            let _ = write!(io::stderr(), "\r\x1b[K{line}");
            let _ = io::stderr().flush();
        }
    }

    /// Takes the line away, for another one to be written in its place.
    pub fn clear(&mut self) {
        if self.last.take().is_some() {
            let _ = write!(io::stderr(), "\r\x1b[K");
        }
    }
}

fn line(done: usize, columns: usize, time: Duration) -> String {
    let rate = rate(done, time);
    let left = duration(60.0 * (columns - done) as f64 / rate);
    format!("{done} of {columns} columns, {rate:.0} a minute, {left} left")
}

fn duration(seconds: f64) -> String {
    let seconds = seconds.ceil() as u64;
    match (seconds / 3600, seconds / 60 % 60, seconds % 60) {
        (0, 0, seconds) => format!("{seconds} s"),
        (0, minutes, seconds) => format!("{minutes} min {seconds} s"),
        (hours, minutes, _) => format!("{hours} h {minutes} min"),
    }
}

#[cfg(test)]
mod tests {
    use super::*;

    #[test]
    fn a_line_has_the_rate_and_the_time_left() {
        assert_eq!(line(20, 30, Duration::from_secs(30)), "20 of 30 columns, 40 a minute, 15 s left");
        assert_eq!(duration(61.5), "1 min 2 s");
        assert_eq!(duration(7260.0), "2 h 1 min");
    }
}
