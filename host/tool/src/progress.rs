//! How far a long run has come.
use crate::words::grouped;
use std::io::{self, IsTerminal, Stderr, Write};
use std::time::{Duration, Instant};

/// How long a line stays before it is written over: people read no faster.
const PAUSE: Duration = Duration::from_millis(100);

/// How many things of a run are made, on one line that is written over and is gone at the end.
pub struct Progress<W: Write> {
    /// Where the line is; none where nobody would see it.
    out: Option<W>,
    total: u64,
    made: u64,
    written: Instant,
    pause: Duration,
    /// How many characters the line has.
    width: usize,
}

impl Progress<Stderr> {
    /// A line on standard error, if that is a terminal. A run that is over soon shows none.
    pub fn of(total: u64) -> Progress<Stderr> {
        let out = io::stderr();
        Progress::new(out.is_terminal().then_some(out), total, PAUSE)
    }
}

impl<W: Write> Progress<W> {
    fn new(out: Option<W>, total: u64, pause: Duration) -> Progress<W> {
        Progress {
            out,
            total,
            made: 0,
            written: Instant::now(),
            pause,
            width: 0,
        }
    }

    /// One more is made.
    pub fn step(&mut self) {
        self.made += 1;
        if self.out.is_some() && self.written.elapsed() >= self.pause {
            let words = format!("made {} of {}", grouped(self.made), grouped(self.total));
            // The number grows, so that the line before is covered whole.
            self.put(&format!("\r{words}"));
            self.width = words.len();
            self.written = Instant::now();
        }
    }

    /// A line that can't be written is no failure of the run.
    fn put(&mut self, words: &str) {
        if let Some(out) = &mut self.out {
            let _ = out.write_all(words.as_bytes()).and_then(|()| out.flush());
        }
    }
}

impl<W: Write> Drop for Progress<W> {
    /// Removes the line, so that what is said next has one of its own. Spaces do that on every terminal.
    fn drop(&mut self) {
        if self.width > 0 {
            self.put(&format!("\r{:width$}\r", "", width = self.width));
        }
    }
}

#[cfg(test)]
mod tests {
    use super::*;

    /// What a run of so many leaves on a terminal.
    fn shown(steps: u64, total: u64, pause: Duration) -> String {
        let mut out = Vec::new();
        let mut progress = Progress::new(Some(&mut out), total, pause);
        (0..steps).for_each(|_| progress.step());
        drop(progress);
        String::from_utf8(out).expect("a text")
    }

    #[test]
    fn a_line_is_written_over_and_removed() {
        let lines = "\rmade 1 of 1,000\rmade 2 of 1,000\rmade 3 of 1,000\r               \r";
        assert_eq!(shown(3, 1_000, Duration::ZERO), lines);
        assert_eq!(shown(0, 1_000, Duration::ZERO), "");
    }

    #[test]
    fn a_short_run_shows_nothing() {
        assert_eq!(shown(1_000, 1_000, Duration::MAX), "");
    }

    #[test]
    fn a_line_stays_for_a_while() {
        let mut out = Vec::new();
        let mut progress = Progress::new(Some(&mut out), 9, Duration::from_secs(3_600));
        progress.step();
        progress.written -= Duration::from_secs(3_600);
        (0..5).for_each(|_| progress.step());
        drop(progress);
        assert_eq!(out, b"\rmade 2 of 9\r           \r");
    }

    #[test]
    fn where_nobody_looks_nothing_is_shown() {
        let mut progress: Progress<Vec<u8>> = Progress::new(None, 2, Duration::ZERO);
        progress.step();
        assert_eq!((progress.made, progress.width), (1, 0));
    }
}
