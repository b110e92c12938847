//! WAV files of 16-bit stereo frames, written block by block.
use crate::args::Given;
use crate::failure::Failure;
use crate::words::{counted, grouped, lasting};
use std::io::{self, IsTerminal, Write};
use std::time::{Duration, Instant};

/// The most frames that a WAV file holds: its length has 32 bits, a frame has 4 bytes, and 36 go to the header.
pub const LONGEST: u64 = (u32::MAX as u64 - 36) / 4;

/// Turns back a length that no WAV file has. The options are those that ask for another.
pub fn judge_length(given: &Given, frames: u64, options: &str) -> Result<(), Failure> {
    if frames <= LONGEST {
        return Ok(());
    }
    let words = "are more than the 4 GiB of a WAV file hold; by";
    Err(given.wrong(&format!(
        "{} frames {words} {options} ask for at most {}",
        grouped(frames),
        grouped(LONGEST)
    )))
}

/// What is told of a file that was written.
pub fn facts(frames: u64, rate: u32) -> String {
    let lasts = lasting(frames, rate).unwrap_or_default();
    format!(
        "{} at {} Hz, {lasts}",
        counted(frames, "frame"),
        grouped(u64::from(rate))
    )
}

/// A file that is being written, to whatever takes its bytes.
pub struct Wav<F> {
    put: F,
    progress: Progress,
    bytes: Vec<u8>,
}

impl<F: FnMut(&[u8]) -> Result<(), Failure>> Wav<F> {
    /// Begins a file of so many frames.
    pub fn begin(rate: u32, frames: u64, mut put: F) -> Result<Wav<F>, Failure> {
        put(&header(rate, frames as u32))?;
        Ok(Wav {
            put,
            progress: Progress::of(frames),
            bytes: Vec::new(),
        })
    }

    /// Adds a block, left and right values by turns.
    pub fn add(&mut self, values: &[i16]) -> Result<(), Failure> {
        self.bytes.clear();
        self.bytes.extend(values.iter().flat_map(|value| value.to_le_bytes()));
        (self.put)(&self.bytes)?;
        self.progress.add(values.len() as u64 / 2);
        Ok(())
    }

    /// Ends the file; what took its bytes is free again.
    pub fn end(self) {
        self.progress.clear();
    }
}

/// The 44 bytes in front of 16-bit stereo frames. The caller keeps frames within LONGEST, and the library the rate within
/// 192,000.
fn header(rate: u32, frames: u32) -> Vec<u8> {
    let data = frames * 4;
    let mut header = Vec::with_capacity(44);
    header.extend(b"RIFF");
    header.extend((36 + data).to_le_bytes());
    header.extend(b"WAVEfmt ");
    header.extend(16u32.to_le_bytes());
    header.extend(1u16.to_le_bytes()); // PCM
    header.extend(2u16.to_le_bytes()); // channels
    header.extend(rate.to_le_bytes());
    header.extend((rate * 4).to_le_bytes());
    header.extend(4u16.to_le_bytes()); // bytes a frame
    header.extend(16u16.to_le_bytes()); // bits a value
    header.extend(b"data");
    header.extend(data.to_le_bytes());
    header
}

/// A line on a terminal that tells how far a long writing has come.
struct Progress {
    frames: u64,
    done: u64,
    next: Instant,
    shown: bool,
    terminal: bool,
}

impl Progress {
    fn of(frames: u64) -> Progress {
        let next = Instant::now() + Duration::from_secs(1);
        Progress {
            frames,
            done: 0,
            next,
            shown: false,
            terminal: io::stderr().is_terminal(),
        }
    }

    fn add(&mut self, frames: u64) {
        self.done += frames;
        if !self.terminal || Instant::now() < self.next {
            return;
        }
        self.next = Instant::now() + Duration::from_millis(200);
        self.shown = true;
        let share = self.done * 100 / self.frames.max(1);
        // A terminal that doesn't take the line is no reason to stop.
        let _ = write!(
            io::stderr(),
            "\rsvx: {share}%, {} of {} frames",
            grouped(self.done),
            grouped(self.frames)
        );
    }

    fn clear(&self) {
        if self.shown {
            let _ = write!(io::stderr(), "\r{:60}\r", "");
        }
    }
}
