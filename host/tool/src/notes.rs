//! A note as the options ask for it, and its frames put out block by block.
use crate::args::Given;
use crate::failure::Failure;
use crate::files::Input;
use svx::{Note, Refusal, Sheet};

/// The options of a note.
pub const OPTIONS: [&str; 10] = [
    "--octave",
    "--velocity",
    "--step",
    "--note-rate",
    "--rate",
    "--frames",
    "--seconds",
    "--key-up",
    "--key-up-seconds",
    "--block",
];

/// Their help, from the first option's name on.
pub const HELP: &str = "\
  --octave K           which octave plays; 0, the highest, if not given
  --velocity V         how hard the key is struck, 1 to 127; 127 if not given
  --step N             samples a frame times 65536: 65536 is one sample a frame
  --note-rate HZ       in place of --step: samples of the voice a second; the
                       voice's own rate if not given
  --rate N             frames a second of the output; 44100 if not given
  --frames N           the length in frames
  --seconds S          in place of --frames: the length in seconds
  --key-up FRAME       the frame at which the key is let go
  --key-up-seconds S   in place of --key-up: the same in seconds";

pub const LARGEST_32: u64 = u32::MAX as u64;

/// What the options ask for. Lengths and key-up are there only if given.
pub struct Asked {
    pub note: Note,
    pub frames: Option<u64>,
    pub key_up: Option<u32>,
    pub block: Option<usize>,
}

impl Asked {
    /// Reads the options, with the voice's own rate for a step that isn't given.
    pub fn of(given: &Given, input: &Input, voice_rate: u16) -> Result<Asked, Failure> {
        given.one_of("--step", "--note-rate")?;
        given.one_of("--frames", "--seconds")?;
        given.one_of("--key-up", "--key-up-seconds")?;
        let octave = given.number("--octave", 0..=255)?.unwrap_or(0);
        let velocity = given.number("--velocity", 0..=255)?.unwrap_or(127);
        let rate = given.number("--rate", 0..=LARGEST_32)?.unwrap_or(44_100);
        let note_rate = given.billionths("--note-rate")?;
        let step = match (given.number("--step", 0..=LARGEST_32)?, note_rate) {
            (Some(step), _) => step,
            (None, None) if voice_rate == 0 => {
                return Err(Failure::wrong(
                    &input.name,
                    "the voice names no rate; give --step or --note-rate",
                ));
            }
            (None, hertz) => step(hertz.unwrap_or(u64::from(voice_rate) * BILLION), rate),
        };
        let seconds = given.billionths("--seconds")?.map(|s| frames(s, rate));
        let key_up_seconds = given
            .billionths("--key-up-seconds")?
            .map(|s| frames(s, rate).min(LARGEST_32));
        let key_up = given.number("--key-up", 0..=LARGEST_32)?.or(key_up_seconds);
        Ok(Asked {
            note: Note::start(octave as u8, step as u32, rate as u32, velocity as u8),
            frames: given.number("--frames", 0..=u64::MAX)?.or(seconds),
            key_up: key_up.map(|frame| frame as u32),
            block: given.number("--block", 1..=1 << 20)?.map(|frames| frames as usize),
        })
    }

    /// Judges the note before anything is written: what turns back one fill turns back all, at whatever frame.
    pub fn judge(&self, sheet: &Sheet) -> Result<(), Refusal> {
        self.note.fill(sheet, &mut []).map(|_| ())
    }
}

/// The frame from which a note is over that is let go at a frame. Over once, it stays over, so a search by halves finds it;
/// the library answers for each frame that it looks at.
pub fn end(note: Note, key_up: Option<u32>, sheet: &Sheet) -> Result<u32, Refusal> {
    let (mut low, mut high) = (0, u32::MAX);
    while low < high {
        let frame = low + (high - low) / 2;
        let at = Note {
            frames: frame,
            key_up: key_up.filter(|&u| u <= frame),
            ..note
        };
        let (_, sounding) = at.fill(sheet, &mut [0; 2])?;
        if sounding > 0 {
            low = frame + 1;
        } else {
            high = frame;
        }
    }
    Ok(low)
}

const BILLION: u64 = 1_000_000_000;

/// The step for so many billionths of a sample a second. Without an output rate there is none, and the library says so.
fn step(billionths: u64, rate: u64) -> u64 {
    let samples = u128::from(billionths) * 65_536;
    let step = samples
        .checked_div(u128::from(rate) * u128::from(BILLION))
        .unwrap_or(65_536);
    u64::try_from(step).unwrap_or(LARGEST_32).min(LARGEST_32)
}

/// The whole frames in so many billionths of a second.
pub fn frames(billionths: u64, rate: u64) -> u64 {
    u64::try_from(u128::from(billionths) * u128::from(rate) / u128::from(BILLION)).unwrap_or(u64::MAX)
}

/// A note's frames, block by block, with the key-up at its frame.
pub struct Blocks<'a> {
    sheet: &'a Sheet,
    note: Note,
    key_up: Option<u32>,
    to_go: u64,
    buffer: Vec<i16>,
}

impl<'a> Blocks<'a> {
    pub fn new(sheet: &'a Sheet, note: Note, frames: u64, key_up: Option<u32>, block: usize) -> Blocks<'a> {
        Blocks {
            sheet,
            note,
            key_up,
            to_go: frames,
            buffer: vec![0; 2 * block],
        }
    }

    /// The next block, left and right values by turns, and how many of its frames aren't over; none at the end. A block
    /// ends early at the key-up, since a fill is held or released as a whole.
    pub fn next(&mut self) -> Result<Option<(&[i16], u64)>, Refusal> {
        if self.to_go == 0 {
            return Ok(None);
        }
        let mut frames = self.to_go.min(self.buffer.len() as u64 / 2);
        match self.key_up.map(|u| u.saturating_sub(self.note.frames)) {
            Some(0) => self.note = self.note.key_up(),
            Some(until) => frames = frames.min(u64::from(until)),
            None => {}
        }
        let out = &mut self.buffer[..2 * frames as usize];
        let (note, sounding) = self.note.fill(self.sheet, out)?;
        self.note = note;
        self.to_go -= frames;
        Ok(Some((out, sounding)))
    }
}
