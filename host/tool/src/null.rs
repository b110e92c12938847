//! `null`: the same note in blocks of several lengths, subtracted from each other.
use crate::args::{Command, Given};
use crate::failure::Failure;
use crate::files::{say, Input};
use crate::notes::{self, Asked, Blocks};
use crate::stereo::LONGEST;
use crate::words::{counted, grouped};
use svx::{Note, Refusal, Sheet};

pub const NULL: Command = Command {
    name: "null",
    takes: "FILE [OPTIONS]",
    does: "print a note in blocks of several lengths and subtract the stems",
    help: "\
Plays the same note of the voice FILE in blocks of 1, 7, 64, 1,000 and 4,096
frames, with a key-up on the way, and subtracts each from the first. Says how many
frames differ; the status is 1 if any does.

  {note}
  --block N            one more length of blocks, up to 1048576

Without a length the note has one second; without a key-up the key is let go at
half.",
    flags: &[],
    values: &notes::OPTIONS,
    files: 1..=1,
    run: null,
};

const BLOCKS: [usize; 5] = [1, 7, 64, 1_000, 4_096];

/// One note, to be put out in blocks of any length.
struct Stem<'a> {
    sheet: &'a Sheet,
    note: Note,
    frames: u64,
    key_up: u32,
}

fn null(given: &Given) -> Result<u8, Failure> {
    let input = Input::read(given.file(0))?;
    let sheet = input.sheet()?;
    let asked = Asked::of(given, &input, sheet.voice().header.samples_per_sec)?;
    asked.judge(&sheet).map_err(|refusal| input.refused(refusal))?;
    let frames = asked.frames.unwrap_or(u64::from(asked.note.rate));
    let mut first = Vec::new();
    if frames > LONGEST || first.try_reserve_exact(2 * frames as usize).is_err() {
        return Err(given.wrong("so many frames don't fit into the memory"));
    }
    let key_up = asked.key_up.unwrap_or((frames / 2) as u32);
    let stem = Stem {
        sheet: &sheet,
        note: asked.note,
        frames,
        key_up,
    };
    let sounding = stem
        .print(BLOCKS[0], &mut first)
        .map_err(|refusal| input.refused(refusal))?;
    say(&format!(
        "blocks of 1: {}, {} sounding\n",
        counted(frames, "frame"),
        grouped(sounding)
    ))?;
    let mut status = 0;
    for block in BLOCKS[1..].iter().copied().chain(asked.block) {
        let (differ, sounds) = stem.subtract(block, &first).map_err(|refusal| input.refused(refusal))?;
        let verb = if differ == 1 { "differs" } else { "differ" };
        let (length, frames) = (grouped(block as u64), counted(differ, "frame"));
        say(&format!(
            "blocks of {length}: {frames} {verb}, {} sounding\n",
            grouped(sounds)
        ))?;
        status = status.max(u8::from(differ > 0 || sounds != sounding));
    }
    Ok(status)
}

impl Stem<'_> {
    fn blocks(&self, block: usize) -> Blocks<'_> {
        Blocks::new(self.sheet, self.note, self.frames, Some(self.key_up), block)
    }

    /// Puts out the whole note. How many of its frames aren't over.
    fn print(&self, block: usize, stem: &mut Vec<i16>) -> Result<u64, Refusal> {
        let (mut blocks, mut sounding) = (self.blocks(block), 0);
        while let Some((values, sounds)) = blocks.next()? {
            stem.extend_from_slice(values);
            sounding += sounds;
        }
        Ok(sounding)
    }

    /// Puts out the note again and subtracts it from the first stem. How many frames differ, and how many aren't over.
    fn subtract(&self, block: usize, first: &[i16]) -> Result<(u64, u64), Refusal> {
        let (mut blocks, mut differ, mut sounding, mut place) = (self.blocks(block), 0, 0, 0);
        while let Some((values, sounds)) = blocks.next()? {
            let other = &first[place..place + values.len()];
            let pairs = values.chunks_exact(2).zip(other.chunks_exact(2));
            differ += pairs
                .filter(|(a, b)| a.iter().zip(*b).any(|(a, b)| i32::from(*a) - i32::from(*b) != 0))
                .count() as u64;
            sounding += sounds;
            place += values.len();
        }
        Ok((differ, sounding))
    }
}
