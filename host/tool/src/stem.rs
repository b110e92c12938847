//! `stem`: a note as a WAV file.
use crate::args::{Command, Given};
use crate::failure::Failure;
use crate::files::{Input, Output};
use crate::notes::{self, Asked, Blocks};
use crate::stereo::{self, Wav};
use svx::Sheet;

pub const STEM: Command = Command {
    name: "stem",
    takes: "FILE OUT.wav [OPTIONS]",
    does: "write a note as a 16-bit stereo WAV file",
    help: "\
Plays one note of the voice FILE and writes it to OUT.wav (- is standard output)
in 16 bits, left and right.

  {note}
  --block N            frames a fill, up to 1048576; 4096 if not given. The sound
                       is the same with any

Without a length the note is written until it is over; a loop that is held never
is, and gets 10 seconds.",
    flags: &[],
    values: &notes::OPTIONS,
    files: 2..=2,
    run: stem,
};

/// How long a held loop is written unless a length is given, in seconds.
const LOOP_SECONDS: u64 = 10;

fn stem(given: &Given) -> Result<u8, Failure> {
    let input = Input::read(given.file(0))?;
    let sheet = input.sheet()?;
    let voice = sheet.voice();
    let asked = Asked::of(given, &input, voice.header.samples_per_sec)?;
    asked.judge(&sheet).map_err(|refusal| input.refused(refusal))?;
    let held_loop = voice.header.has_loop() && voice.seqn.is_none() && asked.key_up.is_none();
    let frames = match asked.frames {
        Some(frames) => frames,
        None if held_loop => LOOP_SECONDS * u64::from(asked.note.rate),
        None => u64::from(notes::end(asked.note, asked.key_up, &sheet).map_err(|refusal| input.refused(refusal))?),
    };
    drop(voice);
    stereo::judge_length(given, frames, "--frames or --seconds")?;
    write(given, &input, &sheet, &asked, frames)?;
    Ok(0)
}

/// Writes the WAV file, block by block.
fn write(given: &Given, input: &Input, sheet: &Sheet, asked: &Asked, frames: u64) -> Result<(), Failure> {
    let mut blocks = Blocks::new(sheet, asked.note, frames, asked.key_up, asked.block.unwrap_or(4_096));
    let mut out = Output::create(given.file(1), input)?;
    let mut wav = Wav::begin(asked.note.rate, frames, |bytes| out.write(bytes))?;
    while let Some((values, _)) = blocks.next().map_err(|refusal| input.refused(refusal))? {
        wav.add(values)?;
    }
    wav.end();
    out.finish(&stereo::facts(frames, asked.note.rate))
}
