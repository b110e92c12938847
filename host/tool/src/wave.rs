//! `wave`: octaves of a voice as WAV files.
use crate::args::{Command, Given};
use crate::failure::Failure;
use crate::files::{say, Input, Output};
use crate::made::Made;
use crate::place;
use crate::words::{counted, grouped, lasting};
use std::ffi::OsStr;
use std::path::{Path, PathBuf};
use svx::{Refusal, Sheet};

pub const WAVE: Command = Command {
    name: "wave",
    takes: "FILE OUT.wav [--octave K | --all] [--force]",
    does: "write octaves as 8-bit WAV files at the voice's own rate",
    help: "\
Writes the samples of one octave of the voice FILE to OUT.wav (- is standard
output) in 8 bits, at the voice's own rate, one channel or left and right. They
are written once, as they are: loop, envelopes, volume and pan don't count.

  --octave K   which octave; 0, the highest, if not given
  --all        every octave, each to a file of its own: OUT-0.wav, OUT-1.wav, ..
  --force      write over files that are there already

Without --force nothing is written over, and FILE never is. A file gets its name
once all are complete, and if anything fails, all is left as it was; only a run
that is killed may leave hidden files .svx-* behind.",
    flags: &["--all", "--force"],
    values: &["--octave"],
    files: 2..=2,
    run: wave,
};

/// The rule that turns back an octave that the voice hasn't.
const NO_SUCH_OCTAVE: u32 = 31;

fn wave(given: &Given) -> Result<u8, Failure> {
    given.one_of("--octave", "--all")?;
    let octave = given.number("--octave", 0..=255)?.unwrap_or(0) as u8;
    let (out, all) = (given.file(1), given.has("--all"));
    if all && out == "-" {
        return Err(given.wrong("--all writes several files, and standard output is one"));
    }
    let input = Input::read(given.file(0))?;
    let sheet = input.sheet()?;
    let octaves = if all { every(&sheet) } else { one(&sheet, octave) };
    let octaves = octaves.map_err(|refusal| input.refused(refusal))?;
    if out == "-" {
        let file = sheet.octave_wave(octave).map_err(|refusal| input.refused(refusal))?;
        let mut output = Output::create(out, &input)?;
        output.write(&file)?;
        output.finish(&facts(&file))?;
        return Ok(0);
    }
    let name = |octave: &u8| if all { numbered(out, *octave) } else { out.into() };
    let paths: Vec<PathBuf> = octaves.iter().map(name).collect();
    write(&input, &sheet, &octaves, &paths, given.has("--force"))?;
    Ok(0)
}

/// One octave, judged before anything is written.
fn one(sheet: &Sheet, octave: u8) -> Result<Vec<u8>, Refusal> {
    sheet.octave_wave_length(octave).map(|_| vec![octave])
}

/// Every octave that the voice has, each judged before anything is written.
fn every(sheet: &Sheet) -> Result<Vec<u8>, Refusal> {
    let mut octaves = Vec::new();
    for octave in 0..=u8::MAX {
        match sheet.octave_wave_length(octave) {
            Ok(_) => octaves.push(octave),
            Err(refusal) if refusal.number() == NO_SUCH_OCTAVE => break,
            Err(refusal) => return Err(refusal),
        }
    }
    Ok(octaves)
}

/// The name of an octave's file: its number goes before the extension, or at the end where there is none.
fn numbered(out: &OsStr, octave: u8) -> PathBuf {
    // A folder's name gets no number; it is turned back when it is looked at.
    let Some((folder, name)) = place::split(out) else {
        return out.into();
    };
    let name = Path::new(name);
    let mut numbered = name.file_stem().unwrap_or_default().to_os_string();
    numbered.push(format!("-{octave}"));
    if let Some(extension) = name.extension() {
        numbered.push(".");
        numbered.push(extension);
    }
    Path::new(folder).join(numbered)
}

/// Writes the octaves to their files and tells of each.
fn write(input: &Input, sheet: &Sheet, octaves: &[u8], paths: &[PathBuf], force: bool) -> Result<(), Failure> {
    let places = place::look(paths, &[input], force)?;
    let (mut made, mut words) = (Made::default(), String::new());
    for (octave, place) in octaves.iter().zip(&places) {
        // One at a time, since all together may be too much for the memory.
        let file = sheet.octave_wave(*octave).map_err(|refusal| input.refused(refusal))?;
        match made.write(place, &file) {
            Ok(()) => words += &format!("{}: {}\n", place.name, facts(&file)),
            // The reader of one octave went away; the others are still to be written.
            Err(Failure::Unread) => {}
            Err(failure) => return Err(failure),
        }
    }
    made.put(force)?;
    say(&words)
}

/// What is told of a WAV file, by its own header.
fn facts(file: &[u8]) -> String {
    let number = |at: usize| {
        let bytes = file.get(at..).and_then(|bytes| bytes.first_chunk());
        bytes.map_or(0, |bytes| u32::from_le_bytes(*bytes))
    };
    let (channels, rate, data) = (number(22) & 0xFFFF, number(24), number(40));
    let frames = u64::from(data / channels.max(1));
    let lasts = lasting(frames, rate).unwrap_or_default();
    let kind = if channels == 2 { "stereo" } else { "mono" };
    format!(
        "{} at {} Hz, {lasts}, {kind}",
        counted(frames, "frame"),
        grouped(u64::from(rate))
    )
}
