//! `raw` and `rewrite`: a voice's samples alone, and a voice written again.
use crate::args::{Command, Given};
use crate::failure::Failure;
use crate::files::{Input, Output};
use crate::words::counted;

pub const RAW: Command = Command {
    name: "raw",
    takes: "FILE OUT",
    does: "write the samples alone, as signed bytes",
    help: "\
Writes the samples of the voice FILE to OUT (- is standard output) as signed
bytes, all octaves, the highest first; of two channels left and right by turns.",
    flags: &[],
    values: &[],
    files: 2..=2,
    run: raw,
};

pub const REWRITE: Command = Command {
    name: "rewrite",
    takes: "FILE OUT [--fibonacci | --raw]",
    does: "read a voice and write it again, compressed or not",
    help: "\
Reads the voice FILE and writes it to OUT (- is standard output), compressed as
it was unless an option says otherwise. What isn't part of a voice is left out.

  --fibonacci   compressed to half the size; the samples come back changed
  --raw         not compressed",
    flags: &["--fibonacci", "--raw"],
    values: &[],
    files: 2..=2,
    run: rewrite,
};

fn raw(given: &Given) -> Result<u8, Failure> {
    let input = Input::read(given.file(0))?;
    let sheet = input.sheet()?;
    let (left, right) = (sheet.left(), sheet.right());
    let mut out = Output::create(given.file(1), &input)?;
    if right.is_empty() {
        for part in left.chunks(PIECE) {
            let bytes: Vec<u8> = part.iter().map(|s| *s as u8).collect();
            out.write(&bytes)?;
        }
    }
    for (left, right) in left.chunks(PIECE).zip(right.chunks(PIECE)) {
        let pairs = left.iter().zip(right);
        let bytes: Vec<u8> = pairs.flat_map(|(l, r)| [*l as u8, *r as u8]).collect();
        out.write(&bytes)?;
    }
    out.finish(&counted((left.len() + right.len()) as u64, "byte"))?;
    Ok(0)
}

/// How many samples of a side are turned to bytes at once.
const PIECE: usize = 1 << 16;

fn rewrite(given: &Given) -> Result<u8, Failure> {
    given.one_of("--fibonacci", "--raw")?;
    let input = Input::read(given.file(0))?;
    let mut voice = input.sheet()?.voice();
    if given.has("--fibonacci") {
        voice.header.compression_byte = 1;
    } else if given.has("--raw") {
        voice.header.compression_byte = 0;
    }
    let file = svx::encode_voice(&voice).map_err(|refusal| input.refused(refusal))?;
    let mut out = Output::create(given.file(1), &input)?;
    out.write(&file)?;
    let kind = if voice.header.compression_byte == 0 {
        "not compressed"
    } else {
        "Fibonacci-delta"
    };
    out.finish(&format!("{}, {kind}", counted(file.len() as u64, "byte")))?;
    Ok(0)
}
