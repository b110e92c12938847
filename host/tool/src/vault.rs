//! `vault`: a voice stored in difference order, and its file given back.
use crate::args::{Command, Given};
use crate::failure::Failure;
use crate::files::{say, Input, Output, LARGEST_STORED, STORED};
use crate::made::Made;
use crate::place::Place;
use crate::words::{counted, grouped};
use svx::{Refusal, Sheet, VoiceHeader};

pub const VAULT: Command = Command {
    name: "vault",
    takes: "FILE OUT [--restore | --anew] [--force]",
    does: "store a voice in difference order, or give its file back",
    help: "\
Stores the voice FILE in OUT (- is standard output), with its samples in
difference order. With --restore FILE is what was stored, and OUT becomes the
voice's own file again, byte for byte the same.

  --restore   give back what was stored
  --anew      store a voice though its file wouldn't come back the same, since
              it has more in it or has it in another form: what comes back is
              the voice written anew, as rewrite writes it. If this isn't
              given, such a file isn't stored
  --force     write over a file that is there already

Without --force nothing is written over, and FILE never is. The file gets its
name once it is complete, and if anything fails, all is left as it was; only a
run that is killed may leave a hidden file .svx-* behind.

What is stored has these parts, and nothing after them:

  magic     the eight bytes 8SVXDIFF
  lengths   of the sheet, of left and of right, in bytes: three numbers of 64
            bits, big-endian
  sheet     all of the voice but the samples
  left      the left channel in difference order; a single channel is here
  right     the right channel in difference order; of a single channel nothing

Difference order has a signed byte for each sample, octave by octave, the
highest first: an octave's first sample as it is, then each sample less the one
before, modulo 256; and of these values those at even places, counted from 0,
before those at odd places. By VHDR the highest octave is as long as one-shot
and repeat part together, each further one is twice as long as the one before,
and 0 octaves count as 1; if both parts are 0, all samples are one octave.

The sheet is made of records. Each is a byte for its kind and then what the
file has of it, in so many bytes; they are in this order:

   1  VHDR (20)                 7  a SEQN begins (0)
   2  CHAN, its last byte (1)   8  a segment of it (8)
   3  PAN (4)                   9  FADE (4)
   4  an ATAK begins (0)       10  a text begins, by its chunk (1): 1 NAME,
   5  an RLSE begins (0)           2 AUTH, 3 ANNO, 4 (c), 5 CHRS
   6  a point of either (6)    11  a byte of the text (1)",
    flags: &["--restore", "--anew", "--force"],
    values: &[],
    files: 2..=2,
    run: vault,
};

/// What is said of a file that writing its voice again doesn't give.
const ANOTHER: &str = "what comes back wouldn't be this file byte for byte; --anew stores the voice all the same";

/// How many bytes a stored voice has before its sheet.
const START: usize = STORED.len() + 3 * 8;

/// The second record of a sheet, where the voice has two channels: CHAN, which is 6.
const TWO_CHANNELS: (u8, &[u8]) = (2, &[6]);

fn vault(given: &Given) -> Result<u8, Failure> {
    given.one_of("--restore", "--anew")?;
    if given.has("--restore") {
        restore(given)?;
    } else {
        store(given)?;
    }
    Ok(0)
}

fn store(given: &Given) -> Result<(), Failure> {
    let mut input = Input::read(given.file(0))?;
    let sheet = input.sheet()?;
    let mut facts = channels(&sheet);
    if !comes_back(&input, &sheet)? {
        if !given.has("--anew") {
            return Err(Failure::wrong(&input.name, ANOTHER));
        }
        facts += "; the voice will be written anew";
    }
    // From here on the sheet is enough.
    input.bytes = Vec::new();
    let header = sheet.header();
    let (sheet, left, right) = sheet.into_parts();
    let side = |samples| ordered(&header, samples).map_err(|refusal| input.refused(refusal));
    let (left, right) = (side(left)?, side(right)?);
    let start = start([&sheet, &left, &right]);
    write(given, &input, &[&start, &sheet, &left, &right], &facts)
}

/// Whether writing a voice again gives the file that it was read from, as restoring does.
fn comes_back(input: &Input, sheet: &Sheet) -> Result<bool, Failure> {
    let again = sheet.write().map_err(|refusal| input.refused(refusal))?;
    Ok(again == input.bytes)
}

/// What a stored voice has before its sheet, which tells how long its parts are.
fn start(parts: [&[u8]; 3]) -> Vec<u8> {
    let lengths = parts.map(|part| (part.len() as u64).to_be_bytes());
    [&STORED[..], lengths.as_flattened()].concat()
}

fn restore(given: &Given) -> Result<(), Failure> {
    let mut input = Input::read_stored(given.file(0))?;
    let stored = stored(&mut input)?;
    let refused = |refusal| input.refused(refusal);
    let header = stored.header();
    let (sheet, left, right) = stored.into_parts();
    let side = |values| restored(&header, values).map_err(refused);
    let (left, right) = (side(left)?, side(right)?);
    let sheet = Sheet::from_parts(sheet, left, right).map_err(refused)?;
    let file = sheet.write().map_err(refused)?;
    write(given, &input, &[&file], &channels(&sheet))
}

/// A side in difference order. Of one channel the right side has no samples, and no octaves either.
fn ordered(header: &VoiceHeader, samples: Vec<i8>) -> Result<Vec<u8>, Refusal> {
    if samples.is_empty() {
        return Ok(Vec::new());
    }
    let values = svx::difference_order(header, &samples)?;
    Ok(values.into_iter().map(|value| value as u8).collect())
}

/// The way back.
fn restored(header: &VoiceHeader, values: Vec<i8>) -> Result<Vec<i8>, Refusal> {
    if values.is_empty() {
        return Ok(Vec::new());
    }
    svx::difference_restore(header, &values)
}

/// A stored voice, with its values where the samples would be. They are as many, so that the sheet and the lengths are
/// judged before anything is restored.
fn stored(input: &mut Input) -> Result<Sheet, Failure> {
    let [sheet, left, right] = parts(input)?;
    let values = |side: &[u8]| side.iter().map(|byte| *byte as i8).collect();
    let (sheet, left, right) = (sheet.to_vec(), values(left), values(right));
    // Now they are held twice.
    input.bytes = Vec::new();
    Sheet::from_parts(sheet, left, right).map_err(|refusal| input.refused(refusal))
}

/// The sheet and both sides of a stored file, cut as its lengths say.
fn parts(input: &Input) -> Result<[&[u8]; 3], Failure> {
    let wrong = |words: &str| Err(Failure::wrong(&input.name, words));
    let Some(rest) = input.bytes.strip_prefix(STORED) else {
        return wrong("isn't a stored voice, which begins with 8SVXDIFF");
    };
    let has = counted(input.bytes.len() as u64, "byte");
    let Some((lengths, rest)) = rest.split_first_chunk::<24>() else {
        return wrong(&format!("has {has}, but a stored voice has at least {START}"));
    };
    let length = |i: usize| {
        let bytes = lengths.iter().skip(8 * i).take(8);
        bytes.fold(0u64, |number, byte| number << 8 | u64::from(*byte))
    };
    let [sheet, left, right] = [0, 1, 2].map(length);
    let Some(total) = [sheet, left, right]
        .into_iter()
        .try_fold(START as u64, u64::checked_add)
    else {
        return wrong("the lengths in it are together more than 64 bits can count");
    };
    if total != input.bytes.len() as u64 {
        let total = grouped(total);
        return wrong(&format!("has {has}, but by the lengths in it should have {total}"));
    }
    // They make up the rest, so both cuts are within it.
    let (sheet, sides) = rest.split_at(sheet as usize);
    let (left, right) = sides.split_at(left as usize);
    Ok([sheet, left, right])
}

/// How many channels a voice has, and how long they are.
pub fn channels(sheet: &Sheet) -> String {
    let two = sheet.records().nth(1) == Some(TWO_CHANNELS);
    let samples = counted(sheet.left().len() as u64, "sample");
    format!("{} of {samples}", counted(if two { 2 } else { 1 }, "channel"))
}

/// Writes the parts of a file one after the other and tells of it.
fn write(given: &Given, input: &Input, parts: &[&[u8]], facts: &str) -> Result<(), Failure> {
    let (path, force) = (given.file(1), given.has("--force"));
    let length: u64 = parts.iter().map(|part| part.len() as u64).sum();
    // Only what is stored anew may be so long, since reading may mend a text to three times its length.
    if length > LARGEST_STORED {
        let words = "what would be written is larger than 8 GiB; such files aren't read";
        return Err(Failure::wrong(&input.name, words));
    }
    let facts = format!("{}, {facts}", counted(length, "byte"));
    if path == "-" {
        let mut out = Output::create(path, input)?;
        parts.iter().try_for_each(|part| out.write(part))?;
        return out.finish(&facts);
    }
    let place = Place::look(path.as_ref(), &[input], force)?;
    let mut made = Made::default();
    let mut file = made.begin(&place)?;
    parts.iter().try_for_each(|part| file.write(part))?;
    file.complete()?;
    made.put(force)?;
    say(&format!("{}: {facts}\n", place.name))
}
