//! `make`: voices drawn from numbers, one or a range of them.
use crate::args::{whole, Command, Given};
use crate::failure::{plain, Failure};
use crate::files::{say, Output};
use crate::made::Made;
use crate::place::Place;
use crate::progress::Progress;
use crate::vault;
use crate::words::{counted, grouped, shown};
use std::ffi::OsStr;
use std::fs;
use std::io::{self, ErrorKind};
use std::ops::RangeInclusive;
use std::path::Path;
use svx::Sheet;

pub const MAKE: Command = Command {
    name: "make",
    takes: "(NUMBER OUT.8svx | FIRST..LAST DIR) [--force]",
    does: "make voices from numbers, the same on every machine",
    help: "\
Makes the voice of NUMBER, a whole number from 1 to 4294967295, and writes it
to OUT.8svx (- is standard output). A number gives the same file on every
machine, so that hosts can be put under the same load, of as many voices as
needed.

FIRST..LAST makes the voices of all numbers from FIRST to LAST, each in a file
of its own in the folder DIR, which is made if it isn't there. The file's name
is the number in ten digits, as in DIR/0000000001.8svx.

  --force   write over files that are there already

Without --force nothing is written over, and if any file of a range is there
already, none is made. A file gets its name once it is complete. A range is
made file by file from FIRST on: a run that fails or is stopped leaves those
that it has made, all of them whole; only if it is killed, hidden files .svx-*
may stay beside them. They can be made again at any time, so a range doesn't
wait until each is safe from a power failure, as a single file does.

What a number gives is drawn from it. Let x be the number. A draw changes x
three times, each time kept to its lowest 32 bits, and gives what x is then:

  x becomes x xor (x shifted left by 13 bits)
  x becomes x xor (x shifted right by 17 bits)
  x becomes x xor (x shifted left by 5 bits)

The draws, one after the other, become

  channels   two if the lowest bit is 1, else one
  octaves    1 + the remainder by 4
  one-shot   the remainder by 64: how many samples of the highest octave are
             played once
  repeat     the remainder by 64: how many samples after them are repeated. If
             both are 0, one-shot becomes 1
  rate       8000 + the remainder by 40000, in samples a second
  left       every sample of the left channel, a draw each: the lowest byte, as
             a signed number; a single channel is here
  right      the same of the right channel, if there are two

A channel has one octave after the other, the highest first. That is as long as
one-shot and repeat together, and each further octave is twice as long as the
one before.

The file is a FORM 8SVX of VHDR, CHAN if there are two channels, and BODY. VHDR
has one-shot, repeat and 0 samples per cycle in 32 bits each, the rate in 16,
octaves and compression 0 in 8 each, and volume 65536 in 32, big-endian. CHAN
is 6. BODY is left and then right, and a byte 0 follows if its length is odd.",
    flags: &["--force"],
    values: &[],
    files: 2..=2,
    run: make,
};

/// What is asked for: the voice of one number, or those of a range.
enum Asked {
    One(u32),
    Range(RangeInclusive<u32>),
}

fn make(given: &Given) -> Result<u8, Failure> {
    match asked(given)? {
        Asked::One(number) => one(given, number)?,
        Asked::Range(range) => many(given, range)?,
    }
    Ok(0)
}

fn asked(given: &Given) -> Result<Asked, Failure> {
    let argument = given.file(0);
    let text = argument.to_str().unwrap_or_default();
    // 0 is a number too; it is the library that has no voice for it.
    let number = |text: &str| {
        let number = whole(text).and_then(|n| u32::try_from(n).ok());
        number.ok_or_else(|| {
            let words = "takes a whole number from 1 to 4,294,967,295, without commas, or two as FIRST..LAST";
            given.wrong(&format!("{words}; not {}", shown(argument)))
        })
    };
    let Some((first, last)) = text.split_once("..") else {
        return Ok(Asked::One(number(text)?));
    };
    let (first, last) = (number(first)?, number(last)?);
    if first > last {
        let words = format!("FIRST is above LAST in {}", shown(argument));
        return Err(given.wrong(&words));
    }
    Ok(Asked::Range(first..=last))
}

/// The voice of a number, and its file.
fn voice(number: u32) -> Result<(Sheet, Vec<u8>), Failure> {
    let refused = |refusal| Failure::refused(&grouped(u64::from(number)), refusal);
    let sheet = Sheet::drawn(number).map_err(refused)?;
    let file = sheet.write().map_err(refused)?;
    Ok((sheet, file))
}

/// Writes the voice of one number and tells of it.
fn one(given: &Given, number: u32) -> Result<(), Failure> {
    let (sheet, file) = voice(number)?;
    let (path, force, facts) = (given.file(1), given.has("--force"), facts(&sheet, &file));
    if path == "-" {
        let mut out = Output::standard();
        out.write(&file)?;
        return out.finish(&facts);
    }
    let place = Place::look(path.as_ref(), &[], force)?;
    let mut made = Made::default();
    made.write(&place, &file)?;
    made.put(force)?;
    say(&format!("{}: {facts}\n", place.name))
}

/// What is told of a voice.
fn facts(sheet: &Sheet, file: &[u8]) -> String {
    let header = sheet.header();
    format!(
        "{}, {} in {} at {} Hz",
        counted(file.len() as u64, "byte"),
        vault::channels(sheet),
        counted(u64::from(header.ct_octave), "octave"),
        grouped(u64::from(header.samples_per_sec))
    )
}

/// Writes the voices of a range into a folder and tells of them.
fn many(given: &Given, range: RangeInclusive<u32>) -> Result<(), Failure> {
    if given.file(1) == "-" {
        return Err(given.wrong("a range is several files, and standard output is one"));
    }
    // Only 0 is refused, and no number but the first can be 0.
    voice(*range.start())?;
    let (folder, force) = (Path::new(given.file(1)), given.has("--force"));
    let name = shown(folder.as_os_str());
    let is_new = make_folder(folder, &name)?;
    let stored = look(folder, &name, &range, force).and_then(|()| store_all(folder, range.clone(), force));
    if is_new && stored.is_err() {
        // If there are files in it, it stays.
        let _ = fs::remove_dir(folder);
    }
    let bytes = counted(stored?, "byte");
    let (first, last) = (u64::from(*range.start()), u64::from(*range.end()));
    let voices = counted(last - first + 1, "voice");
    let (first, last) = (grouped(first), grouped(last));
    say(&format!("{name}: {voices}, {first} to {last}; {bytes}\n"))
}

/// Makes the folder if it isn't there; whether it was made.
fn make_folder(folder: &Path, name: &str) -> Result<bool, Failure> {
    if folder.is_dir() {
        return Ok(false);
    }
    match fs::create_dir(folder) {
        Ok(()) => Ok(true),
        Err(e) if e.kind() == ErrorKind::AlreadyExists => Err(Failure::wrong(name, "isn't a directory")),
        Err(e) => Err(Failure::wrong(name, plain(&e))),
    }
}

/// Looks at what the folder has of a range, before anything is written, and tells of the lowest number whose file can't
/// be. The folder is read through once, so that this takes no longer for a range of millions.
fn look(folder: &Path, name: &str, range: &RangeInclusive<u32>, force: bool) -> Result<(), Failure> {
    let wrong = |e: io::Error| Failure::wrong(name, plain(&e));
    let (mut lowest, mut answer) = (*range.end(), Ok(()));
    for entry in fs::read_dir(folder).map_err(wrong)? {
        let number = number_of(&entry.map_err(wrong)?.file_name());
        let Some(number) = number.filter(|n| (*range.start()..=lowest).contains(n)) else {
            continue;
        };
        if let Err(failure) = place(folder, number, force) {
            (lowest, answer) = (number, Err(failure));
        }
    }
    answer
}

/// The name of a number's file: the same in every range, and in a list by names the numbers are in their order.
fn file_name(number: u32) -> String {
    format!("{number:010}.8svx")
}

/// The number whose file has a name.
fn number_of(name: &OsStr) -> Option<u32> {
    let digits = name.to_str()?.strip_suffix(".8svx")?;
    let number = u32::try_from(whole(digits)?).ok()?;
    (digits.len() == 10).then_some(number)
}

/// Where the file of a number goes. A link isn't followed, as two names could lead to one file, of which only the later
/// number's voice would be left.
fn place(folder: &Path, number: u32, force: bool) -> Result<Place, Failure> {
    let path = folder.join(file_name(number));
    let about = fs::symlink_metadata(&path);
    if about.is_ok_and(|about| !about.is_file() && !about.is_dir()) {
        return Err(Failure::wrong(&shown(path.as_os_str()), "isn't an ordinary file"));
    }
    Place::look(&path, &[], force)
}

/// Writes the voices of a range one by one, so that the memory doesn't grow with it; how many bytes they have.
fn store_all(folder: &Path, range: RangeInclusive<u32>, force: bool) -> Result<u64, Failure> {
    let last = *range.end();
    let mut progress = Progress::of(u64::from(last - range.start()) + 1);
    let mut bytes = 0;
    for number in range {
        bytes += store(folder, number, force, number == last)?;
        progress.step();
    }
    Ok(bytes)
}

/// Writes the voice of a number to its file; how many bytes it has.
///
/// A sync of every file would take most of the time. These can be made again at any time, so that they needn't be safe
/// from a power failure as soon as they are written. The last one of a range is synced all the same: some systems tell
/// only then that there was no room.
fn store(folder: &Path, number: u32, force: bool, last: bool) -> Result<u64, Failure> {
    let (_, file) = voice(number)?;
    let place = place(folder, number, force)?;
    let mut made = Made::default();
    let mut begun = made.begin(&place)?;
    begun.write(&file)?;
    if last {
        begun.complete()?;
    } else {
        begun.end()?;
    }
    made.put(force)?;
    Ok(file.len() as u64)
}
