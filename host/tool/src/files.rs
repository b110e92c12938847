//! Files read and written.
use crate::failure::{plain, Failure};
use crate::words::shown;
use std::ffi::OsStr;
use std::fs::{self, File, Metadata};
use std::io::{self, BufWriter, Read, Write};
use std::os::unix::fs::MetadataExt;
use std::path::PathBuf;
use svx::{Refusal, Sheet};

/// The largest file that is read, 4 GiB: the lengths in it have 32 bits.
const LARGEST: u64 = 1 << 32;

/// The largest text that is read, 1 MiB: one that was written by hand is smaller.
const LARGEST_TEXT: u64 = 1 << 20;

/// The largest stored voice that is read or written, 8 GiB: a byte of a file becomes at most two, and only what reading
/// mends may grow more, where a voice is stored anew.
pub const LARGEST_STORED: u64 = 2 * LARGEST;

/// What a stored voice begins with.
pub const STORED: &[u8; 8] = b"8SVXDIFF";

/// A file that was read: its name for messages, and its bytes.
pub struct Input {
    pub name: String,
    pub bytes: Vec<u8>,
    /// The device and the number of the file, which tell two names of one file.
    place: (u64, u64),
}

impl Input {
    /// Reads a whole file. Of one that isn't a FORM 8SVX only the beginning, which is what the library refuses.
    pub fn read(path: &OsStr) -> Result<Input, Failure> {
        Input::read_within(path, (LARGEST, "4 GiB"), foreign)
    }

    /// Reads a whole stored voice. Of a file that doesn't begin as one only the beginning.
    pub fn read_stored(path: &OsStr) -> Result<Input, Failure> {
        Input::read_within(path, (LARGEST_STORED, "8 GiB"), |start| !start.starts_with(STORED))
    }

    /// Reads a whole text.
    pub fn read_text(path: &OsStr) -> Result<Input, Failure> {
        Input::read_within(path, (LARGEST_TEXT, "1 MiB"), |_| false)
    }

    /// Reads a whole file that isn't above a size; of one that 12 bytes are enough for only these.
    fn read_within(path: &OsStr, (largest, size): (u64, &str), enough: fn(&[u8]) -> bool) -> Result<Input, Failure> {
        let name = shown(path);
        let wrong = |e: io::Error| Failure::wrong(&name, plain(&e));
        let too_large = || Failure::wrong(&name, format!("is larger than {size}; such files aren't read"));
        let file = File::open(path).map_err(wrong)?;
        let about = file.metadata().map_err(wrong)?;
        if about.is_dir() {
            return Err(Failure::wrong(&name, "is a directory"));
        }
        if about.len() > largest {
            return Err(too_large());
        }
        let mut bytes = Vec::new();
        (&file).take(12).read_to_end(&mut bytes).map_err(wrong)?;
        if !enough(&bytes) {
            // What isn't an ordinary file has no length beforehand.
            (&file).take(largest - 11).read_to_end(&mut bytes).map_err(wrong)?;
        }
        if bytes.len() as u64 > largest {
            return Err(too_large());
        }
        Ok(Input {
            name,
            bytes,
            place: (about.dev(), about.ino()),
        })
    }

    /// The voice in its flat form.
    pub fn sheet(&self) -> Result<Sheet, Failure> {
        Sheet::read(&self.bytes).map_err(|refusal| self.refused(refusal))
    }

    pub fn refused(&self, refusal: Refusal) -> Failure {
        Failure::refused(&self.name, refusal)
    }

    /// Turns back an output that is this file, by whatever name.
    pub fn spare(&self, name: &str, about: &Metadata) -> Result<(), Failure> {
        if (about.dev(), about.ino()) == self.place {
            return Err(Failure::wrong(name, "is the file that is read; it isn't written over"));
        }
        Ok(())
    }
}

/// Whether 12 bytes are enough to refuse a file: then the rest can't change the refusal and needn't be read.
fn foreign(start: &[u8]) -> bool {
    start.len() < 12 || matches!(Sheet::read(start), Err(refusal) if refusal.number() <= 3)
}

/// Where a command writes: a file, or standard output for `-`.
pub struct Output {
    name: String,
    writer: BufWriter<Box<dyn Write>>,
    /// Whether it is standard output, which is the output itself and has room for nothing else.
    piped: bool,
    /// A file that is removed again unless the writing comes to its end.
    begun: Option<PathBuf>,
}

impl Output {
    /// Standard output, whatever the input.
    pub fn standard() -> Output {
        Output::to(io::stdout(), "standard output", true)
    }

    /// Opens the output; never the input, by whatever name.
    pub fn create(path: &OsStr, input: &Input) -> Result<Output, Failure> {
        if path == "-" {
            return Ok(Output::standard());
        }
        let name = shown(path);
        if let Ok(about) = fs::metadata(path) {
            input.spare(&name, &about)?;
        }
        let file = File::create(path).map_err(|e| Failure::wrong(&name, plain(&e)))?;
        let mut output = Output::to(file, &name, false);
        // Only an ordinary file is removed again, not a device or a link to something else.
        output.begun = fs::symlink_metadata(path)
            .is_ok_and(|about| about.is_file())
            .then(|| PathBuf::from(path));
        Ok(output)
    }

    fn to(writer: impl Write + 'static, name: &str, piped: bool) -> Output {
        let writer: Box<dyn Write> = Box::new(writer);
        Output {
            name: name.to_string(),
            writer: BufWriter::with_capacity(1 << 16, writer),
            piped,
            begun: None,
        }
    }

    pub fn write(&mut self, bytes: &[u8]) -> Result<(), Failure> {
        self.writer
            .write_all(bytes)
            .map_err(|e| Failure::writing(&self.name, &e))
    }

    /// Ends the writing, and says of a file what was written.
    pub fn finish(mut self, words: &str) -> Result<(), Failure> {
        self.writer.flush().map_err(|e| Failure::writing(&self.name, &e))?;
        self.begun = None;
        if self.piped {
            return Ok(());
        }
        say(&format!("{}: {words}\n", self.name))
    }
}

impl Drop for Output {
    fn drop(&mut self) {
        if let Some(path) = &self.begun {
            // What can't be removed stays; the failure that led here is the one to tell.
            let _ = fs::remove_file(path);
        }
    }
}

/// Writes to standard output.
pub fn say(words: &str) -> Result<(), Failure> {
    let mut out = io::stdout().lock();
    let done = out.write_all(words.as_bytes()).and_then(|()| out.flush());
    done.map_err(|e| Failure::writing("standard output", &e))
}
