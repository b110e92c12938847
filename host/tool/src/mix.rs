//! `mix`: a score as a WAV file.
use crate::args::{Command, Given};
use crate::failure::Failure;
use crate::files::{say, Input, Output};
use crate::made::Made;
use crate::notes::{self, LARGEST_32};
use crate::place::Place;
use crate::score::{Score, Tuning};
use crate::stereo::{self, Wav};
use crate::words::grouped;
use svx::{Entry, Note, Refusal, Sheet};

pub const MIX: Command = Command {
    name: "mix",
    takes: "FILE SCORE OUT.wav [--rate N] [--seconds S] [--force]",
    does: "write a score of up to 16 notes as a 16-bit stereo WAV file",
    help: "\
Plays the notes of the text SCORE on the voice FILE, all of them together, and
writes the mix to OUT.wav (- is standard output) in 16 bits, left and right. A
note is a line of five words, and the notes are in the order of their starts:

  START      when it begins: a frame, or seconds such as 1.5s
  KEY-UP     when the key is let go: the same
  OCTAVE     which octave plays; 0 is the highest
  STEP       samples a frame times 65536: 65536 is one sample a frame; or a note
             such as C4, F#3 or Bb2, for a voice that tells its samples per cycle
             (A4 is 440 Hz; C-4 is C4)
  VELOCITY   how hard the key is struck, 1 to 127

Lines without words are skipped, and so is what follows a # that begins a word.

  --rate N      frames a second of the output; 44100 if not given
  --seconds S   the length in seconds; if not given, until no note sounds any more
  --force       write over a file that is there already

A mix that sounds for more than ten minutes is written only with --seconds. Without
--force nothing is written over, and FILE and SCORE never are. The file gets its name
once it is complete, and if anything fails, all is left as it was; only a run that
is killed may leave a hidden file .svx-* behind.",
    flags: &["--force"],
    values: &["--rate", "--seconds"],
    files: 3..=3,
    run: mix,
};

/// How long a mix may be whose length isn't given, in seconds.
const MOST_SECONDS: u64 = 600;

/// How many frames are mixed at once. The sound is the same with any.
const BLOCK: usize = 4_096;

/// A mix that the library has judged, and its length.
struct Mix<'a> {
    sheet: &'a Sheet,
    score: &'a [Entry],
    rate: u32,
    frames: u64,
}

fn mix(given: &Given) -> Result<u8, Failure> {
    let rate = given.number("--rate", 0..=LARGEST_32)?.unwrap_or(44_100) as u32;
    let seconds = given.billionths("--seconds")?;
    let input = Input::read(given.file(0))?;
    let sheet = input.sheet()?;
    let cycle = sheet.voice().header.samples_per_hi_cycle;
    let score = Score::read(given.file(1), &Tuning { rate, cycle })?;
    score.judge(&input, &sheet, rate)?;
    let frames = match seconds {
        Some(seconds) => notes::frames(seconds, u64::from(rate)),
        None => end(&score.entries, rate, &sheet).map_err(|refusal| input.refused(refusal))?,
    };
    if seconds.is_none() && frames > MOST_SECONDS * u64::from(rate) {
        let words = "frames are more than ten minutes; by --seconds ask for a length";
        return Err(given.wrong(&format!("{} {words}", grouped(frames))));
    }
    stereo::judge_length(given, frames, "--seconds")?;
    let mix = Mix {
        sheet: &sheet,
        score: &score.entries,
        rate,
        frames,
    };
    mix.write(given, &input, &score.input)?;
    Ok(0)
}

/// The frame from which no entry sounds any more. One that never sounds doesn't count, however late it starts.
fn end(score: &[Entry], rate: u32, sheet: &Sheet) -> Result<u64, Refusal> {
    let mut end = 0;
    for entry in score {
        let note = Note::start(entry.octave, entry.step, rate, entry.velocity);
        let sounds = notes::end(note, Some(entry.key_up - entry.start), sheet)?;
        // From the last frame on all is silent.
        let heard = sounds.min(u32::MAX - entry.start);
        if heard > 0 {
            end = end.max(u64::from(entry.start + heard));
        }
    }
    Ok(end)
}

impl Mix<'_> {
    /// Writes the WAV file and tells of it.
    fn write(&self, given: &Given, input: &Input, score: &Input) -> Result<(), Failure> {
        let (path, force) = (given.file(2), given.has("--force"));
        let facts = stereo::facts(self.frames, self.rate);
        if path == "-" {
            let mut out = Output::create(path, input)?;
            self.play(input, |bytes| out.write(bytes))?;
            return out.finish(&facts);
        }
        let place = Place::look(path.as_ref(), &[input, score], force)?;
        let mut made = Made::default();
        let mut file = made.begin(&place)?;
        self.play(input, |bytes| file.write(bytes))?;
        file.complete()?;
        made.put(force)?;
        say(&format!("{}: {facts}\n", place.name))
    }

    /// Plays the mix block by block, each from the place that the one before it came to.
    fn play(&self, input: &Input, put: impl FnMut(&[u8]) -> Result<(), Failure>) -> Result<(), Failure> {
        let mut wav = Wav::begin(self.rate, self.frames, put)?;
        let (mut place, mut to_go) = (0, self.frames);
        let mut buffer = vec![0; 2 * BLOCK];
        while to_go > 0 {
            let frames = to_go.min(BLOCK as u64);
            let out = &mut buffer[..2 * frames as usize];
            place =
                svx::mix(self.score, self.rate, place, self.sheet, out).map_err(|refusal| input.refused(refusal))?;
            wav.add(out)?;
            to_go -= frames;
        }
        wav.end();
        Ok(())
    }
}
