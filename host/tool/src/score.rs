//! A score: a text with one note a line.
use crate::args::{billionths, whole};
use crate::failure::Failure;
use crate::files::Input;
use crate::notes::{frames, LARGEST_32};
use crate::words::{counted, grouped};
use std::ffi::OsStr;
use svx::{Entry, Sheet};

/// The highest step that the library takes.
const HIGHEST_STEP: f64 = 16_777_216.0;

/// What notes are written for: the frames a second of the output, and the voice's samples per cycle in octave 0.
pub struct Tuning {
    pub rate: u32,
    pub cycle: u32,
}

/// A score that was read, and in which line each of its entries is.
pub struct Score {
    pub input: Input,
    pub entries: Vec<Entry>,
    lines: Vec<usize>,
}

impl Score {
    pub fn read(path: &OsStr, tuning: &Tuning) -> Result<Score, Failure> {
        let input = Input::read_text(path)?;
        let (mut entries, mut lines) = (Vec::new(), Vec::new());
        // Comments may be in any coding; what isn't UTF-8 elsewhere is no number and no note.
        for (number, line) in (1..).zip(String::from_utf8_lossy(&input.bytes).lines()) {
            let words = words(line);
            if !words.is_empty() {
                let entry = entry(&words, tuning);
                entries.push(entry.map_err(|why| Failure::wrong(&in_line(&input, number), why))?);
                lines.push(number);
            }
        }
        if entries.is_empty() {
            return Err(Failure::wrong(
                &input.name,
                "there is no note in it (svx mix --help tells how it is written)",
            ));
        }
        Ok(Score { input, entries, lines })
    }

    /// Has the library judge the score before anything is written: what turns back one block turns back all.
    pub fn judge(&self, voice: &Input, sheet: &Sheet, rate: u32) -> Result<(), Failure> {
        let judge = |count: usize| svx::mix(&self.entries[..count], rate, 0, sheet, &mut []).err();
        let Some(refusal) = judge(self.entries.len()) else {
            return Ok(());
        };
        let what = match refusal.number() {
            24 | 31 | 32 | 44 | 45 | 47 => {
                // The library answers a number alone. The shortest beginning that has it too ends with the entry to blame.
                let blamed = (1..).zip(&self.lines).find(|(count, _)| judge(*count) == Some(refusal));
                blamed.map(|(_, line)| in_line(&self.input, *line))
            }
            46 => Some(self.input.name.clone()),
            // The voice's own, and the output rate, which is no entry's.
            _ => None,
        };
        Err(Failure::refused(what.as_ref().unwrap_or(&voice.name), refusal))
    }
}

/// A line of a score, for messages.
fn in_line(input: &Input, number: usize) -> String {
    format!("{} line {number}", input.name)
}

/// The words of a line before its comment. That begins with a # at the front of a word: inside a word, as in F#3, it is a
/// sharp.
fn words(line: &str) -> Vec<&str> {
    // Some editors put a mark in front of a text.
    let line = line.trim_start_matches('\u{FEFF}');
    line.split_whitespace()
        .take_while(|word| !word.starts_with('#'))
        .collect()
}

/// The entry of a line, or what is wrong with it.
fn entry(words: &[&str], tuning: &Tuning) -> Result<Entry, String> {
    let [start, key_up, octave, pitch, velocity] = words else {
        let count = counted(words.len() as u64, "word");
        return Err(format!("{count}, not the five START KEY-UP OCTAVE STEP VELOCITY"));
    };
    let (start, key_up) = (frame("START", start, tuning)?, frame("KEY-UP", key_up, tuning)?);
    let octave = byte("OCTAVE", octave)?;
    Ok(Entry {
        start,
        key_up,
        step: step(pitch, octave, tuning)?,
        octave,
        velocity: byte("VELOCITY", velocity)?,
    })
}

fn byte(name: &str, word: &str) -> Result<u8, String> {
    let number = whole(word).and_then(|n| u8::try_from(n).ok());
    number.ok_or_else(|| format!("{name} takes a whole number from 0 to 255"))
}

/// A frame, or the seconds until it.
fn frame(name: &str, word: &str, tuning: &Tuning) -> Result<u32, String> {
    let frame = match word.strip_suffix('s') {
        Some(seconds) => billionths(seconds).map(|s| frames(s, u64::from(tuning.rate))),
        None => whole(word),
    };
    frame.and_then(|f| u32::try_from(f).ok()).ok_or_else(|| {
        let most = grouped(LARGEST_32);
        format!("{name} takes a frame from 0 to {most}, without commas, or as many seconds, such as 1.5s")
    })
}

/// A step, or the note that it is for.
fn step(word: &str, octave: u8, tuning: &Tuning) -> Result<u32, String> {
    if let Some(semitones) = semitones(word) {
        return step_of_note(word, semitones, octave, tuning);
    }
    let number = whole(word).and_then(|n| u32::try_from(n).ok());
    number.ok_or_else(|| {
        let most = grouped(LARGEST_32);
        format!("STEP takes a whole number from 0 to {most}, without commas, or a note such as C4, F#3 or Bb2")
    })
}

/// How many semitones a note is above A4. None where the word is no note: a letter, perhaps a #, a b or a - (which says
/// nothing), and the digit of its octave.
fn semitones(word: &str) -> Option<i32> {
    let (letter, rest) = word.split_at_checked(1)?;
    let from_c = match letter.to_ascii_uppercase().as_str() {
        "C" => 0,
        "D" => 2,
        "E" => 4,
        "F" => 5,
        "G" => 7,
        "A" => 9,
        "B" => 11,
        _ => return None,
    };
    let (sign, octave) = match rest.split_at_checked(1)? {
        ("#", octave) => (1, octave),
        ("b", octave) => (-1, octave),
        ("-", octave) => (0, octave),
        _ => (0, rest),
    };
    let &[digit @ b'0'..=b'9'] = octave.as_bytes() else {
        return None;
    };
    Some(from_c + sign - 9 + 12 * (i32::from(digit - b'0') - 4))
}

/// The step at which an octave of the voice sounds as a note, in equal temperament, where A4 has 440 Hz.
fn step_of_note(note: &str, semitones: i32, octave: u8, tuning: &Tuning) -> Result<u32, String> {
    if tuning.cycle == 0 {
        return Err(format!(
            "{note} can't be reckoned, since the voice doesn't tell its samples per cycle; give a step"
        ));
    }
    if tuning.rate == 0 {
        // Without an output rate there is none, and the library says so.
        return Ok(65_536);
    }
    let hertz = 440.0 * (f64::from(semitones) / 12.0).exp2();
    let samples = hertz * f64::from(tuning.cycle) * f64::from(octave).exp2();
    let step = (65_536.0 * samples / f64::from(tuning.rate)).round();
    if (1.0..=HIGHEST_STEP).contains(&step) {
        return Ok(step as u32);
    }
    let past = if step < 1.0 { "below 1" } else { "above 16,777,216" };
    let rate = grouped(u64::from(tuning.rate));
    Err(format!(
        "{note} from octave {octave} needs a step {past} at {rate} frames a second"
    ))
}

#[cfg(test)]
mod tests {
    use super::*;

    #[test]
    fn notes_by_name() {
        for (names, above) in [
            (&["A4", "A-4", "a4", "a-4"][..], 0),
            (&["C4", "C-4", "B#3"], -9),
            (&["F#3", "Gb3", "f#3"], -15),
            (&["Bb2", "A#2", "bb2"], -23),
            (&["E#4", "F4"], -4),
            (&["Cb4", "B3", "b3"], -10),
            (&["C0"], -57),
            (&["B9"], 62),
        ] {
            for name in names {
                assert_eq!(semitones(name), Some(above), "{name}");
            }
        }
        for word in [
            "", "C", "C#", "C-", "C--4", "H4", "C10", "C-10", "C04", "4", "4C", "C4#", "CB4", "C+4", "C##4", "é4", "Cé",
        ] {
            assert_eq!(semitones(word), None, "{word}");
        }
    }

    #[test]
    fn steps_of_notes() {
        let step = |note, octave, rate, cycle| step(note, octave, &Tuning { rate, cycle });
        // 440 cycles of 32 samples are 14,080 samples a second, and as many frames.
        assert_eq!(step("A4", 0, 14_080, 32), Ok(65_536));
        assert_eq!(step("A4", 1, 14_080, 32), Ok(131_072));
        assert_eq!(step("A3", 1, 14_080, 32), Ok(65_536));
        // The nearest: 261.6256 × 32 × 65,536 / 44,100 is 12,441.46, with 36 samples it is 13,996.65; and 27.5 goes up.
        assert_eq!(step("C4", 0, 44_100, 32), Ok(12_441));
        assert_eq!(step("C-4", 0, 44_100, 36), Ok(13_997));
        assert_eq!(step("A4", 0, 1 << 20, 1), Ok(28));
        assert_eq!(step("A4", 4, 27_500, 1_000), Ok(16_777_216));
        let above = "A4 from octave 4 needs a step above 16,777,216 at 27,499 frames a second";
        assert_eq!(step("A4", 4, 27_499, 1_000), Err(above.to_string()));
        assert!(step("A4", 255, 44_100, 1).is_err_and(|words| words.contains("above")));
        assert!(step("C0", 0, u32::MAX, 1).is_err_and(|words| words.contains("below 1 at 4,294,967,295")));
        assert!(step("A4", 0, 44_100, 0).is_err_and(|words| words.contains("samples per cycle")));
        assert_eq!(step("A4", 0, 0, 32), Ok(65_536));
        assert_eq!(step("4294967295", 0, 44_100, 0), Ok(u32::MAX));
        assert!(step("4294967296", 0, 44_100, 0).is_err_and(|words| words.starts_with("STEP takes")));
    }

    #[test]
    fn words_before_comments() {
        assert_eq!(words("\u{FEFF} 0 1s\t0  F#3 # 4 # 5\r"), ["0", "1s", "0", "F#3"]);
        assert!(words("# 0 1 0 1 1").is_empty() && words(" \t#").is_empty() && words("").is_empty());
    }
}
