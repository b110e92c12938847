//! A mix as the specification words it and nothing cleverer: at every frame every entry is asked for its note's frame (plain_note.rs). The
//! library's mix is compared with it, and timed against it.
use crate::abi::Entry;
use crate::plain_note::{self as plain, Fixed, Note, Sound, LAST};

/// The number that turns a score back by itself.
pub fn score_refusal(score: &[Entry]) -> u32 {
    if score.len() > 16 { return 46; }
    for (i, e) in score.iter().enumerate() {
        if i > 0 && e.start < score[i - 1].start { return 45; }
        if e.key_up < e.start { return 47; }
    }
    0
}

/// The number that turns a mix back, the score's and the sheet's own aside.
pub fn refusal(sound: &Sound, score: &[Entry], rate: u32, places: usize) -> u32 {
    let number = sound.voice_refusal();
    if number != 0 { return number; }
    if places % 2 == 1 { return 25; }
    for e in score {
        if sound.too_long(e.octave) { return 24; }
        let number = sound.note_refusal(plain::start(e.octave, e.step, rate, e.velocity));
        if number != 0 { return number; }
    }
    0
}

/// A mixer of an accepted score: of each entry when it starts, and its note, released at its key-up.
pub struct Mixer<'a> { sound: &'a Sound<'a>, notes: Vec<(u64, Note, Fixed)> }

/// What a fill came to: the place after it, how many of its values were held, and in how many frames more than one entry sounds.
#[derive(Default)]
pub struct Mixed { pub after: u32, pub held: u64, pub together: u64 }

impl<'a> Mixer<'a> {
    pub fn new(sound: &'a Sound<'a>, score: &[Entry], rate: u32) -> Self {
        let note = |e: &Entry| Note { key_up: Some(e.key_up - e.start), ..plain::start(e.octave, e.step, rate, e.velocity) };
        Mixer { sound, notes: score.iter().map(|e| (e.start as u64, note(e), sound.fixed(note(e)))).collect() }
    }

    /// The sums of mixed frame m, and how many entries sound there.
    fn sums(&self, m: u64) -> (i64, i64, u64) {
        let (mut left, mut right, mut sounding) = (0, 0, 0);
        for (start, note, fixed) in &self.notes {
            if m < *start || m >= LAST { continue; }
            if let Some((l, r)) = self.sound.frame(*note, fixed, m - start) {
                left += l as i64;
                right += r as i64;
                sounding += 1;
            }
        }
        (left, right, sounding)
    }

    /// The mixed frames from a place on.
    pub fn fill(&self, place: u32, out: &mut [i16]) -> Mixed {
        let mut mixed = Mixed { after: (place as u64 + out.len() as u64 / 2).min(LAST) as u32, ..Mixed::default() };
        for (i, pair) in out.chunks_exact_mut(2).enumerate() {
            let (left, right, sounding) = self.sums(place as u64 + i as u64);
            for (value, sum) in pair.iter_mut().zip([left, right]) {
                *value = sum.clamp(-32768, 32767) as i16;
                mixed.held += (*value as i64 != sum) as u64;
            }
            mixed.together += (sounding > 1) as u64;
        }
        mixed
    }
}
