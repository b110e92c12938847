//! A note.
use crate::{c, ffi};
use crate::{Refusal, Sheet};

/// A note that plays a voice. It is a value: each call takes it and gives the note after it, so a copy that was kept
/// can be played on from where it was.
///
/// The frames are the same however they are cut into blocks.
#[derive(Clone, Copy, Debug, PartialEq, Eq)]
pub struct Note {
    /// Which octave of the voice, 0 the highest.
    pub octave: u8,
    /// How hard the key was struck, from 1 to 127; at 127 the values aren't made smaller.
    pub velocity: u8,
    /// How far each frame goes on; 65,536 is one sample. Up to 16,777,216.
    pub step: u32,
    /// The output's rate in frames a second, up to 192,000. Envelopes go by it.
    pub rate: u32,
    /// How many frames were filled; it stops at 4,294,967,295.
    pub frames: u32,
    /// The frame of the key-up; none while the note is held.
    pub key_up: Option<u32>,
}

impl Note {
    /// A fresh note: no frames filled, held. It keeps whatever it is given; a fill judges it.
    ///
    /// ```
    /// use svx::{ChannelSamples, Note, Sheet, Voice, VoiceHeader};
    ///
    /// # fn main() -> Result<(), svx::Refusal> {
    /// // One sample, 64.
    /// let sheet = Sheet::of(&Voice {
    ///     header: VoiceHeader { one_shot_hi_samples: 1, ..VoiceHeader::default() },
    ///     channels: vec![ChannelSamples { octaves: vec![vec![64]] }],
    ///     ..Voice::default()
    /// })?;
    /// let mut frame = [0i16; 2];
    /// Note::start(0, 65_536, 44_100, 127).fill(&sheet, &mut frame)?;
    /// assert_eq!(frame, [16_384, 16_384]);
    /// // Struck half as hard: 16,384 × 64 / 127, cut toward zero.
    /// Note::start(0, 65_536, 44_100, 64).fill(&sheet, &mut frame)?;
    /// assert_eq!(frame, [8_256, 8_256]);
    /// assert_eq!(Note::start(0, 65_536, 44_100, 0).fill(&sheet, &mut frame).unwrap_err().number(), 44);
    /// # Ok(())
    /// # }
    /// ```
    pub fn start(octave: u8, step: u32, rate: u32, velocity: u8) -> Note {
        Note::of(ffi::note_start(octave, step, rate, velocity))
    }

    /// The note after the key is let go, which is at the frames filled so far. Only the first key-up counts.
    pub fn key_up(self) -> Note {
        Note::of(ffi::note_key_up(self.flat()))
    }

    /// Fills a buffer with the next frames, left and right by turns, and gives the note after them and how many of the
    /// frames weren't over. A frame that is over is silent; so once a block has fewer than it has room for, the note
    /// has ended.
    ///
    /// Refused by 21 to 25, 31 to 34 and 44; then nothing is written. (By 10, 13 and 15 to 18 a sheet was judged when it
    /// was made.)
    pub fn fill(self, sheet: &Sheet, out: &mut [i16]) -> Result<(Note, u64), Refusal> {
        let (note, sounding) = ffi::note_fill(self.flat(), sheet.bytes(), sheet.left(), sheet.right(), out)?;
        Ok((Note::of(note), sounding))
    }

    /// The note as C has it.
    fn flat(self) -> c::Note {
        c::Note {
            octave: self.octave,
            velocity: self.velocity,
            step: self.step,
            rate: self.rate,
            frames: self.frames,
            released: self.key_up.is_some(),
            key_up: self.key_up.unwrap_or(0),
        }
    }

    /// The note that C has.
    fn of(note: c::Note) -> Note {
        Note {
            octave: note.octave,
            velocity: note.velocity,
            step: note.step,
            rate: note.rate,
            frames: note.frames,
            key_up: note.released.then_some(note.key_up),
        }
    }
}
