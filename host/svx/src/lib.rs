//! Amiga voices: FORM 8SVX files, the sampled instruments of composers' floppies, read, written and played.
//!
//! This crate is a thin coat over the proved library `libsvx.a`: what a file means, which file is turned back and how a
//! note sounds is decided there. Here its lent buffers become vectors, and its flat form the parts of a [`Voice`].
//!
//! - [`parse_voice`] and [`encode_voice`] turn a file into a [`Voice`] and back.
//! - A [`Sheet`] is a voice as it is played. A [`Note`] plays it, block by block.
//! - [`mix`](mix()) plays a score of up to 16 timed notes, each an [`Entry`], on one voice.
//! - [`Sheet::octave_wave`] writes an octave of a voice as a RIFF WAVE file.
//! - [`ChannelSamples::nearest_crossing`] finds the quiet spot beside the end of a loop.
//! - [`peak`] finds the loudest sample, the first where several are as loud.
//! - [`difference_order`] puts a channel into the order in which a vault stores it, and [`difference_restore`] gives it
//!   back.
//! - [`drawn_voice`] gives the voice that is drawn from a number, the same on every machine, to put hosts under load.
//! - What can be turned back answers a [`Refusal`], which has a number and words. Nothing here panics, whatever the
//!   input.
//!
//! # A file read, and a note played in blocks
//!
//! ```
//! use svx::{Note, Sheet};
//!
//! # fn main() -> Result<(), svx::Refusal> {
//! // A whole file: four samples that are repeated, at 8,000 samples a second.
//! let mut file = b"FORM\0\0\0\x2C8SVXVHDR\0\0\0\x14".to_vec();
//! file.extend([0, 0, 0, 0, 0, 0, 0, 4, 0, 0, 0, 4, 0x1F, 0x40, 1, 0, 0, 1, 0, 0]);
//! file.extend(b"BODY\0\0\0\x04");
//! file.extend([0x00, 0x40, 0x00, 0xC0]);
//!
//! let sheet = Sheet::read(&file)?;
//! assert_eq!(sheet.voice().header.hi_cycle_frequency_hz(), Some(2_000.0));
//!
//! // Octave 0, one sample a frame, to an output of 8,000 frames a second, struck as hard as can be.
//! let mut note = Note::start(0, 65_536, 8_000, 127);
//! let mut block = [0i16; 2 * 6];
//! let mut played = Vec::new();
//! for i in 0.. {
//!     if i == 3 {
//!         note = note.key_up();
//!     }
//!     let (next, sounding) = note.fill(&sheet, &mut block)?;
//!     if sounding == 0 {
//!         break;
//!     }
//!     played.extend(block);
//!     note = next;
//! }
//! // Three blocks of six frames, each frame left and right; without a release the note is over at the key-up.
//! assert_eq!(played.len(), 3 * 6 * 2);
//! assert_eq!(played[..8], [0, 0, 16_384, 16_384, 0, 0, -16_384, -16_384]);
//! # Ok(())
//! # }
//! ```
//!
//! # A voice put together and written
//!
//! ```
//! use svx::{ChannelSamples, Voice, VoiceHeader};
//!
//! # fn main() -> Result<(), svx::Refusal> {
//! let voice = Voice {
//!     header: VoiceHeader { one_shot_hi_samples: 3, samples_per_sec: 8_000, ..VoiceHeader::default() },
//!     metadata: vec![("title".to_string(), "click".to_string())],
//!     channels: vec![ChannelSamples { octaves: vec![vec![0, 100, -100]] }],
//!     ..Voice::default()
//! };
//! let file = svx::encode_voice(&voice)?;
//! assert_eq!(svx::parse_voice(&file)?, voice);
//! # Ok(())
//! # }
//! ```
#![deny(missing_docs)]
#![deny(unsafe_code)]
#![deny(unsafe_op_in_unsafe_fn)]

mod bytes;
mod c;
mod codec;
#[allow(unsafe_code)]
mod ffi;
mod header;
mod mix;
mod note;
mod refusal;
mod sheet;
mod small_chunks;
mod vault;
mod voice;

pub use c::Entry;
pub use codec::{decode_body, fibonacci_decode_channel, fibonacci_encode_channel, nearest_crossing, peak};
pub use header::{VoiceHeader, UNITY_VOLUME};
pub use mix::mix;
pub use note::Note;
pub use refusal::Refusal;
pub use sheet::{Records, Sheet};
pub use small_chunks::{ChannelAssignment, EgPoint, Envelope, Fade, Pan, Seqn, SeqnSegment};
pub use vault::{difference_order, difference_restore};
pub use voice::{ChannelSamples, Voice};

/// Reads a file to a voice. Refused by 1 to 14.
///
/// To play the voice, read it with [`Sheet::read`].
pub fn parse_voice(file: &[u8]) -> Result<Voice, Refusal> {
    Sheet::read(file).map(|sheet| sheet.voice())
}

/// The voice that is drawn from a number; [`Sheet::drawn`] says how. Refused by 48, where the number is 0.
///
/// To play the voice, draw it with [`Sheet::drawn`].
pub fn drawn_voice(number: u32) -> Result<Voice, Refusal> {
    Sheet::drawn(number).map(|sheet| sheet.voice())
}

/// Writes a voice to a file. Refused by 10, 13, 18 and 19.
///
/// A raw voice with tidy texts reads back as it was; a Fibonacci-coded one is as near as the coding comes.
pub fn encode_voice(voice: &Voice) -> Result<Vec<u8>, Refusal> {
    Sheet::of(voice)?.write()
}
