//! The ensemble: a score of timed notes, mixed.
use crate::ffi;
use crate::{Entry, Refusal, Sheet};

/// Fills a buffer with the mixed frames of a score from frame `place` on, left and right by turns, and gives the place after
/// them. All entries play one voice, at one output rate. A mixed frame is the sum of what the entries that have started give
/// there, held within 16 bits once, after summing.
///
/// The place is all there is to keep: it begins at 0, each call is given the one that came back last, and the frames are the
/// same however they are cut into blocks. A host may as well begin at any other place. It stops at 4,294,967,295, and from
/// that frame on all is silent. A score without entries is silent throughout.
///
/// Refused by 46, where there are more than 16 entries; at the first bad entry by 45, where it starts before the one before it,
/// or 47, where its key-up is before its start; then by 21 to 23 and 25; then entry by entry by 24, 31 to 33 and 44. Every entry
/// is judged, heard or not, and where one is refused nothing is written. (By 10, 13 and 15 to 18 a sheet was judged when it was
/// made.)
///
/// ```
/// use svx::{ChannelSamples, Entry, Sheet, Voice, VoiceHeader};
///
/// # fn main() -> Result<(), svx::Refusal> {
/// // One sample, 64, which at half a sample a frame sounds for two frames.
/// let sheet = Sheet::of(&Voice {
///     header: VoiceHeader { one_shot_hi_samples: 1, ..VoiceHeader::default() },
///     channels: vec![ChannelSamples { octaves: vec![vec![64]] }],
///     ..Voice::default()
/// })?;
/// let first = Entry { start: 1, key_up: 9, step: 32_768, octave: 0, velocity: 127 };
/// let second = Entry { start: 2, ..first };
///
/// let mut frames = [0i16; 2 * 5];
/// let place = svx::mix(&[first, second], 44_100, 0, &sheet, &mut frames)?;
/// assert_eq!(place, 5);
/// // In frame 2 both sound: 16,384 and 16,384 are 32,768, which is held at 32,767.
/// assert_eq!(frames, [0, 0, 16_384, 16_384, 32_767, 32_767, 16_384, 16_384, 0, 0]);
///
/// // Starts may not fall.
/// let refusal = svx::mix(&[second, first], 44_100, 0, &sheet, &mut frames).unwrap_err();
/// assert_eq!(refusal.number(), 45);
/// # Ok(())
/// # }
/// ```
pub fn mix(score: &[Entry], rate: u32, place: u32, sheet: &Sheet, out: &mut [i16]) -> Result<u32, Refusal> {
    ffi::mix(score, rate, place, sheet.bytes(), sheet.left(), sheet.right(), out)
}
