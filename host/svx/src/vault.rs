//! Difference order, in which a vault stores a channel.
use crate::ffi;
use crate::{Refusal, VoiceHeader};

/// A channel's samples, all octaves joined, in difference order, in which a vault stores them: as many values, of which
/// most are small where the sound is smooth.
///
/// Each octave is treated for itself: its first sample is kept, every other one becomes the difference from the sample
/// before, modulo 256 as a signed byte; and of these values those at even places, counted from 0, come before those at
/// odd places. The header says where the octaves lie; with lengths of 0 the channel is one octave of any length.
///
/// Refused by 13, then by 18, where the channel hasn't as many samples as the header's octaves together.
///
/// ```
/// use svx::VoiceHeader;
///
/// # fn main() -> Result<(), svx::Refusal> {
/// // Two octaves, of 3 and of 6 samples.
/// let header = VoiceHeader { one_shot_hi_samples: 3, ct_octave: 2, ..VoiceHeader::default() };
/// let samples = [10, 12, 9, 100, 127, -128, -128, 0, 1];
///
/// let values = svx::difference_order(&header, &samples)?;
/// // 10, 2, -3 and 100, 27, 1, 0, -128, 1: from 127 on to -128 it is one up.
/// assert_eq!(values, [10, -3, 2, 100, 1, -128, 27, 0, 1]);
/// assert_eq!(svx::difference_restore(&header, &values)?, samples);
///
/// assert_eq!(svx::difference_order(&header, &samples[1..]).unwrap_err().number(), 18);
/// # Ok(())
/// # }
/// ```
pub fn difference_order(header: &VoiceHeader, samples: &[i8]) -> Result<Vec<i8>, Refusal> {
    let mut values = vec![0; samples.len()];
    ffi::difference_order(header, samples, &mut values)?;
    Ok(values)
}

/// The channel that these values are the [difference order](difference_order) of. There is exactly one, whatever the
/// values are. Refused by 13, then by 18, as ordering is.
///
/// ```
/// // With lengths of 0, one octave of any length.
/// let header = svx::VoiceHeader::default();
/// assert_eq!(svx::difference_restore(&header, &[5, 1, -1, 2]), Ok(vec![5, 4, 5, 7]));
/// ```
pub fn difference_restore(header: &VoiceHeader, values: &[i8]) -> Result<Vec<i8>, Refusal> {
    let mut samples = vec![0; values.len()];
    ffi::difference_restore(header, values, &mut samples)?;
    Ok(samples)
}
