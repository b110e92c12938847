//! BODY and its channels, the loudest sample, and crossings.
use crate::ffi;
use crate::Refusal;

/// The samples of a Fibonacci-coded channel. Each step is added in a signed byte, which wraps, as in the published listing:
/// loud voices were packed so. Refused by 12.
///
/// ```
/// assert_eq!(svx::fibonacci_decode_channel(&[0x00, 0x64, 0xF1]), Ok(vec![100, 121, 100]));
/// assert_eq!(svx::fibonacci_decode_channel(&[0x00, 0x7F, 0xF8]), Ok(vec![127, -108, -108]));
/// ```
pub fn fibonacci_decode_channel(body: &[u8]) -> Result<Vec<i8>, Refusal> {
    // The first two bytes give one sample, each further one two.
    let mut samples = vec![0; body.len().saturating_mul(2).saturating_sub(3)];
    let length = ffi::fibonacci_decode_channel(body, &mut samples)?;
    samples.truncate(length);
    Ok(samples)
}

/// A channel's samples, Fibonacci-coded. The coding isn't exact: a sample is as near as a step of at most 34 down or 21
/// up from the one before can bring it, past 127 on from -128 and the other way. Of two steps that bring it as near the smaller
/// is taken, up and down alike, so that quiet passages stay about the centre line. A channel that was decoded is written as
/// it was, but for its first byte, which is written as 0.
///
/// ```
/// let coded = svx::fibonacci_encode_channel(&[0, 4, 0, -4, 0]);
/// assert_eq!(coded, [0x00, 0x00, 0xB5, 0x5B]);
/// assert_eq!(svx::fibonacci_decode_channel(&coded), Ok(vec![0, 3, 0, -3, 0]));
/// // from 127 to -128 it is one step up
/// assert_eq!(svx::fibonacci_encode_channel(&[127, -128]), [0x00, 0x7F, 0x98]);
/// ```
pub fn fibonacci_encode_channel(samples: &[i8]) -> Vec<u8> {
    let mut bytes = vec![0; samples.len() / 2 + 2];
    // Only a short buffer is refused, and this one has room for all.
    let length = ffi::fibonacci_encode_channel(samples, &mut bytes).unwrap_or(0);
    bytes.truncate(length);
    bytes
}

/// A BODY as interleaved bytes, left and right by turns where it has two channels: at most so many `frames` of each. 0
/// channels count as 1, more than 2 as 2. The compression is the header's byte. Refused by 10, 11 and 12.
///
/// ```
/// assert_eq!(svx::decode_body(&[1, 2, 3, 4, 5, 6], 0, 2, 2), Ok(vec![1, 4, 2, 5]));
/// ```
pub fn decode_body(body: &[u8], compression: u8, channels: u16, frames: u64) -> Result<Vec<u8>, Refusal> {
    // No byte of a BODY gives more than two bytes, and no frame has more than two.
    let most = usize::try_from(frames).unwrap_or(usize::MAX).min(body.len());
    let mut bytes = vec![0; most.saturating_mul(2)];
    let length = ffi::decode_body(body, compression, channels, frames, &mut bytes)?;
    bytes.truncate(length);
    Ok(bytes)
}

/// The largest magnitude of samples, where -128 counts as 128, and the first place that has it; none where there are no
/// samples. So a display's marker stays where it is, however many samples are as loud.
///
/// ```
/// let samples = [3, -7, 7, 2, -7];
/// let (magnitude, place) = svx::peak(&samples).unwrap();
/// assert_eq!((magnitude, place, samples[place]), (7, 1, -7));
/// assert_eq!(svx::peak(&[127, -128]), Some((128, 1)));
/// assert_eq!(svx::peak(&[]), None);
/// ```
pub fn peak(samples: &[i8]) -> Option<(u8, usize)> {
    let (magnitude, place) = ffi::peak(samples)?;
    Some((magnitude, usize::try_from(place).ok()?))
}

/// The crossing nearest to `place` that is at most `reach` away: a place where the sample before is below 0 and the
/// sample there isn't, or the other way round. Of two as near it is the earlier. A loop clicks less where its ends lie
/// on crossings.
///
/// The place may lie past the end, as the end of a loop does. Refused by 43, where there is no crossing within reach.
///
/// ```
/// let samples = [3, 9, 2, -4, -7, -1, 5];
/// assert_eq!(svx::nearest_crossing(&samples, 4, usize::MAX), Ok(3));
/// assert_eq!(svx::nearest_crossing(&samples, samples.len(), 1), Ok(6));
/// // The place alone, which isn't one.
/// assert_eq!(svx::nearest_crossing(&samples, 4, 0).unwrap_err().number(), 43);
/// ```
pub fn nearest_crossing(samples: &[i8], place: usize, reach: usize) -> Result<usize, Refusal> {
    // What is found is less than the number of samples, so nothing is cut off.
    ffi::nearest_crossing(samples, place as u64, reach as u64).map(|crossing| crossing as usize)
}
