//! Safe wrappers over slices around the library's C interface: the one module that calls it, with `unsafe`.
//!
//! Every call here is safe for the same reasons. A slice is handed over as its pointer and its length, and the library
//! reads and writes within it. Rust's borrows keep lent buffers apart. An empty slice may have any pointer. A returned
//! `bool` is 0 or 1.
use crate::c::*;
use crate::{Refusal, VoiceHeader};

/// What a call that gives a length answers: the length, or the refusal. A length that passes this machine's addresses
/// is that of a buffer that can't be lent, so it is refused as a short buffer is.
fn answer(refusal: u32, length: u64) -> Result<usize, Refusal> {
    Refusal::judge(refusal)?;
    usize::try_from(length).map_err(|_| Refusal::BUFFER_SHORT)
}

/// The same of a call that gives three lengths: sheet, left, right.
fn answers(refusal: u32, [sheet, left, right]: [u64; 3]) -> Result<[usize; 3], Refusal> {
    Ok([answer(refusal, sheet)?, answer(refusal, left)?, answer(refusal, right)?])
}

/// A part's start and length, where it is there.
fn part(part: Part) -> Option<(u64, u64)> {
    part.there.then_some((part.start, part.length))
}

/// The lengths that reading a file needs: sheet, left, right.
pub fn voice_lengths(file: &[u8]) -> Result<[usize; 3], Refusal> {
    let mut lengths = [0; 3];
    // SAFETY: as the module says; `lengths` has its three places.
    let refusal = unsafe { svx_voice_lengths(file.as_ptr(), file.len(), lengths.as_mut_ptr()) };
    answers(refusal, lengths)
}

/// Reads a file into three lent buffers.
pub fn parse_voice(file: &[u8], sheet: &mut [u8], left: &mut [i8], right: &mut [i8]) -> Result<(), Refusal> {
    let mut lengths = [0; 3];
    // SAFETY: as the module says; `lengths` has its three places.
    let refusal = unsafe {
        svx_parse_voice(
            file.as_ptr(),
            file.len(),
            sheet.as_mut_ptr(),
            sheet.len(),
            left.as_mut_ptr(),
            left.len(),
            right.as_mut_ptr(),
            right.len(),
            lengths.as_mut_ptr(),
        )
    };
    Refusal::judge(refusal)
}

/// The length that writing a file needs.
pub fn file_length(sheet: &[u8], left: &[i8], right: &[i8]) -> Result<usize, Refusal> {
    let mut length = 0;
    // SAFETY: as the module says.
    let refusal = unsafe {
        svx_file_length(
            sheet.as_ptr(),
            sheet.len(),
            left.as_ptr(),
            left.len(),
            right.as_ptr(),
            right.len(),
            &mut length,
        )
    };
    answer(refusal, length)
}

/// Writes the file of a voice and gives its length.
pub fn encode_voice(sheet: &[u8], left: &[i8], right: &[i8], file: &mut [u8]) -> Result<usize, Refusal> {
    let mut length = 0;
    // SAFETY: as the module says.
    let refusal = unsafe {
        svx_encode_voice(
            sheet.as_ptr(),
            sheet.len(),
            left.as_ptr(),
            left.len(),
            right.as_ptr(),
            right.len(),
            file.as_mut_ptr(),
            file.len(),
            &mut length,
        )
    };
    answer(refusal, length)
}

/// The length that writing an octave as a WAVE file needs.
pub fn octave_wave_length(sheet: &[u8], left: &[i8], right: &[i8], octave: u8) -> Result<usize, Refusal> {
    let mut length = 0;
    // SAFETY: as the module says.
    let refusal = unsafe {
        svx_octave_wave_length(
            sheet.as_ptr(),
            sheet.len(),
            left.as_ptr(),
            left.len(),
            right.as_ptr(),
            right.len(),
            octave,
            &mut length,
        )
    };
    answer(refusal, length)
}

/// Writes an octave of a voice as a WAVE file and gives its length.
pub fn octave_wave(sheet: &[u8], left: &[i8], right: &[i8], octave: u8, file: &mut [u8]) -> Result<usize, Refusal> {
    let mut length = 0;
    // SAFETY: as the module says.
    let refusal = unsafe {
        svx_octave_wave(
            sheet.as_ptr(),
            sheet.len(),
            left.as_ptr(),
            left.len(),
            right.as_ptr(),
            right.len(),
            octave,
            file.as_mut_ptr(),
            file.len(),
            &mut length,
        )
    };
    answer(refusal, length)
}

/// A fresh note.
pub fn note_start(octave: u8, step: u32, rate: u32, velocity: u8) -> Note {
    // SAFETY: as the module says.
    unsafe { svx_note_start(octave, step, rate, velocity) }
}

/// The note after a key-up.
pub fn note_key_up(note: Note) -> Note {
    // SAFETY: as the module says.
    unsafe { svx_note_key_up(note) }
}

/// Fills a buffer with the next frames of a note; the note after it, and how many frames weren't over.
pub fn note_fill(note: Note, sheet: &[u8], left: &[i8], right: &[i8], out: &mut [i16]) -> Result<(Note, u64), Refusal> {
    // SAFETY: as the module says; `out` is aligned for its elements and its length counts them.
    let filled = unsafe {
        svx_note_fill(
            note,
            sheet.as_ptr(),
            sheet.len(),
            left.as_ptr(),
            left.len(),
            right.as_ptr(),
            right.len(),
            out.as_mut_ptr(),
            out.len(),
        )
    };
    Refusal::judge(filled.refusal)?;
    Ok((filled.note, filled.sounding))
}

/// Fills a buffer with the mixed frames of a score from a place on; the place after them.
pub fn mix(
    score: &[Entry],
    rate: u32,
    place: u32,
    sheet: &[u8],
    left: &[i8],
    right: &[i8],
    out: &mut [i16],
) -> Result<u32, Refusal> {
    let mut after = 0;
    // SAFETY: as the module says; `score` and `out` are aligned for their elements and their lengths count them.
    let refusal = unsafe {
        svx_mix(
            score.as_ptr(),
            score.len(),
            rate,
            place,
            sheet.as_ptr(),
            sheet.len(),
            left.as_ptr(),
            left.len(),
            right.as_ptr(),
            right.len(),
            out.as_mut_ptr(),
            out.len(),
            &mut after,
        )
    };
    Refusal::judge(refusal).map(|()| after)
}

/// A BODY as interleaved bytes; how many there are.
pub fn decode_body(body: &[u8], compression: u8, channels: u16, frames: u64, out: &mut [u8]) -> Result<usize, Refusal> {
    let mut length = 0;
    // SAFETY: as the module says.
    let refusal = unsafe {
        svx_decode_body(
            body.as_ptr(),
            body.len(),
            compression,
            channels,
            frames,
            out.as_mut_ptr(),
            out.len(),
            &mut length,
        )
    };
    answer(refusal, length)
}

/// The samples of a Fibonacci channel; how many there are.
pub fn fibonacci_decode_channel(body: &[u8], out: &mut [i8]) -> Result<usize, Refusal> {
    let mut length = 0;
    // SAFETY: as the module says.
    let refusal =
        unsafe { svx_fibonacci_decode_channel(body.as_ptr(), body.len(), out.as_mut_ptr(), out.len(), &mut length) };
    answer(refusal, length)
}

/// A channel's samples as Fibonacci bytes; how many there are.
pub fn fibonacci_encode_channel(samples: &[i8], out: &mut [u8]) -> Result<usize, Refusal> {
    let mut length = 0;
    // SAFETY: as the module says.
    let refusal = unsafe {
        svx_fibonacci_encode_channel(
            samples.as_ptr(),
            samples.len(),
            out.as_mut_ptr(),
            out.len(),
            &mut length,
        )
    };
    answer(refusal, length)
}

/// Both ways of difference order have one shape in C.
type Difference = unsafe extern "C" fn(u32, u32, u8, *const i8, usize, *mut i8, usize, *mut u64) -> u32;

/// A channel one way or the other, octave by octave as the header says; how many bytes came out.
fn difference(way: Difference, header: &VoiceHeader, channel: &[i8], out: &mut [i8]) -> Result<usize, Refusal> {
    let mut length = 0;
    // SAFETY: as the module says.
    let refusal = unsafe {
        way(
            header.one_shot_hi_samples,
            header.repeat_hi_samples,
            header.ct_octave,
            channel.as_ptr(),
            channel.len(),
            out.as_mut_ptr(),
            out.len(),
            &mut length,
        )
    };
    answer(refusal, length)
}

/// A channel in difference order; how many values there are.
pub fn difference_order(header: &VoiceHeader, samples: &[i8], out: &mut [i8]) -> Result<usize, Refusal> {
    difference(svx_difference_order, header, samples, out)
}

/// The channel that these values are the difference order of; how many samples there are.
pub fn difference_restore(header: &VoiceHeader, values: &[i8], out: &mut [i8]) -> Result<usize, Refusal> {
    difference(svx_difference_restore, header, values, out)
}

/// The voice of a number into three lent buffers, and how long each of its parts is: sheet, left, right.
pub fn drawn_voice(number: u32, sheet: &mut [u8], left: &mut [i8], right: &mut [i8]) -> Result<[usize; 3], Refusal> {
    let mut lengths = [0; 3];
    // SAFETY: as the module says; `lengths` has its three places.
    let refusal = unsafe {
        svx_drawn_voice(
            number,
            sheet.as_mut_ptr(),
            sheet.len(),
            left.as_mut_ptr(),
            left.len(),
            right.as_mut_ptr(),
            right.len(),
            lengths.as_mut_ptr(),
        )
    };
    answers(refusal, lengths)
}

/// The record at a place of a sheet: its kind, the place of its body, and the place past it. None at the end, and where
/// there is no whole record of a known kind.
pub fn sheet_record(sheet: &[u8], at: usize) -> Option<(u8, usize, usize)> {
    // SAFETY: as the module says.
    let record = unsafe { svx_sheet_record(sheet.as_ptr(), sheet.len(), at as u64) };
    if record.step != 0 {
        return None;
    }
    Some((
        record.kind,
        usize::try_from(record.start).ok()?,
        usize::try_from(record.next).ok()?,
    ))
}

/// The highest octave's cycle frequency, where it is known.
pub fn hi_cycle_frequency_hz(rate: u16, samples_per_cycle: u32) -> Option<f64> {
    // SAFETY: as the module says.
    let frequency = unsafe { svx_hi_cycle_frequency_hz(rate, samples_per_cycle) };
    frequency.known.then_some(frequency.hertz)
}

/// The weights of the left and the right speaker.
pub fn pan_weights(position: i32) -> (f32, f32) {
    // SAFETY: as the module says.
    let pan = unsafe { svx_pan_weights(position) };
    (pan.left, pan.right)
}

/// A volume as a float.
pub fn volume_f32(volume: u32) -> f32 {
    // SAFETY: as the module says.
    unsafe { svx_volume_f32(volume) }
}

/// The largest magnitude and the first place that has it, where there are samples.
pub fn peak(samples: &[i8]) -> Option<(u8, u64)> {
    // SAFETY: as the module says.
    let peak = unsafe { svx_peak(samples.as_ptr(), samples.len()) };
    peak.found.then_some((peak.magnitude, peak.place))
}

/// The nearest crossing to a place, at most so far off.
pub fn nearest_crossing(samples: &[i8], place: u64, reach: u64) -> Result<u64, Refusal> {
    let mut crossing = 0;
    // SAFETY: as the module says.
    let refusal = unsafe { svx_nearest_crossing(samples.as_ptr(), samples.len(), place, reach, &mut crossing) };
    Refusal::judge(refusal).map(|()| crossing)
}

/// The level of an envelope, whose points have six bytes each as in ATAK.
pub fn level_at_ms(points: &[u8], start: i32, t_ms: u64) -> i32 {
    // SAFETY: as the module says.
    unsafe { svx_level_at_ms(points.as_ptr(), points.len(), start, t_ms) }
}

/// The length of octave k, where it is there.
pub fn octave_samples(one_shot: u32, repeat: u32, octaves: u8, k: u8) -> Option<u64> {
    // SAFETY: as the module says.
    let octave = unsafe { svx_octave_samples(one_shot, repeat, octaves, k) };
    part(octave).map(|(_, length)| length)
}

/// Where the repeat part begins in an octave k of that length, where the two parts make it up.
pub fn loop_start(one_shot: u32, repeat: u32, octaves: u8, k: u8, octave_len: u64) -> Option<u64> {
    // SAFETY: as the module says.
    let repeat = unsafe { svx_loop_repeat(one_shot, repeat, octaves, k, octave_len) };
    part(repeat).map(|(start, _)| start)
}

/// How many samples of a left side of that length are the sheet's, where it has so many.
pub fn left_samples(sheet: &[u8], left_len: u64) -> Option<u64> {
    // SAFETY: as the module says.
    let left = unsafe { svx_side_samples(sheet.as_ptr(), sheet.len(), left_len, 0, false) };
    part(left).map(|(_, length)| length)
}
