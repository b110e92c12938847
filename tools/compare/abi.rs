//! The library's C interface over slices, with a check that a refused call writes no length.
pub use crate::c::{Entry, Note, Part, Record};
use crate::c::*;
use crate::plain_note;

impl Note {
    pub fn of(n: plain_note::Note) -> Self {
        Note { octave: n.octave, velocity: n.velocity, step: n.step, rate: n.rate, frames: n.frames, released: n.key_up.is_some(), key_up: n.key_up.unwrap_or(77) }
    }
    pub fn plain(self) -> plain_note::Note {
        plain_note::Note { octave: self.octave, velocity: self.velocity, step: self.step, rate: self.rate, frames: self.frames, key_up: if self.released { Some(self.key_up) } else { None } }
    }
}

/// What a place for a length holds before a call: a refused call leaves it.
pub const UNSET: u64 = 0xDEAD_BEEF_0BAD_F00D;

pub fn voice_lengths(file: &[u8]) -> Result<[u64; 3], u32> {
    let mut l = [UNSET; 3];
    let r = unsafe { svx_voice_lengths(file.as_ptr(), file.len(), l.as_mut_ptr()) };
    three(r, l)
}

pub fn parse_voice(file: &[u8], sheet: &mut [u8], left: &mut [i8], right: &mut [i8]) -> Result<[u64; 3], u32> {
    let mut l = [UNSET; 3];
    let r = unsafe {
        svx_parse_voice(file.as_ptr(), file.len(), sheet.as_mut_ptr(), sheet.len(), left.as_mut_ptr(), left.len(),
            right.as_mut_ptr(), right.len(), l.as_mut_ptr())
    };
    three(r, l)
}

pub fn drawn_voice(number: u32, sheet: &mut [u8], left: &mut [i8], right: &mut [i8]) -> Result<[u64; 3], u32> {
    let mut l = [UNSET; 3];
    let r = unsafe {
        svx_drawn_voice(number, sheet.as_mut_ptr(), sheet.len(), left.as_mut_ptr(), left.len(), right.as_mut_ptr(), right.len(), l.as_mut_ptr())
    };
    three(r, l)
}

fn three(r: u32, l: [u64; 3]) -> Result<[u64; 3], u32> {
    match r {
        0 => Ok(l),
        r => { assert_eq!(l, [UNSET; 3], "a refused call wrote a length"); Err(r) }
    }
}

fn one(r: u32, n: u64) -> Result<usize, u32> {
    match r {
        0 => Ok(n as usize),
        r => { assert_eq!(n, UNSET, "a refused call wrote a length"); Err(r) }
    }
}

pub fn file_length(sheet: &[u8], left: &[i8], right: &[i8]) -> Result<usize, u32> {
    let mut n = UNSET;
    let r = unsafe { svx_file_length(sheet.as_ptr(), sheet.len(), left.as_ptr(), left.len(), right.as_ptr(), right.len(), &mut n) };
    one(r, n)
}

pub fn encode_voice(sheet: &[u8], left: &[i8], right: &[i8], file: &mut [u8]) -> Result<usize, u32> {
    let mut n = UNSET;
    let r = unsafe {
        svx_encode_voice(sheet.as_ptr(), sheet.len(), left.as_ptr(), left.len(), right.as_ptr(), right.len(),
            file.as_mut_ptr(), file.len(), &mut n)
    };
    one(r, n)
}

pub fn octave_wave_length(sheet: &[u8], left: &[i8], right: &[i8], octave: u8) -> Result<usize, u32> {
    let mut n = UNSET;
    let r = unsafe {
        svx_octave_wave_length(sheet.as_ptr(), sheet.len(), left.as_ptr(), left.len(), right.as_ptr(), right.len(), octave, &mut n)
    };
    one(r, n)
}

pub fn octave_wave(sheet: &[u8], left: &[i8], right: &[i8], octave: u8, file: &mut [u8]) -> Result<usize, u32> {
    let mut n = UNSET;
    let r = unsafe {
        svx_octave_wave(sheet.as_ptr(), sheet.len(), left.as_ptr(), left.len(), right.as_ptr(), right.len(), octave,
            file.as_mut_ptr(), file.len(), &mut n)
    };
    one(r, n)
}

pub fn decode_body(body: &[u8], compression: u8, channels: u16, frames: u64, out: &mut [u8]) -> Result<usize, u32> {
    let mut n = UNSET;
    let r = unsafe { svx_decode_body(body.as_ptr(), body.len(), compression, channels, frames, out.as_mut_ptr(), out.len(), &mut n) };
    one(r, n)
}

pub fn fibonacci_decode_channel(body: &[u8], out: &mut [i8]) -> Result<usize, u32> {
    let mut n = UNSET;
    let r = unsafe { svx_fibonacci_decode_channel(body.as_ptr(), body.len(), out.as_mut_ptr(), out.len(), &mut n) };
    one(r, n)
}

pub fn fibonacci_encode_channel(samples: &[i8], out: &mut [u8]) -> Result<usize, u32> {
    let mut n = UNSET;
    let r = unsafe { svx_fibonacci_encode_channel(samples.as_ptr(), samples.len(), out.as_mut_ptr(), out.len(), &mut n) };
    one(r, n)
}

pub fn difference_order(one_shot: u32, repeat: u32, octaves: u8, samples: &[i8], out: &mut [i8]) -> Result<usize, u32> {
    let mut n = UNSET;
    let r = unsafe { svx_difference_order(one_shot, repeat, octaves, samples.as_ptr(), samples.len(), out.as_mut_ptr(), out.len(), &mut n) };
    one(r, n)
}

pub fn difference_restore(one_shot: u32, repeat: u32, octaves: u8, values: &[i8], out: &mut [i8]) -> Result<usize, u32> {
    let mut n = UNSET;
    let r = unsafe { svx_difference_restore(one_shot, repeat, octaves, values.as_ptr(), values.len(), out.as_mut_ptr(), out.len(), &mut n) };
    one(r, n)
}

pub fn sheet_record(sheet: &[u8], at: u64) -> Record { unsafe { svx_sheet_record(sheet.as_ptr(), sheet.len(), at) } }
pub fn sheet_judge(sheet: &[u8]) -> u32 { unsafe { svx_sheet_judge(sheet.as_ptr(), sheet.len()) } }
pub fn frequency(rate: u16, per_cycle: u32) -> Frequency { unsafe { svx_hi_cycle_frequency_hz(rate, per_cycle) } }
pub fn pan_weights(position: i32) -> Pan { unsafe { svx_pan_weights(position) } }
pub fn volume_f32(volume: u32) -> f32 { unsafe { svx_volume_f32(volume) } }
pub fn peak(samples: &[i8]) -> Option<(u8, u64)> {
    let p = unsafe { svx_peak(samples.as_ptr(), samples.len()) };
    assert!(p.found || (p.magnitude, p.place) == (0, 0));
    p.found.then_some((p.magnitude, p.place))
}
pub fn nearest_crossing(samples: &[i8], place: u64, reach: u64) -> Result<u64, u32> {
    let mut i = UNSET;
    let r = unsafe { svx_nearest_crossing(samples.as_ptr(), samples.len(), place, reach, &mut i) };
    one(r, i).map(|i| i as u64)
}
pub fn level_at_ms(points: &[u8], start: i32, t: u64) -> i32 { unsafe { svx_level_at_ms(points.as_ptr(), points.len(), start, t) } }
pub fn octave_samples(one_shot: u32, repeat: u32, octaves: u8, k: u8) -> Part { unsafe { svx_octave_samples(one_shot, repeat, octaves, k) } }
pub fn loop_repeat(one_shot: u32, repeat: u32, octaves: u8, k: u8, octave_len: u64) -> Part {
    unsafe { svx_loop_repeat(one_shot, repeat, octaves, k, octave_len) }
}
pub fn side_samples(sheet: &[u8], left_len: u64, right_len: u64, right: bool) -> Part {
    unsafe { svx_side_samples(sheet.as_ptr(), sheet.len(), left_len, right_len, right) }
}
pub fn note_start(octave: u8, step: u32, rate: u32, velocity: u8) -> Note { held_as_zero(unsafe { svx_note_start(octave, step, rate, velocity) }) }
pub fn note_key_up(n: Note) -> Note { held_as_zero(unsafe { svx_note_key_up(n) }) }
pub fn note_fill(n: Note, sheet: &[u8], left: &[i8], right: &[i8], out: &mut [i16]) -> Filled {
    let f = unsafe { svx_note_fill(n, sheet.as_ptr(), sheet.len(), left.as_ptr(), left.len(), right.as_ptr(), right.len(), out.as_mut_ptr(), out.len()) };
    held_as_zero(f.note);
    f
}

/// The place after the block.
pub fn mix(score: &[Entry], rate: u32, place: u32, sheet: &[u8], left: &[i8], right: &[i8], out: &mut [i16]) -> Result<u32, u32> {
    let mut after = UNSET as u32;
    let r = unsafe {
        svx_mix(score.as_ptr(), score.len(), rate, place, sheet.as_ptr(), sheet.len(), left.as_ptr(), left.len(), right.as_ptr(), right.len(),
            out.as_mut_ptr(), out.len(), &mut after)
    };
    match r {
        0 => Ok(after),
        r => { assert_eq!(after, UNSET as u32, "a refused call wrote a place"); Err(r) }
    }
}

/// A held note comes back with the key-up frame 0, whatever it was handed in with.
fn held_as_zero(n: Note) -> Note {
    assert!(n.released || n.key_up == 0, "a held note has a key-up frame");
    n
}
