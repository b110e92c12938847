//! The library's C interface, as `include/svx.h` has it: the one declaration of it in Rust, which `tools/compare` takes
//! as well.

#[repr(C)]
#[derive(Clone, Copy, Debug, PartialEq)]
pub struct Note {
    pub octave: u8,
    pub velocity: u8,
    pub step: u32,
    pub rate: u32,
    pub frames: u32,
    pub released: bool,
    pub key_up: u32,
}

#[repr(C)]
#[derive(Clone, Copy, Debug, PartialEq)]
pub struct Filled {
    pub refusal: u32,
    pub sounding: u64,
    pub note: Note,
}

/// An entry of a score: one note of a [`mix`](crate::mix()), by its frames in the mix. It is lent to the library as it is, so
/// it has C's layout.
#[repr(C)]
#[derive(Clone, Copy, Debug, PartialEq, Eq)]
pub struct Entry {
    /// The mixed frame at which its first frame sounds; not below the start of the entry before it.
    pub start: u32,
    /// The mixed frame at which the key is let go; not below the start. Until then it is held, however far ahead this is.
    pub key_up: u32,
    /// How far each frame goes on, as in a note; 65,536 is one sample. Up to 16,777,216.
    pub step: u32,
    /// Which octave of the voice, 0 the highest.
    pub octave: u8,
    /// How hard the key was struck, from 1 to 127.
    pub velocity: u8,
}

/// `step` is 0 for a record; the end and both refusals come without one.
#[repr(C)]
#[derive(Clone, Copy, Debug, PartialEq)]
pub struct Record {
    pub step: u8,
    pub kind: u8,
    pub start: u64,
    pub next: u64,
}

#[repr(C)]
#[derive(Clone, Copy, Debug, PartialEq)]
pub struct Frequency {
    pub known: bool,
    pub hertz: f64,
}

#[repr(C)]
#[derive(Clone, Copy, Debug, PartialEq)]
pub struct Pan {
    pub left: f32,
    pub right: f32,
}

#[repr(C)]
#[derive(Clone, Copy, Debug, PartialEq)]
pub struct Peak {
    pub found: bool,
    pub magnitude: u8,
    pub place: u64,
}

#[repr(C)]
#[derive(Clone, Copy, Debug, PartialEq)]
pub struct Part {
    pub there: bool,
    pub start: u64,
    pub length: u64,
}

extern "C" {
    pub fn svx_voice_lengths(file: *const u8, file_len: usize, lengths: *mut u64) -> u32;
    pub fn svx_parse_voice(
        file: *const u8,
        file_len: usize,
        sheet: *mut u8,
        sheet_len: usize,
        left: *mut i8,
        left_len: usize,
        right: *mut i8,
        right_len: usize,
        lengths: *mut u64,
    ) -> u32;
    pub fn svx_file_length(
        sheet: *const u8,
        sheet_len: usize,
        left: *const i8,
        left_len: usize,
        right: *const i8,
        right_len: usize,
        length: *mut u64,
    ) -> u32;
    pub fn svx_encode_voice(
        sheet: *const u8,
        sheet_len: usize,
        left: *const i8,
        left_len: usize,
        right: *const i8,
        right_len: usize,
        file: *mut u8,
        file_len: usize,
        length: *mut u64,
    ) -> u32;
    pub fn svx_octave_wave_length(
        sheet: *const u8,
        sheet_len: usize,
        left: *const i8,
        left_len: usize,
        right: *const i8,
        right_len: usize,
        octave: u8,
        length: *mut u64,
    ) -> u32;
    pub fn svx_octave_wave(
        sheet: *const u8,
        sheet_len: usize,
        left: *const i8,
        left_len: usize,
        right: *const i8,
        right_len: usize,
        octave: u8,
        file: *mut u8,
        file_len: usize,
        length: *mut u64,
    ) -> u32;
    pub fn svx_note_start(octave: u8, step: u32, rate: u32, velocity: u8) -> Note;
    pub fn svx_note_key_up(note: Note) -> Note;
    pub fn svx_note_fill(
        note: Note,
        sheet: *const u8,
        sheet_len: usize,
        left: *const i8,
        left_len: usize,
        right: *const i8,
        right_len: usize,
        out: *mut i16,
        out_len: usize,
    ) -> Filled;
    pub fn svx_mix(
        score: *const Entry,
        score_len: usize,
        rate: u32,
        place: u32,
        sheet: *const u8,
        sheet_len: usize,
        left: *const i8,
        left_len: usize,
        right: *const i8,
        right_len: usize,
        out: *mut i16,
        out_len: usize,
        after: *mut u32,
    ) -> u32;
    pub fn svx_decode_body(
        body: *const u8,
        body_len: usize,
        compression: u8,
        channels: u16,
        frames: u64,
        out: *mut u8,
        out_len: usize,
        length: *mut u64,
    ) -> u32;
    pub fn svx_fibonacci_decode_channel(
        body: *const u8,
        body_len: usize,
        out: *mut i8,
        out_len: usize,
        length: *mut u64,
    ) -> u32;
    pub fn svx_fibonacci_encode_channel(
        samples: *const i8,
        samples_len: usize,
        out: *mut u8,
        out_len: usize,
        length: *mut u64,
    ) -> u32;
    pub fn svx_difference_order(
        one_shot: u32,
        repeat: u32,
        octaves: u8,
        samples: *const i8,
        samples_len: usize,
        out: *mut i8,
        out_len: usize,
        length: *mut u64,
    ) -> u32;
    pub fn svx_difference_restore(
        one_shot: u32,
        repeat: u32,
        octaves: u8,
        values: *const i8,
        values_len: usize,
        out: *mut i8,
        out_len: usize,
        length: *mut u64,
    ) -> u32;
    pub fn svx_drawn_voice(
        number: u32,
        sheet: *mut u8,
        sheet_len: usize,
        left: *mut i8,
        left_len: usize,
        right: *mut i8,
        right_len: usize,
        lengths: *mut u64,
    ) -> u32;
    pub fn svx_sheet_record(sheet: *const u8, sheet_len: usize, at: u64) -> Record;
    /// For the comparison alone: here, measuring the file that a sheet would make judges the sheet too.
    #[allow(dead_code)]
    pub fn svx_sheet_judge(sheet: *const u8, sheet_len: usize) -> u32;
    pub fn svx_hi_cycle_frequency_hz(rate: u16, samples_per_cycle: u32) -> Frequency;
    pub fn svx_pan_weights(position: i32) -> Pan;
    pub fn svx_volume_f32(volume: u32) -> f32;
    pub fn svx_peak(samples: *const i8, samples_len: usize) -> Peak;
    pub fn svx_nearest_crossing(
        samples: *const i8,
        samples_len: usize,
        place: u64,
        reach: u64,
        crossing: *mut u64,
    ) -> u32;
    pub fn svx_level_at_ms(points: *const u8, points_len: usize, start: i32, t_ms: u64) -> i32;
    pub fn svx_octave_samples(one_shot: u32, repeat: u32, octaves: u8, k: u8) -> Part;
    pub fn svx_loop_repeat(one_shot: u32, repeat: u32, octaves: u8, k: u8, octave_len: u64) -> Part;
    pub fn svx_side_samples(sheet: *const u8, sheet_len: usize, left_len: u64, right_len: u64, right: bool) -> Part;
}
