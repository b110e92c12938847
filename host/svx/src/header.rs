//! VHDR: the voice header.
use crate::bytes::{u16_at, u32_at, u8_at};
use crate::ffi;
use crate::sheet::HEADER;

/// Full volume, and the full level of an envelope: 1.0 as 16.16 fixed point.
pub const UNITY_VOLUME: u32 = 65_536;

/// The header of a voice (VHDR): how long its waveforms are, how fast and how loud they are played.
///
/// A waveform has a one-shot part, which is played once, and a repeat part, which is played over and over after it. A
/// voice may have several octaves: octave 0 is the highest and shortest, and each further one is twice as long.
#[derive(Clone, Copy, Debug, PartialEq, Eq)]
pub struct VoiceHeader {
    /// Samples in the one-shot part of the highest octave.
    pub one_shot_hi_samples: u32,
    /// Samples in the repeat part of the highest octave.
    pub repeat_hi_samples: u32,
    /// Samples in one cycle of the highest octave; 0 where it isn't known.
    pub samples_per_hi_cycle: u32,
    /// The rate that the voice was sampled at, in samples a second.
    pub samples_per_sec: u16,
    /// How many octaves there are; 0 counts as 1.
    pub ct_octave: u8,
    /// How BODY is stored: 0 raw, 1 Fibonacci-coded. Others are refused by 10.
    pub compression_byte: u8,
    /// The volume; [`UNITY_VOLUME`] is full.
    pub volume: u32,
}

impl Default for VoiceHeader {
    /// A header for one octave of raw samples at full volume, with the lengths and the rate left at 0.
    fn default() -> VoiceHeader {
        VoiceHeader {
            one_shot_hi_samples: 0,
            repeat_hi_samples: 0,
            samples_per_hi_cycle: 0,
            samples_per_sec: 0,
            ct_octave: 1,
            compression_byte: 0,
            volume: UNITY_VOLUME,
        }
    }
}

impl VoiceHeader {
    /// Samples in the highest octave: the one-shot part and the repeat part together.
    pub fn hi_octave_samples(&self) -> u64 {
        u64::from(self.one_shot_hi_samples) + u64::from(self.repeat_hi_samples)
    }

    /// Samples in octave `k`, of which 0 is the highest; none from 64 or the number of octaves on. Bits past 64 are
    /// dropped.
    pub fn octave_samples(&self, k: u8) -> Option<u64> {
        ffi::octave_samples(self.one_shot_hi_samples, self.repeat_hi_samples, self.ct_octave, k)
    }

    /// Samples in the one-shot part of octave `k`; none where [`octave_samples`](Self::octave_samples) gives none.
    pub fn one_shot_samples(&self, k: u8) -> Option<u64> {
        ffi::octave_samples(self.one_shot_hi_samples, 0, self.ct_octave, k)
    }

    /// Samples in the repeat part of octave `k`; none where [`octave_samples`](Self::octave_samples) gives none.
    pub fn repeat_samples(&self, k: u8) -> Option<u64> {
        ffi::octave_samples(0, self.repeat_hi_samples, self.ct_octave, k)
    }

    /// Samples in all octaves of a channel together; none where 64 bits can't count them. With lengths of 0 it is 0,
    /// and then a channel may have any number of samples.
    pub fn total_samples_per_channel(&self) -> Option<u64> {
        // The library tells how many samples of a side are a sheet's: of the longest side there can be, the total. With
        // lengths of 0 it is as many as the side has, so here a side that has none.
        let longest = if self.hi_octave_samples() == 0 { 0 } else { u64::MAX };
        let mut sheet = vec![HEADER];
        sheet.extend(self.to_bytes());
        ffi::left_samples(&sheet, longest)
    }

    /// Whether there is a repeat part.
    pub fn has_loop(&self) -> bool {
        self.repeat_hi_samples > 0
    }

    /// The volume as a float: 1.0 is full. It isn't clamped.
    pub fn volume_f32(&self) -> f32 {
        ffi::volume_f32(self.volume)
    }

    /// The frequency of the highest octave's cycle in hertz, the rate over the samples per cycle; none where either is
    /// 0.
    pub fn hi_cycle_frequency_hz(&self) -> Option<f64> {
        ffi::hi_cycle_frequency_hz(self.samples_per_sec, self.samples_per_hi_cycle)
    }

    /// How many octaves of samples a channel has: with lengths of 0, one.
    pub(crate) fn octaves(&self) -> u8 {
        if self.hi_octave_samples() == 0 {
            1
        } else {
            self.ct_octave.max(1)
        }
    }

    /// The header's bytes, as VHDR and the sheet's header record have them.
    pub(crate) fn to_bytes(self) -> Vec<u8> {
        let mut bytes = Vec::with_capacity(20);
        bytes.extend(self.one_shot_hi_samples.to_be_bytes());
        bytes.extend(self.repeat_hi_samples.to_be_bytes());
        bytes.extend(self.samples_per_hi_cycle.to_be_bytes());
        bytes.extend(self.samples_per_sec.to_be_bytes());
        bytes.extend([self.ct_octave, self.compression_byte]);
        bytes.extend(self.volume.to_be_bytes());
        bytes
    }

    /// The header that has these bytes.
    pub(crate) fn from_bytes(body: &[u8]) -> VoiceHeader {
        VoiceHeader {
            one_shot_hi_samples: u32_at(body, 0),
            repeat_hi_samples: u32_at(body, 4),
            samples_per_hi_cycle: u32_at(body, 8),
            samples_per_sec: u16_at(body, 12),
            ct_octave: u8_at(body, 14),
            compression_byte: u8_at(body, 15),
            volume: u32_at(body, 16),
        }
    }
}
