//! CHAN, PAN, ATAK and RLSE, SEQN, FADE: the small chunks of a voice.
use crate::bytes::{i32_at, u16_at, u32_at};
use crate::ffi;

/// Which speakers a voice plays on (CHAN).
#[derive(Clone, Copy, Debug, PartialEq, Eq)]
pub enum ChannelAssignment {
    /// One channel, played left (2) where no [`Pan`] says otherwise.
    Left,
    /// One channel, played right (4) where no [`Pan`] says otherwise.
    Right,
    /// Two channels, left and right (6).
    Stereo,
}

impl ChannelAssignment {
    /// The value in the file: 2, 4 or 6.
    pub fn raw(self) -> u32 {
        u32::from(self.to_byte())
    }

    /// How many channels of samples there are.
    pub fn channel_count(self) -> u16 {
        match self {
            ChannelAssignment::Left | ChannelAssignment::Right => 1,
            ChannelAssignment::Stereo => 2,
        }
    }

    /// The value in the sheet, which has one byte for it.
    pub(crate) fn to_byte(self) -> u8 {
        match self {
            ChannelAssignment::Left => 2,
            ChannelAssignment::Right => 4,
            ChannelAssignment::Stereo => 6,
        }
    }

    /// The assignment that has this value.
    pub(crate) fn from_byte(byte: u8) -> Option<ChannelAssignment> {
        match byte {
            2 => Some(ChannelAssignment::Left),
            4 => Some(ChannelAssignment::Right),
            6 => Some(ChannelAssignment::Stereo),
            _ => None,
        }
    }
}

/// Where between the speakers a voice of one channel plays (PAN).
///
/// It decides before the side of a [`ChannelAssignment`]. Two channels have a side each and don't look at it.
///
/// ```
/// use svx::{ChannelAssignment, ChannelSamples, Note, Pan, Sheet, Voice, VoiceHeader};
///
/// # fn main() -> Result<(), svx::Refusal> {
/// // One sample, 64, on the right side by its CHAN.
/// let right = Voice {
///     header: VoiceHeader { one_shot_hi_samples: 1, ..VoiceHeader::default() },
///     channel: Some(ChannelAssignment::Right),
///     channels: vec![ChannelSamples { octaves: vec![vec![64]] }],
///     ..Voice::default()
/// };
/// let left = Voice { pan: Some(Pan { position: Pan::LEFT }), ..right.clone() };
/// let mut frame = [0i16; 2];
/// Note::start(0, 65_536, 44_100, 127).fill(&Sheet::of(&right)?, &mut frame)?;
/// assert_eq!(frame, [0, 16_384]);
/// Note::start(0, 65_536, 44_100, 127).fill(&Sheet::of(&left)?, &mut frame)?;
/// assert_eq!(frame, [16_384, 0]);
/// # Ok(())
/// # }
/// ```
#[derive(Clone, Copy, Debug, PartialEq, Eq)]
pub struct Pan {
    /// From [`Pan::RIGHT`] through [`Pan::CENTER`] to [`Pan::LEFT`]; what lies outside counts as the nearer end.
    pub position: i32,
}

impl Pan {
    /// Fully right.
    pub const RIGHT: i32 = 0;
    /// In the middle.
    pub const CENTER: i32 = 32_768;
    /// Fully left.
    pub const LEFT: i32 = 65_536;

    /// The left speaker's share, from 0.0 to 1.0.
    pub fn left_weight(&self) -> f32 {
        ffi::pan_weights(self.position).0
    }

    /// The right speaker's share, from 0.0 to 1.0. Both together are 1.0.
    pub fn right_weight(&self) -> f32 {
        ffi::pan_weights(self.position).1
    }
}

/// A point of an envelope: within so many milliseconds, go to a level.
#[derive(Clone, Copy, Debug, Default, PartialEq, Eq)]
pub struct EgPoint {
    /// How long it takes, in milliseconds; 0 is at once.
    pub duration_ms: u16,
    /// The level to go to; 65,536 is full.
    pub dest: i32,
}

impl EgPoint {
    pub(crate) fn to_bytes(self) -> Vec<u8> {
        [&self.duration_ms.to_be_bytes()[..], &self.dest.to_be_bytes()].concat()
    }

    pub(crate) fn from_bytes(body: &[u8]) -> EgPoint {
        EgPoint {
            duration_ms: u16_at(body, 0),
            dest: i32_at(body, 2),
        }
    }
}

/// How the level moves: one ATAK or RLSE chunk. A voice may have several of each; a note joins them.
#[derive(Clone, Debug, Default, PartialEq, Eq)]
pub struct Envelope {
    /// The points, in order.
    pub points: Vec<EgPoint>,
}

impl Envelope {
    /// The level `t_ms` milliseconds in, begun at `start`: straight lines from point to point, then the last level.
    ///
    /// ```
    /// use svx::{EgPoint, Envelope};
    ///
    /// let envelope = Envelope { points: vec![EgPoint { duration_ms: 10, dest: 65_536 }] };
    /// assert_eq!(envelope.level_at_ms(0, 3), 19_660);
    /// assert_eq!(envelope.level_at_ms(0, 10), 65_536);
    /// ```
    pub fn level_at_ms(&self, start: i32, t_ms: u64) -> i32 {
        let points: Vec<u8> = self.points.iter().flat_map(|p| p.to_bytes()).collect();
        ffi::level_at_ms(&points, start, t_ms)
    }

    /// How long all points take together, in milliseconds.
    pub fn total_duration_ms(&self) -> u64 {
        self.points
            .iter()
            .fold(0, |sum, p| sum.saturating_add(u64::from(p.duration_ms)))
    }
}

/// A part of the waveform to be played (in SEQN), as places in the highest octave.
#[derive(Clone, Copy, Debug, Default, PartialEq, Eq)]
pub struct SeqnSegment {
    /// The first sample; a multiple of 4.
    pub start: u32,
    /// The place past the last sample; a multiple of 4.
    pub end: u32,
}

impl SeqnSegment {
    /// How many samples it has in the highest octave; 0 where it runs backwards.
    pub fn len(&self) -> u32 {
        self.end.saturating_sub(self.start)
    }

    /// Whether it has none.
    pub fn is_empty(&self) -> bool {
        self.len() == 0
    }

    pub(crate) fn to_bytes(self) -> Vec<u8> {
        [self.start.to_be_bytes(), self.end.to_be_bytes()].concat()
    }

    pub(crate) fn from_bytes(body: &[u8]) -> SeqnSegment {
        SeqnSegment {
            start: u32_at(body, 0),
            end: u32_at(body, 4),
        }
    }
}

/// In which order parts of the waveform are played (SEQN). The header's one-shot part has to be empty then.
#[derive(Clone, Debug, Default, PartialEq, Eq)]
pub struct Seqn {
    /// The segments, in the order in which they are played.
    pub segments: Vec<SeqnSegment>,
}

/// Where the sound begins to fade out (FADE).
#[derive(Clone, Copy, Debug, Default, PartialEq, Eq)]
pub struct Fade {
    /// Which of the segments of [`Seqn`], from 0 on.
    pub segment: u32,
}
