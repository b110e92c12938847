//! A voice by its parts.
use crate::ffi;
use crate::{ChannelAssignment, Envelope, Fade, Pan, Refusal, Seqn, VoiceHeader};

/// A voice by its parts, to be looked at, changed and put together. To play one, make a [`Sheet`](crate::Sheet) of it.
#[derive(Clone, Debug, Default, PartialEq, Eq)]
pub struct Voice {
    /// The header (VHDR).
    pub header: VoiceHeader,
    /// Which speakers it plays on (CHAN); none is one channel, on both.
    pub channel: Option<ChannelAssignment>,
    /// Where between the speakers one channel plays (PAN), whichever side CHAN names; see [`Pan`].
    pub pan: Option<Pan>,
    /// How the level moves from the start on (ATAK), in file order.
    pub attack: Vec<Envelope>,
    /// How the level moves from the key-up on (RLSE), in file order.
    pub release: Vec<Envelope>,
    /// In which order parts of the waveform are played (SEQN).
    pub seqn: Option<Seqn>,
    /// Where the sound begins to fade out (FADE).
    pub fade: Option<Fade>,
    /// Texts by their keys, in file order: `title` (NAME), `artist` (AUTH), `comment` (ANNO), `copyright` (`(c) `) and
    /// `characters` (CHRS). Other keys aren't written.
    pub metadata: Vec<(String, String)>,
    /// The samples: one channel, or left and right.
    pub channels: Vec<ChannelSamples>,
}

impl Voice {
    /// How many channels of samples it has.
    pub fn channel_count(&self) -> usize {
        self.channels.len()
    }

    /// How many octaves its first channel has.
    pub fn octave_count(&self) -> usize {
        self.channels.first().map_or(0, |c| c.octaves.len())
    }
}

/// The samples of a channel, cut into octaves.
#[derive(Clone, Debug, Default, PartialEq, Eq)]
pub struct ChannelSamples {
    /// The octaves, the highest and shortest first.
    pub octaves: Vec<Vec<i8>>,
}

impl ChannelSamples {
    /// The highest octave; empty where there is none.
    pub fn hi(&self) -> &[i8] {
        self.octaves.first().map_or(&[], Vec::as_slice)
    }

    /// How many samples all octaves have together.
    pub fn total_len(&self) -> usize {
        self.octaves.iter().map(Vec::len).sum()
    }

    /// All octaves joined, in the order in which BODY has them.
    pub fn flattened(&self) -> Vec<i8> {
        self.octaves.concat()
    }

    /// Octave `k` as its one-shot part and its repeat part; none where it isn't there, or where the parts by the header
    /// don't make it up.
    pub fn loop_split(&self, header: &VoiceHeader, k: u8) -> Option<(&[i8], &[i8])> {
        let octave = self.octaves.get(usize::from(k))?;
        let length = u64::try_from(octave.len()).ok()?;
        let (one_shot, repeat) = (header.one_shot_hi_samples, header.repeat_hi_samples);
        let start = ffi::loop_start(one_shot, repeat, header.ct_octave, k, length)?;
        octave.split_at_checked(usize::try_from(start).ok()?)
    }

    /// The crossing nearest to a place of octave `k`, as [`nearest_crossing`](crate::nearest_crossing) finds it. Refused
    /// by 31, where there is no such octave, then by 43.
    ///
    /// ```
    /// use svx::{ChannelSamples, VoiceHeader};
    ///
    /// # fn main() -> Result<(), svx::Refusal> {
    /// let header = VoiceHeader { one_shot_hi_samples: 3, repeat_hi_samples: 5, ..VoiceHeader::default() };
    /// let channel = ChannelSamples { octaves: vec![vec![0, 40, 25, 8, -6, -30, -12, 9]] };
    ///
    /// // A loop that begins on 8 and ends after 9: both ends may move to a crossing close by.
    /// let (one_shot, repeat) = channel.loop_split(&header, 0).expect("both parts make up the octave");
    /// let (start, end) = (one_shot.len(), one_shot.len() + repeat.len());
    /// assert_eq!(channel.nearest_crossing(0, start, 2)?, 4);
    /// assert_eq!(channel.nearest_crossing(0, end, 2)?, 7);
    /// # Ok(())
    /// # }
    /// ```
    pub fn nearest_crossing(&self, k: u8, place: usize, reach: usize) -> Result<usize, Refusal> {
        let octave = self.octaves.get(usize::from(k)).ok_or(Refusal::NO_OCTAVE)?;
        crate::nearest_crossing(octave, place, reach)
    }

    /// A side's samples, cut into octaves by the header.
    pub(crate) fn cut(header: &VoiceHeader, side: &[i8]) -> ChannelSamples {
        if header.hi_octave_samples() == 0 {
            return ChannelSamples {
                octaves: vec![side.to_vec()],
            };
        }
        let mut rest = side;
        let mut octaves = Vec::new();
        for k in 0..header.octaves() {
            // A sheet's sides suit its header, so each octave is there in full.
            let length = header
                .octave_samples(k)
                .and_then(|n| usize::try_from(n).ok())
                .unwrap_or(0);
            let (octave, after) = rest.split_at_checked(length).unwrap_or((rest, &[]));
            octaves.push(octave.to_vec());
            rest = after;
        }
        ChannelSamples { octaves }
    }

    /// Whether it is cut into octaves as the header says, for samples whose number suits it.
    pub(crate) fn is_cut_by(&self, header: &VoiceHeader) -> bool {
        if self.octaves.len() != usize::from(header.octaves()) {
            return false;
        }
        let any_length = header.hi_octave_samples() == 0;
        let suits = |(k, octave): (u8, &Vec<i8>)| header.octave_samples(k) == u64::try_from(octave.len()).ok();
        any_length || (0..=u8::MAX).zip(&self.octaves).all(suits)
    }
}
