//! The sheet: a voice in flat form.
use crate::bytes::{i32_at, u32_at, u8_at};
use crate::ffi;
use crate::{
    ChannelAssignment, ChannelSamples, EgPoint, Envelope, Fade, Pan, Refusal, Seqn, SeqnSegment, Voice, VoiceHeader,
};

// The kinds of records. A channel, a text's key and a text's byte have one byte, a header 20, a pan and a fade 4, a
// point 6, a segment 8, and those that begin a group none.
pub(crate) const HEADER: u8 = 1;
const CHANNEL: u8 = 2;
const PAN: u8 = 3;
const ATTACK: u8 = 4;
const RELEASE: u8 = 5;
const POINT: u8 = 6;
const SEQUENCE: u8 = 7;
const SEGMENT: u8 = 8;
const FADE: u8 = 9;
const TEXT: u8 = 10;
const TEXT_BYTE: u8 = 11;

/// The keys of texts; a sheet counts them from 1.
const KEYS: [&str; 5] = ["title", "artist", "comment", "copyright", "characters"];

/// A voice in the flat form that the library works on, which is what a [`Note`](crate::Note) plays: records of
/// everything but the samples, and the samples of both sides. It is made once and kept for as long as it is played.
///
/// What is in a sheet was judged when it was made: its records are in order, its texts are UTF-8, its compression is
/// known, and its samples suit its header.
#[derive(Clone, Debug, PartialEq, Eq)]
pub struct Sheet {
    bytes: Vec<u8>,
    left: Vec<i8>,
    right: Vec<i8>,
}

impl Sheet {
    /// Reads a file. Refused by 1 to 14.
    pub fn read(file: &[u8]) -> Result<Sheet, Refusal> {
        let [bytes, left, right] = ffi::voice_lengths(file)?;
        let mut sheet = Sheet {
            bytes: vec![0; bytes],
            left: vec![0; left],
            right: vec![0; right],
        };
        ffi::parse_voice(file, &mut sheet.bytes, &mut sheet.left, &mut sheet.right)?;
        Ok(sheet)
    }

    /// The sheet of a voice. Texts with other keys than the five are left out.
    ///
    /// Refused by 10 and 13 as writing is, and by 18 where the samples don't suit: another number of channels than CHAN
    /// says, channels of different lengths, or octaves that aren't cut as the header says.
    pub fn of(voice: &Voice) -> Result<Sheet, Refusal> {
        let side = |i: usize| voice.channels.get(i).map(ChannelSamples::flattened).unwrap_or_default();
        let sheet = Sheet::from_parts(records_of(voice), side(0), side(1))?;
        // The flat form has neither the cuts between octaves nor the number of channels, so these are looked at here.
        let channels = voice.channel.map_or(1, |c| usize::from(c.channel_count()));
        if voice.channels.len() != channels || !voice.channels.iter().all(|c| c.is_cut_by(&voice.header)) {
            return Err(Refusal::SAMPLES_UNSUITED);
        }
        Ok(sheet)
    }

    /// The voice that is drawn from a number, from 1 on: the same on every machine, so that hosts can be put under the
    /// same load, by the thousand. Each of them can be played and written, and reads back the same.
    ///
    /// A draw changes a number `x` of 32 bits: it becomes `x ^ (x << 13)`, then `x ^ (x >> 17)`, then `x ^ (x << 5)`, each
    /// kept to 32 bits, and what it is then is drawn. The first draw changes the number that is given, and every other
    /// one what the draw before it gave. They give, one after the other,
    ///
    /// 1. the channels: two where the lowest bit is 1, else one,
    /// 2. the octaves: 1 + the remainder by 4,
    /// 3. the one-shot part of the highest octave: the remainder by 64,
    /// 4. its repeat part: the remainder by 64; where both are 0, the one-shot part becomes 1,
    /// 5. the rate: 8,000 + the remainder by 40,000,
    /// 6. and from here on a sample each, the lowest byte as a signed one: every left sample, the highest octave first,
    ///    and of two channels then every right one.
    ///
    /// CHAN is 6 for two channels, and there is none for one. Samples per cycle and compression are 0, the volume is full,
    /// and there is nothing else.
    ///
    /// Refused by 48, where the number is 0.
    ///
    /// ```
    /// use svx::{ChannelAssignment, Sheet, VoiceHeader};
    ///
    /// # fn main() -> Result<(), svx::Refusal> {
    /// let sheet = Sheet::drawn(50_887)?;
    /// // The third and the fourth draw both leave 0 by 64, so there is a one-shot part of 1: octaves of 1 and of 2 samples.
    /// let header = VoiceHeader {
    ///     one_shot_hi_samples: 1,
    ///     samples_per_sec: 41_276,
    ///     ct_octave: 2,
    ///     ..VoiceHeader::default()
    /// };
    /// assert_eq!(sheet.header(), header);
    /// assert_eq!(sheet.voice().channel, Some(ChannelAssignment::Stereo));
    /// assert_eq!(sheet.left(), [47, 22, 105]);
    /// assert_eq!(sheet.right(), [-68, -95, -81]);
    ///
    /// assert_eq!(Sheet::read(&sheet.write()?)?, sheet);
    /// assert_eq!(Sheet::drawn(0).unwrap_err().number(), 48);
    /// # Ok(())
    /// # }
    /// ```
    pub fn drawn(number: u32) -> Result<Sheet, Refusal> {
        // Room for the voice of any number. What is kept is as long as the voice, since there may be thousands of them.
        let (mut bytes, mut left, mut right) = ([0; 23], [0; 1_890], [0; 1_890]);
        let lengths = ffi::drawn_voice(number, &mut bytes, &mut left, &mut right)?;
        Ok(Sheet {
            bytes: bytes.into_iter().take(lengths[0]).collect(),
            left: left.into_iter().take(lengths[1]).collect(),
            right: right.into_iter().take(lengths[2]).collect(),
        })
    }

    /// A sheet from its three parts, as [`bytes`](Self::bytes), [`left`](Self::left) and [`right`](Self::right) give
    /// them, for a host that keeps them in a form of its own. Refused by 15 to 17, 10, 13 and 18 as writing is.
    pub fn from_parts(bytes: Vec<u8>, left: Vec<i8>, right: Vec<i8>) -> Result<Sheet, Refusal> {
        match ffi::file_length(&bytes, &left, &right) {
            // Too long for a file, but it can be played.
            Ok(_) | Err(Refusal::FORM_LENGTH) => Ok(Sheet { bytes, left, right }),
            Err(refusal) => Err(refusal),
        }
    }

    /// The records of everything but the samples.
    pub fn bytes(&self) -> &[u8] {
        &self.bytes
    }

    /// The left side's samples, all octaves joined; one channel has its samples here, wherever it plays.
    pub fn left(&self) -> &[i8] {
        &self.left
    }

    /// The right side's samples, all octaves joined; empty for one channel.
    pub fn right(&self) -> &[i8] {
        &self.right
    }

    /// The three parts themselves, which [`from_parts`](Self::from_parts) takes again.
    pub fn into_parts(self) -> (Vec<u8>, Vec<i8>, Vec<i8>) {
        (self.bytes, self.left, self.right)
    }

    /// The header alone.
    pub fn header(&self) -> VoiceHeader {
        // A sheet has one, as it was judged.
        let header = self.records().find(|(kind, _)| *kind == HEADER);
        header.map_or_else(VoiceHeader::default, |(_, body)| VoiceHeader::from_bytes(body))
    }

    /// The records one at a time, each as its kind and its body.
    pub fn records(&self) -> Records<'_> {
        Records {
            sheet: &self.bytes,
            at: 0,
        }
    }

    /// The voice by its parts.
    pub fn voice(&self) -> Voice {
        let mut voice = Voice::default();
        let mut texts: Vec<(u8, Vec<u8>)> = Vec::new();
        for (kind, body) in self.records() {
            match kind {
                TEXT => texts.push((u8_at(body, 0), Vec::new())),
                TEXT_BYTE => texts.last_mut().into_iter().for_each(|(_, text)| text.extend(body)),
                _ => take_record(&mut voice, kind, body),
            }
        }
        voice.metadata = texts
            .into_iter()
            .filter_map(|(key, text)| Some((key_name(key)?, text_of(&text))))
            .collect();
        voice.channels = vec![ChannelSamples::cut(&voice.header, &self.left)];
        if voice.channel == Some(ChannelAssignment::Stereo) {
            voice.channels.push(ChannelSamples::cut(&voice.header, &self.right));
        }
        voice
    }

    /// Writes a file. Refused by 19, where the FORM would be too long.
    pub fn write(&self) -> Result<Vec<u8>, Refusal> {
        let length = ffi::file_length(&self.bytes, &self.left, &self.right)?;
        let mut file = vec![0; length];
        ffi::encode_voice(&self.bytes, &self.left, &self.right, &mut file)?;
        Ok(file)
    }

    /// Writes an octave, of which 0 is the highest, as a RIFF WAVE file: 8-bit PCM at the voice's rate, of two channels
    /// left and right by turns. With lengths of 0, octave 0 is all the samples, and there is no other.
    ///
    /// The data begin at byte 44. Each value is the sample plus 128, since 8-bit values of such a file have no sign.
    ///
    /// Refused by 31, where the voice has no such octave, then by 41, where its rate is 0, and by 19, where the RIFF
    /// would be too long.
    ///
    /// ```
    /// use svx::{ChannelSamples, Sheet, Voice, VoiceHeader};
    ///
    /// # fn main() -> Result<(), svx::Refusal> {
    /// // One sample, -2.
    /// let sheet = Sheet::of(&Voice {
    ///     header: VoiceHeader { one_shot_hi_samples: 1, samples_per_sec: 8_000, ..VoiceHeader::default() },
    ///     channels: vec![ChannelSamples { octaves: vec![vec![-2]] }],
    ///     ..Voice::default()
    /// })?;
    /// let file = sheet.octave_wave(0)?;
    /// // The data have one byte, -2 + 128. The byte after it makes the file's length even.
    /// assert_eq!(file[36..], [b'd', b'a', b't', b'a', 1, 0, 0, 0, 126, 0]);
    /// assert_eq!(sheet.octave_wave(1).unwrap_err().number(), 31);
    /// # Ok(())
    /// # }
    /// ```
    pub fn octave_wave(&self, octave: u8) -> Result<Vec<u8>, Refusal> {
        let mut file = vec![0; self.octave_wave_length(octave)?];
        ffi::octave_wave(&self.bytes, &self.left, &self.right, octave, &mut file)?;
        Ok(file)
    }

    /// How many bytes [`octave_wave`](Self::octave_wave) gives, without making them. Refused as it is.
    pub fn octave_wave_length(&self, octave: u8) -> Result<usize, Refusal> {
        ffi::octave_wave_length(&self.bytes, &self.left, &self.right, octave)
    }
}

/// The records of a [`Sheet`], each as its kind and its body; see [`Sheet::records`].
///
/// The kinds, with the lengths of their bodies: 1 header (20), 2 channel (1), 3 pan (4), 4 an attack begins (0), 5 a
/// release begins (0), 6 point (6), 7 the sequence begins (0), 8 segment (8), 9 fade (4), 10 a text begins, by its key
/// from 1 to 5 (1), 11 a text's byte (1).
#[derive(Clone, Debug)]
pub struct Records<'a> {
    sheet: &'a [u8],
    at: usize,
}

impl<'a> Iterator for Records<'a> {
    type Item = (u8, &'a [u8]);

    fn next(&mut self) -> Option<(u8, &'a [u8])> {
        let (kind, start, next) = ffi::sheet_record(self.sheet, self.at)?;
        self.at = next;
        Some((kind, self.sheet.get(start..next)?))
    }
}

impl std::iter::FusedIterator for Records<'_> {}

/// Puts a record, not one of a text, into its place in a voice.
fn take_record(voice: &mut Voice, kind: u8, body: &[u8]) {
    match kind {
        HEADER => voice.header = VoiceHeader::from_bytes(body),
        CHANNEL => voice.channel = ChannelAssignment::from_byte(u8_at(body, 0)),
        PAN => {
            voice.pan = Some(Pan {
                position: i32_at(body, 0),
            })
        }
        ATTACK => voice.attack.push(Envelope::default()),
        RELEASE => voice.release.push(Envelope::default()),
        POINT => {
            // Attacks come before releases, so once there is a release a point is the last one's.
            let envelope = voice.release.last_mut().or(voice.attack.last_mut());
            envelope
                .into_iter()
                .for_each(|e| e.points.push(EgPoint::from_bytes(body)));
        }
        SEQUENCE => voice.seqn = Some(Seqn::default()),
        SEGMENT => voice
            .seqn
            .iter_mut()
            .for_each(|s| s.segments.push(SeqnSegment::from_bytes(body))),
        FADE => {
            voice.fade = Some(Fade {
                segment: u32_at(body, 0),
            })
        }
        _ => {}
    }
}

/// The name of a text's key.
fn key_name(key: u8) -> Option<String> {
    let place = usize::from(key).checked_sub(1)?;
    KEYS.get(place).map(ToString::to_string)
}

/// A text. Those of a sheet are UTF-8, so nothing is lost.
fn text_of(text: &[u8]) -> String {
    String::from_utf8_lossy(text).into_owned()
}

/// The records of a voice.
fn records_of(voice: &Voice) -> Vec<u8> {
    let mut sheet = Vec::new();
    put(&mut sheet, HEADER, &voice.header.to_bytes());
    if let Some(channel) = voice.channel {
        put(&mut sheet, CHANNEL, &[channel.to_byte()]);
    }
    if let Some(pan) = voice.pan {
        put(&mut sheet, PAN, &pan.position.to_be_bytes());
    }
    put_envelopes(&mut sheet, ATTACK, &voice.attack);
    put_envelopes(&mut sheet, RELEASE, &voice.release);
    if let Some(seqn) = &voice.seqn {
        put(&mut sheet, SEQUENCE, &[]);
        seqn.segments
            .iter()
            .for_each(|s| put(&mut sheet, SEGMENT, &s.to_bytes()));
    }
    if let Some(fade) = voice.fade {
        put(&mut sheet, FADE, &fade.segment.to_be_bytes());
    }
    for (key, text) in &voice.metadata {
        put_text(&mut sheet, key, text);
    }
    sheet
}

fn put(sheet: &mut Vec<u8>, kind: u8, body: &[u8]) {
    sheet.push(kind);
    sheet.extend(body);
}

fn put_envelopes(sheet: &mut Vec<u8>, kind: u8, envelopes: &[Envelope]) {
    for envelope in envelopes {
        put(sheet, kind, &[]);
        envelope.points.iter().for_each(|p| put(sheet, POINT, &p.to_bytes()));
    }
}

/// A text with one of the five keys; others are left out.
fn put_text(sheet: &mut Vec<u8>, key: &str, text: &str) {
    let numbered = (1..).zip(KEYS).find(|(_, name)| *name == key);
    if let Some((number, _)) = numbered {
        put(sheet, TEXT, &[number]);
        text.bytes().for_each(|b| put(sheet, TEXT_BYTE, &[b]));
    }
}
