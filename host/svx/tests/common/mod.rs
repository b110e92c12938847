//! What several tests use: files put together chunk by chunk, voices, notes played in blocks, and made-up numbers.
// Each test is a program of its own and uses some of this.
#![allow(dead_code)]
use svx::{
    ChannelAssignment, ChannelSamples, EgPoint, Envelope, Fade, Note, Pan, Seqn, SeqnSegment, Sheet, Voice, VoiceHeader,
};

/// The specification's whole file: one-shot 1, 8,000 samples a second, the sample -2.
pub const EXAMPLE: [u8; 50] = [
    0x46, 0x4F, 0x52, 0x4D, 0x00, 0x00, 0x00, 0x2A, 0x38, 0x53, 0x56, 0x58, 0x56, 0x48, 0x44, 0x52, 0x00, 0x00, 0x00,
    0x14, 0x00, 0x00, 0x00, 0x01, 0x00, 0x00, 0x00, 0x00, 0x00, 0x00, 0x00, 0x00, 0x1F, 0x40, 0x01, 0x00, 0x00, 0x01,
    0x00, 0x00, 0x42, 0x4F, 0x44, 0x59, 0x00, 0x00, 0x00, 0x01, 0xFE, 0x00,
];

/// A header at full volume.
pub fn header(one_shot: u32, repeat: u32, octaves: u8, compression: u8) -> VoiceHeader {
    VoiceHeader {
        one_shot_hi_samples: one_shot,
        repeat_hi_samples: repeat,
        samples_per_hi_cycle: 0,
        samples_per_sec: 8_000,
        ct_octave: octaves,
        compression_byte: compression,
        volume: svx::UNITY_VOLUME,
    }
}

/// A chunk, padded.
pub fn chunk(id: &[u8; 4], payload: &[u8]) -> Vec<u8> {
    let mut bytes = id.to_vec();
    bytes.extend(u32::try_from(payload.len()).unwrap().to_be_bytes());
    bytes.extend(payload);
    bytes.resize(bytes.len().next_multiple_of(2), 0);
    bytes
}

/// A VHDR chunk.
pub fn vhdr(one_shot: u32, repeat: u32, octaves: u8, compression: u8) -> Vec<u8> {
    let mut payload = [one_shot, repeat, 0].map(u32::to_be_bytes).concat();
    payload.extend([0x1F, 0x40, octaves, compression, 0, 1, 0, 0]);
    chunk(b"VHDR", &payload)
}

/// A CHAN chunk.
pub fn chan(value: u32) -> Vec<u8> {
    chunk(b"CHAN", &value.to_be_bytes())
}

/// A FORM 8SVX of these chunks.
pub fn form(chunks: &[Vec<u8>]) -> Vec<u8> {
    let mut payload = b"8SVX".to_vec();
    payload.extend(chunks.concat());
    chunk(b"FORM", &payload)
}

/// A voice of one channel with these octaves.
pub fn mono(header: VoiceHeader, octaves: Vec<Vec<i8>>) -> Voice {
    Voice {
        header,
        channels: vec![ChannelSamples { octaves }],
        ..Voice::default()
    }
}

/// A voice that repeats 16 samples, with this sequence and this fade.
pub fn sequenced(segments: Option<&[(u32, u32)]>, fade: Option<u32>) -> Voice {
    let segments = segments.map(|s| s.iter().map(|&(start, end)| SeqnSegment { start, end }).collect());
    Voice {
        seqn: segments.map(|segments| Seqn { segments }),
        fade: fade.map(|segment| Fade { segment }),
        ..mono(header(0, 16, 1, 0), vec![(0..16).collect()])
    }
}

/// An envelope of points, each milliseconds and a level.
pub fn envelope(points: &[(u16, i32)]) -> Envelope {
    Envelope {
        points: points
            .iter()
            .map(|&(duration_ms, dest)| EgPoint { duration_ms, dest })
            .collect(),
    }
}

/// Texts by their keys.
pub fn texts(list: &[(&str, &str)]) -> Vec<(String, String)> {
    list.iter()
        .map(|(key, text)| (key.to_string(), text.to_string()))
        .collect()
}

/// A voice of two channels and three octaves with every part.
pub fn full_voice() -> Voice {
    let side = |first: i8| ChannelSamples {
        octaves: [8usize, 16, 32].map(|n| (first..).take(n).collect()).to_vec(),
    };
    Voice {
        header: VoiceHeader {
            samples_per_hi_cycle: 4,
            volume: 40_000,
            ..header(0, 8, 3, 0)
        },
        channel: Some(ChannelAssignment::Stereo),
        pan: Some(Pan { position: -7 }),
        attack: vec![
            envelope(&[(5, 65_536), (10, -1)]),
            envelope(&[]),
            envelope(&[(0, 30_000)]),
        ],
        release: vec![
            envelope(&[(20, 70_000)]),
            envelope(&[(65_535, i32::MIN), (1, i32::MAX)]),
        ],
        seqn: Some(Seqn {
            segments: vec![SeqnSegment { start: 0, end: 8 }, SeqnSegment { start: 4, end: 8 }],
        }),
        fade: Some(Fade { segment: 1 }),
        metadata: texts(&[
            ("characters", "any"),
            ("title", "Sopran\u{e9}"),
            ("artist", "A"),
            ("comment", "two  words"),
            ("copyright", "\u{a9} 1988"),
            ("title", "again"),
        ]),
        channels: vec![side(-100), side(50)],
    }
}

/// Two octaves with a loop, an attack and a release that lasts longer than a block.
pub fn rich_voice() -> Voice {
    let octave = |n: i32| (0..n).map(|i| (i * 37 % 251 - 125) as i8).collect::<Vec<i8>>();
    Voice {
        header: VoiceHeader {
            volume: 60_000,
            ..header(100, 300, 2, 0)
        },
        pan: Some(Pan { position: 20_000 }),
        attack: vec![envelope(&[(50, 65_536)]), envelope(&[(100, 40_000)])],
        release: vec![envelope(&[(0, 50_000), (150, 0)])],
        ..mono(VoiceHeader::default(), vec![octave(400), octave(800)])
    }
}

/// Eight octaves whose sequence is 4,294,967,296 samples long in octave 7, one too many.
pub fn long_sequence() -> Voice {
    Voice {
        seqn: Some(Seqn {
            segments: vec![SeqnSegment { start: 0, end: 65_536 }; 512],
        }),
        ..mono(header(0, 65_536, 8, 0), (0..8).map(|k| vec![0; 65_536 << k]).collect())
    }
}

/// The next frames of a note in blocks of so many: the places, how many frames weren't over, and the note after them.
pub fn play(sheet: &Sheet, mut note: Note, frames: usize, block: usize) -> (Vec<i16>, u64, Note) {
    let mut out = vec![0; 2 * frames];
    let mut sounding = 0;
    for places in out.chunks_mut(2 * block) {
        let (next, some) = note.fill(sheet, places).unwrap();
        sounding += some;
        note = next;
    }
    (out, sounding, note)
}

/// Made-up numbers, the same in every run.
pub struct Xorshift(u64);

impl Xorshift {
    pub fn new(seed: u64) -> Xorshift {
        Xorshift(seed | 1)
    }

    pub fn next(&mut self) -> u64 {
        self.0 ^= self.0 << 13;
        self.0 ^= self.0 >> 7;
        self.0 ^= self.0 << 17;
        self.0
    }

    /// A number below a bound.
    pub fn below(&mut self, bound: usize) -> usize {
        usize::try_from(self.next() >> 16).unwrap() % bound
    }

    /// Whether one case out of so many arises.
    pub fn one_in(&mut self, cases: usize) -> bool {
        self.below(cases) == 0
    }

    pub fn byte(&mut self) -> u8 {
        self.next().to_be_bytes()[2]
    }

    pub fn bytes(&mut self, most: usize) -> Vec<u8> {
        (0..self.below(most + 1)).map(|_| self.byte()).collect()
    }

    pub fn samples(&mut self, count: usize) -> Vec<i8> {
        (0..count).map(|_| i8::from_be_bytes([self.byte()])).collect()
    }

    pub fn u32(&mut self) -> u32 {
        u32::from_be_bytes([self.byte(), self.byte(), self.byte(), self.byte()])
    }

    /// A number that is mostly small and at times next to an end of its range.
    pub fn odd_u32(&mut self) -> u32 {
        match self.below(8) {
            0 => self.u32(),
            1 => u32::MAX - self.u32() % 4,
            2 => 65_536 + self.u32() % 4,
            _ => self.u32() % 40,
        }
    }
}
