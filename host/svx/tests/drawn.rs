//! Voices drawn from numbers, against a plain version that makes its draws one by one.
mod common;
use common::{header, Xorshift};
use std::collections::HashSet;
use svx::{ChannelAssignment, ChannelSamples, Note, Sheet, Voice, VoiceHeader};

/// The C interface as the crate has it, for what its own calls never do: lend a buffer that is short or too long.
#[allow(dead_code)]
#[path = "../src/c.rs"]
mod c;

/// The draws from a number, in numbers that never pass their end: what is above 32 bits is cut off by a remainder.
struct Draws(u64);

impl Iterator for Draws {
    type Item = u64;

    fn next(&mut self) -> Option<u64> {
        let cut = |x: u64| x % 4_294_967_296;
        self.0 = cut(self.0 ^ (self.0 * 8_192));
        self.0 = cut(self.0 ^ (self.0 / 131_072));
        self.0 = cut(self.0 ^ (self.0 * 32));
        Some(self.0)
    }
}

/// The lowest byte as a signed one.
fn sample(draw: u64) -> i8 {
    match draw % 256 {
        byte @ 0..128 => byte as i8,
        byte => (byte as i64 - 256) as i8,
    }
}

/// A channel whose samples are the next draws, octave by octave.
fn channel(draws: &mut Draws, hi: usize, octaves: u8) -> ChannelSamples {
    let octaves = (0..octaves).map(|k| draws.take(hi << k).map(sample).collect());
    ChannelSamples {
        octaves: octaves.collect(),
    }
}

fn plain(number: u32) -> Voice {
    let mut draws = Draws(u64::from(number));
    let mut remainder = |by: u64| draws.next().unwrap() % by;
    let (two, octaves) = (remainder(2) == 1, 1 + remainder(4) as u8);
    let (drawn, repeat, rate) = (remainder(64), remainder(64), 8_000 + remainder(40_000));
    let one_shot = if drawn + repeat == 0 { 1 } else { drawn };
    let hi = (one_shot + repeat) as usize;
    let header = VoiceHeader {
        samples_per_sec: rate as u16,
        ..header(one_shot as u32, repeat as u32, octaves, 0)
    };
    let sides = if two { 2 } else { 1 };
    Voice {
        header,
        channel: two.then_some(ChannelAssignment::Stereo),
        channels: (0..sides).map(|_| channel(&mut draws, hi, octaves)).collect(),
        ..Voice::default()
    }
}

/// Every octave plays, and no other.
fn plays(sheet: &Sheet) {
    let octaves = sheet.header().ct_octave;
    for octave in 0..octaves {
        let (note, sounding) = Note::start(octave, 65_536, 44_100, 127)
            .fill(sheet, &mut [0; 2 * 40])
            .unwrap();
        assert!(sounding > 0 && note.frames == 40);
    }
    let past = Note::start(octaves, 65_536, 44_100, 127).fill(sheet, &mut [0; 2]);
    assert_eq!(past.unwrap_err().number(), 31);
}

/// The voice is the plain one, in all of its forms, is written and read, and plays.
fn survives(number: u32) {
    let (sheet, voice) = (Sheet::drawn(number).unwrap(), plain(number));
    assert_eq!(sheet, Sheet::of(&voice).unwrap(), "{number}");
    assert_eq!(sheet.header(), voice.header, "{number}");
    assert_eq!(sheet.left(), voice.channels[0].flattened(), "{number}");
    let right = voice.channels.get(1).map(ChannelSamples::flattened).unwrap_or_default();
    assert_eq!(sheet.right(), right, "{number}");
    assert_eq!(Sheet::read(&sheet.write().unwrap()).unwrap(), sheet, "{number}");
    assert_eq!(svx::drawn_voice(number).unwrap(), voice, "{number}");
    plays(&sheet);
}

#[test]
fn from_1_to_20_000() {
    (1..=20_000).for_each(survives);
}

#[test]
fn the_largest() {
    (u32::MAX - 999..=u32::MAX).for_each(survives);
}

#[test]
fn powers_of_two_and_their_neighbours() {
    for power in (0..32).map(|bits| 1u32 << bits) {
        for number in [power - 1, power, power + 1].into_iter().filter(|n| *n > 0) {
            survives(number);
            survives(u32::MAX - number);
        }
    }
}

#[test]
fn any_numbers() {
    let mut r = Xorshift::new(14);
    (0..5_000).for_each(|_| survives(r.u32().max(1)));
}

/// The first numbers reach both ends of all that is drawn, and every sample.
#[test]
fn all_that_can_be_drawn() {
    let voices: Vec<Voice> = (1..=20_000).map(|n| svx::drawn_voice(n).unwrap()).collect();
    let ends = |of: fn(&Voice) -> usize| {
        let values = || voices.iter().map(of);
        (values().min().unwrap(), values().max().unwrap())
    };
    assert_eq!(ends(Voice::channel_count), (1, 2));
    assert_eq!(ends(Voice::octave_count), (1, 4));
    assert_eq!(ends(|voice| voice.header.one_shot_hi_samples as usize), (0, 63));
    assert_eq!(ends(|voice| voice.header.repeat_hi_samples as usize), (0, 63));
    assert_eq!(ends(|voice| voice.channels[0].total_len()), (1, 1_890));
    let samples = voices.iter().flat_map(|voice| &voice.channels[0].octaves).flatten();
    assert_eq!(samples.collect::<HashSet<_>>().len(), 256);
    // The lowest rate and the highest are farther off.
    for (number, rate) in [(22_950, 8_000), (124_940, 47_999)] {
        survives(number);
        assert_eq!(Sheet::drawn(number).unwrap().header().samples_per_sec, rate);
    }
}

#[test]
fn lengths() {
    let lengths = with_lengths().map(|(_, lengths)| lengths);
    assert_eq!((lengths[0], lengths[2]), ([21, 1, 0], [21, 1_890, 0]));
    assert_eq!((lengths[3], lengths[5]), ([23, 1, 1], [23, 1_890, 1_890]));
    assert!((2..1_890).contains(&lengths[1][1]) && lengths[1][2] == 0);
    assert!((2..1_890).contains(&lengths[4][1]) && lengths[4][2] == lengths[4][1]);
    NUMBERS.into_iter().for_each(survives);
    // Where both lengths that are drawn are 0, the one-shot part is 1, of every number of octaves.
    for (octaves, numbers) in (1..).zip([[2_097, 54_520], [4_671, 50_887], [1_691, 53_859], [5_284, 49_244]]) {
        for number in numbers {
            let drawn = Sheet::drawn(number).unwrap().header();
            let expected = header(1, 0, octaves, 0);
            let samples_per_sec = drawn.samples_per_sec;
            assert_eq!(
                drawn,
                VoiceHeader {
                    samples_per_sec,
                    ..expected
                }
            );
            survives(number);
        }
    }
}

/// The records of two voices, put together by hand.
#[test]
fn records() {
    // One channel, one octave, one-shot 1, 46,922 samples a second.
    let sheet = Sheet::drawn(2_097).unwrap();
    let vhdr = [1, 0, 0, 0, 1, 0, 0, 0, 0, 0, 0, 0, 0, 0xB7, 0x4A, 1, 0, 0, 1, 0, 0];
    assert_eq!(
        (sheet.bytes(), sheet.left(), sheet.right()),
        (&vhdr[..], &[88][..], &[][..])
    );
    // Two channels, two octaves, 41,276 samples a second.
    let sheet = Sheet::drawn(50_887).unwrap();
    let vhdr_and_chan = [
        1, 0, 0, 0, 1, 0, 0, 0, 0, 0, 0, 0, 0, 0xA1, 0x3C, 2, 0, 0, 1, 0, 0, 2, 6,
    ];
    assert_eq!(sheet.bytes(), vhdr_and_chan);
    assert_eq!(
        (sheet.left(), sheet.right()),
        (&[47, 22, 105][..], &[-68, -95, -81][..])
    );
}

#[test]
fn refused_by_48() {
    assert_eq!(Sheet::drawn(0).unwrap_err().number(), 48);
    let refusal = svx::drawn_voice(0).unwrap_err();
    assert_eq!(refusal.to_string(), "refused by 48: the starting number is 0");
}

/// What a call in C leaves: the refusal or 0, the three buffers, and the lengths.
type Lent = (u32, Vec<u8>, Vec<i8>, Vec<i8>, [u64; 3]);

/// A call in C with buffers of so many places.
fn lent(number: u32, [sheet, left, right]: [usize; 3]) -> Lent {
    let (mut sheet, mut left, mut right) = (vec![77; sheet], vec![77; left], vec![77; right]);
    let mut lengths = [77; 3];
    // SAFETY: each buffer is handed over as its pointer and its length, and no two of them overlap.
    let refusal = unsafe {
        let (s, l, r) = (sheet.as_mut_ptr(), left.as_mut_ptr(), right.as_mut_ptr());
        let rooms = (sheet.len(), left.len(), right.len());
        c::svx_drawn_voice(number, s, rooms.0, l, rooms.1, r, rooms.2, lengths.as_mut_ptr())
    };
    (refusal, sheet, left, right, lengths)
}

/// Buffers of so many places as a refused call leaves them.
fn untouched(refusal: u32, [sheet, left, right]: [usize; 3]) -> Lent {
    (refusal, vec![77; sheet], vec![77; left], vec![77; right], [77; 3])
}

/// A voice in buffers that are longer by so many places, which are kept.
fn written(number: u32, longer: [usize; 3]) -> Lent {
    let (mut sheet, mut left, mut right) = Sheet::drawn(number).unwrap().into_parts();
    let lengths = [sheet.len(), left.len(), right.len()].map(|length| length as u64);
    sheet.resize(sheet.len() + longer[0], 77);
    left.resize(left.len() + longer[1], 77);
    right.resize(right.len() + longer[2], 77);
    (0, sheet, left, right, lengths)
}

/// The shortest voice of one channel, one in between and the longest, and the same of two channels.
const NUMBERS: [u32; 6] = [2_097, 2, 17_881, 54_520, 1, 37_153];

/// These numbers, each with the lengths of its voice.
fn with_lengths() -> [(u32, [usize; 3]); 6] {
    NUMBERS.map(|number| {
        let (sheet, left, right) = Sheet::drawn(number).unwrap().into_parts();
        (number, [sheet.len(), left.len(), right.len()])
    })
}

#[test]
fn lent_buffers() {
    for (number, exact) in with_lengths() {
        assert_eq!(lent(number, exact), written(number, [0; 3]), "{number}");
        // What lies past the voice is kept, in each of them and in all.
        for longer in [[1, 0, 0], [0, 1, 0], [0, 0, 1], [3, 5, 9]] {
            let rooms = [0, 1, 2].map(|i| exact[i] + longer[i]);
            assert_eq!(lent(number, rooms), written(number, longer), "{number}");
        }
        let most = [23, 1_890, 1_890];
        let longer = [0, 1, 2].map(|i| most[i] - exact[i]);
        assert_eq!(lent(number, most), written(number, longer), "{number}");
    }
}

#[test]
fn refused_by_20() {
    for (number, exact) in with_lengths() {
        // Of one channel no right side is too short.
        for i in (0..3).filter(|i| exact[*i] > 0) {
            for room in [0, exact[i] / 2, exact[i] - 1] {
                for mut rooms in [exact, [23, 1_890, 1_890]] {
                    rooms[i] = room;
                    assert_eq!(lent(number, rooms), untouched(20, rooms), "{number}");
                }
            }
        }
        assert_eq!(lent(number, [0; 3]), untouched(20, [0; 3]), "{number}");
    }
}

/// Of the number 0 no buffer is looked at.
#[test]
fn refused_by_48_before_20() {
    for rooms in [[0; 3], [20, 0, 0], [21, 1, 0], [23, 1_890, 1_890], [99, 2_000, 2_000]] {
        assert_eq!(lent(0, rooms), untouched(48, rooms));
    }
}
