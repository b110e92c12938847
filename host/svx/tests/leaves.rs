//! The Fibonacci coding both ways, and the small questions about headers, pans, envelopes and samples.
mod common;
use common::{envelope, header, Xorshift};
use svx::{ChannelAssignment, ChannelSamples, Pan, Refusal, SeqnSegment, VoiceHeader};

#[test]
fn fibonacci_decoded() {
    assert_eq!(
        svx::fibonacci_decode_channel(&[0x00, 0x64, 0xF1]).unwrap(),
        [100, 121, 100]
    );
    assert_eq!(
        svx::fibonacci_decode_channel(&[0x00, 0x7F, 0xF8]).unwrap(),
        [127, -108, -108]
    );
    assert_eq!(
        svx::fibonacci_decode_channel(&[0x00, 0x80, 0x00]).unwrap(),
        [-128, 94, 60]
    );
    assert_eq!(svx::fibonacci_decode_channel(&[0x55, 0x03]).unwrap(), [3]);
    for short in [&[][..], &[0]] {
        assert_eq!(svx::fibonacci_decode_channel(short).unwrap_err().number(), 12);
    }
}

#[test]
fn fibonacci_encoded() {
    assert_eq!(svx::fibonacci_encode_channel(&[0, 1]), [0x00, 0x00, 0x98]);
    assert_eq!(svx::fibonacci_encode_channel(&[0, 100, 100]), [0x00, 0x00, 0xFF]);
    assert_eq!(svx::fibonacci_encode_channel(&[127, 127]), [0x00, 0x7F, 0x88]);
    assert_eq!(svx::fibonacci_encode_channel(&[]), [0x00, 0x00]);
}

/// Of steps that lead as near the smallest is taken, near the ends of the range too.
#[test]
fn fibonacci_equal_distances() {
    assert_eq!(svx::fibonacci_encode_channel(&[0, 4]), [0x00, 0x00, 0xB8]);
    assert_eq!(svx::fibonacci_encode_channel(&[0, -4]), [0x00, 0x00, 0x58]);
    assert_eq!(svx::fibonacci_encode_channel(&[0, 17]), [0x00, 0x00, 0xE8]);
    assert_eq!(svx::fibonacci_encode_channel(&[0, -17]), [0x00, 0x00, 0x28]);
    assert_eq!(svx::fibonacci_encode_channel(&[-128, -128]), [0x00, 0x80, 0x88]);
    assert_eq!(svx::fibonacci_encode_channel(&[-120, -128]), [0x00, 0x88, 0x38]);
    assert_eq!(svx::fibonacci_encode_channel(&[120, 126]), [0x00, 0x78, 0xC8]);
    // A quiet tail and the same upside down are written as mirrors of each other.
    let tail: Vec<i8> = (0..64).map(|i| if i % 2 == 0 { 0 } else { 4 }).collect();
    let mirror: Vec<i8> = tail.iter().map(|s| -s).collect();
    let decoded = |samples: &[i8]| svx::fibonacci_decode_channel(&svx::fibonacci_encode_channel(samples)).unwrap();
    let (up, down) = (decoded(&tail), decoded(&mirror));
    assert!(up.iter().zip(&down).all(|(a, b)| *a == -b));
}

/// Sums are those of a signed byte: past 127 they go on from -128, and the other way.
#[test]
fn fibonacci_wraps() {
    assert_eq!(svx::fibonacci_encode_channel(&[127, -128]), [0x00, 0x7F, 0x98]);
    assert_eq!(svx::fibonacci_encode_channel(&[-128, 127]), [0x00, 0x80, 0x78]);
    // 8 up from 120 is -128, so it goes 5 up; and 5 down from -124 is 127, so it goes 3 down.
    assert_eq!(svx::fibonacci_encode_channel(&[120, 127]), [0x00, 0x78, 0xC8]);
    assert_eq!(svx::fibonacci_encode_channel(&[-124, -128]), [0x00, 0x84, 0x58]);
    // A square wave from rail to rail is kept, one step each way.
    let square: Vec<i8> = (0..65).map(|i| if i / 8 % 2 == 0 { 127 } else { -128 }).collect();
    let coded = svx::fibonacci_encode_channel(&square);
    assert_eq!(svx::fibonacci_decode_channel(&coded).unwrap(), square);
}

#[test]
fn fibonacci_both_ways() {
    let mut r = Xorshift::new(5);
    for _ in 0..2_000 {
        let stream = [r.bytes(0), vec![r.byte(), r.byte()], r.bytes(40)].concat();
        let samples = svx::fibonacci_decode_channel(&stream).unwrap();
        assert_eq!(samples.len(), 2 * stream.len() - 3);
        // A stream that was read is written as it was, but for byte 0, and the first of any samples is kept.
        let again = svx::fibonacci_encode_channel(&samples);
        assert!(again[0] == 0 && again[1..] == stream[1..]);
        assert_eq!(svx::fibonacci_decode_channel(&again).unwrap(), samples);
        let count = 1 + r.below(40);
        let free = r.samples(count);
        let coded = svx::fibonacci_decode_channel(&svx::fibonacci_encode_channel(&free)).unwrap();
        assert!(coded[0] == free[0] && (free.len()..=free.len() + 1).contains(&coded.len()));
    }
}

#[test]
fn bodies() {
    let decode = |body: &[u8], z, channels, frames| svx::decode_body(body, z, channels, frames).map_err(|r| r.number());
    assert_eq!(decode(&[1, 2, 3], 0, 0, u64::MAX), Ok(vec![1, 2, 3]));
    assert_eq!(decode(&[1, 2, 3], 0, 1, 2), Ok(vec![1, 2]));
    assert_eq!(decode(&[1, 2, 3, 4, 5], 0, 9, 7), Ok(vec![1, 3, 2, 4]));
    assert_eq!(decode(&[0, 0x64, 0xF1], 1, 1, u64::MAX), Ok(vec![100, 121, 100]));
    assert_eq!(
        decode(&[0, 0x64, 0xF1, 0, 1, 0x88], 1, 2, u64::MAX),
        Ok(vec![100, 1, 121, 1, 100, 1])
    );
    assert_eq!(decode(&[0, 0x64, 0xF1, 0, 1, 0x88], 1, 2, 0), Ok(vec![]));
    assert_eq!(decode(&[], 2, 1, 0), Err(10));
    assert_eq!(decode(&[0, 1, 2], 1, 2, 1), Err(11));
    assert_eq!(decode(&[0, 1], 1, 2, 1), Err(12));
    assert_eq!(decode(&[], 1, 1, 1), Err(12));
}

#[test]
fn totals() {
    assert_eq!(header(1, 0, 64, 0).total_samples_per_channel(), Some(u64::MAX));
    assert_eq!(header(1, 0, 65, 0).total_samples_per_channel(), None);
    assert_eq!(header(0, 0, 255, 7).total_samples_per_channel(), Some(0));
    assert_eq!(header(2, 3, 0, 7).total_samples_per_channel(), Some(5));
    let mut r = Xorshift::new(3);
    for _ in 0..2_000 {
        let h = header(r.odd_u32(), r.odd_u32(), r.byte() % 80, 0);
        let factor = (1u128 << h.ct_octave.max(1)) - 1;
        let total = u128::from(h.hi_octave_samples())
            .checked_mul(factor)
            .and_then(|t| u64::try_from(t).ok());
        assert_eq!(h.total_samples_per_channel(), total, "{h:?}");
    }
}

#[test]
fn octave_lengths() {
    let h = header(3, 5, 3, 0);
    assert_eq!(
        [0, 1, 2, 3].map(|k| h.octave_samples(k)),
        [Some(8), Some(16), Some(32), None]
    );
    assert_eq!(
        [0, 1, 2, 3].map(|k| h.one_shot_samples(k)),
        [Some(3), Some(6), Some(12), None]
    );
    assert_eq!(
        [0, 1, 2, 3].map(|k| h.repeat_samples(k)),
        [Some(5), Some(10), Some(20), None]
    );
    assert_eq!(header(3, 5, 0, 0).octave_samples(0), Some(8));
    assert_eq!(header(0, 0, 3, 0).octave_samples(2), Some(0));
    // Bits past 64 are dropped, and from 64 on there is no octave.
    assert_eq!(header(3, 0, 255, 0).octave_samples(63), Some(1 << 63));
    assert_eq!(header(3, 0, 255, 0).octave_samples(64), None);
    assert!(h.has_loop() && !header(3, 0, 1, 0).has_loop());
}

#[test]
fn loops_split() {
    let h = header(1, 2, 2, 0);
    let channel = ChannelSamples {
        octaves: vec![vec![1, 2, 3], vec![4, 5, 6, 7, 8, 9]],
    };
    assert_eq!(channel.loop_split(&h, 0), Some((&[1][..], &[2, 3][..])));
    assert_eq!(channel.loop_split(&h, 1), Some((&[4, 5][..], &[6, 7, 8, 9][..])));
    assert_eq!(channel.loop_split(&h, 2), None);
    assert_eq!(channel.loop_split(&header(1, 1, 2, 0), 0), None);
    assert_eq!((channel.hi(), channel.total_len()), (&[1, 2, 3][..], 9));
    assert_eq!(channel.flattened(), [1, 2, 3, 4, 5, 6, 7, 8, 9]);
    let whole = |samples: &[i8]| ChannelSamples {
        octaves: vec![samples.to_vec()],
    };
    assert_eq!(whole(&[1, 2]).loop_split(&header(0, 0, 1, 0), 0), None);
    assert!(whole(&[]).loop_split(&header(0, 0, 1, 0), 0).is_some());
    assert_eq!(
        (ChannelSamples::default().hi(), ChannelSamples::default().total_len()),
        (&[][..], 0)
    );
}

#[test]
fn levels() {
    assert_eq!(envelope(&[(10, 65_536)]).level_at_ms(0, 3), 19_660);
    assert_eq!(envelope(&[(10, 65_536)]).level_at_ms(0, 10), 65_536);
    assert_eq!(envelope(&[(3, 0)]).level_at_ms(65_536, 1), 43_691);
    assert_eq!(envelope(&[]).level_at_ms(-9, u64::MAX), -9);
    assert_eq!(
        envelope(&[(0, 5), (65_535, 7), (65_535, -8)]).level_at_ms(0, u64::MAX),
        -8
    );
    assert_eq!(
        envelope(&[(0, 5), (65_535, 7), (65_535, -8)]).total_duration_ms(),
        131_070
    );
}

#[test]
fn floats() {
    let volume = |volume| {
        VoiceHeader {
            volume,
            ..VoiceHeader::default()
        }
        .volume_f32()
    };
    for v in [0, 1, 65_536, 0x0100_0001, 0x0100_0003, u32::MAX] {
        assert_eq!(volume(v), v as f32 / 65_536.0);
    }
    let weights = |position| (Pan { position }.left_weight(), Pan { position }.right_weight());
    let by_position = [i32::MIN, Pan::RIGHT, Pan::CENTER, Pan::LEFT, i32::MAX].map(weights);
    assert_eq!(
        by_position,
        [(0.0, 1.0), (0.0, 1.0), (0.5, 0.5), (1.0, 0.0), (1.0, 0.0)]
    );
    let frequency = |samples_per_sec, samples_per_hi_cycle| {
        VoiceHeader {
            samples_per_sec,
            samples_per_hi_cycle,
            ..VoiceHeader::default()
        }
        .hi_cycle_frequency_hz()
    };
    assert_eq!(frequency(8_000, 3), Some(8_000.0 / 3.0));
    assert_eq!([frequency(0, 3), frequency(8_000, 0)], [None, None]);
}

#[test]
fn peaks() {
    assert_eq!(svx::peak(&[]), None);
    assert_eq!(svx::peak(&[0]), Some((0, 0)));
    assert_eq!(svx::peak(&[5, -128, 127, -128]), Some((128, 1)));
    assert_eq!(svx::peak(&[127, -127, 127]), Some((127, 0)), "the first of equals");
    assert_eq!(svx::peak(&[0; 1_000]), Some((0, 0)));
    // Two as loud at any places, a softer one before them, in as many samples as a few blocks have.
    for first in 0..300 {
        for last in [first, first + 1, first + 128, 499] {
            let mut samples = vec![1; 500];
            samples[first / 2] = 99;
            samples[last] = 100;
            samples[first] = -100;
            assert_eq!(svx::peak(&samples), Some((100, first)), "{first} and {last}");
        }
    }
}

#[test]
fn values() {
    let counts = [
        ChannelAssignment::Left,
        ChannelAssignment::Right,
        ChannelAssignment::Stereo,
    ]
    .map(|c| (c.raw(), c.channel_count()));
    assert_eq!(counts, [(2, 1), (4, 1), (6, 2)]);
    let segments = [(4, 12), (4, 4), (8, 4)].map(|(start, end)| SeqnSegment { start, end });
    assert_eq!(
        segments.map(|s| (s.len(), s.is_empty())),
        [(8, false), (0, true), (0, true)]
    );
}

#[test]
fn words_of_refusals() {
    let list: Vec<(u32, &str)> = include_str!("../../../crates/refusal/refusals.txt")
        .lines()
        .filter(|line| !line.is_empty() && !line.starts_with('#'))
        .map(|line| line.splitn(3, ' ').collect::<Vec<&str>>())
        .map(|parts| (parts[0].parse().unwrap(), parts[2]))
        .collect();
    let known: Vec<(u32, &str)> = (0..1000)
        .filter_map(|n| Refusal::of_number(n).map(|r| (n, r.words())))
        .collect();
    assert_eq!(known, list);
    assert_eq!(
        Refusal::of_number(4).unwrap().to_string(),
        "refused by 4: a chunk runs past the FORM"
    );
    let error: Box<dyn std::error::Error> = Box::new(Refusal::of_number(7).unwrap());
    assert_eq!(error.to_string(), "refused by 7: CHAN isn't 2, 4 or 6");
}
