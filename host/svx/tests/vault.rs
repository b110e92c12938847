//! Difference order both ways, against a plain version that makes its values one by one.
mod common;
use common::{header, Xorshift};
use std::collections::HashSet;
use svx::{Refusal, VoiceHeader};

fn number<T>(answer: Result<T, Refusal>) -> Result<T, u32> {
    answer.map_err(|refusal| refusal.number())
}

fn order(header: &VoiceHeader, samples: &[i8]) -> Result<Vec<i8>, u32> {
    number(svx::difference_order(header, samples))
}

fn restore(header: &VoiceHeader, values: &[i8]) -> Result<Vec<i8>, u32> {
    number(svx::difference_restore(header, values))
}

/// How long the octaves of so many samples are, by the header: the total is judged before the length.
fn octaves(header: &VoiceHeader, length: usize) -> Result<Vec<usize>, u32> {
    let hi = u128::from(header.one_shot_hi_samples) + u128::from(header.repeat_hi_samples);
    let count = u32::from(header.ct_octave.max(1));
    if hi == 0 {
        return Ok(vec![length]);
    }
    // Past 64 octaves even one sample in the highest is too much.
    let total = if count > 64 { u128::MAX } else { hi * ((1 << count) - 1) };
    if total > u128::from(u64::MAX) {
        return Err(13);
    }
    if total != length as u128 {
        return Err(18);
    }
    Ok((0..count).map(|k| (hi as usize) << k).collect())
}

/// A sample less the one before, in numbers without an end, brought back between -128 and 127.
fn difference(sample: i8, before: i8) -> i8 {
    let difference = i32::from(sample) - i32::from(before);
    ((difference + 128).rem_euclid(256) - 128) as i8
}

fn plain(header: &VoiceHeader, samples: &[i8]) -> Result<Vec<i8>, u32> {
    let (mut values, mut rest) = (Vec::new(), samples);
    for length in octaves(header, samples.len())? {
        let (octave, after) = rest.split_at(length);
        let at = |i: usize| {
            if i == 0 {
                octave[0]
            } else {
                difference(octave[i], octave[i - 1])
            }
        };
        values.extend((0..length).filter(|i| i % 2 == 0).map(at));
        values.extend((0..length).filter(|i| i % 2 == 1).map(at));
        rest = after;
    }
    Ok(values)
}

/// The channel's order is the plain one, and it comes back; and as values it is the order of another channel.
fn survives(header: &VoiceHeader, channel: &[i8]) {
    let values = order(header, channel);
    assert_eq!(values, plain(header, channel), "{header:?} {channel:?}");
    assert_eq!(restore(header, &values.unwrap()).unwrap(), channel, "{header:?}");
    let samples = restore(header, channel).unwrap();
    assert_eq!(order(header, &samples).unwrap(), channel, "{header:?}");
}

#[test]
fn none_and_one() {
    // A header of no lengths takes none as well; one of a sample takes just one.
    assert_eq!(order(&header(0, 0, 1, 0), &[]), Ok(vec![]));
    assert_eq!(restore(&header(0, 0, 1, 0), &[]), Ok(vec![]));
    for sample in i8::MIN..=i8::MAX {
        for header in [
            header(0, 0, 1, 0),
            header(1, 0, 1, 0),
            header(0, 1, 1, 0),
            header(0, 1, 0, 0),
        ] {
            assert_eq!(order(&header, &[sample]), Ok(vec![sample]));
            assert_eq!(restore(&header, &[sample]), Ok(vec![sample]));
        }
    }
}

#[test]
fn even_places_come_first() {
    let order_of = |samples: &[i8]| order(&header(0, 0, 1, 0), samples).unwrap();
    assert_eq!(order_of(&[1, 3]), [1, 2]);
    assert_eq!(order_of(&[1, 3, 6]), [1, 3, 2]);
    assert_eq!(order_of(&[1, 3, 6, 10]), [1, 3, 2, 4]);
    assert_eq!(order_of(&[1, 3, 6, 10, 15]), [1, 3, 5, 2, 4]);
    assert_eq!(order_of(&[7, 7, 7, 7, 7, 7]), [7, 0, 0, 0, 0, 0]);
}

#[test]
fn differences_wrap() {
    let order_of = |samples: &[i8]| order(&header(0, 0, 1, 0), samples).unwrap();
    assert_eq!(order_of(&[127, -128]), [127, 1]);
    assert_eq!(order_of(&[-128, 127]), [-128, -1]);
    assert_eq!(order_of(&[0, -128]), [0, -128]);
    assert_eq!(order_of(&[-128, 0]), [-128, -128]);
    assert_eq!(order_of(&[-64, 64]), [-64, -128]);
    // Every pair of samples.
    for before in i8::MIN..=i8::MAX {
        for sample in i8::MIN..=i8::MAX {
            survives(&header(1, 1, 1, 0), &[before, sample]);
        }
    }
}

#[test]
fn no_difference_crosses_octaves() {
    // Octaves of 3, 6 and 12: each begins with its own first sample.
    let three = header(1, 2, 3, 0);
    let samples: Vec<i8> = [vec![100; 3], vec![-100; 6], vec![50; 12]].concat();
    let expected = [&[100, 0, 0, -100][..], &[0; 5], &[50], &[0; 11]].concat();
    assert_eq!(order(&three, &samples), Ok(expected));
    survives(&three, &samples);
    // As many samples in one octave have one first sample.
    let expected = [&[100, 0, 0, 0, 0, 0, 0, 0, 0, 0, 0][..], &[0, 56, 0, 0, -106], &[0; 5]].concat();
    assert_eq!(order(&header(21, 0, 1, 0), &samples), Ok(expected));
    // 0 octaves count as 1.
    assert_eq!(
        order(&header(21, 0, 0, 0), &samples),
        order(&header(0, 21, 1, 0), &samples)
    );
}

/// The one-shot part and the repeat part only count together.
#[test]
fn parts_of_an_octave_are_one() {
    let samples: Vec<i8> = (0..21).map(|i| (i * i) as i8).collect();
    let expected = order(&header(3, 0, 3, 0), &samples);
    assert!(expected.is_ok());
    for (one_shot, repeat) in [(0, 3), (1, 2), (2, 1)] {
        assert_eq!(order(&header(one_shot, repeat, 3, 0), &samples), expected);
    }
}

#[test]
fn lengths_of_zero_are_one_octave() {
    let mut r = Xorshift::new(3);
    for length in [0, 1, 2, 3, 7, 8, 100, 255, 1_001] {
        let samples = r.samples(length);
        let expected = order(&header(0, 0, 1, 0), &samples);
        assert_eq!(expected, plain(&header(length as u32, 0, 1, 0), &samples));
        for octaves in [0, 1, 3, 64, 65, 255] {
            let header = header(0, 0, octaves, 0);
            assert_eq!(order(&header, &samples), expected);
            survives(&header, &samples);
        }
    }
}

/// What else is in the header makes no difference, not even a compression that nobody knows.
#[test]
fn only_lengths_and_octaves_count() {
    let samples: Vec<i8> = (0..9).map(|i| (i * 50) as i8).collect();
    let plain = header(3, 0, 2, 0);
    let other = VoiceHeader {
        samples_per_hi_cycle: 7,
        samples_per_sec: 0,
        compression_byte: 9,
        volume: 0,
        ..plain
    };
    assert_eq!(order(&plain, &samples), order(&other, &samples));
    assert_eq!(restore(&plain, &samples), restore(&other, &samples));
}

#[test]
fn refused_by_18() {
    for (header, total) in [
        (header(3, 0, 1, 0), 3),
        (header(2, 1, 0, 0), 3),
        (header(1, 2, 3, 0), 21),
        (header(0, 1, 8, 0), 255),
    ] {
        for length in 0..300 {
            let answers = [order(&header, &vec![1; length]), restore(&header, &vec![1; length])];
            match length == total {
                true => assert!(answers.iter().all(Result::is_ok)),
                false => assert_eq!(answers, [Err(18), Err(18)], "{header:?} {length}"),
            }
        }
    }
    // The parts are added in more than 32 bits: their sum isn't 0.
    let half = 1 << 31;
    assert_eq!(order(&header(half, half, 1, 0), &[]), Err(18));
    assert_eq!(restore(&header(half, half, 1, 0), &[1, 2]), Err(18));
}

/// Totals at the end of 64 bits: those above are refused by 13, before any length is; the largest below by 18.
#[test]
fn refused_by_13_before_18() {
    let most = u32::MAX;
    let cases = [
        (header(1, 0, 64, 0), 18),
        (header(1, 0, 65, 0), 13),
        (header(0, 2, 63, 0), 18),
        (header(1, 1, 64, 0), 13),
        (header(most, most, 31, 0), 18),
        (header(most, most, 32, 0), 13),
        // 2^32 + 1 times 2^32 - 1 is as much as 64 bits can count.
        (header(most, 2, 32, 0), 18),
        (header(most, 3, 32, 0), 13),
        (header(0, 1, 255, 0), 13),
        (header(most, most, 255, 0), 13),
        (header(1 << 31, 1 << 31, 255, 0), 13),
    ];
    for (header, refusal) in cases {
        for length in [0, 1, 2, 63, 64, 65] {
            let values = vec![-1; length];
            assert_eq!(plain(&header, &values), Err(refusal), "{header:?}");
            assert_eq!(order(&header, &values), Err(refusal), "{header:?}");
            assert_eq!(restore(&header, &values), Err(refusal), "{header:?}");
        }
    }
}

/// Every channel of four values out of some has an order of its own, and each of these is some channel's.
#[test]
fn no_two_channels_are_alike() {
    let some: [i8; 6] = [-128, -1, 0, 1, 100, 127];
    let channel = |n: usize| [0, 1, 2, 3].map(|place| some[n / 6usize.pow(place) % 6]);
    let channels: HashSet<[i8; 4]> = (0..6usize.pow(4)).map(channel).collect();
    assert_eq!(channels.len(), 1_296);
    for header in [header(4, 0, 1, 0), header(0, 0, 9, 0)] {
        let orders: HashSet<Vec<i8>> = channels.iter().map(|c| order(&header, c).unwrap()).collect();
        let restored: HashSet<Vec<i8>> = channels.iter().map(|c| restore(&header, c).unwrap()).collect();
        assert_eq!((orders.len(), restored.len()), (1_296, 1_296));
    }
    // One sample changed changes the order, wherever it is.
    let (mut r, header) = (Xorshift::new(5), header(2, 3, 3, 0));
    for _ in 0..5_000 {
        let (one, place) = (r.samples(35), r.below(35));
        let mut other = one.clone();
        other[place] = other[place].wrapping_add_unsigned(1 + r.byte() % 255);
        assert!(one != other && order(&header, &one) != order(&header, &other));
        assert!(restore(&header, &one) != restore(&header, &other));
    }
}

#[test]
fn any_channels() {
    let mut r = Xorshift::new(12);
    for _ in 0..20_000 {
        let header = header(r.u32() % 6, r.u32() % 6, r.byte() % 5, 0);
        let total = match header.hi_octave_samples() as usize {
            0 => r.below(60),
            hi => hi * ((1 << header.ct_octave.max(1)) - 1),
        };
        survives(&header, &r.samples(total));
        let length = r.below(60);
        let values = r.samples(length);
        assert_eq!(order(&header, &values), plain(&header, &values));
        assert_eq!(restore(&header, &values).is_ok(), plain(&header, &values).is_ok());
    }
}

/// Octaves long enough that whole blocks of them are worked on at once, with every remainder.
#[test]
fn long_channels() {
    let mut r = Xorshift::new(13);
    for hi in (1_000..1_070).chain([4_095, 4_096, 4_097, 65_537]) {
        let samples = r.samples(hi * 3);
        survives(&header(hi as u32, 0, 2, 0), &samples);
        survives(&header(0, 0, 2, 0), &samples);
    }
}
