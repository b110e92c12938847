//! Refusals of writing: of voices made by hand, and of flat forms.
mod common;
use common::{full_voice, header, mono};
use svx::{ChannelAssignment, ChannelSamples, Sheet, Voice};

/// The number by which a voice can't be written, nor played.
fn refusal(voice: &Voice) -> u32 {
    let number = svx::encode_voice(voice).expect_err("a refusal").number();
    assert_eq!(Sheet::of(voice).expect_err("a refusal").number(), number);
    number
}

#[test]
fn by_10_compression() {
    assert_eq!(refusal(&mono(header(1, 0, 1, 2), vec![vec![1]])), 10);
    assert_eq!(refusal(&mono(header(1, 0, 65, 2), vec![])), 10);
}

#[test]
fn by_13_total() {
    assert_eq!(refusal(&mono(header(1, 0, 65, 0), vec![vec![1]])), 13);
    let mut two = mono(header(1, 0, 65, 0), vec![vec![1]]);
    two.channels.push(ChannelSamples { octaves: vec![vec![1]] });
    assert_eq!(refusal(&two), 13);
}

#[test]
fn by_18_octaves() {
    let good = mono(header(1, 1, 2, 0), vec![vec![1, 2], vec![3, 4, 5, 6]]);
    assert!(svx::encode_voice(&good).is_ok());
    let bad: [&[&[i8]]; 7] = [
        &[],
        &[&[1, 2]],
        &[&[1, 2], &[3, 4, 5]],
        &[&[1, 2], &[3, 4, 5, 6, 7]],
        // The right number of samples, cut wrongly.
        &[&[1, 2, 3, 4, 5, 6]],
        &[&[1, 2, 3], &[4, 5, 6]],
        &[&[1, 2], &[3, 4, 5, 6], &[]],
    ];
    for octaves in bad {
        let octaves: Vec<Vec<i8>> = octaves.iter().map(|o| o.to_vec()).collect();
        assert_eq!(refusal(&mono(good.header, octaves.clone())), 18, "{octaves:?}");
    }
}

#[test]
fn by_18_lengths_of_zero() {
    // One octave of any length, and no more than one.
    assert_eq!(refusal(&mono(header(0, 0, 2, 0), vec![])), 18);
    assert_eq!(refusal(&mono(header(0, 0, 2, 0), vec![vec![1], vec![2]])), 18);
}

#[test]
fn by_18_channels() {
    let full = full_voice();
    let with = |count: usize, channel| {
        let channels = full.channels.iter().cycle().take(count).cloned().collect();
        Voice {
            channels,
            channel,
            ..full.clone()
        }
    };
    for one in [None, Some(ChannelAssignment::Left), Some(ChannelAssignment::Right)] {
        assert!(svx::encode_voice(&with(1, one)).is_ok());
        assert_eq!([0, 2, 3].map(|n| refusal(&with(n, one))), [18; 3]);
    }
    assert_eq!(
        [0, 1, 3].map(|n| refusal(&with(n, Some(ChannelAssignment::Stereo)))),
        [18; 3]
    );
    assert_eq!(refusal(&Voice::default()), 18);
}

#[test]
fn by_18_empty_channels() {
    let none = ChannelSamples { octaves: vec![vec![]] };
    let voice = |channel, count| Voice {
        channel,
        channels: vec![none.clone(); count],
        ..mono(header(0, 0, 1, 0), vec![])
    };
    // Sides that are empty suit lengths of 0, so the number of channels alone is wrong here.
    assert_eq!([0, 2, 3].map(|n| refusal(&voice(None, n))), [18; 3]);
    assert_eq!(
        [0, 1, 3].map(|n| refusal(&voice(Some(ChannelAssignment::Stereo), n))),
        [18; 3]
    );
    let mut uneven = voice(Some(ChannelAssignment::Stereo), 2);
    uneven.channels[1].octaves[0].push(1);
    assert_eq!(refusal(&uneven), 18);
}

/// A flat form: a header for lengths of 0, and then these bytes.
fn flat(rest: &[u8]) -> Result<Sheet, u32> {
    let head = Sheet::of(&mono(header(0, 0, 1, 0), vec![vec![]])).unwrap();
    Sheet::from_parts([head.bytes(), rest].concat(), vec![], vec![]).map_err(|r| r.number())
}

#[test]
fn of_flat_forms() {
    assert!(flat(&[]).is_ok());
    assert!(flat(&[2, 2, 4, 5, 7, 10, 1, 11, b'x']).is_ok());
    for (rest, number) in [
        (&[1][..], 15),
        (&[2], 15),
        (&[6, 0], 15),
        (&[12], 16),
        (&[2, 3], 16),
        (&[5, 4], 16),
        (&[10, 6], 16),
        (&[10, 1, 11, 0xFF, 0], 16),
        (&[10, 1, 11, 0xFF], 17),
        (&[10, 1, 11, 0xC3, 10, 1, 11, 0xA9], 17),
    ] {
        assert_eq!(flat(rest), Err(number), "{rest:?}");
    }
    assert_eq!(Sheet::from_parts(vec![], vec![], vec![]).unwrap_err().number(), 16);
}

#[test]
fn of_flat_sides() {
    let one = Sheet::of(&mono(header(1, 0, 1, 0), vec![vec![1]])).unwrap();
    for (left, right) in [(vec![], vec![]), (vec![1, 2], vec![]), (vec![1], vec![1])] {
        assert_eq!(
            Sheet::from_parts(one.bytes().to_vec(), left, right)
                .unwrap_err()
                .number(),
            18
        );
    }
}

#[test]
#[ignore = "asks for 4 GiB of addresses, though it touches none of them"]
fn by_19_form_length() {
    let head = Sheet::of(&mono(header(0, 0, 1, 0), vec![vec![]])).unwrap();
    let sheet = Sheet::from_parts(head.bytes().to_vec(), vec![0; 1 << 32], vec![]).unwrap();
    assert_eq!(sheet.write().unwrap_err().number(), 19);
}
