//! Which chunk of a file is which part of a voice, by bytes.
mod common;
use common::{chan, chunk, envelope, form, full_voice, header, mono, texts, vhdr};
use svx::{ChannelAssignment, Fade, Pan, Seqn, SeqnSegment, Voice, VoiceHeader};

/// A header whose bytes are their own places, from 1 on, but for those that the samples hang on.
const HEADER: [u8; 20] = [0, 0, 0, 1, 0, 0, 0, 2, 9, 10, 11, 12, 13, 14, 1, 0, 17, 18, 19, 20];

/// The chunks of a file in the order in which they are written.
fn chunks() -> Vec<Vec<u8>> {
    vec![
        chunk(b"VHDR", &HEADER),
        chan(4),
        chunk(b"PAN ", &[0xFF, 0xFF, 0xFF, 0xFE]),
        chunk(b"ATAK", &[1, 2, 3, 4, 5, 6, 0, 7, 0xFF, 0xFF, 0xFF, 0xFF]),
        chunk(b"ATAK", &[]),
        chunk(b"RLSE", &[0, 1, 0, 0, 0, 2]),
        chunk(b"SEQN", &[0, 0, 0, 3, 0, 0, 0, 4, 5, 0, 0, 0, 6, 0, 0, 0]),
        chunk(b"FADE", &[7, 8, 9, 10]),
        chunk(b"NAME", b"t\0"),
        chunk(b"AUTH", b"a\0"),
        chunk(b"ANNO", b"co\0"),
        chunk(b"(c) ", b"(c)\0"),
        chunk(b"CHRS", b"ch\0"),
        chunk(b"BODY", &[0x7F, 0x80, 0xFF]),
    ]
}

/// The voice of that file.
fn voice() -> Voice {
    let segments = [(3, 4), (0x0500_0000, 0x0600_0000)].map(|(start, end)| SeqnSegment { start, end });
    Voice {
        header: VoiceHeader {
            one_shot_hi_samples: 1,
            repeat_hi_samples: 2,
            samples_per_hi_cycle: 0x090A_0B0C,
            samples_per_sec: 0x0D0E,
            ct_octave: 1,
            compression_byte: 0,
            volume: 0x1112_1314,
        },
        channel: Some(ChannelAssignment::Right),
        pan: Some(Pan { position: -2 }),
        attack: vec![envelope(&[(0x0102, 0x0304_0506), (7, -1)]), envelope(&[])],
        release: vec![envelope(&[(1, 2)])],
        seqn: Some(Seqn {
            segments: segments.to_vec(),
        }),
        fade: Some(Fade { segment: 0x0708_090A }),
        metadata: texts(&[
            ("title", "t"),
            ("artist", "a"),
            ("comment", "co"),
            ("copyright", "(c)"),
            ("characters", "ch"),
        ]),
        ..mono(VoiceHeader::default(), vec![vec![127, -128, -1]])
    }
}

#[test]
fn is_read() {
    assert_eq!(svx::parse_voice(&form(&chunks())).unwrap(), voice());
}

#[test]
fn is_written() {
    assert_eq!(svx::encode_voice(&voice()).unwrap(), form(&chunks()));
}

#[test]
fn in_any_order() {
    let mut turned = chunks();
    turned.reverse();
    turned.insert(3, chunk(b"NONE", &[1, 2, 3]));
    let read = svx::parse_voice(&form(&turned)).unwrap();
    let mut expected = voice();
    expected.attack.reverse();
    expected.metadata.reverse();
    assert_eq!(read, expected);
}

#[test]
fn channel_assignments() {
    let assigned = |value| svx::parse_voice(&form(&[vhdr(0, 0, 1, 0), chan(value), chunk(b"BODY", &[1, 2])])).unwrap();
    use ChannelAssignment::{Left, Right, Stereo};
    assert_eq!(
        [2, 4, 6].map(|v| assigned(v).channel),
        [Some(Left), Some(Right), Some(Stereo)]
    );
    assert_eq!([2, 4, 6].map(|v| assigned(v).channel_count()), [1, 1, 2]);
}

#[test]
fn two_channels_and_octaves() {
    let body: Vec<u8> = (1..=13).collect();
    let file = form(&[vhdr(1, 1, 2, 0), chan(6), chunk(b"BODY", &body)]);
    let voice = svx::parse_voice(&file).unwrap();
    // Left is the first half and right the second; the odd byte is dropped.
    assert_eq!(voice.channels[0].octaves, [vec![1, 2], vec![3, 4, 5, 6]]);
    assert_eq!(voice.channels[1].octaves, [vec![7, 8], vec![9, 10, 11, 12]]);
    assert_eq!((voice.header, voice.octave_count()), (header(1, 1, 2, 0), 2));
}

#[test]
fn texts_are_cleaned() {
    let named = |text: &[u8]| form(&[vhdr(0, 0, 1, 0), chunk(b"NAME", text), chunk(b"BODY", &[])]);
    let title = |text: &[u8]| svx::parse_voice(&named(text)).unwrap().metadata;
    assert_eq!(title(b" \xC2\x85 a b\t"), texts(&[("title", "a b")]));
    assert_eq!(title(b"a\xFFb\0c"), texts(&[("title", "a\u{FFFD}b")]));
    assert_eq!(title(b" \0a"), []);
}

#[test]
fn octaves_of_the_full_voice() {
    let file = svx::encode_voice(&full_voice()).unwrap();
    let body = &file[file.len() - 2 * 56..];
    let flat: Vec<i8> = full_voice().channels.iter().flat_map(|c| c.flattened()).collect();
    assert_eq!(body.iter().map(|&b| i8::from_be_bytes([b])).collect::<Vec<i8>>(), flat);
}
