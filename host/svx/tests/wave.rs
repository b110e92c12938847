//! Octaves written as WAVE files: their bytes, which samples they have, and refusals.
mod common;
use common::{chan, chunk, form, full_voice, header, mono, vhdr};
use svx::{ChannelAssignment, ChannelSamples, Sheet, Voice, VoiceHeader};

/// The C interface as the crate has it, for what its own calls never do: lend a buffer that is short or too long.
#[allow(dead_code)]
#[path = "../src/c.rs"]
mod c;

/// Two channels of one octave each.
fn two_sides(header: VoiceHeader, left: &[i8], right: &[i8]) -> Voice {
    let sides = [left, right].map(|side| ChannelSamples {
        octaves: vec![side.to_vec()],
    });
    Voice {
        channel: Some(ChannelAssignment::Stereo),
        channels: sides.to_vec(),
        ..mono(header, vec![])
    }
}

/// The file of an octave of a voice, whose length was told beforehand.
fn wave(voice: &Voice, octave: u8) -> Vec<u8> {
    let sheet = Sheet::of(voice).unwrap();
    let file = sheet.octave_wave(octave).unwrap();
    assert_eq!(sheet.octave_wave_length(octave).unwrap(), file.len());
    file
}

/// The number by which an octave of a voice is refused.
fn refusal(voice: &Voice, octave: u8) -> u32 {
    let sheet = Sheet::of(voice).unwrap();
    let number = sheet.octave_wave(octave).expect_err("a refusal").number();
    assert_eq!(sheet.octave_wave_length(octave).unwrap_err().number(), number);
    number
}

/// Takes a file apart, and holds every field of its header to the others: the rate, and the samples of each channel.
fn apart(file: &[u8]) -> (u32, Vec<Vec<i8>>) {
    let long = |at: usize| u32::from_le_bytes(file[at..at + 4].try_into().unwrap());
    let short = |at: usize| u16::from_le_bytes(file[at..at + 2].try_into().unwrap());
    let (channels, rate, data) = (u32::from(short(22)), long(24), long(40));
    assert_eq!((&file[..4], &file[8..16]), (&b"RIFF"[..], &b"WAVEfmt "[..]));
    assert_eq!((long(16), short(20), short(34)), (16, 1, 8), "PCM of 8 bits");
    assert!([1, 2].contains(&channels), "{channels} channels");
    assert_eq!((long(28), u32::from(short(32))), (rate * channels, channels));
    assert_eq!(&file[36..40], b"data");
    assert_eq!(long(4), 36 + data.next_multiple_of(2));
    assert_eq!(file.len(), 8 + long(4) as usize);
    let (values, pad) = file[44..].split_at(data as usize);
    assert!(pad.iter().all(|&b| b == 0));
    let side = |i| values.iter().skip(i).step_by(channels as usize);
    let sample = |value: &u8| i8::try_from(i16::from(*value) - 128).unwrap();
    (
        rate,
        (0..channels as usize).map(|i| side(i).map(sample).collect()).collect(),
    )
}

/// Every octave of a voice has its samples and its rate, and there is none past the last.
fn has_its_octaves(voice: &Voice) {
    let octaves = u8::try_from(voice.octave_count()).unwrap();
    for k in 0..octaves {
        let samples = voice.channels.iter().map(|c| c.octaves[usize::from(k)].clone());
        let rate = u32::from(voice.header.samples_per_sec);
        assert_eq!(apart(&wave(voice, k)), (rate, samples.collect()), "octave {k}");
    }
    assert_eq!([octaves, 64, 255].map(|k| refusal(voice, k)), [31; 3]);
}

#[test]
fn one_channel_byte_by_byte() {
    let voice = mono(header(1, 0, 1, 0), vec![vec![-2]]);
    let mut expected = b"RIFF\x26\0\0\0WAVEfmt \x10\0\0\0".to_vec();
    expected.extend([1, 0, 1, 0, 0x40, 0x1F, 0, 0, 0x40, 0x1F, 0, 0, 1, 0, 8, 0]);
    expected.extend(b"data\x01\0\0\0");
    expected.extend([126, 0]);
    assert_eq!(wave(&voice, 0), expected);
}

#[test]
fn two_channels_byte_by_byte() {
    let header = VoiceHeader {
        samples_per_sec: 0xFEDC,
        ..header(1, 2, 1, 0)
    };
    let mut expected = b"RIFF\x2A\0\0\0WAVEfmt \x10\0\0\0".to_vec();
    // Both channels together have more bytes a second than 16 bits can count.
    expected.extend([1, 0, 2, 0, 0xDC, 0xFE, 0, 0, 0xB8, 0xFD, 1, 0, 2, 0, 8, 0]);
    expected.extend(b"data\x06\0\0\0");
    expected.extend([129, 0, 126, 255, 131, 128]);
    assert_eq!(wave(&two_sides(header, &[1, -2, 3], &[-128, 127, 0]), 0), expected);
}

#[test]
fn even_and_odd_lengths() {
    let of = |samples: &[i8]| wave(&mono(header(samples.len() as u32, 0, 1, 0), vec![samples.to_vec()]), 0);
    assert_eq!(of(&[-128, -1, 0, 127])[40..], [4, 0, 0, 0, 0, 127, 128, 255]);
    assert_eq!(of(&[-128, -1, 0])[40..], [3, 0, 0, 0, 0, 127, 128, 0]);
    assert_eq!((of(&[5, 6])[4], of(&[5, 6, 7])[4], of(&[5, 6, 7, 8])[4]), (38, 40, 40));
    // Two channels are never odd.
    assert_eq!(
        wave(&two_sides(header(1, 0, 1, 0), &[1], &[2]), 0)[40..],
        [2, 0, 0, 0, 129, 130]
    );
}

#[test]
fn every_sample() {
    let samples: Vec<i8> = (i8::MIN..=i8::MAX).collect();
    let file = wave(&mono(header(0, 256, 1, 0), vec![samples]), 0);
    assert_eq!(file[44..], (0..=255).collect::<Vec<u8>>());
}

#[test]
fn several_octaves() {
    has_its_octaves(&full_voice());
    has_its_octaves(&mono(
        header(1, 0, 4, 0),
        vec![vec![1], vec![2, 3], vec![4; 4], vec![5; 8]],
    ));
    has_its_octaves(&mono(header(2, 1, 2, 0), vec![vec![-1, -2, -3], vec![7; 6]]));
    // 0 octaves count as 1.
    has_its_octaves(&mono(header(0, 3, 0, 0), vec![vec![1, 2, 3]]));
}

#[test]
fn lengths_of_zero() {
    // Octave 0 is all the samples, whatever the number of octaves.
    for octaves in [0, 1, 2, 255] {
        has_its_octaves(&mono(header(0, 0, octaves, 0), vec![vec![5, 6, 7]]));
        has_its_octaves(&two_sides(header(0, 0, octaves, 0), &[1, 2], &[3, 4]));
        assert_eq!(refusal(&mono(header(0, 0, octaves, 0), vec![vec![5, 6, 7]]), 1), 31);
    }
}

#[test]
fn no_samples() {
    for voice in [
        mono(header(0, 0, 1, 0), vec![vec![]]),
        two_sides(header(0, 0, 1, 0), &[], &[]),
    ] {
        let file = wave(&voice, 0);
        assert_eq!(
            (file.len(), &file[4..8], &file[40..]),
            (44, &[36, 0, 0, 0][..], &[0; 4][..])
        );
        has_its_octaves(&voice);
    }
}

#[test]
fn sides_of_one_channel() {
    let plain = mono(header(1, 1, 2, 0), vec![vec![1, -2], vec![3, -4, 5, -6]]);
    for channel in [ChannelAssignment::Left, ChannelAssignment::Right] {
        let voice = Voice {
            channel: Some(channel),
            ..plain.clone()
        };
        // Wherever it plays, its samples are those of the left buffer, and the file has one channel.
        has_its_octaves(&voice);
        assert_eq!([0, 1].map(|k| wave(&voice, k)), [0, 1].map(|k| wave(&plain, k)));
    }
}

#[test]
fn of_files_that_are_read() {
    let body = chunk(b"BODY", &[1, 2, 3, 4, 5, 6]);
    let read = |value| Sheet::read(&form(&[vhdr(1, 0, 2, 0), chan(value), body.clone()])).unwrap();
    assert_eq!(
        [2, 4].map(|value| apart(&read(value).octave_wave(1).unwrap()).1),
        [[[2, 3]]; 2]
    );
    assert_eq!(apart(&read(6).octave_wave(1).unwrap()).1, [[2, 3], [5, 6]]);
}

#[test]
fn compressed_voices() {
    let file = form(&[vhdr(3, 0, 1, 1), chunk(b"BODY", &[0x00, 0x64, 0xF1])]);
    let sheet = Sheet::read(&file).unwrap();
    assert_eq!(sheet.octave_wave(0).unwrap()[40..], [3, 0, 0, 0, 228, 249, 228, 0]);
    let mut voice = full_voice();
    voice.header.compression_byte = 1;
    // The samples are there already, so the file is the same whether they will be compressed or not.
    has_its_octaves(&voice);
    assert_eq!(wave(&voice, 2), wave(&full_voice(), 2));
    let read = svx::parse_voice(&svx::encode_voice(&voice).unwrap()).unwrap();
    has_its_octaves(&read);
}

#[test]
fn what_a_note_is_refused_by_is_no_hindrance() {
    for segments in [&[(0, 6)][..], &[(0, 400)]] {
        has_its_octaves(&common::sequenced(Some(segments), Some(9)));
    }
}

#[test]
fn by_31_and_41() {
    let rated = |samples_per_sec| {
        let header = VoiceHeader {
            samples_per_sec,
            ..header(1, 0, 2, 0)
        };
        mono(header, vec![vec![1], vec![2, 3]])
    };
    assert_eq!([0, 1, 2].map(|k| refusal(&rated(0), k)), [41, 41, 31]);
    for rate in [1, u16::MAX] {
        has_its_octaves(&rated(rate));
    }
    assert_eq!(refusal(&mono(VoiceHeader::default(), vec![vec![]]), 0), 41);
}

#[test]
#[ignore = "asks for 4 GiB of addresses, though it touches none of them"]
fn by_19_riff_length() {
    let length = |left: usize, octave| {
        let head = Sheet::of(&mono(header(0, 0, 1, 0), vec![vec![]])).unwrap();
        let sheet = Sheet::from_parts(head.bytes().to_vec(), vec![0; left], vec![]).unwrap();
        sheet.octave_wave_length(octave).map_err(|refusal| refusal.number())
    };
    // 36 bytes and the pad count too.
    assert_eq!(length(4_294_967_258, 0), Ok(4_294_967_302));
    assert_eq!(
        [4_294_967_259, 4_294_967_260, 1 << 32].map(|n| length(n, 0)),
        [Err(19); 3]
    );
    assert_eq!(length(1 << 32, 1), Err(31));
}

/// A call in C with a buffer of so many bytes: the refusal or 0, and the buffer and the length's place after it.
fn lent(parts: (&[u8], &[i8], &[i8]), octave: u8, room: usize) -> (u32, Vec<u8>, u64) {
    let (sheet, left, right) = parts;
    let (mut file, mut length, mut told) = (vec![77; room], 77, 77);
    // SAFETY: each slice is handed over as its pointer and its length, and no two of them overlap.
    let (refusal, asked) = unsafe {
        let (s, l, r) = (sheet.as_ptr(), left.as_ptr(), right.as_ptr());
        let lengths = (sheet.len(), left.len(), right.len());
        let out = file.as_mut_ptr();
        (
            c::svx_octave_wave(s, lengths.0, l, lengths.1, r, lengths.2, octave, out, room, &mut length),
            c::svx_octave_wave_length(s, lengths.0, l, lengths.1, r, lengths.2, octave, &mut told),
        )
    };
    // Only a short buffer tells the two apart; a refused call writes no length.
    assert_eq!(asked, if refusal == 20 { 0 } else { refusal });
    assert_eq!(told == 77, asked != 0);
    assert!(refusal != 0 || length == told);
    (refusal, file, length)
}

#[test]
fn lent_buffers() {
    let sheet = Sheet::of(&mono(header(3, 0, 1, 0), vec![vec![1, 2, 3]])).unwrap();
    let parts = (sheet.bytes(), sheet.left(), sheet.right());
    let file = sheet.octave_wave(0).unwrap();
    assert_eq!(lent(parts, 0, 48), (0, file.clone(), 48));
    // What lies past the file is kept.
    assert_eq!(lent(parts, 0, 51), (0, [&file[..], &[77; 3]].concat(), 48));
    for room in [0, 1, 43, 44, 47] {
        assert_eq!(lent(parts, 0, room), (20, vec![77; room], 77));
    }
}

#[test]
fn every_refusal_leaves_the_buffer() {
    let left = [1, 2, 3];
    let sheet = |octaves: u8, compression: u8, rate: u8| {
        let mut bytes = vec![1, 0, 0, 0, 1, 0, 0, 0, 0, 0, 0, 0, 0, 0, rate];
        bytes.extend([octaves, compression, 0, 1, 0, 0]);
        bytes
    };
    let with = |rest: &[u8]| [&sheet(65, 2, 0), rest].concat();
    // None has a rate or room enough, and most have faults of those below too: the first in order counts.
    let cases = [
        (with(&[10, 1, 11]), 15),
        (with(&[2, 3]), 16),
        (vec![], 16),
        (with(&[10, 1, 11, 0xFF]), 17),
        (with(&[]), 10),
        (sheet(65, 1, 0), 13),
        (sheet(3, 1, 0), 18),
        (sheet(2, 1, 0), 31),
    ];
    for (bytes, number) in cases {
        assert_eq!(lent((&bytes, &left, &[]), 2, 9), (number, vec![77; 9], 77), "{bytes:?}");
    }
    let (no_rate, good) = (sheet(2, 1, 0), sheet(2, 1, 1));
    assert_eq!(lent((&no_rate, &left, &[]), 1, 9), (41, vec![77; 9], 77));
    assert_eq!(lent((&good, &left, &[]), 1, 9), (20, vec![77; 9], 77));
    // One channel has no right side.
    assert_eq!(lent((&good, &left, &left), 1, 99), (18, vec![77; 99], 77));
}
