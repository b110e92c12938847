//! Voices written and read again.
mod common;
use common::{envelope, full_voice, header, mono, texts, Xorshift};
use svx::{ChannelAssignment, ChannelSamples, Fade, Pan, Seqn, SeqnSegment, Sheet, Voice, VoiceHeader};

/// The voice survives the file and the sheet, and the file is the same when it is written again.
fn survives(voice: &Voice) {
    let file = svx::encode_voice(voice).unwrap();
    assert_eq!(&svx::parse_voice(&file).unwrap(), voice);
    let sheet = Sheet::of(voice).unwrap();
    assert_eq!(Sheet::read(&file).unwrap(), sheet);
    assert_eq!(sheet.write().unwrap(), file);
    assert_eq!(&sheet.voice(), voice);
    assert_eq!(sheet.header(), voice.header);
    let parts = (sheet.bytes().to_vec(), sheet.left().to_vec(), sheet.right().to_vec());
    assert_eq!(sheet.clone().into_parts(), parts);
    assert_eq!(Sheet::from_parts(parts.0, parts.1, parts.2).unwrap(), sheet);
}

#[test]
fn every_part() {
    survives(&full_voice());
    assert_eq!((full_voice().channel_count(), full_voice().octave_count()), (2, 3));
}

#[test]
fn every_part_alone() {
    let plain = mono(
        header(3, 1, 2, 0),
        vec![vec![1, 2, 3, 4], vec![-1, -2, -3, -4, -5, -6, -7, -8]],
    );
    survives(&plain);
    survives(&Voice {
        channel: Some(ChannelAssignment::Left),
        ..plain.clone()
    });
    survives(&Voice {
        channel: Some(ChannelAssignment::Right),
        ..plain.clone()
    });
    survives(&Voice {
        pan: Some(Pan { position: Pan::CENTER }),
        ..plain.clone()
    });
    survives(&Voice {
        attack: vec![envelope(&[])],
        ..plain.clone()
    });
    survives(&Voice {
        release: vec![envelope(&[(1, 2)])],
        ..plain.clone()
    });
    survives(&Voice {
        seqn: Some(Seqn::default()),
        ..plain.clone()
    });
    survives(&Voice {
        fade: Some(Fade { segment: u32::MAX }),
        ..plain.clone()
    });
    survives(&Voice {
        metadata: texts(&[("comment", "\u{1F3B5}")]),
        ..plain
    });
}

#[test]
fn lengths_of_zero() {
    survives(&mono(header(0, 0, 1, 0), vec![vec![5, 6, 7]]));
    survives(&mono(header(0, 0, 255, 0), vec![vec![]]));
    let sides = vec![
        ChannelSamples {
            octaves: vec![vec![1, 2]],
        },
        ChannelSamples {
            octaves: vec![vec![3, 4]],
        },
    ];
    survives(&Voice {
        channel: Some(ChannelAssignment::Stereo),
        channels: sides,
        ..mono(header(0, 0, 0, 0), vec![])
    });
}

/// What the Fibonacci coding makes of samples.
fn coded(channel: &ChannelSamples) -> Vec<i8> {
    svx::fibonacci_decode_channel(&svx::fibonacci_encode_channel(&channel.flattened())).unwrap()
}

#[test]
fn fibonacci_coded() {
    let mut voice = full_voice();
    voice.header.compression_byte = 1;
    let read = svx::parse_voice(&svx::encode_voice(&voice).unwrap()).unwrap();
    for (was, is) in voice.channels.iter().zip(&read.channels) {
        assert_eq!(is.octaves.iter().map(Vec::len).collect::<Vec<_>>(), [8, 16, 32]);
        assert_eq!(is.flattened(), coded(was)[..56]);
    }
    // All but the samples is the same, and what the coding left of them it leaves again.
    let with_its_samples = Voice {
        channels: voice.channels.clone(),
        ..read.clone()
    };
    assert_eq!(with_its_samples, voice);
    survives(&read);
}

#[test]
fn texts_that_are_not_kept() {
    let voice = Voice {
        metadata: texts(&[
            ("title", ""),
            ("genre", "none such"),
            ("artist", " B \n"),
            ("comment", "cut\0here"),
        ]),
        ..mono(header(1, 0, 1, 0), vec![vec![9]])
    };
    let read = svx::parse_voice(&svx::encode_voice(&voice).unwrap()).unwrap();
    assert_eq!(read.metadata, texts(&[("artist", "B"), ("comment", "cut")]));
    // A sheet keeps all texts of the five keys as they are; a file cleans them when it is read.
    let kept = texts(&[("title", ""), ("artist", " B \n"), ("comment", "cut\0here")]);
    assert_eq!(Sheet::of(&voice).unwrap().voice().metadata, kept);
}

/// Made-up samples that suit a header: with lengths of 0, three of them.
fn made_up_channel(r: &mut Xorshift, header: &VoiceHeader) -> ChannelSamples {
    let octaves = match header.hi_octave_samples() as usize {
        0 => vec![r.samples(3)],
        hi => (0..header.ct_octave).map(|k| r.samples(hi << k)).collect(),
    };
    ChannelSamples { octaves }
}

/// A made-up voice that suits its header.
fn made_up(r: &mut Xorshift) -> Voice {
    use ChannelAssignment::{Left, Right, Stereo};
    let header = header(r.u32() % 5, r.u32() % 5, 1 + r.byte() % 4, 0);
    let channel = [None, Some(Left), Some(Right), Some(Stereo)][r.below(4)];
    let channels = channel.map_or(1, ChannelAssignment::channel_count);
    let mut envelopes = || vec![envelope(&[(7, 9), (8, -10)][..r.below(3)]); r.below(3)];
    let (attack, release) = (envelopes(), envelopes());
    let segments = vec![SeqnSegment { start: 1, end: 0 }; r.below(3)];
    Voice {
        header,
        channel,
        pan: r.one_in(2).then_some(Pan { position: 3 }),
        attack,
        release,
        seqn: r.one_in(2).then_some(Seqn { segments }),
        fade: r.one_in(2).then_some(Fade { segment: 4 }),
        metadata: texts(&[("copyright", "x y"), ("artist", "\u{df}")][..r.below(3)]),
        channels: (0..channels).map(|_| made_up_channel(r, &header)).collect(),
    }
}

#[test]
fn made_up_voices() {
    let mut r = Xorshift::new(8);
    (0..2_000).for_each(|_| survives(&made_up(&mut r)));
}
