//! Notes: refusals of fills, blocks, key-ups.
mod common;
use common::{full_voice, header, long_sequence, mono, play, rich_voice, sequenced, EXAMPLE};
use svx::{ChannelAssignment, ChannelSamples, Note, Pan, Sheet, Voice};

/// A note that nothing turns back on a voice of one octave.
const GOOD: Note = Note {
    octave: 0,
    velocity: 127,
    step: 65_536,
    rate: 8_000,
    frames: 0,
    key_up: None,
};

/// The number that turns a fill of so many places back, or 0; a refused one writes nothing.
fn refusal(note: Note, sheet: &Sheet, places: usize) -> u32 {
    let mut out = vec![77; places];
    match note.fill(sheet, &mut out) {
        Ok(_) => 0,
        Err(refusal) => {
            assert_eq!(out, vec![77; places]);
            refusal.number()
        }
    }
}

fn of_voice(voice: &Voice) -> u32 {
    refusal(GOOD, &Sheet::of(voice).unwrap(), 2)
}

#[test]
fn by_21_segments() {
    assert_eq!(of_voice(&sequenced(Some(&[(0, 16), (4, 4), (12, 16)]), None)), 0);
    for bad in [(0, 6), (2, 4), (8, 4), (0, 20)] {
        assert_eq!(of_voice(&sequenced(Some(&[(0, 4), bad]), None)), 21, "{bad:?}");
    }
}

#[test]
fn by_22_one_shot() {
    for segments in [&[(0, 4)][..], &[]] {
        let voice = Voice {
            header: header(4, 12, 1, 0),
            ..sequenced(Some(segments), None)
        };
        assert_eq!(of_voice(&voice), 22);
    }
}

#[test]
fn by_23_fade() {
    assert_eq!(of_voice(&sequenced(Some(&[(0, 4), (4, 8)]), Some(1))), 0);
    assert_eq!(of_voice(&sequenced(Some(&[(0, 4), (4, 8)]), Some(2))), 23);
    assert_eq!(of_voice(&sequenced(Some(&[]), Some(0))), 23);
    assert_eq!(of_voice(&sequenced(None, Some(0))), 23);
}

#[test]
fn by_24_long_sequence() {
    let sheet = Sheet::of(&long_sequence()).unwrap();
    let by_octave = [6, 7, 8].map(|octave| refusal(Note { octave, ..GOOD }, &sheet, 2));
    assert_eq!(by_octave, [0, 24, 31]);
}

#[test]
fn by_25_odd_places() {
    let sheet = Sheet::of(&sequenced(None, None)).unwrap();
    assert_eq!([0, 1, 2, 3].map(|places| refusal(GOOD, &sheet, places)), [0, 25, 0, 25]);
}

#[test]
fn by_31_to_34_the_note() {
    let sheet = Sheet::of(&sequenced(None, None)).unwrap();
    let of = |note| refusal(note, &sheet, 2);
    assert_eq!(of(Note { octave: 1, ..GOOD }), 31);
    assert_eq!(
        [0, 1, 16_777_216, 16_777_217].map(|step| of(Note { step, ..GOOD })),
        [32, 0, 0, 32]
    );
    assert_eq!(
        [0, 1, 192_000, 192_001].map(|rate| of(Note { rate, ..GOOD })),
        [33, 0, 0, 33]
    );
    let late = Note {
        frames: 5,
        key_up: Some(6),
        ..GOOD
    };
    assert_eq!(of(late), 34);
    assert_eq!(of(late.key_up()), 34);
    assert_eq!(
        of(Note {
            key_up: Some(5),
            ..late
        }),
        0
    );
}

#[test]
fn in_order() {
    let sheet = Sheet::of(&sequenced(None, None)).unwrap();
    let mut note = Note {
        octave: 9,
        velocity: 128,
        step: 0,
        rate: 0,
        frames: 0,
        key_up: Some(1),
    };
    assert_eq!(refusal(note, &sheet, 1), 25);
    assert_eq!(refusal(note, &sheet, 0), 31);
    note.octave = 0;
    assert_eq!(refusal(note, &sheet, 0), 32);
    note.step = 1;
    assert_eq!(refusal(note, &sheet, 0), 33);
    note.rate = 1;
    assert_eq!(refusal(note, &sheet, 0), 34);
    note.frames = 1;
    assert_eq!(refusal(note, &sheet, 0), 44);
    note.velocity = 127;
    assert_eq!(refusal(note, &sheet, 0), 0);
}

/// A note of 5,000 frames with a key-up at frame 2,345, struck so hard, in blocks of so many.
fn with_key_up(sheet: &Sheet, velocity: u8, block: usize) -> (Vec<i16>, u64, Note) {
    let (mut held, sounding, note) = play(sheet, Note::start(1, 90_001, 11_025, velocity), 2_345, block);
    assert_eq!(sounding, 2_345);
    let (released, tail, note) = play(sheet, note.key_up(), 2_655, block);
    held.extend(released);
    (held, sounding + tail, note)
}

#[test]
fn blocks_cancel() {
    let sheet = Sheet::of(&rich_voice()).unwrap();
    let (whole, sounding, note) = with_key_up(&sheet, 100, 5_000);
    assert!(whole.iter().any(|&v| v != 0));
    // The release takes 150 ms of 11,025 frames a second: floor(1000 × f / 11,025) reaches 150 at frame 1,654.
    assert_eq!(sounding, 2_345 + 1_654);
    assert_eq!(
        note,
        Note {
            octave: 1,
            velocity: 100,
            step: 90_001,
            rate: 11_025,
            frames: 5_000,
            key_up: Some(2_345)
        }
    );
    for block in [1, 7, 64, 1_000] {
        let (stem, count, after) = with_key_up(&sheet, 100, block);
        let rest: Vec<i16> = whole.iter().zip(&stem).map(|(a, b)| a - b).collect();
        assert!(
            stem.len() == whole.len() && rest.iter().all(|&v| v == 0),
            "blocks of {block}"
        );
        assert_eq!((count, after), (sounding, note), "blocks of {block}");
    }
}

#[test]
fn by_44_velocity() {
    let sheet = Sheet::of(&sequenced(None, None)).unwrap();
    for velocity in 0..=255 {
        let refused = if (1..=127).contains(&velocity) { 0 } else { 44 };
        assert_eq!(refusal(Note { velocity, ..GOOD }, &sheet, 2), refused, "{velocity}");
    }
}

#[test]
fn velocity_makes_values_smaller() {
    // -2 is -512 in full; each velocity gives -512 × velocity / 127, cut toward zero.
    let sheet = Sheet::read(&EXAMPLE).unwrap();
    for velocity in 1..=127 {
        let (out, sounding, after) = play(&sheet, Note { velocity, ..GOOD }, 1, 1);
        let value = -(512 * i32::from(velocity) / 127) as i16;
        assert_eq!((out, sounding), (vec![value; 2], 1), "{velocity}");
        assert_eq!(after.velocity, velocity);
    }
    // 1 at a volume of 256 is 1, and less than all of that is 0; but the frame isn't over.
    let mut quiet = mono(header(1, 0, 1, 0), vec![vec![1]]);
    quiet.header.volume = 256;
    let sheet = Sheet::of(&quiet).unwrap();
    for (velocity, value) in [(127, 1), (126, 0), (1, 0)] {
        let (out, sounding, _) = play(&sheet, Note { velocity, ..GOOD }, 2, 2);
        assert_eq!((out, sounding), (vec![value, value, 0, 0], 1), "{velocity}");
    }
}

#[test]
fn every_call_keeps_the_velocity() {
    let sheet = Sheet::of(&rich_voice()).unwrap();
    let (mut note, mut out) = (Note::start(1, 90_001, 11_025, 41), [0; 7]);
    for places in [2, 7, 0, 6, 5] {
        note = note.fill(&sheet, &mut out[..places]).map_or(note, |(after, _)| after);
        assert_eq!(note.velocity, 41);
        note = note.key_up();
        assert_eq!(note.velocity, 41);
    }
    assert_eq!(Note::start(0, 1, 1, 0).key_up().velocity, 0);
}

#[test]
fn key_up_counts_once() {
    let note = Note { frames: 9, ..GOOD }.key_up();
    assert_eq!(note.key_up, Some(9));
    assert_eq!(Note { frames: 20, ..note }.key_up().key_up, Some(9));
    // Without a release a note is over at its key-up.
    let sheet = Sheet::of(&sequenced(None, None)).unwrap();
    let (out, sounding, _) = play(&sheet, note, 4, 4);
    assert_eq!((out, sounding), (vec![0; 8], 0));
}

#[test]
fn starting_refuses_nothing() {
    let note = Note::start(255, 0, u32::MAX, 200);
    assert_eq!(
        note,
        Note {
            octave: 255,
            velocity: 200,
            step: 0,
            rate: u32::MAX,
            frames: 0,
            key_up: None
        }
    );
}

#[test]
fn sides_and_octaves() {
    let samples = |voice: &Voice, octave| {
        let (out, ..) = play(&Sheet::of(voice).unwrap(), Note { octave, ..GOOD }, 2, 2);
        <[i16; 4]>::try_from(out).unwrap()
    };
    let plain = mono(header(0, 2, 2, 0), vec![vec![1, 2], vec![3, 4, 5, 6]]);
    assert_eq!(samples(&plain, 0), [256, 256, 512, 512]);
    assert_eq!(samples(&plain, 1), [768, 768, 1_024, 1_024]);
    let sided = |channel| Voice {
        channel: Some(channel),
        ..plain.clone()
    };
    assert_eq!(samples(&sided(ChannelAssignment::Left), 0), [256, 0, 512, 0]);
    assert_eq!(samples(&sided(ChannelAssignment::Right), 0), [0, 256, 0, 512]);
    let sides = [[1, 2], [3, 4]].map(|side| ChannelSamples {
        octaves: vec![side.to_vec()],
    });
    let stereo = Voice {
        header: header(0, 2, 1, 0),
        channels: sides.to_vec(),
        ..sided(ChannelAssignment::Stereo)
    };
    assert_eq!(samples(&stereo, 0), [256, 768, 512, 1_024]);
    let panned = Voice {
        pan: Some(Pan { position: 16_384 }),
        ..plain
    };
    assert_eq!(samples(&panned, 0), [64, 192, 128, 384]);
}

/// The first frame of a voice of one sample, 64: 16,384 in full. A second channel has -64.
fn first_frame(channel: Option<ChannelAssignment>, position: Option<i32>) -> [i16; 2] {
    let count = channel.map_or(1, |channel| channel.channel_count());
    let sides = [64, -64].map(|sample| ChannelSamples {
        octaves: vec![vec![sample]],
    });
    let voice = Voice {
        header: header(1, 0, 1, 0),
        channel,
        pan: position.map(|position| Pan { position }),
        channels: sides[..usize::from(count)].to_vec(),
        ..Voice::default()
    };
    let (out, sounding, _) = play(&Sheet::of(&voice).unwrap(), GOOD, 1, 1);
    assert_eq!(sounding, 1);
    <[i16; 2]>::try_from(out).unwrap()
}

#[test]
fn a_pan_comes_before_the_channel() {
    let (left, right) = ([16_384, 0], [0, 16_384]);
    let by_pan = [
        (i32::MIN, right),
        (-1, right),
        (0, right),
        (1, [0, 16_383]),
        (16_384, [4_096, 12_288]),
        (65_535, [16_383, 0]),
        (65_536, left),
        (65_537, left),
        (i32::MAX, left),
    ];
    for (position, frame) in by_pan {
        for channel in [None, Some(ChannelAssignment::Left), Some(ChannelAssignment::Right)] {
            assert_eq!(first_frame(channel, Some(position)), frame, "{channel:?} {position}");
        }
        assert_eq!(
            first_frame(Some(ChannelAssignment::Stereo), Some(position)),
            [16_384, -16_384]
        );
    }
    assert_eq!(first_frame(Some(ChannelAssignment::Left), None), left);
    assert_eq!(first_frame(Some(ChannelAssignment::Right), None), right);
    assert_eq!(first_frame(Some(ChannelAssignment::Stereo), None), [16_384, -16_384]);
    assert_eq!(first_frame(None, None), [16_384, 16_384]);
}

#[test]
fn every_part_plays() {
    let sheet = Sheet::of(&full_voice()).unwrap();
    let (out, sounding, _) = play(&sheet, Note::start(0, 65_536, 1_000, 127), 20, 3);
    // The sequence is 8 and then 4 samples long.
    assert_eq!(sounding, 12);
    assert!(out[..24].iter().any(|&v| v != 0) && out[24..].iter().all(|&v| v == 0));
}

#[test]
fn the_last_frame() {
    let sheet = Sheet::of(&sequenced(None, None)).unwrap();
    let note = Note {
        frames: u32::MAX - 1,
        ..GOOD
    };
    let (_, sounding, after) = play(&sheet, note, 3, 3);
    assert_eq!((sounding, after.frames), (1, u32::MAX));
    assert_eq!(after.key_up().key_up, Some(u32::MAX));
}
