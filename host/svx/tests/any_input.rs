//! Random and damaged inputs: nothing panics, and each call is turned back only by numbers of its own.
mod common;
use common::{chan, chunk, envelope, form, full_voice, header, texts, vhdr, Xorshift, EXAMPLE};
use svx::{
    ChannelAssignment, ChannelSamples, Entry, Fade, Note, Pan, Refusal, Seqn, SeqnSegment, Sheet, Voice, VoiceHeader,
};

const INPUTS: usize = 20_000;

/// Files to be damaged.
fn good_files() -> Vec<Vec<u8>> {
    let mut coded = full_voice();
    coded.header.compression_byte = 1;
    let body = chunk(b"BODY", &[0, 0x64, 0xF1, 0, 1, 0x88]);
    vec![
        EXAMPLE.to_vec(),
        svx::encode_voice(&full_voice()).unwrap(),
        svx::encode_voice(&coded).unwrap(),
        form(&[
            body,
            vhdr(0, 0, 3, 1),
            chan(6),
            chunk(b"NAME", b" \xFF\xC3\xA9\0x"),
            chunk(b"XYZW", &[1]),
        ]),
    ]
}

/// A file that is random, or a good one with bytes changed, put in or taken out.
fn damaged(r: &mut Xorshift, good: &[Vec<u8>]) -> Vec<u8> {
    if r.one_in(8) {
        return r.bytes(100);
    }
    let mut file = good[r.below(good.len())].clone();
    for _ in 0..r.below(4) {
        let place = r.below(file.len());
        match r.below(6) {
            0 => file.truncate(place + 1),
            1 => file.insert(place, r.byte()),
            2 if file.len() > 1 => drop(file.remove(place)),
            3 => file[place] = r.byte() & 7,
            _ => file[place] = r.byte(),
        }
    }
    file
}

/// A note that may be good.
fn any_note(r: &mut Xorshift) -> Note {
    let near = |r: &mut Xorshift, good: u32| if r.one_in(6) { r.odd_u32() } else { good };
    Note {
        octave: r.byte() % if r.one_in(8) { 255 } else { 3 },
        velocity: if r.one_in(6) { r.byte() } else { 1 + r.byte() % 127 },
        step: near(r, 70_000),
        rate: near(r, 8_000),
        frames: near(r, 20),
        key_up: r.one_in(3).then(|| near(r, 15)),
    }
}

/// A score that may be good.
fn any_score(r: &mut Xorshift) -> Vec<Entry> {
    let (mut score, mut start) = (Vec::new(), 0);
    let most = if r.one_in(8) { 19 } else { 4 };
    for _ in 0..r.below(most) {
        let note = any_note(r);
        let after = |r: &mut Xorshift, frame: u32| match r.one_in(8) {
            true => r.odd_u32(),
            false => frame.saturating_add(r.u32() % 9),
        };
        start = after(r, start);
        score.push(Entry {
            start,
            key_up: after(r, start),
            step: note.step,
            octave: note.octave,
            velocity: note.velocity,
        });
    }
    score
}

fn judge<T>(answer: Result<T, Refusal>, allowed: &[u32]) -> Option<T> {
    answer
        .map_err(|refusal| assert!(allowed.contains(&refusal.number()), "{refusal}"))
        .ok()
}

/// An octave's WAVE file has the octave's samples, and is there where the octave and a rate are.
fn use_wave(sheet: &Sheet, voice: &Voice, k: u8) {
    let place = usize::from(k);
    let there = place < voice.octave_count() && voice.header.samples_per_sec > 0;
    let file = judge(sheet.octave_wave(k), &[31, 41]);
    assert_eq!(file.is_some(), there);
    if let Some(file) = file {
        let data = voice.channels[0].octaves[place].len() * voice.channel_count();
        assert_eq!(file.len(), 44 + data.next_multiple_of(2));
        for (i, channel) in voice.channels.iter().enumerate() {
            let side = file[44..44 + data].iter().skip(i).step_by(voice.channels.len());
            assert!(side
                .map(|b| b.wrapping_sub(128) as i8)
                .eq(channel.octaves[place].iter().copied()));
        }
    }
}

/// A mix gives the place after it, or is turned back and writes nothing.
fn use_score(r: &mut Xorshift, sheet: &Sheet) {
    let (score, rate, place, mut out) = (any_score(r), any_note(r).rate, r.odd_u32(), vec![77; r.below(40)]);
    let mixes: Vec<u32> = (21..=25).chain(31..=33).chain(44..=47).collect();
    match judge(svx::mix(&score, rate, place, sheet, &mut out), &mixes) {
        Some(after) => assert_eq!(after, place.saturating_add(out.len() as u32 / 2)),
        None => assert!(out.iter().all(|&v| v == 77)),
    }
}

/// A side of a sheet always has a difference order, as any values of its length are one.
fn use_order(r: &mut Xorshift, header: &VoiceHeader, side: &[i8]) {
    let values = svx::difference_order(header, side).unwrap();
    assert_eq!(svx::difference_restore(header, &values).unwrap(), side);
    let values = r.samples(side.len());
    let samples = svx::difference_restore(header, &values).unwrap();
    assert_eq!(svx::difference_order(header, &samples).unwrap(), values);
}

/// Asks a sheet everything there is to ask.
fn use_sheet(r: &mut Xorshift, sheet: &Sheet) {
    let voice = sheet.voice();
    assert_eq!(&Sheet::of(&voice).unwrap(), sheet);
    let file = sheet.write().unwrap();
    assert!(svx::parse_voice(&file).is_ok());
    let lengths: usize = sheet.records().map(|(_, body)| 1 + body.len()).sum();
    assert_eq!(lengths, sheet.bytes().len());
    assert_eq!(sheet.header(), voice.header);
    let k = r.byte() % 4;
    for channel in &voice.channels {
        channel.loop_split(&voice.header, k);
        svx::peak(&channel.flattened());
        use_order(r, &voice.header, &channel.flattened());
        judge(
            channel.nearest_crossing(k, r.next() as usize, r.next() as usize),
            &[31, 43],
        );
    }
    use_wave(sheet, &voice, k);
    use_wave(sheet, &voice, r.byte());
    for envelope in voice.attack.iter().chain(&voice.release) {
        envelope.level_at_ms(0, r.next());
    }
    let (note, mut out) = (any_note(r), vec![77; r.below(40)]);
    let fills: Vec<u32> = (21..=25).chain(31..=34).chain([44]).collect();
    match judge(note.fill(sheet, &mut out), &fills) {
        Some((after, sounding)) => {
            assert!(sounding <= out.len() as u64 / 2 && after.key_up == note.key_up);
            assert!(after.key_up().fill(sheet, &mut out).is_ok());
        }
        None => assert!(out.iter().all(|&v| v == 77)),
    }
    use_score(r, sheet);
}

#[test]
fn files() {
    let (mut r, good) = (Xorshift::new(1), good_files());
    let reads: Vec<u32> = (1..=14).collect();
    let mut accepted = 0;
    for _ in 0..INPUTS {
        let file = damaged(&mut r, &good);
        if let Some(sheet) = judge(Sheet::read(&file), &reads) {
            assert_eq!(svx::parse_voice(&file).unwrap(), sheet.voice());
            use_sheet(&mut r, &sheet);
            accepted += 1;
        }
    }
    assert!(
        (INPUTS / 10..INPUTS).contains(&accepted),
        "{accepted} of {INPUTS} were read"
    );
}

/// A channel that may suit a header with so many samples in the highest octave.
fn any_channel(r: &mut Xorshift, hi: usize, octaves: usize) -> ChannelSamples {
    let count = if r.one_in(8) { r.below(5) } else { octaves };
    let mut octave = |k| {
        if r.one_in(20) {
            vec![1; r.below(9)]
        } else {
            vec![2; hi << k]
        }
    };
    ChannelSamples {
        octaves: (0..count).map(&mut octave).collect(),
    }
}

/// A voice that may suit itself.
fn any_voice(r: &mut Xorshift) -> Voice {
    let lengths = if r.one_in(8) {
        [r.odd_u32(), r.odd_u32()]
    } else {
        [r.u32() % 6, r.u32() % 6]
    };
    let (hi, octaves) = ((lengths[0].saturating_add(lengths[1]) % 100) as usize, r.below(4));
    let ct_octave = if r.one_in(8) { r.byte() } else { octaves as u8 };
    let assigned = [None, Some(ChannelAssignment::Right), Some(ChannelAssignment::Stereo)][r.below(3)];
    let suited = assigned.map_or(1, |c| usize::from(c.channel_count()));
    let channels = if r.one_in(8) { r.below(4) } else { suited };
    let segments = (0..r.below(3))
        .map(|_| SeqnSegment {
            start: r.odd_u32() & !3,
            end: r.odd_u32() & !3,
        })
        .collect();
    Voice {
        header: VoiceHeader {
            samples_per_sec: if r.one_in(8) { 0 } else { 8_000 },
            ..header(
                lengths[0],
                lengths[1],
                ct_octave,
                if r.one_in(8) { r.byte() } else { r.byte() % 2 },
            )
        },
        channel: assigned,
        pan: r.one_in(2).then(|| Pan {
            position: r.odd_u32() as i32,
        }),
        attack: vec![envelope(&[(r.byte().into(), r.odd_u32() as i32)]); r.below(3)],
        release: vec![envelope(&[(0, 1), (r.byte().into(), i32::MIN)]); r.below(3)],
        seqn: r.one_in(3).then_some(Seqn { segments }),
        fade: r.one_in(3).then(|| Fade { segment: r.odd_u32() }),
        metadata: texts(&[("none", "x"), ("title", "\0 \u{85}"), ("characters", "")][..r.below(4)]),
        channels: (0..channels).map(|_| any_channel(r, hi, octaves.max(1))).collect(),
    }
}

#[test]
fn voices() {
    let mut r = Xorshift::new(2);
    let mut accepted = 0;
    for _ in 0..INPUTS {
        let voice = any_voice(&mut r);
        let written = judge(svx::encode_voice(&voice), &[10, 13, 18]);
        let sheet = judge(Sheet::of(&voice), &[10, 13, 18]);
        assert_eq!(written.is_some(), sheet.is_some());
        if let Some(sheet) = sheet {
            use_sheet(&mut r, &sheet);
            accepted += 1;
        }
    }
    assert!(
        (INPUTS / 100..INPUTS).contains(&accepted),
        "{accepted} of {INPUTS} were written"
    );
}

#[test]
fn flat_forms() {
    let mut r = Xorshift::new(3);
    let good = Sheet::of(&full_voice()).unwrap();
    for _ in 0..INPUTS {
        let mut bytes = good.bytes().to_vec();
        for _ in 0..r.below(3) {
            let place = r.below(bytes.len());
            bytes[place] = r.byte() & if r.one_in(2) { 15 } else { 255 };
        }
        bytes.truncate(if r.one_in(4) { r.below(bytes.len()) } else { bytes.len() });
        let cut = if r.one_in(4) { r.below(60) } else { 56 };
        let side = |side: &[i8]| side[..cut.min(side.len())].to_vec();
        let sheet = Sheet::from_parts(bytes, side(good.left()), side(good.right()));
        if let Some(sheet) = judge(sheet, &[10, 13, 15, 16, 17, 18]) {
            use_sheet(&mut r, &sheet);
        }
    }
}

#[test]
fn bodies() {
    let mut r = Xorshift::new(4);
    for _ in 0..INPUTS {
        let (body, compression, channels) = (r.bytes(40), r.byte() % 3, u16::from(r.byte() % 4));
        let frames = if r.one_in(2) { r.next() } else { r.next() % 40 };
        if let Some(out) = judge(svx::decode_body(&body, compression, channels, frames), &[10, 11, 12]) {
            assert!(out.len() as u64 <= frames.saturating_mul(2));
        }
        judge(svx::fibonacci_decode_channel(&body), &[12]);
        let count = r.below(40);
        svx::fibonacci_encode_channel(&r.samples(count));
    }
}

/// Channels that may suit a header: ordering and restoring are turned back alike.
#[test]
fn channels() {
    let mut r = Xorshift::new(5);
    let mut accepted = 0;
    for _ in 0..INPUTS {
        let voice = any_voice(&mut r);
        let samples = voice
            .channels
            .first()
            .map(ChannelSamples::flattened)
            .unwrap_or_default();
        let values = judge(svx::difference_order(&voice.header, &samples), &[13, 18]);
        let restored = judge(svx::difference_restore(&voice.header, &samples), &[13, 18]);
        assert_eq!(values.is_some(), restored.is_some());
        if values.is_some() {
            use_order(&mut r, &voice.header, &samples);
            accepted += 1;
        }
    }
    assert!(
        (INPUTS / 10..INPUTS).contains(&accepted),
        "{accepted} of {INPUTS} were ordered"
    );
}

/// Every number but 0 has a voice that all can be asked of.
#[test]
fn numbers() {
    let mut r = Xorshift::new(6);
    for _ in 0..INPUTS {
        let number = if r.one_in(2) { r.odd_u32() } else { r.u32() };
        let sheet = judge(Sheet::drawn(number), &[48]);
        assert_eq!(sheet.is_some(), number > 0);
        if let Some(sheet) = sheet {
            assert_eq!(svx::drawn_voice(number).unwrap(), sheet.voice());
            use_sheet(&mut r, &sheet);
        }
    }
}
