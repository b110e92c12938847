//! Notes: fills and key-ups on random voices, in blocks of random lengths, against the plain note.
use crate::{abi, make, plain_note as plain, rust_side};
use oracle::svx::{ChannelAssignment, ChannelSamples, EgPoint, Envelope, Fade, Pan, Seqn, SeqnSegment, Voice, VoiceHeader};

fn envelopes(r: &mut make::Rng) -> Vec<Envelope> {
    let point = |r: &mut make::Rng| EgPoint {
        duration_ms: if r.once(5) { 0 } else { r.below(40) as u16 },
        dest: if r.once(4) { r.next() as i32 } else { r.below(131_073) as i32 - 32_768 },
    };
    (0..r.below(3)).map(|_| Envelope { points: (0..r.below(4)).map(|_| point(r)).collect() }).collect()
}

/// Mostly a segment that may be played.
fn segment(r: &mut make::Rng, hi: u64) -> SeqnSegment {
    let (a, b) = (r.below(hi / 4 + 1) as u32 * 4, r.below(hi / 4 + 1) as u32 * 4);
    let nudge = if r.once(60) { 1 + r.below(3) as u32 } else { 0 };
    if r.once(60) { SeqnSegment { start: a.max(b), end: a.min(b) } } else { SeqnSegment { start: a.min(b), end: a.max(b) + nudge } }
}

fn header(r: &mut make::Rng, sequence: bool) -> VoiceHeader {
    let zero = r.once(8);
    let large = r.once(200);
    let part = |r: &mut make::Rng| if zero { 0 } else if large { 16384 } else { r.below(14) as u32 * if r.once(3) { 1 } else { 4 } };
    let one = part(r);
    VoiceHeader {
        one_shot_hi_samples: if sequence && !r.once(30) { 0 } else { one },
        repeat_hi_samples: part(r),
        samples_per_hi_cycle: 0,
        samples_per_sec: r.next() as u16,
        ct_octave: if large { 6 } else if r.once(20) { r.pick(&[0, 1, 64, 65, 255]) } else { r.below(5) as u8 },
        compression_byte: if r.once(100) { r.next() as u8 } else { r.below(2) as u8 },
        volume: if r.once(2) { 65536 } else { r.next() as u32 >> r.below(32) },
    }
}

/// A voice and the samples of its sides.
pub fn voice(r: &mut make::Rng) -> (Voice, Vec<i8>, Vec<i8>) {
    let sequence = r.once(3);
    let h = header(r, sequence);
    let hi = h.hi_octave_samples();
    let channel = r.pick(&[None, None, Some(ChannelAssignment::Left), Some(ChannelAssignment::Right), Some(ChannelAssignment::Stereo), Some(ChannelAssignment::Stereo)]);
    // at octave 5 a sequence of 8,192 whole octaves is one sample too long
    let whole = hi == 16384 && !r.once(4);
    let segments = if whole { 8150 + r.below(80) } else { r.below(6) };
    let list = |r: &mut make::Rng| (0..segments).map(|_| if whole { SeqnSegment { start: 0, end: hi as u32 } } else { segment(r, hi) }).collect::<Vec<_>>();
    let seqn = if sequence { Some(Seqn { segments: list(r) }) } else { None };
    let wild = r.once(40);
    let named = if wild { r.below(segments + 2) } else { r.below(segments.max(1)) };
    let fade = if (sequence && segments > 0 && r.once(2)) || r.once(60) { Some(Fade { segment: named as u32 }) } else { None };
    let total = h.total_samples_per_channel().unwrap_or(9).min(1 << 25) as usize;
    let mut n = if hi == 0 { r.below(40) as usize } else { total };
    if r.once(100) { n += 1; }
    let left = r.samples(n);
    let right = if (channel == Some(ChannelAssignment::Stereo)) != r.once(200) { r.samples(n) } else { Vec::new() };
    let v = Voice::default()
        .with_header(h)
        .with_channel(channel)
        .with_pan(if r.once(3) { Some(Pan { position: if r.once(3) { r.next() as i32 } else { r.below(65537) as i32 } }) } else { None })
        .with_attack(envelopes(r))
        .with_release(envelopes(r))
        .with_seqn(seqn)
        .with_fade(fade)
        .with_metadata(if r.once(4) { vec![("title".to_string(), "Fl\u{fc}gel".to_string())] } else { Vec::new() })
        .with_channels(vec![ChannelSamples { octaves: vec![Vec::new()] }]);
    (v, left, right)
}

fn fresh(r: &mut make::Rng, octaves: u8) -> plain::Note {
    let octave = if r.once(15) { r.next() as u8 } else { r.below(octaves.clamp(1, 8) as u64) as u8 };
    let step = if r.once(20) { r.pick(&[0, 1, 16_777_216, 16_777_217, u32::MAX]) } else if r.once(3) { 65536 } else { 1 + r.below(400_000) as u32 };
    let most = if r.once(2) { 3000 } else { 48_000 };
    let rate = if r.once(20) { r.pick(&[0, 1, 192_000, 192_001, u32::MAX]) } else { 1 + r.below(most) as u32 };
    let velocity = if r.once(3) { 127 } else if r.once(10) { r.next() as u8 } else { 1 + r.below(127) as u8 };
    let mut n = plain::start(octave, step, rate, velocity);
    if r.once(12) {
        // a note made by hand: near the last frame, or with a key-up anywhere
        n.frames = if r.once(2) { u32::MAX - r.below(40) as u32 } else { r.below(500) as u32 };
        if r.once(2) { n.key_up = Some(if r.once(3) { r.next() as u32 } else { n.frames.saturating_sub(r.below(30) as u32) }); }
    }
    n
}

/// What was met: fills by the number that turned them back, notes whose pan overrules their channel, and notes by their velocity.
struct Seen { fills: [u64; 64], overruled: u64, velocities: [u64; 256] }

/// One note through a list of calls, in blocks of fewer than `most` frames.
fn case(r: &mut make::Rng, most: u64, seen: &mut Seen) {
    let (v, left, right) = voice(r);
    let sheet = rust_side::flat(&v);
    assert_eq!(abi::sheet_judge(&sheet), 0);
    let sound = plain::sound(&v, &left, &right);
    seen.overruled += sound.overruled() as u64;
    let mut want = fresh(r, v.header.ct_octave);
    seen.velocities[want.velocity as usize] += 1;
    let mut got = abi::note_start(want.octave, want.step, want.rate, want.velocity);
    assert_eq!(got.plain(), plain::start(want.octave, want.step, want.rate, want.velocity));
    got = abi::Note::of(want);
    for _ in 0..1 + r.below(6) {
        if r.once(4) {
            want = plain::key_up(want);
            got = abi::note_key_up(got);
            assert_eq!(got.plain(), want, "key-up {v:?}");
            continue;
        }
        let places = 2 * r.below(most) as usize + r.once(12) as usize;
        let mut a = vec![0x5A5Ai16; places];
        let mut b = a.clone();
        let number = sound.refusal(want, places);
        let filled = abi::note_fill(got, &sheet, &left, &right, &mut a);
        let mut sounding = 0;
        if number == 0 { (sounding, want) = sound.fill(want, &mut b); }
        assert_eq!((filled.refusal, filled.sounding), (number, sounding), "fill of {places} places, {want:?} {v:?} {left:?} {right:?}");
        assert_eq!(a, b, "fill of {places} places, {want:?} {v:?} {left:?} {right:?}");
        got = filled.note;
        assert_eq!(got.plain(), want, "the note after it {v:?}");
        seen.fills[number as usize] += 1;
    }
    // a damaged sheet is refused as judging it is, or is another voice's, and nothing is written where it is refused
    if r.once(4) {
        let mut s = sheet.clone();
        let i = r.below(s.len() as u64) as usize;
        if r.once(2) { s[i] = r.next() as u8; } else { s.truncate(i); }
        let mut a = vec![0x5A5Ai16; 8];
        let filled = abi::note_fill(got, &s, &left, &right, &mut a);
        let judged = abi::sheet_judge(&s);
        if judged != 0 { assert_eq!(filled.refusal, judged); }
        if filled.refusal != 0 {
            assert!(a.iter().all(|x| *x == 0x5A5A), "a refused fill wrote");
            assert_eq!((filled.sounding, filled.note.plain()), (0, got.plain()));
            seen.fills[filled.refusal as usize] += 1;
        }
    }
}

pub fn run(n: u64, seed: u64, most: u64) {
    let mut r = make::Rng::new(seed);
    let mut seen = Seen { fills: [0; 64], overruled: 0, velocities: [0; 256] };
    for _ in 0..n { case(&mut r, most, &mut seen); }
    let (met, softer) = (seen.velocities.iter().filter(|c| **c > 0).count(), seen.velocities[1..127].iter().sum::<u64>());
    println!("{n} notes, {} of them on voices whose pan overrules their channel, {softer} at a velocity from 1 to 126, {met} velocities met,", seen.overruled);
    println!("no difference; fills by refusal, 0 accepted:");
    for (i, c) in seen.fills.iter().enumerate().filter(|(_, c)| **c > 0) { println!("  {i:2} {c}"); }
}
