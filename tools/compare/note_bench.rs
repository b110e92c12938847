//! Speed of fills: frames per second against the plain note, in blocks of 64 and 4,096 frames, and what judging a long sheet costs a call.
use crate::{abi, make, plain_note as plain, rust_side};
use oracle::svx::{ChannelAssignment, EgPoint, Envelope, Fade, Seqn, SeqnSegment, Voice, VoiceHeader};
use std::hint::black_box;
use std::time::Instant;

const FRAMES: usize = 1 << 16;

pub fn looped(samples: u32) -> VoiceHeader {
    VoiceHeader { one_shot_hi_samples: 0, repeat_hi_samples: samples, samples_per_hi_cycle: 0, samples_per_sec: 8000, ct_octave: 1, compression_byte: 0, volume: 60000 }
}

pub fn points(list: &[(u16, i32)]) -> Vec<Envelope> {
    vec![Envelope { points: list.iter().map(|(ms, dest)| EgPoint { duration_ms: *ms, dest: *dest }).collect() }]
}

/// Frames per second of FRAMES frames in blocks, with a key-up in the middle where asked; the best of some passes.
fn rate(mut fill: impl FnMut(&mut Vec<i16>, bool), block: usize, released: bool) -> f64 {
    let mut out = vec![0i16; 2 * block];
    let mut best = f64::MAX;
    for _ in 0..9 {
        let t = Instant::now();
        for i in 0..FRAMES / block { fill(&mut out, released && i == FRAMES / block / 2); }
        best = best.min(t.elapsed().as_secs_f64());
    }
    FRAMES as f64 / best
}

fn measure(name: &str, v: &Voice, left: &[i8], right: &[i8], step: u32, velocity: u8, released: bool) {
    let sheet = rust_side::flat(v);
    let sound = plain::sound(v, left, right);
    for block in [64usize, 4096] {
        let fresh = abi::note_start(0, step, 44_100, velocity);
        let mut n = fresh;
        let mut i = 0;
        let ours = rate(|out, up| {
            if i % (FRAMES / block) == 0 { n = fresh; }
            i += 1;
            if up { n = abi::note_key_up(n); }
            let f = abi::note_fill(n, black_box(&sheet), left, right, out);
            assert_eq!(f.refusal, 0);
            n = f.note;
            black_box(out);
        }, block, released);
        let fresh = plain::start(0, step, 44_100, velocity);
        let mut n = fresh;
        let mut i = 0;
        let theirs = rate(|out, up| {
            if i % (FRAMES / block) == 0 { n = fresh; }
            i += 1;
            if up { n = plain::key_up(n); }
            assert_eq!(sound.refusal(n, out.len()), 0);
            (_, n) = sound.fill(n, out);
            black_box(out);
        }, block, released);
        println!("{name:40} blocks of {block:>5}: library {:>7.1}  plain Rust {:>7.1} million frames/s  ratio {:.2}", ours / 1e6, theirs / 1e6, ours / theirs);
    }
}

pub fn run() {
    let mut r = make::Rng::new(11);
    let left = r.samples(1000);
    let right = r.samples(1000);
    let plain_loop = Voice::default().with_header(looped(1000));
    let step = 12_000;
    measure("held loop, no envelope", &plain_loop, &left, &[], step, 127, false);
    measure("held loop, no envelope, velocity 100", &plain_loop, &left, &[], step, 100, false);
    measure("held loop, more than a sample a frame", &plain_loop, &left, &[], 70_000, 127, false);
    measure("the same, velocity 100", &plain_loop, &left, &[], 70_000, 100, false);
    let attack = points(&[(50, 65536), (100, 40000), (200, 50000), (400, 45000)]);
    let release = points(&[(300, 20000), (300, 8000), (900, 0)]);
    let shaped = Voice::default().with_header(looped(1000)).with_attack(attack).with_release(release);
    measure("attack of 4 points, release of 3", &shaped, &left, &[], step, 127, true);
    let segments = (0..16).map(|i| SeqnSegment { start: 4 * i, end: 4 * i + 800 }).collect();
    let sequence = Voice::default().with_header(looped(1000)).with_seqn(Some(Seqn { segments })).with_fade(Some(Fade { segment: 8 }));
    measure("sequence of 16 segments, fade", &sequence, &left, &[], step, 127, false);
    let stereo = Voice::default().with_header(looped(1000)).with_channel(Some(ChannelAssignment::Stereo));
    measure("stereo loop", &stereo, &left, &right, step, 127, false);
    measure("stereo loop, velocity 100", &stereo, &left, &right, step, 100, false);
    let text = "x".repeat(10_000);
    let long = Voice::default().with_header(looped(1000)).with_metadata(vec![("comment".to_string(), text)]);
    measure("held loop, 10,000 bytes of text", &long, &left, &[], step, 127, false);
    let (short, long) = (rust_side::flat(&plain_loop), rust_side::flat(&long));
    for (name, sheet) in [("no text", &short), ("10,000 bytes of text", &long)] {
        let n = abi::note_start(0, step, 44_100, 127);
        let mut best = f64::MAX;
        for _ in 0..9 {
            let t = Instant::now();
            for _ in 0..2000 { black_box(abi::note_fill(n, black_box(sheet), &left, &[], &mut [])); }
            best = best.min(t.elapsed().as_secs_f64() / 2000.0);
        }
        println!("a fill of no places, {name}: {:.2} us", best * 1e6);
    }
}
