//! Speed of mixes: frames of entries per second against a note's fill on the same voice and against the plain mixer, in blocks of 64 and 4,096
//! frames, and what entries cost that don't sound.
use crate::abi::Entry;
use crate::note_bench::{looped, points};
use crate::{abi, make, plain_mix, plain_note as plain, rust_side};
use oracle::svx::{ChannelAssignment, Voice};
use std::hint::black_box;
use std::time::Instant;

const FRAMES: usize = 1 << 16;
const RATE: u32 = 44_100;

/// Seconds for FRAMES frames in blocks; the best of nine rounds. A block is told which it is.
fn seconds(block: usize, mut fill: impl FnMut(usize, &mut Vec<i16>)) -> f64 {
    let mut out = vec![0i16; 2 * block];
    let mut best = f64::MAX;
    for _ in 0..9 {
        let t = Instant::now();
        for i in 0..FRAMES / block { fill(i, &mut out); }
        best = best.min(t.elapsed().as_secs_f64());
    }
    best
}

struct Case<'a> { voice: &'a Voice, sheet: Vec<u8>, left: &'a [i8], right: &'a [i8], step: u32, velocity: u8 }

impl Case<'_> {
    /// An entry that is held.
    fn held(&self) -> Entry { Entry { start: 0, key_up: u32::MAX, step: self.step, octave: 0, velocity: self.velocity } }

    fn mix(&self, score: &[Entry], block: usize) -> f64 {
        let mut place = 0;
        seconds(block, |i, out| {
            if i == 0 { place = 0; }
            place = abi::mix(black_box(score), RATE, place, black_box(&self.sheet), self.left, self.right, out).expect("accepted");
            black_box(out);
        })
    }

    fn fill(&self, block: usize) -> f64 {
        let fresh = abi::note_start(0, self.step, RATE, self.velocity);
        let mut n = fresh;
        seconds(block, |i, out| {
            if i == 0 { n = fresh; }
            let f = abi::note_fill(n, black_box(&self.sheet), self.left, self.right, out);
            assert_eq!(f.refusal, 0);
            n = f.note;
            black_box(out);
        })
    }

    fn plain(&self, score: &[Entry], block: usize) -> f64 {
        let sound = plain::sound(self.voice, self.left, self.right);
        let mixer = plain_mix::Mixer::new(&sound, score, RATE);
        let mut place = 0;
        seconds(block, |i, out| {
            if i == 0 { place = 0; }
            assert_eq!(plain_mix::refusal(&sound, score, RATE, out.len()), 0);
            place = mixer.fill(place, out).after;
            black_box(out);
        })
    }
}

fn measure(name: &str, v: &Voice, left: &[i8], right: &[i8], step: u32, velocity: u8) {
    let case = Case { voice: v, sheet: rust_side::flat(v), left, right, step, velocity };
    for block in [64usize, 4096] {
        let fill = case.fill(block) / FRAMES as f64;
        println!("{name}, blocks of {block}: a note's fill {:.1} million frames/s, {:.2} ns a frame", 1e-6 / fill, fill * 1e9);
        for count in [1usize, 4, 16] {
            let score = vec![case.held(); count];
            let each = |t: f64| t / (FRAMES * count) as f64;
            let (mix, plain) = (each(case.mix(&score, block)), each(case.plain(&score, block)));
            println!("  {count:>2} sounding: library {:>7.1} million frames of entries/s, {:>6.2} ns each, mix/fill {:.2};  plain Rust {:>6.1}  ratio {:.2}",
                1e-6 / mix, mix * 1e9, mix / fill, 1e-6 / plain, plain / mix);
        }
        // one that is held, seven that are over after a frame, and eight that start later than is played
        let mut score = vec![Entry { key_up: 1, ..case.held() }; 7];
        score.push(case.held());
        score.extend([Entry { start: u32::MAX - 1, ..case.held() }; 8]);
        let (mix, plain, alone) = (case.mix(&score, block), case.plain(&score, block), case.mix(&[case.held()], block));
        println!("   1 of 16 sounding: library {:>7.1} million frames/s, {:>6.2} ns a frame, {:.2} of what 1 alone takes;  plain Rust {:>6.1}  ratio {:.2}",
            1e-6 * FRAMES as f64 / mix, mix * 1e9 / FRAMES as f64, mix / alone, 1e-6 * FRAMES as f64 / plain, plain / mix);
    }
}

pub fn run() {
    let mut r = make::Rng::new(12);
    let (left, right) = (r.samples(1000), r.samples(1000));
    let mono = Voice::default().with_header(looped(1000));
    let step = 12_000;
    measure("held loop", &mono, &left, &[], step, 127);
    measure("held loop, velocity 100", &mono, &left, &[], step, 100);
    measure("held loop, more than a sample a frame", &mono, &left, &[], 70_000, 127);
    let stereo = Voice::default().with_header(looped(1000)).with_channel(Some(ChannelAssignment::Stereo));
    measure("stereo loop", &stereo, &left, &right, step, 127);
    let shaped = Voice::default().with_header(looped(1000)).with_attack(points(&[(50, 65536), (100, 40000), (200, 50000), (400, 45000)]));
    measure("held loop, attack of 4 points", &shaped, &left, &[], step, 127);
}
