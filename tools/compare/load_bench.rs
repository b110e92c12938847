//! The load: the voices of the numbers 1 to 1,000, drawn, written, read and played, each octave as a held note. Drawing is held against the drawing by
//! hand (plain_drawn.rs), files against the original, and notes against the plain note. The sums of what comes out tell whether another machine
//! had the same load.
use crate::bench::best;
use crate::drawn::{Way, MOST, WAYS};
use crate::plain_drawn::{self, Drawn};
use crate::{abi, plain_note as plain};
use oracle::svx::{self, Voice};
use std::hint::black_box;
use std::ops::Range;

const VOICES: usize = 1_000;
/// The longest file: FORM and its kind, VHDR, CHAN, and BODY of two sides.
const FILE: usize = 12 + 28 + 12 + 8 + 2 * MOST[1];
/// Of each note.
const FRAMES: usize = 4_096;
const STEP: u32 = 65_536;
const RATE: u32 = 44_100;
const VELOCITY: u8 = 127;

/// A voice by the plain version, as the original holds it, and its file.
struct One { drawn: Drawn, voice: Voice, file: Vec<u8> }

/// A sum that tells the order too: 31 times itself and what is added, kept to 64 bits.
#[derive(Default)]
struct Sum(u64);

impl Sum {
    fn add(&mut self, x: u64) { self.0 = self.0.wrapping_mul(31).wrapping_add(x); }
}

struct Load { all: Vec<One>, samples: usize, notes: usize }

impl Load {
    fn new() -> Self {
        let one = |number: u32| {
            let drawn = plain_drawn::voice(number).expect("not 0");
            One { voice: drawn.original(), file: drawn.file(), drawn }
        };
        let all: Vec<One> = (1..=VOICES as u32).map(one).collect();
        let samples = all.iter().map(|one| one.drawn.left.len() + one.drawn.right.len()).sum();
        let notes = all.iter().map(|one| one.drawn.head.octaves as usize).sum();
        Load { all, samples, notes }
    }

    /// Draws all into buffers at hand; each is shown.
    fn draw(&self, way: Way, mut shown: impl FnMut(&One, &[u8], &[i8], &[i8])) {
        let (mut s, mut l, mut r) = (vec![0u8; MOST[0]], vec![0i8; MOST[1]], vec![0i8; MOST[2]]);
        for (i, one) in self.all.iter().enumerate() {
            let n = way(black_box(i as u32 + 1), &mut s, &mut l, &mut r).expect("accepted").map(|n| n as usize);
            shown(one, &s[..n[0]], &l[..n[1]], &r[..n[2]]);
        }
    }

    /// Writes all into a buffer at hand, with the length asked for first or not.
    fn write(&self, asked: bool, mut shown: impl FnMut(&One, &[u8])) {
        let mut file = vec![0u8; FILE];
        for one in &self.all {
            let (s, l, r) = (black_box(&one.drawn.sheet), &one.drawn.left, &one.drawn.right);
            if asked { assert!(abi::file_length(s, l, r).expect("accepted") <= FILE); }
            let n = abi::encode_voice(s, l, r, &mut file).expect("accepted");
            shown(one, &file[..n]);
        }
    }

    /// Reads all into buffers at hand, with the lengths asked for first or not.
    fn read(&self, asked: bool, mut shown: impl FnMut(&One, &[u8], &[i8], &[i8])) {
        let (mut s, mut l, mut r) = (vec![0u8; MOST[0]], vec![0i8; MOST[1]], vec![0i8; MOST[2]]);
        for one in &self.all {
            let file = black_box(&one.file);
            if asked { assert!(abi::voice_lengths(file).expect("accepted")[0] as usize <= s.len()); }
            let n = abi::parse_voice(file, &mut s, &mut l, &mut r).expect("accepted").map(|n| n as usize);
            shown(one, &s[..n[0]], &l[..n[1]], &r[..n[2]]);
        }
    }

    /// Plays each octave of some of them in blocks; how many frames weren't over.
    fn play(&self, some: Range<usize>, block: usize, mut shown: impl FnMut(&[i16])) -> u64 {
        let (mut out, mut sounding) = (vec![0i16; 2 * block], 0);
        for Drawn { head, sheet, left, right } in self.all[some].iter().map(|one| &one.drawn) {
            for k in 0..head.octaves {
                let mut n = abi::note_start(k, STEP, RATE, VELOCITY);
                for _ in 0..FRAMES / block {
                    let f = abi::note_fill(n, black_box(sheet), left, right, &mut out);
                    assert_eq!(f.refusal, 0);
                    (sounding, n) = (sounding + f.sounding, f.note);
                    shown(&out);
                }
            }
        }
        sounding
    }

    /// The same by the plain note.
    fn play_plainly(&self, some: Range<usize>, block: usize, mut shown: impl FnMut(&[i16])) -> u64 {
        let (mut out, mut sounding) = (vec![0i16; 2 * block], 0);
        for One { drawn, voice, .. } in &self.all[some] {
            let sound = plain::sound(black_box(voice), &drawn.left, &drawn.right);
            for k in 0..drawn.head.octaves {
                let mut n = plain::start(k, STEP, RATE, VELOCITY);
                for _ in 0..FRAMES / block {
                    assert_eq!(sound.refusal(n, out.len()), 0);
                    let (count, after) = sound.fill(n, &mut out);
                    (sounding, n) = (sounding + count, after);
                    shown(&out);
                }
            }
        }
        sounding
    }

    /// That all of it gives the same, and what it is.
    fn agree(&self) {
        let same = |one: &One, s: &[u8], l: &[i8], r: &[i8]| assert!((s, l, r) == (&one.drawn.sheet, &one.drawn.left, &one.drawn.right), "not {:?}", one.drawn);
        for (_, way) in WAYS { self.draw(way, same); }
        for asked in [true, false] {
            self.write(asked, |one, file| assert!(file == one.file, "not the file of {:?}", one.drawn));
            self.read(asked, same);
        }
        let (mut files, mut frames, mut sounding) = (Sum::default(), Sum::default(), 0);
        for (i, one) in self.all.iter().enumerate() {
            assert!(svx::encode_voice(&one.voice).expect("written") == one.file, "not the original's file of {:?}", one.drawn);
            assert!(svx::parse_voice(&one.file).expect("read") == one.voice, "the original reads another voice than {:?}", one.drawn);
            one.file.iter().for_each(|byte| files.add(*byte as u64));
            let some = i..i + 1;
            let mut values = Vec::new();
            let count = self.play(some.clone(), FRAMES, |out| values.extend_from_slice(out));
            let check = |played: &dyn Fn(&mut Vec<i16>) -> u64| {
                let mut other = Vec::new();
                assert!(played(&mut other) == count && other == values, "other frames of {:?}", one.drawn);
            };
            check(&|other| self.play(some.clone(), 64, |out| other.extend_from_slice(out)));
            for block in [64, FRAMES] { check(&|other| self.play_plainly(some.clone(), block, |out| other.extend_from_slice(out))); }
            values.iter().for_each(|value| frames.add(*value as u16 as u64));
            sounding += count;
        }
        let (two, bytes) = (self.all.iter().filter(|one| one.drawn.head.two).count(), self.all.iter().map(|one| one.file.len()).sum::<usize>());
        println!("the load: the voices of the numbers 1 to {VOICES}, {two} of two channels, {} samples; {} notes of {FRAMES} frames, {} frames, {sounding} of them sound",
            self.samples, self.notes, self.notes * FRAMES);
        println!("  files {bytes} bytes, sum {}: from 0 on, for every byte of every file, 31 times the sum and the byte, kept to 64 bits", files.0);
        println!("  frames, sum {}: likewise for every value, left before right, its 16 bits as a number from 0 to 65535, voice by voice and note by note from octave 0 on", frames.0);
    }
}

/// The library's seconds and the other's for all voices, and how many of what they made.
fn line(name: &str, ours: f64, other: &str, theirs: f64, count: usize, what: &str) {
    let said = |seconds: f64| {
        let us = seconds * 1e6;
        format!("{us:>9.1} us, {:>6.2} us a voice, {:>6.1} million {what}/s", us / VOICES as f64, count as f64 / us)
    };
    println!("{name:32} library {}; {other:10} {}  ratio {:.2}", said(ours), said(theirs), theirs / ours);
}

pub fn run() {
    let load = Load::new();
    load.agree();
    let [ours, hand] = WAYS.map(|(_, way)| best(9, 5, || load.draw(way, |_, s, l, r| { black_box((s, l, r)); })));
    line("drawn", ours, "plain Rust", hand, load.samples, "samples");
    let theirs = best(9, 10, || load.all.iter().for_each(|one| { black_box(svx::encode_voice(black_box(&one.voice)).expect("written")); }));
    for (name, asked) in [("written, with lengths", true), ("  into a buffer at hand", false)] {
        let ours = best(9, 10, || load.write(asked, |_, file| { black_box(file); }));
        line(name, ours, "original", theirs, load.samples, "samples");
    }
    let theirs = best(9, 10, || load.all.iter().for_each(|one| { black_box(svx::parse_voice(black_box(&one.file)).expect("read")); }));
    for (name, asked) in [("read, with lengths", true), ("  into buffers at hand", false)] {
        let ours = best(9, 10, || load.read(asked, |_, s, l, r| { black_box((s, l, r)); }));
        line(name, ours, "original", theirs, load.samples, "samples");
    }
    for block in [64, FRAMES] {
        let ours = best(7, 1, || { black_box(load.play(0..VOICES, block, |out| { black_box(out); })); });
        let theirs = best(7, 1, || { black_box(load.play_plainly(0..VOICES, block, |out| { black_box(out); })); });
        line(&format!("played, blocks of {block}"), ours, "plain Rust", theirs, load.notes * FRAMES, "frames");
    }
}
