//! Octaves as WAVE files: random voices against the plain version, and each file taken apart by its own lengths.
use crate::{abi, make, plain_wave as plain, rust_side, wave_large};
use oracle::svx::{ChannelAssignment, Voice, VoiceHeader};

/// How often each refusal was seen, and what the accepted files were like.
struct Tally { seen: [u64; 64], mono: u64, stereo: u64, padded: u64, empty: u64, later: u64 }

/// The library's file or refusal. Past the output is kept, a buffer that is a byte short is refused, and no refused call writes.
pub fn library(s: &[u8], l: &[i8], r: &[i8], k: u8) -> Result<Vec<u8>, u32> {
    let kept = |len: usize, number: u32| {
        let mut f = vec![0xA5; len];
        assert_eq!(abi::octave_wave(s, l, r, k, &mut f), Err(number), "a buffer of {len}");
        assert!(f.iter().all(|x| *x == 0xA5), "a refused call wrote");
    };
    let n = match abi::octave_wave_length(s, l, r, k) {
        Ok(n) => n,
        Err(number) => {
            for len in [0, 43, 44, 300] { kept(len, number); }
            return Err(number);
        }
    };
    let mut file = vec![0xA5; n];
    assert_eq!(abi::octave_wave(s, l, r, k, &mut file), Ok(n), "the length differs from the one that was asked for");
    for more in [1, 100] {
        let mut long = vec![0x5A; n + more];
        assert_eq!(abi::octave_wave(s, l, r, k, &mut long), Ok(n), "a longer buffer");
        assert!(long[..n] == file[..], "a longer buffer");
        assert!(long[n..].iter().all(|x| *x == 0x5A), "past the output");
    }
    kept(n - 1, 20);
    kept(0, 20);
    Ok(file)
}

fn number(f: &[u8], at: usize, bytes: usize) -> usize { (0..bytes).map(|i| (f[at + i] as usize) << (8 * i)).sum() }

/// The rate and the sides that a WAVE file holds, found by a walk over its chunks.
fn apart(f: &[u8]) -> (usize, Vec<Vec<i8>>) {
    assert_eq!((&f[..4], number(f, 4, 4) + 8, &f[8..12]), (&b"RIFF"[..], f.len(), &b"WAVE"[..]));
    let mut chunks = Vec::new();
    let mut at = 12;
    while at < f.len() {
        let n = number(f, at + 4, 4);
        chunks.push((&f[at..at + 4], &f[at + 8..at + 8 + n]));
        at += 8 + n;
        if n % 2 == 1 { assert_eq!(f[at], 0, "the pad"); at += 1; }
    }
    assert_eq!(at, f.len(), "the last chunk's end");
    let [(b"fmt ", format), (b"data", data)] = chunks[..] else { panic!("chunks {chunks:02X?}") };
    let (channels, rate) = (number(format, 2, 2), number(format, 4, 4));
    assert!(channels == 1 || channels == 2, "{channels} channels");
    assert_eq!((format.len(), number(format, 0, 2), number(format, 14, 2)), (16, 1, 8), "8 bits of PCM");
    assert_eq!((number(format, 8, 4), number(format, 12, 2)), (rate * channels, channels), "bytes a second and a frame");
    assert_eq!(data.len() % channels, 0, "whole frames");
    let side = |i: usize| data.iter().skip(i).step_by(channels).map(|x| (*x as i16 - 128) as i8).collect();
    (rate, (0..channels).map(side).collect())
}

/// What is in the file is the octave of each side, by the formula for where it begins.
fn held(f: &[u8], v: &plain::Voice, k: u8) {
    let (rate, sides) = apart(f);
    assert_eq!((rate, sides.len()), (v.header.samples_per_sec as usize, if v.stereo { 2 } else { 1 }));
    let hi = v.header.hi_octave_samples() as usize;
    let (start, n) = if hi == 0 { (0, v.left.len()) } else { (hi * ((1 << k) - 1), hi << k) };
    assert!(sides[0] == v.left[start..start + n], "the left side's octave");
    if v.stereo { assert!(sides[1] == v.right[start..start + n], "the right side's octave"); }
}

/// One octave, the library's against the plain version's.
fn octave(sheet: &[u8], v: &plain::Voice, k: u8, t: &mut Tally) {
    let want = match abi::sheet_judge(sheet) {
        0 => v.file(k),
        n => Err(n),
    };
    let got = library(sheet, v.left, v.right, k);
    assert!(got == want, "octave {k} of {v:?}\n  sheet {sheet:02X?}\n  plain {want:02X?}\n  library {got:02X?}");
    match got {
        Err(n) => t.seen[n as usize] += 1,
        Ok(f) => {
            t.seen[0] += 1;
            t.seen[20] += 1;
            held(&f, v, k);
            *if v.stereo { &mut t.stereo } else { &mut t.mono } += 1;
            t.padded += number(&f, 40, 4) as u64 % 2;
            t.empty += (f.len() == 44) as u64;
            t.later += (k > 0) as u64;
        }
    }
}

fn header(r: &mut make::Rng, odds: u64) -> VoiceHeader {
    let zero = r.once(8);
    let most = if r.once(60) { 2000 } else { 24 };
    let part = |r: &mut make::Rng| if zero { 0 } else { r.below(most) as u32 };
    let mut h = VoiceHeader {
        one_shot_hi_samples: part(r),
        repeat_hi_samples: part(r),
        samples_per_hi_cycle: r.next() as u32 >> r.below(32),
        samples_per_sec: (r.next() as u16 >> r.below(16)).max(1),
        ct_octave: r.below(6) as u8,
        compression_byte: r.below(2) as u8,
        volume: r.next() as u32 >> r.below(32),
    };
    if r.once(odds) { h.samples_per_sec = 0; }
    if r.once(odds) { h.compression_byte = 2 + r.below(254) as u8; }
    if r.once(odds) { h.ct_octave = r.pick(&[31, 32, 33, 63, 64, 65, 128, 254, 255]); }
    if r.once(odds) { h.repeat_hi_samples = r.next() as u32; }
    h
}

/// A voice with any chunks, and sides that mostly suit it. Once in eight times each fault is likely, so that it shows which comes first.
fn voice(r: &mut make::Rng) -> (Voice, Vec<i8>, Vec<i8>) {
    let odds = if r.once(8) { 3 } else { 80 };
    let h = header(r, odds);
    let v = make::voice(r).with_header(h);
    let n = match h.total_samples_per_channel() {
        Some(0) => if r.once(3) { 0 } else { r.below(60) as usize },
        Some(n) if n < 1 << 18 => n as usize,
        _ => r.below(40) as usize,
    };
    let (mut left, mut right) = (n, if stereo(&v) { n } else { 0 });
    if r.once(odds) { right = r.pick(&[0, 1, n, n + 1, n.saturating_sub(1)]); }
    if r.once(odds) {
        // both sides alike, but of a wrong length
        left = if r.once(2) { n + 1 } else { n.saturating_sub(1) };
        if right == n { right = left; }
    }
    let (left, right) = (r.samples(left), r.samples(right));
    (v, left, right)
}

fn stereo(v: &Voice) -> bool { v.channel == Some(ChannelAssignment::Stereo) }

/// Mostly an octave that is there.
fn which(r: &mut make::Rng, octaves: u8) -> u8 {
    if r.once(12) { r.next() as u8 } else if r.once(12) { octaves.max(1) } else { r.below(octaves.clamp(1, 8) as u64) as u8 }
}

fn case(r: &mut make::Rng, t: &mut Tally) {
    let (v, left, right) = voice(r);
    let sheet = rust_side::flat(&v);
    assert_eq!(abi::sheet_judge(&sheet), 0);
    let said = plain::Voice { header: v.header, stereo: stereo(&v), left: &left, right: &right };
    for _ in 0..1 + r.below(3) { octave(&sheet, &said, which(r, v.header.ct_octave), t); }
    // a damaged sheet is refused as judging it is, or is another voice's: the header stands first in it, CHAN behind the header
    if r.once(4) {
        let mut s = sheet.clone();
        let i = r.below(s.len() as u64) as usize;
        if r.once(2) { s[i] = r.next() as u8; } else { s.truncate(i); }
        let whole = abi::sheet_judge(&s) == 0;
        let header = if whole { VoiceHeader::parse(&s[1..]).expect("a header") } else { v.header };
        let said = plain::Voice { header, stereo: whole && s[21..].starts_with(&[2, 6]), left: &left, right: &right };
        octave(&s, &said, which(r, header.ct_octave), t);
    }
}

pub fn run(n: u64, seed: u64) {
    let mut r = make::Rng::new(seed ^ 0x3A7E);
    let mut t = Tally { seen: [0; 64], mono: 0, stereo: 0, padded: 0, empty: 0, later: 0 };
    for _ in 0..n { case(&mut r, &mut t); }
    println!("wave: {n} voices of seed {seed}, no difference; left out by a filter: none");
    println!("  accepted: {} of one channel, {} of two; {} padded, {} of no samples, {} of an octave after the highest", t.mono, t.stereo, t.padded, t.empty, t.later);
    wave_large::run(&mut t.seen);
    println!("octaves by refusal, 0 accepted (20: those again, into a buffer that is a byte short):");
    for (i, c) in t.seen.iter().enumerate().filter(|(_, c)| **c > 0) { println!("  {i:2} {c}"); }
}
