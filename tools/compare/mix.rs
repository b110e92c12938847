//! Mixes: scores of any number of entries on random voices, in blocks of random lengths, against the plain mixer.
use crate::{abi, abi::Entry, make, note, plain_mix, plain_note as plain, rust_side};

/// When things happen: from the first frame on, or up to the last; and how far apart, by a factor.
#[derive(Clone, Copy)]
struct When { last: bool, wide: u64 }

impl When {
    /// A frame near the first, or near the last.
    fn near(self, r: &mut make::Rng) -> u32 { let far = r.below(80 * self.wide) as u32; if self.last { u32::MAX - far } else { far } }
}

fn entry(r: &mut make::Rng, octaves: u8, start: u32, when: When) -> Entry {
    let length = if r.once(6) { r.next() as u32 } else { r.below(70 * when.wide) as u32 };
    Entry {
        start,
        key_up: start.saturating_add(length),
        step: if r.once(3) { 65536 } else if r.once(10) { 1 + r.below(16_777_216) as u32 } else { 1 + r.below(400_000) as u32 },
        octave: r.below(octaves.clamp(1, 8) as u64) as u8,
        velocity: if r.once(3) { 127 } else { 1 + r.below(127) as u8 },
    }
}

/// Makes one of the rules of an entry turn it back, or comes close to that.
fn spoil(r: &mut make::Rng, e: &mut Entry) {
    match r.below(7) {
        0 => e.start = e.start.saturating_sub(1 + r.below(40) as u32),
        1 => e.key_up = e.start.saturating_sub(r.below(4) as u32),
        2 => { e.start = e.start.saturating_sub(r.below(9) as u32); e.key_up = e.start.saturating_sub(r.below(3) as u32); }
        3 => e.octave = if r.once(2) { r.next() as u8 } else { r.below(9) as u8 },
        4 => e.step = r.pick(&[0, 1, 16_777_216, 16_777_217, u32::MAX]),
        5 => e.velocity = r.pick(&[0, 1, 127, 128, 255]),
        _ => *e = Entry { start: r.next() as u32, key_up: r.next() as u32, step: r.next() as u32 >> r.below(32), octave: r.next() as u8, velocity: r.next() as u8 },
    }
}

/// A score whose starts rise; now and then with something wrong in it, at one place or two.
fn score(r: &mut make::Rng, octaves: u8, when: When) -> Vec<Entry> {
    let count = if r.once(12) { 15 + r.below(4) } else if r.once(3) { r.below(17) } else { r.below(6) };
    let mut start = if when.last && r.once(2) { when.near(r) } else { r.below(9) as u32 };
    let mut list = Vec::new();
    for _ in 0..count {
        if !r.once(3) { start = start.saturating_add(r.below(25 * when.wide) as u32); }
        // near the last frame there are entries that started long ago, and some that start there
        if when.last && r.once(4) { start = start.max(when.near(r)); }
        list.push(entry(r, octaves, start, when));
    }
    if count > 0 && r.once(3) {
        for _ in 0..1 + r.below(2) { let i = r.below(count) as usize; spoil(r, &mut list[i]); }
    }
    list
}

fn rate(r: &mut make::Rng) -> u32 {
    if r.once(20) { return r.pick(&[0, 1, 192_000, 192_001, u32::MAX]); }
    let most = if r.once(2) { 3000 } else { 48_000 };
    1 + r.below(most) as u32
}

/// What was met: calls by the number that turned them back, scores by their length, lists of calls from place 0, frames in which more than one
/// entry sounds, and values that were held.
struct Seen { calls: [u64; 64], lengths: [u64; 19], from_0: u64, frames: u64, together: u64, held: u64 }

/// One score through a list of calls, in blocks of fewer than 40 frames, and at times of many more.
fn case(r: &mut make::Rng, seen: &mut Seen) {
    let (v, left, right) = note::voice(r);
    let sheet = rust_side::flat(&v);
    assert_eq!(abi::sheet_judge(&sheet), 0);
    let sound = plain::sound(&v, &left, &right);
    let when = When { last: r.once(6), wide: if r.once(12) { 30 } else { 1 } };
    let (score, rate) = (score(r, v.header.ct_octave, when), rate(r));
    seen.lengths[score.len()] += 1;
    // mostly from place 0 on with the place that came back last; a host may seek as well
    let seeks = when.last || r.once(8);
    let mut place = if seeks { when.near(r) } else { 0 };
    seen.from_0 += !seeks as u64;
    let by_score = plain_mix::score_refusal(&score);
    for _ in 0..1 + r.below(5) {
        let places = 2 * r.below(40 * when.wide) as usize + r.once(12) as usize;
        let mut a = vec![0x5A5Ai16; places];
        let mut b = a.clone();
        let number = if by_score != 0 { by_score } else { plain_mix::refusal(&sound, &score, rate, places) };
        let got = abi::mix(&score, rate, place, &sheet, &left, &right, &mut a);
        let mut want = Err(number);
        if number == 0 {
            let mixed = plain_mix::Mixer::new(&sound, &score, rate).fill(place, &mut b);
            want = Ok(mixed.after);
            seen.frames += places as u64 / 2;
            seen.together += mixed.together;
            seen.held += mixed.held;
        }
        assert_eq!(got, want, "{places} places from {place} on at {rate}, {score:?} {v:?} {left:?} {right:?}");
        assert_eq!(a, b, "{places} places from {place} on at {rate}, {score:?} {v:?} {left:?} {right:?}");
        seen.calls[number as usize] += 1;
        place = got.unwrap_or(place);
    }
    // a damaged sheet is refused as judging it is, after the score, or is another voice's; and nothing is written where it is refused
    if r.once(4) {
        let mut s = sheet.clone();
        let i = r.below(s.len() as u64) as usize;
        if r.once(2) { s[i] = r.next() as u8; } else { s.truncate(i); }
        let mut a = vec![0x5A5Ai16; 8 + r.once(4) as usize];
        let got = abi::mix(&score, rate, place, &s, &left, &right, &mut a);
        let judged = if by_score != 0 { by_score } else { abi::sheet_judge(&s) };
        if judged != 0 { assert_eq!(got, Err(judged), "a damaged sheet {s:02X?}"); }
        if let Err(number) = got {
            assert!(a.iter().all(|x| *x == 0x5A5A), "a refused mix wrote");
            seen.calls[number as usize] += 1;
        }
    }
}

pub fn run(n: u64, seed: u64) {
    let mut r = make::Rng::new(seed);
    let mut seen = Seen { calls: [0; 64], lengths: [0; 19], from_0: 0, frames: 0, together: 0, held: 0 };
    for _ in 0..n { case(&mut r, &mut seen); }
    let [empty, full, over] = [seen.lengths[0], seen.lengths[16], seen.lengths[17] + seen.lengths[18]];
    println!("{n} scores, {} of them played from place 0 on, {empty} empty, {full} of 16 entries, {over} of more;", seen.from_0);
    println!("{} frames mixed, in {} of them more than one entry sounds, {} values held,", seen.frames, seen.together, seen.held);
    println!("no difference; mixes by refusal, 0 accepted:");
    for (i, c) in seen.calls.iter().enumerate().filter(|(_, c)| **c > 0) { println!("  {i:2} {c}"); }
}
