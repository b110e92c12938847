//! Voices that are drawn from numbers, against the plain version, in buffers of many lengths; what the library writes of them against the plain file
//! and the original's; and what both read from it against what was drawn.
use crate::plain_drawn::{self as plain, Drawn, Head};
use crate::{abi, encode, make, parse, rust_side};
use std::array::from_fn;
use std::fmt::Debug;

/// A way to draw: by a number, into buffers for the sheet and both sides.
pub type Way = fn(u32, &mut [u8], &mut [i8], &mut [i8]) -> Result<[u64; 3], u32>;
pub const WAYS: [(&str, Way); 2] = [("library", abi::drawn_voice), ("by hand", plain::by_hand)];

/// Buffers of these lengths do for every number.
pub const MOST: [usize; 3] = [23, 1_890, 1_890];

/// How many of the first numbers are drawn from, and of the largest.
const FIRST: u32 = 50_000;
const LAST: u32 = 10_000;

/// The three buffers; a call is lent the front of each.
#[derive(Clone, Debug, PartialEq)]
struct Buffers { sheet: Vec<u8>, left: Vec<i8>, right: Vec<i8> }

/// Which of so many were met.
struct Met { seen: Vec<bool>, count: usize }

impl Met {
    fn none(of: usize) -> Self { Met { seen: vec![false; of], count: 0 } }
    fn add(&mut self, i: usize) {
        self.count += !self.seen[i] as usize;
        self.seen[i] = true;
    }
    fn all(&self) -> bool { self.count == self.seen.len() }
}

/// Channels, octaves and both lengths, as they were drawn, as one number.
fn shape(h: Head) -> usize {
    let one_shot = if h.both_zero { 0 } else { h.one_shot as usize };
    ((h.two as usize * 4 + h.octaves as usize - 1) * 64 + one_shot) * 64 + h.repeat as usize
}

/// What was met: voices by what they are like, accepted calls by their buffers, and refused ones, those by 20 by which of the three are short and
/// those by 48 by whether one is too short even for the shortest voice.
struct Tally {
    before: Buffers, now: Buffers,
    numbers: u64, channels: [u64; 2], octaves: [u64; 4], both_zero: u64, padded: u64, bytes: u64, largest: [u64; 2], lengths: [[usize; 2]; 3],
    shapes: Met, rates: Met, values: Met,
    exact: u64, longer: u64, most: u64, short: [u64; 8], zero: [u64; 2],
}

/// Lengths of buffers for a voice of these lengths: exact, longer, and what always does; and one, two or all of the three shorter by one, by half or
/// empty, the others exact or what always does; each once.
fn rooms(lengths: [usize; 3]) -> Vec<[usize; 3]> {
    let [s, l, r] = lengths;
    let mut list = vec![lengths, [s + 1, l + 1, r + 1], [s + 40, l + 7, r + 100], MOST];
    let shorter: [fn(usize) -> usize; 3] = [|n| n.saturating_sub(1), |n| n / 2, |_| 0];
    for set in 1..8 {
        for cut in shorter {
            for others in [lengths, MOST] { list.push(from_fn(|i| if set >> i & 1 == 1 { cut(lengths[i]) } else { others[i] })); }
        }
    }
    list.sort();
    list.dedup();
    list
}

/// Which buffers are too short, as bits.
fn short(lengths: [usize; 3], rooms: [usize; 3]) -> usize { (0..3).map(|i| ((rooms[i] < lengths[i]) as usize) << i).sum() }

/// That a buffer begins with what is wanted; then what was there before is put back.
fn take<T: PartialEq + Copy + Debug>(now: &mut [T], want: &[T], before: &[T], said: impl Fn() -> String) {
    let front = &mut now[..want.len()];
    assert!(front == want, "{}\n  drawn {front:?}\n  plain {want:?}", said());
    front.copy_from_slice(&before[..want.len()]);
}

impl Tally {
    fn new(r: &mut make::Rng) -> Self {
        // longer than any that is lent, so that writing behind one shows
        let mut noise = |n: usize| (0..n + 200).map(|_| r.next() as i8).collect::<Vec<i8>>();
        let before = Buffers { sheet: noise(MOST[0]).into_iter().map(|x| x as u8).collect(), left: noise(MOST[1]), right: noise(MOST[2]) };
        Tally {
            now: before.clone(), before,
            numbers: 0, channels: [0; 2], octaves: [0; 4], both_zero: 0, padded: 0, bytes: 0, largest: [0; 2], lengths: [[usize::MAX, 0]; 3],
            shapes: Met::none(2 * 4 * 64 * 64), rates: Met::none(40_000), values: Met::none(256),
            exact: 0, longer: 0, most: 0, short: [0; 8], zero: [0; 2],
        }
    }

    /// A number in all buffers, and the file of its voice.
    fn judge(&mut self, number: u32) {
        self.numbers += 1;
        match plain::voice(number) {
            // from 0 every draw would be 0, and the voice the shortest
            Err(refusal) => for rooms in rooms([21, 1, 0]) {
                assert_eq!(refusal, 48);
                self.call(number, Err(refusal), rooms, None);
                self.zero[(short([21, 1, 0], rooms) != 0) as usize] += 1;
            },
            Ok(d) => {
                let lengths = d.lengths();
                for rooms in rooms(lengths) { self.fits(number, &d, lengths, rooms); }
                self.file(number, &d);
                self.note(&d);
            }
        }
    }

    /// A voice in buffers that may be too short for it.
    fn fits(&mut self, number: u32, d: &Drawn, lengths: [usize; 3], rooms: [usize; 3]) {
        let short = short(lengths, rooms);
        if short != 0 {
            self.call(number, Err(20), rooms, None);
            self.short[short] += 1;
            return;
        }
        self.call(number, Ok(lengths.map(|n| n as u64)), rooms, Some(d));
        *if rooms == lengths { &mut self.exact } else if rooms == MOST { &mut self.most } else { &mut self.longer } += 1;
    }

    /// A call, and the same by hand: the answer, what is written, and that all else is kept, in the buffers and behind what is lent of them.
    fn call(&mut self, number: u32, answer: Result<[u64; 3], u32>, rooms: [usize; 3], written: Option<&Drawn>) {
        let (now, before) = (&mut self.now, &self.before);
        for (name, way) in WAYS {
            let said = || format!("{name}, the number {number} into {rooms:?}");
            let got = way(number, &mut now.sheet[..rooms[0]], &mut now.left[..rooms[1]], &mut now.right[..rooms[2]]);
            assert_eq!(got, answer, "{}", said());
            if let Some(d) = written {
                take(&mut now.sheet, &d.sheet, &before.sheet, || format!("the sheet: {}", said()));
                take(&mut now.left, &d.left, &before.left, || format!("left: {}", said()));
                take(&mut now.right, &d.right, &before.right, || format!("right: {}", said()));
            }
            assert!(now == before, "something else was written: {}\n  before {before:?}\n  after {now:?}", said());
        }
    }

    /// The library's file is the plain one and the original's, and both read from it what was drawn.
    fn file(&mut self, number: u32, d: &Drawn) {
        let (file, voice) = (d.file(), d.original());
        for (name, written) in [("library", encode::library(&d.sheet, &d.left, &d.right)), ("original", rust_side::encode(&voice))] {
            assert!(written.as_ref() == Ok(&file), "the file of {number}\n  {name} {}\n  plain {file:02X?}", encode::shown(&written));
        }
        let want = (d.sheet.clone(), d.left.clone(), d.right.clone());
        let (read, theirs) = (parse::library(&file), rust_side::parse(&file));
        assert!(read.as_ref() == Ok(&want), "the voice of {number}\n  read by the library {read:?}\n  drawn {d:?}");
        assert!(theirs.as_ref() == Ok(&voice), "the voice of {number}\n  read by the original {theirs:?}\n  drawn {voice:?}");
        assert_eq!(rust_side::flat(&voice), d.sheet, "the sheet of {number}");
        parse::buffers(&file, &want, number as u64);
        parse::accepted(&want);
        self.bytes += file.len() as u64;
        self.padded += ((d.left.len() + d.right.len()) % 2) as u64;
    }

    fn note(&mut self, d: &Drawn) {
        let h = d.head;
        self.channels[h.two as usize] += 1;
        self.octaves[h.octaves as usize - 1] += 1;
        self.both_zero += h.both_zero as u64;
        self.largest[h.two as usize] += (d.left.len() == MOST[1]) as u64;
        for (ends, n) in self.lengths.iter_mut().zip(d.lengths()) { *ends = [ends[0].min(n), ends[1].max(n)]; }
        self.shapes.add(shape(h));
        self.rates.add(h.rate as usize - 8_000);
        for s in d.left.iter().chain(&d.right) { self.values.add(*s as u8 as usize); }
    }

    /// Further numbers, of which only those are judged that have a shape or a rate that none before had, until all were met; how far it went.
    fn search(&mut self) -> u32 {
        let mut number = FIRST;
        while !(self.shapes.all() && self.rates.all()) {
            number = number.checked_add(1).expect("a shape and a rate for each");
            let h = Head::of(number);
            if !self.shapes.seen[shape(h)] || !self.rates.seen[h.rate as usize - 8_000] { self.judge(number); }
        }
        number
    }
}

pub fn run(n: u64, seed: u64) {
    let mut r = make::Rng::new(seed);
    let mut t = Tally::new(&mut r);
    for number in 0..=FIRST { t.judge(number); }
    for number in u32::MAX - LAST + 1..=u32::MAX { t.judge(number); }
    for k in 0..32 {
        for number in (1u32 << k).saturating_sub(2)..=(1 << k) + 2 { t.judge(number); }
    }
    let fixed = t.numbers;
    let end = t.search();
    let searched = t.numbers - fixed;
    for _ in 0..n { t.judge(r.next() as u32); }
    println!("drawn: {n} numbers of seed {seed}, 0 to {FIRST}, the largest {LAST}, every power of two with two on either side, and {searched} of those up to {end}");
    println!("  that have a shape or a rate which none before had, no difference; left out by a filter: none");
    let voices: u64 = t.channels.iter().sum();
    println!("  {} numbers: {voices} voices, and 0 {} times; one channel {}, two {}; octaves 1 to 4 {:?}; both lengths drawn as 0 {}",
        t.numbers, t.numbers - voices, t.channels[0], t.channels[1], t.octaves, t.both_zero);
    println!("  {} of 32768 shapes, which are channels, octaves and drawn lengths, {} of 40000 rates and {} of 256 samples were met",
        t.shapes.count, t.rates.count, t.values.count);
    let [sheet, left, right] = t.lengths.map(|[least, most]| format!("{least} to {most}"));
    println!("  lengths: sheet {sheet}, left {left}, right {right}; 1890 samples a side {} voices of one channel, {} of two", t.largest[0], t.largest[1]);
    let s = t.short;
    println!("  accepted in exact buffers {}, in longer ones that do for every number {}, in others that are longer {};", t.exact, t.most, t.longer);
    println!("  refused by 20 {}: sheet alone {}, left alone {}, right alone {}, two of them {}, all {};",
        s.iter().sum::<u64>(), s[1], s[2], s[4], s[3] + s[5] + s[6], s[7]);
    println!("  refused by 48 {}, {} of them where a buffer is too short for any voice", t.zero[0] + t.zero[1], t.zero[1]);
    println!("  {voices} files, {} of them with a pad, {} bytes: the plain ones, the original's, and read by both as they were drawn", t.padded, t.bytes);
    assert_eq!(t.lengths, [[21, MOST[0]], [1, MOST[1]], [0, MOST[2]]], "the smallest and largest lengths");
    assert!(t.shapes.all() && t.rates.all() && t.values.all(), "something wasn't met");
}
