//! Difference order and the way back: every short list of a few values, every small header, every octave count and random channels, against the plain
//! version. Each channel is taken as samples and as values.
use crate::plain_vault::Header;
use crate::{abi, make};
use oracle::svx::VoiceHeader;

/// One of the two ways: the library's, the plain version's, and the one by hand.
pub struct Way {
    pub name: &'static str,
    pub library: fn(u32, u32, u8, &[i8], &mut [i8]) -> Result<usize, u32>,
    pub plain: fn(Header, &[i8], usize) -> Result<Vec<i8>, u32>,
    pub by_hand: fn(Header, &[i8], &mut [i8]) -> Result<usize, u32>,
}

impl Way {
    pub fn call(&self, h: Header, channel: &[i8], out: &mut [i8]) -> Result<usize, u32> { (self.library)(h.one_shot, h.repeat, h.octaves, channel, out) }
}

pub const ORDER: Way = Way { name: "ordered", library: abi::difference_order, plain: Header::order, by_hand: Header::order_by_hand };
pub const RESTORE: Way = Way { name: "restored", library: abi::difference_restore, plain: Header::restore, by_hand: Header::restore_by_hand };

/// Inputs, how often each refusal was seen, and what the accepted channels were like.
struct Tally { inputs: u64, seen: [u64; 64], none: u64, one: u64, any: u64, several: u64, odd: u64, longer: u64, wraps: [u64; 2] }

impl Tally {
    /// A channel both ways, and back again, by a buffer of so many places; those behind it aren't lent.
    fn judge(&mut self, h: Header, channel: &[i8], room: usize) {
        let n = channel.len();
        let number = h.refusal(n, room);
        assert_eq!(h.total(), original_total(h), "{h:?}");
        self.inputs += 1;
        self.seen[number as usize] += 1;
        for (i, (way, back)) in [(&ORDER, &RESTORE), (&RESTORE, &ORDER)].into_iter().enumerate() {
            let said = || format!("{n} {} by {h:?} into {room}: {channel:?}", way.name);
            let want = (way.plain)(h, channel, room);
            let before: Vec<i8> = (0..room + 9).map(|i| (i as u64 * 37 + self.inputs) as i8).collect();
            let (mut a, mut b, mut c) = (before.clone(), before.clone(), before);
            let got = way.call(h, channel, &mut a[..room]);
            assert_eq!(got, want.as_ref().map(|list| list.len()).map_err(|number| *number), "{}", said());
            if let Ok(list) = &want { b[..n].copy_from_slice(list); }
            assert!(a == b, "{}\n  library {a:?}\n  plain {b:?}", said());
            assert_eq!((way.by_hand)(h, channel, &mut c[..room]), got, "by hand, {}", said());
            assert!(c == b, "by hand, {}\n  by hand {c:?}\n  plain {b:?}", said());
            if got.is_ok() {
                let mut again = vec![0x5A; n];
                assert_eq!(back.call(h, &a[..n], &mut again), Ok(n), "back again, {}", said());
                assert!(again == channel, "back again, {}\n  {again:?}", said());
                self.wraps[i] += wraps(h, if i == 0 { channel } else { &a[..n] });
            }
        }
        if number != 0 { return; }
        self.none += (n == 0) as u64;
        self.one += (n == 1) as u64;
        self.any += (h.hi() == 0) as u64;
        self.several += (h.hi() != 0 && h.octaves > 1) as u64;
        self.odd += h.cut(channel).iter().any(|octave| octave.len() % 2 == 1) as u64;
        self.longer += (room > n) as u64;
    }
}

/// The original has no difference order, but it has the total.
fn original_total(h: Header) -> Option<u64> {
    let rest = VoiceHeader { one_shot_hi_samples: 0, repeat_hi_samples: 0, samples_per_hi_cycle: 0, samples_per_sec: 0, ct_octave: 0, compression_byte: 0, volume: 0 };
    VoiceHeader { one_shot_hi_samples: h.one_shot, repeat_hi_samples: h.repeat, ct_octave: h.octaves, ..rest }.total_samples_per_channel()
}

/// How many samples differ from the one before by what a signed byte can't hold; for a sum that leads there it is the same.
fn wraps(h: Header, samples: &[i8]) -> u64 {
    let of = |octave: &Vec<i8>| octave.windows(2).filter(|two| two[1].checked_sub(two[0]).is_none()).count() as u64;
    h.cut(samples).iter().map(of).sum()
}

/// Every list of up to 7 of five values, by each header that it suits, of one part alone.
fn every_list(t: &mut Tally) {
    const VALUES: [i8; 5] = [-128, -1, 0, 1, 127];
    for n in 0..=7u32 {
        let mut headers: Vec<Header> = [0, 1, 2, 3, 255].map(|octaves| Header { one_shot: 0, repeat: 0, octaves }).to_vec();
        for octaves in 0..4 {
            for hi in 1..=n { headers.extend([Header { one_shot: hi, repeat: 0, octaves }, Header { one_shot: 0, repeat: hi, octaves }]); }
        }
        headers.retain(|h| h.hi() == 0 || h.total() == Some(n as u64));
        for mut code in 0..5usize.pow(n) {
            let mut s = Vec::new();
            for _ in 0..n {
                s.push(VALUES[code % 5]);
                code /= 5;
            }
            for h in &headers { t.judge(*h, &s, s.len()); }
        }
    }
}

/// A channel in buffers about as long as it, and in none.
fn rooms(t: &mut Tally, h: Header, channel: &[i8]) {
    let n = channel.len();
    for room in [n, n + 1, n + 20, n.saturating_sub(1), n / 2, 0] { t.judge(h, channel, room); }
}

/// Every header of lengths and an octave count of up to 8, with the lengths about the total and about those of one octave more and less.
fn every_header(t: &mut Tally, noise: &[i8]) {
    for code in 0..9u32.pow(3) {
        let h = Header { one_shot: code % 9, repeat: code / 9 % 9, octaves: (code / 81) as u8 };
        let (hi, total) = (h.hi() as usize, h.total().expect("a small total") as usize);
        let mut lengths: Vec<usize> = (0..4).collect();
        for about in [total, (total + hi) / 2 - hi, 2 * total + hi] { lengths.extend(about.saturating_sub(2)..about + 3); }
        lengths.sort();
        lengths.dedup();
        for n in lengths { rooms(t, h, &noise[code as usize..][..n]); }
    }
}

/// Every octave count, with lengths whose total 64 bits just can count or can't, and of which a sum of 32 bits, or a shift by the count's
/// lowest bits, would drop something; and channels that would suit what is left.
fn every_count(t: &mut Tally, noise: &[i8]) {
    for octaves in 0..=255u8 {
        let times = |bits: u32| 2u64.checked_pow(octaves.max(1) as u32 % bits).map_or(0, |x| x - 1);
        let most = if octaves < 65 { u64::MAX / (u64::MAX >> (64 - octaves.max(1))) } else { 0 };
        let mut lengths: Vec<u64> = (1..6).chain((1 << 32) - 2..(1 << 32) + 5).chain([(1 << 33) - 3, (1 << 33) - 2]).collect();
        lengths.extend(most.saturating_sub(2)..=most.saturating_add(2));
        for hi in lengths.into_iter().filter(|hi| (1..=2 * u32::MAX as u64).contains(hi)) {
            let long = hi.min(u32::MAX as u64);
            let short = (hi - long) as u32;
            let low = hi as u32 as u64;
            let mut channels: Vec<usize> = (0..4).collect();
            channels.extend([32, 64, 256].iter().filter_map(|bits| low.checked_mul(times(*bits))).filter(|n| *n < 5_000).map(|n| n as usize));
            for n in channels {
                for (one_shot, repeat) in [(long as u32, short), (short, long as u32)] { rooms(t, Header { one_shot, repeat, octaves }, &noise[..n]); }
            }
        }
    }
}

/// Every length of one octave up to 1,100, and of two and three octaves of up to 200 in the highest.
fn every_length(t: &mut Tally, noise: &[i8]) {
    let mut exact = |one_shot: u32, repeat: u32, octaves: u8, n: u32| t.judge(Header { one_shot, repeat, octaves }, &noise[n as usize..][..n as usize], n as usize);
    for n in 0..=1_100 {
        exact(0, 0, n as u8, n);
        exact(n / 3, n - n / 3, 1, n);
    }
    for hi in 1..=200 {
        exact(hi, 0, 2, 3 * hi);
        exact(0, hi, 3, 7 * hi);
    }
}

/// A header whose octaves are short, mostly; now and then without samples, or with more of them than a channel here has.
fn header(r: &mut make::Rng) -> Header {
    let octaves = if r.once(2) { r.next() as u8 } else { r.below(70) as u8 };
    if r.once(5) { return Header { one_shot: 0, repeat: 0, octaves: if r.once(2) { octaves } else { r.below(4) as u8 } }; }
    if r.once(6) { return Header { one_shot: r.next() as u32 >> r.below(32), repeat: r.next() as u32 >> r.below(32), octaves }; }
    let (most, octaves) = if r.once(9) { (1_000, r.below(3) as u8) } else { (12, r.below(8) as u8) };
    Header { one_shot: r.below(most) as u32, repeat: r.below(most) as u32, octaves }
}

/// Mostly the length that suits.
fn length(r: &mut make::Rng, h: Header) -> usize {
    if h.hi() == 0 { return if r.once(5) { r.below(4) } else { r.below(1_500) } as usize; }
    let n = match h.total() {
        Some(n) if n < 5_000 => n as usize,
        _ => return if r.once(2) { h.hi().min(300) as usize } else { r.below(300) as usize },
    };
    if !r.once(6) { return n; }
    match r.below(4) {
        0 => n - 1,
        1 => n + 1,
        2 => r.pick(&[0, n / 2, 2 * n, 2 * n + h.hi() as usize]),
        _ => r.below(2 * n as u64) as usize,
    }
}

fn room(r: &mut make::Rng, n: usize) -> usize {
    match r.below(8) {
        0 => n.saturating_sub(1),
        1 => r.below(n as u64 + 1) as usize,
        2 | 3 => n + 1 + r.below(70) as usize,
        _ => n,
    }
}

/// Octaves of more samples than the others here.
fn long(t: &mut Tally, r: &mut make::Rng) {
    let any = [65_535, 65_536, 65_537, (1 << 20) + 1].map(|n| (0, 7, n));
    for (hi, octaves, n) in any.into_iter().chain([8_191, 8_192].map(|hi| (hi, 8, 255 * hi as usize))) {
        for _ in 0..3 {
            let channel = r.samples(n);
            t.judge(Header { one_shot: hi / 2, repeat: hi - hi / 2, octaves }, &channel, n);
        }
    }
}

pub fn run(n: u64, seed: u64) {
    let mut r = make::Rng::new(seed);
    let mut t = Tally { inputs: 0, seen: [0; 64], none: 0, one: 0, any: 0, several: 0, odd: 0, longer: 0, wraps: [0; 2] };
    let noise: Vec<i8> = (0..10_000).map(|_| r.next() as i8).collect();
    every_list(&mut t);
    every_header(&mut t, &noise);
    every_count(&mut t, &noise);
    every_length(&mut t, &noise);
    let fixed = t.inputs;
    for _ in 0..n {
        let h = header(&mut r);
        let length = length(&mut r, h);
        let (channel, room) = (r.samples(length), room(&mut r, length));
        t.judge(h, &channel, room);
    }
    long(&mut t, &mut r);
    println!("vault: {n} channels of seed {seed}, {fixed} by every list of up to 7 of five values and every small header, octave count and length, and {} long ones,", t.inputs - n - fixed);
    println!("  each both ways and back again, no difference; left out by a filter: none");
    println!("  {} inputs: accepted {}, refused by 13 {}, by 18 {}, by 20 {}", t.inputs, t.seen[0], t.seen[13], t.seen[18], t.seen[20]);
    println!("  accepted: no samples {}, one sample {}; hi = 0 {}, more than one octave {}, an octave of odd length {}; into a longer buffer {}",
        t.none, t.one, t.any, t.several, t.odd, t.longer);
    println!("  differences that wrap {}, sums that wrap {}", t.wraps[0], t.wraps[1]);
}
