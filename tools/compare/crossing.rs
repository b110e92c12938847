//! Crossings: every short pattern of signs, and random samples, against the plain version.
use crate::{abi, make, plain_crossing as plain};

#[derive(Default)]
struct Tally { earlier: u64, here: u64, later: u64, tied: u64, past: u64, none: u64 }

impl Tally {
    fn judge(&mut self, s: &[i8], place: u64, reach: u64) {
        let (got, want) = (abi::nearest_crossing(s, place, reach), plain::nearest(s, place, reach));
        assert_eq!(got, want, "{} samples, place {place}, reach {reach}: {s:?}", s.len());
        let Ok(i) = got else {
            assert_eq!(got, Err(43));
            self.none += 1;
            return;
        };
        let other = place + i.abs_diff(place).min(u64::MAX - place);
        self.tied += (i < place && other < s.len() as u64 && plain::crosses(s, other as usize)) as u64;
        self.past += (place >= s.len() as u64) as u64;
        *match i.cmp(&place) {
            std::cmp::Ordering::Less => &mut self.earlier,
            std::cmp::Ordering::Equal => &mut self.here,
            std::cmp::Ordering::Greater => &mut self.later,
        } += 1;
    }
}

/// Every pattern of signs of up to 8 samples, from each place up to two past the end, for each reach that makes a difference.
fn every_pattern(t: &mut Tally) {
    for n in 0..=8u64 {
        for signs in 0..1u32 << n {
            let s: Vec<i8> = (0..n).map(|i| if signs >> i & 1 == 1 { -1 } else { 0 }).collect();
            for place in (0..n + 3).chain([u64::MAX - 1, u64::MAX]) {
                for reach in (0..n + 3).chain([u64::MAX - n, u64::MAX - 1, u64::MAX]) { t.judge(&s, place, reach); }
            }
        }
    }
}

/// Samples whose sign holds for a while: a run's length is anything up to `longest`.
fn runs(r: &mut make::Rng, n: usize, longest: u64) -> Vec<i8> {
    let (mut s, mut left) = (Vec::with_capacity(n), 0);
    let mut below = r.once(2);
    while s.len() < n {
        if left == 0 { left = 1 + r.below(longest); below = !below; }
        let value = r.below(128) as i8;
        s.push(if below { !value } else { value });
        left -= 1;
    }
    s
}

pub fn run(n: u64, seed: u64) {
    let (mut r, mut t) = (make::Rng::new(seed), Tally::default());
    every_pattern(&mut t);
    for _ in 0..n {
        let (length, longest) = (r.below(300) as usize, 1 + r.below(200));
        let s = if r.once(3) { r.samples(length) } else { runs(&mut r, length, longest) };
        let wide = |r: &mut make::Rng| if r.once(9) { r.next() >> r.below(64) } else { r.below(320) };
        let (place, reach) = (wide(&mut r), wide(&mut r));
        t.judge(&s, place, reach);
        t.judge(&s, place, u64::MAX);
    }
    println!("crossing: {n} octaves of seed {seed}, twice each, and every pattern of signs of up to 8 samples, no difference; left out by a filter: none");
    println!("  found: earlier {}, at the place {}, later {}; refused by 43: {}; another as near {}, from past the end {}", t.earlier, t.here, t.later, t.none, t.tied, t.past);
}
