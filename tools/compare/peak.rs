//! The peak: every short list of a few values, and random samples, against the plain version.
use crate::{abi, make, plain_peak as plain};

#[derive(Default)]
struct Tally { empty: u64, alone: u64, tied: u64, farther: u64, lowest: u64, later: u64 }

impl Tally {
    fn judge(&mut self, s: &[i8]) {
        let (got, want) = (abi::peak(s), plain::first(s));
        assert_eq!(got, want, "{} samples: {s:?}", s.len());
        assert_eq!(plain::by_hand(s), want, "{s:?}");
        let Some((magnitude, place)) = got else {
            self.empty += 1;
            return;
        };
        let last = s.iter().rposition(|x| x.unsigned_abs() == magnitude).expect("found") as u64;
        *if last == place { &mut self.alone } else { &mut self.tied } += 1;
        self.farther += (last - place >= 128) as u64;
        self.lowest += (magnitude == 128) as u64;
        self.later += (place >= 128) as u64;
    }
}

/// Every list of up to 6 samples out of seven values.
fn every_list(t: &mut Tally) {
    const VALUES: [i8; 7] = [-128, -127, -1, 0, 1, 126, 127];
    for n in 0..=6u32 {
        for mut code in 0..7usize.pow(n) {
            let mut s = Vec::new();
            for _ in 0..n {
                s.push(VALUES[code % 7]);
                code /= 7;
            }
            t.judge(&s);
        }
    }
}

/// Two samples as loud as each other, at every two places of so many samples, and one a little less loud before them.
fn every_two_places(t: &mut Tally, n: usize) {
    for i in 0..n {
        for j in i..n {
            let mut s = vec![0; n];
            s[i / 2] = -6;
            s[j] = 7;
            s[i] = -7;
            t.judge(&s);
        }
    }
}

pub fn run(n: u64, seed: u64) {
    let (mut r, mut t) = (make::Rng::new(seed), Tally::default());
    every_list(&mut t);
    for length in [1, 2, 127, 128, 129, 255, 256, 257, 300, 385] { every_two_places(&mut t, length); }
    for _ in 0..n {
        let length = r.below(1_500) as usize;
        // as they come, or shifted down, so that many are as loud as the loudest; into half of them up to three loud ones are put
        let mut s = r.samples(length);
        let (shift, few) = (r.below(9), r.once(2));
        s.iter_mut().for_each(|x| *x = if shift > 7 { 0 } else { *x >> shift });
        for _ in 0..if few && length > 0 { r.below(4) } else { 0 } { s[r.below(length as u64) as usize] = r.pick(&[-128, -127, 127, 126]); }
        t.judge(&s);
    }
    println!("peak: {n} octaves of seed {seed}, every list of up to 6 of seven values, and every two places in ten lengths, no difference; left out by a filter: none");
    println!("  the loudest alone {}, another as loud {} (the last of them 128 places or more behind the first {}), no samples {}; magnitude 128 {}, place 128 or later {}",
        t.alone, t.tied, t.farther, t.empty, t.lowest, t.later);
}
