//! Difference order, plainly: the octaves are cut out as lists, the differences of each are a list, and of these the values at even places are joined
//! by those at odd places; and the way back. The rules are judged one after another. For the speed also both ways as one would write them by hand.

/// What a header says of its octaves.
#[derive(Clone, Copy, Debug)]
pub struct Header { pub one_shot: u32, pub repeat: u32, pub octaves: u8 }

impl Header {
    pub fn hi(self) -> u64 { self.one_shot as u64 + self.repeat as u64 }

    /// The samples of all octaves, added up octave by octave; none where 64 bits can't count them.
    pub fn total(self) -> Option<u64> {
        if self.hi() == 0 { return Some(0); }
        (0..self.octaves.max(1) as u32).try_fold(0u64, |sum, k| sum.checked_add(self.hi().checked_mul(2u64.checked_pow(k)?)?))
    }

    /// The number that turns a channel of this length back from a buffer of so many places, 0 if none does.
    pub fn refusal(self, length: usize, room: usize) -> u32 {
        let Some(total) = self.total() else { return 13 };
        if self.hi() != 0 && length as u64 != total { return 18; }
        if room < length { return 20; }
        0
    }

    /// The octaves of a channel that suits the header, octave 0 first.
    pub fn cut(self, channel: &[i8]) -> Vec<Vec<i8>> {
        if self.hi() == 0 { return vec![channel.to_vec()]; }
        let (mut list, mut rest) = (Vec::new(), channel);
        for k in 0..self.octaves.max(1) as u32 {
            let (octave, after) = rest.split_at(self.hi() as usize * 2usize.pow(k));
            list.push(octave.to_vec());
            rest = after;
        }
        assert!(rest.is_empty());
        list
    }

    pub fn order(self, samples: &[i8], room: usize) -> Result<Vec<i8>, u32> { self.each(samples, room, order) }
    pub fn restore(self, values: &[i8], room: usize) -> Result<Vec<i8>, u32> { self.each(values, room, restore) }

    fn each(self, channel: &[i8], room: usize, way: fn(&[i8]) -> Vec<i8>) -> Result<Vec<i8>, u32> {
        match self.refusal(channel.len(), room) {
            0 => Ok(self.cut(channel).iter().flat_map(|octave| way(octave)).collect()),
            number => Err(number),
        }
    }

    pub fn order_by_hand(self, samples: &[i8], out: &mut [i8]) -> Result<usize, u32> { self.each_by_hand(samples, out, order_by_hand) }
    pub fn restore_by_hand(self, values: &[i8], out: &mut [i8]) -> Result<usize, u32> { self.each_by_hand(values, out, restore_by_hand) }

    fn each_by_hand(self, channel: &[i8], out: &mut [i8], way: impl Fn(&[i8], &mut [i8])) -> Result<usize, u32> {
        let number = self.refusal(channel.len(), out.len());
        if number != 0 { return Err(number); }
        let (mut from, mut length) = (0, if self.hi() == 0 { channel.len() } else { self.hi() as usize });
        while from < channel.len() {
            way(&channel[from..from + length], &mut out[from..from + length]);
            from += length;
            length *= 2;
        }
        Ok(channel.len())
    }
}

/// A number modulo 256 as a signed byte.
fn byte(x: i64) -> i8 { ((x + 128).rem_euclid(256) - 128) as i8 }

fn order(octave: &[i8]) -> Vec<i8> {
    let difference = |i: usize| if i == 0 { octave[0] } else { byte(octave[i] as i64 - octave[i - 1] as i64) };
    let differences: Vec<i8> = (0..octave.len()).map(difference).collect();
    let (even, odd) = (differences.iter().step_by(2), differences.iter().skip(1).step_by(2));
    even.chain(odd).copied().collect()
}

fn restore(values: &[i8]) -> Vec<i8> {
    let (even, odd) = values.split_at((0..values.len()).filter(|i| i % 2 == 0).count());
    let differences = (0..values.len()).map(|i| if i % 2 == 0 { even[i / 2] } else { odd[i / 2] });
    let mut sum = 0i64;
    differences.map(|x| { sum += x as i64; byte(sum) }).collect()
}

/// In one pass, pair by pair, with the sample before in hand.
fn order_by_hand(octave: &[i8], out: &mut [i8]) {
    let n = octave.len() / 2;
    let (pairs, rest) = octave.split_at(2 * n);
    let (even, odd) = out.split_at_mut(n + rest.len());
    let mut before = 0i8;
    for i in 0..n {
        let (a, b) = (pairs[2 * i], pairs[2 * i + 1]);
        even[i] = a.wrapping_sub(before);
        odd[i] = b.wrapping_sub(a);
        before = b;
    }
    if let [last] = rest { even[n] = last.wrapping_sub(before); }
}

/// In one pass, pair by pair, with the sum so far in hand.
fn restore_by_hand(values: &[i8], out: &mut [i8]) {
    let (even, odd) = values.split_at(values.len() - values.len() / 2);
    let mut sum = 0i8;
    for ((pair, e), o) in out.chunks_exact_mut(2).zip(even).zip(odd) {
        pair[0] = sum.wrapping_add(*e);
        sum = pair[0].wrapping_add(*o);
        pair[1] = sum;
    }
    if values.len() % 2 == 1 { out[values.len() - 1] = sum.wrapping_add(even[even.len() - 1]); }
}
