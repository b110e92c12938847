//! Fibonacci-delta channels, plain, from the rule alone: sums as in the published listing, which adds into a signed byte, so that they wrap
//! from 127 to -128 and back; and for every sample that is written all sixteen nibbles are tried. The original clamps its sums and takes
//! another nibble at a tie. So it is asked only where that can't be seen, and here it is counted what this leaves out.

const DELTAS: [i8; 16] = [-34, -21, -13, -8, -5, -3, -2, -1, 0, 1, 2, 3, 5, 8, 13, 21];

fn step(prev: i8, nibble: usize) -> i8 { prev.wrapping_add(DELTAS[nibble]) }

/// The sum leaves -128..127.
fn leaves(prev: i8, nibble: usize) -> bool { !(-128..=127).contains(&(prev as i32 + DELTAS[nibble] as i32)) }

/// A channel's samples, and how many of their sums leave -128..127.
pub struct Decoded {
    pub samples: Vec<i8>,
    pub left: u64,
}

/// The first samples, at most so many, of a channel of 2 bytes or more.
pub fn decode(bytes: &[u8], most: usize) -> Decoded {
    let nibbles = bytes[2..].iter().flat_map(|b| [b / 16, b % 16]).map(usize::from);
    let (mut prev, mut left) = (bytes[1] as i8, 0);
    let mut samples = vec![prev];
    samples.truncate(most);
    for nibble in nibbles.take(most.saturating_sub(1)) {
        left += leaves(prev, nibble) as u64;
        prev = step(prev, nibble);
        samples.push(prev);
    }
    Decoded { samples, left }
}

/// A channel's bytes; at how many of its samples some candidate's sum leaves -128..127; and how many of them meet a tie: more than one
/// nibble at the least distance.
pub struct Encoded {
    pub bytes: Vec<u8>,
    pub past: u64,
    pub ties: u64,
}

pub fn encode(samples: &[i8]) -> Encoded {
    let Some((first, others)) = samples.split_first() else { return Encoded { bytes: vec![0, 0], past: 0, ties: 0 } };
    let (mut prev, mut past, mut ties) = (*first, 0, 0);
    let mut nibbles = Vec::new();
    for target in others {
        let distance = |nibble: usize| (step(prev, nibble) as i32 - *target as i32).abs();
        // the nearest; of those as near the delta nearest to 0; of those the lowest
        let nibble = (0..16).min_by_key(|k| (distance(*k), DELTAS[*k].abs(), *k)).unwrap();
        past += (0..16).any(|k| leaves(prev, k)) as u64;
        ties += ((0..16).filter(|k| distance(*k) == distance(nibble)).count() > 1) as u64;
        prev = step(prev, nibble);
        nibbles.push(nibble as u8);
    }
    if nibbles.len() % 2 == 1 { nibbles.push(8); }
    let mut bytes = vec![0, *first as u8];
    bytes.extend(nibbles.chunks(2).map(|two| two[0] * 16 + two[1]));
    Encoded { bytes, past, ties }
}

/// Channels that were written: how many against the original; and how many are left out, by why, and at how many samples.
#[derive(Default)]
pub struct Written {
    against: u64,
    /// A candidate's sum leaves -128..127, and there is no tie: channels, samples.
    past: [u64; 2],
    /// Ties, and no candidate's sum leaves: channels, samples.
    tied: [u64; 2],
    /// Both: channels, samples where a candidate's sum leaves, samples that meet a tie.
    both: [u64; 3],
}

impl Written {
    /// A channel as it is to be written: by the plain rule. Where no candidate's sum leaves -128..127 and no sample meets a tie these are
    /// the original's bytes.
    pub fn wanted(&mut self, samples: &[i8], original: &[u8]) -> Vec<u8> {
        let plain = encode(samples);
        match (plain.past, plain.ties) {
            (0, 0) => {
                self.against += 1;
                assert_eq!(plain.bytes, original, "with no candidate past -128..127 and no tie the plain rule is the original's, for {samples:?}");
            }
            (past, 0) => add(&mut self.past, [1, past]),
            (0, ties) => add(&mut self.tied, [1, ties]),
            (past, ties) => add(&mut self.both, [1, past, ties]),
        }
        plain.bytes
    }

    /// The channels in which a candidate's sum leaves -128..127, and those that meet ties only.
    pub fn marks(&self) -> (u64, u64) { (self.past[0] + self.both[0], self.tied[0]) }
}

fn add<const N: usize>(sums: &mut [u64; N], more: [u64; N]) { for (sum, x) in sums.iter_mut().zip(more) { *sum += x; } }

impl std::fmt::Display for Written {
    fn fmt(&self, f: &mut std::fmt::Formatter) -> std::fmt::Result {
        let ([past, at], [tied, at_tied], [both, here, there]) = (self.past, self.tied, self.both);
        write!(f, "{} against the original; {} left out and against the plain rule: ", self.against, past + tied + both)?;
        write!(f, "{past} by candidates past -128..127, at {at} samples, {tied} by ties, at {at_tied}, {both} by both, at {here} and {there}")
    }
}

/// Channels that were read: how many against the original; and how many are left out, at how many sums.
#[derive(Default)]
pub struct Read {
    against: u64,
    pub left_out: u64,
    sums: u64,
}

impl Read {
    /// A channel as it is to be read, as many samples as the original gives: by the plain rule. Where no sum of theirs leaves -128..127 these
    /// are the original's samples.
    pub fn wanted(&mut self, bytes: &[u8], original: &[i8]) -> Vec<i8> {
        let plain = decode(bytes, original.len());
        assert_eq!(plain.samples.len(), original.len(), "as many samples as the original's, for {bytes:02X?}");
        if plain.left == 0 {
            self.against += 1;
            assert_eq!(plain.samples, original, "with no sum past -128..127 the plain rule is the original's, for {bytes:02X?}");
        } else {
            self.left_out += 1;
            self.sums += plain.left;
        }
        plain.samples
    }
}

impl std::fmt::Display for Read {
    fn fmt(&self, f: &mut std::fmt::Formatter) -> std::fmt::Result {
        let Read { against, left_out, sums } = self;
        write!(f, "{against} against the original; {left_out} left out and against the plain rule: by sums past -128..127, {sums} of them")
    }
}
