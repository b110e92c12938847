//! The voice that is drawn from a number, plainly: the draws are a list, of which the first five are the header's fields and the others the samples;
//! and its file, chunk by chunk. A shift is a product or a quotient here, and a remainder keeps it to 32 bits. For the speed also the drawing as one
//! would write it by hand.
use crate::{make, plain_vault};
use oracle::svx::{ChannelAssignment, ChannelSamples, Voice, VoiceHeader};

/// One more than the largest number of 32 bits.
const END: u64 = 1 << 32;

fn draw(x: u64) -> u64 {
    let x = (x ^ (x * 8_192)) % END;
    let x = x ^ (x / 131_072);
    (x ^ (x * 32)) % END
}

/// The first so many draws from a number.
fn draws(number: u32, count: usize) -> Vec<u64> {
    let mut x = number as u64;
    (0..count).map(|_| { x = draw(x); x }).collect()
}

/// A draw's lowest byte, signed.
fn sample(draw: u64) -> i8 {
    let byte = draw % 256;
    if byte < 128 { byte as i8 } else { (byte as i64 - 256) as i8 }
}

/// What the first five draws say. That both lengths were drawn as 0 is kept beside: then the one-shot part isn't as it was drawn.
#[derive(Clone, Copy, Debug, PartialEq)]
pub struct Head { pub two: bool, pub octaves: u8, pub one_shot: u32, pub repeat: u32, pub rate: u16, pub both_zero: bool }

impl Head {
    pub fn of(number: u32) -> Head {
        let d = draws(number, 5);
        let (drawn, repeat) = (d[2] % 64, d[3] % 64);
        let both_zero = drawn == 0 && repeat == 0;
        let one_shot = if both_zero { 1 } else { drawn };
        Head { two: d[0] % 2 == 1, octaves: (1 + d[1] % 4) as u8, one_shot: one_shot as u32, repeat: repeat as u32, rate: (8_000 + d[4] % 40_000) as u16, both_zero }
    }

    fn parts(self) -> plain_vault::Header { plain_vault::Header { one_shot: self.one_shot, repeat: self.repeat, octaves: self.octaves } }

    /// How many samples a side has.
    fn total(self) -> usize { self.parts().total().expect("a small total") as usize }

    /// The header's twenty bytes.
    fn bytes(self) -> Vec<u8> {
        let (per_cycle, compression, volume) = (0u32, 0u8, 65_536u32);
        let mut b = Vec::new();
        for length in [self.one_shot, self.repeat, per_cycle] { b.extend(length.to_be_bytes()); }
        b.extend(self.rate.to_be_bytes());
        b.extend([self.octaves, compression]);
        b.extend(volume.to_be_bytes());
        b
    }
}

/// A voice that was drawn.
#[derive(Debug)]
pub struct Drawn { pub head: Head, pub sheet: Vec<u8>, pub left: Vec<i8>, pub right: Vec<i8> }

/// The voice of a number, or the number that turns it back; a short buffer aside.
pub fn voice(number: u32) -> Result<Drawn, u32> {
    if number == 0 { return Err(48); }
    let head = Head::of(number);
    let mut sheet = vec![1];
    sheet.extend(head.bytes());
    if head.two { sheet.extend([2, 6]); }
    let n = head.total();
    let samples: Vec<i8> = draws(number, 5 + if head.two { 2 * n } else { n }).into_iter().skip(5).map(sample).collect();
    let (left, right) = samples.split_at(n);
    Ok(Drawn { head, sheet, left: left.to_vec(), right: right.to_vec() })
}

impl Drawn {
    pub fn lengths(&self) -> [usize; 3] { [self.sheet.len(), self.left.len(), self.right.len()] }

    pub fn file(&self) -> Vec<u8> {
        let mut held = b"8SVX".to_vec();
        make::chunk(&mut held, b"VHDR", &self.head.bytes(), true);
        if self.head.two { make::chunk(&mut held, b"CHAN", &[0, 0, 0, 6], true); }
        let body: Vec<u8> = self.left.iter().chain(&self.right).map(|s| *s as u8).collect();
        make::chunk(&mut held, b"BODY", &body, true);
        let mut file = Vec::new();
        make::chunk(&mut file, b"FORM", &held, true);
        file
    }

    /// As the original holds it.
    pub fn original(&self) -> Voice {
        let h = self.head;
        let cut = |side: &Vec<i8>| ChannelSamples { octaves: h.parts().cut(side) };
        let (channel, sides) = if h.two { (Some(ChannelAssignment::Stereo), vec![&self.left, &self.right]) } else { (None, vec![&self.left]) };
        let header = VoiceHeader {
            one_shot_hi_samples: h.one_shot, repeat_hi_samples: h.repeat, samples_per_hi_cycle: 0, samples_per_sec: h.rate, ct_octave: h.octaves,
            compression_byte: 0, volume: 65_536,
        };
        Voice::default().with_header(header).with_channel(channel).with_channels(sides.into_iter().map(cut).collect())
    }
}

/// By hand, into lent buffers: the lengths of sheet, left and right. Each draw waits for the one before it, so that taking eight at once, or
/// drawing the last step together with the next one's first, is no faster.
pub fn by_hand(number: u32, sheet: &mut [u8], left: &mut [i8], right: &mut [i8]) -> Result<[u64; 3], u32> {
    if number == 0 { return Err(48); }
    let mut x = number;
    let mut next = || { x ^= x << 13; x ^= x >> 17; x ^= x << 5; x };
    let two = next() & 1 == 1;
    let octaves = 1 + next() % 4;
    let (drawn, repeat) = (next() % 64, next() % 64);
    let rate = 8_000 + next() % 40_000;
    let one_shot = if drawn + repeat == 0 { 1 } else { drawn };
    let n = ((one_shot + repeat) * ((1 << octaves) - 1)) as usize;
    let (s, r) = if two { (23, n) } else { (21, 0) };
    if sheet.len() < s || left.len() < n || right.len() < r { return Err(20); }
    let bytes = [1, 0, 0, 0, one_shot as u8, 0, 0, 0, repeat as u8, 0, 0, 0, 0, (rate >> 8) as u8, rate as u8, octaves as u8, 0, 0, 1, 0, 0, 2, 6];
    sheet[..s].copy_from_slice(&bytes[..s]);
    for place in &mut left[..n] { *place = next() as i8; }
    for place in &mut right[..r] { *place = next() as i8; }
    Ok([s as u64, n as u64, r as u64])
}
