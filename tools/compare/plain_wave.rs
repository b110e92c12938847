//! An octave as a WAVE file, as the specification words it and nothing cleverer. The original has no WAVE, but it has octaves: their
//! lengths, their total and where the sides are cut are asked of it. The library's file is compared with this one, and timed against it.
use oracle::svx::{self, ChannelSamples, VoiceHeader};

/// A voice as a WAVE needs it: what its sheet says, and the samples of its sides.
#[derive(Debug)]
pub struct Voice<'a> { pub header: VoiceHeader, pub stereo: bool, pub left: &'a [i8], pub right: &'a [i8] }

impl Voice<'_> {
    /// How many samples octave k has in a side, or the number that turns it back.
    fn octave_length(&self, k: u8) -> Result<u64, u32> {
        let h = &self.header;
        if h.compression_byte > 1 { return Err(10); }
        let Some(total) = h.total_samples_per_channel() else { return Err(13) };
        let any = h.hi_octave_samples() == 0;
        let suits = (any || self.left.len() as u64 == total) && self.right.len() == if self.stereo { self.left.len() } else { 0 };
        if !suits { return Err(18); }
        if any { return if k == 0 { Ok(self.left.len() as u64) } else { Err(31) }; }
        h.octave_samples(k).ok_or(31)
    }

    /// The length of octave k's file, or the number that turns it back; the sheet's own and a short buffer aside.
    pub fn length(&self, k: u8) -> Result<u64, u32> {
        let samples = self.octave_length(k)? as u128;
        if self.header.samples_per_sec == 0 { return Err(41); }
        let data = samples * if self.stereo { 2 } else { 1 };
        let riff = 36 + data + data % 2;
        if riff > u32::MAX as u128 { return Err(19); }
        Ok(riff as u64 + 8)
    }

    /// The sides as the original cuts them when it reads them from a raw file.
    pub fn cut(&self) -> Vec<ChannelSamples> {
        let mut f = b"FORM\0\0\0\08SVXVHDR\0\0\0\x14".to_vec();
        f.extend(VoiceHeader { compression_byte: 0, ..self.header }.write());
        if self.stereo { f.extend(b"CHAN\0\0\0\x04\0\0\0\x06"); }
        f.extend(b"BODY");
        f.extend(((self.left.len() + self.right.len()) as u32).to_be_bytes());
        f.extend(self.left.iter().chain(self.right).map(|s| *s as u8));
        let held = f.len() as u32 - 8;
        f[4..8].copy_from_slice(&held.to_be_bytes());
        svx::parse_voice(&f).expect("read by the original").channels
    }

    /// Octave k's file, or the number that turns it back.
    pub fn file(&self, k: u8) -> Result<Vec<u8>, u32> {
        let mut f = vec![0; self.length(k)? as usize];
        let sides = self.cut();
        let octaves: Vec<&[i8]> = sides.iter().map(|s| &s.octaves[k as usize][..]).collect();
        write(self.header.samples_per_sec, &octaves, &mut f);
        Ok(f)
    }
}

fn value(s: i8) -> u8 { (s as i16 + 128) as u8 }

/// The file of one or two sides of equal lengths, into a buffer that is as long.
pub fn write(rate: u16, sides: &[&[i8]], f: &mut [u8]) {
    let channels = sides.len();
    let data = channels * sides[0].len();
    let pad = data % 2;
    assert_eq!(f.len(), 44 + data + pad);
    f[..4].copy_from_slice(b"RIFF");
    f[4..8].copy_from_slice(&((36 + data + pad) as u32).to_le_bytes());
    f[8..16].copy_from_slice(b"WAVEfmt ");
    f[16..20].copy_from_slice(&16u32.to_le_bytes());
    f[20..22].copy_from_slice(&1u16.to_le_bytes());
    f[22..24].copy_from_slice(&(channels as u16).to_le_bytes());
    f[24..28].copy_from_slice(&(rate as u32).to_le_bytes());
    f[28..32].copy_from_slice(&(rate as u32 * channels as u32).to_le_bytes());
    f[32..34].copy_from_slice(&(channels as u16).to_le_bytes());
    f[34..36].copy_from_slice(&8u16.to_le_bytes());
    f[36..40].copy_from_slice(b"data");
    f[40..44].copy_from_slice(&(data as u32).to_le_bytes());
    match sides {
        [one] => for (x, s) in f[44..].iter_mut().zip(*one) { *x = value(*s); },
        [left, right] => for (x, (l, r)) in f[44..].chunks_exact_mut(2).zip(left.iter().zip(*right)) { x[0] = value(*l); x[1] = value(*r); },
        _ => panic!("one side or two"),
    }
    if pad == 1 { f[44 + data] = 0; }
}
