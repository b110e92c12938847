//! Inputs: voices and files, whole, out of order, cut and damaged.
use oracle::svx::{ChannelAssignment, ChannelSamples, EgPoint, Envelope, Fade, Pan, Seqn, SeqnSegment, Voice, VoiceHeader};

/// A generator that needs nothing: xorshift64*.
pub struct Rng(u64);

impl Rng {
    pub fn new(seed: u64) -> Self { Rng(seed.wrapping_mul(0x9E37_79B9_7F4A_7C15) | 1) }
    pub fn next(&mut self) -> u64 {
        self.0 ^= self.0 >> 12;
        self.0 ^= self.0 << 25;
        self.0 ^= self.0 >> 27;
        self.0.wrapping_mul(0x2545_F491_4F6C_DD1D)
    }
    /// Below n.
    pub fn below(&mut self, n: u64) -> u64 { (self.next() >> 33) % n }
    /// Once in n times.
    pub fn once(&mut self, n: u64) -> bool { self.below(n) == 0 }
    pub fn bytes(&mut self, n: usize) -> Vec<u8> { (0..n).map(|_| self.next() as u8).collect() }
    pub fn samples(&mut self, n: usize) -> Vec<i8> {
        // near the ends, near one another, or anywhere
        let kind = self.below(3);
        let mut s = self.next() as i8;
        (0..n).map(|_| {
            match kind {
                0 => s = self.next() as i8,
                1 => s = s.wrapping_add(self.below(61) as i8 - 30),
                _ => s = if self.once(2) { -128 } else { 127 },
            }
            s
        }).collect()
    }
    pub fn pick<T: Copy>(&mut self, list: &[T]) -> T { list[self.below(list.len() as u64) as usize] }
}

pub fn header(r: &mut Rng) -> VoiceHeader {
    let zero = r.once(6);
    let big = r.once(40);
    VoiceHeader {
        one_shot_hi_samples: if zero { 0 } else if big { r.next() as u32 } else { r.below(9) as u32 },
        repeat_hi_samples: if zero { 0 } else if big { r.next() as u32 } else { r.below(9) as u32 },
        samples_per_hi_cycle: if r.once(4) { 0 } else { r.next() as u32 >> r.below(32) },
        samples_per_sec: if r.once(8) { 0 } else { r.next() as u16 },
        ct_octave: if r.once(12) { r.pick(&[0, 1, 31, 32, 33, 63, 64, 65, 254, 255]) } else { r.below(5) as u8 },
        compression_byte: if r.once(20) { r.next() as u8 } else { r.below(2) as u8 },
        volume: if r.once(3) { r.next() as u32 } else { 65536 },
    }
}

fn envelope(r: &mut Rng) -> Envelope {
    let points = (0..r.below(4)).map(|_| EgPoint { duration_ms: r.next() as u16 >> r.below(16), dest: r.next() as i32 >> r.below(32) });
    Envelope { points: points.collect() }
}

/// Bytes of a text chunk: words, white space, zero bytes, ill-formed parts.
pub fn text(r: &mut Rng) -> Vec<u8> {
    let parts: [&[u8]; 22] = [b"a", b"Lead ", b" ", b"\t", b"\n", b"\0", b"\xC2\xA0", b"\xC2\x85", b"\x85", b"\xE2\x80\x83", b"\xE2\x80", b"\xE3\x80\x80",
        b"\xED\xA0\x80", b"\xF0\x80\x80\x80", b"\xF0\x9F\x8E\xB9", b"\xF4\x90\x80\x80", b"\xFF", b"\xC3\xA9", b"\xC3", b"\xE1\xA0\x8E", b"\xEF\xBB\xBF", b"\x1C"];
    let mut t = Vec::new();
    for _ in 0..r.below(7) {
        if r.once(12) {
            let n = r.below(5) as usize;
            t.extend(r.bytes(n));
        } else {
            t.extend(r.pick(&parts));
        }
    }
    t
}

/// A text that Rust can hold as a string.
fn string(r: &mut Rng) -> String { String::from_utf8_lossy(&text(r)).into_owned() }

/// A voice whose parts may or may not suit one another.
pub fn voice(r: &mut Rng) -> Voice {
    let h = header(r);
    let channel = r.pick(&[None, None, Some(ChannelAssignment::Left), Some(ChannelAssignment::Right), Some(ChannelAssignment::Stereo), Some(ChannelAssignment::Stereo)]);
    let mut count = if channel == Some(ChannelAssignment::Stereo) { 2 } else { 1 };
    if r.once(15) { count = 3 - count; }
    let channels = (0..count).map(|_| channel_samples(r, &h)).collect();
    let metadata = (0..r.below(4)).map(|_| (r.pick(&super::rust_side::KEYS).to_string(), string(r))).collect();
    Voice::default()
        .with_header(h)
        .with_channel(channel)
        .with_pan(if r.once(3) { Some(Pan { position: r.next() as i32 >> r.below(32) }) } else { None })
        .with_attack((0..r.below(3)).map(|_| envelope(r)).collect())
        .with_release((0..r.below(3)).map(|_| envelope(r)).collect())
        .with_seqn(if r.once(3) { Some(sequence(r)) } else { None })
        .with_fade(if r.once(3) { Some(Fade { segment: r.below(4) as u32 }) } else { None })
        .with_metadata(metadata)
        .with_channels(channels)
}

fn sequence(r: &mut Rng) -> Seqn {
    let segments = (0..r.below(4)).map(|_| SeqnSegment { start: r.next() as u32 >> r.below(32), end: r.next() as u32 >> r.below(32) });
    Seqn { segments: segments.collect() }
}

/// Octaves as the header has them, or nearly; any number of samples if hi = 0.
fn channel_samples(r: &mut Rng, h: &VoiceHeader) -> ChannelSamples {
    let hi = h.hi_octave_samples();
    let octaves = h.ct_octave.max(1) as u64;
    if hi == 0 || hi > 64 || octaves > 6 {
        let n = r.below(40) as usize;
        return ChannelSamples { octaves: vec![r.samples(n)] };
    }
    let mut list: Vec<Vec<i8>> = (0..octaves).map(|k| r.samples((hi << k) as usize)).collect();
    if r.once(12) {
        // one sample more or less in the last octave
        let last = list.last_mut().unwrap();
        if r.once(2) { last.push(5); } else { last.pop(); }
    }
    ChannelSamples { octaves: list }
}

pub fn chunk(out: &mut Vec<u8>, id: &[u8; 4], payload: &[u8], pad: bool) {
    out.extend(id);
    out.extend((payload.len() as u32).to_be_bytes());
    out.extend(payload);
    if pad && payload.len() % 2 == 1 { out.push(0); }
}

/// BODY for a header, of a fitting length or nearly.
fn body(r: &mut Rng, h: &VoiceHeader, stereo: bool) -> Vec<u8> {
    let total = h.total_samples_per_channel().unwrap_or(20).min(200) as usize;
    let n = if h.hi_octave_samples() == 0 { r.below(30) as usize } else { total };
    let per_channel = if h.compression_byte == 1 { 2 + n / 2 } else { n };
    let mut len = per_channel * if stereo { 2 } else { 1 };
    if r.once(4) { len += r.below(6) as usize; }
    if r.once(12) { len = len.saturating_sub(1 + r.below(4) as usize); }
    if r.once(30) { len = r.below(5) as usize; }
    r.bytes(len)
}

/// The chunks of a file: most are right, some are short, doubled, unknown or out of order.
fn chunks(r: &mut Rng) -> Vec<([u8; 4], Vec<u8>)> {
    let h = header(r);
    let mut list: Vec<([u8; 4], Vec<u8>)> = Vec::new();
    let mut stereo = false;
    if !r.once(25) {
        let mut b = h.write().to_vec();
        if r.once(20) { b.truncate(r.below(20) as usize); }
        if r.once(12) { let n = r.below(9) as usize; b.extend(r.bytes(n)); }
        list.push((*b"VHDR", b));
    }
    if r.once(2) {
        let v = if r.once(25) { r.next() as u32 } else { r.pick(&[2u32, 4, 6, 6, 6]) };
        stereo = v == 6;
        let mut b = v.to_be_bytes().to_vec();
        if r.once(40) { b.truncate(r.below(4) as usize); }
        if r.once(12) { b.push(9); }
        list.push((*b"CHAN", b));
    }
    if r.once(3) { let n = if r.once(20) { r.below(4) } else { 4 + r.below(2) } as usize; list.push((*b"PAN ", r.bytes(n))); }
    for _ in 0..r.below(3) { let n = r.below(4) as usize * 6 + if r.once(25) { r.below(6) as usize } else { 0 }; list.push((*b"ATAK", r.bytes(n))); }
    for _ in 0..r.below(3) { let n = r.below(4) as usize * 6 + if r.once(25) { r.below(6) as usize } else { 0 }; list.push((*b"RLSE", r.bytes(n))); }
    if r.once(3) { let n = r.below(4) as usize * 8 + if r.once(15) { r.below(8) as usize } else { 0 }; list.push((*b"SEQN", r.bytes(n))); }
    if r.once(3) { let n = if r.once(15) { r.below(4) } else { 4 + r.below(2) } as usize; list.push((*b"FADE", r.bytes(n))); }
    for _ in 0..r.below(4) { let id = *r.pick(&[b"NAME", b"AUTH", b"ANNO", b"(c) ", b"CHRS"]); list.push((id, text(r))); }
    if r.once(6) { let n = r.below(9) as usize; list.push((*r.pick(&[b"JUNK", b"vhdr", b"PAN\0", b"BOD\xD9"]), r.bytes(n))); }
    if !r.once(25) { list.push((*b"BODY", body(r, &h, stereo))); }
    if r.once(25) && !list.is_empty() {
        let again = list[r.below(list.len() as u64) as usize].clone();
        list.push(again);
    }
    if r.once(3) {
        for i in (1..list.len()).rev() { let j = r.below(i as u64 + 1) as usize; list.swap(i, j); }
    }
    list
}

/// A file: chunks in a FORM, and some damage.
pub fn file(r: &mut Rng) -> Vec<u8> {
    if r.once(100) { let n = r.below(40) as usize; return r.bytes(n); }
    let list = chunks(r);
    let mut f = b"FORM\0\0\0\08SVX".to_vec();
    let last = list.len();
    for (i, (id, payload)) in list.iter().enumerate() {
        let pad = !(i + 1 == last && r.once(3)) && !r.once(100);
        chunk(&mut f, id, payload, pad);
    }
    if r.once(8) { let n = r.below(9) as usize; f.extend(r.bytes(n)); }
    let held = f.len() as u32 - 8;
    let length = if r.once(8) { r.pick(&[0, 3, 4, held.wrapping_sub(1), held + 1, held + 9, u32::MAX, u32::MAX - 8, held / 2]) } else { held };
    f[4..8].copy_from_slice(&length.to_be_bytes());
    if r.once(8) { let n = r.below(f.len() as u64 + 1) as usize; f.truncate(n); }
    if r.once(6) {
        for _ in 0..1 + r.below(3) {
            if f.is_empty() { break; }
            let i = r.below(f.len() as u64) as usize;
            f[i] = if r.once(2) { r.next() as u8 } else { f[i] ^ (1 << r.below(8)) };
        }
    }
    f
}
