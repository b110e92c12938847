//! A note as the specification words it and nothing cleverer: every frame walks the points and the segments and divides. The library's
//! fill is compared with it, and timed against it.
use oracle::svx::{ChannelAssignment, EgPoint, Envelope, SeqnSegment, Voice};

pub const LAST: u64 = u32::MAX as u64;

#[derive(Clone, Copy, Debug, PartialEq)]
pub struct Note { pub octave: u8, pub velocity: u8, pub step: u32, pub rate: u32, pub frames: u32, pub key_up: Option<u32> }

pub fn start(octave: u8, step: u32, rate: u32, velocity: u8) -> Note { Note { octave, velocity, step, rate, frames: 0, key_up: None } }

pub fn key_up(mut n: Note) -> Note {
    if n.key_up.is_none() { n.key_up = Some(n.frames); }
    n
}

fn joined(list: &[Envelope]) -> Envelope {
    Envelope { points: list.iter().flat_map(|e| e.points.iter().map(|p| EgPoint { duration_ms: p.duration_ms, dest: p.dest })).collect() }
}

/// A voice as a note needs it.
pub struct Sound<'a> { v: &'a Voice, left: &'a [i8], right: &'a [i8], attack: Envelope, release: Envelope }

pub fn sound<'a>(v: &'a Voice, left: &'a [i8], right: &'a [i8]) -> Sound<'a> {
    Sound { v, left, right, attack: joined(&v.attack), release: joined(&v.release) }
}

fn times(x: i64, n: i64, d: i64) -> i64 { x * n / d }

/// What doesn't change from frame to frame: the shares of the sides, and where the fade begins and ends.
pub struct Fixed { left: i64, right: i64, fade: Option<(i64, i64)> }

impl Sound<'_> {
    fn hi(&self) -> u64 { self.v.header.hi_octave_samples() }
    fn segments(&self) -> &[SeqnSegment] { self.v.seqn.as_ref().map_or(&[], |q| &q.segments) }
    fn stereo(&self) -> bool { self.v.channel == Some(ChannelAssignment::Stereo) }

    fn octave_there(&self, k: u8) -> bool { if self.hi() == 0 { k == 0 } else { k < self.v.header.ct_octave.max(1) } }

    fn joined_length(&self, count: usize, k: u8) -> u128 {
        self.segments().iter().take(count).map(|g| (g.end as u128).saturating_sub(g.start as u128) << k.min(90)).sum()
    }

    /// The number that turns a fill back, the sheet's own aside.
    pub fn refusal(&self, n: Note, places: usize) -> u32 {
        let number = self.voice_refusal();
        if number != 0 { return number; }
        if self.too_long(n.octave) { return 24; }
        if places % 2 == 1 { return 25; }
        self.note_refusal(n)
    }

    /// 10, 13, 18, and 21 to 23: the voice's.
    pub fn voice_refusal(&self) -> u32 {
        let h = &self.v.header;
        if h.compression_byte > 1 { return 10; }
        let Some(total) = h.total_samples_per_channel() else { return 13 };
        let suits = (self.hi() == 0 || self.left.len() as u64 == total) && self.right.len() == if self.stereo() { self.left.len() } else { 0 };
        if !suits { return 18; }
        let valid = |g: &SeqnSegment| g.start % 4 == 0 && g.end % 4 == 0 && g.start <= g.end && g.end as u64 <= self.hi();
        if !self.segments().iter().all(valid) { return 21; }
        if self.v.seqn.is_some() && h.one_shot_hi_samples != 0 { return 22; }
        if let Some(f) = self.v.fade {
            if f.segment as usize >= self.segments().len() { return 23; }
        }
        0
    }

    /// 24: the sequence in an octave that is there.
    pub fn too_long(&self, k: u8) -> bool { self.octave_there(k) && self.joined_length(usize::MAX, k) > LAST as u128 }

    /// 31 to 34, and 44: the note's.
    pub fn note_refusal(&self, n: Note) -> u32 {
        if !self.octave_there(n.octave) { return 31; }
        if n.step == 0 || n.step > 16_777_216 { return 32; }
        if n.rate == 0 || n.rate > 192_000 { return 33; }
        if n.key_up.is_some_and(|u| u > n.frames) { return 34; }
        if n.velocity == 0 || n.velocity > 127 { return 44; }
        0
    }

    /// The place of the sample at step q.
    fn place(&self, k: u8, q: u64) -> Option<u64> {
        let h = &self.v.header;
        if self.v.seqn.is_some() {
            let mut left = q;
            for g in self.segments() {
                let n = ((g.end - g.start) as u64) << k;
                if left < n { return Some(self.hi() * ((1 << k) - 1) + ((g.start as u64) << k) + left); }
                left -= n;
            }
            return None;
        }
        if self.hi() == 0 { return if q < self.left.len() as u64 { Some(q) } else { None }; }
        let (first, one, repeat) = (self.hi() * ((1u64 << k) - 1), (h.one_shot_hi_samples as u64) << k, (h.repeat_hi_samples as u64) << k);
        if q < one { return Some(first + q); }
        if repeat == 0 { return None; }
        Some(first + one + (q - one) % repeat)
    }

    fn attack_level(&self, n: Note, p: u64) -> i32 {
        if self.attack.points.is_empty() { return 65536; }
        self.attack.level_at_ms(0, 1000 * p / n.rate as u64).clamp(0, 65536)
    }

    /// The level of frame p, or none where the note is over.
    fn level(&self, n: Note, p: u64) -> Option<i32> {
        match n.key_up {
            Some(u) if p >= u as u64 => {
                let t = 1000 * (p - u as u64) / n.rate as u64;
                if t >= self.release.total_duration_ms() { return None; }
                Some(self.release.level_at_ms(self.attack_level(n, u as u64), t).clamp(0, 65536))
            }
            _ => Some(self.attack_level(n, p)),
        }
    }

    /// The shares of the left and the right side that the channel alone gives.
    fn channel_shares(&self) -> (i64, i64) {
        match self.v.channel {
            Some(ChannelAssignment::Left) => (65536, 0),
            Some(ChannelAssignment::Right) => (0, 65536),
            Some(ChannelAssignment::Stereo) | None => (65536, 65536),
        }
    }

    /// Two channels have a side each; of one the pan decides where there is one, else the channel.
    fn shares(&self) -> (i64, i64) {
        match self.v.pan {
            Some(p) if !self.stereo() => { let l = p.position.clamp(0, 65536) as i64; (l, 65536 - l) }
            _ => self.channel_shares(),
        }
    }

    /// That the pan gives other shares than a channel that names its side.
    pub fn overruled(&self) -> bool { self.v.channel.is_some() && self.shares() != self.channel_shares() }

    pub fn fixed(&self, n: Note) -> Fixed {
        let (left, right) = self.shares();
        let bounds = |f: usize| (self.joined_length(f, n.octave) as i64, self.joined_length(usize::MAX, n.octave) as i64);
        Fixed { left, right, fade: self.v.fade.map(|f| bounds(f.segment as usize)) }
    }

    /// Frame p: both values, or none where it is over.
    pub fn frame(&self, n: Note, f: &Fixed, p: u64) -> Option<(i16, i16)> {
        if p >= LAST { return None; }
        let q = p * n.step as u64 / 65536;
        let i = self.place(n.octave, q)? as usize;
        let level = self.level(n, p)?;
        let value = |sample: i8, share: i64| {
            let x = times(sample as i64 * 256, level as i64, 65536);
            let x = times(x, self.v.header.volume.min(65536) as i64, 65536);
            let mut x = times(x, n.velocity as i64, 127);
            if let Some((b, t)) = f.fade {
                if q as i64 >= b { x = times(x, t - q as i64, t - b); }
            }
            times(x, share, 65536) as i16
        };
        let right = if self.stereo() { self.right[i] } else { self.left[i] };
        Some((value(self.left[i], f.left), value(right, f.right)))
    }

    /// A fill of an accepted note; how many frames weren't over.
    pub fn fill(&self, n: Note, out: &mut [i16]) -> (u64, Note) {
        let mut sounding = 0;
        let fixed = self.fixed(n);
        for (i, pair) in out.chunks_exact_mut(2).enumerate() {
            let f = self.frame(n, &fixed, n.frames as u64 + i as u64);
            sounding += f.is_some() as u64;
            (pair[0], pair[1]) = f.unwrap_or((0, 0));
        }
        let frames = (n.frames as u64 + out.len() as u64 / 2).min(LAST) as u32;
        (sounding, Note { frames, ..n })
    }
}
