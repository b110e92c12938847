//! What stands beside reading and writing: both codecs, a whole BODY, octaves, loops, levels, pan, volume and frequency.
use crate::plain_fibonacci::{Read, Written};
use crate::{abi, make, plain_peak};
use oracle::svx::{self, ChannelSamples, EgPoint, Envelope, Pan, VoiceHeader};
use oracle::svx_open;

fn fibonacci(r: &mut make::Rng, written: &mut Written, read: &mut Read) {
    let n = r.below(40) as usize;
    let body = r.bytes(n);
    decoding(&body, read);
    let samples = r.samples(n);
    encoding(&samples, written);
}

/// A channel is decoded as it is to be, and past the output is kept.
fn decoding(body: &[u8], read: &mut Read) {
    let want = svx::fibonacci_decode_channel(body).map_err(|_| 12).map(|original| read.wanted(body, &original));
    let mut out = vec![0x5Ai8; 2 * body.len() + 4];
    let got = abi::fibonacci_decode_channel(body, &mut out).map(|k| out[..k].to_vec());
    assert_eq!(got, want, "decoding {body:02X?}");
    let kept = want.as_ref().map_or(0, |w| w.len());
    assert!(out[kept..].iter().all(|x| *x == 0x5A), "past the output");
    if want.is_ok() { survives(body); }
}

/// A channel is written as it is to be, and past the output is kept; what was written.
fn encoding(samples: &[i8], written: &mut Written) -> Vec<u8> {
    let want = written.wanted(samples, &svx::fibonacci_encode_channel(samples));
    let mut out = vec![0xA5u8; samples.len() + 4];
    let got = abi::fibonacci_encode_channel(samples, &mut out);
    assert_eq!(got, Ok(want.len()), "encoding {samples:?}");
    assert!(out.starts_with(&want) && out[want.len()..].iter().all(|x| *x == 0xA5), "encoding {samples:?}");
    want
}

/// The samples of a whole channel survive being written and decoded again. Even its bytes come back, as no two nibbles have the same sum,
/// which wraps; but for byte 0, which is written as 0.
pub fn survives(body: &[u8]) {
    let decode = |bytes: &[u8]| {
        let mut out = vec![0; 2 * bytes.len() - 3];
        assert_eq!(abi::fibonacci_decode_channel(bytes, &mut out), Ok(out.len()), "decoding {bytes:02X?}");
        out
    };
    let samples = decode(body);
    let mut again = vec![0; body.len()];
    assert_eq!(abi::fibonacci_encode_channel(&samples, &mut again), Ok(body.len()), "encoding {samples:?}");
    assert_eq!(decode(&again), samples, "{body:02X?} after decoding, encoding and decoding");
    assert!(again[0] == 0 && again[1..] == body[1..], "{body:02X?} after decoding and encoding: {again:02X?}");
}

/// A first sample and every sample that can follow it: each choice that the writer can meet.
fn every_choice(written: &mut Written) {
    for samples in (-128..=127).flat_map(|a| (-128..=127).map(move |b| [a, b])) {
        let want = written.wanted(&samples, &svx::fibonacci_encode_channel(&samples));
        let mut out = [0xA5u8; 4];
        assert_eq!(abi::fibonacci_encode_channel(&samples, &mut out), Ok(3), "encoding {samples:?}");
        assert_eq!(out[..3], want, "encoding {samples:?}");
    }
}

/// A first sample and every byte that can follow it: each sum that the reader can meet.
fn every_sum(read: &mut Read) {
    for (a, b) in (0..=255).flat_map(|a| (0..=255).map(move |b| (a, b))) { decoding(&[0, a, b], read); }
}

/// Quiet sound: it wanders within 60, half of it in steps of at most 3, which meet no tie, the other half in steps of at most 30 or fewer. So
/// most of it passes the filter. It is written, and what was written is read.
fn quiet(r: &mut make::Rng, written: &mut Written, read: &mut Read) {
    let (n, widest) = (r.below(40), if r.once(2) { 3 } else { 30 });
    let most = 1 + r.below(widest) as i32;
    let mut s = r.below(121) as i32 - 60;
    let samples: Vec<i8> = (0..n).map(|_| { s = (s + r.below(2 * most as u64 + 1) as i32 - most).clamp(-60, 60); s as i8 }).collect();
    decoding(&encoding(&samples, written), read);
}

/// A Fibonacci BODY as decode_body is to give it, as long as the original gives it: 0 channels count as 1, more than 2 as 2; two are BODY's
/// halves, by turns, left first.
fn by_turns(body: &[u8], channels: u16, original: &[u8], read: &mut Read) -> Vec<u8> {
    let (count, mut out) = (channels.clamp(1, 2) as usize, original.to_vec());
    for (i, bytes) in body.chunks(body.len() / count).enumerate() {
        let side: Vec<i8> = original.iter().skip(i).step_by(count).map(|x| *x as i8).collect();
        for (place, s) in out.iter_mut().skip(i).step_by(count).zip(read.wanted(bytes, &side)) { *place = s as u8; }
        survives(bytes);
    }
    out
}

fn whole_body(r: &mut make::Rng, read: &mut Read) {
    let n = r.below(40) as usize;
    let body = r.bytes(n);
    let compression = if r.once(9) { r.next() as u8 } else { r.below(2) as u8 };
    let (channels, frames) = (r.below(4) as u16, r.below(60) as usize);
    let want = svx_open::oracle_decode_body(&body, compression, channels, frames).map_err(|e| crate::rust_side::number(&e.message()));
    let want = want.map(|original| if compression == 1 { by_turns(&body, channels, &original, read) } else { original });
    let mut out = vec![0xA5u8; 200];
    let got = abi::decode_body(&body, compression, channels, frames as u64, &mut out).map(|k| out[..k].to_vec());
    assert_eq!(got, want, "decode_body {compression} {channels} {frames} {body:02X?}");
    let kept = want.as_ref().map_or(0, |w| w.len());
    assert!(out[kept..].iter().all(|x| *x == 0xA5), "past the output");
    if let Ok(w) = want {
        if !w.is_empty() {
            let mut short = vec![0xA5u8; w.len() - 1];
            assert_eq!(abi::decode_body(&body, compression, channels, frames as u64, &mut short), Err(20));
            assert!(short.iter().all(|x| *x == 0xA5), "a refused call wrote");
        }
    }
}

fn count(p: abi::Part) -> Option<u64> {
    if p.there { assert_eq!(p.start, 0); Some(p.length) } else { assert_eq!((p.start, p.length), (0, 0)); None }
}

fn octaves(r: &mut make::Rng) {
    let h = make::header(r);
    let h = VoiceHeader { one_shot_hi_samples: if r.once(3) { 1 << r.below(32) } else { h.one_shot_hi_samples }, ..h };
    let k = if r.once(4) { r.next() as u8 } else { r.below(70) as u8 };
    let (a, b, c) = (h.one_shot_hi_samples, h.repeat_hi_samples, h.ct_octave);
    assert_eq!(count(abi::octave_samples(a, b, c, k)), h.octave_samples(k), "octave_samples {h:?} {k}");
    assert_eq!(count(abi::octave_samples(a, 0, c, k)), h.one_shot_samples(k), "one_shot_samples {h:?} {k}");
    assert_eq!(count(abi::octave_samples(0, b, c, k)), h.repeat_samples(k), "repeat_samples {h:?} {k}");
    // an octave of the header's length, or another; the original looks it up by k, so k octaves stand before it
    let n = match h.octave_samples(k) {
        Some(n) if n < 200 && !r.once(5) => n as usize,
        _ => r.below(6) as usize,
    };
    let mut list = vec![Vec::new(); k as usize];
    list.push(vec![0i8; n]);
    let want = ChannelSamples { octaves: list }.loop_split(&h, k).map(|(x, y)| (x.len() as u64, y.len() as u64));
    let p = abi::loop_repeat(a, b, c, k, n as u64);
    let got = if p.there { Some((p.start, p.length)) } else { assert_eq!((p.start, p.length), (0, 0)); None };
    assert_eq!(got, want, "loop_split {h:?} {k} {n}");
}

fn levels(r: &mut make::Rng) {
    let points: Vec<EgPoint> = (0..r.below(5)).map(|_| EgPoint { duration_ms: r.next() as u16 >> r.below(16), dest: r.next() as i32 >> r.below(32) }).collect();
    let e = Envelope { points };
    let start = r.next() as i32 >> r.below(32);
    let t = if r.once(9) { r.next() } else { r.below(2 * e.total_duration_ms() + 3) };
    let mut bytes = e.write();
    let n = r.below(6) as usize;
    bytes.extend(r.bytes(n));
    assert_eq!(abi::level_at_ms(&bytes, start, t), e.level_at_ms(start, t), "level_at_ms {e:?} {start} {t}");
}

fn floats(r: &mut make::Rng) {
    let position = if r.once(2) { r.next() as i32 } else { r.below(70_000) as i32 - 2_000 };
    let (w, p) = (abi::pan_weights(position), Pan { position });
    assert_eq!((w.left.to_bits(), w.right.to_bits()), (p.left_weight().to_bits(), p.right_weight().to_bits()), "pan {position}");
    let h = make::header(r);
    let h = VoiceHeader { volume: r.next() as u32 >> r.below(32), ..h };
    assert_eq!(abi::volume_f32(h.volume).to_bits(), h.volume_f32().to_bits(), "volume {}", h.volume);
    let f = abi::frequency(h.samples_per_sec, h.samples_per_hi_cycle);
    let got = if f.known { Some(f.hertz.to_bits()) } else { assert_eq!(f.hertz.to_bits(), 0); None };
    assert_eq!(got, h.hi_cycle_frequency_hz().map(f64::to_bits), "frequency {h:?}");
    let n = r.below(30) as usize;
    let samples = r.samples(n);
    assert_eq!(abi::peak(&samples), plain_peak::first(&samples), "peak {samples:?}");
}

pub fn run(n: u64, seed: u64) {
    let mut r = make::Rng::new(seed ^ 0x0C7A);
    let (mut written, mut read, mut bodies) = (Written::default(), Read::default(), Read::default());
    for _ in 0..n {
        fibonacci(&mut r, &mut written, &mut read);
        whole_body(&mut r, &mut bodies);
        octaves(&mut r);
        levels(&mut r);
        floats(&mut r);
    }
    println!("parts: {n} inputs each of seed {seed} for both Fibonacci codecs, decode_body, octave lengths, loop_split, level, pan, volume and frequency: no difference");
    println!("  channels written: {written}");
    println!("  channels read: {read}");
    println!("  channels read by decode_body: {bodies}");
    let (mut choices, mut sums) = (Written::default(), Read::default());
    every_choice(&mut choices);
    every_sum(&mut sums);
    println!("  every choice of a nibble: {choices}");
    println!("  every byte after every first sample: {sums}");
    let mut r = make::Rng::new(seed ^ 0x901E7);
    let (mut written, mut read) = (Written::default(), Read::default());
    for _ in 0..n { quiet(&mut r, &mut written, &mut read); }
    println!("  {n} quiet channels, written: {written}");
    println!("  and what was written, read: {read}");
    println!("  each channel that was read, if read whole, survives being written and read again");
    println!("  (the peak, which the original hasn't, against a plain version; `compare peak` has longer samples)");
}
