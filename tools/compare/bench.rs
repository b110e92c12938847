//! Speed: the library against the original, the same inputs, both for release. The library is lent its buffers and asked for the
//! lengths first, as a host does; the original makes its own.
use crate::{abi, encode, make, rust_side};
use oracle::svx::{self, ChannelAssignment, ChannelSamples, Voice, VoiceHeader};
use std::hint::black_box;
use std::time::Instant;

pub fn voice(r: &mut make::Rng, samples: usize, stereo: bool, compression: u8) -> Voice {
    let h = VoiceHeader { one_shot_hi_samples: samples as u32, repeat_hi_samples: 0, samples_per_hi_cycle: 0, samples_per_sec: 8000, ct_octave: 1, compression_byte: compression, volume: 65536 };
    let count = if stereo { 2 } else { 1 };
    let channels = (0..count).map(|_| ChannelSamples { octaves: vec![walk(r, samples, 20, -128, 127)] }).collect();
    let channel = if stereo { Some(ChannelAssignment::Stereo) } else { None };
    Voice::default().with_header(h).with_channel(channel).with_channels(channels)
}

/// Samples that wander, as sound does, in steps of at most so much and within these ends.
pub fn walk(r: &mut make::Rng, n: usize, most: i32, least: i32, largest: i32) -> Vec<i8> {
    let mut s = 0i32;
    (0..n).map(|_| { s = (s + r.below(2 * most as u64 + 1) as i32 - most).clamp(least, largest); s as i8 }).collect()
}

/// Seconds of the best of some passes.
pub fn best(passes: u32, times: u32, mut f: impl FnMut()) -> f64 {
    (0..passes).map(|_| { let t = Instant::now(); for _ in 0..times { f(); } t.elapsed().as_secs_f64() / times as f64 }).fold(f64::MAX, f64::min)
}

fn line(name: &str, ours: f64, theirs: f64) {
    println!("{name:44} library {:>10.2} us  original {:>10.2} us  ratio {:.2}", ours * 1e6, theirs * 1e6, theirs / ours);
}

fn reading(name: &str, v: &Voice, times: u32) {
    let file = svx::encode_voice(v).expect("written");
    let n = abi::voice_lengths(&file).expect("accepted");
    let (mut s, mut a, mut b) = (vec![0u8; n[0] as usize], vec![0i8; n[1] as usize], vec![0i8; n[2] as usize]);
    let ours = best(7, times, || {
        let n = abi::voice_lengths(black_box(&file)).expect("accepted");
        assert!(n[0] as usize <= s.len());
        black_box(abi::parse_voice(black_box(&file), &mut s, &mut a, &mut b).expect("accepted"));
    });
    let once = best(7, times, || { black_box(abi::parse_voice(black_box(&file), &mut s, &mut a, &mut b).expect("accepted")); });
    let theirs = best(7, times, || { black_box(svx::parse_voice(black_box(&file)).expect("accepted")); });
    line(&format!("read {name}"), ours, theirs);
    line(&format!("  into buffers at hand"), once, theirs);
}

fn writing(name: &str, v: &Voice, times: u32) {
    let (s, l, r) = encode::flat(v);
    let n = abi::file_length(&s, &l, &r).expect("accepted");
    let mut file = vec![0u8; n];
    let ours = best(7, times, || {
        let n = abi::file_length(black_box(&s), &l, &r).expect("accepted");
        assert!(n <= file.len());
        black_box(abi::encode_voice(black_box(&s), &l, &r, &mut file).expect("accepted"));
    });
    let theirs = best(7, times, || { black_box(svx::encode_voice(black_box(v)).expect("accepted")); });
    line(&format!("write {name}"), ours, theirs);
}

pub fn run() {
    let mut r = make::Rng::new(7);
    const MIB: usize = 1 << 20;
    for (name, v, times) in [
        ("raw mono, 4 MiB", voice(&mut r, 4 * MIB, false, 0), 20),
        ("raw stereo, 4 MiB", voice(&mut r, 2 * MIB, true, 0), 20),
        ("Fibonacci mono, 2 MiB", voice(&mut r, 4 * MIB - 4, false, 1), 4),
        ("raw mono, 64 samples", voice(&mut r, 64, false, 0), 20_000),
        ("Fibonacci mono, 64 samples", voice(&mut r, 64, false, 1), 20_000),
    ] {
        reading(name, &v, times);
        writing(name, &v, times);
    }
    let mut full = make::voice(&mut r);
    while rust_side::encode(&full).is_err() || full.metadata.len() < 3 || full.attack.len() < 2 || full.seqn.is_none() { full = make::voice(&mut r); }
    reading("every chunk, few samples", &full, 20_000);
    writing("every chunk, few samples", &full, 20_000);
}
