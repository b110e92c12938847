//! Speed of WAVE files, into buffers at hand: against a copy of as many bytes, and against the plain version. The library judges the
//! sheet and the lengths in each call; the plain version is given its octaves.
use crate::bench::{best, voice};
use crate::{abi, encode, make, plain_wave as plain};
use oracle::svx::Voice;
use std::hint::black_box;

fn measure(name: &str, v: &Voice, times: u32) {
    let (sheet, left, right) = encode::flat(v);
    let n = abi::octave_wave_length(&sheet, &left, &right, 0).expect("accepted");
    let (mut file, mut other) = (vec![0u8; n], vec![0u8; n]);
    let ours = best(7, times, || { black_box(abi::octave_wave(black_box(&sheet), black_box(&left), &right, 0, black_box(&mut file)).expect("accepted")); });
    let sides = if right.is_empty() { vec![&left[..]] } else { vec![&left[..], &right[..]] };
    let theirs = best(7, times, || { plain::write(v.header.samples_per_sec, black_box(&sides), black_box(&mut other)); });
    assert!(file == other, "the files differ");
    let copy = best(7, times, || { black_box(&mut other).copy_from_slice(black_box(&file)); });
    let asked = best(7, times, || { black_box(abi::octave_wave_length(black_box(&sheet), &left, &right, 0).expect("accepted")); });
    println!("{name:30} library {:>8.3} us, {:>5.2} GB/s of file; its length alone {:.3} us", ours * 1e6, n as f64 / ours / 1e9, asked * 1e6);
    for (what, seconds) in [("plain Rust", theirs), ("a copy of the file's bytes", copy)] {
        println!("  {what:28} {:>16.3} us, {:>5.2} GB/s  ratio {:.2}", seconds * 1e6, n as f64 / seconds / 1e9, seconds / ours);
    }
}

pub fn run() {
    let mut r = make::Rng::new(13);
    const MIB: usize = 1 << 20;
    measure("WAVE, mono, 4 MiB", &voice(&mut r, 4 * MIB, false, 0), 20);
    measure("WAVE, stereo, 2 x 2 MiB", &voice(&mut r, 2 * MIB, true, 0), 20);
    measure("WAVE, mono, 64 samples", &voice(&mut r, 64, false, 0), 20_000);
    measure("WAVE, stereo, 2 x 64 samples", &voice(&mut r, 64, true, 0), 20_000);
}
