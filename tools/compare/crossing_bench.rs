//! Speed of the nearest crossing: how long a distance takes, and that the length of the octave doesn't count.
use crate::bench::best;
use crate::{abi, plain_crossing as plain};
use std::hint::black_box;

fn measure(name: &str, s: &[i8], place: usize, distance: u64, times: u32) {
    let ours = best(7, times, || { black_box(abi::nearest_crossing(black_box(s), black_box(place as u64), u64::MAX)).expect("found"); });
    let theirs = best(7, times, || { black_box(plain::outward(black_box(s), black_box(place), usize::MAX)).expect("found"); });
    assert_eq!(abi::nearest_crossing(s, place as u64, u64::MAX).ok(), plain::outward(s, place, usize::MAX).map(|i| i as u64));
    println!("{name:44} library {:>9.4} us, {:>6.3} ns a distance; plain Rust {:>9.4} us  ratio {:.2}",
        ours * 1e6, ours * 1e9 / distance as f64, theirs * 1e6, theirs / ours);
}

/// Samples above 0 with one crossing, where the rest is below.
fn one(n: usize, at: usize) -> Vec<i8> { (0..n).map(|i| if i < at { 100 } else { -100 }).collect() }

pub fn run() {
    const MIB: usize = 1 << 20;
    let (first, last, middle) = (one(MIB, 1), one(MIB, MIB - 1), one(MIB, MIB / 2));
    measure("crossing, 16 away on both sides, of 64", &one(64, 16), 32, 17, 100_000);
    measure("crossing, 16 away on both sides, of 1 MiB", &middle, MIB / 2 + 16, 17, 100_000);
    measure("crossing, at the start, from the middle", &first, MIB / 2, MIB as u64 / 2, 20);
    measure("crossing, at the end, from the middle", &last, MIB / 2, MIB as u64 / 2, 20);
    measure("crossing, at the start, from past the end", &first, MIB, MIB as u64, 20);
    measure("crossing, at the end, from the start", &last, 0, MIB as u64, 20);
}
