//! Speed of the peak: by where the loudest sample lies, and how many there are.
use crate::bench::best;
use crate::{abi, make, plain_peak as plain};
use std::hint::black_box;

fn measure(name: &str, s: &[i8], times: u32) {
    let rate = |seconds: f64| s.len() as f64 / seconds / 1e9;
    let ours = best(9, times, || { black_box(abi::peak(black_box(s))).expect("found"); });
    let two = best(9, times, || { black_box(plain::first(black_box(s))).expect("found"); });
    let hand = best(9, times, || { black_box(plain::by_hand(black_box(s))).expect("found"); });
    println!("{name:44} library {:>11.4} us, {:>6.2} GB/s; plain Rust, two passes {:>6.2} GB/s  ratio {:.2}, one pass {:>6.2} GB/s  ratio {:.2}",
        ours * 1e6, rate(ours), rate(two), two / ours, rate(hand), hand / ours);
}

/// Samples that wander within 100, and one of -128.
fn one(r: &mut make::Rng, n: usize, at: usize) -> Vec<i8> {
    let mut s = 0i32;
    let mut all: Vec<i8> = (0..n).map(|_| { s = (s + r.below(21) as i32 - 10).clamp(-100, 100); s as i8 }).collect();
    all[at] = -128;
    all
}

pub fn run() {
    let mut r = make::Rng::new(7);
    for (words, n, times) in [("64", 64, 200_000), ("1,000", 1_000, 50_000), ("4,096", 4_096, 20_000), ("65,536", 65_536, 1_000), ("1 MiB", 1 << 20, 100), ("64 MiB", 1 << 26, 2)] {
        for (where_, at) in [("first", 0), ("in the middle", n / 2), ("last", n - 1)] { measure(&format!("peak of {words}, {where_}"), &one(&mut r, n, at), times); }
    }
    measure("peak of 1 MiB of silence", &vec![0; 1 << 20], 100);
}
