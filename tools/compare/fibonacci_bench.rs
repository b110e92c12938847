//! Speed of both Fibonacci codecs by kind of sound: the library into buffers at hand, the original, which makes its own.
use crate::bench::{best, walk};
use crate::{abi, make};
use oracle::svx;
use std::hint::black_box;

fn line(name: &str, samples: usize, ours: f64, theirs: f64) {
    let each = ours * 1e9 / samples as f64;
    println!("{name:44} library {:>11.3} us, {each:>6.2} ns a sample  original {:>11.3} us  ratio {:.2}", ours * 1e6, theirs * 1e6, theirs / ours);
}

/// A sound is written, and what the original wrote for it is decoded.
fn measure(name: &str, s: &[i8], times: u32) {
    let bytes = svx::fibonacci_encode_channel(s);
    let (mut file, mut samples) = (vec![0u8; bytes.len()], vec![0i8; 2 * bytes.len() - 3]);
    let ours = best(9, times, || { black_box(abi::fibonacci_encode_channel(black_box(s), black_box(&mut file))).expect("written"); });
    let theirs = best(9, times, || { black_box(svx::fibonacci_encode_channel(black_box(s))); });
    line(&format!("Fibonacci written, {name}"), s.len(), ours, theirs);
    let ours = best(9, times, || { black_box(abi::fibonacci_decode_channel(black_box(&bytes), black_box(&mut samples))).expect("decoded"); });
    let theirs = best(9, times, || { black_box(svx::fibonacci_decode_channel(black_box(&bytes))).expect("decoded"); });
    line(&format!("Fibonacci decoded, {name}"), s.len(), ours, theirs);
}

pub fn run() {
    let mut r = make::Rng::new(7);
    const N: usize = 4 << 20;
    measure("4 Mi, within 90", &walk(&mut r, N, 20, -90, 90), 2);
    measure("4 Mi, quiet", &walk(&mut r, N, 5, -90, 90), 2);
    measure("4 Mi, whole range", &walk(&mut r, N, 20, -128, 127), 2);
    measure("4 Mi, at the rails", &(0..N).map(|i| if i / 100 % 2 == 0 { -128 } else { 127 }).collect::<Vec<i8>>(), 2);
    measure("4 Mi, noise", &(0..N).map(|_| r.next() as i8).collect::<Vec<i8>>(), 2);
    measure("64 samples, within 90", &walk(&mut r, 64, 20, -90, 90), 20_000);
}
