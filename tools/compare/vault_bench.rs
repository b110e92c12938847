//! Speed of difference order and of the way back, into buffers at hand: by how long an octave is, and over eight octaves, against both ways by hand.
use crate::bench::{best, walk};
use crate::plain_vault::Header;
use crate::vault::{Way, ORDER, RESTORE};
use crate::make;
use std::hint::black_box;

/// What came out.
fn measure(name: &str, way: &Way, h: Header, channel: &[i8], times: u32) -> Vec<i8> {
    let n = channel.len();
    let rate = |seconds: f64| n as f64 / seconds / 1e9;
    let (mut out, mut other) = (vec![0i8; n], vec![0i8; n]);
    let ours = best(9, times, || { black_box(way.call(black_box(h), black_box(channel), black_box(&mut out))).expect("accepted"); });
    let hand = best(9, times, || { black_box((way.by_hand)(black_box(h), black_box(channel), black_box(&mut other))).expect("accepted"); });
    assert!(out == other, "the outputs differ");
    println!("{:44} library {:>11.4} us, {:>6.3} ns a sample, {:>6.2} GB/s; plain Rust {:>11.4} us, {:>6.2} GB/s  ratio {:.2}",
        format!("{}, {name}", way.name), ours * 1e6, ours * 1e9 / n as f64, rate(ours), hand * 1e6, rate(hand), hand / ours);
    out
}

pub fn run() {
    let mut r = make::Rng::new(7);
    let one = |one_shot: u32| Header { one_shot, repeat: 0, octaves: 1 };
    for (name, h, times) in [
        ("one octave of 64", one(64), 200_000),
        ("one octave of 1,000", one(1_000), 20_000),
        ("one octave of 64 Ki", one(1 << 16), 400),
        ("one octave of 1 MiB", one(1 << 20), 20),
        ("one octave of 16 MiB", one(1 << 24), 2),
        ("eight octaves from 8,192 on, 2 MiB", Header { one_shot: 4_096, repeat: 4_096, octaves: 8 }, 10),
    ] {
        let samples = walk(&mut r, h.total().expect("a total") as usize, 20, -128, 127);
        let values = measure(name, &ORDER, h, &samples, times);
        assert!(measure(name, &RESTORE, h, &values, times) == samples, "not the samples again");
    }
}
