//! Files: the library's refusal, sheet and samples against the original's; samples of a Fibonacci channel in which a sum leaves -128..127
//! against the plain rule's (plain_fibonacci.rs).
use crate::{abi, make, parts, plain_fibonacci, rust_side};

/// What reading a file gives: its sheet and both sides, or a number.
pub type Reading = Result<(Vec<u8>, Vec<i8>, Vec<i8>), u32>;

/// What is to come out: the original's reading, but where a sum of a Fibonacci channel leaves -128..127 the samples are by the plain rule.
pub fn wanted(file: &[u8], channels: &mut plain_fibonacci::Read) -> Reading {
    let v = rust_side::parse(file)?;
    let (sheet, mut sides) = (rust_side::flat(&v), [rust_side::side(&v, 0), rust_side::side(&v, 1)]);
    for (side, bytes) in sides.iter_mut().zip(fibonacci_channels(file, &sheet)) { *side = channels.wanted(bytes, side); }
    let [left, right] = sides;
    Ok((sheet, left, right))
}

/// The bytes of an accepted file's Fibonacci channels: BODY, or its halves if there are two; none if the file is raw.
fn fibonacci_channels<'a>(file: &'a [u8], sheet: &[u8]) -> Vec<&'a [u8]> {
    // the compression's byte
    if sheet[16] != 1 { return Vec::new(); }
    let body = body(file);
    if stereo(sheet) { body.chunks(body.len() / 2).collect() } else { vec![body] }
}

/// The payload of BODY in an accepted file, by a plain walk.
fn body(file: &[u8]) -> &[u8] {
    let number = |at: usize| u32::from_be_bytes(file[at..at + 4].try_into().expect("four bytes")) as usize;
    let (mut at, end) = (12, file.len().min(8 + number(4)));
    while at + 8 <= end {
        let size = number(at + 4);
        if file[at..at + 4] == *b"BODY" { return &file[at + 8..at + 8 + size]; }
        at += 8 + size + size % 2;
    }
    panic!("an accepted file has a BODY");
}

/// The sheet says CHAN 6.
fn stereo(sheet: &[u8]) -> bool { sheet.len() > 22 && sheet[21..23] == [2, 6] }

pub fn library(file: &[u8]) -> Reading {
    let l = abi::voice_lengths(file)?;
    let (mut s, mut a, mut b) = (vec![0; l[0] as usize], vec![0; l[1] as usize], vec![0; l[2] as usize]);
    let got = abi::parse_voice(file, &mut s, &mut a, &mut b)?;
    assert_eq!(got, l, "the lengths differ from those that were asked for");
    Ok((s, a, b))
}

/// Past the output is kept; and where one buffer is short by one, none is written.
pub fn buffers(file: &[u8], want: &(Vec<u8>, Vec<i8>, Vec<i8>), short: u64) {
    let (mut s, mut a, mut b) = (vec![0xA5u8; want.0.len() + 3], vec![0x5Ai8; want.1.len() + 3], vec![0x3Ci8; want.2.len() + 3]);
    abi::parse_voice(file, &mut s, &mut a, &mut b).expect("accepted");
    assert!(s.starts_with(&want.0) && s[want.0.len()..] == [0xA5; 3], "sheet buffer");
    assert!(a.starts_with(&want.1) && a[want.1.len()..] == [0x5A; 3], "left buffer");
    assert!(b.starts_with(&want.2) && b[want.2.len()..] == [0x3C; 3], "right buffer");
    let lens = [want.0.len(), want.1.len(), want.2.len()];
    let i = short as usize % 3;
    if lens[i] == 0 { return; }
    let cut = |k: usize| if k == i { lens[k] - 1 } else { lens[k] };
    let (mut s, mut a, mut b) = (vec![0xA5u8; cut(0)], vec![0x5Ai8; cut(1)], vec![0x3Ci8; cut(2)]);
    assert_eq!(abi::parse_voice(file, &mut s, &mut a, &mut b), Err(20), "a short buffer");
    assert!(s.iter().all(|x| *x == 0xA5) && a.iter().all(|x| *x == 0x5A) && b.iter().all(|x| *x == 0x3C), "a refused call wrote");
}

/// What reading put out is a sheet that is accepted, and its sides are there.
pub fn accepted(want: &(Vec<u8>, Vec<i8>, Vec<i8>)) {
    assert_eq!(abi::sheet_judge(&want.0), 0, "judging");
    let mut at = 0;
    loop {
        let step = abi::sheet_record(&want.0, at);
        if step.step != 0 {
            assert_eq!((step, at), (abi::Record { step: 1, kind: 0, start: 0, next: 0 }, want.0.len() as u64), "the sheet's end");
            break;
        }
        assert_eq!((step.kind, step.start), (want.0[at as usize], at + 1), "a record");
        at = step.next;
    }
    let (l, r) = (want.1.len() as u64, want.2.len() as u64);
    let left = abi::side_samples(&want.0, l, r, false);
    assert_eq!(left, abi::Part { there: true, start: 0, length: l }, "left side");
    let right = abi::side_samples(&want.0, l, r, true);
    let stereo = stereo(&want.0);
    assert_eq!(right, abi::Part { there: stereo, start: 0, length: if stereo { r } else { 0 } }, "right side");
}

pub fn run(n: u64, seed: u64) {
    let mut counts = [0u64; 21];
    let mut channels = plain_fibonacci::Read::default();
    let mut r = make::Rng::new(seed);
    for i in 0..n {
        let file = make::file(&mut r);
        let (want, got) = (wanted(&file, &mut channels), library(&file));
        if want != got {
            println!("input {i} of seed {seed} differs\n  file {file:02X?}\n  wanted {want:?}\n  library {got:?}");
            std::process::exit(1);
        }
        match &want {
            Err(k) => counts[*k as usize] += 1,
            Ok(w) => {
                counts[0] += 1;
                buffers(&file, w, i);
                accepted(w);
                fibonacci_channels(&file, &w.0).into_iter().for_each(parts::survives);
            }
        }
    }
    println!("parse: {n} files of seed {seed}, no difference; {} accepted, refused by number:", counts[0]);
    let by: Vec<String> = (1..21).filter(|k| counts[*k] > 0).map(|k| format!("{k}: {}", counts[k])).collect();
    println!("  {}", by.join(", "));
    println!("  Fibonacci channels: {channels}");
    println!("  each of them, read whole, survives being written and read again");
}
