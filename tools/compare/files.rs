//! Files read and written by the library alone, to be held against another program's.
use crate::{encode, parse, wave};
use std::fs;

pub fn raw(file: &str, out: &str) {
    let (_, left, right) = parse::library(&fs::read(file).expect("a file")).expect("accepted");
    let bytes: Vec<u8> = if right.is_empty() {
        left.iter().map(|x| *x as u8).collect()
    } else {
        left.iter().zip(&right).flat_map(|(l, r)| [*l as u8, *r as u8]).collect()
    };
    fs::write(out, bytes).expect("written");
}

pub fn rewrite(file: &str, out: &str) {
    let (sheet, left, right) = parse::library(&fs::read(file).expect("a file")).expect("accepted");
    fs::write(out, encode::library(&sheet, &left, &right).expect("accepted")).expect("written");
}

pub fn wave(file: &str, out: &str, octave: u8) {
    let (sheet, left, right) = parse::library(&fs::read(file).expect("a file")).expect("accepted");
    fs::write(out, wave::library(&sheet, &left, &right, octave).expect("accepted")).expect("written");
}
