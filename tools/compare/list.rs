//! The fixed list: inputs and the original's answers, replayed by the gate's program `replay`.
//!
//! FOLDER/stdin has the cases. A case is a byte and its slices, each with its length in four bytes, big-endian: the file; or sheet, left and
//! right. FOLDER/stdout has a line for each: the refusal's number, or the outputs in hexadecimal. The bytes:
//!
//!     0  the end
//!     1  reading
//!     2  writing
//!     3  writing a Fibonacci channel where a sample meets a tie, and no candidate's sum leaves -128..127; the line begins with `tie`
//!     4  reading a Fibonacci channel where a sum leaves -128..127; the line begins with `wrap`
//!     5  writing a Fibonacci channel where a candidate's sum leaves -128..127; the line begins with `wrap`
//!
//! The lines of 3, 4 and 5 aren't the original's: there the channels are by the plain rule of plain_fibonacci.rs.
use crate::{encode, make, parse, plain_fibonacci, rust_side};
use std::fmt::Write;

fn slice(out: &mut Vec<u8>, s: &[u8]) {
    out.extend((s.len() as u32).to_be_bytes());
    out.extend(s);
}

fn bytes(s: &[i8]) -> Vec<u8> { s.iter().map(|x| *x as u8).collect() }

fn hex(line: &mut String, s: &[u8]) {
    line.push(' ');
    for b in s { write!(line, "{b:02x}").unwrap(); }
    line.push('.');
}

struct List { cases: Vec<u8>, answers: String, counts: [u32; 21], read: plain_fibonacci::Read, written: plain_fibonacci::Written }

impl List {
    fn refused(&mut self, n: u32) {
        self.counts[n as usize] += 1;
        writeln!(self.answers, "{n}").unwrap();
    }

    fn reading(&mut self, file: &[u8]) {
        let left_out = self.read.left_out;
        let answer = parse::wanted(file, &mut self.read);
        let wrap = left_out < self.read.left_out;
        self.cases.push(if wrap { 4 } else { 1 });
        slice(&mut self.cases, file);
        match answer {
            Err(n) => self.refused(n),
            Ok((s, l, r)) => {
                self.counts[0] += 1;
                let mut line = String::from(if wrap { "wrap voice" } else { "voice" });
                hex(&mut line, &s);
                hex(&mut line, &bytes(&l));
                hex(&mut line, &bytes(&r));
                writeln!(self.answers, "{line}").unwrap();
            }
        }
    }

    fn writing(&mut self, v: &oracle::svx::Voice) {
        let (s, l, r) = encode::flat(v);
        let (past, tied) = self.written.marks();
        let answer = encode::wanted(v, &mut self.written);
        let (case, words) = match self.written.marks() {
            (p, _) if p > past => (5, "wrap file"),
            (_, t) if t > tied => (3, "tie file"),
            _ => (2, "file"),
        };
        self.cases.push(case);
        slice(&mut self.cases, &s);
        slice(&mut self.cases, &bytes(&l));
        slice(&mut self.cases, &bytes(&r));
        match answer {
            Err(n) => self.refused(n),
            Ok(file) => {
                self.counts[0] += 1;
                let mut line = String::from(words);
                hex(&mut line, &file);
                writeln!(self.answers, "{line}").unwrap();
            }
        }
    }
}

/// The specification's whole example: one sample, -2.
const EXAMPLE: [u8; 50] = [
    0x46, 0x4F, 0x52, 0x4D, 0, 0, 0, 0x2A, 0x38, 0x53, 0x56, 0x58, 0x56, 0x48, 0x44, 0x52, 0, 0, 0, 0x14, 0, 0, 0, 1, 0, 0, 0, 0, 0, 0, 0, 0, 0x1F, 0x40, 1,
    0, 0, 1, 0, 0, 0x42, 0x4F, 0x44, 0x59, 0, 0, 0, 1, 0xFE, 0,
];

pub fn run(folder: &str) {
    let mut list = List { cases: Vec::new(), answers: String::new(), counts: [0; 21], read: Default::default(), written: Default::default() };
    list.reading(&EXAMPLE);
    for n in [0, 11, 12, 39, 40, 48, 49] { list.reading(&EXAMPLE[..n]); }
    let mut r = make::Rng::new(20261115);
    // as many of each refusal as come, up to so many, and accepted files
    let mut room = [14u32; 21];
    room[0] = 120;
    while room[..15].iter().any(|n| *n > 0) {
        let file = make::file(&mut r);
        let k = rust_side::parse(&file).map_or_else(|n| n as usize, |_| 0);
        if room[k] == 0 || file.len() > 400 { continue; }
        room[k] -= 1;
        list.reading(&file);
    }
    let mut left = 80;
    while left > 0 {
        let v = make::voice(&mut r);
        if !encode::sayable(&v) || rust_side::flat(&v).len() > 300 || rust_side::side(&v, 0).len() > 200 { continue; }
        // a total past 64 bits has a number of its own here and none in the original
        if v.header.total_samples_per_channel().is_none() { continue; }
        list.writing(&v);
        left -= 1;
    }
    list.cases.push(0);
    let cases = list.answers.lines().count();
    std::fs::write(format!("{folder}/stdin"), &list.cases).expect("written");
    std::fs::write(format!("{folder}/stdout"), &list.answers).expect("written");
    println!("{cases} cases; accepted and refused by number: {:?}", list.counts);
    println!("Fibonacci channels written: {}", list.written);
    println!("Fibonacci channels read: {}", list.read);
    let marked = |mark: &str| list.answers.lines().filter(|l| l.starts_with(mark)).count();
    println!("lines that begin with `tie`: {}, `wrap voice`: {}, `wrap file`: {}", marked("tie "), marked("wrap voice "), marked("wrap file "));
}
