//! Voices: the library's file or refusal against the original's; Fibonacci channels in which a candidate's sum leaves -128..127 or a sample
//! meets a tie against the plain rule's (plain_fibonacci.rs).
use crate::{abi, make, parse, plain_fibonacci, rust_side};

/// A voice in flat form: its sheet and both sides.
pub fn flat(v: &oracle::svx::Voice) -> (Vec<u8>, Vec<i8>, Vec<i8>) { (rust_side::flat(v), rust_side::side(v, 0), rust_side::side(v, 1)) }

pub fn library(s: &[u8], l: &[i8], r: &[i8]) -> Result<Vec<u8>, u32> {
    let n = abi::file_length(s, l, r)?;
    let mut file = vec![0xA5; n + 2];
    assert_eq!(abi::encode_voice(s, l, r, &mut file), Ok(n), "the length differs from the one that was asked for");
    assert_eq!(file[n..], [0xA5; 2], "past the output");
    file.truncate(n);
    let mut short = vec![0xA5; n - 1];
    assert_eq!(abi::encode_voice(s, l, r, &mut short), Err(20), "a short buffer");
    assert!(short.iter().all(|x| *x == 0xA5), "a refused call wrote");
    Ok(file)
}

/// A file in hexadecimal, or the refusal's number, which is decimal everywhere.
pub fn shown(file: &Result<Vec<u8>, u32>) -> String {
    match file {
        Ok(bytes) => format!("{bytes:02X?}"),
        Err(number) => format!("refused by {number}"),
    }
}

/// The file or refusal that is to come out: the original's, but where a candidate's sum in a Fibonacci channel leaves -128..127 or a sample
/// meets a tie the plain rule's bytes stand in BODY, which is the last chunk.
pub fn wanted(v: &oracle::svx::Voice, channels: &mut plain_fibonacci::Written) -> Result<Vec<u8>, u32> {
    let mut file = rust_side::encode(v)?;
    if v.header.compression_byte == 1 {
        let sides: Vec<Vec<i8>> = v.channels.iter().map(|c| c.flattened()).collect();
        let length: usize = sides.iter().map(|side| 2 + side.len() / 2).sum();
        let mut at = file.len() - length - length % 2;
        assert_eq!(file[at - 8..at], *[*b"BODY", (length as u32).to_be_bytes()].as_flattened(), "BODY is the last chunk");
        for side in &sides {
            let end = at + 2 + side.len() / 2;
            let bytes = channels.wanted(side, &file[at..end]);
            file[at..end].copy_from_slice(&bytes);
            at = end;
        }
    }
    Ok(file)
}

/// Octaves that are cut wrongly can't be said in the flat form: then both sides have the right total and the original refuses.
pub fn sayable(v: &oracle::svx::Voice) -> bool {
    let h = &v.header;
    let hi = h.hi_octave_samples();
    let stereo = v.channel == Some(oracle::svx::ChannelAssignment::Stereo);
    if v.channels.is_empty() { return false; }
    let right = |c: &oracle::svx::ChannelSamples| {
        if hi == 0 { return c.octaves.len() == 1; }
        if Some(c.total_len() as u64) != h.total_samples_per_channel() { return true; }
        c.octaves.len() == h.ct_octave.max(1) as usize && c.octaves.iter().enumerate().all(|(k, o)| o.len() as u64 == hi << k)
    };
    // an empty right side says one channel, unless CHAN says two and the left is empty as well
    let said = if v.channels.len() == 2 { v.channels[1].total_len() > 0 || stereo } else { v.channels[0].total_len() > 0 || !stereo };
    v.channels.iter().all(right) && said
}

/// The octaves' total doesn't fit 64 bits.
fn overflows(h: &oracle::svx::VoiceHeader) -> bool {
    let hi = h.one_shot_hi_samples as u128 + h.repeat_hi_samples as u128;
    let octaves = h.ct_octave.max(1) as u32;
    hi > 0 && (octaves > 64 || hi * ((1u128 << octaves) - 1) > u64::MAX as u128)
}

/// Both refuse, by the same rule. The original has none of its own for a total past 64 bits when it writes and refuses the octaves' lengths
/// (18): there, and only there, the library answers 13.
fn same_rule(h: &oracle::svx::VoiceHeader, want: u32, got: u32) -> bool {
    if want == 18 && overflows(h) { got == 13 } else { want == got && got != 13 }
}

pub fn run(n: u64, seed: u64) {
    let mut counts = [0u64; 21];
    let (mut skipped, mut back, mut overflowing, mut survived) = (0u64, 0u64, 0u64, 0u64);
    let mut channels = plain_fibonacci::Written::default();
    let mut r = make::Rng::new(seed ^ 0xE7C0DE);
    let mut done = 0;
    while done < n {
        let v = make::voice(&mut r);
        if !sayable(&v) {
            skipped += 1;
            continue;
        }
        done += 1;
        let (s, a, b) = flat(&v);
        let (want, got) = (wanted(&v, &mut channels), library(&s, &a, &b));
        let agree = match (&want, &got) {
            (Ok(x), Ok(y)) => x == y,
            (Err(x), Err(y)) => same_rule(&v.header, *x, *y),
            _ => false,
        };
        if !agree {
            println!("voice {done} of seed {seed} differs\n  sheet {s:02X?}\n  left {a:?}\n  right {b:?}\n  wanted {}\n  library {}", shown(&want), shown(&got));
            std::process::exit(1);
        }
        overflowing += overflows(&v.header) as u64;
        match got {
            Err(k) => counts[k as usize] += 1,
            Ok(file) => {
                counts[0] += 1;
                let again = parse::library(&file).expect("a file that was written is read");
                if v.header.compression_byte == 0 && tidy(&v) {
                    back += 1;
                    assert_eq!(again, (s, a, b), "the voice after writing and reading");
                } else if v.header.compression_byte == 1 {
                    survived += 1;
                    assert_eq!(library(&s, &again.1, &again.2), Ok(file), "the file after reading and writing");
                }
            }
        }
    }
    println!("encode: {n} voices of seed {seed}, no difference; {} written, {back} of them raw and tidy and the same after reading; refused by number:", counts[0]);
    let by: Vec<String> = (1..21).filter(|k| counts[*k] > 0).map(|k| format!("{k}: {}", counts[k])).collect();
    println!("  {}; left out, as the flat form can't say them: {skipped}", by.join(", "));
    println!("  Fibonacci channels: {channels}");
    println!("  Fibonacci files read and written again, the same: {survived}");
    println!("  a total past 64 bits: {overflowing} voices, {} refused by 13 where the original says 18, the others by 10", counts[13]);
    assert!(counts[13] <= overflowing && overflowing <= counts[13] + counts[10], "a voice whose total is past 64 bits was written");
}

fn tidy(v: &oracle::svx::Voice) -> bool { v.metadata.iter().all(|(_, t)| !t.is_empty() && !t.contains('\0') && t.trim() == t) }
