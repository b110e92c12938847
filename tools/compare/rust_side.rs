//! The original's side of the comparison: its voice in flat form, and its refusals by number.
use oracle::svx::{self, Voice};

/// The keys of texts, from 1 on.
pub const KEYS: [&str; 5] = ["title", "artist", "comment", "copyright", "characters"];

/// A voice as a sheet.
pub fn flat(v: &Voice) -> Vec<u8> {
    let mut s = vec![1];
    s.extend(v.header.write());
    if let Some(c) = v.channel {
        s.extend([2, c.raw() as u8]);
    }
    if let Some(p) = v.pan {
        s.push(3);
        s.extend(p.write());
    }
    for (kind, list) in [(4, &v.attack), (5, &v.release)] {
        for e in list {
            s.push(kind);
            for p in &e.points {
                s.push(6);
                s.extend(p.duration_ms.to_be_bytes());
                s.extend(p.dest.to_be_bytes());
            }
        }
    }
    if let Some(q) = &v.seqn {
        s.push(7);
        for g in &q.segments {
            s.push(8);
            s.extend(g.start.to_be_bytes());
            s.extend(g.end.to_be_bytes());
        }
    }
    if let Some(f) = v.fade {
        s.push(9);
        s.extend(f.write());
    }
    for (k, text) in &v.metadata {
        let key = KEYS.iter().position(|n| n == k).expect("a known key") as u8 + 1;
        s.extend([10, key]);
        for b in text.bytes() {
            s.extend([11, b]);
        }
    }
    s
}

/// The samples of a side, all octaves joined; one channel has them at left.
pub fn side(v: &Voice, i: usize) -> Vec<i8> {
    v.channels.get(i).map(|c| c.flattened()).unwrap_or_default()
}

/// The refusal's number, told from the message.
pub fn number(m: &str) -> u32 {
    let rules = [
        ("shorter than FORM header", 1),
        ("missing FORM signature", 2),
        ("not an 8SVX file", 3),
        ("extends past FORM", 4),
        ("duplicate ", 5),
        ("VHDR: need 20 bytes", 6),
        (": need 4 bytes", 6),
        ("not a whole number of", 6),
        ("CHAN: sampleType", 7),
        ("missing VHDR", 8),
        ("missing BODY", 9),
        ("8SVX: compression", 10),
        ("odd length can't split", 11),
        ("need at least pad + initial byte", 12),
        ("octave doubling series overflows", 13),
        ("channel supplies", 14),
        ("8SVX encode:", 18),
    ];
    for (part, n) in rules {
        if m.contains(part) {
            return n;
        }
    }
    panic!("no rule for the message {m:?}");
}

pub fn parse(file: &[u8]) -> Result<Voice, u32> {
    svx::parse_voice(file).map_err(|e| number(&e.message()))
}

pub fn encode(v: &Voice) -> Result<Vec<u8>, u32> {
    svx::encode_voice(v).map_err(|e| number(&e.message()))
}
