//! Numbers and texts as people read them.
use std::ffi::OsStr;

/// A whole number with a comma after each group of three digits.
pub fn grouped(n: u64) -> String {
    let digits = n.to_string();
    let mut out = String::new();
    for (i, digit) in digits.chars().enumerate() {
        if i > 0 && (digits.len() - i).is_multiple_of(3) {
            out.push(',');
        }
        out.push(digit);
    }
    out
}

/// A number of things: `1 point`, `2 points`.
pub fn counted(n: u64, thing: &str) -> String {
    format!("{} {thing}{}", grouped(n), if n == 1 { "" } else { "s" })
}

/// A number to so many digits after the point, without zeros at its end.
pub fn decimal(x: f64, digits: usize) -> String {
    let words = format!("{x:.digits$}");
    let short = if words.contains('.') {
        words.trim_end_matches('0').trim_end_matches('.')
    } else {
        &words
    };
    if short == "-0" {
        "0".to_string()
    } else {
        short.to_string()
    }
}

/// A 16.16 level in percent: 65,536 is 100%.
pub fn percent(level: i64) -> String {
    decimal(level as f64 * 100.0 / 65_536.0, 2) + "%"
}

/// How long so many samples last at a rate, if there is one.
pub fn lasting(samples: u64, rate: u32) -> Option<String> {
    let ms = samples as f64 * 1_000.0 / f64::from(rate);
    let words = if ms < 1_000.0 {
        decimal(ms, if ms < 10.0 { 3 } else { 1 }) + " ms"
    } else {
        format!("{:.3} s", ms / 1_000.0)
    };
    (rate > 0).then_some(words)
}

/// Whether a character would do something to a terminal or a line instead of being seen: controls, marks that turn the
/// direction of writing, separators of lines, and what isn't a character.
fn unseen(c: char) -> bool {
    let marks = [
        '\u{61C}', '\u{200E}', '\u{200F}', '\u{2028}', '\u{2029}', '\u{FEFF}', '\u{FFFE}', '\u{FFFF}',
    ];
    c.is_control()
        || marks.contains(&c)
        || ('\u{202A}'..='\u{202E}').contains(&c)
        || ('\u{2066}'..='\u{2069}').contains(&c)
}

/// A text with all that can't be seen written as an escape, so that it stays one line.
pub fn escaped(text: &str) -> String {
    let mut out = String::with_capacity(text.len());
    for c in text.chars() {
        if unseen(c) {
            out.extend(c.escape_default());
        } else {
            out.push(c);
        }
    }
    out
}

/// A file's name for a message.
pub fn shown(path: &OsStr) -> String {
    escaped(&path.to_string_lossy())
}
