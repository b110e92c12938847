//! What ends a command early, and with which status.
use std::io;

/// What ends a command early. The words are one line, without the tool's name.
pub enum Failure {
    /// Wrong usage, or a file that can't be read, stored or written.
    Wrong(String),
    /// A file, a fill or a number that the library refuses.
    Refused(String),
    /// Nobody reads the output any more, as after `| head`: nothing is wrong, and nothing is left to do.
    Unread,
}

impl Failure {
    pub fn wrong(what: &str, words: impl std::fmt::Display) -> Failure {
        Failure::Wrong(format!("{what}: {words}"))
    }

    pub fn refused(what: &str, refusal: svx::Refusal) -> Failure {
        Failure::Refused(format!("{what}: {refusal}"))
    }

    /// A failed writing. A reader that went away is no failure of the writer.
    pub fn writing(what: &str, e: &io::Error) -> Failure {
        if e.kind() == io::ErrorKind::BrokenPipe {
            return Failure::Unread;
        }
        Failure::wrong(what, plain(e))
    }
}

/// The system's words for an error, without its number.
pub fn plain(e: &io::Error) -> String {
    let words = e.to_string();
    let end = words.find(" (os error").unwrap_or(words.len());
    let mut letters = words[..end].chars();
    letters
        .next()
        .map_or_else(String::new, |first| first.to_lowercase().chain(letters).collect())
}
