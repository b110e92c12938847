//! `check`: which files the library reads.
use crate::args::{Command, Given};
use crate::failure::Failure;
use crate::files::{say, Input};
use svx::Sheet;

pub const CHECK: Command = Command {
    name: "check",
    takes: "FILE..",
    does: "say of each file whether it is read or by which rule it is refused",
    help: "\
Says of each FILE, one line each, whether it reads as a voice: `FILE: ok`, or
`FILE: refused by N: ..` with the number of the rule that turns it back.

The status is 0 if all are read, 1 if any is refused, 2 if any can't be read.",
    flags: &[],
    values: &[],
    files: 1..=usize::MAX,
    run: check,
};

fn check(given: &Given) -> Result<u8, Failure> {
    let mut status = 0;
    for path in &given.files {
        match Input::read(path) {
            Ok(input) => {
                let verdict = Sheet::read(&input.bytes).map(|_| ());
                status = status.max(u8::from(verdict.is_err()));
                let words = verdict.err().map_or("ok".to_string(), |refusal| refusal.to_string());
                say(&format!("{}: {words}\n", input.name))?;
            }
            Err(Failure::Wrong(words)) => {
                crate::tell(&words);
                status = 2;
            }
            Err(failure) => return Err(failure),
        }
    }
    Ok(status)
}
