//! The command line: a command's files and options.
use crate::failure::Failure;
use crate::words::grouped;
use std::ffi::{OsStr, OsString};
use std::ops::RangeInclusive;

/// A command of the tool.
pub struct Command {
    pub name: &'static str,
    /// What follows the name in a usage line.
    pub takes: &'static str,
    /// One line for the list of commands.
    pub does: &'static str,
    /// The rest of its help.
    pub help: &'static str,
    /// Options that stand alone.
    pub flags: &'static [&'static str],
    /// Options with a value.
    pub values: &'static [&'static str],
    /// How many files it takes.
    pub files: RangeInclusive<usize>,
    pub run: fn(&Given) -> Result<u8, Failure>,
}

/// What a command was given.
pub struct Given {
    command: &'static str,
    pub files: Vec<OsString>,
    options: Vec<(&'static str, Option<String>)>,
}

impl Command {
    pub fn usage(&self) -> String {
        format!("usage: svx {} {}", self.name, self.takes)
    }

    fn wrong(&self, words: &str) -> Failure {
        Failure::Wrong(format!("{}: {words} (svx {} --help tells more)", self.name, self.name))
    }

    /// Sorts the arguments after the command's name into files and options. None where help is asked for.
    pub fn sort(&self, arguments: &[OsString]) -> Result<Option<Given>, Failure> {
        let mut given = Given {
            command: self.name,
            files: Vec::new(),
            options: Vec::new(),
        };
        let mut rest = arguments.iter();
        while let Some(argument) = rest.next() {
            match argument.to_str() {
                Some("--help" | "-h") => return Ok(None),
                Some("--") => given.files.extend(rest.by_ref().cloned()),
                Some(option) if self.is_option(option, given.files.len()) => {
                    let entry = self.option(option, &mut rest)?;
                    if given.options.iter().any(|(name, _)| *name == entry.0) {
                        return Err(self.wrong(&format!("{} is given twice", entry.0)));
                    }
                    given.options.push(entry);
                }
                _ => given.files.push(argument.clone()),
            }
        }
        if !self.files.contains(&given.files.len()) {
            return Err(self.wrong(&self.usage()));
        }
        Ok(Some(given))
    }

    /// Whether an argument is an option, after so many files. Where a number comes first, one with a sign is a wrong
    /// number and no unknown option.
    fn is_option(&self, argument: &str, files: usize) -> bool {
        let signed = argument.as_bytes().get(1).is_some_and(u8::is_ascii_digit);
        let number = signed && files == 0 && self.takes.contains("NUMBER");
        argument.starts_with('-') && argument != "-" && !number
    }

    /// One option, with its value after `=` or in the next argument.
    fn option<'a>(
        &self,
        option: &str,
        rest: &mut impl Iterator<Item = &'a OsString>,
    ) -> Result<(&'static str, Option<String>), Failure> {
        let (name, joined) = option
            .split_once('=')
            .map_or((option, None), |(name, value)| (name, Some(value)));
        if let Some(flag) = self.flags.iter().find(|flag| **flag == name) {
            return if joined.is_none() {
                Ok((flag, None))
            } else {
                Err(self.wrong(&format!("{flag} takes no value")))
            };
        }
        let Some(name) = self.values.iter().find(|value| **value == name) else {
            return Err(self.wrong(&format!("unknown option {}", crate::words::escaped(name))));
        };
        let next = || rest.next().and_then(|value| value.to_str()).map(str::to_string);
        match joined.map(str::to_string).or_else(next) {
            Some(value) => Ok((name, Some(value))),
            None => Err(self.wrong(&format!("{name} needs a value"))),
        }
    }
}

impl Given {
    pub fn file(&self, i: usize) -> &OsStr {
        self.files.get(i).map_or(OsStr::new(""), OsString::as_os_str)
    }

    pub fn has(&self, name: &str) -> bool {
        self.options.iter().any(|(given, _)| *given == name)
    }

    fn value(&self, name: &str) -> Option<&str> {
        self.options
            .iter()
            .find(|(given, _)| *given == name)
            .and_then(|(_, value)| value.as_deref())
    }

    pub fn wrong(&self, words: &str) -> Failure {
        Failure::Wrong(format!("{}: {words}", self.command))
    }

    /// Refuses two options of which each makes the other senseless.
    pub fn one_of(&self, first: &str, second: &str) -> Result<(), Failure> {
        if self.has(first) && self.has(second) {
            return Err(self.wrong(&format!("{first} and {second} exclude each other")));
        }
        Ok(())
    }

    /// A whole number within bounds.
    pub fn number(&self, name: &str, bounds: RangeInclusive<u64>) -> Result<Option<u64>, Failure> {
        let Some(text) = self.value(name) else { return Ok(None) };
        match whole(text).filter(|n| bounds.contains(n)) {
            Some(n) => Ok(Some(n)),
            None => {
                let (low, high) = (grouped(*bounds.start()), grouped(*bounds.end()));
                Err(self.wrong(&format!(
                    "{name} takes a whole number from {low} to {high}, without commas"
                )))
            }
        }
    }

    /// A whole number that has to be given.
    pub fn needed(&self, name: &str, bounds: RangeInclusive<u64>) -> Result<u64, Failure> {
        let missing = || self.wrong(&format!("{name} is missing (svx {} --help tells more)", self.command));
        self.number(name, bounds)?.ok_or_else(missing)
    }

    /// A decimal number such as 0.25, in billionths: whole numbers lose nothing on the way to frames and steps.
    pub fn billionths(&self, name: &str) -> Result<Option<u64>, Failure> {
        let Some(text) = self.value(name) else { return Ok(None) };
        match billionths(text) {
            Some(n) => Ok(Some(n)),
            None => Err(self.wrong(&format!(
                "{name} takes a number such as 8363 or 0.25, at most 9 digits after the point"
            ))),
        }
    }
}

/// A whole number in digits alone.
pub fn whole(text: &str) -> Option<u64> {
    let digits = text.bytes().all(|b| b.is_ascii_digit());
    text.parse().ok().filter(|_| digits)
}

/// A decimal number in billionths.
pub fn billionths(text: &str) -> Option<u64> {
    let (whole, part) = text.split_once('.').unwrap_or((text, ""));
    let digits = |s: &str| s.bytes().all(|b| b.is_ascii_digit());
    if whole.len() + part.len() == 0 || part.len() > 9 || !digits(whole) || !digits(part) {
        return None;
    }
    let whole: u64 = if whole.is_empty() { 0 } else { whole.parse().ok()? };
    let part: u64 = format!("{part:0<9}").parse().ok()?;
    whole.checked_mul(1_000_000_000)?.checked_add(part)
}
