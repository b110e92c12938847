//! A tool for Amiga voices (FORM 8SVX): what is in them, their notes and octaves as sound files, their waveforms as
//! pictures, voices stored for a vault and given back, and voices drawn from numbers.
mod args;
mod check;
mod convert;
mod crossing;
mod draw;
mod envelope;
mod failure;
mod files;
mod info;
mod made;
mod make;
mod mix;
mod notes;
mod null;
mod panel;
mod place;
mod progress;
mod score;
mod stem;
mod stereo;
mod svg;
mod vault;
mod wave;
mod words;

use args::Command;
use failure::Failure;
use std::ffi::OsString;
use std::io::Write;
use std::process::ExitCode;

const COMMANDS: [&Command; 12] = [
    &info::INFO,
    &check::CHECK,
    &stem::STEM,
    &mix::MIX,
    &null::NULL,
    &wave::WAVE,
    &convert::RAW,
    &convert::REWRITE,
    &vault::VAULT,
    &crossing::CROSSING,
    &draw::DRAW,
    &make::MAKE,
];

fn main() -> ExitCode {
    let arguments: Vec<OsString> = std::env::args_os().skip(1).collect();
    match run(&arguments) {
        Ok(status) => ExitCode::from(status),
        Err(Failure::Wrong(words)) => {
            tell(&words);
            ExitCode::from(2)
        }
        Err(Failure::Refused(words)) => {
            tell(&words);
            ExitCode::from(1)
        }
        Err(Failure::Unread) => ExitCode::SUCCESS,
    }
}

/// One line on standard error. Where that is closed there is nobody to tell.
pub fn tell(words: &str) {
    let _ = writeln!(std::io::stderr(), "svx: {words}");
}

fn run(arguments: &[OsString]) -> Result<u8, Failure> {
    let Some((first, rest)) = arguments.split_first() else {
        return Err(Failure::Wrong("no command (svx --help lists them)".to_string()));
    };
    match (first.to_str(), rest) {
        (Some("--help" | "-h"), _) | (Some("help"), []) => return help(&overview()),
        (Some("--version"), _) => return help(concat!("svx ", env!("CARGO_PKG_VERSION"), "\n")),
        (Some("help"), [name, ..]) => return run(&[name.clone(), "--help".into()]),
        _ => {}
    }
    let Some(command) = COMMANDS.iter().find(|command| *first == *command.name) else {
        return Err(Failure::Wrong(format!(
            "no command {} (svx --help lists them)",
            words::shown(first)
        )));
    };
    match command.sort(rest)? {
        Some(given) => (command.run)(&given),
        None => help(&page(command)),
    }
}

fn help(words: &str) -> Result<u8, Failure> {
    files::say(words)?;
    Ok(0)
}

/// The list of commands.
fn overview() -> String {
    let mut words = "A tool for Amiga voices (FORM 8SVX).\n\nusage: svx COMMAND ..\n\n".to_string();
    for command in COMMANDS {
        words += &format!("  {:<10}{}\n", command.name, command.does);
    }
    words += "\nsvx COMMAND --help tells more of a command. The status is 0; 1 where a file, a\n";
    words += "note, a score, an octave, a search or a number is refused; 2 for wrong usage or a\n";
    words + "file that can't be read, stored or written.\n"
}

/// The help of a command.
fn page(command: &Command) -> String {
    format!(
        "{}\n\n{}\n",
        command.usage(),
        command.help.replace("{note}", notes::HELP)
    )
}
