//! The commands: what each is made of, and which one was asked for.

use crate::args::{self, Arguments};
use crate::failure::Failure;
use crate::options::Choice;
use crate::{draw, hall, hash, help, output, plan, seal};
use std::ffi::OsString;

pub struct Command {
    pub name: &'static str,
    pub purpose: &'static str,
    /// All but the last have to be given; the last is a file to be read, and standard input if it is left out.
    pub operands: &'static [&'static str],
    pub options: &'static [Choice],
    /// What else its user has to know.
    pub notes: &'static str,
    /// Lines for a shell, each followed by what it prints behind a hash sign.
    pub examples: &'static str,
    /// The library's entries that it calls, with the numbers that it can get from each.
    pub refusals: &'static [(&'static str, &'static [u8])],
    pub run: fn(&Arguments) -> Result<(), Failure>,
}

pub const COMMANDS: &[&Command] = &[
    &plan::REPORT,
    &plan::LOOKUP,
    &plan::WRITE,
    &plan::MIGRATE,
    &hall::REPORT,
    &hall::LOOKUP,
    &hall::WRITE,
    &seal::SEAL,
    &seal::OPEN,
    &hash::CSHAKE,
    &hash::KMAC,
    &draw::DRAW,
];

/// Does what the words ask for. A failure comes with the name of the command whose help says more.
pub fn run(words: &[OsString]) -> Result<(), (Failure, &'static str)> {
    for command in COMMANDS {
        let name: Vec<&str> = command.name.split(' ').collect();
        if words.len() >= name.len() && words.iter().zip(&name).all(|(word, part)| word == part) {
            return obey(command, &words[name.len()..]).map_err(|failure| (failure, command.name));
        }
    }
    other(words).map_err(|failure| (failure, ""))
}

fn obey(command: &Command, words: &[OsString]) -> Result<(), Failure> {
    match args::parse(command.options, command.operands, words)? {
        Some(arguments) => (command.run)(&arguments),
        None => output::text(&help::of(command)),
    }
}

/// What is asked of no single command.
fn other(words: &[OsString]) -> Result<(), Failure> {
    let known: Vec<Option<&str>> = words.iter().map(|word| word.to_str()).collect();
    match known[..] {
        [Some("--help" | "-h"), ..] => output::text(&help::general()),
        [Some("--version"), ..] => output::text(concat!("hailfeather ", env!("CARGO_PKG_VERSION"), "\n")),
        [Some(group @ ("plan" | "hall")), Some("--help" | "-h"), ..] => output::text(&help::group(group)),
        [] => Err(Failure::Usage("a command is missing".to_string())),
        [Some("plan"), ..] => Err(Failure::Usage("plan has to be followed by report, lookup, write or migrate".to_string())),
        [Some("hall"), ..] => Err(Failure::Usage("hall has to be followed by report, lookup or write".to_string())),
        _ => Err(Failure::Usage(format!(
            "there is no command {}",
            words[0].to_string_lossy().escape_debug()
        ))),
    }
}
