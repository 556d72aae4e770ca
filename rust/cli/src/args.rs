//! The option parser: what was given to a command, checked against its table of options.

use crate::failure::Failure;
use crate::options::{Choice, Form, Kind};
use std::ffi::{OsStr, OsString};
use std::os::unix::ffi::{OsStrExt, OsStringExt};

/// The name that stands for standard input, and for standard output.
pub const STANDARD: &str = "-";

#[derive(Debug)]
struct Given {
    name: &'static str,
    word: String,
    form: Form,
    value: OsString,
}

/// What was given to a command.
#[derive(Debug)]
pub struct Arguments {
    given: Vec<Given>,
    operands: Vec<OsString>,
}

impl Arguments {
    pub fn flag(&self, name: &str) -> bool {
        self.option(name).is_some()
    }

    pub fn value(&self, name: &str) -> Option<&OsStr> {
        self.option(name).map(|(_, _, value)| value)
    }

    /// The word by which an option was given, its form and its value.
    pub fn option(&self, name: &str) -> Option<(&str, Form, &OsStr)> {
        let given = self.given.iter().find(|given| given.name == name)?;
        Some((&given.word, given.form, &given.value))
    }

    /// The number that follows an option, or `absent`; one beyond `most` counts as `most`.
    pub fn number(&self, name: &str, absent: usize, most: usize) -> Result<usize, Failure> {
        let Some((word, _, value)) = self.option(name) else { return Ok(absent) };
        Ok(number(value, word)?.min(most as u64) as usize)
    }

    pub fn operand(&self, place: usize) -> Option<&OsStr> {
        self.operands.get(place).map(OsString::as_os_str)
    }
}

/// A number in decimal digits, of any size: one beyond 64 bits counts as the greatest of 64 bits.
pub fn number(digits: &OsStr, what: &str) -> Result<u64, Failure> {
    saturating(digits.as_bytes()).ok_or_else(|| Failure::Usage(format!("{what} has to be a number in decimal digits")))
}

/// The same of bytes that need not be digits: None if one is not, or there are none.
pub fn saturating(digits: &[u8]) -> Option<u64> {
    let digits_only = !digits.is_empty() && digits.iter().all(u8::is_ascii_digit);
    digits_only.then(|| {
        digits
            .iter()
            .fold(0, |value: u64, digit| value.saturating_mul(10).saturating_add(u64::from(digit - b'0')))
    })
}

fn usage<T>(words: String) -> Result<T, Failure> {
    Err(Failure::Usage(words))
}

/// Reads a command's words. All operands but the last have to be there; the last is a file to be read, and standard input if it is left out.
/// None if help was asked for.
pub fn parse(choices: &[Choice], operands: &[&str], words: &[OsString]) -> Result<Option<Arguments>, Failure> {
    let mut arguments = Arguments {
        given: Vec::new(),
        operands: Vec::new(),
    };
    let mut words = words.iter();
    let mut options_ended = false;
    while let Some(word) = words.next() {
        match word.as_bytes() {
            b"--" if !options_ended => options_ended = true,
            b"--help" | b"-h" if !options_ended => return Ok(None),
            [b'-', _, ..] if !options_ended => arguments.given.push(option(choices, word, &mut words)?),
            _ => arguments.operands.push(word.clone()),
        }
    }
    check_options(choices, &arguments.given)?;
    check_operands(operands, &arguments.operands)?;
    check_standard_input(operands, &arguments)?;
    Ok(Some(arguments))
}

fn option<'a>(choices: &[Choice], word: &OsStr, words: &mut impl Iterator<Item = &'a OsString>) -> Result<Given, Failure> {
    let mut parts = word.as_bytes().splitn(2, |byte| *byte == b'=');
    let written = String::from_utf8_lossy(parts.next().unwrap_or_default()).into_owned();
    let attached = parts.next().map(|value| OsString::from_vec(value.to_vec()));
    let (name, form, placeholder) = find(choices, &written)?;
    let value = match (form, attached) {
        (Form::Flag, Some(_)) => return usage(format!("{written} takes no value")),
        (Form::Flag, None) => OsString::new(),
        (_, Some(value)) => value,
        (_, None) => match words.next() {
            Some(value) => value.clone(),
            None => return usage(format!("{written} has to be followed by {placeholder}")),
        },
    };
    Ok(Given {
        name,
        word: written,
        form,
        value,
    })
}

fn find(choices: &[Choice], written: &str) -> Result<(&'static str, Form, &'static str), Failure> {
    for choice in choices {
        if let Some((_, form, placeholder)) = choice.forms().into_iter().find(|(word, ..)| word == written) {
            return Ok((choice.name, form, placeholder));
        }
        let name = written.trim_start_matches("--").trim_end_matches("-hex");
        if matches!(choice.kind, Kind::Secret) && name == choice.name {
            let ways = choice.ways().join(" or ");
            return usage(format!(
                "{written} is not taken, since every user of the machine can see the arguments: put the {name} in a file and give {ways}"
            ));
        }
    }
    usage(format!("there is no option {}", written.escape_debug()))
}

fn check_options(choices: &[Choice], given: &[Given]) -> Result<(), Failure> {
    for choice in choices {
        let mut given = given.iter().filter(|given| given.name == choice.name);
        match (given.next(), given.next()) {
            (None, _) if choice.required => return usage(format!("{} is missing", choice.ways().join(" or "))),
            (Some(first), Some(second)) => return usage(format!("{} and {} stand for the same thing: give one", first.word, second.word)),
            _ => (),
        }
    }
    Ok(())
}

fn check_operands(names: &[&str], operands: &[OsString]) -> Result<(), Failure> {
    if let Some(surplus) = operands.get(names.len()) {
        return usage(format!("'{}' is one argument too many", surplus.to_string_lossy().escape_debug()));
    }
    match names.split_last().and_then(|(_, needed)| needed.get(operands.len())) {
        Some(missing) => usage(format!("{missing} is missing")),
        None => Ok(()),
    }
}

fn check_standard_input(names: &[&str], arguments: &Arguments) -> Result<(), Failure> {
    let is_read = |given: &&Given| matches!(given.form, Form::File | Form::HexFile) && given.value == STANDARD;
    let mut readers: Vec<&str> = arguments.given.iter().filter(is_read).map(|given| given.word.as_str()).collect();
    if let Some((file, needed)) = names.split_last() {
        if arguments.operand(needed.len()).map_or(true, |name| name == STANDARD) {
            readers.push(file);
        }
    }
    match readers[..] {
        [first, second, ..] => usage(format!("{first} and {second} cannot both be read from standard input: name a file")),
        _ => Ok(()),
    }
}

#[cfg(test)]
mod tests;
