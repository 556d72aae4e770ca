//! Text that lists chutes with their destinations line by line: what the rows of a plan and the halls of a hall plan have in common.

use crate::args::saturating;
use crate::failure::Failure;
use crate::input;
use hailfeather::limits;
use std::ffi::OsStr;

/// The longest text that is read, so that an endless one without chutes ends: far more than the longest plan's takes.
const TEXT: usize = limits::MESSAGE;

/// What the lines of a text list.
pub trait Listing: Default {
    /// The word on a first line that gives the number of chutes.
    const COUNT: &'static str;
    /// What any other line has to be.
    const LINE: &'static str;
    /// The most chutes. The library refuses more, so no more are read.
    const MOST: usize;

    /// How many chutes there are so far.
    fn chutes(&self) -> usize;

    /// The level of a line with this white space before its first word; or why it may not stand so.
    fn level(&self, indentation: &[u8]) -> Result<usize, String>;

    /// Adds what the words of a line say; or why it may not stand there.
    fn add(&mut self, level: usize, words: &[&[u8]]) -> Result<(), String>;

    /// The destination that the words of a line are, alone or after its chute, which has to be the next one.
    fn destination(&self, words: &[&[u8]]) -> Result<u32, String> {
        let next = self.chutes() as u64 + 1;
        let numbers: Option<Vec<u64>> = words.iter().map(|word| saturating(word)).collect();
        match numbers.as_deref() {
            Some([chute, _]) if *chute != next => Err(format!("the next chute is {next}, not {chute}")),
            // A destination beyond 32 bits counts as the greatest of 32 bits, which the library refuses.
            Some([destination] | [_, destination]) => Ok((*destination).min(u64::from(u32::MAX)) as u32),
            _ => Err(Self::LINE.to_string()),
        }
    }
}

/// The number of chutes that the words after the first line's first give.
fn declared<T: Listing>(words: &[&[u8]]) -> Result<u64, String> {
    match words {
        [count] => saturating(count),
        _ => None,
    }
    .ok_or_else(|| format!("it has to be '{} N', with the number of chutes", T::COUNT))
}

/// What the lines so far have said.
#[derive(Default)]
struct Lines<T> {
    listing: T,
    /// Whether a line has said anything.
    begun: bool,
    /// The number of chutes that the first line gives, and that line's own number.
    declared: Option<(usize, u64)>,
}

impl<T: Listing> Lines<T> {
    fn add(&mut self, number: usize, text: &[u8]) -> Result<(), String> {
        // Of more than two words the third is enough to tell that the line says nothing that is understood.
        let words: Vec<&[u8]> = text.split(u8::is_ascii_whitespace).filter(|word| !word.is_empty()).take(3).collect();
        if matches!(words[..], [] | [[b'#', ..], ..]) {
            return Ok(());
        }
        let indentation = text.iter().take_while(|byte| byte.is_ascii_whitespace()).count();
        let level = self.listing.level(&text[..indentation])?;
        match words[..] {
            [word, ..] if word == T::COUNT.as_bytes() && self.begun => return Err(format!("only the first line may be '{} N'", T::COUNT)),
            [word, ref count @ ..] if word == T::COUNT.as_bytes() => self.declared = Some((number, declared::<T>(count)?)),
            _ => self.listing.add(level, &words)?,
        }
        self.begun = true;
        Ok(())
    }

    fn too_many(&self) -> bool {
        self.listing.chutes() > T::MOST
    }

    /// What was listed, if there are as many chutes as the first line gives.
    fn agreed(self) -> Result<T, String> {
        let chutes = self.listing.chutes();
        match self.declared {
            Some((line, declared)) if declared.min(T::MOST as u64 + 1) != chutes as u64 => {
                let more = if self.too_many() { " or more" } else { "" };
                Err(format!("line {line}: it says {declared} {}, and {chutes}{more} follow", T::COUNT))
            }
            _ => Ok(self.listing),
        }
    }
}

/// What a file lists.
pub fn read<T: Listing>(name: &OsStr) -> Result<T, Failure> {
    let malformed = |what: String| Failure::Malformed(format!("{}: {what}", input::shown(name)));
    let text = input::file(name, TEXT)?;
    // A text that is too long is cut, so what is left of its last line tells nothing.
    let cut = (text.len() > TEXT).then(|| text.iter().rposition(|byte| *byte == b'\n')).flatten();
    let mut lines = Lines::<T>::default();
    for (number, line) in (1..).zip(text[..cut.unwrap_or(text.len())].split(|byte| *byte == b'\n')) {
        if lines.too_many() {
            break;
        }
        lines.add(number, line).map_err(|what| malformed(format!("line {number}: {what}")))?;
    }
    if text.len() > TEXT && !lines.too_many() {
        return Err(malformed(format!("the text is longer than {TEXT} bytes")));
    }
    lines.agreed().map_err(malformed)
}
