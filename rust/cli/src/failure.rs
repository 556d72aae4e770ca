//! Why the tool ends without an answer: the words on standard error, and the exit status.

use hailfeather::Refusal;
use std::fmt;
use std::io;

/// What went wrong.
#[derive(Debug)]
pub enum Failure {
    /// The library's own refusal; its number is the exit status.
    Refused(Refusal),
    /// The command line cannot be understood.
    Usage(String),
    /// What was read breaks the rules for it: text that is not understood, or a tag of another length.
    Malformed(String),
    /// A file that cannot be read or written: its name and the system's words.
    File(String, io::Error),
}

impl Failure {
    /// The exit status: the refusal's number, or that of sysexits.h.
    pub fn status(&self) -> u8 {
        match self {
            Failure::Refused(refusal) => refusal.number(),
            Failure::Usage(_) => 64,
            Failure::Malformed(_) => 65,
            Failure::File(..) => 74,
        }
    }
}

impl fmt::Display for Failure {
    fn fmt(&self, formatter: &mut fmt::Formatter<'_>) -> fmt::Result {
        match self {
            Failure::Refused(refusal) => refusal.fmt(formatter),
            Failure::Usage(words) | Failure::Malformed(words) => write!(formatter, "hailfeather: {words}"),
            Failure::File(name, error) => write!(formatter, "hailfeather: {name}: {error}"),
        }
    }
}

impl From<Refusal> for Failure {
    fn from(refusal: Refusal) -> Failure {
        Failure::Refused(refusal)
    }
}
