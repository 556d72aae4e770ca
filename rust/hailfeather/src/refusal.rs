//! Refusals, with the place of a malformed plan, and the count of runs: what a call answers besides the bytes that it writes.

use std::error::Error;
use std::fmt;
use std::io;

use crate::plan::Source;

mod reason;
mod runs;
#[cfg(test)]
mod tests;
mod words;

pub use reason::Reason;
use reason::REASONS;
pub(crate) use runs::counted;
pub use runs::Runs;
pub use words::refusals;

const MALFORMED: u8 = Reason::MalformedPlan as u8;

/// Why a call was refused. Everything lent to a refused call, and the session or generator it was asked of, is as it was before.
///
/// ```
/// let refusal = hailfeather::kmac256(b"a key", b"", b"a message", &mut []).unwrap_err();
/// assert_eq!(refusal.number(), 6);
/// assert_eq!(refusal.to_string(), "refused 6: the output is empty or longer than 16,777,216 bytes");
/// ```
///
/// For a malformed plan it also tells where, which is what a planner with 3,000 rows looks for:
///
/// ```
/// let refusal = hailfeather::plan::rows(&[0x01, 0x80, 0x80, 0x80, 0x00]).unwrap_err();
/// assert_eq!(refusal.place(), Some(3));
/// assert_eq!(refusal.to_string(), "refused 9 at byte 3: the plan is malformed");
/// ```
///
/// Every refusal, after the entry of the library that gives it and its number:
///
/// ```text
#[doc = include_str!("../refusals.txt")]
/// ```
#[derive(Clone, Copy, Debug, PartialEq, Eq, Hash)]
pub struct Refusal {
    number: u8,
    words: &'static str,
    place: Option<usize>,
    malformed: Option<Source>,
}

impl Refusal {
    fn without_place(number: u8, words: &'static str) -> Refusal {
        Refusal {
            number,
            words,
            place: None,
            malformed: None,
        }
    }

    /// What the number stands for, to match on.
    ///
    /// ```
    /// use hailfeather::{plan, Reason};
    /// assert_eq!(plan::destination(&[0x01, 0x07], 2).unwrap_err().reason(), Reason::NoSuchChute);
    /// ```
    pub fn reason(self) -> Reason {
        REASONS[usize::from(self.number) - 1]
    }

    /// The refusal's number, 1 to 10. Where several apply, the smallest is given.
    ///
    /// ```
    /// let refusal = hailfeather::plan::rows(&[1, 0x80, 0x80, 0x80, 0]).unwrap_err();
    /// assert_eq!(refusal.number(), 9);
    /// ```
    pub fn number(self) -> u8 {
        self.number
    }

    /// The refusal in words, with the limit that was passed.
    ///
    /// ```
    /// let refusal = hailfeather::cshake256(b"KMAC", b"", b"", &mut [0; 32]).unwrap_err();
    /// assert_eq!(refusal.words(), "the name KMAC belongs to the standard's own function");
    /// ```
    pub fn words(self) -> &'static str {
        self.words
    }

    /// The byte of the plan, from 0, at which it is malformed: with the number 9 of a function that reads a plan. `None` with every other number, with
    /// 9 where no plan that was read is malformed, that is, of a function that measures or writes rows or halls, for lists of the wrong length lent to
    /// [`hall::read_into`](crate::hall::read_into) or a buffer of the wrong length lent to [`plan::migrate_into`](crate::plan::migrate_into), and for what
    /// [`refusals`] lists. [`plan`](crate::plan) and [`hall`](crate::hall) have the place of each breach.
    ///
    /// ```
    /// use hailfeather::{hall, plan};
    /// assert_eq!(plan::rows(&[0x02, 0x07]).unwrap_err().place(), Some(2)); // the second row is missing
    /// assert_eq!(hall::summary(&[0x01, 0x05, 0x07]).unwrap_err().place(), Some(1)); // there is no kind 5
    /// assert_eq!(plan::destination(&[0x01, 0x07], 2).unwrap_err().place(), None); // the plan is good, and has no chute 2
    /// assert_eq!(plan::to_vec(&[2_097_152]).unwrap_err().place(), None); // no plan was read
    /// ```
    pub fn place(self) -> Option<usize> {
        self.place
    }

    /// Which of two plans is malformed, that the place is in: with the number 9 of [`plan::row`](crate::plan::row) alone. The site plan is read first, so
    /// it is the one that is named if both are.
    ///
    /// ```
    /// use hailfeather::plan::{row, Source};
    /// let refusal = row(&[0x01, 0x07], &[0x02, 0x07], 1).unwrap_err();
    /// assert_eq!((refusal.malformed(), refusal.place()), (Some(Source::House), Some(2)));
    /// assert_eq!(refusal.to_string(), "refused 9 at byte 2 of the house plan: the plan is malformed");
    /// ```
    pub fn malformed(self) -> Option<Source> {
        self.malformed
    }

    /// The refusal with this number of an entry, named as in refusals.txt.
    ///
    /// Panics where the file has no such line: then the archive is not the one that this package was written for.
    fn of(entry: &str, number: u8) -> Refusal {
        match refusals(entry).find(|refusal| refusal.number == number) {
            Some(refusal) => refusal,
            None => panic!(
                "hailfeather: libhailfeather.a answered {entry} with {number}, which refusals.txt does not list: they are of different versions"
            ),
        }
    }
}

impl fmt::Display for Refusal {
    fn fmt(&self, formatter: &mut fmt::Formatter<'_>) -> fmt::Result {
        write!(formatter, "refused {}", self.number)?;
        if let Some(place) = self.place {
            write!(formatter, " at byte {place}")?;
        }
        let plan = match self.malformed {
            None => "",
            Some(Source::Site) => " of the site plan",
            Some(Source::House) => " of the house plan",
        };
        write!(formatter, "{plan}: {}", self.words)
    }
}

impl Error for Refusal {}

/// The refusal is kept inside: `error.get_ref()` and `downcast_ref::<Refusal>()` give it back. Its kind is `InvalidData` where a tag does not match
/// (8) or a plan is malformed (9), else `InvalidInput`.
impl From<Refusal> for io::Error {
    fn from(refusal: Refusal) -> io::Error {
        let kind = if matches!(refusal.number, 8 | 9) {
            io::ErrorKind::InvalidData
        } else {
            io::ErrorKind::InvalidInput
        };
        io::Error::new(kind, refusal)
    }
}

/// An entry's number as a result.
pub(crate) fn check(entry: &str, number: u8) -> Result<(), Refusal> {
    match number {
        0 => Ok(()),
        _ => Err(Refusal::of(entry, number)),
    }
}

/// The number of an entry that reads a plan as a result: with 9 the refusal has the place.
pub(crate) fn check_plan(entry: &str, number: u8, place: usize) -> Result<(), Refusal> {
    check(entry, number).map_err(|refusal| Refusal {
        place: (number == MALFORMED).then_some(place),
        ..refusal
    })
}

/// The number of an entry that reads two plans as a result: with 9 the refusal has the place, and which plan it is in.
pub(crate) fn check_plans(entry: &str, number: u8, place: usize, malformed: Option<Source>) -> Result<(), Refusal> {
    check_plan(entry, number, place).map_err(|refusal| Refusal { malformed, ..refusal })
}
