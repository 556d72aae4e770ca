//! The session and the walk that later lines go on with.

use std::io::{self, Read, Write};

use hailfeather::plan::Walk;
use hailfeather::{Refusal, Session};

use super::bytes::{bytes, number};
use super::lent::Lent;
use super::one_call::{number_and_place, number_of, same, Compared};

type Start = fn(&[u8], &[u8]) -> Result<Session, Refusal>;

#[derive(Default)]
pub struct Sessions {
    /// The last session, or the refusal of its start.
    last: Option<Result<Session, Refusal>>,
    started: usize,
    /// How many lines ask a session that could not start: the package has none.
    pub unreachable: usize,
}

impl Sessions {
    pub fn start(&mut self, function: Start, [first, customisation]: [&str; 2], answer: [&str; 1]) -> Compared {
        self.started += 1;
        let session = self.last.insert(function(&bytes(first), &bytes(customisation)));
        same(&answer, number_of(session))?;
        Ok(session.as_ref().err().copied())
    }

    /// The session that goes on, and whether through io::Write and io::Read, as every second one does; None for one that could not start.
    fn running(&mut self) -> Result<Option<(&mut Session, bool)>, String> {
        let through_io = self.started % 2 == 0;
        let session = self.last.as_mut().ok_or("no session line stands before")?;
        self.unreachable += usize::from(session.is_err());
        Ok(session.as_mut().ok().map(|session| (session, through_io)))
    }

    pub fn take(&mut self, [piece]: [&str; 1], answer: [&str; 1]) -> Compared {
        let Some((session, through_io)) = self.running()? else {
            return Ok(None);
        };
        let piece = bytes(piece);
        let found = match through_io {
            true => session.write(&piece).map(|length| assert_eq!(length, piece.len())).map_err(inside),
            false => Session::take(session, &piece),
        };
        same(&answer, number_of(&found))?;
        Ok(found.err())
    }

    /// A read has no refusal 6, so an ask that is to be refused is always made by `give`.
    pub fn give(&mut self, [length]: [&str; 1], [refusal, output]: [&str; 2]) -> Compared {
        let Some((session, through_io)) = self.running()? else {
            return Ok(None);
        };
        let mut out = Lent::new(number(length));
        let found = match through_io && refusal == "0" {
            true => session
                .read(out.middle())
                .map(|given| assert_eq!(given, out.middle().len()))
                .map_err(inside),
            false => session.give(out.middle()),
        };
        same(&[refusal], number_of(&found))?;
        out.check(found.is_err(), output)?;
        Ok(found.err())
    }
}

/// The refusal that an io::Error has inside.
fn inside(error: io::Error) -> Refusal {
    *error
        .get_ref()
        .and_then(|inner| inner.downcast_ref())
        .expect("a Refusal inside the io::Error")
}

#[derive(Default)]
pub struct Walks {
    /// The last walk, or the refusal of its plan.
    last: Option<Result<Walk<'static>, Refusal>>,
}

impl Walks {
    /// The plan is kept for good, since the walk borrows it. Where the walk stands it keeps to itself.
    pub fn begin(&mut self, [plan]: [&str; 1], [number, _at, place]: [&str; 3]) -> Compared {
        let walk = self.last.insert(Walk::new(bytes(plan).leak()));
        if walk.as_ref().is_ok_and(|walk| walk.len() != walk.clone().count()) {
            return Err("the walk's length is not the number of its rows".into());
        }
        number_and_place(walk, [number, place])
    }

    /// The package has no walk of a refused plan, so there the answer is made of the plan's refusal.
    pub fn step(&mut self, [number, destination, _at, place]: [&str; 4]) -> Compared {
        let found = match self.last.as_mut().ok_or("no plan_start stands before")? {
            Ok(walk) => walk.next().map_or("10 0 0".into(), |destination| format!("0 {destination} 0")),
            Err(refusal) => format!("{} 0 {}", refusal.number(), refusal.place().unwrap_or(0)),
        };
        same(&[number, destination, place], found).map(|()| None)
    }
}
