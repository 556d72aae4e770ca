//! The entries that a single line tries whole, and how an answer is compared.

use std::fmt::Display;

use hailfeather::plan::{self, Source};
use hailfeather::{open, seal, Refusal, Runs};

use super::bytes::{bytes, lanes, list, number};
use super::lent::Lent;

/// The refusal, if the answer is one; or what is wrong with the answer.
pub type Compared = Result<Option<Refusal>, String>;
type Hash = fn(&[u8], &[u8], &[u8], &mut [u8]) -> Result<Runs, Refusal>;

/// An answer as the file shows it: the number and the value, in whose place `nothing` stands on a refusal.
fn shown<T: Display>(answer: Result<T, Refusal>, nothing: &str) -> String {
    answer.map_or_else(|refusal| format!("{} {nothing}", refusal.number()), |value| format!("0 {value}"))
}

/// The place of a refusal as the file shows it: 0 where there is none, as in every other answer on plans.
pub fn place_of<T>(answer: &Result<T, Refusal>) -> usize {
    answer.as_ref().err().and_then(|refusal| refusal.place()).unwrap_or(0)
}

/// The number and the count of runs.
pub fn runs_of(answer: Result<Runs, Refusal>) -> String {
    shown(answer.map(|runs| runs.0), "0")
}

/// The number alone.
pub fn number_of<T>(answer: &Result<T, Refusal>) -> String {
    answer.as_ref().map_or_else(|refusal| refusal.number(), |_| 0).to_string()
}

pub fn same(expected: &[&str], found: String) -> Result<(), String> {
    match expected.join(" ") == found {
        true => Ok(()),
        false => Err(format!("the answer is {found}")),
    }
}

/// Compares an answer on plans of a number, a value and a place.
pub fn value<T: Display>(found: Result<T, Refusal>, nothing: &str, answer: &[&str]) -> Compared {
    let (refusal, place) = (found.as_ref().err().copied(), place_of(&found));
    same(answer, format!("{} {place}", shown(found, nothing))).map(|()| refusal)
}

/// Compares an answer on plans of a number and a place.
pub fn number_and_place<T>(found: &Result<T, Refusal>, answer: [&str; 2]) -> Compared {
    same(&answer, format!("{} {}", number_of(found), place_of(found)))?;
    Ok(found.as_ref().err().copied())
}

pub fn permuted([before]: [&str; 1], [after]: [&str; 1]) -> Compared {
    let mut state = lanes(before);
    hailfeather::keccak_p(&mut state);
    match state == lanes(after) {
        true => Ok(None),
        false => Err(format!("the lanes are {state:016x?}")),
    }
}

pub fn hash(function: Hash, [first, customisation, message, length]: [&str; 4], [refusal, runs, output]: [&str; 3]) -> Compared {
    let mut out = Lent::new(number(length));
    let found = function(&bytes(first), &bytes(customisation), &bytes(message), out.middle());
    same(&[refusal, runs], runs_of(found))?;
    out.check(found.is_err(), output)?;
    Ok(found.err())
}

pub fn sealed([key, iv, text, label, length, tag_length]: [&str; 6], [refusal, runs, output, tag]: [&str; 4]) -> Compared {
    let (mut out, mut lent_tag) = (Lent::new(number(length)), Lent::new(number(tag_length)));
    let found = seal(&bytes(key), &bytes(iv), &bytes(text), &bytes(label), out.middle(), lent_tag.middle());
    same(&[refusal, runs], runs_of(found))?;
    out.check(found.is_err(), output)?;
    lent_tag.check(found.is_err(), tag)?;
    Ok(found.err())
}

pub fn opened([key, iv, ciphertext, label, length, tag]: [&str; 6], [refusal, runs, output]: [&str; 3]) -> Compared {
    let mut out = Lent::new(number(length));
    let found = open(&bytes(key), &bytes(iv), &bytes(ciphertext), &bytes(label), out.middle(), &bytes(tag));
    same(&[refusal, runs], runs_of(found))?;
    out.check(found.is_err(), output)?;
    Ok(found.err())
}

/// The plan that the file means by 1 or 2, and by 0 neither.
fn source_of(plan: Option<Source>) -> u8 {
    match plan {
        None => 0,
        Some(Source::Site) => 1,
        Some(Source::House) => 2,
    }
}

/// The row also has to be a part of the plan that it came from, where it says.
pub fn row([site, house, chute]: [&str; 3], answer: &[&str]) -> Compared {
    let (site, house) = (bytes(site), bytes(house));
    let found = plan::row(&site, &house, number(chute));
    let malformed = source_of(found.as_ref().err().and_then(|refusal| refusal.malformed()));
    let fields = found.map(|row| {
        let plan = if row.source == Source::Site { &site } else { &house };
        assert!(
            std::ptr::eq(row.bytes, &plan[row.start..row.start + row.bytes.len()]),
            "the row is no part of its plan"
        );
        format!("{} {} {} {malformed}", source_of(Some(row.source)), row.start, row.bytes.len())
    });
    value(fields, &format!("0 0 0 {malformed}"), answer)
}

/// A plan that `migrate_into` accepts also has to be what `migrate` makes of it.
pub fn migrated([plan, length]: [&str; 2], [refusal, output, place]: [&str; 3]) -> Compared {
    let (plan, mut out) = (bytes(plan), Lent::new(number(length)));
    let found = plan::migrate_into(&plan, out.middle());
    let compared = number_and_place(&found, [refusal, place])?;
    if found.is_ok() {
        assert_eq!(plan::migrate(&plan).as_deref(), Ok(&*out.middle()));
    }
    out.check(found.is_err(), output)?;
    Ok(compared)
}

/// Rows that `write` accepts also have to be what `to_vec` makes of them.
pub fn written([rows, length]: [&str; 2], [refusal, output, place]: [&str; 3]) -> Compared {
    let (rows, mut out) = (list(rows), Lent::new(number(length)));
    let found = plan::write(&rows, out.middle());
    let compared = number_and_place(&found, [refusal, place])?;
    if found.is_ok() {
        assert_eq!(plan::to_vec(&rows).as_deref(), Ok(&*out.middle()));
    }
    out.check(found.is_err(), output)?;
    Ok(compared)
}
