//! The hall plan's entries.

use hailfeather::hall::{self, Halls, Summary};
use hailfeather::Refusal;

use super::bytes::{bytes, list, number};
use super::lent::Lent;
use super::one_call::{number_and_place, value, Compared};

/// Compares what a hall plan has.
pub fn summary(found: Result<Summary, Refusal>, answer: &[&str]) -> Compared {
    let fields = found.map(|halls| format!("{} {} {}", halls.entries, halls.outer, halls.chutes));
    value(fields, "0 0 0", answer)
}

/// Lists that `read_into` fills also have to be those of `to_halls`.
pub fn read_into([plan, kinds_length, values_length]: [&str; 3], [refusal, entries, outer, chutes, kinds, values, place]: [&str; 7]) -> Compared {
    let (plan, mut lent_kinds, mut lent_values) = (
        bytes(plan),
        Lent::<u8>::new(number(kinds_length)),
        Lent::<u32>::new(number(values_length)),
    );
    let found = hall::read_into(&plan, lent_kinds.middle(), lent_values.middle());
    if let Ok(Summary { outer, .. }) = found {
        let (kinds, values) = (lent_kinds.middle().to_vec(), lent_values.middle().to_vec());
        assert_eq!(hall::to_halls(&plan), Ok(Halls { outer, kinds, values }));
    }
    lent_kinds.check_list(found.is_err(), kinds)?;
    lent_values.check_list(found.is_err(), values)?;
    summary(found, &[refusal, entries, outer, chutes, place])
}

pub fn length([outer, kinds, values]: [&str; 3], answer: &[&str]) -> Compared {
    value(hall::length(number(outer), &list::<u8>(kinds), &list(values)), "0", answer)
}

/// Lists that `write` accepts also have to be what `to_vec` makes of them.
pub fn written([outer, kinds, values, length]: [&str; 4], [refusal, output, place]: [&str; 3]) -> Compared {
    let (outer, kinds, values, mut out) = (number(outer), list::<u8>(kinds), list::<u32>(values), Lent::new(number(length)));
    let found = hall::write(outer, &kinds, &values, out.middle());
    let compared = number_and_place(&found, [refusal, place])?;
    if found.is_ok() {
        assert_eq!(hall::to_vec(outer, &kinds, &values).as_deref(), Ok(&*out.middle()));
    }
    out.check(found.is_err(), output)?;
    Ok(compared)
}
