//! Where plans are malformed: both sides of each row of the table in docs/RULES.md, "Places", through every function that reads a plan.

use hailfeather::plan::{self, Source, Walk};
use hailfeather::{hall, limits, Refusal};

const GOOD: &[u8] = &[0x03, 0x07, 0xAC, 0x02, 0x00];
const HALLS: &[u8] = &[0x02, 0x01, 0x02, 0x00, 0x07, 0x00, 0xAC, 0x02, 0x00, 0x00];

/// What a refusal tells: its number, its place, and which of two plans is malformed.
fn told<T>(answer: Result<T, Refusal>) -> (u8, Option<usize>, Option<Source>) {
    let refusal = answer.err().expect("a refusal");
    (refusal.number(), refusal.place(), refusal.malformed())
}

/// Every function refuses the chute plan with 9 and this place, and of two plans names it.
fn malformed(bad: &[u8], place: usize) {
    let (long, at) = (vec![0; limits::PLAN + 1], Some(place));
    assert_eq!(told(plan::rows(bad)), (9, at, None), "{bad:02x?}");
    assert_eq!(told(Walk::new(bad)), (9, at, None), "{bad:02x?}");
    for chute in [0, 1, u64::MAX] {
        assert_eq!(told(plan::destination(bad, chute)), (9, at, None), "{bad:02x?}");
        assert_eq!(told(plan::row(bad, GOOD, chute)), (9, at, Some(Source::Site)), "{bad:02x?}");
        assert_eq!(told(plan::row(GOOD, bad, chute)), (9, at, Some(Source::House)), "{bad:02x?}");
        assert_eq!(told(plan::row(bad, &GOOD[..3], chute)), (9, at, Some(Source::Site)), "{bad:02x?}");
        assert_eq!(told(plan::row(&GOOD[..3], bad, chute)), (9, Some(3), Some(Source::Site)), "{bad:02x?}");
        assert_eq!(told(plan::row(bad, &long, chute)), (5, None, None), "{bad:02x?}");
        assert_eq!(told(plan::row(&long, bad, chute)), (5, None, None), "{bad:02x?}");
    }
}

/// Every function refuses the hall plan with 9 and this place, whatever is lent.
fn malformed_halls(bad: &[u8], place: usize) {
    let expected = (9, Some(place), None);
    assert_eq!(told(hall::summary(bad)), expected, "{bad:02x?}");
    assert_eq!(told(hall::to_halls(bad)), expected, "{bad:02x?}");
    for count in 0..9 {
        assert_eq!(told(hall::destination(bad, count as u64)), expected, "{bad:02x?}");
        assert_eq!(
            told(hall::read_into(bad, &mut vec![0; count], &mut vec![0; 8 - count])),
            expected,
            "{bad:02x?}"
        );
    }
}

/// The beginning of a plan, and bytes after it.
fn followed(beginning: &[u8], bytes: &[u8]) -> Vec<u8> {
    [beginning, bytes].concat()
}

#[test]
fn chute_plans() {
    for length in 0..GOOD.len() {
        malformed(&GOOD[..length], length);
    }
    malformed(&[0x80, 0x80], 2);
    malformed(&[0x80, 0x80, 0x80], 2);
    malformed(&[0x01, 0x80, 0x80], 3);
    malformed(&[0x01, 0x80, 0x80, 0x80, 0x00], 3);
    malformed(&[0x81, 0x20], 0);
    malformed(&followed(&[0x81, 0x20], &[0; 4_097]), 0);
    malformed(&followed(&[0x80, 0x20], &[0; 4_097]), 4_098);
    malformed(&[0x00, 0x00], 1);
    malformed(&followed(GOOD, &[0x80]), 5);
    malformed(&vec![0; limits::PLAN], 1);
    for (good, rows) in [(GOOD, 3), (&[0x00], 0), (&[0x01, 0x80, 0x01], 1), (&[0x01, 0x80, 0x80, 0x01], 1)] {
        assert_eq!(plan::rows(good), Ok(rows));
    }
    assert_eq!(plan::rows(&followed(&[0x80, 0x20], &[0; 4_096])), Ok(4_096));
}

/// A number in more groups than it needs has the place of its last group, whatever its value breaks.
#[test]
fn padded_numbers() {
    malformed(&[0x80, 0x00], 1);
    malformed(&[0x80, 0x80, 0x00], 2);
    malformed(&[0x83, 0x00, 0x07, 0xAC, 0x02, 0x00], 1);
    malformed(&[0x01, 0x80, 0x00], 2);
    malformed(&[0x01, 0x87, 0x00], 2);
    malformed(&[0x01, 0x87, 0x80, 0x00], 3);
    malformed(&[0x01, 0x80, 0x80, 0x00], 3);
    malformed(&[0x03, 0x07, 0xAC, 0x82, 0x00, 0x00], 4);
    malformed(&[0x81, 0xA0, 0x00], 2); // 4,097 rows
    malformed(&[0x01, 0x87, 0x00, 0x07], 2); // and a byte after the last row
    for number in [&[0x80, 0x00][..], &[0x80, 0x80, 0x00], &[0x81, 0x00], &[0x87, 0x80, 0x00]] {
        malformed_halls(number, number.len() - 1);
        malformed_halls(&followed(&[0x01], number), number.len()); // a kind
        malformed_halls(&followed(&[0x01, 0x00], number), number.len() + 1); // a destination
        malformed_halls(&followed(&[0x01, 0x01], number), number.len() + 1); // a hall's number of entries
    }
    malformed_halls(&[0x01, 0x82, 0x00, 0x00], 2); // no kind either
    malformed_halls(&followed(&[1; 15], &[0x81, 0x00, 0x00]), 16); // a hall beyond the eighth level
    malformed_halls(&followed(&followed(&[0x81, 0x20], &[0; 2 * 4_096]), &[0x80, 0x00, 0x00]), 8_195); // a chute beyond the 4,096th
    for good in [&[0x01, 0x00, 0x80, 0x01][..], &[0x01, 0x00, 0x80, 0x80, 0x01], &[0x01, 0x00, 0x00]] {
        assert_eq!(hall::summary(good).map(|halls| halls.chutes), Ok(1));
    }
}

#[test]
fn hall_plans() {
    for length in 0..HALLS.len() {
        malformed_halls(&HALLS[..length], length);
    }
    malformed_halls(&[0x01, 0x80, 0x80, 0x80], 3);
    malformed_halls(&[0x01, 0x00, 0x80, 0x80, 0x80, 0x00], 4);
    malformed_halls(&[0x00, 0x00], 1);
    malformed_halls(&followed(HALLS, &[0x00]), 10);
    malformed_halls(&[0x01, 0x02, 0x00], 1);
    malformed_halls(&[0x02, 0x00, 0x07, 0x82, 0x80, 0x01, 0x00], 3);
    let eight = [1; 15]; // eight levels, each with an entry, of which the last is still to come
    assert_eq!(hall::summary(&followed(&eight, &[0x00, 0x07])).map(|halls| halls.chutes), Ok(1));
    for entry in [&[0x01, 0x00][..], &[0x01], &[0x01, 0x80, 0x00], &[0x01, 0x80, 0x80, 0x80]] {
        malformed_halls(&followed(&eight, entry), 15);
    }
    let full = followed(&[0x81, 0x20], &[0; 2 * 4_096]); // 4,097 entries, of which 4,096 are chutes, and the last is still to come
    assert_eq!(hall::summary(&followed(&full, &[0x01, 0x00])).map(|halls| halls.chutes), Ok(4_096));
    for entry in [&[0x00, 0x00][..], &[0x00], &[0x00, 0x80, 0x00], &[0x00, 0x80, 0x80, 0x80]] {
        malformed_halls(&followed(&full, entry), full.len());
    }
}

/// The first breach in reading order counts, and a number is judged once it is read.
#[test]
fn two_breaches() {
    malformed(&[0x02, 0x80, 0x80, 0x80, 0x80], 3);
    malformed(&[0x02, 0x80, 0x80, 0x01, 0x80], 5);
    malformed(&[0x02, 0x80, 0x80, 0x00, 0x80], 3);
    malformed(&[0x02, 0x80, 0x80, 0x80, 0x80, 0x00], 3);
    malformed(&[0x01, 0x80, 0x80, 0x80, 0x07, 0x07], 3);
    malformed(&[0x81, 0x20, 0x80, 0x80, 0x80], 0);
    malformed(&[0x81, 0xA0], 2);
    malformed(&[0xFF, 0xFF, 0xFF, 0x7F], 2);
    malformed_halls(&[0x01, 0x02, 0x80], 1);
    malformed_halls(&[0x01, 0x82], 2);
    malformed_halls(&[0x03, 0x02, 0x00, 0x00, 0x80, 0x80, 0x80], 1);
    malformed_halls(&[0x03, 0x00, 0x80, 0x80, 0x80, 0x02, 0x00], 4);
    malformed_halls(&[0x02, 0x00, 0x07, 0x03, 0x00, 0x09], 3);
}

/// With 9 for lists of the wrong length, with 9 of what measures or writes, and with every other number there is no place.
#[test]
fn without_a_breach() {
    let long = vec![0; limits::PLAN + 1];
    for (kinds, values) in [(3, 4), (4, 3), (3, 3), (5, 5), (0, 0)] {
        assert_eq!(told(hall::read_into(HALLS, &mut vec![0; kinds], &mut vec![0; values])), (9, None, None));
    }
    assert_eq!(told(plan::rows(&long)), (5, None, None));
    assert_eq!(told(Walk::new(&long)), (5, None, None));
    assert_eq!(told(hall::summary(&long)), (5, None, None));
    assert_eq!(told(hall::read_into(&long, &mut [], &mut [])), (5, None, None));
    assert_eq!(told(plan::destination(GOOD, 4)), (10, None, None));
    assert_eq!(told(plan::row(GOOD, GOOD, 4)), (10, None, None));
    assert_eq!(told(hall::destination(HALLS, 4)), (10, None, None));
    assert_eq!(told(plan::length(&[2_097_152])), (9, None, None));
    assert_eq!(told(plan::write(&[7], &mut [0; 3])), (9, None, None));
    assert_eq!(told(plan::to_vec(&[0; 4_097])), (9, None, None));
    assert_eq!(told(plan::migrate_into(GOOD, &mut [0; 4])), (9, None, None));
    assert_eq!(told(plan::migrate(&long)), (5, None, None));
    assert_eq!(told(hall::length(1, &[2], &[0])), (9, None, None));
    assert_eq!(told(hall::write(0, &[], &[], &mut [0; 2])), (9, None, None));
    assert_eq!(told(hall::write(0, &[], &[], &mut long.clone())), (5, None, None));
}
