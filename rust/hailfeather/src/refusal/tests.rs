//! Tests of the refusals' words, numbers and places.

use super::words::{lines, WORDS};
use super::*;
use crate::ffi;
use std::collections::HashSet;

#[test]
fn every_line_is_found() {
    assert_eq!(lines().count(), WORDS.lines().count());
    for line in WORDS.lines() {
        let (entry, number, words) = lines()
            .find(|(entry, number, _)| line.starts_with(&format!("{entry} {number} ")))
            .unwrap();
        assert_eq!(line, format!("{entry} {number} {words}"));
        assert_eq!(check(entry, number), Err(Refusal::without_place(number, words)));
    }
}

#[test]
fn a_reason_has_its_number() {
    for (_, number, words) in lines() {
        assert_eq!(Refusal::without_place(number, words).reason() as u8, number);
    }
    assert!((1..).zip(REASONS).all(|(number, reason)| reason as u8 == number));
}

#[test]
fn the_archive_is_of_this_version() {
    // SAFETY: the function takes nothing.
    assert_eq!(unsafe { ffi::hf_version() }, ffi::VERSION);
}

#[test]
fn an_entry_has_its_own_refusals_in_order() {
    for (entry, ..) in lines() {
        let own: Vec<_> = lines().filter(|line| line.0 == entry).map(|(_, number, words)| (number, words)).collect();
        let found: Vec<_> = refusals(entry).map(|refusal| (refusal.number(), refusal.words())).collect();
        assert_eq!(found, own);
        assert!(found.windows(2).all(|pair| pair[0].0 < pair[1].0), "{entry}");
    }
    for name in ["", "kmac", "kmac256 ", "kmac2567", "KMAC256"] {
        assert_eq!(refusals(name).count(), 0, "{name}");
    }
}

#[test]
fn an_io_error_keeps_the_refusal() {
    for (entry, number, words) in lines() {
        let error = io::Error::from(check(entry, number).unwrap_err());
        let data = [8, 9].contains(&number);
        assert_eq!(error.kind() == io::ErrorKind::InvalidData, data);
        assert_eq!(error.kind() == io::ErrorKind::InvalidInput, !data);
        assert_eq!(error.to_string(), format!("refused {number}: {words}"));
        assert_eq!(
            error.get_ref().and_then(|inner| inner.downcast_ref()),
            Some(&Refusal::without_place(number, words))
        );
    }
}

#[test]
#[should_panic(expected = "answered kmac256 with 4, which refusals.txt does not list")]
fn a_number_without_words_panics() {
    let _ = check("kmac256", 4);
}

/// The entries that read one plan.
const READERS: [&str; 8] = [
    "plan_read",
    "plan_destination",
    "plan_migrated_length",
    "plan_migrate",
    "plan_start",
    "hall_read",
    "hall_destination",
    "hall_read_into",
];

#[test]
fn a_place_comes_with_9_alone() {
    for entry in READERS {
        for listed in refusals(entry) {
            let (number, words) = (listed.number(), listed.words());
            assert_eq!((listed.place(), listed.malformed()), (None, None), "{entry}");
            for place in [0, 3, 65_536] {
                let refusal = check_plan(entry, number, place).unwrap_err();
                let (told, at) = if number == 9 {
                    (Some(place), format!(" at byte {place}"))
                } else {
                    (None, String::new())
                };
                assert_eq!((refusal.place(), refusal.malformed()), (told, None), "{entry}");
                assert_eq!(refusal.to_string(), format!("refused {number}{at}: {words}"));
                assert_eq!(refusal == listed, number != 9);
            }
        }
        assert_eq!(check_plan(entry, 0, 0), Ok(()));
        assert!(refusals(entry).any(|refusal| refusal.number() == 9), "{entry}");
    }
}

#[test]
fn of_two_plans_one_is_named() {
    for (plan, name) in [(Source::Site, "site"), (Source::House, "house")] {
        let refusal = check_plans("plan_row", 9, 3, Some(plan)).unwrap_err();
        assert_eq!((refusal.number(), refusal.place(), refusal.malformed()), (9, Some(3), Some(plan)));
        assert_eq!(
            refusal.to_string(),
            format!("refused 9 at byte 3 of the {name} plan: the plan is malformed")
        );
    }
    for number in [5, 10] {
        let refusal = check_plans("plan_row", number, 0, None).unwrap_err();
        assert_eq!((refusal.number(), refusal.place(), refusal.malformed()), (number, None, None));
        assert_eq!(refusal.to_string(), format!("refused {number}: {}", refusal.words()));
    }
    assert_eq!(check_plans("plan_row", 0, 0, None), Ok(()));
}

/// A refusal at another place, or of the other plan, is another refusal.
#[test]
fn places_tell_refusals_apart() {
    let refusals: HashSet<Refusal> = [(3, Source::Site), (4, Source::Site), (3, Source::House), (3, Source::Site)]
        .map(|(place, plan)| check_plans("plan_row", 9, place, Some(plan)).unwrap_err())
        .into();
    assert_eq!(refusals.len(), 3);
}
