//! The migration of chute plans: what the old rule reads, the places by that rule, and buffers of every length.

use hailfeather::plan::{migrate, migrate_into, migrated_length, rows, to_vec, Walk};
use hailfeather::{hall, limits, Refusal};

const GOOD: &[u8] = &[0x03, 0x07, 0xAC, 0x02, 0x00];
/// The same rows with an empty group in each number that has room for one.
const PADDED: &[u8] = &[0x83, 0x80, 0x00, 0x87, 0x00, 0xAC, 0x82, 0x00, 0x80, 0x80, 0x00];

fn told<T>(answer: Result<T, Refusal>) -> (u8, Option<usize>) {
    let refusal = answer.err().expect("a refusal");
    (refusal.number(), refusal.place())
}

/// The plan is migrated to this one, into a buffer of its length alone; and that one is a good plan, which is migrated to itself.
fn migrated(old: &[u8], new: &[u8]) {
    assert_eq!((migrated_length(old), migrate(old).as_deref()), (Ok(new.len()), Ok(new)), "{old:02x?}");
    for length in (0..new.len() + 3).filter(|length| *length != new.len()) {
        let mut out = vec![0xA5; length];
        assert_eq!(told(migrate_into(old, &mut out)), (9, None), "{old:02x?}");
        assert_eq!(out, vec![0xA5; length]);
    }
    let destinations: Vec<u32> = Walk::new(new).unwrap().collect();
    assert_eq!(to_vec(&destinations).as_deref(), Ok(new));
    assert_eq!(migrate(new).as_deref(), Ok(new));
    assert_eq!(rows(old).is_ok(), old == new);
}

/// Every function refuses the plan with this number and place, whatever is lent, and writes nothing.
fn refused(bad: &[u8], expected: (u8, Option<usize>)) {
    assert_eq!(told(migrated_length(bad)), expected);
    assert_eq!(told(migrate(bad)), expected);
    for length in (0..8).chain([bad.len()]) {
        let mut out = vec![0xA5; length];
        assert_eq!(told(migrate_into(bad, &mut out)), expected);
        assert_eq!(out, vec![0xA5; length]);
    }
}

#[test]
fn old_copies() {
    migrated(GOOD, GOOD);
    migrated(PADDED, GOOD);
    migrated(&[0x00], &[0x00]);
    migrated(&[0x80, 0x00], &[0x00]);
    migrated(&[0x80, 0x80, 0x00], &[0x00]);
    migrated(&[0x83, 0x00, 0x07, 0xAC, 0x02, 0x00], GOOD);
    for seven in [&[0x07][..], &[0x87, 0x00], &[0x87, 0x80, 0x00]] {
        migrated(&[&[0x01], seven].concat(), &[0x01, 0x07]);
        migrated(&[&[0x02], seven, &[0x80, 0x01]].concat(), &[0x02, 0x07, 0x80, 0x01]);
    }
    migrated(&[0x01, 0xFF, 0xFF, 0x7F], &[0x01, 0xFF, 0xFF, 0x7F]);
    migrated(&[0x01, 0x80, 0x81, 0x00], &[0x01, 0x80, 0x01]);
}

#[test]
fn as_many_rows_as_there_may_be() {
    let new = to_vec(&[127; limits::ROWS]).unwrap();
    let old = [&[0x80, 0xA0, 0x00], &[0xFF, 0x80, 0x00].repeat(limits::ROWS)[..]].concat();
    assert_eq!((old.len(), migrate(&old).as_deref()), (12_291, Ok(&new[..])));
    refused(&[&old[..], &[0x00]].concat(), (9, Some(12_291)));
    refused(&old[..12_290], (9, Some(12_290)));
}

/// The places are those of the table in docs/RULES.md, "Places", without the row for empty groups.
#[test]
fn malformed_by_the_old_rule() {
    for length in 0..PADDED.len() {
        refused(&PADDED[..length], (9, Some(length)));
    }
    for (bad, place) in [
        (&[0x80, 0x80, 0x80, 0x00][..], 2),
        (&[0x01, 0x80, 0x80, 0x80, 0x00], 3),
        (&[0x02, 0x87, 0x00, 0x80, 0x80, 0x80, 0x00], 5),
        (&[0x81, 0x20], 0),
        (&[0x81, 0xA0, 0x00], 0),
        (&[0x81, 0xA0, 0x00, 0x80, 0x80, 0x80], 0),
        (&[0xFF, 0xFF, 0x7F], 0),
        (&[0x80, 0x00, 0x00], 2),
        (&[0x01, 0x87, 0x00, 0x07], 3),
    ] {
        refused(bad, (9, Some(place)));
    }
    refused(&vec![0; limits::PLAN], (9, Some(1)));
    refused(&vec![0; limits::PLAN + 1], (5, None));
}

/// Words are those of the entry that refuses.
#[test]
fn words() {
    let whole = "the plan is malformed by the old rule too";
    assert_eq!(migrate(&[]).unwrap_err().to_string(), format!("refused 9 at byte 0: {whole}"));
    let buffer = format!("{whole}, or the migrated plan does not fill the buffer exactly");
    assert_eq!(migrate_into(GOOD, &mut []).unwrap_err().to_string(), format!("refused 9: {buffer}"));
    assert_eq!(
        migrate_into(&[], &mut []).unwrap_err().to_string(),
        format!("refused 9 at byte 0: {buffer}")
    );
}

/// A hall plan is not migrated: what it would be is read as a chute plan.
#[test]
fn not_halls() {
    let halls = [0x01, 0x01, 0x00];
    assert_eq!(hall::summary(&halls).map(|halls| halls.entries), Ok(1));
    refused(&halls, (9, Some(2)));
}
