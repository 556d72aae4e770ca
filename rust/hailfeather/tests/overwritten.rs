//! A session and a generator of either kind hold nothing but zeros where they were when they are dropped.

use std::mem::MaybeUninit;

use hailfeather::{Generator, KmacGenerator, Session};

/// How many of a value's first `length` bytes are not 0 before it is dropped, and after.
fn not_zero<T>(value: T, length: usize) -> [usize; 2] {
    let mut place = MaybeUninit::new(value);
    let bytes = place.as_mut_ptr().cast::<u8>();
    // SAFETY: the bytes are those of plain fields without a gap, and dropping a value leaves its memory in place.
    let count = || (0..length).filter(|at| unsafe { bytes.add(*at).read_volatile() } != 0).count();
    let before = count();
    // SAFETY: the value is there, and is not used as one again.
    unsafe { place.as_mut_ptr().drop_in_place() };
    [before, count()]
}

#[test]
fn a_session() {
    let mut session = Session::kmacxof256(b"a key", b"").unwrap();
    session.take(&[0x5A; 200]).unwrap();
    session.give(&mut [0; 3]).unwrap();
    let [before, after] = not_zero(session, 235);
    assert!(before > 150, "{before} bytes are not 0");
    assert_eq!(after, 0);
}

fn seeded_generator_is_overwritten<T>(generator: T) {
    let [before, after] = not_zero(generator, 65);
    assert!(before > 50, "{before} bytes are not 0");
    assert_eq!(after, 0);
}

#[test]
fn a_generator() {
    let mut generator = Generator::new();
    generator.seed(b"a seed for a test", b"").unwrap();
    seeded_generator_is_overwritten(generator);
}

#[test]
fn a_kmac_generator() {
    let mut generator = KmacGenerator::new();
    generator.seed(b"a seed for a test", b"").unwrap();
    seeded_generator_is_overwritten(generator);
}
