//! The constants of `limits`: what has just that length is accepted, and one more (of the tag's lengths also one less) is refused.

use hailfeather::hall::{self, Summary, CHUTE, HALL};
use hailfeather::limits::{CHUTES, DESTINATION, LEVELS, MESSAGE, OUTPUT, PLAN, ROWS, SEALING_KEY, SEED, SHORT, STRING, TAG};
use hailfeather::plan;
use hailfeather::{cshake256, kmac256, kmacxof256, open, seal, Generator, KmacGenerator, Refusal, Session};

/// The numbers that a call answers at the limit and one past it.
fn sides<T>(limit: usize, call: impl Fn(&[u8]) -> Result<T, Refusal>) -> [u8; 2] {
    let bytes = vec![0; limit + 1];
    [&bytes[..limit], &bytes[..]].map(|argument| number(call(argument)))
}

fn number<T>(answer: Result<T, Refusal>) -> u8 {
    answer.map_or_else(|refusal| refusal.number(), |_| 0)
}

#[test]
fn names_customisations_keys_and_ivs() {
    assert_eq!(sides(STRING, |name| cshake256(name, b"", b"", &mut [0])), [0, 3]);
    assert_eq!(sides(STRING, |customisation| cshake256(b"", customisation, b"", &mut [0])), [0, 3]);
    assert_eq!(sides(STRING, |key| kmac256(key, b"", b"", &mut [0])), [0, 2]);
    assert_eq!(sides(STRING, |key| kmacxof256(key, b"", b"", &mut [0])), [0, 2]);
    assert_eq!(sides(STRING, |customisation| Session::cshake256(b"", customisation)), [0, 3]);
    assert_eq!(sides(STRING, |key| Session::kmacxof256(key, b"")), [0, 2]);
    assert_eq!(sides(STRING, |iv| seal(&[0; 32], iv, b"", b"", &mut [], &mut [0; 16])), [0, 3]);
}

#[test]
fn messages_and_outputs() {
    assert_eq!(sides(MESSAGE, |message| cshake256(b"", b"", message, &mut [0])), [0, 5]);
    assert_eq!(sides(MESSAGE, |message| Session::cshake256(b"", b"").unwrap().take(message)), [0, 5]);
    assert_eq!(sides(MESSAGE, |label| seal(&[0; 32], b"", b"", label, &mut [], &mut [0; 16])), [0, 5]);
    assert_eq!(sides(OUTPUT, |out| cshake256(b"", b"", b"", &mut out.to_vec())), [0, 6]);
    assert_eq!(sides(OUTPUT, |out| Session::cshake256(b"", b"").unwrap().give(&mut out.to_vec())), [0, 6]);
}

/// The limits of a generator's type.
macro_rules! generator_limits {
    ($test:ident, $generator:ident) => {
        #[test]
        fn $test() {
            let seeded = || {
                let mut generator = $generator::new();
                generator.seed(b"a seed for a test", b"").unwrap();
                generator
            };
            assert_eq!(sides(SEED, |seed| $generator::new().seed(seed, b"")), [0, 5]);
            assert_eq!(sides(SHORT, |personalisation| $generator::new().seed(b"", personalisation)), [0, 3]);
            assert_eq!(sides(SHORT, |additional| seeded().draw(additional, &mut [0])), [0, 3]);
            assert_eq!(sides(OUTPUT, |out| seeded().draw(b"", &mut out.to_vec())), [0, 6]);
        }
    };
}

generator_limits!(generators, Generator);
generator_limits!(kmac_generators, KmacGenerator);

#[test]
fn sealing_keys_and_tags() {
    assert_eq!(sides(SEALING_KEY, |key| seal(key, b"", b"", b"", &mut [], &mut [0; 16])), [0, 2]);
    assert_eq!(sides(SEALING_KEY - 1, |key| seal(key, b"", b"", b"", &mut [], &mut [0; 16])), [2, 0]);
    assert_eq!(sides(*TAG.end(), |tag| seal(&[0; 32], b"", b"", b"", &mut [], &mut tag.to_vec())), [0, 7]);
    assert_eq!(
        sides(*TAG.start() - 1, |tag| seal(&[0; 32], b"", b"", b"", &mut [], &mut tag.to_vec())),
        [7, 0]
    );
    assert_eq!(sides(*TAG.end(), |tag| open(&[0; 32], b"", b"", b"", &mut [], tag)), [8, 7]);
    assert_eq!(sides(*TAG.start() - 1, |tag| open(&[0; 32], b"", b"", b"", &mut [], tag)), [7, 8]);
}

/// No plan of 65,536 bytes is well formed, since 4,096 rows take at most 12,290: at the limit the answer is 9.
#[test]
fn plans() {
    assert_eq!(sides(PLAN, plan::rows), [9, 5]);
    assert_eq!(sides(ROWS, |rows| plan::to_vec(&vec![DESTINATION; rows.len()])), [0, 9]);
    let longest = plan::to_vec(&[DESTINATION; ROWS]).unwrap();
    assert_eq!((longest.len(), plan::rows(&longest)), (12_290, Ok(4_096)));
    assert_eq!(number(plan::length(&[DESTINATION])), 0);
    assert_eq!(number(plan::length(&[DESTINATION + 1])), 9);
}

/// Halls in one another, the innermost of them empty: with the outermost level so many levels.
fn levels(count: usize) -> Result<Vec<u8>, Refusal> {
    let values: Vec<u32> = (2..=count as u32).map(|level| u32::from(level < count as u32)).collect();
    hall::to_vec(1, &vec![HALL; count - 1], &values)
}

/// So many empty halls, and a chute with a destination.
fn halls_and_chute(halls: usize, destination: u32) -> Result<Vec<u8>, Refusal> {
    let (mut kinds, mut values) = (vec![HALL; halls], vec![0; halls]);
    kinds.push(CHUTE);
    values.push(destination);
    hall::to_vec(halls as u64 + 1, &kinds, &values)
}

#[test]
fn hall_plans() {
    assert_eq!([levels(2), levels(LEVELS), levels(LEVELS + 1)].map(number), [0, 0, 9]);
    assert_eq!(
        sides(CHUTES, |kinds| hall::to_vec(kinds.len() as u64, kinds, &vec![DESTINATION; kinds.len()])),
        [0, 9]
    );
    assert_eq!(
        [DESTINATION, DESTINATION + 1].map(|destination| number(halls_and_chute(0, destination))),
        [0, 9]
    );
    assert_eq!([0, 1].map(|more| number(hall::length((1 << 32) * more, &[], &[]))), [0, 9]);
    let longest = halls_and_chute(32_765, 128).unwrap();
    let (outer, entries) = (32_766, 32_766);
    assert_eq!(
        (longest.len(), hall::summary(&longest)),
        (PLAN, Ok(Summary { outer, entries, chutes: 1 }))
    );
    assert_eq!(number(halls_and_chute(32_765, 16_384)), 5);
    assert_eq!(sides(PLAN, hall::summary), [9, 5]);
    assert_eq!(sides(PLAN, |out| hall::write(0, &[], &[], &mut out.to_vec())), [9, 5]);
}
