//! The count of runs, which an accepted call answers.

use super::{check, Refusal};
use crate::ffi;

/// The number of permutation runs that an accepted call takes by its definition, for planning how long calls take.
///
/// ```
/// use hailfeather::{kmacxof256, Runs};
/// assert_eq!(kmacxof256(&[0; 32], b"", b"", &mut [0; 136])?, Runs(3));
/// assert_eq!(kmacxof256(&[0; 32], b"", b"", &mut [0; 137])?, Runs(4));
/// # Ok::<(), hailfeather::Refusal>(())
/// ```
#[derive(Clone, Copy, Debug, PartialEq, Eq, PartialOrd, Ord, Hash)]
pub struct Runs(pub usize);

/// The answer of an entry that counts its runs.
pub(crate) fn counted(entry: &str, outcome: ffi::hf_outcome) -> Result<Runs, Refusal> {
    check(entry, outcome.number).map(|()| Runs(outcome.runs))
}
