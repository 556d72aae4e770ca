//! The refusals in words, as refusals.txt lists them.

use super::Refusal;

/// One line for each refusal that an entry has: the entry, the number, the words.
pub(super) const WORDS: &str = include_str!("../../refusals.txt");

/// All refusals that an entry of the library has, by rising number: none for a name that is no entry's. [`Refusal`] lists the entries.
///
/// ```
/// let numbers: Vec<u8> = hailfeather::refusals("draw").map(|refusal| refusal.number()).collect();
/// assert_eq!(numbers, [1, 3, 6]);
/// assert_eq!(hailfeather::refusals("no entry").count(), 0);
/// ```
pub fn refusals(entry: &str) -> impl Iterator<Item = Refusal> + '_ {
    lines()
        .filter(move |line| line.0 == entry)
        .map(|(_, number, words)| Refusal::without_place(number, words))
}

/// The lines of refusals.txt, taken apart.
pub(super) fn lines() -> impl Iterator<Item = (&'static str, u8, &'static str)> {
    WORDS.lines().filter_map(|line| {
        let mut parts = line.splitn(3, ' ');
        Some((parts.next()?, parts.next()?.parse().ok()?, parts.next()?))
    })
}
