//! Rows in text, as `plan report` prints them and people type them.

use crate::lines::Listing;
use hailfeather::limits;

/// The destinations that a text lists.
#[derive(Default)]
pub struct Rows(pub Vec<u32>);

impl Listing for Rows {
    const COUNT: &'static str = "rows";
    const LINE: &'static str = "it has to be a destination, or a chute and its destination";
    const MOST: usize = limits::ROWS;

    fn chutes(&self) -> usize {
        self.0.len()
    }

    /// Rows have one level, however they are indented.
    fn level(&self, _indentation: &[u8]) -> Result<usize, String> {
        Ok(0)
    }

    fn add(&mut self, _level: usize, words: &[&[u8]]) -> Result<(), String> {
        self.0.push(self.destination(words)?);
        Ok(())
    }
}
