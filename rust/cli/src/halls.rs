//! Halls in text, as `hall report` prints them and people type them: a line for each entry, and what is in a hall below it, two spaces deeper.

use crate::lines::Listing;
use hailfeather::hall::{Halls, CHUTE, HALL};
use hailfeather::limits;
use std::fmt::Write;

/// The spaces before a line for each level that it stands deeper than the outermost.
const INDENTATION: usize = 2;

/// The line of a hall.
const LINE: &str = "hall";

/// The report of the halls that a plan has.
pub fn report(halls: &Halls) -> String {
    let chutes = halls.kinds.iter().filter(|kind| **kind == CHUTE).count();
    let mut text = format!("chutes {chutes}\n");
    let mut chute = 0;
    // How many entries are still to come in each hall that the next line may stand in.
    let mut left = vec![halls.outer];
    for (kind, value) in halls.kinds.iter().zip(&halls.values) {
        while left.last() == Some(&0) {
            left.pop();
        }
        let indentation = INDENTATION * left.len().saturating_sub(1);
        if let Some(entries) = left.last_mut() {
            *entries -= 1;
        }
        // Writing to a String does not fail.
        let _ = if *kind == HALL {
            left.push(*value);
            writeln!(text, "{:indentation$}{LINE}", "")
        } else {
            chute += 1;
            writeln!(text, "{:indentation$}{chute} {value}", "")
        };
    }
    text
}

/// The halls that a text lists.
#[derive(Default)]
pub struct Listed {
    /// The outermost number of entries.
    pub outer: u64,
    pub kinds: Vec<u8>,
    pub values: Vec<u32>,
    chutes: usize,
    /// The place of each hall that the next line may stand in.
    open: Vec<usize>,
}

impl Listing for Listed {
    const COUNT: &'static str = "chutes";
    const LINE: &'static str = "it has to be 'hall', a destination, or a chute and its destination";
    const MOST: usize = limits::CHUTES;

    fn chutes(&self) -> usize {
        self.chutes
    }

    fn level(&self, indentation: &[u8]) -> Result<usize, String> {
        let spaces = indentation.len();
        let most = INDENTATION * self.open.len();
        if indentation.iter().any(|byte| *byte != b' ') {
            return Err(format!("it has to be indented by spaces alone, {INDENTATION} for each level"));
        }
        if spaces % INDENTATION != 0 {
            return Err(format!("it is indented by an odd number of spaces, and each level takes {INDENTATION}"));
        }
        if spaces > most {
            return Err(format!(
                "it is indented by {spaces} spaces, and can be by {most} at most: only what is in a hall stands deeper, below the hall's line"
            ));
        }
        Ok(spaces / INDENTATION)
    }

    fn add(&mut self, level: usize, words: &[&[u8]]) -> Result<(), String> {
        let (kind, value) = match words {
            [word] if *word == LINE.as_bytes() => (HALL, 0),
            _ => (CHUTE, self.destination(words)?),
        };
        self.open.truncate(level);
        match self.open.last() {
            Some(hall) => self.values[*hall] += 1,
            None => self.outer += 1,
        }
        if kind == HALL {
            self.open.push(self.kinds.len());
        } else {
            self.chutes += 1;
        }
        self.kinds.push(kind);
        self.values.push(value);
        Ok(())
    }
}
