//! The reader: calls the package for each line, compares the answer, and counts.

use std::collections::{BTreeMap, BTreeSet};

use hailfeather::{cshake256, kmac256, kmacxof256, Generator, KmacGenerator, Session};
use hailfeather::{hall, plan};

use super::bytes::{bytes, list, number};
use super::generators::Generators;
use super::halls;
use super::one_call::{hash, migrated, opened, permuted, row, sealed, value, written, Compared};
use super::states::{Sessions, Walks};

pub const REFUSALS: &str = include_str!("../../refusals.txt");

#[derive(Default)]
pub struct Reader {
    pub sessions: Sessions,
    generators: Generators,
    walks: Walks,
    /// How many lines of each entry were compared.
    pub compared: BTreeMap<String, usize>,
    /// The refusals met, each as its line in refusals.txt.
    pub refused: BTreeSet<String>,
}

/// The fields of one side of a line, of which there have to be as many as its entry has.
fn exactly<'a, const N: usize>(fields: &[&'a str]) -> Result<[&'a str; N], String> {
    fields.try_into().map_err(|_| format!("{} fields stand where {N} belong", fields.len()))
}

impl Reader {
    /// Calls the package for every line; the first difference ends it.
    pub fn read(&mut self, file: &str) -> Result<(), String> {
        for (place, line) in file.lines().enumerate() {
            let beginning: String = line.chars().take(300).collect();
            self.line(line).map_err(|wrong| format!("line {}: {wrong}\n{beginning}", place + 1))?;
        }
        self.generators.end()?;
        if self.compared.is_empty() {
            return Err("there are no calls".into());
        }
        Ok(())
    }

    /// Calls the package for a line. The words of a refusal have to be those of the line's entry.
    pub fn line(&mut self, line: &str) -> Result<(), String> {
        let (call, answer) = line.split_once(" =").ok_or("no = stands in the line")?;
        let (entry, given) = call.split_once(' ').unwrap_or((call, ""));
        let (given, answer): (Vec<&str>, Vec<&str>) = (given.split_whitespace().collect(), answer.split_whitespace().collect());
        if let Some(refusal) = self.call(entry, &given, &answer)? {
            let listed = format!("{entry} {} {}", refusal.number(), refusal.words());
            if !REFUSALS.lines().any(|line| line == listed) {
                return Err(format!("refusals.txt has no line: {listed}"));
            }
            self.refused.insert(listed);
        }
        *self.compared.entry(entry.to_string()).or_default() += 1;
        Ok(())
    }

    fn call(&mut self, entry: &str, given: &[&str], answer: &[&str]) -> Compared {
        match entry {
            "keccak_p" => permuted(exactly(given)?, exactly(answer)?),
            "cshake256" => hash(cshake256, exactly(given)?, exactly(answer)?),
            "kmac256" => hash(kmac256, exactly(given)?, exactly(answer)?),
            "kmacxof256" => hash(kmacxof256, exactly(given)?, exactly(answer)?),
            "session_cshake256" => self.sessions.start(Session::cshake256, exactly(given)?, exactly(answer)?),
            "session_kmacxof256" => self.sessions.start(Session::kmacxof256, exactly(given)?, exactly(answer)?),
            "take" => self.sessions.take(exactly(given)?, exactly(answer)?),
            "give" => self.sessions.give(exactly(given)?, exactly(answer)?),
            "seal" => sealed(exactly(given)?, exactly(answer)?),
            "open" => opened(exactly(given)?, exactly(answer)?),
            "generator_fresh" => self.generators.begin(Generator::new()),
            "kmac_generator_fresh" => self.generators.begin(KmacGenerator::new()),
            "seed" => self.generators.seed(exactly(given)?, exactly(answer)?),
            "draw" => self.generators.draw(exactly(given)?, exactly(answer)?),
            "plan_read" => exactly(given).and_then(|[plan]| value(plan::rows(&bytes(plan)), "0", answer)),
            "plan_destination" => exactly(given).and_then(|[plan, chute]| value(plan::destination(&bytes(plan), number(chute)), "0", answer)),
            "plan_row" => row(exactly(given)?, answer),
            "plan_length" => exactly(given).and_then(|[rows]| value(plan::length(&list(rows)), "0", answer)),
            "plan_write" => written(exactly(given)?, exactly(answer)?),
            "plan_migrated_length" => exactly(given).and_then(|[plan]| value(plan::migrated_length(&bytes(plan)), "0", answer)),
            "plan_migrate" => migrated(exactly(given)?, exactly(answer)?),
            "plan_start" => self.walks.begin(exactly(given)?, exactly(answer)?),
            "plan_step" => self.walks.step(exactly(answer)?),
            "hall_read" => exactly(given).and_then(|[plan]| halls::summary(hall::summary(&bytes(plan)), answer)),
            "hall_destination" => exactly(given).and_then(|[plan, chute]| value(hall::destination(&bytes(plan), number(chute)), "0", answer)),
            "hall_read_into" => halls::read_into(exactly(given)?, exactly(answer)?),
            "hall_length" => halls::length(exactly(given)?, answer),
            "hall_write" => halls::written(exactly(given)?, exactly(answer)?),
            _ => Err(format!("there is no entry {entry}")),
        }
    }
}
