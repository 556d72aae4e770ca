//! Calls the package for every line of the file of calls that the environment variable HAILFEATHER_CALLS names, else of tests/calls.txt, and
//! compares. The answers of both are the Python reference's (reference/ of the repository).

mod callfile;

use std::path::{Path, PathBuf};
use std::{env, fs};

use callfile::{Reader, REFUSALS};

const SMALL: &str = include_str!("calls.txt");

#[test]
fn every_answer_is_the_file_s() {
    let named = env::var_os("HAILFEATHER_CALLS").map(PathBuf::from);
    let file = match &named {
        Some(path) => fs::read_to_string(path).unwrap_or_else(|error| panic!("HAILFEATHER_CALLS names {}: {error}", path.display())),
        None => SMALL.to_string(),
    };
    let name = named.as_deref().unwrap_or(Path::new("tests/calls.txt")).display();
    let mut reader = Reader::default();
    if let Err(wrong) = reader.read(&file) {
        panic!("{name}, {wrong}");
    }
    for (entry, lines) in &reader.compared {
        println!("{lines:>8} {entry}");
    }
    println!(
        "{:>8} lines of {name} compared; {} of them ask a session that could not start",
        file.lines().count(),
        reader.sessions.unreachable
    );
}

/// The small file has every refusal, but for those of `plan_step`: the package's walk ends instead, or does not begin.
#[test]
fn every_refusal_has_its_words() {
    let mut reader = Reader::default();
    reader.read(SMALL).unwrap();
    let listed = REFUSALS
        .lines()
        .filter(|line| !line.starts_with("plan_step "))
        .map(String::from)
        .collect();
    assert_eq!(reader.refused, listed);
}

/// Each field of each answer of the small file, changed, makes a difference, but for those that cannot be seen: what a session that could not start
/// answers, where a walk stands, and a generator's key, the last field of its lines, which is seen in the last of them alone.
#[test]
fn every_wrong_answer_is_found() {
    let lines: Vec<&str> = SMALL.lines().filter(|line| !line.contains("16777")).collect();
    let (mut reader, mut tried) = (Reader::default(), 0);
    for (place, line) in lines.iter().enumerate() {
        let unreachable = reader.sessions.unreachable;
        reader.line(line).unwrap();
        if reader.sessions.unreachable > unreachable {
            continue;
        }
        let (call, answer) = line.split_once(" =").unwrap();
        let fields: Vec<&str> = answer.split_whitespace().collect();
        let unseen = if line.starts_with("plan_st") {
            fields.len().checked_sub(2) // before the place
        } else {
            let goes_on = of_generator(line) && lines.get(place + 1).is_some_and(|next| of_generator(next));
            fields.len().checked_sub(1).filter(|_| goes_on)
        };
        for at in (0..fields.len()).filter(|at| Some(*at) != unseen) {
            let mut wrong = fields.clone();
            let changed = if wrong[at] == "-" { "00".to_string() } else { changed(wrong[at]) };
            wrong[at] = &changed;
            let wrong = format!("{call} = {}", wrong.join(" "));
            let file = [&lines[..place], &[&wrong], &lines[place + 1..]].concat().join("\n");
            assert!(Reader::default().read(&file).is_err(), "not found: {wrong}");
            tried += 1;
        }
    }
    println!("{tried} wrong answers found");
}

fn of_generator(line: &str) -> bool {
    ["generator_fresh", "kmac_generator_fresh", "seed", "draw"].contains(&line.split(' ').next().unwrap())
}

/// The field with another last digit.
fn changed(field: &str) -> String {
    let (rest, last) = field.split_at(field.len() - 1);
    format!("{rest}{}", if last == "1" { "0" } else { "1" })
}

#[test]
fn a_file_that_is_no_file_of_calls_is_refused() {
    for (file, reason) in [
        ("", "there are no calls"),
        ("kmac128 - - - 32 = 0 3 00", "there is no entry kmac128"),
        ("take 00 = 0", "no session line stands before"),
        ("draw - 1 = 1 0 - 00", "no fresh generator stands before"),
        ("plan_step = 0 7 2 0", "no plan_start stands before"),
        ("plan_length 7 = 0 2 2", "the answer is 0 2 0"),
        ("plan_length 7 = 0 2", "the answer is 0 2 0"),
        ("plan_write 7 2 = 0 0107", "2 fields stand where 3 belong"),
        ("plan_read 02 = 9 0 0", "the answer is 9 0 1"),
        ("plan_read 018700 = 0 1 0", "the answer is 9 0 2"),
        ("plan_migrated_length 018700 = 0 3 0", "the answer is 0 2 0"),
        ("plan_migrate 018700 3 = 0 018700 0", "the answer is 9 0"),
        ("plan_row 00 02 1 = 9 0 0 0 1 1", "the answer is 9 0 0 0 2 1"),
        ("cshake256 - - - = 0 1 -", "3 fields stand where 4 belong"),
    ] {
        let wrong = Reader::default().read(file).unwrap_err();
        assert!(wrong.contains(reason), "{wrong}");
    }
}
