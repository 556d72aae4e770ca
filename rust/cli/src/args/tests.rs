//! The option parser on both sides of each of its rules.

use super::*;
use crate::options::{optional, output, required};

const CHOICES: &[Choice] = &[
    required("key", Kind::Secret, ""),
    optional("label", Kind::Text, ""),
    optional("length", Kind::Number, ""),
    optional("house", Kind::Input("PLAN"), ""),
    optional("raw", Kind::Flag, ""),
    output("FILE", ""),
];

/// Parses words that are separated by single blanks, with the operands CHUTE and FILE.
fn parsed(line: &str) -> Result<Option<Arguments>, Failure> {
    let words: Vec<OsString> = line.split(' ').filter(|word| !word.is_empty()).map(OsString::from).collect();
    parse(CHOICES, &["CHUTE", "FILE"], &words)
}

fn accepted(line: &str) -> Arguments {
    parsed(line).unwrap().unwrap()
}

fn refused(line: &str) -> String {
    match parsed(line).unwrap_err() {
        Failure::Usage(words) => words,
        other => panic!("{other}"),
    }
}

#[test]
fn options_stand_before_between_and_after_operands() {
    for line in ["--key-file k --raw 1 f", "1 --raw --key-file k f", "1 f --key-file=k --raw"] {
        let arguments = accepted(line);
        assert!(arguments.flag("raw"));
        assert_eq!(arguments.option("key"), Some(("--key-file", Form::File, OsStr::new("k"))));
        assert_eq!(
            (arguments.operand(0), arguments.operand(1)),
            (Some(OsStr::new("1")), Some(OsStr::new("f")))
        );
    }
    assert!(!accepted("--key-file k 1 f").flag("raw"));
}

#[test]
fn every_form_of_a_text() {
    let label = |given: &str| {
        let arguments = accepted(&format!("--key-file k 1 {given}"));
        let (_, form, value) = arguments.option("label").unwrap();
        (form, value.to_str().unwrap().to_string())
    };
    assert_eq!(label("--label a"), (Form::Plain, "a".into()));
    assert_eq!(label("--label=a=b"), (Form::Plain, "a=b".into()));
    assert_eq!(label("--label="), (Form::Plain, "".into()));
    assert_eq!(label("--label --raw"), (Form::Plain, "--raw".into()));
    assert_eq!(label("--label-hex 00"), (Form::Hex, "00".into()));
    assert_eq!(label("--label-file=f"), (Form::File, "f".into()));
    assert_eq!(accepted("--key-hex-file k 1").option("key").unwrap().1, Form::HexFile);
    assert_eq!(accepted("--key-file k 1").option("label"), None);
}

#[test]
fn the_output_has_a_short_and_a_long_word() {
    for line in ["-o out", "--output out", "--output=out"] {
        assert_eq!(
            accepted(&format!("--key-file k 1 {line}")).value(crate::options::OUTPUT),
            Some(OsStr::new("out"))
        );
    }
    assert!(refused("--key-file k 1 -oout").contains("no option -oout"));
}

#[test]
fn numbers_of_any_size() {
    let length = |digits: &str| accepted(&format!("--key-file k 1 --length {digits}")).number("length", 64, 100);
    assert_eq!(length("0").unwrap(), 0);
    assert_eq!(length("100").unwrap(), 100);
    assert_eq!(length("101").unwrap(), 100);
    assert_eq!(length("18446744073709551616").unwrap(), 100);
    assert_eq!(length(&"9".repeat(1000)).unwrap(), 100);
    assert_eq!(accepted("--key-file k 1").number("length", 64, 100).unwrap(), 64);
    for digits in ["-1", "+1", "1k", "0x10", "1.5"] {
        assert!(length(digits).is_err(), "{digits}");
    }
    assert_eq!(saturating(b"18446744073709551615"), Some(u64::MAX));
    assert_eq!(saturating(b"18446744073709551616"), Some(u64::MAX));
    assert_eq!(saturating(b"007"), Some(7));
    assert_eq!(saturating(b""), None);
}

#[test]
fn a_secret_is_never_an_argument() {
    for line in ["--key hush 1", "--key=hush 1", "--key-hex 68757368 1", "--key-hex=68757368 1"] {
        let words = refused(line);
        assert!(
            words.contains("every user of the machine") && words.contains("--key-file FILE or --key-hex-file FILE"),
            "{words}"
        );
        assert!(!words.contains("hush") && !words.contains("68757368"), "{words}");
    }
}

#[test]
fn what_is_missing_or_too_much_is_named() {
    assert!(refused("1 f").contains("--key-file FILE or --key-hex-file FILE is missing"));
    assert!(refused("--key-file k").contains("CHUTE is missing"));
    assert!(refused("--key-file k 1 f g").contains("'g' is one argument too many"));
    assert!(refused("--key-file k 1 --label").contains("--label has to be followed by TEXT"));
    assert!(refused("--key-file k 1 --raw=yes").contains("--raw takes no value"));
    assert!(refused("--key-file k 1 --rows").contains("no option --rows"));
    assert!(refused("--key-file k 1 -x").contains("no option -x"));
    assert!(refused("--key-file k 1 --label a --label-hex 00").contains("--label and --label-hex stand for the same thing"));
}

#[test]
fn standard_input_is_read_once() {
    assert!(refused("--key-file - 1").contains("--key-file and FILE"));
    assert!(refused("--key-file - 1 -").contains("--key-file and FILE"));
    assert!(refused("--key-file - --house - 1 f").contains("--key-file and --house"));
    assert!(refused("--key-hex-file - --label-file - 1 f").contains("--key-hex-file and --label-file"));
    assert!(refused("--key-file k --label-file - 1").contains("--label-file and FILE"));
    assert_eq!(accepted("--key-file - 1 f").value("key"), Some(OsStr::new("-")));
    assert_eq!(accepted("--key-file k --label - 1 -o -").operand(1), None);
    let none: Vec<OsString> = ["--key-file", "-"].map(OsString::from).to_vec();
    assert!(parse(CHOICES, &[], &none).is_ok());
}

#[test]
fn help_and_the_end_of_options() {
    assert!(parsed("--help").unwrap().is_none());
    assert!(parsed("1 f g -h").unwrap().is_none());
    assert_eq!(accepted("--key-file k -- 1 --help").operand(1), Some(OsStr::new("--help")));
    assert_eq!(accepted("--key-file k 1 --label --help").value("label"), Some(OsStr::new("--help")));
}
