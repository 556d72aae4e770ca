//! The commands seal and open.

use crate::args::{Arguments, STANDARD};
use crate::command::Command;
use crate::failure::Failure;
use crate::input::{self, Secret};
use crate::options::{optional, output, required, Choice, Kind};
use crate::output::{self, Access, Content};
use crate::target::Target;
use hailfeather::limits;
use std::ffi::OsStr;

const KEY: Choice = required("key", Kind::Secret, "the key, 32 bytes");
const IV: Choice = required("iv", Kind::Text, "the IV; it may be seen by all, and is never used twice with one key");
const LABEL: Choice = optional(
    "label",
    Kind::Text,
    "the label: covered by the tag like the text, but not encrypted, and not in the sealed file; none if it is left out;
the tag covers ciphertext and label joined, not the place where one ends and the other begins",
);

pub const SEAL: Command = Command {
    name: "seal",
    purpose: "encrypt a text, and make the tag by which any change is found",
    operands: &["TEXT-FILE"],
    options: &[
        KEY,
        IV,
        LABEL,
        optional("tag-length", Kind::Number, "the tag's length in bytes, 16 to 64; 32 if it is left out"),
        optional(
            "tag-file",
            Kind::Output("FILE"),
            "a file for the tag, which then does not stand in the sealed file",
        ),
        output("SEALED", "the sealed file; standard output if it is left out"),
    ],
    notes: "The sealed file is the ciphertext followed by the tag. IV and label are not in it: those who open it have to know both.",
    examples: "(umask 077; head -c 32 /dev/urandom > depot.key)
printf '\\003\\007\\254\\002\\000' | hailfeather seal --key-file depot.key --iv 'depot 7, plan 1' -o plan.sealed
hailfeather open --key-file depot.key --iv 'depot 7, plan 1' plan.sealed -o opened.plan && hailfeather plan lookup 2 opened.plan
# 300

printf '\\003\\007\\254\\002\\000' > depot.plan
hailfeather seal --key-file depot.key --iv 'depot 7, plan 2' --label 'night shift' --tag-file plan.tag depot.plan -o plan.ct
wc -c < plan.ct
# 5",
    refusals: &[("seal", &[2, 3, 5, 7])],
    run: seal,
};

pub const OPEN: Command = Command {
    name: "open",
    purpose: "decrypt a sealed file if its tag matches, else write nothing",
    operands: &["SEALED"],
    options: &[
        KEY,
        IV,
        LABEL,
        optional(
            "tag-length",
            Kind::Number,
            "the tag's length in bytes, 16 to 64; if it is left out 32, or with --tag-file the length of that file",
        ),
        optional(
            "tag-file",
            Kind::Input("FILE"),
            "the file of the tag, if it is not in the sealed file; with --tag-length a file of another length is not opened",
        ),
        output(
            "TEXT-FILE",
            "the text, in a file that its owner alone can read; standard output if it is left out",
        ),
    ],
    notes: "Key, IV and label have to be those that the file was sealed with, and of a tag in the sealed file the length too.
The beginning of a tag is a good shorter tag: a tag file that was cut to 16 bytes or more matches, unless --tag-length demands the whole length.",
    examples: "printf '000102030405060708090a0b0c0d0e0f101112131415161718191a1b1c1d1e1f' > demo.hex
printf '9\\n' | hailfeather plan write -o depot.plan && hailfeather seal --key-hex-file demo.hex --iv 1 depot.plan -o plan.sealed
hailfeather open --key-hex-file demo.hex --iv 1 plan.sealed -o opened.plan && hailfeather plan report opened.plan
# rows 1
# 1 9

hailfeather open --key-hex-file demo.hex --iv 2 plan.sealed -o opened.plan 2>&1 || echo status $?
# refused 8: the tag does not match
# status 8",
    refusals: &[("open", &[2, 3, 5, 7, 8])],
    run: open,
};

/// What sealing and opening both take.
struct Terms {
    key: Secret,
    iv: Secret,
    label: Secret,
}

impl Terms {
    fn read(arguments: &Arguments) -> Result<Terms, Failure> {
        Ok(Terms {
            key: input::option(arguments, "key", limits::SEALING_KEY)?,
            iv: input::option(arguments, "iv", limits::STRING)?,
            label: input::option(arguments, "label", limits::MESSAGE)?,
        })
    }
}

/// One byte too many for a tag is refused by the library, so more is never made.
fn tag_length(arguments: &Arguments) -> Result<usize, Failure> {
    arguments.number("tag-length", 32, limits::TAG.end() + 1)
}

fn seal(arguments: &Arguments) -> Result<(), Failure> {
    let target = Target::of(arguments, true)?;
    let tag_target = tag_target(arguments, &target)?;
    let tag_length = tag_length(arguments)?;
    let terms = Terms::read(arguments)?;
    let text = input::file(input::operand(arguments, 0), limits::MESSAGE)?;
    let mut sealed = vec![0; text.len() + tag_length];
    let (ciphertext, tag) = sealed.split_at_mut(text.len());
    hailfeather::seal(&terms.key, &terms.iv, &text, &terms.label, ciphertext, tag)?;
    match tag_target {
        None => output::write(&[(&target, Content::Raw(&sealed))], Access::Usual),
        // The tag first: a ciphertext that is in its place has its tag in place.
        Some(tag_target) => output::write(&[(&tag_target, Content::Raw(tag)), (&target, Content::Raw(ciphertext))], Access::Usual),
    }
}

fn tag_target(arguments: &Arguments, sealed: &Target) -> Result<Option<Target>, Failure> {
    let Some(name) = arguments.value("tag-file") else { return Ok(None) };
    let target = Target::named(name);
    if name == STANDARD || target == *sealed {
        return Err(Failure::Usage(
            "--tag-file has to name a file of its own, or leave it out for the tag to follow the ciphertext".to_string(),
        ));
    }
    Ok(Some(target))
}

fn open(arguments: &Arguments) -> Result<(), Failure> {
    let target = Target::of(arguments, true)?;
    let tag_length = tag_length(arguments)?;
    let sealed = input::operand(arguments, 0);
    let (ciphertext, tag) = match arguments.value("tag-file") {
        None => joined(sealed, tag_length)?,
        Some(file) => (
            input::file(sealed, limits::MESSAGE)?,
            apart(file, arguments.flag("tag-length").then_some(tag_length))?,
        ),
    };
    let terms = Terms::read(arguments)?;
    let mut text = Secret::zeros(ciphertext.len());
    hailfeather::open(&terms.key, &terms.iv, &ciphertext, &terms.label, &mut text, &tag)?;
    output::write(&[(&target, Content::Raw(&text))], Access::OwnerOnly)
}

/// Ciphertext and tag of one file. The tag is never cut: a file that is too short for it is not opened.
fn joined(name: &OsStr, tag_length: usize) -> Result<(Secret, Secret), Failure> {
    let mut sealed = input::file(name, limits::MESSAGE + tag_length)?;
    match sealed.len().checked_sub(tag_length) {
        Some(place) => {
            let tag = sealed.split_off(place);
            Ok((sealed, tag))
        }
        None => {
            let words = format!("{} bytes are too few for a tag of {tag_length}", sealed.len());
            Ok((Secret::zeros(0), unfit(name, tag_length, &words)?))
        }
    }
}

/// The tag of a file of its own, which has to have the length that is demanded.
fn apart(name: &OsStr, demanded: Option<usize>) -> Result<Secret, Failure> {
    let tag = input::file(name, *limits::TAG.end())?;
    match demanded {
        Some(length) if length != tag.len() => unfit(name, length, &format!("the tag is not {length} bytes long, as --tag-length demands")),
        _ => Ok(tag),
    }
}

/// What stands for the tag where a file has none of this length: a length that no tag has is left for the library to refuse, whatever is in it.
fn unfit(name: &OsStr, tag_length: usize, words: &str) -> Result<Secret, Failure> {
    if limits::TAG.contains(&tag_length) {
        return Err(Failure::Malformed(format!("{}: {words}", input::shown(name))));
    }
    Ok(Secret::zeros(tag_length))
}
