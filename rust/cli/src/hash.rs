//! The commands cshake and kmac.

use crate::answer::{Answer, HEX, RAW};
use crate::args::Arguments;
use crate::command::Command;
use crate::failure::Failure;
use crate::input::{self, Reader, Secret};
use crate::options::{optional, output, required, Choice, Kind};
use crate::output::Access;
use hailfeather::{limits, Session};

const CUSTOMISATION: Choice = optional("customisation", Kind::Text, "the customisation; none if it is left out");
const LENGTH: Choice = optional("length", Kind::Number, "the output's length in bytes; 64 if it is left out");

pub const CSHAKE: Command = Command {
    name: "cshake",
    purpose: "hash a message with cSHAKE256",
    operands: &["FILE"],
    options: &[
        optional("name", Kind::Text, "the function's name; none if it is left out"),
        CUSTOMISATION,
        LENGTH,
        HEX,
        RAW,
        output("FILE", "a file for the output; standard output if it is left out"),
    ],
    notes: "With no name and no customisation it is SHAKE256. A shorter output is the beginning of a longer one.",
    examples: "printf '\\003\\007\\254\\002\\000' | hailfeather cshake --length 32
# 5e8e37cc54378c059cd65f735a3b172d52fec86453d903592b97a04176682071

printf '\\003\\007\\254\\002\\000' > depot.plan
hailfeather cshake --customisation 'depot 7' --length 16 depot.plan
# fdd802a3b95a031fbe1a117e1a6db212",
    refusals: &[("session_cshake256", &[3, 4]), ("take", &[5]), ("give", &[6])],
    run: cshake,
};

pub const KMAC: Command = Command {
    name: "kmac",
    purpose: "authenticate a message with KMAC256, or with KMACXOF256",
    operands: &["FILE"],
    options: &[
        required("key", Kind::Secret, "the key"),
        CUSTOMISATION,
        LENGTH,
        optional("xof", Kind::Flag, "KMACXOF256: a shorter output is the beginning of a longer one"),
        HEX,
        RAW,
        output(
            "FILE",
            "a file for the output, which with --raw its owner alone can read; standard output if it is left out",
        ),
    ],
    notes: "With KMAC256 the output's length is part of what is authenticated.",
    examples: "printf 'a key' > demo.key
printf '\\003\\007\\254\\002\\000' | hailfeather kmac --key-file demo.key --customisation 'depot 7' --length 32
# da4237a9855bf916ed3cc62ffa9aceeb650fa815c7ee290cbb43c2418e1fb06b

printf '\\003\\007\\254\\002\\000' | hailfeather kmac --key-file demo.key --xof --length 16
# 9923bce4a3d724da4715397abd89b674
printf '\\003\\007\\254\\002\\000' | hailfeather kmac --key-file demo.key --xof --length 4
# 9923bce4",
    refusals: &[
        ("kmac256", &[2, 3, 5, 6]),
        ("session_kmacxof256", &[2, 3]),
        ("take", &[5]),
        ("give", &[6]),
    ],
    run: kmac,
};

fn cshake(arguments: &Arguments) -> Result<(), Failure> {
    let mut answer = Answer::new(arguments, false)?;
    let name = input::option(arguments, "name", limits::STRING)?;
    let customisation = input::option(arguments, "customisation", limits::STRING)?;
    let message = message(arguments)?;
    stream(Session::cshake256(&name, &customisation)?, message, &mut answer)?;
    answer.write(Access::Usual)
}

fn kmac(arguments: &Arguments) -> Result<(), Failure> {
    let mut answer = Answer::new(arguments, false)?;
    let key = input::option(arguments, "key", limits::STRING)?;
    let customisation = input::option(arguments, "customisation", limits::STRING)?;
    let message = message(arguments)?;
    if arguments.flag("xof") {
        stream(Session::kmacxof256(&key, &customisation)?, message, &mut answer)?;
    } else {
        // KMAC256 has no session: the message is lent whole.
        hailfeather::kmac256(&key, &customisation, &message.whole()?, &mut answer.bytes)?;
    }
    // Raw output may be a key; digits are a code to be shown.
    answer.write(if answer.raw { Access::OwnerOnly } else { Access::Usual })
}

fn message(arguments: &Arguments) -> Result<Reader, Failure> {
    Reader::open(input::operand(arguments, 0), limits::MESSAGE)
}

/// Feeds the message to a session piece by piece, so that little memory holds a long one, and asks it for the output.
fn stream(mut session: Session, mut message: Reader, answer: &mut Answer) -> Result<(), Failure> {
    let mut piece = Secret::zeros(65_536);
    loop {
        match message.read(&mut piece)? {
            0 => break,
            length => session.take(&piece[..length])?,
        }
    }
    session.give(&mut answer.bytes)?;
    Ok(())
}
