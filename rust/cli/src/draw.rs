//! The command draw.

use crate::answer::{Answer, HEX, RAW};
use crate::args::Arguments;
use crate::command::Command;
use crate::failure::Failure;
use crate::input;
use crate::options::{optional, output, required, Kind};
use crate::output::Access;
use hailfeather::{limits, Generator, KmacGenerator, Refusal, Runs};

pub const DRAW: Command = Command {
    name: "draw",
    purpose: "seed the cSHAKE generator, or the KMAC generator, and draw bytes from it once",
    operands: &[],
    options: &[
        required(
            "seed",
            Kind::Secret,
            "the seed: all the randomness comes from it, and the same seed gives the same bytes",
        ),
        optional(
            "personalisation",
            Kind::Text,
            "the personalisation of the seeding; none if it is left out",
        ),
        optional("additional", Kind::Text, "the additional input of the draw; none if it is left out"),
        required("length", Kind::Number, "how many bytes"),
        optional(
            "kmac",
            Kind::Flag,
            "draw from the KMAC generator; from the cSHAKE generator if it is left out",
        ),
        RAW,
        HEX,
        output(
            "FILE",
            "the bytes, in a file that its owner alone can read; standard output if it is left out",
        ),
    ],
    notes: "A draw of fewer bytes is the beginning of a draw of more.\nEach generator makes its own bytes of a seed: to draw the same again, take the same one.",
    examples: "(umask 077; head -c 64 /dev/urandom > depot.seed)
hailfeather draw --seed-file depot.seed --personalisation 'depot 7' --length 32 -o depot.key
wc -c < depot.key
# 32

printf '\\003\\007\\254\\002\\000' | hailfeather draw --seed-file - --length 16 --hex
# 3fa066dfdceb5a0e3c1884dbf46c0c9c
printf '\\003\\007\\254\\002\\000' | hailfeather draw --seed-file - --length 16 --hex --kmac
# 1062bb34dfbfa7abfdefe98665506e67",
    refusals: &[("seed", &[3, 5]), ("draw", &[3, 6])],
    run: draw,
};

/// What seeds a fresh generator and draws from it once: takes the seed, the personalisation and the additional input, and fills the output.
type Once = fn(&[u8], &[u8], &[u8], &mut [u8]) -> Result<Runs, Refusal>;

macro_rules! once {
    ($generator:ident) => {
        |seed, personalisation, additional, out| {
            let mut generator = $generator::new();
            generator.seed(seed, personalisation)?;
            generator.draw(additional, out)
        }
    };
}

fn draw(arguments: &Arguments) -> Result<(), Failure> {
    let once: Once = if arguments.flag("kmac") {
        once!(KmacGenerator)
    } else {
        once!(Generator)
    };
    let mut answer = Answer::new(arguments, true)?;
    let seed = input::option(arguments, "seed", limits::SEED)?;
    let personalisation = input::option(arguments, "personalisation", limits::SHORT)?;
    let additional = input::option(arguments, "additional", limits::SHORT)?;
    // The additional input's refusal is asked for before the seed's, by a draw of no bytes: its number is the smaller one, and the smallest is given.
    once(&[], &[], &additional, &mut [])?;
    once(&seed, &personalisation, &additional, &mut answer.bytes)?;
    answer.write(Access::OwnerOnly)
}
