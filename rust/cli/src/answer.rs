//! Output of a length that is asked for, written as bytes or as hexadecimal digits: what cshake, kmac and draw give.

use crate::args::Arguments;
use crate::failure::Failure;
use crate::input::Secret;
use crate::options::{optional, Choice, Kind};
use crate::output::{self, Access, Content};
use crate::target::Target;
use hailfeather::limits;

pub const RAW: Choice = optional(
    "raw",
    Kind::Flag,
    "write the bytes themselves; so does draw if neither --raw nor --hex is given",
);
pub const HEX: Choice = optional(
    "hex",
    Kind::Flag,
    "write hexadecimal digits and a line feed; so do cshake and kmac if neither --hex nor --raw is given",
);

/// The output, and how it is written.
pub struct Answer {
    pub bytes: Secret,
    pub raw: bool,
    target: Target,
}

impl Answer {
    /// Room for the output. `usually_raw` says how it is written where the command line does not say.
    pub fn new(arguments: &Arguments, usually_raw: bool) -> Result<Answer, Failure> {
        let raw = match (arguments.flag(RAW.name), arguments.flag(HEX.name)) {
            (true, true) => return Err(Failure::Usage("--raw and --hex exclude each other: give one".to_string())),
            (false, false) => usually_raw,
            (raw, _) => raw,
        };
        let target = Target::of(arguments, raw)?;
        // One byte too many is refused by the library, so more is never made.
        let length = arguments.number("length", 64, limits::OUTPUT + 1)?;
        Ok(Answer {
            bytes: Secret::zeros(length),
            raw,
            target,
        })
    }

    pub fn write(&self, access: Access) -> Result<(), Failure> {
        let content = if self.raw {
            Content::Raw(&self.bytes)
        } else {
            Content::Hex(&self.bytes)
        };
        output::write(&[(&self.target, content)], access)
    }
}
