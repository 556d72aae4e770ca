//! The commands over hall plans: report, lookup and write.

use crate::args::{self, Arguments};
use crate::command::Command;
use crate::failure::Failure;
use crate::halls::{self, Listed};
use crate::input;
use crate::lines;
use crate::options::output;
use crate::output::{self, Access, Content};
use crate::target::Target;
use hailfeather::{hall, limits};

pub const REPORT: Command = Command {
    name: "hall report",
    purpose: "print how many chutes a hall plan has, and its halls with each chute and its destination",
    operands: &["PLAN"],
    options: &[],
    notes: "What is in a hall stands below it, two spaces deeper. What is printed can be given to hailfeather hall write.
A malformed plan is refused with the byte, from 0, at which it is malformed: as hailfeather plan report has it, also for numbers in more
groups than they need, and of a kind other than 0 or 1, of a hall beyond the eighth level and of a chute beyond the 4,096th the kind's
first byte. hailfeather plan migrate is for chute plans alone: a hall plan with such numbers has to be written anew from its halls.",
    examples: "printf '\\002\\001\\002\\000\\007\\000\\254\\002\\000\\000' | hailfeather hall report
# chutes 3
# hall
#   1 7
#   2 300
# 3 0

printf 'hall\\n  hall\\n  9\\n' | hailfeather hall write -o halls.plan && hailfeather hall report halls.plan
# chutes 1
# hall
#   hall
#   1 9

printf '\\002\\000\\007\\002\\000' > kind.plan
hailfeather hall report kind.plan 2>&1 || echo status $?
# refused 9 at byte 3: the plan is malformed
# status 9",
    refusals: &[("hall_read", &[5, 9])],
    run: report,
};

pub const LOOKUP: Command = Command {
    name: "hall lookup",
    purpose: "print the destination of one chute of a hall plan",
    operands: &["CHUTE", "PLAN"],
    options: &[],
    notes: "Chutes count from 1 in reading order, through all halls.
A malformed plan is refused with the byte, from 0, at which it is malformed.",
    examples: "printf '\\002\\001\\002\\000\\007\\000\\254\\002\\000\\000' > halls.plan
hailfeather hall lookup 2 halls.plan
# 300

hailfeather hall lookup 4 halls.plan 2>&1 || echo status $?
# refused 10: the plan has no such chute
# status 10",
    refusals: &[("hall_destination", &[5, 9, 10])],
    run: lookup,
};

pub const WRITE: Command = Command {
    name: "hall write",
    purpose: "make a hall plan of halls in text",
    operands: &["HALLS"],
    options: &[output("PLAN", "the plan; standard output if it is left out")],
    notes: "A line 'hall' is a hall, and what is in it follows, two spaces deeper: at most 8 levels, with the outermost.
A line with one number is a destination; a line with two is a chute and its destination,
and the chute has to be the next one, from 1 on, through all halls. A line 'chutes N' may stand first and has to agree
with the number of chutes. Blank lines and lines that start with # are passed over.",
    examples: "printf 'hall\\n  7\\n  300\\n0\\n' | hailfeather hall write -o halls.plan
od -An -tx1 halls.plan
#  02 01 02 00 07 00 ac 02 00 00

hailfeather hall report halls.plan > halls.txt && hailfeather hall write halls.txt -o again.plan &&
cmp again.plan halls.plan && echo the same
# the same",
    refusals: &[("hall_length", &[5, 9])],
    run: write,
};

fn report(arguments: &Arguments) -> Result<(), Failure> {
    let plan = input::file(input::operand(arguments, 0), limits::PLAN)?;
    output::text(&halls::report(&hall::to_halls(&plan)?))
}

fn lookup(arguments: &Arguments) -> Result<(), Failure> {
    let chute = args::number(arguments.operand(0).unwrap_or_default(), "CHUTE")?;
    let plan = input::file(input::operand(arguments, 1), limits::PLAN)?;
    output::text(&format!("{}\n", hall::destination(&plan, chute)?))
}

fn write(arguments: &Arguments) -> Result<(), Failure> {
    let target = Target::of(arguments, true)?;
    let halls: Listed = lines::read(input::operand(arguments, 0))?;
    let plan = hall::to_vec(halls.outer, &halls.kinds, &halls.values)?;
    output::write(&[(&target, Content::Raw(&plan))], Access::Usual)
}
