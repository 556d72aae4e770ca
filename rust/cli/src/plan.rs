//! The commands over chute plans: report, lookup, write and migrate.

use crate::args::{self, Arguments};
use crate::command::Command;
use crate::failure::Failure;
use crate::input::{self, Secret};
use crate::lines;
use crate::options::{optional, output, Kind};
use crate::output::{self, Access, Content};
use crate::rows::Rows;
use crate::target::Target;
use hailfeather::{limits, plan};
use std::ffi::OsStr;
use std::fmt::Write;

pub const REPORT: Command = Command {
    name: "plan report",
    purpose: "print how many rows a plan has, and each chute with its destination",
    operands: &["PLAN"],
    options: &[],
    notes: "What is printed can be given to hailfeather plan write. A malformed plan is refused with the byte, from 0, at which it is malformed:
of a number that is cut its first missing byte, of one that goes on after three groups the third byte, of one in more groups than it needs,
such as 87 00 for 7, its last and empty group, of more than 4,096 rows 0, and of bytes after the last row the first.
An old copy, whose numbers may stand in more groups than they need, is written anew by hailfeather plan migrate.",
    examples: "printf '\\003\\007\\254\\002\\000' | hailfeather plan report
# rows 3
# 1 7
# 2 300
# 3 0

printf '9\\n' | hailfeather plan write -o depot.plan && hailfeather plan report depot.plan
# rows 1
# 1 9

printf '\\003\\007\\254' > cut.plan
hailfeather plan report cut.plan 2>&1 || echo status $?
# refused 9 at byte 3: the plan is malformed
# status 9",
    refusals: &[("plan_start", &[5, 9])],
    run: report,
};

pub const LOOKUP: Command = Command {
    name: "plan lookup",
    purpose: "print the destination of one chute",
    operands: &["CHUTE", "PLAN"],
    options: &[optional(
        "house",
        Kind::Input("PLAN"),
        "a house plan, asked for the chutes that PLAN, then the site plan, does not have",
    )],
    notes: "Chutes count from 1. With a house plan the word site or house follows, for the plan that has the chute.
A malformed plan is refused with the byte, from 0, at which it is malformed; of two plans the site plan is read first.
An old copy, whose numbers may stand in more groups than they need, is written anew by hailfeather plan migrate.",
    examples: "printf '\\003\\007\\254\\002\\000' > depot.plan
hailfeather plan lookup 2 depot.plan
# 300

printf '9\\n' | hailfeather plan write -o site.plan && hailfeather plan lookup 1 site.plan --house depot.plan
# 9 site
hailfeather plan lookup 2 site.plan --house depot.plan
# 300 house

printf '\\003\\007\\254' > cut.plan
hailfeather plan lookup 1 site.plan --house cut.plan 2>&1 || echo status $?
# refused 9 at byte 3 of the house plan: the plan is malformed
# status 9",
    refusals: &[("plan_destination", &[5, 9, 10]), ("plan_row", &[5, 9, 10])],
    run: lookup,
};

pub const WRITE: Command = Command {
    name: "plan write",
    purpose: "make a plan of rows in text",
    operands: &["ROWS"],
    options: &[output("PLAN", "the plan; standard output if it is left out")],
    notes: "A line with one number is a destination; a line with two is a chute and its destination,
and the chute has to be the next one, from 1 on. A line 'rows N' may stand first and has to agree with
the number of rows. Blank lines and lines that start with # are passed over.",
    examples: "printf '7\\n300\\n0\\n' | hailfeather plan write -o depot.plan
od -An -tx1 depot.plan
#  03 07 ac 02 00

hailfeather plan report depot.plan > rows.txt && hailfeather plan write rows.txt -o again.plan &&
cmp again.plan depot.plan && echo the same
# the same",
    refusals: &[("plan_length", &[9])],
    run: write,
};

pub const MIGRATE: Command = Command {
    name: "plan migrate",
    purpose: "write an old copy of a plan anew, with each number in the fewest groups",
    operands: &["PLAN"],
    options: &[output("PLAN", "the new plan; standard output if it is left out")],
    notes: "A number stands in the fewest groups of seven bits: 7 is 07, and 87 00, whose last group is empty, is malformed.
By the old rule both are 7. PLAN is read by the old rule, and the same rows are written by the present one; a plan that keeps the present rule is
written as it is. Two plans with equal rows are then equal bytes. Hall plans are not migrated. A plan that is malformed by the old rule too
is refused with the byte, from 0, at which it is malformed, and nothing is written.",
    examples: "printf '\\003\\207\\000\\254\\002\\200\\200\\000' > old.plan
hailfeather plan report old.plan 2>&1 || echo status $?
# refused 9 at byte 2: the plan is malformed
# status 9
hailfeather plan migrate old.plan -o new.plan && od -An -tx1 new.plan
#  03 07 ac 02 00

hailfeather plan migrate -o again.plan < new.plan && cmp again.plan new.plan && echo the same
# the same

printf '\\003\\207\\000\\254' > cut.plan
hailfeather plan migrate cut.plan -o never.plan 2>&1 || echo status $?
# refused 9 at byte 4: the plan is malformed by the old rule too
# status 9",
    refusals: &[("plan_migrated_length", &[5, 9])],
    run: migrate,
};

fn read(name: &OsStr) -> Result<Secret, Failure> {
    input::file(name, limits::PLAN)
}

fn report(arguments: &Arguments) -> Result<(), Failure> {
    let plan = read(input::operand(arguments, 0))?;
    let walk = plan::Walk::new(&plan)?;
    let mut text = format!("rows {}\n", plan::rows(&plan)?);
    for (chute, destination) in (1..).zip(walk) {
        // Writing to a String does not fail.
        let _ = writeln!(text, "{chute} {destination}");
    }
    output::text(&text)
}

fn lookup(arguments: &Arguments) -> Result<(), Failure> {
    let chute = args::number(arguments.operand(0).unwrap_or_default(), "CHUTE")?;
    let site = read(input::operand(arguments, 1))?;
    let Some(house) = arguments.value("house") else {
        return output::text(&format!("{}\n", plan::destination(&site, chute)?));
    };
    let house = read(house)?;
    let (plan, source) = match plan::row(&site, &house, chute)?.source {
        plan::Source::Site => (&site, "site"),
        plan::Source::House => (&house, "house"),
    };
    output::text(&format!("{} {source}\n", plan::destination(plan, chute)?))
}

fn write(arguments: &Arguments) -> Result<(), Failure> {
    let target = Target::of(arguments, true)?;
    let Rows(destinations) = lines::read(input::operand(arguments, 0))?;
    output::write(&[(&target, Content::Raw(&plan::to_vec(&destinations)?))], Access::Usual)
}

fn migrate(arguments: &Arguments) -> Result<(), Failure> {
    let target = Target::of(arguments, true)?;
    let plan = read(input::operand(arguments, 0))?;
    output::write(&[(&target, Content::Raw(&plan::migrate(&plan)?))], Access::Usual)
}
