//! Chute plans: reading, asking, writing, walking, and migrating old copies.
//!
//! A plan is the number of its rows (at most 4,096), then the destination of each, then nothing more. A number stands in one to three groups of
//! seven bits, lowest group first, with the top bit of a byte set when another follows: 0 to 2,097,151. It stands in the fewest groups that hold it:
//! 7 is `07`, and `87 00`, whose last group is empty, is malformed; a single `00` is 0. So two good plans with equal rows are equal bytes. Chutes count
//! from 1; destination 0 sends the parcel round again.
//!
//! Every function reads its plan whole, so a plan that is bad anywhere is refused whichever chute is asked for. A
//! [`Walk`] over all rows reads it whole only when it is made.
//!
//! The [`Refusal`] of a malformed plan tells the [place](Refusal::place) of the first breach in reading order: of the first missing byte, which is the
//! plan's length, where a number ends too early; of a number's third byte where it goes on after that; of a number's last group where it is empty and
//! others stand before it, whatever the number's value breaks; 0 where there are more than 4,096 rows; and of the first byte after the last row. An old
//! copy, in which numbers have such empty groups, [`migrate`] writes anew.
//!
//! ```
//! use hailfeather::plan;
//! let written = plan::to_vec(&[7, 300, 0])?;
//! assert_eq!(written, [0x03, 0x07, 0xAC, 0x02, 0x00]);
//! assert_eq!(plan::rows(&written)?, 3);
//! assert_eq!(plan::destination(&written, 2)?, 300);
//! # Ok::<(), hailfeather::Refusal>(())
//! ```

use crate::ffi;
use crate::refusal::{check, check_plan, check_plans, Refusal};

mod migration;
mod walk;

pub use migration::{migrate, migrate_into, migrated_length};
pub use walk::Walk;

/// How many rows a plan has. Refuses with 5, 9.
///
/// ```
/// use hailfeather::plan::rows;
/// assert_eq!(rows(&[0x03, 0x07, 0xAC, 0x02, 0x00])?, 3);
/// assert_eq!(rows(&[0x00])?, 0);
/// assert_eq!(rows(&[]).unwrap_err().to_string(), "refused 9 at byte 0: the plan is malformed");
/// assert_eq!(rows(&[0x03, 0x07, 0xAC]).unwrap_err().to_string(), "refused 9 at byte 3: the plan is malformed");
/// assert_eq!(rows(&[0x01, 0x87, 0x00]).unwrap_err().to_string(), "refused 9 at byte 2: the plan is malformed"); // 7 is 07
/// # Ok::<(), hailfeather::Refusal>(())
/// ```
pub fn rows(plan: &[u8]) -> Result<u32, Refusal> {
    // SAFETY: the pointer comes from a slice with its length; a slice's pointer is never null.
    let read = unsafe { ffi::hf_plan_read(plan.as_ptr(), plan.len()) };
    check_plan("plan_read", read.number, read.place).map(|()| read.rows)
}

/// The destination of one chute. Refuses with 5, 9, and with 10 where the chute is 0 or greater than this plan's number of rows.
///
/// ```
/// use hailfeather::plan::destination;
/// let plan = [0x03, 0x07, 0xAC, 0x02, 0x00];
/// assert_eq!(destination(&plan, 2)?, 300);
/// assert_eq!(destination(&plan, 4).unwrap_err().to_string(), "refused 10: the plan has no such chute");
/// # Ok::<(), hailfeather::Refusal>(())
/// ```
pub fn destination(plan: &[u8], chute: u64) -> Result<u32, Refusal> {
    // SAFETY: as in `rows`.
    let found = unsafe { ffi::hf_plan_destination(plan.as_ptr(), plan.len(), chute) };
    check_plan("plan_destination", found.number, found.place).map(|()| found.destination)
}

/// One of two plans: that a row came from, or that is malformed.
#[derive(Clone, Copy, Debug, PartialEq, Eq, Hash)]
pub enum Source {
    /// The site plan, which is asked first.
    Site,
    /// The house plan, which is asked where the site plan does not have the chute.
    House,
}

impl Source {
    /// The plan that the library means by a number of the header's `hf_source`.
    fn named(number: u8) -> Option<Source> {
        match number {
            1 => Some(Source::Site),
            2 => Some(Source::House),
            _ => None,
        }
    }
}

/// A row of one of two plans, as [`row`] answers it.
#[derive(Clone, Copy, Debug, PartialEq, Eq, Hash)]
pub struct Row<'a> {
    /// The plan that the row came from.
    pub source: Source,
    /// The place of the row's first byte in that plan.
    pub start: usize,
    /// The row's one to three bytes: a part of that plan, not a copy.
    pub bytes: &'a [u8],
}

/// The row of a chute: of the site plan if it has that chute, else of the house plan.
///
/// Refuses with 5, 9 where either plan is bad, and with 10 where neither has the chute. With 9 the refusal tells
/// [which plan is malformed](Refusal::malformed).
///
/// ```
/// use hailfeather::plan::{row, Source};
/// let site = [0x01, 0x05];
/// let house = [0x03, 0x07, 0xAC, 0x02, 0x00];
/// assert_eq!(row(&site, &house, 1)?.source, Source::Site);
/// let second = row(&site, &house, 2)?;
/// assert_eq!((second.source, second.start, second.bytes), (Source::House, 2, &[0xAC, 0x02][..]));
/// assert_eq!(row(&site[..1], &house, 1).unwrap_err().to_string(), "refused 9 at byte 1 of the site plan: the plan is malformed");
/// assert_eq!(row(&site, &house, 4).unwrap_err().to_string(), "refused 10: neither plan has such a chute");
/// # Ok::<(), hailfeather::Refusal>(())
/// ```
pub fn row<'a>(site: &'a [u8], house: &'a [u8], chute: u64) -> Result<Row<'a>, Refusal> {
    // SAFETY: as in `rows`.
    let found = unsafe { ffi::hf_plan_row(site.as_ptr(), site.len(), house.as_ptr(), house.len(), chute) };
    check_plans("plan_row", found.number, found.place, Source::named(found.malformed))?;
    let (source, plan) = match Source::named(found.source) {
        Some(Source::Site) => (Source::Site, site),
        _ => (Source::House, house),
    };
    Ok(Row {
        source,
        start: found.start,
        bytes: &plan[found.start..found.start + found.length],
    })
}

/// How many bytes the plan with these destinations takes. Refuses with 9.
///
/// ```
/// use hailfeather::plan::length;
/// assert_eq!(length(&[7, 300, 0])?, 5);
/// assert_eq!(length(&[2_097_151])?, 4);
/// assert_eq!(length(&[2_097_152]).unwrap_err().number(), 9);
/// # Ok::<(), hailfeather::Refusal>(())
/// ```
pub fn length(destinations: &[u32]) -> Result<usize, Refusal> {
    // SAFETY: as in `rows`.
    let needed = unsafe { ffi::hf_plan_length(destinations.as_ptr(), destinations.len()) };
    check("plan_length", needed.number).map(|()| needed.length)
}

/// Writes the plan with these destinations into `out`, which has exactly the length that [`length`] answers. Refuses with 9.
///
/// ```
/// use hailfeather::plan::write;
/// let mut plan = [0; 5];
/// write(&[7, 300, 0], &mut plan)?;
/// assert_eq!(plan, [0x03, 0x07, 0xAC, 0x02, 0x00]);
/// assert_eq!(write(&[7, 300, 0], &mut [0; 6]).unwrap_err().number(), 9);
/// # Ok::<(), hailfeather::Refusal>(())
/// ```
pub fn write(destinations: &[u32], out: &mut [u8]) -> Result<(), Refusal> {
    // SAFETY: as in `rows`; `out` overlaps nothing.
    let written = unsafe { ffi::hf_plan_write(destinations.as_ptr(), destinations.len(), out.as_mut_ptr(), out.len()) };
    check("plan_write", written.number)
}

/// The plan with these destinations. Refuses with 9.
///
/// ```
/// assert_eq!(hailfeather::plan::to_vec(&[7, 300, 0])?, [0x03, 0x07, 0xAC, 0x02, 0x00]);
/// # Ok::<(), hailfeather::Refusal>(())
/// ```
pub fn to_vec(destinations: &[u32]) -> Result<Vec<u8>, Refusal> {
    let mut plan = vec![0; length(destinations)?];
    write(destinations, &mut plan)?;
    Ok(plan)
}
