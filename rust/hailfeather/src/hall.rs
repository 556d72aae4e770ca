//! Hall plans: reading, asking and writing.
//!
//! A hall plan is a number of entries, then the entries, then nothing more. An entry is a chute, which is the number 0 and a destination, or a hall,
//! which is the number 1, again a number of entries, and those entries. Numbers stand as in a chute [`plan`](crate::plan). The whole is level 1, a
//! hall among its entries level 2, a hall in that one level 3, and so on to at most 8; a hall may have no entries, and is a level all the same. There
//! are at most 4,096 chutes in all, which count from 1 in reading order through all halls.
//!
//! Outside its bytes a hall plan is its outermost number of entries and two lists of equal length, with an element for each entry in reading order,
//! so that a hall's entries follow the hall at once: the kinds, [`CHUTE`] or [`HALL`], and the values, a destination or a hall's number of entries.
//!
//! Every function reads its plan, or its lists, whole, so what is bad anywhere is refused. The [`Refusal`] of a malformed plan tells the
//! [place](Refusal::place): as in a chute plan, and that of the first byte of a kind which is neither 0 nor 1, or of a hall beyond the eighth level, or of
//! a chute beyond the 4,096th.
//!
//! ```
//! use hailfeather::hall::{self, CHUTE, HALL};
//! let written = hall::to_vec(2, &[HALL, CHUTE, CHUTE, CHUTE], &[2, 7, 300, 0])?;
//! assert_eq!(written, [0x02, 0x01, 0x02, 0x00, 0x07, 0x00, 0xAC, 0x02, 0x00, 0x00]);
//! assert_eq!(hall::summary(&written)?.chutes, 3);
//! assert_eq!(hall::destination(&written, 2)?, 300);
//! # Ok::<(), hailfeather::Refusal>(())
//! ```

use crate::ffi;
use crate::refusal::{check, check_plan, Refusal};

/// The kind of an entry with a destination.
pub const CHUTE: u8 = 0;
/// The kind of an entry with a hall.
pub const HALL: u8 = 1;

/// What a hall plan has, as [`summary`] answers it.
#[derive(Clone, Copy, Debug, PartialEq, Eq, Hash)]
pub struct Summary {
    /// The outermost number of entries.
    pub outer: u32,
    /// The number of entries in all halls: so long are the lists, at most 32,767.
    pub entries: usize,
    /// The number of chutes in all halls.
    pub chutes: u32,
}

/// The halls of a plan, as [`to_halls`] reads them.
#[derive(Clone, Debug, Default, PartialEq, Eq, Hash)]
pub struct Halls {
    /// The outermost number of entries.
    pub outer: u32,
    /// Of each entry in reading order, [`CHUTE`] or [`HALL`].
    pub kinds: Vec<u8>,
    /// Of each entry in reading order, its destination or its hall's number of entries.
    pub values: Vec<u32>,
}

fn answered(entry: &str, read: ffi::hf_halls) -> Result<Summary, Refusal> {
    check_plan(entry, read.number, read.place).map(|()| Summary {
        outer: read.outer,
        entries: read.entries,
        chutes: read.chutes,
    })
}

/// How many entries and chutes a hall plan has. Refuses with 5, 9.
///
/// ```
/// use hailfeather::hall::{summary, Summary};
/// let plan = [0x02, 0x01, 0x02, 0x00, 0x07, 0x00, 0xAC, 0x02, 0x00, 0x00];
/// assert_eq!(summary(&plan)?, Summary { outer: 2, entries: 4, chutes: 3 });
/// assert_eq!(summary(&[0x00])?, Summary { outer: 0, entries: 0, chutes: 0 });
/// assert_eq!(summary(&[]).unwrap_err().to_string(), "refused 9 at byte 0: the plan is malformed");
/// assert_eq!(summary(&[0x01, 0x02, 0x00]).unwrap_err().to_string(), "refused 9 at byte 1: the plan is malformed");
/// assert_eq!(summary(&[0x01, 0x81, 0x00, 0x00]).unwrap_err().to_string(), "refused 9 at byte 2: the plan is malformed"); // 1 is 01
/// # Ok::<(), hailfeather::Refusal>(())
/// ```
pub fn summary(plan: &[u8]) -> Result<Summary, Refusal> {
    // SAFETY: the pointer comes from a slice with its length; a slice's pointer is never null.
    answered("hall_read", unsafe { ffi::hf_hall_read(plan.as_ptr(), plan.len()) })
}

/// The destination of one chute. Refuses with 5, 9, and with 10 where the chute is 0 or greater than this plan's number of chutes.
///
/// ```
/// use hailfeather::hall::destination;
/// let plan = [0x02, 0x01, 0x02, 0x00, 0x07, 0x00, 0xAC, 0x02, 0x00, 0x00];
/// assert_eq!(destination(&plan, 2)?, 300);
/// assert_eq!(destination(&plan, 4).unwrap_err().to_string(), "refused 10: the plan has no such chute");
/// # Ok::<(), hailfeather::Refusal>(())
/// ```
pub fn destination(plan: &[u8], chute: u64) -> Result<u32, Refusal> {
    // SAFETY: as in `summary`.
    let found = unsafe { ffi::hf_hall_destination(plan.as_ptr(), plan.len(), chute) };
    check_plan("hall_destination", found.number, found.place).map(|()| found.destination)
}

/// Reads a hall plan into two lists, each of exactly the length that [`summary`] answers as the number of entries. Refuses with 5, 9; with
/// 9 for lists of another length there is no place, unless the plan is malformed too.
///
/// ```
/// use hailfeather::hall::{read_into, CHUTE, HALL};
/// let plan = [0x02, 0x01, 0x02, 0x00, 0x07, 0x00, 0xAC, 0x02, 0x00, 0x00];
/// let (mut kinds, mut values) = ([0; 4], [0; 4]);
/// assert_eq!(read_into(&plan, &mut kinds, &mut values)?.outer, 2);
/// assert_eq!((kinds, values), ([HALL, CHUTE, CHUTE, CHUTE], [2, 7, 300, 0]));
/// let refusal = read_into(&plan, &mut kinds, &mut [0; 5]).unwrap_err();
/// assert_eq!(refusal.to_string(), "refused 9: the plan is malformed, or the lists are not exactly as long as it has entries");
/// # Ok::<(), hailfeather::Refusal>(())
/// ```
pub fn read_into(plan: &[u8], kinds: &mut [u8], values: &mut [u32]) -> Result<Summary, Refusal> {
    // SAFETY: as in `summary`; `kinds` and `values` overlap nothing.
    let read = unsafe {
        ffi::hf_hall_read_into(
            plan.as_ptr(),
            plan.len(),
            kinds.as_mut_ptr(),
            kinds.len(),
            values.as_mut_ptr(),
            values.len(),
        )
    };
    // No hall plan but the empty one is malformed at byte 0, since kinds stand at byte 1 or later and no number of entries is refused as too great:
    // else a 9 with that place is for the lists, and the plan has no place to tell.
    if read.place == 0 && !plan.is_empty() {
        check("hall_read_into", read.number)?;
    }
    answered("hall_read_into", read)
}

/// The halls of a plan, in lists of their own. Refuses with 5, 9.
///
/// ```
/// use hailfeather::hall::{to_halls, Halls, CHUTE, HALL};
/// let halls = to_halls(&[0x02, 0x01, 0x00, 0x00, 0x07])?;
/// assert_eq!(halls, Halls { outer: 2, kinds: vec![HALL, CHUTE], values: vec![0, 7] });
/// # Ok::<(), hailfeather::Refusal>(())
/// ```
pub fn to_halls(plan: &[u8]) -> Result<Halls, Refusal> {
    let entries = summary(plan)?.entries;
    let (mut kinds, mut values) = (vec![0; entries], vec![0; entries]);
    let outer = read_into(plan, &mut kinds, &mut values)?.outer;
    Ok(Halls { outer, kinds, values })
}

/// How many bytes the plan with these halls takes. Refuses with 9 where they break the rules, and with 5 where only their plan is too long.
///
/// ```
/// use hailfeather::hall::{length, CHUTE, HALL};
/// assert_eq!(length(2, &[HALL, CHUTE, CHUTE, CHUTE], &[2, 7, 300, 0])?, 10);
/// assert_eq!(length(2, &[HALL, CHUTE, CHUTE, CHUTE], &[3, 7, 300, 0]).unwrap_err().number(), 9);
/// # Ok::<(), hailfeather::Refusal>(())
/// ```
pub fn length(outer: u64, kinds: &[u8], values: &[u32]) -> Result<usize, Refusal> {
    // SAFETY: as in `summary`.
    let needed = unsafe { ffi::hf_hall_length(outer, kinds.as_ptr(), kinds.len(), values.as_ptr(), values.len()) };
    check("hall_length", needed.number).map(|()| needed.length)
}

/// Writes the plan with these halls into `out`, which has exactly the length that [`length`] answers. Refuses with 5, 9.
///
/// ```
/// use hailfeather::hall::{write, CHUTE, HALL};
/// let mut plan = [0; 5];
/// write(1, &[HALL, CHUTE], &[1, 7], &mut plan)?;
/// assert_eq!(plan, [0x01, 0x01, 0x01, 0x00, 0x07]);
/// assert_eq!(write(1, &[HALL, CHUTE], &[1, 7], &mut [0; 6]).unwrap_err().number(), 9);
/// # Ok::<(), hailfeather::Refusal>(())
/// ```
pub fn write(outer: u64, kinds: &[u8], values: &[u32], out: &mut [u8]) -> Result<(), Refusal> {
    // SAFETY: as in `summary`; `out` overlaps nothing.
    let written = unsafe {
        ffi::hf_hall_write(
            outer,
            kinds.as_ptr(),
            kinds.len(),
            values.as_ptr(),
            values.len(),
            out.as_mut_ptr(),
            out.len(),
        )
    };
    check("hall_write", written.number)
}

/// The plan with these halls. Refuses with 5, 9.
///
/// ```
/// use hailfeather::hall::{to_halls, to_vec};
/// let plan = [0x02, 0x01, 0x02, 0x00, 0x07, 0x00, 0xAC, 0x02, 0x00, 0x00];
/// let halls = to_halls(&plan)?;
/// assert_eq!(to_vec(halls.outer.into(), &halls.kinds, &halls.values)?, plan);
/// # Ok::<(), hailfeather::Refusal>(())
/// ```
pub fn to_vec(outer: u64, kinds: &[u8], values: &[u32]) -> Result<Vec<u8>, Refusal> {
    let mut plan = vec![0; length(outer, kinds, values)?];
    write(outer, kinds, values, &mut plan)?;
    Ok(plan)
}
