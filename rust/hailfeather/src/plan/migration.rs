//! The migration of old copies of chute plans.
//!
//! By the old rule a number may stand in more groups than it needs, though not in more than three: `87 00` is 7, as `07` is. In all else it is the present rule.

use crate::ffi;
use crate::refusal::{check, check_plan, Refusal};

/// How many bytes the plan takes that [`migrate_into`] writes. Refuses with 5, and with 9 where the plan is malformed by the old rule too.
///
/// ```
/// use hailfeather::plan::migrated_length;
/// assert_eq!(migrated_length(&[0x03, 0x87, 0x00, 0xAC, 0x02, 0x80, 0x80, 0x00])?, 5);
/// assert_eq!(migrated_length(&[0x03, 0x07, 0xAC, 0x02, 0x00])?, 5);
/// let refusal = migrated_length(&[0x03, 0x87, 0x00, 0xAC]).unwrap_err();
/// assert_eq!(refusal.to_string(), "refused 9 at byte 4: the plan is malformed by the old rule too");
/// # Ok::<(), hailfeather::Refusal>(())
/// ```
pub fn migrated_length(plan: &[u8]) -> Result<usize, Refusal> {
    // SAFETY: as in `rows` of the module above.
    let needed = unsafe { ffi::hf_plan_migrated_length(plan.as_ptr(), plan.len()) };
    check_plan("plan_migrated_length", needed.number, needed.place).map(|()| needed.length)
}

/// Reads a plan by the old rule and writes the one with the same rows, each number in the fewest groups, into `out`, which has exactly the length that
/// [`migrated_length`] answers. A plan that keeps the present rule is written as it is. Refuses with 5, 9; with 9 for another length of `out` there is no
/// place, unless the plan is malformed too.
///
/// ```
/// use hailfeather::plan::migrate_into;
/// let (old, mut plan) = ([0x03, 0x87, 0x00, 0xAC, 0x02, 0x80, 0x80, 0x00], [0; 5]);
/// migrate_into(&old, &mut plan)?;
/// assert_eq!(plan, [0x03, 0x07, 0xAC, 0x02, 0x00]);
/// assert_eq!(migrate_into(&old, &mut [0; 8]).unwrap_err().place(), None);
/// assert_eq!(migrate_into(&old[..7], &mut plan).unwrap_err().place(), Some(7));
/// # Ok::<(), hailfeather::Refusal>(())
/// ```
pub fn migrate_into(plan: &[u8], out: &mut [u8]) -> Result<(), Refusal> {
    // SAFETY: as in `rows` of the module above; `out` overlaps nothing.
    let written = unsafe { ffi::hf_plan_migrate(plan.as_ptr(), plan.len(), out.as_mut_ptr(), out.len()) };
    match written.number {
        0 => Ok(()),
        // A 9 with the place 0 is for a plan that is malformed there, such as the empty one, or for the buffer: then the plan has a length.
        number if written.place == 0 && migrated_length(plan).is_ok() => check("plan_migrate", number),
        number => check_plan("plan_migrate", number, written.place),
    }
}

/// The plan by the present rule with the rows that a plan has by the old one. Refuses with 5, 9.
///
/// ```
/// use hailfeather::plan;
/// let old = [0x01, 0x87, 0x00];
/// assert_eq!(plan::rows(&old).unwrap_err().place(), Some(2));
/// assert_eq!(plan::migrate(&old)?, [0x01, 0x07]);
/// assert_eq!(plan::migrate(&[0x01, 0x07])?, [0x01, 0x07]);
/// # Ok::<(), hailfeather::Refusal>(())
/// ```
pub fn migrate(plan: &[u8]) -> Result<Vec<u8>, Refusal> {
    let mut migrated = vec![0; migrated_length(plan)?];
    migrate_into(plan, &mut migrated)?;
    Ok(migrated)
}
