//! The walk over a chute plan's rows.

use std::iter::FusedIterator;

use super::rows;
use crate::ffi;
use crate::refusal::{check_plan, Refusal};

/// The destinations of a plan's rows, one after another.
#[derive(Clone, Debug)]
pub struct Walk<'a> {
    plan: &'a [u8],
    cursor: ffi::hf_cursor,
    left: usize,
}

impl<'a> Walk<'a> {
    /// A walk before the first row. Refuses with 5, 9, so the walk itself meets no bad row.
    ///
    /// ```
    /// use hailfeather::plan::Walk;
    /// let walk = Walk::new(&[0x03, 0x07, 0xAC, 0x02, 0x00])?;
    /// assert_eq!(walk.len(), 3);
    /// assert_eq!(walk.collect::<Vec<u32>>(), [7, 300, 0]);
    /// assert_eq!(Walk::new(&[0x03, 0x07, 0xAC]).unwrap_err().place(), Some(3));
    /// # Ok::<(), hailfeather::Refusal>(())
    /// ```
    pub fn new(plan: &'a [u8]) -> Result<Walk<'a>, Refusal> {
        // SAFETY: as in `rows` of the module above.
        let cursor = unsafe { ffi::hf_plan_start(plan.as_ptr(), plan.len()) };
        check_plan("plan_start", cursor.number, cursor.place)?;
        Ok(Walk {
            plan,
            cursor,
            left: rows(plan)? as usize,
        })
    }
}

impl Iterator for Walk<'_> {
    type Item = u32;

    fn next(&mut self) -> Option<u32> {
        // SAFETY: as in `new`.
        let step = unsafe { ffi::hf_plan_step(self.plan.as_ptr(), self.plan.len(), self.cursor) };
        if step.number != 0 {
            return None; // 10, past the last row: the plan was read whole, and cannot change while it is lent
        }
        self.cursor.at = step.next;
        self.left -= 1;
        Some(step.destination)
    }

    fn size_hint(&self) -> (usize, Option<usize>) {
        (self.left, Some(self.left))
    }
}

impl ExactSizeIterator for Walk<'_> {}

impl FusedIterator for Walk<'_> {}
