//! Judging a schedule that someone else worked out.

use crate::{ffi, Refusal};

/// Judges the schedule of a sheet, whoever made it, without working it out again. Accepted is
/// the schedule that [`schedule`](crate::schedule) writes for the sheet, by its own
/// [`Edition`](crate::Edition), its own [`popups`](crate::popups()) and its own
/// [`Shape`](crate::Shape), and no other: an accepted sheet is, byte for byte, what scheduling
/// it gives, and what holds of a scheduled sheet holds of it.
///
/// [`check`](crate::check) accepts other schedules, too, in which marks stay or go later, or
/// name another mark. Scheduling replaces these.
///
/// # Errors
///
/// Asks [1 to 10](Refusal), and [22](Refusal::Judgement).
pub fn judge(sheet: &[u8]) -> Result<(), Refusal> {
    let value = ffi::judge(sheet).settle(0)?;
    debug_assert_eq!(value, 0, "an accepted schedule has no value");
    Ok(())
}
