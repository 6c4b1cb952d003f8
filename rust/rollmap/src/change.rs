//! Marks that come and go: adding one to a scheduled sheet, and taking one out.

use crate::sheet::scheduled_to_vec;
use crate::{ffi, mark_count, Mark, Refusal, Work};

/// Adds a mark at the end of a sheet's marks, where its number is the old number of
/// marks, and schedules the new marks afresh into `out`: the sheet written is the one
/// that [`schedule`](crate::schedule) writes for them, with the sheet's parts 4, 5 and 7, if
/// it has them, and a part 6 with the new counts, if it has one. Where it has a part 5,
/// `popup` comes to its end; where it has none, `popup` is [`NO_POPUP`](crate::NO_POPUP),
/// and none is written. Answers the number of bytes written, which goes by the new number of
/// marks as it does there; bytes past these stay as they are. `work` is as long as
/// scheduling that many marks asks for.
///
/// # Errors
///
/// Asks [1 to 10](Refusal) of the sheet, [18](Refusal::Full), [5](Refusal::Kind) and
/// [6](Refusal::Radius) of the new mark, [21](Refusal::Popups) of its popup, and
/// [13](Refusal::Buffer) of both buffers. A refused call writes to neither.
pub fn add(
    sheet: &[u8],
    mark: Mark,
    popup: u32,
    work: Work<'_>,
    out: &mut [u8],
) -> Result<usize, Refusal> {
    let written = ffi::add(sheet, mark, popup, work.0, out).settle(0)?;
    Ok(written as usize)
}

/// Adds a mark in buffers of its own, and answers the new sheet. The old one is checked
/// twice for that.
///
/// # Errors
///
/// Asks what [`add`] asks of the sheet, of the new mark and of its popup.
pub fn add_to_vec(sheet: &[u8], mark: Mark, popup: u32) -> Result<Vec<u8>, Refusal> {
    let n = mark_count(sheet).unwrap_or(0);
    scheduled_to_vec(n + 1, |work, out| add(sheet, mark, popup, work, out))
}

/// Takes mark `m` out of a sheet's marks, so that each higher number becomes one less, and
/// schedules the others afresh into `out`: the sheet written is the one that
/// [`schedule`](crate::schedule) writes for them, with the sheet's parts 4, 5 and 7, if it has
/// them, and a part 6 with the new counts, if it has one; the popup of mark `m` goes with it.
/// Answers the number of bytes written, which goes by the new number of marks as it does
/// there; bytes past these stay as they are. `work` is as long as scheduling that many marks
/// asks for.
///
/// Where a mark is added to a sheet that this library scheduled, and that mark is taken
/// out again, the old bytes come back.
///
/// # Errors
///
/// Asks [1 to 10](Refusal) of the sheet, [17](Refusal::Missing) of `m`, and
/// [13](Refusal::Buffer) of both buffers. A refused call writes to neither.
pub fn take_out(sheet: &[u8], m: u32, work: Work<'_>, out: &mut [u8]) -> Result<usize, Refusal> {
    let written = ffi::take_out(sheet, m, work.0, out).settle(0)?;
    Ok(written as usize)
}

/// Takes a mark out in buffers of its own, and answers the new sheet. The old one is
/// checked twice for that.
///
/// # Errors
///
/// Asks what [`take_out`] asks of the sheet and of `m`.
pub fn take_out_to_vec(sheet: &[u8], m: u32) -> Result<Vec<u8>, Refusal> {
    let n = mark_count(sheet).unwrap_or(0);
    scheduled_to_vec(n.saturating_sub(1), |work, out| {
        take_out(sheet, m, work, out)
    })
}
