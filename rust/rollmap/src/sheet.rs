//! Checking, scheduling and putting together a sheet, and reading its parts.

use crate::{
    ffi, part, popups_bytes, Code, Refusal, COUNTED_BYTES, EDITION_BYTES, MARK_BYTES, SHAPE_BYTES,
};

/// The most marks a sheet has.
pub const MOST_MARKS: usize = 4_096;

/// Bytes of the contents of a sheet of so many parts, which its first body follows.
pub const fn contents_bytes(parts: usize) -> usize {
    2 + 10 * parts
}

/// Bytes of the work buffer that scheduling n marks borrows.
pub const fn work_bytes(n: usize) -> usize {
    32 * n + 1_024
}

/// Bytes of the sheet that scheduling n marks writes, where it has no part beyond 3;
/// [`EDITION_BYTES`] more where part 4 is there, [`popups_bytes`] of the marks where part 5
/// is, [`COUNTED_BYTES`] where part 6 is, and [`SHAPE_BYTES`] where part 7 is.
pub const fn scheduled_bytes(n: usize) -> usize {
    32 + 27 * n
}

/// A work buffer that is lent to what schedules marks: at least [`work_bytes`] of the
/// marks, which hold anything before, and anything after a success. It has a type of its
/// own so that it cannot be taken for the buffer that is written.
#[derive(Debug)]
pub struct Work<'a>(pub &'a mut [u8]);

/// Checks a sheet.
///
/// # Errors
///
/// Asks [1 to 9](Refusal).
pub fn check(sheet: &[u8]) -> Result<(), Refusal> {
    let value = ffi::check(sheet).settle(0)?;
    debug_assert_eq!(value, 0, "an accepted sheet has no value");
    Ok(())
}

/// Schedules a sheet afresh into `out`, by its own [`Edition`](crate::Edition), its own
/// [`popups`](crate::popups()) and its own [`Shape`](crate::Shape), with its index, whatever
/// schedule it has. Parts 4, 5 and 7 are kept, where it has them, and part 6 is renewed: its
/// [`Counts`](crate::Counts) are then those of the new schedule. Answers the number of bytes
/// written: [`scheduled_bytes`] of its marks, [`EDITION_BYTES`] with part 4, [`popups_bytes`]
/// of its marks with part 5, [`COUNTED_BYTES`] with part 6, and [`SHAPE_BYTES`] with part 7.
/// Bytes past these stay as they are.
///
/// # Errors
///
/// Asks [1 to 9](Refusal), and [13](Refusal::Buffer) of both buffers. A refused call
/// writes to neither.
pub fn schedule(sheet: &[u8], work: Work<'_>, out: &mut [u8]) -> Result<usize, Refusal> {
    let written = ffi::schedule(sheet, work.0, out).settle(0)?;
    Ok(written as usize)
}

/// Schedules a sheet afresh, in buffers of its own, and answers the scheduled one.
///
/// # Errors
///
/// Asks [1 to 9](Refusal).
pub fn schedule_to_vec(sheet: &[u8]) -> Result<Vec<u8>, Refusal> {
    let n = mark_count(sheet).unwrap_or(0);
    scheduled_to_vec(n, |work, out| schedule(sheet, work, out))
}

/// What a call writes that schedules n marks, in buffers of its own, with room for the
/// parts beyond 3.
pub(crate) fn scheduled_to_vec(
    n: usize,
    call: impl FnOnce(Work<'_>, &mut [u8]) -> Result<usize, Refusal>,
) -> Result<Vec<u8>, Refusal> {
    let mut work = vec![0; work_bytes(n)];
    let beyond = EDITION_BYTES + popups_bytes(n) + COUNTED_BYTES + SHAPE_BYTES;
    let mut out = vec![0; scheduled_bytes(n) + beyond];
    let written = call(Work(&mut work), &mut out)?;
    out.truncate(written);
    Ok(out)
}

/// Puts parts together into a sheet in `out`, and answers the number of bytes written:
/// [`contents_bytes`] of the parts, and their bodies. Bytes past the sheet stay as they are.
///
/// # Errors
///
/// Asks [1](Refusal::Contents) of the number of parts, [2](Refusal::Codes) of their codes,
/// [4 to 9](Refusal) of the bodies, and [13](Refusal::Buffer) of `out`. A refused call
/// writes nothing.
pub fn assemble(parts: &[(Code, &[u8])], out: &mut [u8]) -> Result<usize, Refusal> {
    let written = ffi::assemble(parts, out).settle(0)?;
    Ok(written as usize)
}

/// Puts parts together in a buffer of its own, and answers the sheet.
///
/// # Errors
///
/// Asks what [`assemble`] asks of the parts.
pub fn assemble_to_vec(parts: &[(Code, &[u8])]) -> Result<Vec<u8>, Refusal> {
    let bodies: usize = parts.iter().map(|(_, body)| body.len()).sum();
    let mut out = vec![0; contents_bytes(parts.len()) + bodies];
    assemble(parts, &mut out)?;
    Ok(out)
}

/// The number of marks of an accepted sheet, none of a refused one.
pub fn mark_count(sheet: &[u8]) -> Option<usize> {
    part(sheet, Code::Marks).map(|marks| marks.len() / MARK_BYTES)
}
