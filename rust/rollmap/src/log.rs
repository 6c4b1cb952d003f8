//! Logs from the winder, turned into marks and back.

use crate::{ffi, Refusal, MARK_BYTES};

/// Bytes of a record in a log: x and y as packed decimal, 3 bytes each, then radius,
/// priority, kind and tag as in part 1.
pub const LOG_RECORD_BYTES: usize = 13;

/// Turns a log into marks in `out`, as part 1 has them, and answers the number of
/// bytes written, [`MARK_BYTES`] a record; bytes past these stay as they are. The
/// marks, turned back, are the log byte for byte.
///
/// # Errors
///
/// Asks [4](Refusal::Marks) of the log; record by record [15](Refusal::Packed) and
/// [16](Refusal::Place) of x and then of y, [5](Refusal::Kind) and
/// [6](Refusal::Radius); and [13](Refusal::Buffer) of `out`. A refused call writes
/// nothing.
pub fn log_to_marks(log: &[u8], out: &mut [u8]) -> Result<usize, Refusal> {
    let written = ffi::log_to_marks(log, out).settle(0)?;
    Ok(written as usize)
}

/// Turns a log into marks in a buffer of its own.
///
/// # Errors
///
/// Asks what [`log_to_marks`] asks of the log.
pub fn log_to_marks_vec(log: &[u8]) -> Result<Vec<u8>, Refusal> {
    let mut out = vec![0; log.len() / LOG_RECORD_BYTES * MARK_BYTES];
    log_to_marks(log, &mut out)?;
    Ok(out)
}

/// Turns marks, as part 1 has them, into a log in `out`, and answers the number of
/// bytes written, [`LOG_RECORD_BYTES`] a mark; bytes past these stay as they are. The
/// log, turned back, is the marks byte for byte.
///
/// # Errors
///
/// Asks [4, then 5 and 6 mark by mark](Refusal), and [13](Refusal::Buffer) of `out`.
/// A refused call writes nothing.
pub fn marks_to_log(marks: &[u8], out: &mut [u8]) -> Result<usize, Refusal> {
    let written = ffi::marks_to_log(marks, out).settle(0)?;
    Ok(written as usize)
}

/// Turns marks into a log in a buffer of its own.
///
/// # Errors
///
/// Asks [4, then 5 and 6 mark by mark](Refusal).
pub fn marks_to_log_vec(marks: &[u8]) -> Result<Vec<u8>, Refusal> {
    let mut out = vec![0; marks.len() / MARK_BYTES * LOG_RECORD_BYTES];
    marks_to_log(marks, &mut out)?;
    Ok(out)
}
