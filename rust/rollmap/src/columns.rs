//! Marks by columns, as an archive stores them, and back.

use crate::{ffi, Refusal};

/// Rearranges marks, as part 1 has them, by columns into `out`: all x, then all y, radii,
/// priorities, kinds and tags, so that like stands with like. Each x after the first is
/// replaced by its difference from the x before, modulo 65,536, and each y likewise. Answers
/// the number of bytes written, as many as `marks` has; bytes past these stay as they are.
/// [`from_columns`] gives the marks back byte for byte, whatever they hold.
///
/// # Errors
///
/// Asks [4](Refusal::Marks) of the marks and [13](Refusal::Buffer) of `out`; kinds and radii
/// are not looked at. A refused call writes nothing.
pub fn to_columns(marks: &[u8], out: &mut [u8]) -> Result<usize, Refusal> {
    let written = ffi::to_columns(marks, out).settle(0)?;
    Ok(written as usize)
}

/// Rearranges marks by columns into a buffer of its own.
///
/// # Errors
///
/// Asks [4](Refusal::Marks).
pub fn to_columns_vec(marks: &[u8]) -> Result<Vec<u8>, Refusal> {
    let mut out = vec![0; marks.len()];
    to_columns(marks, &mut out)?;
    Ok(out)
}

/// Rearranges columns, as [`to_columns`] writes them, into marks in `out`, as part 1 has
/// them, and answers the number of bytes written, as many as `columns` has; bytes past these
/// stay as they are. Every run of bytes that 4 takes is the columns of some marks, and
/// [`to_columns`] gives it back byte for byte.
///
/// # Errors
///
/// Asks [4](Refusal::Marks) of the columns, as of part 1, and [13](Refusal::Buffer) of `out`;
/// kinds and radii are not looked at. A refused call writes nothing.
pub fn from_columns(columns: &[u8], out: &mut [u8]) -> Result<usize, Refusal> {
    let written = ffi::from_columns(columns, out).settle(0)?;
    Ok(written as usize)
}

/// Rearranges columns into marks in a buffer of its own.
///
/// # Errors
///
/// Asks [4](Refusal::Marks).
pub fn from_columns_vec(columns: &[u8]) -> Result<Vec<u8>, Refusal> {
    let mut out = vec![0; columns.len()];
    from_columns(columns, &mut out)?;
    Ok(out)
}
