//! Filling marks, and rescuing a sheet that was scheduled by the old house radii.

use crate::{assemble_to_vec, check, ffi, Code, Refusal};

/// Where the contents have the offset and the length of part 1, which is the first.
const OFFSET_AT: usize = 4;
const LENGTH_AT: usize = 8;

/// Fills marks into `out`: the same marks, each radius 0 written as the number in
/// the old table, in which a moisture patch has 120. Answers the number of bytes
/// written, as many as `marks` has; bytes past these stay as they are. Filled marks
/// have no radius 0, and filling them again gives the same bytes.
///
/// # Errors
///
/// Asks [4, then 5 and 6 mark by mark](Refusal), and [13](Refusal::Buffer) of `out`.
/// A refused call writes nothing.
pub fn fill(marks: &[u8], out: &mut [u8]) -> Result<usize, Refusal> {
    let written = ffi::fill(marks, out).settle(0)?;
    Ok(written as usize)
}

/// Fills marks into a buffer of its own.
///
/// # Errors
///
/// Asks [4, then 5 and 6 mark by mark](Refusal).
pub fn fill_to_vec(marks: &[u8]) -> Result<Vec<u8>, Refusal> {
    let mut out = vec![0; marks.len()];
    let written = fill(marks, &mut out)?;
    out.truncate(written);
    Ok(out)
}

/// Rescues a sheet that was scheduled when the house radius of moisture patches was
/// 120, and now meets [`Refusal::Schedule`]: cuts its part 1 out by the contents,
/// fills it, and puts it together afresh. The sheet that it answers has one part
/// and is accepted; scheduling it gives the old removal values. Such a sheet is older
/// than the second edition, than popups, counts and shapes, and has none of parts 4 to 7.
///
/// # Errors
///
/// Asks [1 to 3](Refusal) of the sheet, and 4 to 6 of its marks. Its other parts are not
/// looked at.
pub fn rescue(sheet: &[u8]) -> Result<Vec<u8>, Refusal> {
    let filled = fill_to_vec(cut_marks(sheet)?)?;
    assemble_to_vec(&[(Code::Marks, &filled)])
}

/// Part 1, cut out by the contents. Asks 1 to 3: a refusal by a later question says
/// that these were answered with yes.
fn cut_marks(sheet: &[u8]) -> Result<&[u8], Refusal> {
    match check(sheet) {
        Err(refusal @ (Refusal::Contents | Refusal::Codes | Refusal::Bodies)) => Err(refusal),
        _ => {
            let offset = number_at(sheet, OFFSET_AT);
            Ok(&sheet[offset..offset + number_at(sheet, LENGTH_AT)])
        }
    }
}

/// The number of 4 bytes at that place.
fn number_at(sheet: &[u8], at: usize) -> usize {
    let mut bytes = [0; 4];
    bytes.copy_from_slice(&sheet[at..at + 4]);
    u32::from_le_bytes(bytes) as usize
}
