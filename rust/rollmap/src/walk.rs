//! Reading a view's map: one mark, or a walk over the shown ones.

use std::iter::FusedIterator;

use crate::{ffi, Refusal};

/// What the library answers where it finds no mark.
const NO_MARK: u32 = 65_535;

/// The least shown number at or after `start` and below `n` in a map of `n` marks.
/// Bits at or past `n` are ignored.
///
/// # Errors
///
/// Asks [13](Refusal::Buffer): the map has at least [`map_bytes`](crate::map_bytes) of the marks, and
/// there are at most 4,096.
pub fn walk(map: &[u8], n: u32, start: u32) -> Result<Option<u32>, Refusal> {
    let mark = ffi::walk(map, n, start).settle(NO_MARK)?;
    Ok((mark != NO_MARK).then_some(mark))
}

/// Whether a map of `n` marks shows that mark; no where the mark is not below `n`.
///
/// # Errors
///
/// Asks 13, as [`walk`] does.
pub fn is_shown(map: &[u8], n: u32, mark: u32) -> Result<bool, Refusal> {
    let bit = ffi::is_shown(map, n, mark).settle(0)?;
    Ok(bit == 1)
}

/// The numbers of the shown marks in a map of `n` marks, rising.
///
/// # Errors
///
/// Asks [13](Refusal::Buffer), as [`walk`] does.
pub fn shown(map: &[u8], n: u32) -> Result<Shown<'_>, Refusal> {
    let next = walk(map, n, 0)?;
    Ok(Shown { map, n, next })
}

/// The numbers of the shown marks in a map, rising.
#[derive(Clone, Debug)]
pub struct Shown<'a> {
    map: &'a [u8],
    n: u32,
    next: Option<u32>,
}

impl Iterator for Shown<'_> {
    type Item = u32;

    fn next(&mut self) -> Option<u32> {
        let mark = self.next?;
        let following = walk(self.map, self.n, mark + 1);
        self.next = following.expect("the map was taken when the walk began");
        Some(mark)
    }

    fn size_hint(&self) -> (usize, Option<usize>) {
        let left = self.next.map_or(0, |next| {
            ones_below(self.map, self.n) - ones_below(self.map, next)
        });
        (left, Some(left))
    }
}

impl ExactSizeIterator for Shown<'_> {}

impl FusedIterator for Shown<'_> {}

/// The number of set bits below bit `end`, which is at most the map's length in bits.
fn ones_below(map: &[u8], end: u32) -> usize {
    let (whole, rest) = (end as usize / 8, end % 8);
    let ones: u32 = map[..whole].iter().map(|byte| byte.count_ones()).sum();
    let last = map.get(whole).map_or(0, |byte| byte & ((1 << rest) - 1));
    (ones + last.count_ones()) as usize
}
