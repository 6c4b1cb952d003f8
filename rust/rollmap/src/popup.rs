//! Popups: the zooms from which the marks of a sheet are there.

use crate::{mark_count, part, Code};

/// Bytes a popup takes in part 5.
pub const POPUP_BYTES: usize = 4;

/// The largest popup: 64 times the largest zoom.
pub const LARGEST_POPUP: u32 = 65_536;

/// The popup of a mark that is there from the start, which each mark has where a sheet has
/// no part 5.
pub const NO_POPUP: u32 = 0;

/// Bytes that part 5 adds to a sheet of n marks: 10 of contents, and its body.
pub const fn popups_bytes(n: usize) -> usize {
    10 + POPUP_BYTES * n
}

/// The popups of an accepted sheet, by the number of the mark, [`NO_POPUP`] for each where
/// it has no part 5; none of a refused one. A mark with popup k is not there while 64 times
/// the zoom is below k: no view shows it, and it removes no other mark.
///
/// Scheduling, adding and taking out carry part 5 along. Whether a sheet has one,
/// [`part`](crate::part) says of [`Code::Popups`](crate::Code::Popups).
pub fn popups(
    sheet: &[u8],
) -> Option<impl DoubleEndedIterator<Item = u32> + ExactSizeIterator + '_> {
    let n = mark_count(sheet)?;
    let part_5 = part(sheet, Code::Popups).unwrap_or_default();
    let (popups, _) = part_5.as_chunks::<POPUP_BYTES>();
    let popup = |m| popups.get(m).copied().map_or(NO_POPUP, u32::from_le_bytes);
    Some((0..n).map(popup))
}

/// Part 5 with these popups, which [`assemble`](crate::assemble) takes with
/// [`Code::Popups`](crate::Code::Popups). Any can be written: it asks whether there is one
/// for each mark, and none above [`LARGEST_POPUP`].
pub fn popups_to_vec(popups: &[u32]) -> Vec<u8> {
    popups
        .iter()
        .flat_map(|popup| popup.to_le_bytes())
        .collect()
}

#[cfg(test)]
mod tests {
    use super::*;

    #[test]
    fn popups_stand_little_endian() {
        let part_5 = popups_to_vec(&[258, LARGEST_POPUP]);
        assert_eq!(part_5, [2, 1, 0, 0, 0, 0, 1, 0]);
    }

    #[test]
    fn part_5_adds_10_bytes_and_4_a_mark() {
        assert_eq!([0, 1, 4_096].map(popups_bytes), [10, 14, 16_394]);
    }
}
