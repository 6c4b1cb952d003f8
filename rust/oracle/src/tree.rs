//! The index of part 3 (01, 'The sheet: contents, then bodies').

use std::cmp::Ordering;

use crate::fraction::Removal;
use crate::mark::Mark;
use crate::record::{removals, Record};

/// Bytes a mark takes in part 3.
pub const INDEX_BYTES: usize = 2;

/// The coordinate that orders the marks below a root.
#[derive(Clone, Copy, Debug, PartialEq, Eq)]
pub enum Axis {
    X,
    Y,
}

impl Axis {
    /// The axis of the top level.
    pub const TOP: Self = Self::X;

    /// The axis one level down.
    #[inline]
    pub fn next(self) -> Self {
        match self {
            Self::X => Self::Y,
            Self::Y => Self::X,
        }
    }

    /// The mark's coordinate on this axis.
    #[inline]
    pub fn of(self, mark: &Mark) -> i16 {
        match self {
            Self::X => mark.x,
            Self::Y => mark.y,
        }
    }

    /// What orders a mark with its number on this axis.
    #[inline]
    pub fn key(self, mark: &Mark, number: usize) -> AxisKey {
        let shifted = i32::from(self.of(mark)) - i32::from(i16::MIN);
        AxisKey((shifted as u32) << 16 | number as u32)
    }
}

/// The order of a mark on an axis as one number: by the coordinate, equal coordinates
/// by number.
#[derive(Clone, Copy, Debug, PartialEq, Eq, PartialOrd, Ord)]
pub struct AxisKey(u32);

impl AxisKey {
    /// The mark's number.
    #[inline]
    pub fn number(self) -> u16 {
        self.0 as u16
    }
}

/// Whether mark number `a` is a root before mark number `b`, given the order of their
/// removal values: it is removed later, or at an equal value and has the lower number.
#[inline]
pub fn beats(removed: Ordering, a: usize, b: usize) -> bool {
    removed.is_gt() || (removed.is_eq() && a < b)
}

/// How many of so many marks below a root are in its left subtree: the first half,
/// the larger when uneven.
#[inline]
pub fn half(others: usize) -> usize {
    others.div_ceil(2)
}

/// A tree as it is written: root, left, right. None where it has no marks.
#[inline]
pub fn branches<T>(tree: &[T]) -> Option<(&T, &[T], &[T])> {
    let (root, others) = tree.split_first()?;
    let (left, right) = others.split_at(half(others.len()));
    Some((root, left, right))
}

/// The tree that marks and their records give, as mark numbers written root,
/// left, right; the top level goes by x.
pub fn build(marks: &[Mark], records: &[Record]) -> Vec<u16> {
    let numbers = (0..marks.len()).collect();
    let tree = subtree(marks, &removals(records), numbers, Axis::TOP);
    tree.into_iter()
        .map(|number| u16::try_from(number).expect("a sheet has at most 4,096 marks"))
        .collect()
}

/// The tree of some of the marks. The others than its root are ordered on the
/// axis, and their first half is the left subtree.
fn subtree(
    marks: &[Mark],
    removals: &[Removal],
    mut numbers: Vec<usize>,
    axis: Axis,
) -> Vec<usize> {
    let Some(root) = removed_last(removals, &numbers) else {
        return Vec::new();
    };
    numbers.retain(|&number| number != root);
    numbers.sort_by_key(|&number| axis.key(&marks[number], number));
    let right = numbers.split_off(half(numbers.len()));
    let mut tree = vec![root];
    tree.extend(subtree(marks, removals, numbers, axis.next()));
    tree.extend(subtree(marks, removals, right, axis.next()));
    tree
}

/// Of the numbered marks the one removed last, which beats all others.
fn removed_last(removals: &[Removal], numbers: &[usize]) -> Option<usize> {
    let better = |a: usize, b: usize| beats(removals[a].compare(removals[b]), a, b);
    let candidates = numbers.iter().copied();
    candidates.reduce(|best, number| if better(number, best) { number } else { best })
}

/// Reads a number of part 3.
#[inline]
pub fn read_number(bytes: &[u8; INDEX_BYTES]) -> u16 {
    u16::from_le_bytes(*bytes)
}

/// Writes a number of part 3.
#[inline]
pub fn write_number(number: &u16) -> [u8; INDEX_BYTES] {
    number.to_le_bytes()
}

/// Reads part 3: all its numbers, a body of even length.
pub fn read_tree(part_3: &[u8]) -> Vec<u16> {
    part_3.as_chunks().0.iter().map(read_number).collect()
}

/// Writes part 3.
pub fn write_tree(tree: &[u16]) -> Vec<u8> {
    tree.iter().flat_map(write_number).collect()
}

#[cfg(test)]
mod tests {
    use super::*;
    use crate::fraction::Fraction;

    fn at(x: i16, y: i16) -> Mark {
        Mark::plain(x, y, 1, 0)
    }

    /// Records whose removal values are these over 4, in the order of the marks.
    fn removed_at(quarters: &[u64]) -> Vec<Record> {
        let records = quarters.iter();
        records
            .map(|&quarter| Record::removed(0, Fraction::new(quarter, 4)))
            .collect()
    }

    #[test]
    fn no_marks_give_no_tree_and_one_mark_is_its_root() {
        assert!(build(&[], &[]).is_empty());
        assert_eq!(build(&[at(5, 5)], &[Record::NEVER]), [0]);
    }

    #[test]
    fn never_is_removed_last_and_equal_values_go_by_number() {
        let marks = [at(0, 0), at(1, 0), at(2, 0)];
        let mut records = removed_at(&[100, 400, 0]);
        records[2] = Record::NEVER;
        assert_eq!(build(&marks, &records), [2, 0, 1]);
        records[0] = Record::NEVER;
        assert_eq!(build(&marks, &records), [0, 1, 2]);
        let equal = [
            Record::removed(0, Fraction::new(24, 1)),
            Record::removed(0, Fraction::new(100, 4)),
            Record::removed(0, Fraction::new(25, 1)),
        ];
        assert_eq!(build(&marks, &equal), [1, 0, 2]);
    }

    #[test]
    fn x_orders_the_top_level_and_y_the_next() {
        // The root is 0. By x the others are 1, 2, 3 | 4, 5, 6; by y 3 comes
        // before 1 below the left head 2, and 6 before 5 below the right head 4.
        let marks = [
            at(0, 0),
            at(10, 9),
            at(20, 0),
            at(30, -9),
            at(40, 0),
            at(50, 7),
            at(60, -7),
        ];
        let records = removed_at(&[90, 10, 20, 10, 20, 10, 10]);
        assert_eq!(build(&marks, &records), [0, 2, 3, 1, 4, 6, 5]);
    }

    #[test]
    fn x_orders_the_third_level_again() {
        // Values are equal, so the lowest number heads each block, and y falls as
        // x rises. By x the others are 1 to 7 | 8 to 14. Below head 1 they are by
        // y 7 6 5 | 4 3 2, and below heads 5 and 2 by x 6 | 7 and 3 | 4.
        let marks: Vec<Mark> = (0..15).map(|i| at(i, -i)).collect();
        let left = [1, 5, 6, 7, 2, 3, 4];
        let right = [8, 12, 13, 14, 9, 10, 11];
        let tree = [[0].as_slice(), &left, &right].concat();
        assert_eq!(build(&marks, &removed_at(&[4; 15])), tree);
    }

    #[test]
    fn the_larger_half_is_on_the_left() {
        // Three others by x: 3, 2 | 1. Below head 2 stands 3, and 1 is alone.
        let marks = [at(0, 0), at(30, 0), at(20, 0), at(10, 0)];
        let records = removed_at(&[9, 1, 2, 1]);
        assert_eq!(build(&marks, &records), [0, 2, 3, 1]);
    }

    #[test]
    fn equal_coordinates_go_by_number_and_not_by_the_other_coordinate() {
        let marks = [at(0, 0), at(5, 9), at(5, 1)];
        assert_eq!(build(&marks, &removed_at(&[9, 1, 1])), [0, 1, 2]);
    }

    #[test]
    fn keys_are_in_order_from_end_to_end_of_the_range() {
        let places = [i16::MIN, -1, 0, 1, i16::MAX];
        let keys = places.map(|x| [0, 1, 4_095].map(|number| Axis::X.key(&at(x, 0), number)));
        assert!(keys.as_flattened().is_sorted_by(|a, b| a < b));
        assert_eq!(Axis::Y.key(&at(7, 3), 9), Axis::X.key(&at(3, 7), 9));
    }

    #[test]
    fn a_tree_is_its_root_and_two_halves() {
        assert_eq!(branches::<u16>(&[]), None);
        assert_eq!(branches(&[5]), Some((&5, &[][..], &[][..])));
        assert_eq!(branches(&[5, 6]), Some((&5, &[6][..], &[][..])));
        assert_eq!(branches(&[5, 6, 7, 8]), Some((&5, &[6, 7][..], &[8][..])));
    }

    #[test]
    fn numbers_are_read_as_they_are_written() {
        assert_eq!(write_tree(&[1, 258]), [1, 0, 2, 1]);
        assert_eq!(read_tree(&[1, 0, 2, 1]), [1, 258]);
    }
}
