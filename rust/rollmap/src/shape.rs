//! Shapes: what the labels of a sheet are drawn as.

use crate::part::named;
use crate::Code;

/// Bytes that part 7 adds to a sheet: 10 of contents, and its body.
pub const SHAPE_BYTES: usize = 11;

/// The shape of a sheet's labels, by which two of them touch and one reaches a view's
/// rectangle. A sheet names its own in part 7, and scheduling, adding, taking out and counting
/// keep it.
///
/// ```
/// use rollmap::{assemble_to_vec, marks_to_vec, records, schedule_to_vec};
/// use rollmap::{Code, Mark, Record, Refusal, Shape};
///
/// // Two marks that lie 30 apart along x, and 40 along y.
/// let mark = |x, y, priority| Mark { x, y, radius: 10, priority, kind: 0, tag: 0 };
/// let marks = marks_to_vec(&[mark(0, 0, 9), mark(30, 40, 5)]);
/// let gone = |shape: Shape| {
///     let sheet = [(Code::Marks, &marks[..]), (Code::Shape, &shape.to_bytes())];
///     let scheduled = schedule_to_vec(&assemble_to_vec(&sheet)?)?;
///     Ok::<_, Refusal>(records(&scheduled).unwrap().last())
/// };
///
/// let at = |numerator| Record::Removed { eliminator: 0, numerator, denominator: 400 };
/// assert_eq!(gone(Shape::Disk)?, Some(at(50 * 50)));
/// assert_eq!(gone(Shape::Square)?, Some(at(40 * 40)));
/// # Ok::<(), rollmap::Refusal>(())
/// ```
#[derive(Clone, Copy, Debug, Default, PartialEq, Eq, Hash)]
pub enum Shape {
    /// Disks: the distance of two places is the length of the straight line between them. This
    /// shape is meant where a sheet names none.
    #[default]
    Disk,
    /// Upright squares: the distance of two places is the larger of the differences of their x
    /// and of their y. A view of squares takes no [`Turn`](crate::Turn) but
    /// [`None`](crate::Turn::None).
    Square,
}

impl Shape {
    /// Reads part 7, none where it names no shape.
    pub const fn from_bytes(bytes: [u8; 1]) -> Option<Self> {
        match bytes {
            [1] => Some(Self::Disk),
            [2] => Some(Self::Square),
            _ => None,
        }
    }

    /// Writes part 7, which [`assemble`](crate::assemble) takes with
    /// [`Code::Shape`](crate::Code::Shape).
    pub const fn to_bytes(self) -> [u8; 1] {
        match self {
            Self::Disk => [1],
            Self::Square => [2],
        }
    }
}

/// The shape of an accepted sheet's labels, none of a refused one.
pub fn shape(sheet: &[u8]) -> Option<Shape> {
    named(sheet, Code::Shape, Shape::from_bytes)
}

#[cfg(test)]
mod tests {
    use super::*;

    #[test]
    fn part_7_is_one_byte_of_1_or_2() {
        for byte in 0..=255 {
            let shape = Shape::from_bytes([byte]);
            assert_eq!(shape.is_some(), byte == 1 || byte == 2);
            assert!(shape.is_none_or(|shape| shape.to_bytes() == [byte]));
        }
        assert_eq!(Shape::Square.to_bytes(), [2]);
        assert_eq!(Shape::default(), Shape::Disk);
    }
}
