//! The shape of labels, and how far apart places lie by it (01, 'Touching, rank, removal'; 02,
//! request 13).

/// What the labels of a sheet are drawn as. "Without it disks are meant": without part 7.
#[derive(Clone, Copy, Debug, Default, PartialEq, Eq)]
pub enum Shape {
    /// Disks, which go by the length of the straight line between two places.
    #[default]
    Disk,
    /// Upright squares: "for squares the distance is the larger of the x and y differences".
    Square,
}

impl Shape {
    /// Both shapes.
    pub const ALL: [Self; 2] = [Self::Disk, Self::Square];

    /// The shape that a part 7 names, none where it is not one byte of 1 or 2.
    #[inline]
    pub fn read(part_7: &[u8]) -> Option<Self> {
        match part_7 {
            [1] => Some(Self::Disk),
            [2] => Some(Self::Square),
            _ => None,
        }
    }

    /// The part 7 that names the shape.
    #[inline]
    pub fn write(self) -> [u8; 1] {
        match self {
            Self::Disk => [1],
            Self::Square => [2],
        }
    }

    /// The squared distance of two places that lie so far apart along x and along y.
    #[inline]
    pub fn squared_distance(self, dx: i32, dy: i32) -> u64 {
        let [dx, dy] = [dx, dy].map(|difference| u64::from(difference.unsigned_abs()));
        match self {
            Self::Disk => dx * dx + dy * dy,
            Self::Square => {
                let larger = dx.max(dy);
                larger * larger
            }
        }
    }
}

#[cfg(test)]
mod tests {
    use super::Shape::{Disk, Square};
    use super::*;

    #[test]
    fn part_7_is_one_byte_of_1_or_2() {
        for shape in Shape::ALL {
            assert_eq!(Shape::read(&shape.write()), Some(shape));
        }
        assert_eq!([Disk.write(), Square.write()], [[1], [2]]);
        for other in [&[][..], &[0], &[3], &[255], &[1, 0], &[2, 2]] {
            assert_eq!(Shape::read(other), None);
        }
        assert_eq!(Shape::default(), Disk);
    }

    #[test]
    fn the_squares_are_taken_in_64_bits_at_both_ends() {
        for d in [-65_535, 65_535] {
            for shape in Shape::ALL {
                assert_eq!(shape.squared_distance(d, 0), 4_294_836_225);
                assert_eq!(shape.squared_distance(0, d), 4_294_836_225);
            }
            assert_eq!(Disk.squared_distance(d, -d), 8_589_672_450);
            assert_eq!(Square.squared_distance(d, -d), 4_294_836_225);
        }
        // From a turned place to an edge it is one more.
        assert_eq!(Disk.squared_distance(65_536, -65_536), 1 << 33);
        assert_eq!(Square.squared_distance(65_536, -65_536), 1 << 32);
    }

    #[test]
    fn the_larger_difference_counts_for_squares() {
        assert_eq!(Disk.squared_distance(30, 40), 2_500);
        for (dx, dy) in [(30, 40), (40, 30), (-40, 40), (0, -40), (-40, -39)] {
            assert_eq!(Square.squared_distance(dx, dy), 1_600);
        }
    }

    #[test]
    fn the_distance_does_not_fall_where_a_difference_grows() {
        for (dx, dy) in (0..9).flat_map(|dx| (0..9).map(move |dy| (dx, dy))) {
            for shape in Shape::ALL {
                let squared = |dx, dy| shape.squared_distance(dx, dy);
                assert!(squared(dx, dy) <= squared(dx + 1, dy));
                assert!(squared(dx, dy) <= squared(dx, dy + 1));
                assert!(squared(dx, dy) < squared(dx + 1, dy + 1));
                assert_eq!(squared(dx, dy), squared(-dx, dy));
                assert_eq!(squared(dx, dy), squared(dx, -dy));
                assert_eq!(squared(dx, dy), squared(dy, dx));
            }
            // Squares are no further apart than disks, and as far along an axis.
            let [disk, square] = Shape::ALL.map(|shape| shape.squared_distance(dx, dy));
            assert!(square <= disk && disk <= 2 * square);
            assert_eq!(square == disk, dx == 0 || dy == 0);
        }
    }
}
