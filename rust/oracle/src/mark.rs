//! A mark, its radius, and when two touch (01, 'A mark' and 'Touching, rank,
//! removal').

use crate::bytes::{field, put};
use crate::fraction::Fraction;
use crate::label::Label;
use crate::shape::Shape;

/// Bytes a mark takes in part 1.
pub const MARK_BYTES: usize = 11;

/// Where the fields of a mark stand in its bytes.
pub(crate) const X_AT: usize = 0;
pub(crate) const Y_AT: usize = 2;
pub(crate) const RADIUS_AT: usize = 4;
pub(crate) const PRIORITY_AT: usize = 6;
pub(crate) const KIND_AT: usize = 8;
pub(crate) const TAG_AT: usize = 9;

/// The most marks a sheet has.
pub const MOST_MARKS: usize = 4_096;

/// The largest radius a mark is written with.
pub const LARGEST_RADIUS: u16 = 16_383;

/// The fields of a mark in the order they are written: place in map units,
/// radius in screen pixels, priority, kind, and a tag nobody interprets.
#[derive(Clone, Copy, Debug, PartialEq, Eq)]
pub struct Mark {
    pub x: i16,
    pub y: i16,
    pub radius: u16,
    pub priority: u16,
    pub kind: u8,
    pub tag: u16,
}

impl Mark {
    /// The mark of kind 0 and tag 0 with these fields, the way 01 gives its
    /// examples.
    pub const fn plain(x: i16, y: i16, radius: u16, priority: u16) -> Self {
        Self {
            x,
            y,
            radius,
            priority,
            kind: 0,
            tag: 0,
        }
    }

    /// Reads the 11 bytes of a mark.
    #[inline]
    pub fn read(bytes: &[u8; MARK_BYTES]) -> Self {
        Self {
            x: i16::from_le_bytes(field(bytes, X_AT)),
            y: i16::from_le_bytes(field(bytes, Y_AT)),
            radius: u16::from_le_bytes(field(bytes, RADIUS_AT)),
            priority: u16::from_le_bytes(field(bytes, PRIORITY_AT)),
            kind: bytes[KIND_AT],
            tag: u16::from_le_bytes(field(bytes, TAG_AT)),
        }
    }

    /// Writes the 11 bytes of a mark.
    pub fn write(&self) -> [u8; MARK_BYTES] {
        let mut bytes = [0; MARK_BYTES];
        put(&mut bytes, X_AT, self.x.to_le_bytes());
        put(&mut bytes, Y_AT, self.y.to_le_bytes());
        put(&mut bytes, RADIUS_AT, self.radius.to_le_bytes());
        put(&mut bytes, PRIORITY_AT, self.priority.to_le_bytes());
        bytes[KIND_AT] = self.kind;
        put(&mut bytes, TAG_AT, self.tag.to_le_bytes());
        bytes
    }

    /// The radius the mark grows with: its own, or the house radius of its kind
    /// where it is written with 0. None where that kind does not exist.
    #[inline]
    pub fn used_radius(&self) -> Option<u16> {
        match self.radius {
            0 => house_radius(self.kind),
            own => Some(own),
        }
    }

    /// The mark's place and used radius.
    ///
    /// # Panics
    ///
    /// On marks that question 5 refuses.
    #[inline]
    pub fn label(&self) -> Label {
        Label {
            x: self.x.into(),
            y: self.y.into(),
            radius: self.used_radius().expect("the kind exists").into(),
        }
    }
}

/// The groups that the kinds fall into.
#[derive(Clone, Copy, Debug, PartialEq, Eq)]
pub enum Group {
    Note,
    Spot,
    Streak,
    Patch,
    Break,
}

impl Group {
    /// The groups in the order of their kinds.
    pub const ALL: [Self; 5] = [
        Self::Note,
        Self::Spot,
        Self::Streak,
        Self::Patch,
        Self::Break,
    ];

    /// The group of a kind, none for a kind that does not exist.
    #[inline]
    pub fn of(kind: u8) -> Option<Self> {
        match kind {
            0..=9 => Some(Self::Note),
            10..=49 => Some(Self::Spot),
            50..=99 => Some(Self::Streak),
            100..=149 => Some(Self::Patch),
            150..=199 => Some(Self::Break),
            200..=255 => None,
        }
    }
}

/// The house radius of a kind, none for a kind that does not exist.
#[inline]
pub fn house_radius(kind: u8) -> Option<u16> {
    let radius = |group| match group {
        Group::Note => 40,
        Group::Spot => 60,
        Group::Streak => 90,
        Group::Patch => 150, // 02, request 2
        Group::Break => 200,
    };
    Group::of(kind).map(radius)
}

/// Reads part 1: all its marks, a body whose length is a multiple of 11.
pub fn read_marks(part_1: &[u8]) -> Vec<Mark> {
    part_1.as_chunks().0.iter().map(Mark::read).collect()
}

/// Writes part 1.
pub fn write_marks(marks: &[Mark]) -> Vec<u8> {
    marks.iter().flat_map(Mark::write).collect()
}

/// The touching value of two marks, whose radii question 6 takes: that of their labels,
/// which are of this shape.
///
/// # Panics
///
/// On marks that question 5 refuses.
#[inline]
pub fn touching_value(shape: Shape, a: &Mark, b: &Mark) -> Fraction {
    a.label().touching_value(b.label(), shape)
}

#[cfg(test)]
mod tests {
    use super::*;

    const MARK: Mark = Mark {
        x: -2,
        y: 259,
        radius: 16_383,
        priority: 65_534,
        kind: 199,
        tag: 4_660,
    };

    fn at(x: i16, y: i16, radius: u16) -> Mark {
        Mark {
            x,
            y,
            radius,
            ..MARK
        }
    }

    #[test]
    fn the_fields_stand_in_order_and_little_endian() {
        let bytes = [
            0xfe, 0xff, 0x03, 0x01, 0xff, 0x3f, 0xfe, 0xff, 199, 0x34, 0x12,
        ];
        assert_eq!(MARK.write(), bytes);
        assert_eq!(Mark::read(&bytes), MARK);
    }

    #[test]
    fn the_house_radius_changes_at_each_first_kind() {
        let firsts = [(0, 40), (10, 60), (50, 90), (100, 150), (150, 200)];
        for (first, radius) in firsts {
            assert_eq!(house_radius(first), Some(radius));
        }
        let lasts = [(9, 40), (49, 60), (99, 90), (149, 150), (199, 200)];
        for (last, radius) in lasts {
            assert_eq!(house_radius(last), Some(radius));
        }
        assert_eq!(house_radius(200), None);
        assert_eq!(house_radius(255), None);
    }

    #[test]
    fn only_radius_0_means_the_house_radius() {
        assert_eq!(at(0, 0, 0).used_radius(), Some(200));
        assert_eq!(at(0, 0, 1).used_radius(), Some(1));
        let unknown = Mark { kind: 200, ..MARK };
        assert_eq!(
            Mark {
                radius: 0,
                ..unknown
            }
            .used_radius(),
            None
        );
        assert_eq!(
            Mark {
                radius: 7,
                ..unknown
            }
            .used_radius(),
            Some(7)
        );
    }

    #[test]
    fn the_largest_touching_numbers_are_those_of_01() {
        let ends = [i16::MIN, i16::MAX].map(|end| at(end, end, 16_383));
        let [disks, squares] = Shape::ALL.map(|shape| touching_value(shape, &ends[0], &ends[1]));
        assert_eq!(disks, Fraction::new(8_589_672_450, 1_073_610_756));
        assert_eq!(squares, Fraction::new(4_294_836_225, 1_073_610_756));
    }

    #[test]
    fn touching_is_unreduced_symmetric_and_by_used_radius() {
        let (a, b) = (at(10, -20, 0), at(-20, 20, 300));
        for (shape, numerator) in [(Shape::Disk, 2_500), (Shape::Square, 1_600)] {
            let value = Fraction::new(numerator, 250_000);
            assert_eq!(touching_value(shape, &a, &b), value);
            assert_eq!(touching_value(shape, &b, &a), value);
        }
    }
}
