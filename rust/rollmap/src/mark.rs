//! Marks as a sheet's part 1 has them.

use crate::{part, Code};

/// Bytes a mark takes in part 1.
pub const MARK_BYTES: usize = 11;

/// A mark, its fields in the order in which they are written.
#[derive(Clone, Copy, Debug, PartialEq, Eq, Hash)]
pub struct Mark {
    /// The place across, in map units.
    pub x: i16,
    /// The place down, in map units.
    pub y: i16,
    /// Screen pixels, at most 16,383; 0 means the house radius of the kind. A square reaches as
    /// far along x and along y.
    pub radius: u16,
    /// Higher is more important. Between equal ones the [`Edition`](crate::Edition) of the
    /// sheet decides.
    pub priority: u16,
    /// Below 200.
    pub kind: u8,
    /// What the owner likes; nobody interprets it.
    pub tag: u16,
}

impl Mark {
    /// Reads the bytes of a mark.
    pub const fn from_bytes(bytes: [u8; MARK_BYTES]) -> Self {
        let [a, b, c, d, e, f, g, h, kind, i, j] = bytes;
        Self {
            x: i16::from_le_bytes([a, b]),
            y: i16::from_le_bytes([c, d]),
            radius: u16::from_le_bytes([e, f]),
            priority: u16::from_le_bytes([g, h]),
            kind,
            tag: u16::from_le_bytes([i, j]),
        }
    }

    /// Writes the bytes of a mark.
    pub const fn to_bytes(self) -> [u8; MARK_BYTES] {
        let [a, b] = self.x.to_le_bytes();
        let [c, d] = self.y.to_le_bytes();
        let [e, f] = self.radius.to_le_bytes();
        let [g, h] = self.priority.to_le_bytes();
        let [i, j] = self.tag.to_le_bytes();
        [a, b, c, d, e, f, g, h, self.kind, i, j]
    }
}

/// The marks of an accepted sheet, by number; none of a refused one.
pub fn marks(
    sheet: &[u8],
) -> Option<impl DoubleEndedIterator<Item = Mark> + ExactSizeIterator + '_> {
    let (marks, _) = part(sheet, Code::Marks)?.as_chunks::<MARK_BYTES>();
    Some(marks.iter().copied().map(Mark::from_bytes))
}

/// Part 1 with these marks. Any fields can be written: [`assemble`](crate::assemble)
/// asks whether the kinds exist and the radii are taken.
pub fn marks_to_vec(marks: &[Mark]) -> Vec<u8> {
    marks.iter().flat_map(|mark| mark.to_bytes()).collect()
}

#[cfg(test)]
mod tests {
    use super::*;

    #[test]
    fn the_fields_stand_in_order_and_little_endian() {
        let mark = Mark {
            x: -2,
            y: 259,
            radius: 16_383,
            priority: 65_534,
            kind: 199,
            tag: 4_660,
        };
        let bytes = [0xfe, 0xff, 3, 1, 0xff, 0x3f, 0xfe, 0xff, 199, 0x34, 0x12];
        assert_eq!(mark.to_bytes(), bytes);
        assert_eq!(Mark::from_bytes(bytes), mark);
        assert_eq!(marks_to_vec(&[mark, mark]), [bytes, bytes].concat());
    }
}
