//! Records as a sheet's part 2 has them.

use crate::{part, Code};

/// Bytes a record takes in part 2.
pub const RECORD_BYTES: usize = 14;

/// What becomes of a mark as the zoom grows.
#[derive(Clone, Copy, Debug, PartialEq, Eq, Hash)]
pub enum Record {
    /// It is never removed.
    Never,
    /// It goes where the squared zoom reaches its removal value, which is its pair value
    /// with another mark: where both are there and touch.
    Removed {
        /// The number of that mark. It lives on, and goes later or never.
        eliminator: u16,
        /// The squared distance of the two; or the square of the larger popup of both, where
        /// they touch before it.
        numerator: u64,
        /// The squared sum of their radii, or 4,096; above 0 in an accepted sheet.
        denominator: u32,
    },
}

/// What stands in place of an eliminator's number in the record of a mark that is
/// never removed.
const NOBODY: u16 = 65_535;

impl Record {
    /// Reads the bytes of a record: 65,535, 0, 0 is 'never'.
    pub const fn from_bytes(bytes: [u8; RECORD_BYTES]) -> Self {
        let [a, b, c, d, e, f, g, h, i, j, k, l, m, n] = bytes;
        let eliminator = u16::from_le_bytes([a, b]);
        let numerator = u64::from_le_bytes([c, d, e, f, g, h, i, j]);
        let denominator = u32::from_le_bytes([k, l, m, n]);
        match (eliminator, numerator, denominator) {
            (NOBODY, 0, 0) => Self::Never,
            _ => Self::Removed {
                eliminator,
                numerator,
                denominator,
            },
        }
    }
}

/// The records of an accepted sheet, by the number of the mark; none where it has no
/// part 2, or is refused.
pub fn records(
    sheet: &[u8],
) -> Option<impl DoubleEndedIterator<Item = Record> + ExactSizeIterator + '_> {
    let (records, _) = part(sheet, Code::Schedule)?.as_chunks::<RECORD_BYTES>();
    Some(records.iter().copied().map(Record::from_bytes))
}

#[cfg(test)]
mod tests {
    use super::*;

    #[test]
    fn the_fields_stand_in_order_and_little_endian() {
        let bytes = [2, 1, 3, 4, 5, 6, 7, 8, 0, 0, 10, 11, 12, 13];
        let record = Record::Removed {
            eliminator: 258,
            numerator: 0x0807_0605_0403,
            denominator: 0x0d0c_0b0a,
        };
        assert_eq!(Record::from_bytes(bytes), record);
    }

    #[test]
    fn only_the_whole_never_record_means_never() {
        let mut bytes = [0; RECORD_BYTES];
        bytes[..2].copy_from_slice(&NOBODY.to_le_bytes());
        assert_eq!(Record::from_bytes(bytes), Record::Never);
        for at in 0..RECORD_BYTES {
            let mut other = bytes;
            other[at] ^= 1;
            assert_ne!(Record::from_bytes(other), Record::Never);
        }
    }
}
