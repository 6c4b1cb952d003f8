//! Editions of the mill's marking handbook, by which a sheet's marks are ranked.

use crate::part::named;
use crate::Code;

/// Bytes that part 4 adds to a sheet: 10 of contents, and its body.
pub const EDITION_BYTES: usize = 11;

/// An edition of the handbook. A sheet names its own in part 4, and scheduling, adding and
/// taking out keep it. In both, the higher priority ranks higher.
#[derive(Clone, Copy, Debug, Default, PartialEq, Eq, Hash)]
pub enum Edition {
    /// Between equal priorities the lower number ranks higher. This edition holds where a
    /// sheet names none.
    #[default]
    First,
    /// Between equal priorities the larger radius ranks higher, that of the house where 0
    /// is written, and then the lower number.
    Second,
}

impl Edition {
    /// Reads part 4, none where it names no edition.
    pub const fn from_bytes(bytes: [u8; 1]) -> Option<Self> {
        match bytes {
            [1] => Some(Self::First),
            [2] => Some(Self::Second),
            _ => None,
        }
    }

    /// Writes part 4, which [`assemble`](crate::assemble) takes with
    /// [`Code::Edition`](crate::Code::Edition).
    pub const fn to_bytes(self) -> [u8; 1] {
        match self {
            Self::First => [1],
            Self::Second => [2],
        }
    }
}

/// The edition that an accepted sheet goes by, none of a refused one.
pub fn edition(sheet: &[u8]) -> Option<Edition> {
    named(sheet, Code::Edition, Edition::from_bytes)
}

#[cfg(test)]
mod tests {
    use super::*;

    #[test]
    fn part_4_is_one_byte_of_1_or_2() {
        for byte in 0..=255 {
            let edition = Edition::from_bytes([byte]);
            assert_eq!(edition.is_some(), byte == 1 || byte == 2);
            assert!(edition.is_none_or(|edition| edition.to_bytes() == [byte]));
        }
        assert_eq!(Edition::Second.to_bytes(), [2]);
    }
}
