//! The records of part 2 (01, 'The sheet: contents, then bodies').

use crate::bytes::{field, put};
use crate::fraction::{Fraction, Removal};

/// Bytes a record takes in part 2.
pub const RECORD_BYTES: usize = 14;

/// Where the fields of a record stand in its bytes.
const ELIMINATOR_AT: usize = 0;
const NUMERATOR_AT: usize = 2;
const DENOMINATOR_AT: usize = 10;

/// One record as a sheet has it: the eliminator's number and the two numbers of
/// the removal value. Any three numbers can be read; question 8 judges them.
#[derive(Clone, Copy, Debug, PartialEq, Eq)]
pub struct Record {
    pub eliminator: u16,
    pub value: Fraction,
}

impl Record {
    /// The record of a mark that is never removed.
    pub const NEVER: Self = Self::new(65_535, 0, 0);

    /// The record with these three numbers.
    pub const fn new(eliminator: u16, numerator: u64, denominator: u32) -> Self {
        Self {
            eliminator,
            value: Fraction::new(numerator, denominator),
        }
    }

    /// The record of a mark removed at a value by the mark of that number.
    #[inline]
    pub fn removed(eliminator: usize, value: Fraction) -> Self {
        Self {
            eliminator: u16::try_from(eliminator).expect("a sheet has at most 4,096 marks"),
            value,
        }
    }

    /// The removal value the record names.
    #[inline]
    pub fn removal(&self) -> Removal {
        if *self == Self::NEVER {
            Removal::Never
        } else {
            Removal::At(self.value)
        }
    }

    /// Reads the 14 bytes of a record.
    #[inline]
    pub fn read(bytes: &[u8; RECORD_BYTES]) -> Self {
        Self {
            eliminator: u16::from_le_bytes(field(bytes, ELIMINATOR_AT)),
            value: Fraction {
                numerator: u64::from_le_bytes(field(bytes, NUMERATOR_AT)),
                denominator: u32::from_le_bytes(field(bytes, DENOMINATOR_AT)),
            },
        }
    }

    /// Writes the 14 bytes of a record.
    #[inline]
    pub fn write(&self) -> [u8; RECORD_BYTES] {
        let mut bytes = [0; RECORD_BYTES];
        let Fraction {
            numerator,
            denominator,
        } = self.value;
        put(&mut bytes, ELIMINATOR_AT, self.eliminator.to_le_bytes());
        put(&mut bytes, NUMERATOR_AT, numerator.to_le_bytes());
        put(&mut bytes, DENOMINATOR_AT, denominator.to_le_bytes());
        bytes
    }
}

/// Reads part 2: all its records, a body whose length is a multiple of 14.
pub fn read_records(part_2: &[u8]) -> Vec<Record> {
    part_2.as_chunks().0.iter().map(Record::read).collect()
}

/// Writes part 2.
pub fn write_records(records: &[Record]) -> Vec<u8> {
    records.iter().flat_map(Record::write).collect()
}

/// The removal values that a list of records names.
pub fn removals(records: &[Record]) -> Vec<Removal> {
    records.iter().map(Record::removal).collect()
}

#[cfg(test)]
mod tests {
    use super::*;

    #[test]
    fn the_fields_stand_in_order_and_little_endian() {
        let record = Record::removed(258, Fraction::new(0x0807_0605_0403, 0x0d0c_0b0a));
        let bytes = [2, 1, 3, 4, 5, 6, 7, 8, 0, 0, 10, 11, 12, 13];
        assert_eq!(record.write(), bytes);
        assert_eq!(Record::read(&bytes), record);
    }

    #[test]
    fn only_the_whole_never_record_means_never() {
        assert_eq!(Record::NEVER.removal(), Removal::Never);
        let zero = Fraction::new(0, 4);
        assert_eq!(Record::removed(0, zero).removal(), Removal::At(zero));
        let odd = Record {
            value: zero,
            ..Record::NEVER
        };
        assert_eq!(odd.removal(), Removal::At(zero));
    }
}
