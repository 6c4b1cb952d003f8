//! The parts of a sheet by their codes.

use crate::{check, ffi};

/// What a part holds. Its number is the code that the contents have for it. More may come.
#[derive(Clone, Copy, Debug, PartialEq, Eq, PartialOrd, Ord, Hash)]
#[repr(u16)]
#[non_exhaustive]
pub enum Code {
    /// Part 1: the marks, which every sheet has.
    Marks = 1,
    /// Part 2: the schedule, a record for each mark.
    Schedule = 2,
    /// Part 3: the index, a tree of the marks, which comes only with a schedule.
    Index = 3,
    /// Part 4: the [`Edition`](crate::Edition) that ranks the marks.
    Edition = 4,
    /// Part 5: the [`popups`](crate::popups()), one for each mark.
    Popups = 5,
    /// Part 6: the [`Counts`](crate::Counts) of living marks, which come only with a schedule.
    Counts = 6,
    /// Part 7: the [`Shape`](crate::Shape) of the labels.
    Shape = 7,
}

impl Code {
    /// Every code, rising: the order in which a sheet has its parts.
    pub const ALL: &'static [Self] = &[
        Self::Marks,
        Self::Schedule,
        Self::Index,
        Self::Edition,
        Self::Popups,
        Self::Counts,
        Self::Shape,
    ];

    /// The code as the contents have it.
    pub const fn number(self) -> u16 {
        self as u16
    }
}

/// The body of the part with that code, as it stands in an accepted sheet. None where
/// there is no such part or the sheet is refused; a part that is there may be empty.
pub fn part(sheet: &[u8], code: Code) -> Option<&[u8]> {
    let extent = ffi::part(sheet, code.number().into());
    let (offset, length) = (extent.offset as usize, extent.length as usize);
    if (offset, length) == (0, 0) {
        return None;
    }
    Some(&sheet[offset..offset + length])
}

/// What an accepted sheet names in the part of one byte with that code, or else what holds
/// where it names nothing. None of a refused sheet.
pub(crate) fn named<T: Default>(
    sheet: &[u8],
    code: Code,
    from_bytes: impl Fn([u8; 1]) -> Option<T>,
) -> Option<T> {
    check(sheet).ok()?;
    match part(sheet, code) {
        None => Some(T::default()),
        Some(body) => from_bytes(*body.first_chunk()?),
    }
}

#[cfg(test)]
mod tests {
    use super::*;

    #[test]
    fn codes_rise_from_1() {
        let codes = Code::ALL.iter().map(|code| code.number());
        assert!(codes.eq(1..=7));
        assert!(Code::ALL.is_sorted());
    }
}
