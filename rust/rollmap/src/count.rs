//! Counts of the living marks by stop and kind group, for reports.

use crate::{ffi, part, Code, Refusal};

/// The number of stops that marks are counted at: 0 to 16.
pub const STOPS: usize = 17;

/// The number of groups that the kinds fall into.
pub const GROUPS: usize = 5;

/// Bytes of part 6: 2 for each stop and group.
pub const COUNTS_BYTES: usize = 2 * STOPS * GROUPS;

/// Bytes that part 6 adds to a sheet: 10 of contents, and its body.
pub const COUNTED_BYTES: usize = 10 + COUNTS_BYTES;

/// A group of kinds.
#[derive(Clone, Copy, Debug, PartialEq, Eq, PartialOrd, Ord, Hash)]
pub enum Group {
    /// Kinds 0 to 9.
    Note,
    /// Kinds 10 to 49.
    Spot,
    /// Kinds 50 to 99.
    Streak,
    /// Kinds 100 to 149: moisture patches.
    Patch,
    /// Kinds 150 to 199.
    Break,
}

impl Group {
    /// Every group, in the order in which a stop has its counts.
    pub const ALL: [Self; GROUPS] = [
        Self::Note,
        Self::Spot,
        Self::Streak,
        Self::Patch,
        Self::Break,
    ];

    /// The group of a kind, none of a kind that there is not.
    pub const fn of(kind: u8) -> Option<Self> {
        match kind {
            0..=9 => Some(Self::Note),
            10..=49 => Some(Self::Spot),
            50..=99 => Some(Self::Streak),
            100..=149 => Some(Self::Patch),
            150..=199 => Some(Self::Break),
            200.. => None,
        }
    }
}

/// How many marks of each group live at each stop, over the whole reel.
///
/// ```
/// use rollmap::{assemble_to_vec, count_to_vec, counts, marks_to_vec, schedule_to_vec};
/// use rollmap::{Code, Group, Mark};
///
/// // Two notes that touch at 64 times zoom 320, between the stops 8 and 9, and a break.
/// let mark = |x, kind, priority| Mark { x, y: 0, radius: 10, priority, kind, tag: 0 };
/// let marks = marks_to_vec(&[mark(0, 0, 9), mark(100, 9, 5), mark(9_000, 150, 1)]);
/// let scheduled = schedule_to_vec(&assemble_to_vec(&[(Code::Marks, &marks)])?)?;
/// assert_eq!(counts(&scheduled), None);
///
/// let counts = counts(&count_to_vec(&scheduled)?).unwrap();
/// assert_eq!([8, 9].map(|stop| counts.get(stop, Group::Note)), [Some(2), Some(1)]);
/// assert_eq!(counts.at(0), Some([2, 0, 0, 0, 1]));
/// assert_eq!(counts.at(17), None);
/// # Ok::<(), rollmap::Refusal>(())
/// ```
#[derive(Clone, Copy, Debug, PartialEq, Eq, Hash)]
pub struct Counts([[u16; GROUPS]; STOPS]);

impl Counts {
    /// Reads part 6.
    pub fn from_bytes(bytes: [u8; COUNTS_BYTES]) -> Self {
        let mut counts = [[0; GROUPS]; STOPS];
        let (each, _) = bytes.as_chunks();
        for (count, bytes) in counts.as_flattened_mut().iter_mut().zip(each) {
            *count = u16::from_le_bytes(*bytes);
        }
        Self(counts)
    }

    /// Writes part 6, which [`assemble`](crate::assemble) takes with
    /// [`Code::Counts`](crate::Code::Counts) beside the schedule that has these counts.
    pub fn to_bytes(&self) -> [u8; COUNTS_BYTES] {
        let mut bytes = [0; COUNTS_BYTES];
        let (each, _) = bytes.as_chunks_mut();
        for (bytes, count) in each.iter_mut().zip(self.0.as_flattened()) {
            *bytes = count.to_le_bytes();
        }
        bytes
    }

    /// How many marks of a group live at a stop, none for a stop above 16.
    pub fn get(&self, stop: u8, group: Group) -> Option<u16> {
        Some(self.at(stop)?[group as usize])
    }

    /// The counts at a stop in the order of [`Group::ALL`], none for a stop above 16.
    pub fn at(&self, stop: u8) -> Option<[u16; GROUPS]> {
        self.0.get(usize::from(stop)).copied()
    }
}

/// The counts of an accepted sheet; none where it has no part 6, or is refused. They are
/// those of the schedule that the sheet has: question [23](Refusal::Counts) refuses others.
///
/// Scheduling, adding and taking out renew a part 6 that is there; [`count`] writes one where
/// there is none.
pub fn counts(sheet: &[u8]) -> Option<Counts> {
    let part_6 = part(sheet, Code::Counts)?;
    part_6.first_chunk().copied().map(Counts::from_bytes)
}

/// Counts the marks of a sheet: writes the same sheet with part 6, in front of part 7 where
/// that is there, to `out`, by the schedule that it has, whoever made it. A mark is counted at
/// a stop where it lives: 2 to the power of the stop is at least its
/// [popup](crate::popups()), and the squared zoom there is below its removal value, or it has
/// none. Answers the number of bytes written, as many as the sheet has, and [`COUNTED_BYTES`]
/// more where it has no part 6; where it has one, its own bytes are written. Bytes past these
/// stay as they are.
///
/// Without part 5 no count grows from one stop to the next.
///
/// # Errors
///
/// Asks [1 to 9](Refusal); [10](Refusal::Unscheduled) of part 2 alone, as no index is needed;
/// and [13](Refusal::Buffer) of `out`. A refused call writes nothing.
pub fn count(sheet: &[u8], out: &mut [u8]) -> Result<usize, Refusal> {
    let written = ffi::count(sheet, out).settle(0)?;
    Ok(written as usize)
}

/// Counts the marks of a sheet in a buffer of its own, and answers the sheet with part 6.
///
/// # Errors
///
/// Asks what [`count`] asks of the sheet.
pub fn count_to_vec(sheet: &[u8]) -> Result<Vec<u8>, Refusal> {
    let mut out = vec![0; sheet.len() + COUNTED_BYTES];
    let written = count(sheet, &mut out)?;
    out.truncate(written);
    Ok(out)
}

#[cfg(test)]
mod tests {
    use super::*;

    #[test]
    fn the_groups_are_in_the_order_of_their_kinds() {
        let groups = (0..=255).map(Group::of);
        let numbers: Vec<_> = groups.map(|group| group.map(|group| group as u8)).collect();
        let of = |group, kinds| vec![group; kinds];
        let expected = [
            of(Some(0), 10),
            of(Some(1), 40),
            of(Some(2), 50),
            of(Some(3), 50),
            of(Some(4), 50),
            of(None, 56),
        ];
        assert_eq!(numbers, expected.concat());
        assert!(Group::ALL.is_sorted());
    }

    #[test]
    fn counts_stand_little_endian_stop_by_stop() {
        let mut bytes = [0; COUNTS_BYTES];
        for (at, byte) in bytes.iter_mut().enumerate() {
            *byte = at as u8;
        }
        let counts = Counts::from_bytes(bytes);
        assert_eq!(counts.get(0, Group::Note), Some(256));
        assert_eq!(counts.get(0, Group::Break), Some(9 * 256 + 8));
        assert_eq!(counts.get(1, Group::Note), Some(11 * 256 + 10));
        assert_eq!(counts.get(16, Group::Break), Some(169 * 256 + 168));
        assert_eq!(counts.get(17, Group::Note), None);
        assert_eq!(counts.get(255, Group::Break), None);
        assert_eq!(counts.to_bytes(), bytes);
    }

    #[test]
    fn part_6_is_170_bytes_and_adds_180() {
        assert_eq!((COUNTS_BYTES, COUNTED_BYTES), (170, 180));
    }
}
