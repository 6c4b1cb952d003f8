//! Rank, which goes by the edition of the mill's marking handbook (01, 'Touching, rank,
//! removal'; 02, request 6).

use crate::mark::Mark;
use crate::reel::Reel;
use crate::shape::Shape;

/// An edition of the handbook. Without a part 4 the first one holds.
#[derive(Clone, Copy, Debug, Default, PartialEq, Eq)]
pub enum Edition {
    /// Higher priority first; equal priority, lower number first.
    #[default]
    First,
    /// "Between equal priorities the larger used radius ranks higher, then the lower
    /// number."
    Second,
}

impl Edition {
    /// Both editions.
    pub const ALL: [Self; 2] = [Self::First, Self::Second];

    /// The edition that a part 4 names, none where it is not one byte of 1 or 2.
    #[inline]
    pub fn read(part_4: &[u8]) -> Option<Self> {
        match part_4 {
            [1] => Some(Self::First),
            [2] => Some(Self::Second),
            _ => None,
        }
    }

    /// The part 4 that names the edition.
    #[inline]
    pub fn write(self) -> [u8; 1] {
        match self {
            Self::First => [1],
            Self::Second => [2],
        }
    }

    /// These marks, ranked by the edition, all of them there from the start, as disks.
    pub fn reel(self, marks: &[Mark]) -> Reel<'_> {
        Reel {
            marks,
            edition: self,
            popups: None,
            shape: Shape::Disk,
        }
    }
}

/// The rank of a mark as one number, the higher the rank the lower: three digits of 16
/// bits, of the priority, of the used radius, and the mark's number.
#[derive(Clone, Copy, Debug, PartialEq, Eq, PartialOrd, Ord)]
pub struct RankKey(u64);

impl RankKey {
    /// The rank of a mark with its number, of which a sheet has at most 4,096.
    ///
    /// # Panics
    ///
    /// On marks that question 5 refuses.
    #[inline]
    pub fn of(edition: Edition, mark: &Mark, number: usize) -> Self {
        let radius = match edition {
            Edition::First => 0,
            Edition::Second => mark.used_radius().expect("the kind exists"),
        };
        let higher_first = |digit: u16| u64::from(u16::MAX - digit);
        Self(higher_first(mark.priority) << 32 | higher_first(radius) << 16 | number as u64)
    }

    /// The mark's number.
    #[inline]
    pub fn number(self) -> usize {
        self.0 as usize & 0xffff
    }
}

#[cfg(test)]
mod tests {
    use super::Edition::{First, Second};
    use super::*;
    use crate::mark::LARGEST_RADIUS;

    fn of(radius: u16, priority: u16) -> Mark {
        Mark::plain(0, 0, radius, priority)
    }

    #[test]
    fn part_4_is_one_byte_of_1_or_2() {
        for edition in Edition::ALL {
            assert_eq!(Edition::read(&edition.write()), Some(edition));
        }
        assert_eq!([First.write(), Second.write()], [[1], [2]]);
        for other in [&[][..], &[0], &[3], &[255], &[1, 0], &[2, 2]] {
            assert_eq!(Edition::read(other), None);
        }
    }

    #[test]
    fn rank_is_by_priority_then_by_lower_number() {
        let marks = [of(1, 5), of(1, 9), of(1, 5), of(1, 65_535)];
        for edition in Edition::ALL {
            let reel = edition.reel(&marks);
            assert_eq!(reel.ranked(), [3, 1, 0, 2]);
            assert!(reel.outranks(0, 2));
            assert!(!reel.outranks(2, 0));
            assert!(!reel.outranks(2, 2));
            assert!((0..4).map(|number| reel.rank(number).number()).eq(0..4));
        }
    }

    #[test]
    fn between_equal_priorities_the_second_edition_goes_by_radius() {
        let marks = [of(1, 5), of(LARGEST_RADIUS, 5), of(9, 4), of(1, 5)];
        assert_eq!(First.reel(&marks).ranked(), [0, 1, 3, 2]);
        assert_eq!(Second.reel(&marks).ranked(), [1, 0, 3, 2]);
    }

    #[test]
    fn the_radius_is_the_used_one() {
        let patch = Mark {
            kind: 100,
            ..of(0, 5)
        };
        let marks = [of(149, 5), patch, of(150, 5), of(151, 5), of(0, 5)];
        assert_eq!(Second.reel(&marks).ranked(), [3, 1, 2, 0, 4]);
    }

    #[test]
    fn keys_say_what_the_sentence_says() {
        let fields = [0, 1, 2, 39, 40, 41, 255, 256, 16_382, 16_383];
        let priorities = [0, 1, 255, 256, 32_767, 32_768, 65_534, 65_535];
        let mut marks = Vec::new();
        for radius in fields {
            marks.extend(priorities.map(|priority| of(radius, priority)));
        }
        let radius = |mark: &Mark| mark.used_radius().unwrap();
        for (a, one) in marks.iter().enumerate() {
            for (b, other) in marks.iter().enumerate() {
                let first =
                    one.priority > other.priority || (one.priority == other.priority && a < b);
                let second = one.priority > other.priority
                    || (one.priority == other.priority
                        && (radius(one) > radius(other)
                            || (radius(one) == radius(other) && a < b)));
                assert_eq!(First.reel(&marks).outranks(a, b), first);
                assert_eq!(Second.reel(&marks).outranks(a, b), second);
            }
        }
    }
}
