//! Why a call was refused (the scope document, 'Questions put in turn').

use std::error::Error;
use std::fmt;

use crate::ffi::Answer;

/// The first question that was answered with no. Its number is the document's. More may
/// come.
#[derive(Clone, Copy, Debug, PartialEq, Eq, Hash)]
#[repr(u32)]
#[non_exhaustive]
pub enum Refusal {
    /// 1: the number of parts, or the contents, of a sheet.
    Contents = 1,
    /// 2: the codes of its parts.
    Codes = 2,
    /// 3: where its bodies start and end.
    Bodies = 3,
    /// 4: the length of part 1, as it is or by columns, or of a log.
    Marks = 4,
    /// 5: the kind of a mark.
    Kind = 5,
    /// 6: the radius of a mark.
    Radius = 6,
    /// 7: the length of part 2 or 3.
    Lengths = 7,
    /// 8: a record of the schedule in part 2.
    Schedule = 8,
    /// 9: the index in part 3.
    Index = 9,
    /// 10: parts 2 and 3, which a view needs, a change of the marks, and the judge; or part 2,
    /// which counting needs.
    Unscheduled = 10,
    /// 11: the edges of a view, whether they are in order.
    Edges = 11,
    /// 12: the zoom of a view.
    Zoom = 12,
    /// 13: the length of a buffer, or the number of marks of a walk.
    Buffer = 13,
    /// 14: what the program takes; no call of this library asks it.
    Program = 14,
    /// 15: a coordinate of a log, as packed decimal.
    Packed = 15,
    /// 16: a coordinate of a log, as a place.
    Place = 16,
    /// 17: the number of a mark to be taken out, which is not there.
    Missing = 17,
    /// 18: a mark to be added to as many as a sheet has at most.
    Full = 18,
    /// 19: the edition in part 4.
    Edition = 19,
    /// 20: the turn of a view, also where the labels are squares, or how far out its edges
    /// lie.
    Window = 20,
    /// 21: the popups in part 5, or that of a mark to be added.
    Popups = 21,
    /// 22: the schedule in part 2, of which the judge says that it is not ours.
    Judgement = 22,
    /// 23: the counts in part 6.
    Counts = 23,
    /// 24: the shape in part 7.
    Shape = 24,
}

impl Refusal {
    /// Every refusal, by rising number.
    pub const ALL: &'static [Self] = &[
        Self::Contents,
        Self::Codes,
        Self::Bodies,
        Self::Marks,
        Self::Kind,
        Self::Radius,
        Self::Lengths,
        Self::Schedule,
        Self::Index,
        Self::Unscheduled,
        Self::Edges,
        Self::Zoom,
        Self::Buffer,
        Self::Program,
        Self::Packed,
        Self::Place,
        Self::Missing,
        Self::Full,
        Self::Edition,
        Self::Window,
        Self::Popups,
        Self::Judgement,
        Self::Counts,
        Self::Shape,
    ];

    /// The question's number.
    pub const fn number(self) -> u32 {
        self as u32
    }

    /// The refusal of that number.
    pub fn from_number(number: u32) -> Option<Self> {
        let mut all = Self::ALL.iter().copied();
        all.find(|refusal| refusal.number() == number)
    }

    /// The question in words.
    pub const fn question(self) -> &'static str {
        match self {
            Self::Contents => "are there 2 bytes, 1 to 7 parts, and the whole contents?",
            Self::Codes => {
                "do the codes rise within 1 to 7, is part 1 there, and are parts 3 and 6 only with \
                 part 2?"
            }
            Self::Bodies => {
                "does the first body start right after the contents, each next one where the \
                 last ended, and does the last end with the sheet?"
            }
            Self::Marks => {
                "is part 1, as it is or by columns, a multiple of 11 and at most 45,056 bytes, a \
                 log a multiple of 13 and at most 4,096 records?"
            }
            Self::Kind => "is the kind of each mark below 200?",
            Self::Radius => "is the radius of each mark at most 16,383?",
            Self::Lengths => "are parts 2 and 3, if present, 14n and 2n bytes?",
            Self::Schedule => {
                "is each schedule record the 'never' record, or else does it name a \
                 higher-ranked mark below n, with their pair value as its two unreduced numbers, \
                 and is that mark removed later?"
            }
            Self::Index => "is part 3 the tree that parts 1 and 2 give?",
            Self::Unscheduled => "are parts 2 and 3 there, or, for counting, part 2?",
            Self::Edges => "is x0 at most x1, and y0 at most y1?",
            Self::Zoom => {
                "is the zoom a stop from 0 to 16, or a wheel value of which 64 times is a whole \
                 number from 1 to 65,536?"
            }
            Self::Buffer => {
                "is each written or work buffer, and a walked map, long enough, and are at most \
                 4,096 marks walked?"
            }
            Self::Program => "are there at most 2,000 marks and 65,536 input bytes?",
            Self::Packed => {
                "are x and y of each record of the log five digits and a sign, 12 or 13, and \
                 not minus zero?"
            }
            Self::Place => "are x and y of each record of the log from -32,768 to 32,767?",
            Self::Missing => "is the number of the mark to be taken out below n?",
            Self::Full => "are fewer than 4,096 marks held already?",
            Self::Edition => "is part 4, if present, one byte of 1 or 2?",
            Self::Window => {
                "is the turn 0 to 3 quarter turns, 0 alone where the labels are squares, and \
                 each edge from -32,768 to 32,768?"
            }
            Self::Popups => {
                "is part 5, if present, 4n bytes, with no popup above 65,536; and is the popup \
                 of a new mark at most that, and 0 where part 5 is not there?"
            }
            Self::Judgement => {
                "does no pair of marks have both removed later than its pair value, is each \
                 removal value the pair value with some higher-ranked mark that is removed \
                 later, and is the highest-ranked such mark named?"
            }
            Self::Counts => {
                "is part 6, if present, 170 bytes, with the number of living marks of each kind \
                 group at each stop?"
            }
            Self::Shape => "is part 7, if present, one byte of 1 or 2?",
        }
    }
}

impl fmt::Display for Refusal {
    fn fmt(&self, f: &mut fmt::Formatter<'_>) -> fmt::Result {
        write!(
            f,
            "refused by question {}: {}",
            self.number(),
            self.question()
        )
    }
}

impl Error for Refusal {}

impl Answer {
    /// The value of a call that succeeded. A refused one has `refused_value`,
    /// which debug builds look at.
    pub(crate) fn settle(self, refused_value: u32) -> Result<u32, Refusal> {
        if self.number == 0 {
            return Ok(self.value);
        }
        debug_assert_eq!(self.value, refused_value, "refused by {}", self.number);
        Err(Refusal::from_number(self.number).expect("the library refuses by a question"))
    }
}

#[cfg(test)]
mod tests {
    use super::*;

    #[test]
    fn numbers_are_1_to_24_in_order() {
        let numbers = Refusal::ALL.iter().map(|refusal| refusal.number());
        assert!(numbers.eq(1..=24));
        for &refusal in Refusal::ALL {
            assert_eq!(Refusal::from_number(refusal.number()), Some(refusal));
        }
        assert_eq!(Refusal::from_number(0), None);
        assert_eq!(Refusal::from_number(25), None);
    }

    #[test]
    fn a_refusal_says_its_number_and_its_question() {
        let words = "refused by question 5: is the kind of each mark below 200?";
        assert_eq!(Refusal::Kind.to_string(), words);
    }
}
