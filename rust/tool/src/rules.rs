//! A list of removals held against ours: is it equal mark by mark, and which rule does it
//! break where it is not?
//!
//! Of a sheet that is scheduled here it is proved that a list equals ours exactly where it
//! keeps both rules (demand 3). So one that differs breaks a rule, and the highest-ranked
//! mark that differs says which: all that rank above it have our values. If its value is
//! later than ours, it outlives its pair value with our eliminator, which does so too; if
//! it is earlier, no mark above it accounts for it. Both are then asked of the library once
//! more, by sheets of two marks.

use std::cmp::Ordering;
use std::fmt;

use rollmap::{
    assemble_to_vec, marks_to_vec, popups_to_vec, records, schedule_to_vec, Code, Record,
};

use crate::why::eliminator;
use crate::{Reel, Trouble};

/// When a mark is removed.
#[derive(Clone, Copy, Debug, PartialEq, Eq)]
pub enum Removal {
    /// Never.
    Never,
    /// Where the squared zoom reaches a fraction.
    At {
        /// Its numerator.
        numerator: u64,
        /// Its denominator, which is above 0.
        denominator: u64,
    },
}

impl Removal {
    /// The removal that a record names.
    pub fn of(record: Record) -> Self {
        match record {
            Record::Never => Self::Never,
            Record::Removed {
                numerator,
                denominator,
                ..
            } => Self::At {
                numerator,
                denominator: denominator.into(),
            },
        }
    }

    /// The order of removals, by exact cross products; 'never' is later than all.
    pub fn compare(self, other: Self) -> Ordering {
        match (self, other) {
            (Self::Never, Self::Never) => Ordering::Equal,
            (Self::Never, Self::At { .. }) => Ordering::Greater,
            (Self::At { .. }, Self::Never) => Ordering::Less,
            (
                Self::At {
                    numerator: a,
                    denominator: b,
                },
                Self::At {
                    numerator: c,
                    denominator: d,
                },
            ) => (u128::from(a) * u128::from(d)).cmp(&(u128::from(c) * u128::from(b))),
        }
    }
}

impl fmt::Display for Removal {
    fn fmt(&self, f: &mut fmt::Formatter<'_>) -> fmt::Result {
        match self {
            Self::Never => f.write_str("never"),
            Self::At {
                numerator,
                denominator,
            } => write!(f, "{numerator}/{denominator}"),
        }
    }
}

/// Two marks of a reel.
#[derive(Clone, Copy, Debug, PartialEq, Eq)]
pub struct Pair {
    /// The one that ranks higher.
    pub higher: usize,
    /// The one that ranks lower.
    pub lower: usize,
    /// Their pair value.
    pub value: Removal,
}

/// Two marks of the reel as the library schedules them by themselves, in the order in which
/// they stand and by the reel's edition, popups and shape: the one that goes ranks lower, and
/// goes at their pair value.
///
/// # Errors
///
/// What the library refuses.
pub fn pair(reel: &Reel, a: usize, b: usize) -> Result<Pair, Trouble> {
    let (a, b) = (a.min(b), a.max(b));
    let marks = marks_to_vec(&[reel.marks[a], reel.marks[b]]);
    let popups = popups_to_vec(&[reel.popups[a], reel.popups[b]]);
    let (edition, shape) = (reel.edition.to_bytes(), reel.shape.to_bytes());
    let sheet = assemble_to_vec(&[
        (Code::Marks, &marks),
        (Code::Edition, &edition),
        (Code::Popups, &popups),
        (Code::Shape, &shape),
    ])?;
    let scheduled = schedule_to_vec(&sheet)?;
    let mut removals = records(&scheduled).into_iter().flatten().map(Removal::of);
    let pair = |higher, lower, value| Pair {
        higher,
        lower,
        value,
    };
    match (removals.next(), removals.next()) {
        (Some(Removal::Never), Some(value)) => Ok(pair(a, b, value)),
        (Some(value), _) => Ok(pair(b, a, value)),
        (None, _) => unreachable!("a scheduled sheet of two marks has two records"),
    }
}

/// Which rule a list breaks, and for which marks.
#[derive(Clone, Copy, Debug, PartialEq, Eq)]
pub enum Breach {
    /// The first: both of these are removed later than their pair value.
    First(Pair),
    /// The second: this mark's value is the pair value with no higher-ranked mark that is
    /// removed later.
    Second(usize),
}

/// The numbers of the marks whose removals differ from ours.
pub fn differing(list: &[Removal], reel: &Reel) -> Vec<usize> {
    let differs = |m: &usize| list[*m].compare(ours(reel, *m)).is_ne();
    (0..reel.records.len()).filter(differs).collect()
}

/// The removal of a mark by our schedule.
pub fn ours(reel: &Reel, mark: usize) -> Removal {
    Removal::of(reel.records[mark])
}

/// The rule that a list breaks, none where it breaks none.
///
/// # Errors
///
/// What the library refuses.
pub fn breach(list: &[Removal], reel: &Reel) -> Result<Option<Breach>, Trouble> {
    let Some(mark) = highest_ranked(reel, &differing(list, reel))? else {
        return Ok(None);
    };
    match eliminator(reel.records[mark]) {
        Some(by) if list[mark].compare(ours(reel, mark)).is_gt() => {
            let pair = pair(reel, by, mark)?;
            Ok(outlive(list, pair).then_some(Breach::First(pair)))
        }
        _ => Ok((!is_accounted_for(list, reel, mark)?).then_some(Breach::Second(mark))),
    }
}

/// The highest-ranked of some marks.
fn highest_ranked(reel: &Reel, marks: &[usize]) -> Result<Option<usize>, Trouble> {
    let mut marks = marks.iter().copied();
    let Some(first) = marks.next() else {
        return Ok(None);
    };
    let highest = marks.try_fold(first, |highest, m| {
        Ok::<_, Trouble>(pair(reel, highest, m)?.higher)
    });
    highest.map(Some)
}

/// Whether a list has both marks of a pair removed later than their pair value.
fn outlive(list: &[Removal], pair: Pair) -> bool {
    let later = |m: usize| list[m].compare(pair.value).is_gt();
    later(pair.higher) && later(pair.lower)
}

/// Whether a list has some mark that accounts for the value of this one: it ranks higher, has
/// this pair value with it, and is removed later.
fn is_accounted_for(list: &[Removal], reel: &Reel, mark: usize) -> Result<bool, Trouble> {
    for other in (0..list.len()).filter(|&other| other != mark) {
        let pair = pair(reel, other, mark)?;
        let is_value = pair.value.compare(list[mark]).is_eq();
        if pair.higher == other && is_value && list[other].compare(pair.value).is_gt() {
            return Ok(true);
        }
    }
    Ok(false)
}
