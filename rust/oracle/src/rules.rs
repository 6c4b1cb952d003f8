//! The two rules that demand 3 sets for a list of removal values (01, 'Touching,
//! rank, removal'), over pair values (02, request 9).

use crate::fraction::{Fraction, Removal};
use crate::reel::Reel;

/// What a list of removal values offends against.
#[derive(Clone, Copy, Debug, PartialEq, Eq)]
pub enum Breach {
    /// It is not a list for these marks: it has not one entry a mark, or an entry
    /// has denominator 0.
    NoList,
    /// The first rule, at this pair of marks.
    First(usize, usize),
    /// The second rule, at this mark.
    Second(usize),
}

/// Whether a list of removal values keeps both rules for these marks, by the ranks of
/// their edition, by their popups and by their shape, and where it does not.
pub fn keep_both(reel: Reel, list: &[Removal]) -> Result<(), Breach> {
    if list.len() != reel.marks.len() || !list.iter().all(names_a_value) {
        return Err(Breach::NoList);
    }
    if let Some((a, b)) = first_rule_breach(reel, list) {
        return Err(Breach::First(a, b));
    }
    match second_rule_breach(reel, list) {
        Some(mark) => Err(Breach::Second(mark)),
        None => Ok(()),
    }
}

/// An entry of a list is 'never' or a fraction with a denominator above 0.
fn names_a_value(entry: &Removal) -> bool {
    match entry {
        Removal::Never => true,
        Removal::At(value) => value.denominator > 0,
    }
}

/// The first rule: no pair has both marks removed later than the pair's value. Answers
/// a pair that has.
fn first_rule_breach(reel: Reel, list: &[Removal]) -> Option<(usize, usize)> {
    (0..list.len())
        .flat_map(|b| (0..b).map(move |a| (a, b)))
        .find(|&(a, b)| outlive_their_value(reel, list, a, b))
}

/// Whether both marks of a pair are removed later than its value.
fn outlive_their_value(reel: Reel, list: &[Removal], a: usize, b: usize) -> bool {
    let value = reel.pair_value(a, b);
    list[a].later_than(value) && list[b].later_than(value)
}

/// The second rule: each removal value equals the pair value with some higher-ranked
/// mark that is removed later than that value. Answers a mark whose removal value does
/// not. A mark that is never removed has none.
fn second_rule_breach(reel: Reel, list: &[Removal]) -> Option<usize> {
    (0..list.len()).find(|&mark| match list[mark] {
        Removal::Never => false,
        Removal::At(value) => {
            !(0..list.len()).any(|other| accounts_for(reel, list, mark, value, other))
        }
    })
}

/// Whether `other` ranks higher than `mark`, has this pair value with it, and is
/// removed later.
pub(crate) fn accounts_for(
    reel: Reel,
    list: &[Removal],
    mark: usize,
    value: Fraction,
    other: usize,
) -> bool {
    let pair = reel.pair_value(other, mark);
    reel.outranks(other, mark) && pair.compare(value).is_eq() && list[other].later_than(value)
}
