//! The process (01, 'Touching, rank, removal'), once as it is told and twice
//! faster. Ranks are those of the reel's edition, and pair values, which go by the shape of the
//! labels, stand in place of touching values (02, requests 6, 9 and 13).

use std::cmp::Ordering;

use crate::fraction::Fraction;
use crate::rank::RankKey;
use crate::record::Record;
use crate::reel::Reel;

/// Two marks by their ranks, the higher one first, and their pair value.
#[derive(Clone, Copy, Debug)]
struct Pair {
    value: Fraction,
    higher: RankKey,
    lower: RankKey,
}

impl Pair {
    fn of(reel: Reel, a: usize, b: usize) -> Self {
        let (rank_a, rank_b) = (reel.rank(a), reel.rank(b));
        Self {
            value: reel.pair_value(a, b),
            higher: rank_a.min(rank_b),
            lower: rank_a.max(rank_b),
        }
    }

    /// The order in which pairs are taken: the least value; among equal values the
    /// pair whose higher mark ranks highest; then the pair whose lower mark does.
    fn taking_order(&self, other: &Self) -> Ordering {
        let by_value = self.value.compare(other.value);
        let by_ranks = (self.higher, self.lower).cmp(&(other.higher, other.lower));
        by_value.then(by_ranks)
    }

    /// The record of the lower mark, where the pair is taken.
    fn record(&self) -> Record {
        Record::removed(self.higher.number(), self.value)
    }
}

/// All pairs of the numbered marks.
fn pairs_of<'a>(reel: Reel<'a>, numbers: &'a [usize]) -> impl Iterator<Item = Pair> + 'a {
    let firsts = numbers.iter().enumerate();
    firsts.flat_map(move |(at, &a)| {
        let seconds = numbers[at + 1..].iter();
        seconds.map(move |&b| Pair::of(reel, a, b))
    })
}

/// The process as 01 tells it: as long as a pair lives, the first pair in taking
/// order is taken, and its lower mark is removed at that value by the other.
pub fn schedule_by_process(reel: Reel) -> Vec<Record> {
    let mut living: Vec<usize> = (0..reel.marks.len()).collect();
    let mut records = vec![Record::NEVER; reel.marks.len()];
    while let Some(pair) = pairs_of(reel, &living).min_by(Pair::taking_order) {
        let removed = pair.lower.number();
        records[removed] = pair.record();
        living.retain(|&mark| mark != removed);
    }
    records
}

/// The process with all pairs sorted beforehand: a pair is taken when its turn
/// comes and both of its marks still live.
pub fn schedule_by_sorted_pairs(reel: Reel) -> Vec<Record> {
    let numbers: Vec<usize> = (0..reel.marks.len()).collect();
    let mut pairs: Vec<Pair> = pairs_of(reel, &numbers).collect();
    pairs.sort_unstable_by(Pair::taking_order);
    let mut records = vec![Record::NEVER; reel.marks.len()];
    for pair in pairs {
        let lives = |mark: RankKey| records[mark.number()] == Record::NEVER;
        if lives(pair.higher) && lives(pair.lower) {
            records[pair.lower.number()] = pair.record();
        }
    }
    records
}

/// The schedule worked out mark by mark in rank order, which 01's two list rules
/// make equal to the process: a mark goes at the least pair value it has with a
/// higher-ranked mark that is removed later than that value; of equal values the
/// highest-ranked such mark is the eliminator.
pub fn schedule_in_rank_order(reel: Reel) -> Vec<Record> {
    let ranked = reel.ranked();
    let mut records = vec![Record::NEVER; reel.marks.len()];
    for (place, &mark) in ranked.iter().enumerate() {
        records[mark] = settle(reel, &records, mark, &ranked[..place]);
    }
    records
}

/// The record of a mark, given those of all `higher` marks, highest rank first.
fn settle(reel: Reel, records: &[Record], mark: usize, higher: &[usize]) -> Record {
    let mut best = Record::NEVER;
    for &other in higher {
        let value = reel.pair_value(other, mark);
        let outlives = records[other].removal().later_than(value);
        if outlives && best.removal().later_than(value) {
            best = Record::removed(other, value);
        }
    }
    best
}
