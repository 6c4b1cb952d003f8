//! The whole sheet: questions 4 to 9, 19, 21, 24 and 23, and three of the five jobs, checking,
//! scheduling and putting together (01, 'The sheet: contents, then bodies' and
//! 'Questions put in turn'; 02, requests 6, 9, 12 and 13).

pub use crate::contents::{join, join_parts, split};

use crate::contents::{codes_fit, count_fits, extent, Bodies, Part, ENTRY_BYTES};
use crate::count::{self, part_6};
use crate::fraction::Fraction;
use crate::mark::{write_marks, Group, Mark, LARGEST_RADIUS, MARK_BYTES, MOST_MARKS};
use crate::popup::{popup_fits, read_popup, read_popups, POPUP_BYTES};
use crate::process::schedule_by_sorted_pairs;
use crate::rank::{Edition, RankKey};
use crate::record::{read_records, write_records, Record, RECORD_BYTES};
use crate::reel::Reel;
use crate::shape::Shape;
use crate::tree::{self, read_tree, write_tree, INDEX_BYTES};
use crate::{ask, Refusal};

/// Bytes of the work buffer that scheduling n marks borrows.
pub const fn work_bytes(n: usize) -> usize {
    32 * n + 1_024
}

/// Bytes of the sheet that scheduling n marks writes, where it has no part beyond 3.
pub const fn scheduled_bytes(n: usize) -> usize {
    32 + 27 * n
}

/// Bytes that parts add to a sheet: an entry in the contents each, and the bodies.
pub fn added_bytes(parts: &[Part]) -> usize {
    let bytes = |(_, body): &Part| ENTRY_BYTES + body.len();
    parts.iter().map(bytes).sum()
}

/// The lengths of parts 1, 2 and 3 of n marks.
pub const fn part_lengths(n: usize) -> [usize; 3] {
    [MARK_BYTES * n, RECORD_BYTES * n, INDEX_BYTES * n]
}

/// The parts of a sheet that questions 1 to 7, 19, 21 and 24 take, row by row as they stand
/// in the caller's bytes: as many records, numbers of the index and popups as marks, where
/// they are there; the edition, where part 4 names one, and the shape, where part 7 does; and
/// part 6 as it is.
#[derive(Clone, Copy, Debug)]
pub struct Rows<'a> {
    pub marks: &'a [[u8; MARK_BYTES]],
    pub records: Option<&'a [[u8; RECORD_BYTES]]>,
    pub index: Option<&'a [[u8; INDEX_BYTES]]>,
    pub named: Option<Edition>,
    pub popups: Option<&'a [[u8; POPUP_BYTES]]>,
    pub counts: Option<&'a [u8]>,
    pub shaped: Option<Shape>,
}

impl<'a> Rows<'a> {
    /// The rows of a sheet's bodies. Asks 4 to 7, 19, 21, and 24.
    #[inline]
    pub fn of(bodies: &Bodies<'a>) -> Result<Self, Refusal> {
        let marks = mark_rows(bodies.part_1())?;
        ask(7, lengths_fit(bodies, marks.len()))?;
        let named = named_edition(bodies)?;
        let popups = popup_rows(bodies, marks.len())?;
        let shaped = named_shape(bodies)?;
        Ok(Self {
            marks,
            records: bodies.get(2).map(|body| body.as_chunks().0),
            index: bodies.get(3).map(|body| body.as_chunks().0),
            named,
            popups,
            counts: bodies.get(6),
            shaped,
        })
    }

    /// The edition that holds.
    #[inline]
    pub fn edition(&self) -> Edition {
        self.named.unwrap_or_default()
    }

    /// The shape that the labels have.
    #[inline]
    pub fn shape(&self) -> Shape {
        self.shaped.unwrap_or_default()
    }

    /// The popup of mark number m.
    #[inline]
    pub fn popup(&self, m: usize) -> u32 {
        self.popups.map_or(0, |popups| read_popup(&popups[m]))
    }
}

/// The marks of a part 1. Asks 4, then 5 and 6 mark by mark.
#[inline]
pub fn mark_rows(part_1: &[u8]) -> Result<&[[u8; MARK_BYTES]], Refusal> {
    let marks = unread_rows(part_1)?;
    marks.iter().map(Mark::read).try_for_each(ask_mark)?;
    Ok(marks)
}

/// The marks of a part 1, whatever their fields hold. Asks 4.
#[inline]
pub fn unread_rows(part_1: &[u8]) -> Result<&[[u8; MARK_BYTES]], Refusal> {
    let (marks, rest) = part_1.as_chunks();
    ask(4, rest.is_empty() && marks.len() <= MOST_MARKS)?;
    Ok(marks)
}

/// Questions 5 and 6 of one mark: the kind exists, and then the radius as it is
/// written is not too large.
#[inline]
pub(crate) fn ask_mark(mark: Mark) -> Result<(), Refusal> {
    ask(5, Group::of(mark.kind).is_some())?;
    ask(6, mark.radius <= LARGEST_RADIUS)
}

/// Question 7: parts 2 and 3, if present, are 14n and 2n bytes.
#[inline]
fn lengths_fit(bodies: &Bodies, n: usize) -> bool {
    let [_, records, index] = part_lengths(n);
    let fits = |code, length| bodies.get(code).is_none_or(|body| body.len() == length);
    fits(2, records) && fits(3, index)
}

/// The edition that part 4 names, if it is there. Asks 19: it is one byte of 1 or 2.
#[inline]
fn named_edition(bodies: &Bodies) -> Result<Option<Edition>, Refusal> {
    let edition = |part_4| Edition::read(part_4).ok_or(19);
    bodies.get(4).map(edition).transpose()
}

/// The popups of n marks in part 5, if it is there. Asks 21: it is 4n bytes, and no popup
/// exceeds 65,536.
#[inline]
fn popup_rows<'a>(
    bodies: &Bodies<'a>,
    n: usize,
) -> Result<Option<&'a [[u8; POPUP_BYTES]]>, Refusal> {
    let popups = |part_5: &'a [u8]| {
        let (popups, rest) = part_5.as_chunks();
        let fit = || popups.iter().map(read_popup).all(popup_fits);
        ask(21, rest.is_empty() && popups.len() == n && fit())?;
        Ok(popups)
    };
    bodies.get(5).map(popups).transpose()
}

/// The shape that part 7 names, if it is there. Asks 24: it is one byte of 1 or 2.
#[inline]
fn named_shape(bodies: &Bodies) -> Result<Option<Shape>, Refusal> {
    let shape = |part_7| Shape::read(part_7).ok_or(24);
    bodies.get(7).map(shape).transpose()
}

/// An accepted sheet, opened: its bodies as they stand in the caller's bytes, and
/// what they mean. A part that is there may still be empty.
#[derive(Clone, Debug, PartialEq, Eq)]
pub struct Opened<'a> {
    pub bodies: Bodies<'a>,
    pub marks: Vec<Mark>,
    pub records: Option<Vec<Record>>,
    pub tree: Option<Vec<u16>>,
    pub edition: Edition,
    pub popups: Option<Vec<u32>>,
    pub shape: Shape,
}

impl Opened<'_> {
    /// What decides the schedule of the marks.
    pub fn reel(&self) -> Reel<'_> {
        Reel {
            marks: &self.marks,
            edition: self.edition,
            popups: self.popups.as_deref(),
            shape: self.shape,
        }
    }

    /// The records of a sheet that has parts 2 and 3. Asks 10.
    pub fn indexed_records(&self) -> Result<&[Record], Refusal> {
        match (&self.records, &self.tree) {
            (Some(records), Some(_)) => Ok(records),
            _ => Err(10),
        }
    }
}

/// Opens a sheet. Asks 1 to 9.
pub fn open(sheet: &[u8]) -> Result<Opened<'_>, Refusal> {
    open_bodies(split(sheet)?)
}

/// Opens the bodies of a sheet. Asks 4 to 9.
fn open_bodies(bodies: Bodies<'_>) -> Result<Opened<'_>, Refusal> {
    let rows = Rows::of(&bodies)?;
    let opened = Opened {
        bodies,
        marks: rows.marks.iter().map(Mark::read).collect(),
        records: bodies.get(2).map(read_records),
        tree: bodies.get(3).map(read_tree),
        edition: rows.edition(),
        popups: bodies.get(5).map(read_popups),
        shape: rows.shape(),
    };
    if let Some(records) = &opened.records {
        ask(8, records_fit(opened.reel(), records))?;
    }
    if let (Some(records), Some(tree)) = (&opened.records, &opened.tree) {
        ask(9, *tree == tree::build(&opened.marks, records))?;
    }
    if let (Some(records), Some(counts)) = (&opened.records, bodies.get(6)) {
        ask(23, counts == part_6(opened.reel(), records))?;
    }
    Ok(opened)
}

/// Question 8 of the records of a reel, one for each mark.
fn records_fit(reel: Reel, records: &[Record]) -> bool {
    let (rank, pair) = (|m| reel.rank(m), |a, b| reel.pair_value(a, b));
    let n = records.len();
    (0..n).all(|m| record_fits(m, n, rank, pair, |m| records[m]))
}

/// Reads marks as they stand in part 1. Asks 4 to 6.
pub fn open_marks(part_1: &[u8]) -> Result<Vec<Mark>, Refusal> {
    Ok(mark_rows(part_1)?.iter().map(Mark::read).collect())
}

/// Question 8 of the record of mark m of n, by the ranks, pair values and records of their
/// numbers: it is the 'never' record; or it names a higher-ranked mark below n, with their
/// pair value as its two unreduced numbers, and that mark is removed later.
#[inline]
pub fn record_fits(
    m: usize,
    n: usize,
    rank: impl Fn(usize) -> RankKey,
    pair: impl Fn(usize, usize) -> Fraction,
    record: impl Fn(usize) -> Record,
) -> bool {
    let own = record(m);
    if own == Record::NEVER {
        return true;
    }
    let eliminator = usize::from(own.eliminator);
    eliminator < n
        && rank(eliminator) < rank(m)
        && own.value == pair(eliminator, m)
        && record(eliminator).removal().later_than(own.value)
}

/// Checks a sheet: 0, or the number of the first of questions 1 to 9 that is
/// answered with no.
pub fn check(sheet: &[u8]) -> u32 {
    match open(sheet) {
        Ok(_) => 0,
        Err(number) => number,
    }
}

/// Where a part stands in an accepted sheet, as offset and length; both 0 where
/// the sheet has no such part or is refused.
pub fn part_extent(sheet: &[u8], code: u32) -> (u32, u32) {
    match check(sheet) {
        0 => extent(sheet, code).unwrap_or_default(),
        _ => (0, 0),
    }
}

/// Puts parts of these codes together into a sheet: the first body is that of the first
/// code, and so on, and further bodies are ignored. Asks 1 of the number of codes and of
/// bodies, 2 of the codes, 4 to 9, and 13 of the buffer written to.
pub fn assemble(codes: &[u16], bodies: &[&[u8]], out_length: usize) -> Result<Vec<u8>, Refusal> {
    ask(1, count_fits(codes.len()) && bodies.len() >= codes.len())?;
    ask(2, codes_fit(codes.iter().copied()))?;
    let (codes, bodies) = (codes.iter().copied(), bodies.iter().copied());
    let parts: Vec<Part> = codes.zip(bodies).collect();
    open_bodies(Bodies::of(&parts))?;
    let sheet = join_parts(&parts);
    ask(13, out_length >= sheet.len())?;
    Ok(sheet)
}

/// Schedules a sheet afresh, whatever schedule it has. Asks 1 to 9, and 13 of the
/// work buffer and the buffer written to.
pub fn schedule(sheet: &[u8], work_length: usize, out_length: usize) -> Result<Vec<u8>, Refusal> {
    let opened = open(sheet)?;
    let (carried, counted) = (opened.bodies.carried(), opened.bodies.get(6).is_some());
    schedule_reel(opened.reel(), &carried, counted, work_length, out_length)
}

/// Schedules the marks of a reel with the parts that are carried along, and counts them by
/// their new schedule where the sheet was `counted`. Asks 13 of both buffers.
pub(crate) fn schedule_reel(
    reel: Reel,
    carried: &[Part],
    counted: bool,
    work_length: usize,
    out_length: usize,
) -> Result<Vec<u8>, Refusal> {
    let n = reel.marks.len();
    let counts = if counted { count::ADDED_BYTES } else { 0 };
    let written = scheduled_bytes(n) + added_bytes(carried) + counts;
    ask(13, work_length >= work_bytes(n) && out_length >= written)?;
    Ok(scheduled(reel, carried, counted))
}

/// The sheet that scheduling writes: the marks unchanged, the schedule, its index, the
/// parts that are carried along, and the counts, where the sheet was `counted`.
fn scheduled(reel: Reel, carried: &[Part], counted: bool) -> Vec<u8> {
    let records = schedule_by_sorted_pairs(reel);
    let (part_1, part_2) = (write_marks(reel.marks), write_records(&records));
    let part_3 = write_tree(&tree::build(reel.marks, &records));
    let part_6 = counted.then(|| part_6(reel, &records));
    let mut parts: Vec<Part> = vec![(1, &part_1), (2, &part_2), (3, &part_3)];
    parts.extend(carried);
    parts.extend(part_6.as_ref().map(|part_6| (6, part_6.as_slice())));
    parts.sort_unstable_by_key(|&(code, _)| code);
    join_parts(&parts)
}

#[cfg(test)]
mod tests {
    use super::*;
    use crate::contents::contents_bytes;

    #[test]
    fn a_scheduled_sheet_is_its_contents_and_its_parts() {
        for n in [0, 1, 4, 4_096] {
            let parts: usize = part_lengths(n).iter().sum();
            assert_eq!(scheduled_bytes(n), contents_bytes(3) + parts);
        }
    }

    #[test]
    fn parts_4_and_7_add_11_bytes_each_part_5_10_and_4_a_mark_and_part_6_180() {
        assert_eq!(added_bytes(&[]), 0);
        assert_eq!(added_bytes(&[(4, &[2])]), 11);
        assert_eq!(added_bytes(&[(7, &[2])]), 11);
        assert_eq!(added_bytes(&[(5, &[])]), 10);
        assert_eq!(added_bytes(&[(5, &[0; 8])]), 10 + 4 * 2);
        assert_eq!(added_bytes(&[(4, &[1]), (5, &[0; 8])]), 29);
        assert_eq!(added_bytes(&[(6, &[0; 170])]), count::ADDED_BYTES);
    }
}
