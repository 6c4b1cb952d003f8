//! What the tests of the jobs share: the sheets of some marks. Each test file uses some
//! of it.

#![allow(dead_code)]

use oracle::count::part_6;
use oracle::mark::{write_marks, Mark};
use oracle::popup::write_popups;
use oracle::process::schedule_in_rank_order;
use oracle::rank::Edition;
use oracle::record::{read_records, write_records, Record};
use oracle::reel::Reel;
use oracle::sample::{marks, popups, Layout, Popups};
use oracle::shape::Shape;
use oracle::sheet::{join, join_parts, open, schedule, split};
use oracle::tree;

/// The largest work and written buffers that scheduling asks for, the latter without the
/// parts beyond 3.
pub const WORK: usize = 32 * 4_096 + 1_024;
pub const OUT: usize = 32 + 27 * 4_096;

/// What part 4 adds to a sheet.
pub const EDITION: usize = 11;

/// What part 5 adds to a sheet of n marks.
pub const fn popup_bytes(n: usize) -> usize {
    10 + 4 * n
}

/// What part 6 adds to a sheet.
pub const COUNTS: usize = 180;

/// What part 7 adds to a sheet.
pub const SHAPE: usize = 11;

/// The largest written buffer that scheduling asks for.
pub const LONGEST: usize = OUT + EDITION + popup_bytes(4_096) + COUNTS + SHAPE;

/// The sheet of one part with these marks.
pub fn one_part(marks: &[Mark]) -> Vec<u8> {
    join(&[&write_marks(marks)])
}

/// The sheet of three parts with these marks and records and their tree.
pub fn three_parts(marks: &[Mark], records: &[Record]) -> Vec<u8> {
    with_tree(marks, records, &tree::build(marks, records))
}

/// The sheet of three parts with these marks, records and tree.
pub fn with_tree(marks: &[Mark], records: &[Record], tree: &[u16]) -> Vec<u8> {
    join(&[
        &write_marks(marks),
        &write_records(records),
        &tree::write_tree(tree),
    ])
}

/// The sheet with this part in its place by its code, of which it has none.
pub fn with_part(sheet: &[u8], code: u16, body: &[u8]) -> Vec<u8> {
    let mut parts = split(sheet).unwrap().present();
    parts.push((code, body));
    parts.sort_unstable_by_key(|&(code, _)| code);
    join_parts(&parts)
}

/// The sheet with this part 4.
pub fn with_part_4(sheet: &[u8], part_4: &[u8]) -> Vec<u8> {
    with_part(sheet, 4, part_4)
}

/// The sheet with an edition named in part 4.
pub fn with_edition(sheet: &[u8], edition: Edition) -> Vec<u8> {
    with_part_4(sheet, &edition.write())
}

/// The sheet with these popups in part 5.
pub fn with_popups(sheet: &[u8], popups: &[u32]) -> Vec<u8> {
    with_part(sheet, 5, &write_popups(popups))
}

/// The sheet with this part 7.
pub fn with_part_7(sheet: &[u8], part_7: &[u8]) -> Vec<u8> {
    with_part(sheet, 7, part_7)
}

/// The sheet with a shape named in part 7.
pub fn with_shape(sheet: &[u8], shape: Shape) -> Vec<u8> {
    with_part_7(sheet, &shape.write())
}

/// The accepted sheet with the counts of its own schedule in part 6, of which it has none.
pub fn with_counts(sheet: &[u8]) -> Vec<u8> {
    let opened = open(sheet).unwrap();
    let records = opened.records.as_deref().expect("there is a schedule");
    with_part(sheet, 6, &part_6(opened.reel(), records))
}

/// The records of a sheet that has part 2.
pub fn records(sheet: &[u8]) -> Vec<Record> {
    read_records(split(sheet).unwrap().get(2).unwrap())
}

/// The sheet that scheduling a sheet writes.
pub fn schedule_large(sheet: &[u8]) -> Result<Vec<u8>, u32> {
    schedule(sheet, WORK, LONGEST)
}

/// The sheet of three parts that scheduling these marks writes.
pub fn scheduled(marks: &[Mark]) -> Vec<u8> {
    schedule_large(&one_part(marks)).unwrap()
}

/// The sheet of four parts that scheduling these marks by an edition writes.
pub fn scheduled_by(edition: Edition, marks: &[Mark]) -> Vec<u8> {
    schedule_large(&with_edition(&one_part(marks), edition)).unwrap()
}

/// The sheet of four parts that scheduling these marks with these popups writes.
pub fn scheduled_popping_up(marks: &[Mark], popups: &[u32]) -> Vec<u8> {
    schedule_large(&with_popups(&one_part(marks), popups)).unwrap()
}

/// The sheet of four parts that scheduling these marks with labels of a shape writes.
pub fn scheduled_as(shape: Shape, marks: &[Mark]) -> Vec<u8> {
    schedule_large(&with_shape(&one_part(marks), shape)).unwrap()
}

/// The sheet of five parts that a reel with popups and its edition give, in the order of
/// rank.
pub fn five_parts(reel: Reel) -> Vec<u8> {
    let sheet = three_parts(reel.marks, &schedule_in_rank_order(reel));
    let named = with_edition(&sheet, reel.edition);
    with_popups(&named, reel.popups.expect("the reel has popups"))
}

/// Calls `visit` with samples of every layout and of these numbers of marks, which pop up in
/// every way.
pub fn each_popping_up(numbers: &[usize], mut visit: impl FnMut(&[Mark], &[u32])) {
    for layout in Layout::ALL {
        for (seed, &n) in (1..).zip(numbers) {
            let sample = marks(layout, n, seed);
            for how in Popups::ALL {
                visit(&sample, &popups(how, &sample, seed));
            }
        }
    }
}

/// Calls `visit` with the marks in both editions and of both shapes, without popups and
/// popping up in these ways.
pub fn each_reel(marks: &[Mark], ways: &[Popups], seed: u64, mut visit: impl FnMut(Reel)) {
    let drawn: Vec<Vec<u32>> = ways.iter().map(|&it| popups(it, marks, seed)).collect();
    for (edition, shape) in Edition::ALL
        .into_iter()
        .flat_map(|edition| Shape::ALL.map(|shape| (edition, shape)))
    {
        let reel = edition.reel(marks).with_shape(shape);
        visit(reel);
        drawn
            .iter()
            .for_each(|popups| visit(reel.with_popups(popups)));
    }
}
