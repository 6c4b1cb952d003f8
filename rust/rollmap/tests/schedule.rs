//! Scheduling, compared with the oracle byte for byte.

mod common;

use common::jobs::{self, schedule};
use common::{
    bodies_of, foreign_records, joined, lengths, number, one_part, scheduled, some_sheet,
    tied_marks, Beyond, Tally,
};
use oracle::mark::Mark;
use oracle::process::{schedule_by_process, schedule_by_sorted_pairs};
use oracle::rank::Edition::First;
use oracle::record::Record;
use oracle::sample::{each_list, marks, small_choice, Generator, Layout, P1, P5, P6};
use oracle::tree::read_tree;
use rollmap::{schedule_to_vec, scheduled_bytes, work_bytes, Code, Work};

/// Schedules a sheet in buffers that are just long enough, and sees that it becomes
/// the expected one.
fn becomes(sheet: &[u8], expected: &[u8]) {
    let n = (expected.len() - 32) / 27;
    schedule(sheet, lengths(n), Ok(expected));
}

/// The records that scheduling these marks writes.
fn records(marks: &[Mark]) -> Vec<Record> {
    jobs::records(&schedule_to_vec(&one_part(marks)).unwrap())
}

#[test]
fn proved_examples() {
    let p1 = [
        Record::NEVER,
        Record::new(0, 10_000, 400),
        Record::new(0, 40_000, 400),
        Record::new(0, 9, 225),
    ];
    assert_eq!(records(&P1), p1);
    let sheet = schedule_to_vec(&one_part(&P1)).unwrap();
    assert_eq!(
        read_tree(rollmap::part(&sheet, Code::Index).unwrap()),
        [0, 1, 3, 2]
    );
    assert_eq!(records(&P5), [Record::NEVER, Record::new(0, 0, 4)]);
    assert_eq!(
        records(&P6),
        [Record::NEVER, Record::new(0, 8_589_672_450, 4)]
    );
    let p11 = [
        Mark::plain(60, 0, 2, 5),
        Mark::plain(-100, 0, 10, 9),
        Mark::plain(0, 0, 10, 1),
    ];
    assert_eq!(records(&p11)[2], Record::new(1, 10_000, 400));
    assert_eq!(schedule_to_vec(&one_part(&[])).unwrap(), scheduled(&[]));
}

#[test]
fn many_small_sheets() {
    for layout in Layout::ALL {
        for seed in 0..2_000 {
            let sample = marks(layout, seed as usize % 24, seed);
            let sheet = scheduled(&sample);
            if seed < 200 {
                let records = schedule_by_process(First.reel(&sample));
                assert_eq!(sheet, joined(&bodies_of(&sample, &records)));
            }
            becomes(&one_part(&sample), &sheet);
        }
    }
}

#[test]
fn every_sheet_of_three_marks_from_a_small_choice() {
    each_list(&small_choice(), 3, &mut |marks| {
        becomes(&one_part(marks), &scheduled(marks));
    });
}

#[test]
fn many_sheets_full_of_ties() {
    let mut generator = Generator::new(21);
    for _ in 0..6_000 {
        let n = 2 + generator.below(30) as usize;
        let sample = tied_marks(&mut generator, n);
        becomes(&one_part(&sample), &scheduled(&sample));
    }
}

#[test]
fn sheets_of_a_few_hundred_marks() {
    let mut generator = Generator::new(22);
    for layout in Layout::ALL {
        for seed in 0..30 {
            let sample = marks(layout, 100 + generator.below(300) as usize, seed);
            becomes(&one_part(&sample), &scheduled(&sample));
        }
        let sample = marks(layout, 200, 1);
        let pairs = schedule_by_sorted_pairs(First.reel(&sample));
        becomes(&one_part(&sample), &joined(&bodies_of(&sample, &pairs)));
    }
    for _ in 0..60 {
        let sample = tied_marks(&mut generator, 300);
        becomes(&one_part(&sample), &scheduled(&sample));
    }
}

#[test]
fn every_number_of_marks_up_to_a_hundred() {
    for n in 0..100 {
        for layout in [Layout::Grid, Layout::Uniform, Layout::Extreme] {
            let sample = marks(layout, n, 5);
            becomes(&one_part(&sample), &scheduled(&sample));
        }
    }
}

#[test]
fn the_largest_sheets_of_every_layout() {
    for layout in Layout::ALL {
        let sample = marks(layout, 4_096, 12);
        becomes(&one_part(&sample), &scheduled(&sample));
    }
}

#[test]
fn a_largest_sheet_by_all_pairs() {
    let sample = marks(Layout::Grid, 4_096, 13);
    let records = schedule_by_sorted_pairs(First.reel(&sample));
    becomes(&one_part(&sample), &joined(&bodies_of(&sample, &records)));
}

#[test]
fn what_the_work_buffer_held_makes_no_difference() {
    let mut generator = Generator::new(23);
    for n in [0, 1, 2, 7, 64, 250, 1_000] {
        for layout in Layout::ALL {
            let sample = marks(layout, n, 31);
            let (sheet, expected) = (one_part(&sample), scheduled(&sample));
            let mut work = vec![0; work_bytes(n)];
            let mut out = vec![0; expected.len()];
            for turn in 0..6 {
                match turn {
                    0 => {}
                    1 => work.fill(0xff),
                    2 => work.fill_with(|| generator.draw() as u8),
                    3 => work.fill(0x01),
                    4 => work.reverse(),
                    _ => {} // what the turn before left
                }
                out.fill(turn);
                let written = rollmap::schedule(&sheet, Work(&mut work), &mut out);
                assert_eq!(written, Ok(expected.len()));
                assert!(out == expected, "{layout:?} {n} {turn}");
            }
        }
    }
}

#[test]
fn parts_2_and_3_are_replaced() {
    let mut generator = Generator::new(24);
    for layout in Layout::ALL {
        for n in [0, 1, 2, 5, 30, 120] {
            let sample = marks(layout, n, 3);
            let ours = scheduled(&sample);
            becomes(&ours, &ours);
            let foreign = bodies_of(
                &sample,
                &foreign_records(&mut generator, First.reel(&sample)),
            );
            becomes(&joined(&foreign[..2]), &ours);
            becomes(&joined(&foreign), &ours);
        }
    }
}

#[test]
fn lengths_of_both_buffers() {
    for n in [0, 1, 4] {
        let (sheet, expected) = (one_part(&P1[..n]), scheduled(&P1[..n]));
        let (work, out) = (work_bytes(n), scheduled_bytes(n));
        assert_eq!((work, out), (32 * n + 1_024, 32 + 27 * n));
        for (longer_work, longer_out) in [(0, 0), (1, 0), (0, 1), (100, 3), (7, 500)] {
            let answer = Ok(expected.as_slice());
            schedule(&sheet, [work + longer_work, out + longer_out], answer);
        }
        for short_work in [0, 1, 1_023, 1_023 + n, 32 * n + 1_023] {
            schedule(&sheet, [short_work, out + 50], Err(13));
            schedule(&sheet, [short_work, 0], Err(13));
        }
        for short_out in 0..out {
            schedule(&sheet, [work + 50, short_out], Err(13));
        }
    }
}

#[test]
fn refused_sheets_write_nothing() {
    let mut generator = Generator::new(25);
    let mut numbers = Tally::default();
    for _ in 0..20_000 {
        let sheet = some_sheet(&mut generator);
        let refused = match oracle::sheet::check(&sheet) {
            0 => 13,
            number => number,
        };
        let (work, out) = generator.choose(&[(0, 4_000), (4_000, 0), (0, 0), (1_023, 2_000)]);
        schedule(&sheet, [work, out], Err(refused));
        let number = match oracle::sheet::open(&sheet) {
            Ok(opened) => {
                let expected = Beyond::of(&opened).scheduled(&opened.marks);
                schedule(&sheet, [2_400, 1_600], Ok(&expected))
            }
            Err(number) => schedule(&sheet, [2_400, 1_600], Err(number)),
        };
        numbers.add(number);
    }
    numbers.assert_reached((0..=9).chain([19, 21, 23, 24]), 100);
}

#[test]
fn the_buffers_of_its_own_are_long_enough() {
    for layout in Layout::ALL {
        for n in [0, 1, 2, 100] {
            let sample = marks(layout, n, 6);
            let sheet = schedule_to_vec(&one_part(&sample));
            assert_eq!(sheet, Ok(scheduled(&sample)));
        }
    }
    let refused = schedule_to_vec(&one_part(&[Mark::plain(0, 0, 16_384, 0)]));
    assert_eq!(number(&refused), 6);
    assert_eq!(number(&schedule_to_vec(&[])), 1);
}
