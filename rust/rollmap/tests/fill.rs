//! Filling, and the rescue of old sheets, compared with the oracle.

mod common;

use common::jobs::{assert_made, every_length, AS_WIDE};
use common::{
    bodies_of, damage_rows, number, one_part, our_records, some_marks, some_room, some_sheet, turn,
    with_part, Tally, FAULTS_OF_A_MARK,
};
use oracle::fill::old_radius;
use oracle::mark::{read_marks, write_marks, Mark};
use oracle::record::{write_records, Record};
use oracle::sample::{marks, Generator, Layout};
use oracle::sheet::{join, split};
use oracle::tree;
use rollmap::{Code, Refusal, MARK_BYTES};

/// Two moisture patches with the house radius.
const PATCHES: [Mark; 2] = [patch(0, 100, 9), patch(100, 149, 5)];

const fn patch(x: i16, kind: u8, priority: u16) -> Mark {
    Mark {
        kind,
        ..Mark::plain(x, 0, 0, priority)
    }
}

/// Fills marks in a buffer of so many bytes, and sees that the answer and every byte
/// are the oracle's. Answers the number.
fn fill(part_1: &[u8], out_length: usize, seed: u64) -> u32 {
    let expected = oracle::fill::fill;
    turn(rollmap::fill, expected, part_1, out_length, seed)
}

/// Marks of all kinds, about half of them with radius 0.
fn half_written(generator: &mut Generator) -> Vec<Mark> {
    let mut marks = some_marks(generator);
    for mark in &mut marks {
        mark.kind = generator.below(200) as u8;
        if generator.below(2) == 0 {
            mark.radius = 0;
        }
    }
    marks
}

#[test]
fn every_kind_with_some_radii() {
    for kind in 0..=255 {
        for radius in [0, 1, 2, 119, 120, 150, 256, 16_383, 16_384, 65_535] {
            let mark = Mark {
                kind,
                ..Mark::plain(-1, 258, radius, 65_535)
            };
            let expected = match (kind, radius) {
                (200.., _) => 5,
                (_, 16_384..) => 6,
                _ => 0,
            };
            assert_eq!(fill(&write_marks(&[mark]), 11, 1), expected);
        }
    }
}

#[test]
fn every_length_of_the_marks_and_of_the_written_buffer() {
    let part_1 = write_marks(&marks(Layout::Uniform, 5, 1));
    every_length(fill, &part_1, AS_WIDE);
}

#[test]
fn the_most_marks() {
    let mut generator = Generator::new(1);
    let mut sample = marks(Layout::Uniform, 4_096, 4);
    for mark in &mut sample {
        mark.radius = generator.choose(&[0, 0, mark.radius]);
    }
    let part_1 = write_marks(&sample);
    assert_eq!(fill(&part_1, 45_056, 1), 0);
    assert_eq!(fill(&part_1, 45_055, 2), 13);
    let longer = [part_1.as_slice(), &[0; 11]].concat();
    assert_eq!(fill(&longer, 45_067, 3), 4);
}

#[test]
fn the_kind_is_asked_before_the_radius_mark_by_mark() {
    let large = Mark::plain(0, 0, 16_384, 0);
    let unknown = Mark { kind: 200, ..large };
    for (sample, expected) in [
        ([unknown, large], 5),
        ([large, unknown], 6),
        ([PATCHES[0], unknown], 5),
        ([PATCHES[0], large], 6),
    ] {
        assert_eq!(fill(&write_marks(&sample), 0, 1), expected);
    }
}

#[test]
fn many_marks_with_a_few_faults() {
    let mut generator = Generator::new(31);
    let mut numbers = Tally::default();
    for seed in 0..40_000 {
        let mut part_1 = write_marks(&half_written(&mut generator));
        damage_rows(&mut generator, &mut part_1, MARK_BYTES, &FAULTS_OF_A_MARK);
        let room = some_room(&mut generator, part_1.len());
        numbers.add(fill(&part_1, room, seed));
    }
    numbers.assert_reached([0, 4, 5, 6, 13], 100);
}

#[test]
fn filling_twice_is_filling_once() {
    let mut generator = Generator::new(32);
    for _ in 0..2_000 {
        let sample = half_written(&mut generator);
        let once = rollmap::fill_to_vec(&write_marks(&sample)).expect("the marks are taken");
        assert_eq!(rollmap::fill_to_vec(&once).as_ref(), Ok(&once));
        for (old, new) in sample.iter().zip(read_marks(&once)) {
            let radius = match old.radius {
                0 => old_radius(old.kind).expect("the kind exists"),
                own => own,
            };
            assert_eq!(new, Mark { radius, ..*old });
            assert_eq!(new.used_radius(), Some(radius));
        }
    }
}

// ---- old sheets

/// The records that these marks had when a moisture patch had 120.
fn old_records(sample: &[Mark]) -> Vec<Record> {
    let part_1 = write_marks(sample);
    let filled = oracle::fill::fill(&part_1, part_1.len()).expect("the marks are taken");
    our_records(&read_marks(&filled))
}

/// The sheet of three parts that was scheduled then.
fn old_sheet(sample: &[Mark]) -> Vec<u8> {
    let records = old_records(sample);
    let tree = tree::write_tree(&tree::build(sample, &records));
    join(&[&write_marks(sample), &write_records(&records), &tree])
}

#[test]
fn an_old_sheet_of_two_patches_is_rescued() {
    let old = old_sheet(&PATCHES);
    assert_eq!(rollmap::check(&old), Err(Refusal::Schedule));
    assert_eq!(rollmap::part(&old, Code::Marks), None);
    let sheet = rollmap::rescue(&old).expect("its marks are taken");
    assert_eq!(rollmap::check(&sheet), Ok(()));
    let filled = PATCHES.map(|mark| Mark {
        radius: 120,
        ..mark
    });
    assert_eq!(sheet, one_part(&filled));
    let scheduled = rollmap::schedule_to_vec(&sheet).expect("it is accepted");
    let records = write_records(&old_records(&PATCHES));
    assert_eq!(
        rollmap::part(&scheduled, Code::Schedule),
        Some(records.as_slice())
    );
}

#[test]
fn old_sheets_meet_8_or_pass_and_are_rescued_with_their_schedule() {
    let mut generator = Generator::new(33);
    let mut numbers = Tally::default();
    for _ in 0..3_000 {
        let sample = half_written(&mut generator);
        let old = old_sheet(&sample);
        numbers.add(number(&rollmap::check(&old)));
        let sheet = rollmap::rescue(&old).expect("its marks are taken");
        assert_eq!(Ok(&sheet), oracle::fill::rescue(&old).as_ref());
        let scheduled = rollmap::schedule_to_vec(&sheet).expect("it is accepted");
        let (scheduled, old) = (split(&scheduled).unwrap(), split(&old).unwrap());
        assert_eq!(
            [2, 3].map(|code| scheduled.get(code)),
            [2, 3].map(|code| old.get(code))
        );
    }
    numbers.assert_reached([0, 8], 300);
}

#[test]
fn a_rescue_asks_1_to_6() {
    let mut generator = Generator::new(34);
    let mut numbers = Tally::default();
    for _ in 0..40_000 {
        let sheet = some_sheet(&mut generator);
        let rescued = rollmap::rescue(&sheet);
        let expected = oracle::fill::rescue(&sheet);
        numbers.add(assert_made(&sheet, rescued, &expected));
    }
    numbers.assert_reached(0..=6, 50);
}

#[test]
fn what_the_other_parts_hold_plays_no_part_in_a_rescue() {
    let [part_1, ..] = bodies_of(&PATCHES, &old_records(&PATCHES));
    let expected = rollmap::rescue(&join(&[&part_1]));
    for junk in [vec![], vec![0xff; 5], vec![0; 28]] {
        assert_eq!(rollmap::rescue(&join(&[&part_1, &junk])), expected);
        let three = join(&[&part_1, &junk, &junk]);
        assert_eq!(rollmap::rescue(&three), expected);
        for code in [4, 5, 6, 7] {
            assert_eq!(rollmap::rescue(&with_part(&three, code, &junk)), expected);
        }
    }
}
