//! Every job with part 4 absent and naming either edition, compared with the oracle, on
//! marks of few priorities whose radii are written or those of the house.

mod common;

use common::jobs::{
    self, check, come_and_go, come_in_buffers_of_its_own, every_eliminator, records,
    refused_by_every_job, schedule,
};
use common::views::{assert_alike, view};
use common::{
    foreign_records, one_part, rivals, scheduled, scheduled_with, some_records, three_parts,
    with_named, with_part_4, Beyond, Tally, NAMED,
};
use oracle::mark::Mark;
use oracle::process::schedule_by_process;
use oracle::rank::Edition::{self, First, Second};
use oracle::record::Record;
use oracle::sample::{
    each_list, marks, small_choice, Generator, Layout, TIED_IN_TREE, TIED_RECORDS,
};
use oracle::tree;
use rollmap::{Code, Turn, View, Zoom};

/// Two marks of equal priority, of which the larger one has the higher number.
const LARGER_SECOND: [Mark; 2] = [Mark::plain(0, 0, 10, 5), Mark::plain(90, 0, 20, 5)];

/// Bodies of part 4 that question 19 refuses.
const NO_EDITIONS: [&[u8]; 8] = [&[], &[0], &[3], &[255], &[1, 1], &[2, 0], &[1, 2], &[1; 14]];

/// The sheet of one part with such a part 4.
fn bare_with(named: Option<Edition>, marks: &[Mark]) -> Vec<u8> {
    with_named(one_part(marks), named)
}

/// Sees that scheduling these marks with such a part 4 writes what the order of rank gives.
fn becomes_scheduled(named: Option<Edition>, marks: &[Mark]) {
    jobs::becomes_scheduled(&Beyond::named(named), marks);
}

// ---- scheduling

#[test]
fn of_equal_priorities_the_lower_number_stays_or_the_larger_label() {
    let gone = |by| Record::new(by, 8_100, 900);
    let [absent, first, second] = NAMED.map(|named| {
        let sheet = rollmap::schedule_to_vec(&bare_with(named, &LARGER_SECOND)).unwrap();
        records(&sheet)
    });
    assert_eq!(absent, [Record::NEVER, gone(0)]);
    assert_eq!(first, absent);
    assert_eq!(second, [gone(1), Record::NEVER]);
}

#[test]
fn many_small_sheets() {
    let mut generator = Generator::new(80);
    let mut differing = 0;
    for seed in 0..6_000 {
        let sample = rivals(&mut generator, seed % 24);
        for named in NAMED {
            becomes_scheduled(named, &sample);
        }
        let [first, second] = Edition::ALL.map(|edition| {
            let records = schedule_by_process(edition.reel(&sample));
            let sheet = with_named(three_parts(&sample, &records), Some(edition));
            assert_eq!(sheet, scheduled_with(Some(edition), &sample));
            records
        });
        differing += usize::from(first != second);
    }
    assert!(differing > 3_000, "{differing} schedules differ");
}

#[test]
fn every_sheet_of_three_marks_from_a_small_choice() {
    each_list(&small_choice(), 3, &mut |marks| {
        becomes_scheduled(Some(Second), marks);
    });
}

#[test]
fn sheets_of_every_layout() {
    for layout in Layout::ALL {
        for n in [0, 1, 2, 40, 191, 192, 193, 255, 256, 257, 700] {
            let mut sample = marks(layout, n, 8);
            becomes_scheduled(Some(Second), &sample);
            sample.iter_mut().for_each(|mark| mark.priority &= 1);
            becomes_scheduled(Some(Second), &sample);
            becomes_scheduled(Some(First), &sample);
        }
    }
}

#[test]
fn sheets_of_a_few_hundred_rivals() {
    let mut generator = Generator::new(81);
    for _ in 0..60 {
        let n = 100 + generator.below(400) as usize;
        becomes_scheduled(Some(Second), &rivals(&mut generator, n));
    }
}

#[test]
fn the_largest_sheets() {
    let mut generator = Generator::new(82);
    becomes_scheduled(Some(Second), &rivals(&mut generator, 4_096));
    for layout in [Layout::Uniform, Layout::Clustered, Layout::FewHuge] {
        let mut sample = marks(layout, 4_096, 9);
        sample.iter_mut().for_each(|mark| mark.priority &= 7);
        becomes_scheduled(Some(Second), &sample);
    }
}

#[test]
fn a_schedule_that_is_there_is_replaced_and_part_4_is_kept() {
    let mut generator = Generator::new(83);
    for _ in 0..1_000 {
        let n = generator.below(20) as usize;
        let sample = rivals(&mut generator, n);
        for named in NAMED {
            let reel = named.unwrap_or_default().reel(&sample);
            let records = foreign_records(&mut generator, reel);
            let foreign = with_named(three_parts(&sample, &records), named);
            let ours = scheduled_with(named, &sample);
            let lengths = Beyond::named(named).lengths(n);
            schedule(&foreign, lengths, Ok(&ours));
            schedule(&ours, lengths, Ok(&ours));
        }
    }
}

#[test]
fn without_part_4_all_is_as_in_the_first_edition_but_for_its_own_bytes() {
    let mut generator = Generator::new(84);
    for _ in 0..1_000 {
        let n = generator.below(30) as usize;
        let sample = rivals(&mut generator, n);
        let (bare, named) = (one_part(&sample), bare_with(Some(First), &sample));
        let [bare, named] = [bare, named].map(|sheet| rollmap::schedule_to_vec(&sheet).unwrap());
        assert_eq!(named, with_part_4(&bare, &[1]));
        let codes = [Code::Marks, Code::Schedule, Code::Index];
        let zoom = Zoom::Stop(generator.below(17) as u8);
        assert_alike(&bare, &named, &codes, zoom);
    }
}

#[test]
fn ties_in_the_tree_go_by_number() {
    assert_eq!(tree::build(&TIED_IN_TREE, &TIED_RECORDS), [0, 1, 2, 3]);
    for named in NAMED {
        let sheet = with_named(three_parts(&TIED_IN_TREE, &TIED_RECORDS), named);
        assert_eq!(check(&sheet), 0);
    }
}

// ---- checking

#[test]
fn records_are_held_to_the_ranks_of_the_edition() {
    let mut generator = Generator::new(85);
    let mut numbers = Tally::default();
    for _ in 0..4_000 {
        let n = 2 + generator.below(12) as usize;
        let sample = rivals(&mut generator, n);
        for edition in Edition::ALL {
            let records = some_records(&mut generator, edition.reel(&sample));
            let sheet = three_parts(&sample, &records);
            assert_eq!(check(&with_part_4(&sheet, &edition.write())), 0);
            for named in NAMED {
                numbers.add(check(&with_named(sheet.clone(), named)));
            }
        }
    }
    numbers.assert_reached([0, 8], 3_000);
}

#[test]
fn every_eliminator_in_both_editions() {
    let mut generator = Generator::new(86);
    for _ in 0..300 {
        let sample = rivals(&mut generator, 6);
        for named in NAMED {
            every_eliminator(&Beyond::named(named), &sample);
        }
    }
}

// ---- damaged

#[test]
fn a_damaged_part_4_is_refused_by_every_job() {
    let mut generator = Generator::new(87);
    for part_4 in NO_EDITIONS {
        for n in [0, 1, 2, 9] {
            let sample = rivals(&mut generator, n);
            for sheet in [one_part(&sample), scheduled(&sample)] {
                refused_by_every_job(&with_part_4(&sheet, part_4), 19);
            }
        }
    }
}

// ---- views

#[test]
fn views_go_by_the_sheets_own_schedule() {
    let mut generator = Generator::new(88);
    for _ in 0..600 {
        let n = generator.below(40) as usize;
        let sample = rivals(&mut generator, n);
        for named in NAMED {
            let reel = named.unwrap_or_default().reel(&sample);
            let records = some_records(&mut generator, reel);
            let sheet = with_named(three_parts(&sample, &records), named);
            let (low, high) = (generator.between(-300, 0), generator.between(0, 300));
            let asked = View {
                x0: low.into(),
                x1: high.into(),
                y0: low.into(),
                y1: high.into(),
                turn: generator.choose(&Turn::ALL),
                zoom: Zoom::Stop(generator.below(17) as u8),
            };
            assert_eq!(view(&sheet, asked, n.div_ceil(8)), 0);
        }
    }
}

// ---- marks that come and go

#[test]
fn marks_come_and_go_by_the_sheets_own_edition() {
    let mut generator = Generator::new(89);
    for _ in 0..2_000 {
        let n = 1 + generator.below(24);
        let sample = rivals(&mut generator, n as usize);
        let m = generator.below(n) as usize;
        for named in NAMED {
            come_and_go(&Beyond::named(named), &sample, m);
        }
    }
    for n in [192, 256, 700, 4_096] {
        let sample = rivals(&mut generator, n);
        come_and_go(&Beyond::named(Some(Second)), &sample, n / 2);
    }
}

#[test]
fn the_buffers_of_its_own_have_room_for_part_4() {
    for named in NAMED {
        come_in_buffers_of_its_own(&Beyond::named(named), &LARGER_SECOND);
    }
}
