//! Judging, compared with the oracle and with scheduling: schedules that are ours, others
//! that question 8 takes, and damaged sheets.

mod common;

use common::jobs::first_no;
use common::{
    bound, foreign_records, number, one_part, rivals, scheduled, scheduled_having, scheduled_of,
    some_marks, some_records, some_sheet, three_parts, tied_marks, with_part_4, with_part_7,
    with_popups, Beyond, Lent, Tally, NAMED, SHAPED,
};
use oracle::count::part_6;
use oracle::mark::{write_marks, Mark};
use oracle::popup::write_popups;
use oracle::process::schedule_in_rank_order;
use oracle::rank::Edition;
use oracle::record::{read_records, write_records, Record};
use oracle::reel::Reel;
use oracle::sample::{
    each_list, each_schedule, fitting_records, marks, popups, refused_sheets, small_choice,
    Generator, JudgedExample, Layout, Popups, CODES_TAKEN, JUDGED_EXAMPLES, P1, P5, TOGETHER,
};
use oracle::shape::Shape;
use oracle::sheet::{join, join_parts};
use oracle::tree;
use rollmap::{Refusal, NO_POPUP};

/// The number that the library gives a sheet, no byte of which is written; it is seen to be 0
/// exactly where scheduling the sheet gives its own bytes.
fn judge_by_scheduling(sheet: &[u8]) -> u32 {
    let mut lent = Lent::holding(sheet, sheet.len() as u64);
    let number = number(&rollmap::judge(lent.slice()));
    lent.assert_untouched();
    let again = rollmap::schedule_to_vec(sheet);
    let ours = again.is_ok_and(|again| again == sheet);
    assert_eq!(number == 0, ours, "{number} {sheet:02x?}");
    number
}

/// The same, once the oracle is seen to give that number, too. It looks at all pairs.
fn judge(sheet: &[u8]) -> u32 {
    let number = judge_by_scheduling(sheet);
    let expected = oracle::judge::judge(sheet).err().unwrap_or(0);
    assert_eq!(number, expected, "{sheet:02x?}");
    number
}

/// Judges the sheet of these marks and records, with these parts beyond 3.
fn judge_records(beyond: &Beyond, marks: &[Mark], records: &[Record]) -> u32 {
    judge(&beyond.with_records(marks, records))
}

/// The parts beyond 3 of every kind for some marks: without and with parts 4 and 7, and with
/// popups of every kind.
fn every_beyond(marks: &[Mark], seed: u64) -> Vec<Beyond> {
    let mut all = NAMED.map(Beyond::named).to_vec();
    all.push(Beyond::shaped(SHAPED[2]));
    let shapes = SHAPED.into_iter().rev().cycle();
    for ((named, shaped), how) in NAMED.into_iter().cycle().zip(shapes).zip(Popups::ALL) {
        let popups = Some(popups(how, marks, seed));
        all.push(Beyond::uncounted(named, popups).with_shape(shaped));
    }
    all
}

/// The parts beyond 3 of an example: part 4, part 5 where it has popups, and part 7.
fn beyond_of(example: &JudgedExample) -> Beyond {
    let popups = example.popups.map(<[u32]>::to_vec);
    let beyond = Beyond::uncounted(Some(example.edition), popups);
    beyond.with_shape(Some(example.shape))
}

/// Some marks, of which many tie.
fn some_tied_marks(generator: &mut Generator, n: usize) -> Vec<Mark> {
    match generator.below(3) {
        0 => tied_marks(generator, n),
        1 => rivals(generator, n),
        _ => marks(Layout::Grid, n, generator.draw()),
    }
}

/// Marks of some layout in one round of so many, and in the others some that tie.
fn some_of_round(generator: &mut Generator, n: usize, round: u64, one_in: u64) -> Vec<Mark> {
    match round % one_in {
        0 => marks(generator.choose(&Layout::ALL), n, round),
        _ => some_tied_marks(generator, n),
    }
}

// ---- worked examples

#[test]
fn worked_examples() {
    for example in JUDGED_EXAMPLES {
        let expected = if example.accepted { 0 } else { 22 };
        let beyond = beyond_of(&example);
        let sheet = beyond.with_records(example.marks, example.records);
        assert_eq!(rollmap::check(&sheet), Ok(()));
        assert_eq!(judge(&sheet), expected, "{example:?}");
        if example.edition == Edition::First {
            let shaped = beyond.shaped.filter(|&shape| shape == Shape::Square);
            let unnamed = Beyond {
                named: None,
                shaped,
                ..beyond
            };
            let number = judge_records(&unnamed, example.marks, example.records);
            assert_eq!(number, expected, "{example:?}");
        }
    }
}

#[test]
fn marks_that_touch_are_not_removed_together() {
    let together = Record::new(0, 2_500, 4);
    let sheet = three_parts(&TOGETHER, &[Record::NEVER, together, together]);
    assert_eq!(rollmap::check(&sheet), Ok(()));
    assert_eq!(rollmap::judge(&sheet), Err(Refusal::Judgement));
    assert_eq!(judge(&sheet), 22);
    // Apart from each other they are.
    let apart = [TOGETHER[0], TOGETHER[1], Mark::plain(-48, 14, 1, 4)];
    let sheet = three_parts(&apart, &[Record::NEVER, together, together]);
    assert_eq!(judge(&sheet), 0);
}

#[test]
fn nobody_but_the_highest_ranked_stays() {
    for layout in Layout::ALL {
        for n in 0..12 {
            let sample = marks(layout, n, 2);
            for beyond in every_beyond(&sample, 2) {
                let never = vec![Record::NEVER; n];
                let expected = if n < 2 { 0 } else { 22 };
                assert_eq!(judge_records(&beyond, &sample, &never), expected);
                // And each one that stays besides is seen.
                let ours = schedule_in_rank_order(beyond.reel(&sample));
                for m in 0..n {
                    let mut records = ours.clone();
                    records[m] = Record::NEVER;
                    let expected = if records == ours { 0 } else { 22 };
                    assert_eq!(judge_records(&beyond, &sample, &records), expected);
                }
            }
        }
    }
}

#[test]
fn no_marks_are_accepted_with_parts_2_and_3() {
    for codes in CODES_TAKEN {
        let indexed = codes.contains(&3);
        let sheet = scheduled_of(codes, &[], &[]);
        assert_eq!(judge(&sheet), if indexed { 0 } else { 10 }, "{codes:?}");
    }
}

// ---- schedules that are ours

/// Sees that the sheet which the library schedules of these marks is accepted.
fn accepts_scheduled(beyond: &Beyond, marks: &[Mark]) {
    let sheet = beyond.scheduled_here(marks);
    assert_eq!(judge(&sheet), 0);
}

#[test]
fn every_scheduled_sheet_of_few_marks_is_accepted() {
    for layout in Layout::ALL {
        for seed in 0..60 {
            let mut sample = marks(layout, seed as usize % 20, seed);
            if seed % 3 == 0 {
                sample.iter_mut().for_each(|mark| mark.priority &= 1);
            }
            for beyond in every_beyond(&sample, seed) {
                accepts_scheduled(&beyond, &sample);
            }
        }
    }
}

#[test]
fn every_number_of_marks_up_to_a_hundred() {
    for n in 0..100 {
        for layout in [Layout::Grid, Layout::Uniform, Layout::Extreme] {
            let sample = marks(layout, n, 5);
            let popping_up = Beyond::popping_up(popups(Popups::Any, &sample, 5));
            for beyond in [Beyond::default(), popping_up] {
                accepts_scheduled(&beyond, &sample);
            }
        }
    }
}

#[test]
fn scheduled_sheets_of_a_few_hundred_marks_are_accepted() {
    let mut generator = Generator::new(120);
    for layout in Layout::ALL {
        for n in [191, 256, 300, 511, 512, 513] {
            let sample = marks(layout, n, 8);
            accepts_scheduled(&Beyond::default(), &sample);
            accepts_scheduled(&Beyond::draw(&mut generator, &sample), &sample);
        }
    }
}

#[test]
fn the_largest_scheduled_sheets_are_accepted() {
    let ways = Popups::ALL.into_iter().cycle();
    for (layout, how) in Layout::ALL.into_iter().zip(ways) {
        let sample = marks(layout, 4_096, 9);
        let popping_up = Beyond::popping_up(popups(how, &sample, 9));
        for beyond in [Beyond::default(), Beyond::named(NAMED[2]), popping_up] {
            let sheet = beyond.scheduled_here(&sample);
            assert_eq!(judge_by_scheduling(&sheet), 0, "{layout:?}");
        }
    }
}

#[test]
fn what_adding_and_taking_out_write_is_accepted() {
    let mut generator = Generator::new(121);
    for _ in 0..600 {
        let sample = some_marks(&mut generator);
        let beyond = Beyond::draw(&mut generator, &sample);
        let records = some_records(&mut generator, beyond.reel(&sample));
        let sheet = beyond.with_records(&sample, &records);
        let new = marks(generator.choose(&Layout::ALL), 1, generator.draw())[0];
        let popup = match beyond.popups {
            Some(_) => generator.choose(&[0, 64, 65_536]),
            None => NO_POPUP,
        };
        let more = rollmap::add_to_vec(&sheet, bound(&new), popup).unwrap();
        assert_eq!(judge(&more), 0);
        let m = generator.below(sample.len() as u32 + 1);
        let fewer = rollmap::take_out_to_vec(&more, m).unwrap();
        assert_eq!(judge(&fewer), 0);
    }
}

// ---- others that question 8 takes

#[test]
fn of_all_schedules_that_question_8_takes_ours_alone_is_accepted() {
    let mut numbers = Tally::default();
    for layout in Layout::ALL {
        for seed in 0..12 {
            let mut sample = marks(layout, 1 + seed as usize % 5, seed);
            if seed % 2 == 0 {
                sample.iter_mut().for_each(|mark| mark.priority &= 1);
            }
            for beyond in every_beyond(&sample, seed) {
                let mut accepted = 0;
                each_schedule(beyond.reel(&sample), &mut |records| {
                    let number = judge_records(&beyond, &sample, records);
                    accepted += usize::from(number == 0);
                    numbers.add(number);
                });
                assert_eq!(accepted, 1);
            }
        }
    }
    numbers.assert_reached([0, 22], 1_000);
}

#[test]
fn ours_alone_is_accepted_of_every_three_marks_from_a_small_choice() {
    let mut numbers = Tally::default();
    each_list(&small_choice(), 3, &mut |marks| {
        for named in NAMED {
            let beyond = Beyond::named(named);
            each_schedule(beyond.reel(marks), &mut |records| {
                numbers.add(judge_records(&beyond, marks, records));
            });
        }
    });
    numbers.assert_reached([0, 22], 10_000);
}

/// How a record differs from ours.
#[derive(Clone, Copy, Debug)]
enum Difference {
    /// It is ours.
    None,
    /// The mark is never removed.
    Never,
    /// Another mark is named at the same value.
    Name,
    /// The mark goes later, and those with which it outlives their pair value go together with
    /// it.
    Together,
    /// The mark goes later, and one of these goes at another time.
    Later,
}

/// How the record of mark m differs from ours.
fn difference(reel: Reel, ours: &[Record], m: usize, record: Record) -> Difference {
    let removal = record.removal();
    let outlive = |&other: &usize| {
        let pair = reel.pair_value(m, other);
        other != m && removal.later_than(pair) && ours[other].removal().later_than(pair)
    };
    let together = |other: usize| ours[other].removal().equals(removal);
    if record == ours[m] {
        Difference::None
    } else if record == Record::NEVER {
        Difference::Never
    } else if removal.equals(ours[m].removal()) {
        Difference::Name
    } else if (0..ours.len()).filter(outlive).all(together) {
        Difference::Together
    } else {
        Difference::Later
    }
}

/// Some mark, and some record of it that question 8 takes; of a few that are tried, one that
/// names another mark at the same value, if there is such a one.
fn some_change(generator: &mut Generator, reel: Reel, ours: &[Record]) -> (usize, Record) {
    let tried = [(); 8].map(|()| {
        let m = generator.below(ours.len() as u32) as usize;
        (m, generator.choose(&fitting_records(reel, ours, m)))
    });
    let names = |&(m, record): &(usize, Record)| {
        matches!(difference(reel, ours, m, record), Difference::Name)
    };
    let found = tried.into_iter().find(names);
    found.unwrap_or(tried[0])
}

/// Judges our schedule of some marks with some record of one of them that question 8 takes,
/// and answers how it differs. Since no mark goes sooner than in ours, all other records
/// still fit.
fn judge_changed(generator: &mut Generator, beyond: &Beyond, marks: &[Mark]) -> Difference {
    let reel = beyond.reel(marks);
    let ours = schedule_in_rank_order(reel);
    let (m, record) = some_change(generator, reel, &ours);
    let mut records = ours.clone();
    records[m] = record;
    let expected = if records == ours { 0 } else { 22 };
    assert_eq!(judge_records(beyond, marks, &records), expected);
    difference(reel, &ours, m, record)
}

/// How often records differed in which way.
#[derive(Default)]
struct Differences([usize; 5]);

impl Differences {
    /// Counts one of them.
    fn add(&mut self, difference: Difference) {
        self.0[difference as usize] += 1;
    }

    /// Asserts that each was counted more than so many times.
    fn assert_reached(&self, times: usize) {
        let Self(counts) = self;
        assert!(counts.iter().all(|&count| count > times), "{counts:?}");
    }
}

#[test]
fn one_record_that_is_not_ours() {
    let mut generator = Generator::new(122);
    let mut differences = Differences::default();
    for round in 0..20_000 {
        let n = 2 + generator.below(14) as usize;
        let sample = some_of_round(&mut generator, n, round, 3);
        let beyond = Beyond::draw(&mut generator, &sample);
        differences.add(judge_changed(&mut generator, &beyond, &sample));
    }
    differences.assert_reached(500);
}

#[test]
fn one_record_that_is_not_ours_among_a_few_hundred() {
    let mut generator = Generator::new(123);
    let mut differences = Differences::default();
    for round in 0..500 {
        let n = 50 + generator.below(300) as usize;
        let sample = some_of_round(&mut generator, n, round, 2);
        let beyond = Beyond::draw(&mut generator, &sample);
        differences.add(judge_changed(&mut generator, &beyond, &sample));
    }
    differences.assert_reached(10);
}

/// A schedule in which about one mark in so many has any record that question 8 takes, and
/// each other one that which is right by the marks that outrank it.
fn nearly_ours(generator: &mut Generator, reel: Reel, one_in: u32) -> Vec<Record> {
    let mut records = vec![Record::NEVER; reel.marks.len()];
    for m in reel.ranked() {
        let fitting = fitting_records(reel, &records, m);
        records[m] = match generator.below(one_in) {
            0 => generator.choose(&fitting),
            _ => soonest(reel, &fitting),
        };
    }
    records
}

/// Of the records of a mark that fit, that with the least value; of equal values, the one by
/// the highest-ranked mark.
fn soonest(reel: Reel, fitting: &[Record]) -> Record {
    let in_turn = |a: &&Record, b: &&Record| {
        let by_rank = || reel.rank_order(a.eliminator.into(), b.eliminator.into());
        a.removal().compare(b.removal()).then_with(by_rank)
    };
    let soonest = fitting.iter().min_by(in_turn);
    *soonest.expect("'never' fits")
}

#[test]
fn schedules_that_are_nearly_ours() {
    let mut generator = Generator::new(124);
    let mut numbers = Tally::default();
    for round in 0..6_000 {
        let n = 2 + generator.below(24) as usize;
        let sample = some_of_round(&mut generator, n, round, 2);
        let beyond = Beyond::draw(&mut generator, &sample);
        let one_in = generator.choose(&[2, 8, 30]);
        let records = nearly_ours(&mut generator, beyond.reel(&sample), one_in);
        numbers.add(judge_records(&beyond, &sample, &records));
    }
    numbers.assert_reached([0, 22], 1_500);
}

#[test]
fn schedules_of_some_other_kind() {
    let mut generator = Generator::new(125);
    let mut numbers = Tally::default();
    for round in 0..4_000 {
        let n = generator.below(30) as usize;
        let sample = some_of_round(&mut generator, n, round, 2);
        let beyond = Beyond::draw(&mut generator, &sample);
        let records = some_records(&mut generator, beyond.reel(&sample));
        numbers.add(judge_records(&beyond, &sample, &records));
    }
    numbers.assert_reached([0, 22], 1_000);
}

#[test]
fn schedules_by_another_edition_other_popups_and_another_shape() {
    let mut generator = Generator::new(126);
    let mut numbers = Tally::default();
    for _ in 0..6_000 {
        let n = 1 + generator.below(6) as usize;
        let sample = some_tied_marks(&mut generator, n);
        let [one, other] = [(); 2].map(|()| Beyond::draw(&mut generator, &sample));
        let records = some_records(&mut generator, one.reel(&sample));
        numbers.add(judge_records(&other, &sample, &records));
    }
    numbers.assert_reached([0, 8, 22], 500);
}

// ---- many marks, and layouts that are hard to search

/// Judges our schedule of some marks and a few that differ from it in one record.
fn judge_ours_and_changed(generator: &mut Generator, beyond: &Beyond, marks: &[Mark], few: usize) {
    accepts_scheduled(beyond, marks);
    for _ in 0..few {
        judge_changed(generator, beyond, marks);
    }
}

/// Marks anywhere, of which those of these numbers have radii near the largest.
fn with_large(generator: &mut Generator, n: usize, large: &[usize]) -> Vec<Mark> {
    let mut sample = marks(Layout::Uniform, n, generator.draw());
    for &m in large {
        sample[m].radius = 16_383 - generator.below(40) as u16;
    }
    sample
}

#[test]
fn about_as_many_large_marks_as_are_listed_apart() {
    let mut generator = Generator::new(127);
    let n = 700;
    for large in [1, 2, 256, 511, 512, 513, 600, 700] {
        let spread = (0..large).map(|i| i * n / large).collect();
        let (first, last) = ((0..large).collect(), (n - large..n).collect());
        for numbers in [spread, first, last] as [Vec<usize>; 3] {
            let sample = with_large(&mut generator, n, &numbers);
            for beyond in [Beyond::default(), Beyond::draw(&mut generator, &sample)] {
                judge_ours_and_changed(&mut generator, &beyond, &sample, 3);
            }
        }
    }
}

#[test]
fn radii_of_every_size() {
    let mut generator = Generator::new(128);
    for n in [2, 9, 60, 400] {
        for most in [1, 3, 14] {
            let mut sample = marks(Layout::Uniform, n, generator.draw());
            for mark in &mut sample {
                mark.radius = 1 << generator.below(most);
            }
            for beyond in [Beyond::default(), Beyond::draw(&mut generator, &sample)] {
                judge_ours_and_changed(&mut generator, &beyond, &sample, 12);
            }
        }
    }
}

#[test]
fn one_place_one_line_and_huge_radii() {
    let mut generator = Generator::new(129);
    for layout in [
        Layout::OnePlace,
        Layout::Line,
        Layout::HugeRadius,
        Layout::FewHuge,
        Layout::Extreme,
    ] {
        for n in [2, 3, 40, 600] {
            let sample = marks(layout, n, 3);
            let drawn = Beyond::draw(&mut generator, &sample);
            for beyond in [Beyond::default(), drawn] {
                judge_ours_and_changed(&mut generator, &beyond, &sample, 8);
            }
        }
    }
    // The same marks again and again.
    for n in [2, 5, 300] {
        for mark in [P1[0], Mark::plain(i16::MIN, i16::MAX, 16_383, 65_535)] {
            for beyond in every_beyond(&vec![mark; n], 1) {
                judge_ours_and_changed(&mut generator, &beyond, &vec![mark; n], 2);
            }
        }
    }
}

#[test]
fn a_vertical_line_and_a_cross() {
    let mut generator = Generator::new(130);
    for n in [3, 50, 300] {
        let mut sample = marks(Layout::Line, n, 6);
        for mark in &mut sample {
            (mark.x, mark.y) = (mark.y, mark.x);
        }
        judge_ours_and_changed(&mut generator, &Beyond::default(), &sample, 10);
        sample.extend(marks(Layout::Line, n, 6));
        judge_ours_and_changed(&mut generator, &Beyond::default(), &sample, 10);
    }
}

#[test]
fn popups_that_tie_and_popups_that_are_all_equal() {
    let mut generator = Generator::new(131);
    let ways = [Popups::Touching, Popups::Together, Popups::Ends];
    let mut differences = Differences::default();
    for _ in 0..3_000 {
        let n = 2 + generator.below(20) as usize;
        let sample = some_tied_marks(&mut generator, n);
        let drawn = popups(generator.choose(&ways), &sample, generator.draw());
        let level = vec![generator.below(65_537) >> generator.below(17); n];
        for popups in [drawn, level] {
            let named = generator.choose(&NAMED);
            let beyond = Beyond::uncounted(named, Some(popups));
            differences.add(judge_changed(&mut generator, &beyond, &sample));
        }
    }
    differences.assert_reached(100);
}

#[test]
fn equal_priorities_in_both_editions() {
    let mut generator = Generator::new(132);
    let mut differences = Differences::default();
    for round in 0..3_000 {
        let n = 2 + generator.below(20) as usize;
        let mut sample = some_tied_marks(&mut generator, n);
        sample.iter_mut().for_each(|mark| mark.priority = 5);
        let beyond = Beyond::named(NAMED[round % 3]);
        differences.add(judge_changed(&mut generator, &beyond, &sample));
    }
    differences.assert_reached(50);
}

#[test]
fn one_record_that_is_not_ours_among_the_most_marks() {
    let mut generator = Generator::new(133);
    let mut refused = 0;
    for layout in Layout::ALL {
        let sample = marks(layout, 4_096, 10);
        for beyond in [Beyond::default(), Beyond::draw(&mut generator, &sample)] {
            let reel = beyond.reel(&sample);
            let ours = schedule_in_rank_order(reel);
            for _ in 0..4 {
                let mut records = ours.clone();
                let (m, record) = some_change(&mut generator, reel, &ours);
                records[m] = record;
                let sheet = beyond.with_records(&sample, &records);
                let number = judge_by_scheduling(&sheet);
                assert_eq!(number, if records == ours { 0 } else { 22 });
                refused += usize::from(number == 22);
            }
        }
    }
    assert!(refused > 30, "{refused}");
}

#[test]
fn some_of_the_largest_sheets_by_all_pairs() {
    let mut generator = Generator::new(134);
    for layout in [Layout::Clustered, Layout::Grid] {
        let sample = marks(layout, 4_096, 11);
        let beyond = Beyond::draw(&mut generator, &sample);
        judge_ours_and_changed(&mut generator, &beyond, &sample, 1);
        let records = foreign_records(&mut generator, beyond.reel(&sample));
        assert_eq!(judge_records(&beyond, &sample, &records), 22);
    }
}

// ---- damaged

/// Scheduled sheets of a few marks, with every list of codes that has an index.
fn small_sheets() -> Vec<Vec<u8>> {
    let samples = [
        P1.to_vec(),
        Vec::new(),
        P5.to_vec(),
        marks(Layout::Extreme, 3, 5),
    ];
    samples.map(|sample| scheduled_having(3, &sample)).concat()
}

/// The sheet with the contents, part 2, part 3 and part 6 left out: what decides a schedule,
/// and what nobody interprets.
fn given(sheet: &[u8]) -> Vec<u8> {
    let bodies = oracle::sheet::split(sheet).expect("its parts are joined");
    let mut parts = bodies.present();
    parts.retain(|&(code, _)| ![2, 3, 6].contains(&code));
    join_parts(&parts)
}

#[test]
fn every_byte_of_small_sheets_with_every_value() {
    let mut numbers = Tally::default();
    for mut sheet in small_sheets() {
        assert_eq!(judge(&sheet), 0);
        let own_parts = given(&sheet);
        for at in 0..sheet.len() {
            let own = sheet[at];
            for value in (0..=255).filter(|&value| value != own) {
                sheet[at] = value;
                let number = judge(&sheet);
                // What is accepted has other marks, another edition, other popups or another
                // shape.
                assert!(number != 0 || given(&sheet) != own_parts, "{at} {value}");
                numbers.add(number);
            }
            sheet[at] = own;
        }
    }
    numbers.assert_reached([0, 1, 2, 3, 5, 6, 8, 9, 10, 19, 21, 22, 23, 24], 0);
}

#[test]
fn every_length_of_small_sheets() {
    for mut sheet in small_sheets() {
        for length in 0..sheet.len() {
            assert_ne!(judge(&sheet[..length]), 0);
        }
        for _ in 0..20 {
            sheet.push(0);
            assert_eq!(judge(&sheet), 3);
        }
    }
}

#[test]
fn every_byte_of_schedules_that_are_not_ours() {
    let mut numbers = Tally::default();
    for example in JUDGED_EXAMPLES.iter().filter(|example| !example.accepted) {
        let mut sheet = beyond_of(example).with_records(example.marks, example.records);
        for at in 0..sheet.len() {
            let own = sheet[at];
            for value in [0, 1, 2, 5, 64, 200, 255, own ^ 1, own ^ 4, own ^ 128] {
                sheet[at] = value;
                numbers.add(judge(&sheet));
            }
            sheet[at] = own;
        }
    }
    numbers.assert_reached([0, 1, 2, 3, 5, 6, 8, 9, 19, 21, 22, 23, 24], 10);
}

#[test]
fn many_sheets_with_a_few_faults() {
    let mut generator = Generator::new(135);
    let mut numbers = Tally::default();
    for _ in 0..40_000 {
        numbers.add(judge(&some_sheet(&mut generator)));
    }
    numbers.assert_reached((0..=10).chain([19, 21, 22, 23, 24]), 100);
}

#[test]
fn a_scheduled_sheet_with_a_bit_changed() {
    let mut generator = Generator::new(136);
    for layout in Layout::ALL {
        let sample = marks(layout, 150, 12);
        let beyond = Beyond::draw(&mut generator, &sample);
        let mut sheet = beyond.scheduled(&sample);
        let own_parts = given(&sheet);
        for _ in 0..200 {
            let at = generator.below(sheet.len() as u32) as usize;
            let bit = 1 << generator.below(8);
            sheet[at] ^= bit;
            let accepted = judge(&sheet) == 0;
            assert!(!accepted || given(&sheet) != own_parts, "{layout:?} {at}");
            sheet[at] ^= bit;
        }
        assert_eq!(judge(&sheet), 0);
    }
}

// ---- questions

#[test]
fn a_refused_sheet_gets_its_own_number() {
    for (refused, sheet) in refused_sheets() {
        assert_eq!(judge(&sheet), refused);
    }
}

#[test]
fn a_sheet_without_part_2_or_part_3_gets_10() {
    for sample in [&P1[..], &P1[..1], &[]] {
        let popups = vec![7; sample.len()];
        for codes in CODES_TAKEN {
            let sheet = scheduled_of(codes, sample, &popups);
            let expected = if codes.contains(&3) { 0 } else { 10 };
            assert_eq!(judge(&sheet), expected, "{codes:?}");
        }
    }
    // Also where the schedule is not ours.
    let bodies = [write_marks(&P1), write_records(&[Record::NEVER; 4])];
    assert_eq!(judge(&join(&[&bodies[0], &bodies[1]])), 10);
    assert_eq!(judge(&one_part(&P1)), 10);
}

#[test]
fn questions_7_19_21_24_8_9_23_10_and_22_are_put_in_turn() {
    let part_1 = write_marks(&P1);
    let ours = schedule_in_rank_order(Edition::First.reel(&P1));
    let tree_of = |records: &[Record]| tree::write_tree(&tree::build(&P1, records));
    let mut numbers = Tally::default();
    // Records, the tree that they give, and what 7, 8 and 22 say of them.
    for (records, tree, [no_7, no_8, no_22]) in [
        (write_records(&ours), tree_of(&ours), [false; 3]),
        (
            write_records(&[Record::NEVER; 4]),
            tree_of(&[Record::NEVER; 4]),
            [false, false, true],
        ),
        (vec![0; 56], vec![0; 8], [false, true, true]),
        (vec![0; 55], vec![0; 8], [true; 3]),
    ] {
        let mut other_tree = tree.clone();
        other_tree.rotate_left(2);
        for (part_3, no_9) in [
            (Some(&tree), false),
            (Some(&other_tree), true),
            (None, false),
        ] {
            for (part_4, no_19) in [(&[1][..], false), (&[2], false), (&[0], true), (&[], true)] {
                let shapes: [(Option<&[u8]>, bool); 3] =
                    [(None, false), (Some(&[2]), false), (Some(&[0]), true)];
                for (((k, no_21), (part_7, no_24)), (part_6, no_23)) in [(0, false), (65_537, true)]
                    .into_iter()
                    .flat_map(|popup| shapes.map(|shape| (popup, shape)))
                    .flat_map(|both| counts_of(&records).map(|counts| (both, counts)))
                {
                    let part_5 = write_popups(&[0, 0, 0, k]);
                    let mut parts = vec![(1, &part_1[..]), (2, &records), (4, part_4)];
                    parts.extend(part_3.map(|part_3| (3, part_3.as_slice())));
                    parts.push((5, &part_5));
                    parts.extend(part_6.as_ref().map(|part_6| (6, part_6.as_slice())));
                    parts.extend(part_7.map(|part_7| (7, part_7)));
                    parts.sort_unstable_by_key(|&(code, _)| code);
                    let expected = first_no(&[
                        (7, no_7),
                        (19, no_19),
                        (21, no_21),
                        (24, no_24),
                        (8, no_8),
                        (9, no_9),
                        (23, no_23),
                        (10, part_3.is_none()),
                        (22, no_22),
                    ]);
                    let number = judge(&join_parts(&parts));
                    assert_eq!(number, expected);
                    numbers.add(number);
                }
            }
        }
    }
    numbers.assert_reached([0, 7, 8, 9, 10, 19, 21, 22, 23, 24], 1);
}

/// No part 6 for P1 with these records, that of its counts, and another one; with what 23
/// says of it.
fn counts_of(part_2: &[u8]) -> [(Option<Vec<u8>>, bool); 3] {
    let mut records = read_records(part_2);
    records.resize(P1.len(), Record::NEVER);
    let own = part_6(Edition::First.reel(&P1), &records);
    let mut other = own.clone();
    other[0] ^= 1;
    [(None, false), (Some(own), false), (Some(other), true)]
}

#[test]
fn parts_4_5_and_7_of_an_accepted_sheet_may_change_where_nothing_goes_by_them() {
    let ours = scheduled(&P1);
    assert_eq!(judge(&with_part_4(&ours, &[1])), 0);
    assert_eq!(judge(&with_part_4(&ours, &[2])), 0);
    assert_eq!(judge(&with_part_7(&ours, &[1])), 0);
    assert_eq!(judge(&with_part_7(&ours, &[2])), 0);
    assert_eq!(judge(&with_popups(&ours, &[0; 4])), 0);
    assert_eq!(judge(&with_popups(&ours, &[0, 320, 0, 0])), 0);
    assert_eq!(judge(&with_popups(&ours, &[0, 321, 0, 0])), 8);
    // All 'never' fits any popups, and is ours for none.
    let never = three_parts(&P1, &[Record::NEVER; 4]);
    for popups in [[0; 4], [640, 0, 0, 0], [65_536; 4]] {
        assert_eq!(judge(&with_popups(&never, &popups)), 22);
    }
}
