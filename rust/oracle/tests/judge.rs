//! The judge (02, request 10): worked examples, what holds of every schedule that question 8
//! takes, and each question answered with no in its turn.

mod common;

use common::{
    each_popping_up, each_reel, five_parts, one_part, schedule_large, scheduled,
    scheduled_popping_up, three_parts, with_edition, with_part, with_part_4, with_part_7,
    with_popups, with_shape, with_tree,
};
use oracle::fraction::Removal;
use oracle::judge::{accepts, judge};
use oracle::mark::write_marks;
use oracle::process::schedule_by_process;
use oracle::rank::Edition;
use oracle::record::{removals, write_records, Record};
use oracle::reel::Reel;
use oracle::rules::{keep_both, Breach};
use oracle::sample::{
    each_list, each_schedule, marks, refused_sheets, small_choice, JudgedExample, Layout, Popups,
    JUDGED_EXAMPLES, P1, TOGETHER,
};
use oracle::shape::Shape;
use oracle::sheet::{check, join, join_parts};

/// The sheet of a reel's marks and these records, with parts 4 and 7, and with part 5 where
/// the reel has popups.
fn sheet_of(reel: Reel, records: &[Record]) -> Vec<u8> {
    let named = with_edition(&three_parts(reel.marks, records), reel.edition);
    let sheet = with_shape(&named, reel.shape);
    match reel.popups {
        Some(popups) => with_popups(&sheet, popups),
        None => sheet,
    }
}

/// The number of a sheet.
fn number(sheet: &[u8]) -> u32 {
    judge(sheet).err().unwrap_or(0)
}

// ---- worked examples

#[test]
fn worked_examples() {
    for example in JUDGED_EXAMPLES {
        let JudgedExample {
            records, accepted, ..
        } = example;
        let reel = example.reel();
        let sheet = sheet_of(reel, records);
        assert_eq!(check(&sheet), 0, "{example:?}");
        assert_eq!(number(&sheet), if accepted { 0 } else { 22 }, "{example:?}");
        assert_eq!(records == schedule_by_process(reel), accepted);
    }
}

#[test]
fn without_parts_4_and_7_a_schedule_is_judged_by_the_first_edition_and_as_disks() {
    for example in JUDGED_EXAMPLES {
        let JudgedExample {
            edition,
            popups,
            shape,
            ..
        } = example;
        if let (Edition::First, None, Shape::Disk) = (edition, popups, shape) {
            let sheet = three_parts(example.marks, example.records);
            assert_eq!(judge(&sheet).is_ok(), example.accepted);
        }
    }
}

#[test]
fn parts_2_and_3_of_no_marks_are_accepted() {
    let [empty, edition]: [&[u8]; 2] = [&[], &[2]];
    for further in [
        vec![],
        vec![(4, edition)],
        vec![(5, empty)],
        vec![(4, edition), (5, empty)],
        vec![(7, &[2])],
        vec![(4, edition), (5, empty), (7, &[1])],
    ] {
        let of = |codes: &[u16]| {
            let parts = codes.iter().map(|&code| (code, empty));
            number(&join_parts(&[parts.collect(), further.clone()].concat()))
        };
        let [whole, unindexed, bare] = [&[1, 2, 3][..], &[1, 2], &[1]].map(of);
        assert_eq!([whole, unindexed, bare], [0, 10, 10]);
    }
}

// ---- what holds of every schedule

/// The ways in which marks pop up here, besides not at all.
const WAYS: [Popups; 4] = [Popups::Few, Popups::Any, Popups::Touching, Popups::Together];

/// Sees that of all schedules of a reel that question 8 takes the judge accepts ours alone,
/// and answers how many there are.
fn accepts_ours_alone(reel: Reel) -> usize {
    let ours = schedule_by_process(reel);
    let (mut schedules, mut accepted) = (0, 0);
    each_schedule(reel, &mut |records| {
        let yes = accepts(reel, records);
        assert_eq!(yes, records == ours, "{reel:?} {records:?}");
        schedules += 1;
        accepted += usize::from(yes);
    });
    assert_eq!(accepted, 1, "{reel:?}");
    schedules
}

#[test]
fn of_all_schedules_that_question_8_takes_ours_alone_is_accepted() {
    let mut schedules = 0;
    for layout in Layout::ALL {
        for seed in 0..30 {
            let mut sample = marks(layout, seed as usize % 6, seed);
            if seed % 2 == 0 {
                sample.iter_mut().for_each(|mark| mark.priority &= 1);
            }
            each_reel(&sample, &WAYS, seed, |reel| {
                schedules += accepts_ours_alone(reel)
            });
        }
    }
    assert!(schedules > 30_000, "{schedules} schedules");
}

#[test]
fn ours_alone_is_accepted_of_every_three_marks_from_a_small_choice() {
    let mut schedules = 0;
    each_list(&small_choice(), 3, &mut |marks| {
        for edition in Edition::ALL {
            schedules += accepts_ours_alone(edition.reel(marks));
        }
    });
    assert!(schedules > 20_000, "{schedules} schedules");
}

#[test]
fn every_schedule_of_some_samples_passes_question_8() {
    for layout in Layout::ALL {
        let sample = marks(layout, 4, 1);
        each_reel(&sample, &WAYS, 1, |reel| {
            each_schedule(reel, &mut |records| {
                let sheet = sheet_of(reel, records);
                assert_eq!(check(&sheet), 0);
                assert_eq!(judge(&sheet).is_ok(), accepts(reel, records));
            });
        });
    }
}

#[test]
fn every_scheduled_sheet_is_accepted() {
    for layout in Layout::ALL {
        for n in [0, 1, 2, 3, 9, 40, 120] {
            assert_eq!(judge(&scheduled(&marks(layout, n, 3))), Ok(()));
        }
    }
    each_popping_up(&[0, 1, 2, 5, 9, 24], |marks, popups| {
        assert_eq!(judge(&scheduled_popping_up(marks, popups)), Ok(()));
        let mut level = marks.to_vec();
        level.iter_mut().for_each(|mark| mark.priority = 7);
        for edition in Edition::ALL {
            let sheet = five_parts(edition.reel(&level).with_popups(popups));
            assert_eq!(judge(&sheet), Ok(()));
        }
    });
}

// ---- plausible and false

/// A judge who looks, for each mark, only at those that are removed later than it: whether
/// one of them touches it before it goes.
fn accepts_where_later_ones_keep_off(reel: Reel, records: &[Record]) -> bool {
    let list = removals(records);
    let touched = |m: usize, other: usize| {
        let value = Removal::At(reel.pair_value(m, other));
        list[other].compare(list[m]).is_gt() && list[m].compare(value).is_gt()
    };
    let numbers = || 0..records.len();
    numbers().all(|m| !numbers().any(|other| other != m && touched(m, other)))
}

#[test]
fn false_that_marks_removed_together_may_be_passed_over() {
    let reel = Edition::First.reel(&TOGETHER);
    let together = Record::new(0, 2_500, 4);
    let records = [Record::NEVER, together, together];
    assert!(accepts_where_later_ones_keep_off(reel, &records));
    assert!(!accepts(reel, &records));
    assert_eq!(
        keep_both(reel, &removals(&records)),
        Err(Breach::First(1, 2))
    );
    // And so are two that are never removed.
    let nevers = [Record::NEVER; 3];
    assert!(accepts_where_later_ones_keep_off(reel, &nevers));
    assert!(!accepts(reel, &nevers));
}

#[test]
fn false_that_a_schedule_which_keeps_both_rules_is_ours() {
    let mut named_otherwise = 0;
    for example in JUDGED_EXAMPLES {
        let kept = keep_both(example.reel(), &removals(example.records)).is_ok();
        assert!(kept || !example.accepted);
        named_otherwise += usize::from(kept && !example.accepted);
    }
    assert_eq!(named_otherwise, 6);
}

#[test]
fn false_that_the_highest_ranked_of_that_value_is_named_though_it_goes_there() {
    let examples = JUDGED_EXAMPLES.iter().filter(|example| example.accepted);
    let passed_over = |example: &JudgedExample| {
        let (reel, records) = (example.reel(), example.records);
        let goes_there = |m: usize, other: usize| {
            let named = usize::from(records[m].eliminator);
            let value = Removal::At(reel.pair_value(other, m));
            value.equals(records[m].removal()) && reel.outranks(other, named)
        };
        let numbers = || 0..records.len();
        let removed = |m: &usize| records[*m] != Record::NEVER;
        numbers()
            .filter(removed)
            .any(|m| numbers().any(|other| other != m && goes_there(m, other)))
    };
    assert_eq!(examples.filter(|example| passed_over(example)).count(), 1);
}

// ---- questions

#[test]
fn sheets_that_two_questions_refuse_get_the_first() {
    for (refused, sheet) in refused_sheets() {
        assert_eq!(number(&sheet), refused);
    }
}

#[test]
fn question_10_asks_for_both_parts() {
    let (part_1, part_2) = (write_marks(&P1), write_records(&[Record::NEVER; 4]));
    for sheet in [one_part(&P1), join(&[&part_1, &part_2])] {
        assert_eq!(check(&sheet), 0);
        for named in [
            sheet.clone(),
            with_edition(&sheet, Edition::First),
            with_popups(&sheet, &[0; 4]),
            with_shape(&sheet, Shape::Square),
        ] {
            assert_eq!(judge(&named), Err(10));
        }
    }
}

#[test]
fn question_22_is_asked_last() {
    let never = [Record::NEVER; 4];
    let sheet = three_parts(&P1, &never);
    assert_eq!(judge(&sheet), Err(22));
    assert_eq!(judge(&with_tree(&P1, &never, &[1, 0, 3, 2])), Err(9));
    assert_eq!(judge(&with_part_4(&sheet, &[3])), Err(19));
    assert_eq!(judge(&with_part(&sheet, 5, &[0; 15])), Err(21));
    assert_eq!(judge(&with_part_7(&sheet, &[3])), Err(24));
    let mut unknown = P1;
    unknown[3].kind = 200;
    assert_eq!(judge(&three_parts(&unknown, &never)), Err(5));
    let mended = schedule_large(&sheet).unwrap();
    assert_eq!((judge(&mended), mended), (Ok(()), scheduled(&P1)));
}

#[test]
fn a_schedule_is_judged_by_the_sheets_own_edition_and_popups() {
    for example in JUDGED_EXAMPLES {
        let by = |edition| Reel {
            edition,
            ..example.reel()
        };
        let ours = Edition::ALL.map(|edition| schedule_by_process(by(edition)));
        let accepted = Edition::ALL.map(|edition| accepts(by(edition), example.records));
        assert_eq!(accepted, ours.map(|ours| ours == example.records));
    }
    let ours = scheduled(&P1);
    assert_eq!(judge(&with_edition(&ours, Edition::Second)), Ok(()));
    assert_eq!(judge(&with_popups(&ours, &[0, 320, 0, 0])), Ok(()));
    assert_eq!(judge(&with_popups(&ours, &[0, 321, 0, 0])), Err(8));
}
