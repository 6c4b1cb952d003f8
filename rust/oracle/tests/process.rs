//! The three ways to schedule agree, on sheets full of ties and at the ends of
//! every range, in both editions, with popups and without, of disks and of squares.

use oracle::fraction::Fraction;
use oracle::mark::Mark;
use oracle::process::{schedule_by_process, schedule_by_sorted_pairs, schedule_in_rank_order};
use oracle::rank::Edition::{self, First, Second};
use oracle::record::Record;
use oracle::reel::Reel;
use oracle::sample::{each_list, marks, popups, small_choice, Layout, Popups};
use oracle::shape::Shape;

/// The schedule of the process, once the two others are seen to give it too.
fn schedule_reel(reel: Reel) -> Vec<Record> {
    let records = schedule_by_process(reel);
    assert_eq!(schedule_by_sorted_pairs(reel), records, "{reel:?}");
    assert_eq!(schedule_in_rank_order(reel), records, "{reel:?}");
    records
}

/// The schedule of disks in the first edition, once all ways are seen to agree in the second,
/// and of squares, too.
fn schedule(marks: &[Mark]) -> Vec<Record> {
    schedule_reel(Second.reel(marks));
    schedule_reel(First.reel(marks).with_shape(Shape::Square));
    schedule_reel(First.reel(marks))
}

/// Whether two marks are removed at one value.
fn tied(records: &[Record]) -> bool {
    let removed: Vec<&Record> = records.iter().filter(|r| **r != Record::NEVER).collect();
    let pairs = removed.iter().enumerate();
    pairs
        .flat_map(|(at, one)| removed[..at].iter().map(move |other| (one, other)))
        .any(|(one, other)| one.value.compare(other.value).is_eq())
}

#[test]
fn all_agree_on_small_samples() {
    let mut ties = 0;
    for layout in Layout::ALL {
        for seed in 0..700 {
            let records = schedule(&marks(layout, seed as usize % 12, seed));
            ties += usize::from(tied(&records));
        }
    }
    assert!(ties > 1_000, "only {ties} samples have a tie");
}

#[test]
fn all_agree_on_small_samples_that_pop_up() {
    let (mut ties, mut differing) = (0, 0);
    for (layout, how) in Layout::ALL
        .into_iter()
        .flat_map(|layout| Popups::ALL.map(|how| (layout, how)))
    {
        for seed in 0..80 {
            let marks = marks(layout, seed as usize % 12, seed);
            let popups = popups(how, &marks, seed);
            for edition in Edition::ALL {
                let reel = edition.reel(&marks);
                let records = schedule_reel(reel.with_popups(&popups));
                ties += usize::from(tied(&records));
                differing += usize::from(records != schedule_reel(reel));
            }
        }
    }
    assert!(ties > 1_000, "only {ties} samples have a tie");
    assert!(differing > 3_000, "only {differing} schedules are others");
}

#[test]
fn all_agree_on_small_samples_of_squares() {
    let (mut ties, mut differing) = (0, 0);
    for layout in Layout::ALL {
        for seed in 0..300 {
            let marks = marks(layout, seed as usize % 12, seed);
            let how = Popups::ALL[seed as usize % Popups::ALL.len()];
            let popups = popups(how, &marks, seed);
            for reel in Edition::ALL.map(|edition| edition.reel(&marks)) {
                for disks in [reel, reel.with_popups(&popups)] {
                    let records = schedule_reel(disks.with_shape(Shape::Square));
                    ties += usize::from(tied(&records));
                    differing += usize::from(records != schedule_by_process(disks));
                }
            }
        }
    }
    assert!(ties > 1_000, "only {ties} samples have a tie");
    assert!(differing > 3_000, "only {differing} schedules are others");
}

#[test]
fn all_agree_on_every_choice_of_a_few_popups() {
    // On this line marks touch at 64ths that are among the popups: 16, 32, 48 and 64.
    let marks =
        [(0, 5), (1, 7), (2, 5), (3, 6)].map(|(x, priority)| Mark::plain(x, 0, 2, priority));
    each_list(&[0, 16, 17, 32, 47, 48, 65_536], 4, &mut |popups| {
        for edition in Edition::ALL {
            schedule_reel(edition.reel(&marks).with_popups(popups));
        }
    });
}

#[test]
fn all_agree_on_every_sheet_of_three_marks_from_a_small_choice() {
    each_list(&small_choice(), 3, &mut |marks| {
        schedule(marks);
    });
}

#[test]
fn all_agree_on_middling_samples() {
    for layout in Layout::ALL {
        let marks = marks(layout, 40, 77);
        schedule(&marks);
        for how in Popups::ALL {
            schedule_reel(First.reel(&marks).with_popups(&popups(how, &marks, 77)));
        }
    }
}

#[test]
fn the_two_faster_ones_agree_on_larger_samples() {
    for layout in Layout::ALL {
        let marks = marks(layout, 250, 3);
        let popups = popups(Popups::Any, &marks, 3);
        for reel in Edition::ALL.map(|edition| edition.reel(&marks)) {
            let squares = reel.with_shape(Shape::Square);
            for reel in [reel, reel.with_popups(&popups), squares] {
                assert_eq!(schedule_by_sorted_pairs(reel), schedule_in_rank_order(reel));
            }
        }
    }
}

#[test]
fn exactly_the_highest_ranked_mark_is_never_removed() {
    for layout in Layout::ALL {
        let marks = marks(layout, 30, 11);
        let popups = popups(Popups::Late, &marks, 11);
        for reel in Edition::ALL.map(|edition| edition.reel(&marks)) {
            let squares = reel.with_shape(Shape::Square);
            for reel in [reel, reel.with_popups(&popups), squares] {
                let records = schedule_reel(reel);
                let kept = (0..marks.len()).filter(|&mark| records[mark] == Record::NEVER);
                assert!(kept.eq([reel.ranked()[0]]));
            }
        }
    }
}

#[test]
fn no_mark_and_one_mark_have_no_pair() {
    assert!(schedule(&[]).is_empty());
    assert_eq!(schedule(&[Mark::plain(3, 4, 5, 6)]), [Record::NEVER]);
}

#[test]
fn equal_values_with_equal_priorities_go_to_the_lower_number() {
    // Mark 2 touches 0 and 1 at one value, which lives longer between these.
    let marks = [
        Mark::plain(-100, 0, 10, 5),
        Mark::plain(100, 0, 10, 5),
        Mark::plain(0, 0, 10, 5),
    ];
    let records = schedule(&marks);
    assert_eq!(records[2], Record::removed(0, Fraction::new(10_000, 400)));
    assert_eq!(records[1], Record::removed(0, Fraction::new(40_000, 400)));
}

#[test]
fn equal_values_with_equal_priorities_go_to_the_larger_radius_in_the_second_edition() {
    // Mark 2 touches 0 and 1 at 25, long before these two touch each other.
    let marks = [
        Mark::plain(-100, 0, 10, 5),
        Mark::plain(150, 0, 20, 5),
        Mark::plain(0, 0, 10, 5),
    ];
    let [first, second] = Edition::ALL.map(|edition| schedule_reel(edition.reel(&marks)));
    assert_eq!(first[2], Record::new(0, 10_000, 400));
    assert_eq!(first[1], Record::new(0, 62_500, 900));
    assert_eq!(second[2], Record::new(1, 22_500, 900));
    assert_eq!(second[0], Record::new(1, 62_500, 900));
}

#[test]
fn a_removed_mark_removes_nobody() {
    // Mark 1 goes at 25 and would have met mark 2 only at 100.
    let marks = [
        Mark::plain(0, 0, 10, 9),
        Mark::plain(100, 0, 10, 5),
        Mark::plain(300, 0, 10, 1),
    ];
    let records = schedule(&marks);
    assert_eq!(records[1], Record::removed(0, Fraction::new(10_000, 400)));
    assert_eq!(records[2], Record::removed(0, Fraction::new(90_000, 400)));
}

#[test]
fn at_one_place_the_highest_ranked_removes_all_at_once() {
    let marks = [
        Mark::plain(7, 7, 1, 5),
        Mark::plain(7, 7, 2, 9),
        Mark::plain(7, 7, 3, 9),
    ];
    let expected = [
        Record::removed(1, Fraction::new(0, 9)),
        Record::NEVER,
        Record::removed(1, Fraction::new(0, 25)),
    ];
    assert_eq!(schedule(&marks), expected);
}
