//! Marks that come and go (02, request 5), with their popups (request 9), their counts
//! (request 12) and their shape (request 13): examples, and each question answered with no in
//! its turn.

mod common;

use common::{
    each_popping_up, five_parts, one_part, popup_bytes, records, schedule_large, scheduled,
    scheduled_as, scheduled_by, scheduled_popping_up, three_parts, with_counts, with_edition,
    with_part, with_part_4, with_part_7, with_popups, with_shape, COUNTS, EDITION, LONGEST, OUT,
    SHAPE, WORK,
};
use oracle::change::{add, take_out};
use oracle::mark::{read_marks, write_marks, Mark};
use oracle::popup::read_popups;
use oracle::process::schedule_in_rank_order;
use oracle::rank::Edition;
use oracle::record::{write_records, Record};
use oracle::sample::{marks, refused_sheets, Generator, Layout, P1};
use oracle::shape::Shape;
use oracle::sheet::{join, scheduled_bytes, split, work_bytes};

/// A mark with something in every field.
const NEW: Mark = Mark {
    x: -300,
    y: 1_025,
    radius: 0,
    priority: 513,
    kind: 149,
    tag: 65_534,
};

/// New marks that 5 and 6, 5 alone, and 6 alone refuse.
const REFUSED: [(u32, Mark); 3] = [
    (5, with(200, 16_384)),
    (5, with(255, 0)),
    (6, with(199, 16_384)),
];

/// The new mark with another kind and radius.
const fn with(kind: u8, radius: u16) -> Mark {
    Mark {
        kind,
        radius,
        ..NEW
    }
}

/// Adds a mark without a popup in buffers that are long enough for any sheet.
fn add_large(sheet: &[u8], mark: Mark) -> Result<Vec<u8>, u32> {
    add_popping_up(sheet, mark, 0)
}

/// Adds a mark with a popup in buffers that are long enough for any sheet.
fn add_popping_up(sheet: &[u8], mark: Mark, popup: u32) -> Result<Vec<u8>, u32> {
    add(sheet, mark, popup, WORK, LONGEST)
}

/// Takes a mark out in buffers that are long enough for any sheet.
fn take_out_large(sheet: &[u8], m: u32) -> Result<Vec<u8>, u32> {
    take_out(sheet, m, WORK, LONGEST)
}

// ---- examples

#[test]
fn p1_comes_and_goes_mark_by_mark() {
    let mut sheet = scheduled(&[]);
    for n in 0..P1.len() {
        sheet = add_large(&sheet, P1[n]).unwrap();
        assert_eq!(sheet, scheduled(&P1[..=n]));
    }
    for n in 0..P1.len() {
        sheet = take_out_large(&sheet, 0).unwrap();
        assert_eq!(sheet, scheduled(&P1[n + 1..]));
    }
    assert_eq!(sheet.len(), 32);
}

#[test]
fn p1_without_its_highest_mark() {
    let sheet = take_out_large(&scheduled(&P1), 0).unwrap();
    // What were marks 2 and 3 goes by what was mark 1.
    let expected = [
        Record::NEVER,
        Record::new(0, 10_000, 400),
        Record::new(0, 10_009, 225),
    ];
    assert_eq!(records(&sheet), expected);
}

#[test]
fn p1_with_a_higher_mark_at_the_end() {
    let sheet = add_large(&scheduled(&P1), Mark::plain(0, 0, 10, 10)).unwrap();
    let expected = [
        Record::new(4, 0, 400),
        Record::new(4, 10_000, 400),
        Record::new(4, 40_000, 400),
        Record::new(4, 9, 225),
        Record::NEVER,
    ];
    assert_eq!(records(&sheet), expected);
}

#[test]
fn the_new_mark_stands_at_the_end_as_it_was_given() {
    let sheet = add_large(&scheduled(&P1), NEW).unwrap();
    let bodies = split(&sheet).unwrap();
    let [a, b, c, d] = P1;
    assert_eq!(read_marks(bodies.part_1()), [a, b, c, d, NEW]);
    let bytes = [0xd4, 0xfe, 1, 4, 0, 0, 1, 2, 149, 0xfe, 0xff];
    assert_eq!(bodies.part_1()[44..], bytes);
}

#[test]
fn a_mark_alone_comes_and_goes() {
    let empty = scheduled(&[]);
    let one = add(&empty, NEW, 0, 1_056, 59).unwrap();
    assert_eq!(one, scheduled(&[NEW]));
    assert_eq!(take_out(&one, 0, 1_024, 32).unwrap(), empty);
    assert_eq!(take_out_large(&empty, 0), Err(17));
    assert_eq!(take_out_large(&empty, u32::MAX), Err(17));
}

#[test]
fn each_mark_taken_out_leaves_the_others_in_order() {
    for layout in Layout::ALL {
        let sample = marks(layout, 9, 2);
        let sheet = scheduled(&sample);
        for m in 0..sample.len() {
            let mut others = sample.clone();
            others.remove(m);
            let expected = scheduled(&others);
            assert_eq!(take_out_large(&sheet, m as u32), Ok(expected));
        }
    }
}

#[test]
fn a_schedule_that_is_not_ours_is_taken_and_the_result_is_fresh() {
    let never = three_parts(&P1, &[Record::NEVER; 4]);
    assert_eq!(add_large(&never, NEW), add_large(&scheduled(&P1), NEW));
    assert_eq!(
        take_out_large(&never, 1),
        take_out_large(&scheduled(&P1), 1)
    );
    let both = add_large(&never, NEW).and_then(|sheet| take_out_large(&sheet, 4));
    assert_eq!(both, Ok(scheduled(&P1)));
    assert_ne!(both, Ok(never));
}

#[test]
fn a_scheduled_sheet_comes_back_byte_for_byte() {
    let mut generator = Generator::new(1);
    for layout in Layout::ALL {
        for n in [0, 1, 2, 7, 20] {
            let sheet = scheduled(&marks(layout, n, 3));
            let new = generator.choose(&marks(layout, 5, 4));
            let longer = add_large(&sheet, new).unwrap();
            assert_eq!(take_out_large(&longer, n as u32), Ok(sheet));
        }
    }
}

#[test]
fn marks_come_and_go_by_the_sheets_own_edition() {
    let mut generator = Generator::new(2);
    for edition in Edition::ALL {
        for layout in Layout::ALL {
            for n in [0, 1, 2, 7, 20] {
                let mut sample = marks(layout, n, 3);
                sample.iter_mut().for_each(|mark| mark.priority &= 1);
                let sheet = scheduled_by(edition, &sample);
                let new = generator.choose(&marks(layout, 5, 4));
                let longer = add_large(&sheet, new).unwrap();
                sample.push(new);
                assert_eq!(longer, scheduled_by(edition, &sample));
                assert_eq!(take_out_large(&longer, n as u32), Ok(sheet));
                sample.remove(n / 2);
                let fewer = take_out_large(&longer, n as u32 / 2);
                assert_eq!(fewer, Ok(scheduled_by(edition, &sample)));
            }
        }
    }
}

#[test]
fn a_larger_mark_of_equal_priority_comes_and_goes() {
    let (small, large) = (Mark::plain(0, 0, 10, 5), Mark::plain(90, 0, 20, 5));
    let gone = Record::new(1, 8_100, 900);
    for (edition, expected) in [
        (Edition::First, [Record::NEVER, Record::new(0, 8_100, 900)]),
        (Edition::Second, [gone, Record::NEVER]),
    ] {
        let one = scheduled_by(edition, &[small]);
        let two = add_large(&one, large).unwrap();
        assert_eq!(records(&two), expected);
        assert_eq!(take_out_large(&two, 1), Ok(one));
        let other = take_out_large(&two, 0);
        assert_eq!(other, Ok(scheduled_by(edition, &[large])));
    }
}

#[test]
fn p1_comes_and_goes_with_its_popups() {
    let popups = [640, 0, 321, 65_536];
    let mut sheet = scheduled_popping_up(&[], &[]);
    for n in 0..P1.len() {
        sheet = add_popping_up(&sheet, P1[n], popups[n]).unwrap();
        assert_eq!(sheet, scheduled_popping_up(&P1[..=n], &popups[..=n]));
    }
    assert_eq!(read_popups(split(&sheet).unwrap().get(5).unwrap()), popups);
    for n in 0..P1.len() {
        sheet = take_out_large(&sheet, 0).unwrap();
        assert_eq!(sheet, scheduled_popping_up(&P1[n + 1..], &popups[n + 1..]));
    }
    // Part 5 of no marks is still there.
    assert_eq!(sheet.len(), 42);
    assert_eq!(split(&sheet).unwrap().get(5), Some(&[][..]));
}

#[test]
fn the_popup_of_each_mark_taken_out_goes_with_it() {
    let popups = [5, 260, 65_536, 0];
    let sheet = scheduled_popping_up(&P1, &popups);
    for m in 0..4 {
        let (mut marks, mut left) = (P1.to_vec(), popups.to_vec());
        marks.remove(m);
        left.remove(m);
        let expected = scheduled_popping_up(&marks, &left);
        assert_eq!(take_out_large(&sheet, m as u32), Ok(expected));
    }
}

#[test]
fn without_part_5_a_popup_is_0_and_none_is_written() {
    for sheet in [
        scheduled(&P1),
        scheduled_by(Edition::Second, &P1),
        scheduled(&[]),
    ] {
        let more = add_popping_up(&sheet, NEW, 0).unwrap();
        assert_eq!(split(&more).unwrap().get(5), None);
        for popup in [1, 64, 65_536, 65_537, u32::MAX] {
            assert_eq!(add_popping_up(&sheet, NEW, popup), Err(21), "{popup}");
        }
    }
}

#[test]
fn marks_come_and_go_by_the_sheets_own_edition_and_popups() {
    let mut generator = Generator::new(3);
    each_popping_up(&[1, 2, 7, 20], |marks, popups| {
        let mut sample = marks.to_vec();
        sample.iter_mut().for_each(|mark| mark.priority &= 1);
        let m = generator.below(sample.len() as u32) as usize;
        for edition in Edition::ALL {
            let of = |marks: &[Mark], popups: &[u32]| {
                five_parts(edition.reel(marks).with_popups(popups))
            };
            let (all, (last, others)) = (of(&sample, popups), sample.split_last().unwrap());
            let (popup, earlier) = popups.split_last().unwrap();
            let fewer = of(others, earlier);
            assert_eq!(add_popping_up(&fewer, *last, *popup).as_ref(), Ok(&all));
            assert_eq!(take_out_large(&all, others.len() as u32), Ok(fewer));
            let (mut left, mut popups) = (sample.clone(), popups.to_vec());
            left.remove(m);
            popups.remove(m);
            assert_eq!(take_out_large(&all, m as u32), Ok(of(&left, &popups)));
        }
    });
}

#[test]
fn a_schedule_by_other_popups_is_fresh_after_a_change() {
    // All 'never' is taken with any popups.
    let popups = [0, 640, 0, 12];
    let never = with_popups(&three_parts(&P1, &[Record::NEVER; 4]), &popups);
    let both = add_popping_up(&never, NEW, 65_536).and_then(|sheet| take_out_large(&sheet, 4));
    assert_eq!(both, Ok(scheduled_popping_up(&P1, &popups)));
}

#[test]
fn a_change_renews_the_counts_that_are_there() {
    let mut generator = Generator::new(4);
    each_popping_up(&[1, 2, 7, 20], |marks, popups| {
        let m = generator.below(marks.len() as u32);
        let (last, others) = marks.split_last().unwrap();
        let (popup, earlier) = popups.split_last().unwrap();
        let never = vec![Record::NEVER; others.len()];
        for sheet in [
            scheduled_popping_up(others, earlier),
            with_popups(&three_parts(others, &never), earlier),
        ] {
            let counted = with_counts(&sheet);
            let more = add_popping_up(&sheet, *last, *popup).unwrap();
            let counted_more = add_popping_up(&counted, *last, *popup);
            assert_eq!(counted_more, Ok(with_counts(&more)));
            let fewer = take_out_large(&more, m).unwrap();
            let counted_fewer = take_out_large(&with_counts(&more), m);
            assert_eq!(counted_fewer, Ok(with_counts(&fewer)));
        }
    });
}

#[test]
fn a_sheet_keeps_its_shape_and_goes_by_it() {
    let mut generator = Generator::new(5);
    let mut differing = 0;
    each_popping_up(&[1, 2, 7, 20], |marks, popups| {
        let m = generator.below(marks.len() as u32) as usize;
        let (last, others) = marks.split_last().unwrap();
        let (popup, earlier) = popups.split_last().unwrap();
        let [disks, squares] = Shape::ALL.map(|shape| {
            let of = |marks: &[Mark], popups: &[u32]| {
                let sheet = with_shape(&with_popups(&one_part(marks), popups), shape);
                with_counts(&schedule_large(&sheet).unwrap())
            };
            let (fewer, all) = (of(others, earlier), of(marks, popups));
            assert_eq!(add_popping_up(&fewer, *last, *popup).as_ref(), Ok(&all));
            assert_eq!(take_out_large(&all, others.len() as u32), Ok(fewer));
            let (mut left, mut popups) = (marks.to_vec(), popups.to_vec());
            left.remove(m);
            popups.remove(m);
            assert_eq!(take_out_large(&all, m as u32), Ok(of(&left, &popups)));
            assert_eq!(split(&all).unwrap().get(7), Some(&shape.write()[..]));
            all
        });
        differing += usize::from(records(&disks) != records(&squares));
    });
    assert!(differing > 100, "only {differing} schedules differ");
}

#[test]
fn the_shape_of_no_marks_is_kept() {
    for shape in Shape::ALL {
        let empty = scheduled_as(shape, &[]);
        assert_eq!(empty.len(), 43);
        let one = add_large(&empty, NEW).unwrap();
        assert_eq!(one, scheduled_as(shape, &[NEW]));
        assert_eq!(take_out_large(&one, 0), Ok(empty));
    }
}

// ---- refusals

#[test]
fn questions_1_to_10_come_first() {
    let (_, unknown) = REFUSED[0];
    for (number, sheet) in refused_sheets() {
        for (work, out) in [(0, 0), (WORK, OUT)] {
            for (mark, popup) in [(NEW, 0), (NEW, 1), (unknown, 0), (unknown, 65_537)] {
                assert_eq!(add(&sheet, mark, popup, work, out), Err(number));
            }
            for m in [0, 4, 65_536, u32::MAX] {
                assert_eq!(take_out(&sheet, m, work, out), Err(number));
            }
        }
    }
}

#[test]
fn question_10_before_17_and_18() {
    let full = marks(Layout::Grid, 4_096, 1);
    assert_eq!(add_large(&one_part(&full), NEW), Err(10));
    assert_eq!(take_out_large(&one_part(&full), 4_096), Err(10));
}

#[test]
fn question_19_before_10_17_and_18() {
    let full = marks(Layout::Grid, 4_096, 1);
    let unnamed = with_part_4(&one_part(&full), &[0]);
    assert_eq!(add_large(&unnamed, NEW), Err(19));
    assert_eq!(take_out_large(&unnamed, 4_096), Err(19));
    let unscheduled = with_edition(&one_part(&full), Edition::Second);
    assert_eq!(add_large(&unscheduled, NEW), Err(10));
    assert_eq!(take_out_large(&unscheduled, 4_096), Err(10));
}

#[test]
fn question_21_of_the_sheet_before_10_17_and_18() {
    let full = marks(Layout::Grid, 4_096, 1);
    let damaged = with_part(&one_part(&full), 5, &[0; 4]);
    assert_eq!(add_large(&damaged, NEW), Err(21));
    assert_eq!(take_out_large(&damaged, 4_096), Err(21));
    let unscheduled = with_popups(&one_part(&full), &[0; 4_096]);
    assert_eq!(add_popping_up(&unscheduled, NEW, 65_537), Err(10));
    assert_eq!(take_out_large(&unscheduled, 4_096), Err(10));
}

#[test]
fn question_24_before_10_17_and_18() {
    let full = marks(Layout::Grid, 4_096, 1);
    for part_7 in [&[][..], &[0], &[3], &[1, 1]] {
        let damaged = with_part_7(&one_part(&full), part_7);
        assert_eq!(add_popping_up(&damaged, NEW, 65_537), Err(24));
        assert_eq!(take_out_large(&damaged, 4_096), Err(24));
    }
    let unscheduled = with_shape(&one_part(&full), Shape::Square);
    assert_eq!(add_large(&unscheduled, NEW), Err(10));
    assert_eq!(take_out_large(&unscheduled, 4_096), Err(10));
}

#[test]
fn question_23_before_10_17_and_18() {
    let full = marks(Layout::OnePlace, 4_096, 1);
    let parts = [write_marks(&full), write_records(&[Record::NEVER; 4_096])];
    let unindexed = join(&[&parts[0], &parts[1]]);
    let damaged = with_part(&unindexed, 6, &[0; 170]);
    assert_eq!(add_large(&damaged, NEW), Err(23));
    assert_eq!(take_out_large(&damaged, 4_096), Err(23));
    let counted = with_counts(&unindexed);
    assert_eq!(add_large(&counted, NEW), Err(10));
    assert_eq!(take_out_large(&counted, 4_096), Err(10));
}

#[test]
fn question_17_is_of_the_whole_number() {
    let sheet = scheduled(&P1);
    assert!(take_out_large(&sheet, 3).is_ok());
    for m in [4, 5, 255, 256, 4_095, 65_535, 65_536, 65_537, 65_539] {
        assert_eq!(take_out_large(&sheet, m), Err(17), "{m}");
    }
    for m in [1 << 31, (1 << 31) + 1, u32::MAX] {
        assert_eq!(take_out_large(&sheet, m), Err(17), "{m}");
    }
}

#[test]
fn question_17_before_13() {
    let sheet = scheduled(&P1);
    assert_eq!(take_out(&sheet, 4, 0, 0), Err(17));
    assert_eq!(take_out(&sheet, 3, 0, 0), Err(13));
    assert_eq!(
        take_out(&sheet, 4, work_bytes(3), scheduled_bytes(3)),
        Err(17)
    );
}

#[test]
fn questions_18_5_6_21_and_13_in_this_order() {
    let full = marks(Layout::OnePlace, 4_096, 1);
    let never = [Record::NEVER; 4_096];
    let most = three_parts(&full, &never);
    let fewer = three_parts(&full[1..], &never[1..]);
    let more = popup_bytes(4_096);
    // Without part 5 every popup but 0 is refused, and with it those above 65,536.
    for (most, fewer, taken, refused, out) in [
        (&most, &fewer, [0; 3], [1, 65_536, 65_537], OUT),
        (
            &with_popups(&most, &[0; 4_096]),
            &with_popups(&fewer, &[0; 4_095]),
            [0, 1, 65_536],
            [65_537, 131_072, u32::MAX],
            OUT + more,
        ),
    ] {
        for (work, out) in [(0, 0), (WORK, out)] {
            for popup in taken.into_iter().chain(refused) {
                for (number, mark) in REFUSED {
                    assert_eq!(add(most, mark, popup, work, out), Err(18));
                    assert_eq!(add(fewer, mark, popup, work, out), Err(number));
                }
                assert_eq!(add(most, NEW, popup, work, out), Err(18));
            }
            for popup in refused {
                assert_eq!(add(fewer, NEW, popup, work, out), Err(21));
            }
        }
        for popup in taken {
            assert_eq!(add(fewer, NEW, popup, WORK - 1, out), Err(13));
            assert_eq!(add(fewer, NEW, popup, WORK, out - 1), Err(13));
            assert_eq!(add(fewer, with(199, 16_383), popup, 0, 0), Err(13));
        }
    }
}

#[test]
fn the_last_mark_that_is_held_comes_and_goes() {
    let most = marks(Layout::OnePlace, 4_096, 2);
    let (&last, fewer) = most.split_last().unwrap();
    let [most, fewer] =
        [&most, fewer].map(|it| three_parts(it, &schedule_in_rank_order(Edition::First.reel(it))));
    assert_eq!(add_large(&fewer, last).as_ref(), Ok(&most));
    assert_eq!(take_out_large(&most, 4_096), Err(17));
    assert_eq!(take_out_large(&most, 4_095), Ok(fewer));
}

#[test]
fn question_13_goes_by_the_new_number_of_marks_and_by_the_parts_beyond_3() {
    for n in 0..=4 {
        let sheet = scheduled(&P1[..n]);
        let popping_up = with_popups(&sheet, &[0; 4][..n]);
        question_13(&sheet, n, |_| 0);
        question_13(&popping_up, n, popup_bytes);
        question_13(&with_counts(&sheet), n, |_| COUNTS);
        for edition in Edition::ALL {
            question_13(&with_edition(&sheet, edition), n, |_| EDITION);
            let both = with_edition(&popping_up, edition);
            question_13(&both, n, |n| EDITION + popup_bytes(n));
            let counted = with_counts(&both);
            question_13(&counted, n, |n| EDITION + popup_bytes(n) + COUNTS);
            for shape in Shape::ALL {
                question_13(&with_shape(&sheet, shape), n, |_| SHAPE);
                let all = with_shape(&counted, shape);
                question_13(&all, n, |n| EDITION + popup_bytes(n) + COUNTS + SHAPE);
            }
        }
    }
}

/// Asks 13 of changes of a sheet of n marks, where so many bytes more are written for a
/// number of marks.
fn question_13(sheet: &[u8], n: usize, more: fn(usize) -> usize) {
    let lengths = |n: usize| (work_bytes(n), scheduled_bytes(n) + more(n));
    let (work, out) = lengths(n + 1);
    assert_eq!(add(sheet, NEW, 0, work, out).unwrap().len(), out);
    assert_eq!(add(sheet, NEW, 0, work - 1, out), Err(13));
    assert_eq!(add(sheet, NEW, 0, work, out - 1), Err(13));
    let Some(fewer) = n.checked_sub(1) else {
        return;
    };
    let (work, out) = lengths(fewer);
    assert_eq!(take_out(sheet, 0, work, out).unwrap().len(), out);
    assert_eq!(take_out(sheet, 0, work - 1, out), Err(13));
    assert_eq!(take_out(sheet, 0, work, out - 1), Err(13));
}
