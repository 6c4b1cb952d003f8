//! Square labels (02, request 13): worked examples, and what holds of every sheet that names
//! the shape of its labels.

mod common;

use common::{
    each_popping_up, one_part, records, schedule_large, scheduled, scheduled_as, three_parts,
    with_counts, with_part, with_popups, with_shape,
};
use oracle::count::count;
use oracle::judge::judge;
use oracle::mark::Mark;
use oracle::process::schedule_by_process;
use oracle::rank::Edition;
use oracle::record::{removals, Record};
use oracle::report::print;
use oracle::rules::keep_both;
use oracle::sample::{
    marks, Layout, ShapeExample, DIAGONAL, P1, REACH_EXAMPLES, SHAPE_EXAMPLES, THREE_FOUR_FIVE,
};
use oracle::shape::Shape::{self, Disk, Square};
use oracle::sheet::{check, join_parts, open, split};
use oracle::view::{view, Edges, Window};
use oracle::zoom::Zoom;

/// Numbers of marks that are tried.
const NUMBERS: [usize; 6] = [0, 1, 2, 5, 9, 24];

/// The map and the count of a view at k/64.
fn view_at(sheet: &[u8], window: Window, k: u32) -> Result<(Vec<u8>, u32), u32> {
    view(sheet, window, Zoom::Wheel(k as f32 / 64.0), 512)
}

/// The sheet of an example with this part 7, if there is one, as scheduling writes it.
fn scheduled_example(example: &ShapeExample, named: Option<Shape>) -> Vec<u8> {
    let sheet = one_part(example.marks);
    let sheet = match example.popups {
        Some(popups) => with_popups(&sheet, popups),
        None => sheet,
    };
    schedule_large(&match named {
        Some(shape) => with_shape(&sheet, shape),
        None => sheet,
    })
    .unwrap()
}

// ---- worked examples

#[test]
fn worked_examples() {
    for example in SHAPE_EXAMPLES {
        for (named, at) in [(None, 0), (Some(Disk), 0), (Some(Square), 1)] {
            let sheet = scheduled_example(&example, named);
            assert_eq!(
                records(&sheet),
                example.records[at],
                "{example:?} {named:?}"
            );
            assert_eq!(judge(&sheet), Ok(()));
            for &(k, maps) in example.shown {
                let expected = Ok((vec![maps[at]], maps[at].count_ones()));
                let shown = view_at(&sheet, Window::WHOLE, k);
                assert_eq!(shown, expected, "{example:?} {named:?} {k}");
            }
        }
    }
}

#[test]
fn a_square_reaches_further_towards_a_corner() {
    let label = [Mark::plain(0, 0, 10, 0)];
    for (edges, k, reached) in REACH_EXAMPLES {
        let flipped = Edges {
            x0: -edges.x1,
            x1: -edges.x0,
            ..edges
        };
        for (shape, reached) in Shape::ALL.into_iter().zip(reached) {
            let sheet = scheduled_as(shape, &label);
            let expected = Ok((vec![reached.into()], reached.into()));
            for edges in [edges, flipped] {
                let shown = view_at(&sheet, edges.unturned(), k);
                assert_eq!(shown, expected, "{shape:?} {edges:?} {k}");
            }
        }
    }
}

#[test]
fn shapes_are_printed() {
    let disks = "marks 3\n0 -\n1 0 7200 400 272\n2 1 4225 400 208\n";
    let squares = "marks 3\n0 -\n1 0 3600 400 192\n2 0 15625 400 400\n";
    let sheet = one_part(&DIAGONAL);
    assert_eq!(print(&sheet), disks);
    assert_eq!(print(&with_shape(&sheet, Disk)), disks);
    assert_eq!(print(&with_shape(&sheet, Square)), squares);
    assert_eq!(print(&with_part(&sheet, 7, &[3])), "refused 24\n");
}

#[test]
fn another_shape_is_another_schedule() {
    for (shape, other) in [(Disk, Square), (Square, Disk)] {
        let sheet = scheduled_as(shape, &THREE_FOUR_FIVE);
        let mut parts = split(&sheet).unwrap().present();
        let part_7 = other.write();
        parts[3].1 = &part_7;
        assert_eq!(check(&join_parts(&parts)), 8);
        let afresh = join_parts(&[parts[0], parts[3]]);
        let expected = scheduled_as(other, &THREE_FOUR_FIVE);
        assert_eq!(schedule_large(&afresh), Ok(expected));
    }
    // A schedule that fits both passes with either.
    for shape in Shape::ALL {
        assert_eq!(check(&with_shape(&scheduled(&P1), shape)), 0);
    }
}

#[test]
fn counts_go_by_the_shape() {
    // As squares mark 1 is gone at stop 7, where 64 times the zoom is 128.
    let notes = |shape| {
        let sheet = count(&scheduled_as(shape, &THREE_FOUR_FIVE), 999).unwrap();
        let part_6 = split(&sheet).unwrap().get(6).unwrap().to_vec();
        [6, 7, 8].map(|stop| part_6[10 * stop])
    };
    assert_eq!(notes(Disk), [2, 2, 1]);
    assert_eq!(notes(Square), [2, 1, 1]);
}

// ---- plausible and false

#[test]
fn false_that_squares_take_the_smaller_difference_or_the_sum() {
    let sheet = |numerator| {
        let gone = Record::new(0, numerator, 400);
        let sheet = three_parts(&THREE_FOUR_FIVE, &[Record::NEVER, gone]);
        check(&with_shape(&sheet, Square))
    };
    assert_eq!(sheet(40 * 40), 0);
    for numerator in [30 * 30, 50 * 50, 70 * 70, 40, 80 * 80] {
        assert_eq!(sheet(numerator), 8, "{numerator}");
    }
}

// ---- what holds of every sheet

#[test]
fn scheduling_writes_the_process_of_the_shape_and_keeps_part_7() {
    let mut differing = 0;
    each_popping_up(&NUMBERS, |marks, popups| {
        let n = marks.len();
        for (edition, shape) in [(Edition::First, Square), (Edition::Second, Disk)] {
            let reel = edition.reel(marks).with_shape(shape);
            let sheet = with_part(&one_part(marks), 4, &edition.write());
            let bare = with_shape(&sheet, shape);
            let popping_up = with_popups(&bare, popups);
            for (sheet, reel, length) in [
                (bare, reel, 54 + 27 * n),
                (popping_up, reel.with_popups(popups), 64 + 31 * n),
            ] {
                let written = schedule_large(&sheet).unwrap();
                assert_eq!(written.len(), length);
                let ours = schedule_by_process(reel);
                assert_eq!(records(&written), ours);
                assert_eq!(keep_both(reel, &removals(&ours)), Ok(()));
                let opened = open(&written).unwrap();
                assert_eq!((opened.edition, opened.shape), (edition, shape));
                let last = opened.bodies.present().pop();
                assert_eq!(last, Some((7, &shape.write()[..])));
                assert_eq!(schedule_large(&written), Ok(written.clone()));
                let disks = schedule_by_process(reel.with_shape(Disk));
                differing += usize::from(disks != ours);
            }
        }
    });
    assert!(differing > 300, "only {differing} schedules differ");
}

#[test]
fn without_part_7_all_is_as_with_disks_named() {
    each_popping_up(&NUMBERS, |marks, popups| {
        let bare = with_popups(&one_part(marks), popups);
        let named = with_shape(&bare, Disk);
        let [four, five] = [&bare, &named].map(|sheet| schedule_large(sheet).unwrap());
        assert_eq!(five, with_shape(&four, Disk));
        assert_eq!(print(&bare), print(&named));
        for (turn, stop) in (0..=16).map(|stop| (stop % 4, stop)) {
            let window = Edges::WHOLE.of_turned(turn);
            let view = |sheet| view(sheet, window, Zoom::Stop(stop), 512);
            assert_eq!(view(&four), view(&five));
        }
    });
}

#[test]
fn along_a_line_squares_are_as_disks() {
    for seed in 0..40 {
        let sample = marks(Layout::Line, seed as usize, seed);
        let [disks, squares] = Shape::ALL.map(|shape| scheduled_as(shape, &sample));
        assert_eq!(records(&disks), records(&squares));
        for stop in 0..=16 {
            let all = |sheet| view(sheet, Window::WHOLE, Zoom::Stop(stop), 512);
            assert_eq!(all(&disks), all(&squares));
        }
    }
}

#[test]
fn part_6_stands_before_part_7() {
    each_popping_up(&NUMBERS, |marks, popups| {
        let popping_up = with_popups(&one_part(marks), popups);
        for shape in Shape::ALL {
            let sheet = schedule_large(&with_shape(&popping_up, shape)).unwrap();
            let counted = count(&sheet, sheet.len() + 180).unwrap();
            assert_eq!(counted, with_counts(&sheet));
            let parts = split(&counted).unwrap().present();
            assert!(parts.iter().map(|part| part.0).eq([1, 2, 3, 5, 6, 7]));
            assert_eq!(counted.last(), shape.write().last());
            assert_eq!(count(&counted, counted.len()), Ok(counted.clone()));
            assert_eq!(schedule_large(&counted), Ok(counted));
        }
    });
}
