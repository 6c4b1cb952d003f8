//! The guarantee on turned marks (02, request 8): "For a sheet scheduled here, scheduling
//! the turned marks, where they fit 01's range, with the sheet's parts beyond 3 carried
//! along, and viewing without a turn gives the same map." Part 6 is not (request 12), and
//! squares take no turn, "so the guarantee on turned marks is for disks" (request 13).

mod common;

use common::{
    one_part, schedule_large, scheduled, scheduled_as, scheduled_by, with_counts, with_edition,
    with_popups, with_shape,
};
use oracle::mark::{write_marks, Mark};
use oracle::rank::Edition;
use oracle::sample::{marks, popups, Generator, Layout, Popups, P1};
use oracle::shape::Shape;
use oracle::sheet::{assemble, open};
use oracle::turn::{turned_marks, MOST_TURNS};
use oracle::view::{view, Edges};
use oracle::zoom::Zoom;

/// The sheet of the turned marks, put together with the parts beyond 3 but part 6, and
/// scheduled; none where a turned place does not fit 01's range.
fn turned_sheet(sheet: &[u8], turn: u8) -> Option<Vec<u8>> {
    let opened = open(sheet).unwrap();
    let part_1 = write_marks(&turned_marks(turn, &opened.marks)?);
    let mut parts = vec![(1, part_1.as_slice())];
    parts.extend(opened.bodies.carried());
    let (codes, bodies): (Vec<u16>, Vec<&[u8]>) = parts.into_iter().unzip();
    let together = assemble(&codes, &bodies, usize::MAX).unwrap();
    Some(schedule_large(&together).unwrap())
}

/// Edges about the turned place of some mark, all places, or ones that a question refuses.
fn some_edges(generator: &mut Generator, marks: &[Mark], turn: u8) -> Edges {
    let place = match marks {
        [] => P1[0].label(),
        _ => generator.choose(marks).label().turned(turn),
    };
    let mut side = |at: i32| {
        let low = at + i32::from(generator.between(-300, 300));
        [low, low + i32::from(generator.between(-5, 400))]
    };
    let ([x0, x1], [y0, y1]) = (side(place.x), side(place.y));
    generator.choose(&[
        Edges::WHOLE,
        Edges { x0, x1, y0, y1 },
        Edges { x0, x1, y0, y1 },
    ])
}

/// A sample of every layout and of some numbers of marks, scheduled by either edition, or
/// without one named, with popups of every kind, with counts, and with disks named.
fn each_sheet(mut visit: impl FnMut(&[u8], &[Mark])) {
    for layout in Layout::ALL {
        for n in [0, 1, 2, 9, 40] {
            let mut sample = marks(layout, n, n as u64);
            visit(&scheduled(&sample), &sample);
            visit(&scheduled_as(Shape::Disk, &sample), &sample);
            sample.iter_mut().for_each(|mark| mark.priority &= 1);
            for edition in Edition::ALL {
                visit(&scheduled_by(edition, &sample), &sample);
            }
            for (how, edition) in Popups::ALL
                .into_iter()
                .zip(Edition::ALL.into_iter().cycle())
            {
                let sheet = with_popups(&one_part(&sample), &popups(how, &sample, 1));
                let named = with_edition(&sheet, edition);
                let scheduled = schedule_large(&named).unwrap();
                visit(&scheduled, &sample);
                let counted = with_counts(&scheduled);
                visit(&counted, &sample);
                visit(&with_shape(&counted, Shape::Disk), &sample);
            }
        }
    }
}

#[test]
fn a_turned_view_is_the_view_of_the_turned_marks() {
    let mut generator = Generator::new(60);
    let (mut partly, mut refused) = (0, 0);
    each_sheet(|sheet, marks| {
        let n = marks.len();
        for turn in 0..=MOST_TURNS {
            let Some(turned) = turned_sheet(sheet, turn) else {
                continue;
            };
            for stop in 0..=17 {
                let edges = some_edges(&mut generator, marks, turn);
                let length = n.div_ceil(8) - usize::from(n > 0 && generator.below(20) == 0);
                let zoom = Zoom::Stop(stop);
                let answer = view(sheet, edges.of_turned(turn), zoom, length);
                assert_eq!(answer, view(&turned, edges.unturned(), zoom, length));
                let count = answer.as_ref().map_or(0, |&(_, count)| count as usize);
                partly += usize::from(0 < count && count < n);
                refused += usize::from(answer.is_err());
            }
        }
    });
    assert!(partly > 500, "only {partly} views show some of the marks");
    assert!(refused > 100, "only {refused} views are refused");
}

#[test]
fn turned_marks_have_the_same_records_and_mostly_another_tree() {
    let mut others = 0;
    each_sheet(|sheet, _| {
        for turn in 0..=MOST_TURNS {
            let Some(turned) = turned_sheet(sheet, turn) else {
                continue;
            };
            let (old, new) = (open(sheet).unwrap(), open(&turned).unwrap());
            assert_eq!(old.records, new.records);
            assert_eq!((old.edition, &old.popups), (new.edition, &new.popups));
            assert_eq!(old.bodies.carried(), new.bodies.carried());
            assert_eq!(new.bodies.get(6), None);
            others += usize::from(old.tree != new.tree);
        }
    });
    assert!(others > 50, "only {others} trees are others");
}

#[test]
fn marks_turned_in_succession() {
    each_sheet(|sheet, marks| {
        let Some(turned) = turned_sheet(sheet, 1) else {
            return;
        };
        // Viewed with one more turn each, they are the old ones with one turn more.
        for turn in 0..MOST_TURNS {
            let view = |sheet: &[u8], turn| {
                let edges = Edges {
                    x0: -900,
                    ..Edges::WHOLE
                };
                view(sheet, edges.of_turned(turn), Zoom::Stop(3), 512).unwrap()
            };
            assert_eq!(view(&turned, turn), view(sheet, turn + 1));
        }
        let places = |marks: &[Mark]| turned_marks(1, marks);
        let four = places(marks)
            .and_then(|marks| places(&marks))
            .and_then(|marks| places(&marks))
            .and_then(|marks| places(&marks));
        assert!(four.is_none_or(|four| four == marks));
    });
}
