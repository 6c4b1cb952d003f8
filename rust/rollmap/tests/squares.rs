//! Every job with part 7 absent and naming either shape, compared with the oracle.

mod common;

use common::jobs::{
    self, assert_made, check, come_and_go, come_in_buffers_of_its_own, every_eliminator, first_no,
    is_ours_if_kept, is_rescheduled, records, refused_by_every_job, schedule,
};
use common::views::{
    assert_alike, assert_view, each_beside_a_label, in_64ths, some_zoom, view,
    view_ours_and_foreign, wheel, window, zoom, Scheduled, OUTSIDE, WHOLE,
};
use common::{
    add, bound, foreign_records, longest, number, one_part, rivals, schedule_in, scheduled,
    some_marks, some_records, take_out, three_parts, tied_marks, with_part, with_part_7,
    with_popups, write_in, Beyond, Tally, NAMED, SHAPED,
};
use oracle::fraction::Removal;
use oracle::mark::{touching_value, write_marks, Mark};
use oracle::popup::write_popups;
use oracle::process::{schedule_by_process, schedule_in_rank_order};
use oracle::record::{removals, write_records, Record};
use oracle::rules::{keep_both, Breach};
use oracle::sample::{
    each_list, marks, popups, small_choice, Generator, Layout, Popups, ShapeExample, DIAGONAL, P1,
    P5, REACH_EXAMPLES, SHAPE_EXAMPLES, THREE_FOUR_FIVE,
};
use oracle::shape::Shape::{self, Disk, Square};
use oracle::sheet::{join, join_parts, split};
use oracle::tree::{self, write_tree};
use oracle::view::{map_and_count, reaches};
use rollmap::{Code, Refusal, Turn, View, Zoom, COUNTED_BYTES, NO_POPUP, SHAPE_BYTES};

/// Squares, and no other part beyond 3.
fn squares() -> Beyond {
    Beyond::shaped(Some(Square))
}

/// Some parts for these marks with which their labels are squares.
fn draw_squares(generator: &mut Generator, marks: &[Mark]) -> Beyond {
    Beyond::draw(generator, marks).with_shape(Some(Square))
}

/// Sees that scheduling these marks as squares writes what the order of rank gives.
fn becomes_scheduled(marks: &[Mark]) {
    jobs::becomes_scheduled(&squares(), marks);
}

/// The sheet of these marks with these popups, counted, and with a part 7 behind part 6.
fn counted_with(part_7: &[u8], marks: &[Mark], popups: Vec<u32>) -> Vec<u8> {
    let counted = Beyond::popping_up(popups).counted();
    with_part_7(&counted.scheduled(marks), part_7)
}

/// Bodies of part 7 that question 24 refuses.
const NO_SHAPES: [&[u8]; 9] = [
    &[],
    &[0],
    &[3],
    &[255],
    &[1, 1],
    &[2, 0],
    &[1, 2],
    &[2, 2],
    &[1; 14],
];

// ---- worked examples

#[test]
fn worked_examples() {
    for ShapeExample {
        marks,
        popups,
        records: of_shapes,
        shown,
    } in SHAPE_EXAMPLES
    {
        for (shaped, at) in [(None, 0), (Some(Disk), 0), (Some(Square), 1)] {
            let beyond = Beyond::uncounted(None, popups.map(<[u32]>::to_vec));
            let sheet = beyond.with_shape(shaped).scheduled_here(marks);
            assert_eq!(records(&sheet), of_shapes[at], "{marks:?} {shaped:?}");
            assert_eq!(rollmap::judge(&sheet), Ok(()));
            for &(k, maps) in shown {
                let expected = Ok((vec![maps[at]], maps[at].count_ones()));
                assert_view(&sheet, View::whole(wheel(k)), 1, &expected);
            }
        }
    }
}

#[test]
fn a_square_reaches_further_towards_a_corner() {
    let label = [Mark::plain(0, 0, 10, 0)];
    for (edges, k, reached) in REACH_EXAMPLES {
        for (shape, reached) in Shape::ALL.into_iter().zip(reached) {
            let sheet = Beyond::shaped(Some(shape)).scheduled_here(&label);
            let asked = View {
                x0: edges.x0,
                x1: edges.x1,
                y0: edges.y0,
                y1: edges.y1,
                turn: Turn::None,
                zoom: wheel(k),
            };
            // On all four sides of the label.
            let across = View {
                x0: -asked.x1,
                x1: -asked.x0,
                ..asked
            };
            let down = |view: View| View {
                y0: -view.y1,
                y1: -view.y0,
                ..view
            };
            let expected = Ok((vec![reached.into()], reached.into()));
            for asked in [asked, across, down(asked), down(across)] {
                assert_view(&sheet, asked, 1, &expected);
            }
        }
    }
}

#[test]
fn another_shape_is_another_schedule() {
    for (shape, other) in [(Disk, Square), (Square, Disk)] {
        let [sheet, expected] =
            [shape, other].map(|it| Beyond::shaped(Some(it)).scheduled_here(&DIAGONAL));
        let part = |code| (code, rollmap::part(&sheet, code).unwrap());
        let [marks, schedule, index] = [Code::Marks, Code::Schedule, Code::Index].map(part);
        let part_7 = other.write();
        let exchanged = [marks, schedule, index, (Code::Shape, &part_7)];
        let refused = rollmap::assemble_to_vec(&exchanged);
        assert_eq!(refused, Err(Refusal::Schedule));
        let afresh = rollmap::assemble_to_vec(&[marks, (Code::Shape, &part_7)]).unwrap();
        assert_eq!(rollmap::schedule_to_vec(&afresh), Ok(expected));
    }
    // A schedule that fits both passes with either, and is ours with both.
    for shape in Shape::ALL {
        let sheet = with_part_7(&scheduled(&P1), &shape.write());
        assert_eq!(rollmap::judge(&sheet), Ok(()));
        assert_eq!(rollmap::schedule_to_vec(&sheet), Ok(sheet));
    }
}

// ---- scheduling

#[test]
fn many_small_sheets() {
    let mut generator = Generator::new(160);
    let mut differing = 0;
    for layout in Layout::ALL {
        for seed in 0..400 {
            let sample = marks(layout, seed as usize % 24, seed);
            becomes_scheduled(&sample);
            let beyond = draw_squares(&mut generator, &sample);
            jobs::becomes_scheduled(&beyond, &sample);
            if seed < 60 {
                let reel = beyond.reel(&sample);
                let by_process = schedule_by_process(reel);
                let sheet = beyond.with_records(&sample, &by_process);
                assert_eq!(sheet, beyond.scheduled(&sample));
                let disks = schedule_by_process(reel.with_shape(Disk));
                differing += usize::from(disks != by_process);
            }
        }
    }
    assert!(differing > 150, "{differing} schedules differ");
}

#[test]
fn many_sheets_full_of_ties() {
    let mut generator = Generator::new(161);
    for round in 0..4_000 {
        let n = 2 + generator.below(30) as usize;
        let sample = match round % 2 {
            0 => tied_marks(&mut generator, n),
            _ => rivals(&mut generator, n),
        };
        let ways = [Popups::Touching, Popups::Together, Popups::Zero];
        let drawn = popups(generator.choose(&ways), &sample, generator.draw());
        let popups = (generator.below(2) == 0).then_some(drawn);
        let beyond = Beyond::uncounted(generator.choose(&NAMED), popups);
        jobs::becomes_scheduled(&beyond.with_shape(Some(Square)), &sample);
    }
}

#[test]
fn every_sheet_of_three_marks_from_a_small_choice() {
    each_list(&small_choice(), 3, &mut |marks| {
        for named in [NAMED[0], NAMED[2]] {
            let beyond = Beyond::named(named).with_shape(Some(Square));
            jobs::becomes_scheduled(&beyond, marks);
        }
    });
}

#[test]
fn sheets_about_the_number_from_which_cells_are_used() {
    let mut generator = Generator::new(162);
    for layout in Layout::ALL {
        for n in [0, 1, 2, 40, 191, 192, 193, 255, 256, 257, 500, 700] {
            let sample = marks(layout, n, 8);
            becomes_scheduled(&sample);
            let beyond = draw_squares(&mut generator, &sample);
            jobs::becomes_scheduled(&beyond, &sample);
        }
    }
    for _ in 0..60 {
        let n = 100 + generator.below(400) as usize;
        becomes_scheduled(&tied_marks(&mut generator, n));
    }
}

#[test]
fn the_largest_sheets() {
    for layout in Layout::ALL {
        let sample = marks(layout, 4_096, 9);
        let (bare, ours) = (squares().bare(&sample), squares().scheduled(&sample));
        schedule(&bare, squares().lengths(4_096), Ok(&ours));
    }
    let sample = marks(Layout::Clustered, 4_096, 9);
    let popups = Some(popups(Popups::Any, &sample, 9));
    let all = Beyond::uncounted(NAMED[2], popups).counted();
    let all = all.with_shape(Some(Square));
    assert_eq!(all.lengths(4_096), longest());
    jobs::becomes_scheduled(&all, &sample);
}

#[test]
fn without_part_7_all_is_as_with_disks_named_but_for_its_own_bytes() {
    let mut generator = Generator::new(163);
    for layout in Layout::ALL {
        for n in [0, 1, 2, 30, 300] {
            let sample = marks(layout, n, 4);
            let drawn = Beyond::draw(&mut generator, &sample);
            let [bare, named] = [None, Some(Disk)]
                .map(|shaped| drawn.clone().with_shape(shaped).scheduled_here(&sample));
            assert_eq!(named, with_part_7(&bare, &[1]));
            let codes = &Code::ALL[..6];
            let zoom = Zoom::Stop(generator.below(17) as u8);
            assert_alike(&bare, &named, codes, zoom);
            for turn in Turn::ALL {
                let asked = View {
                    turn,
                    zoom,
                    ..WHOLE
                };
                let shown = |sheet| rollmap::view_to_map(sheet, asked).unwrap();
                assert_eq!(shown(&bare), shown(&named));
            }
        }
    }
}

#[test]
fn along_a_line_squares_are_as_disks() {
    for n in [1, 2, 40, 300] {
        let mut sample = marks(Layout::Line, n, 7);
        for _ in 0..2 {
            let [disks, squares] =
                Shape::ALL.map(|shape| Beyond::shaped(Some(shape)).scheduled_here(&sample));
            for stop in 0..=16 {
                let zoom = Zoom::Stop(stop);
                assert_alike(&disks, &squares, &Code::ALL[..3], zoom);
            }
            // And upright.
            for mark in &mut sample {
                (mark.x, mark.y) = (mark.y, mark.x);
            }
        }
    }
}

#[test]
fn a_schedule_that_is_there_is_replaced_and_part_7_is_kept() {
    let mut generator = Generator::new(164);
    for round in 0..1_500 {
        let n = generator.below(20) as usize;
        let sample = rivals(&mut generator, n);
        let beyond = Beyond::draw(&mut generator, &sample).with_shape(SHAPED[round % 3]);
        let records = foreign_records(&mut generator, beyond.reel(&sample));
        let (foreign, ours) = (
            beyond.with_records(&sample, &records),
            beyond.scheduled(&sample),
        );
        for sheet in [&foreign, &ours, &beyond.bare(&sample)] {
            is_rescheduled(&beyond, n, sheet, &ours);
        }
        let part_7 = split(&ours).unwrap().get(7);
        assert_eq!(part_7.map(Shape::read), beyond.shaped.map(Some));
        // Its bytes are asked for: the length without part 7 is too short.
        if beyond.shaped.is_some() {
            let [work, out] = beyond.lengths(n);
            schedule(&ours, [work, out - SHAPE_BYTES], Err(13));
        }
    }
}

#[test]
fn the_shape_of_no_marks_is_kept() {
    for shaped in SHAPED {
        let beyond = Beyond::shaped(shaped);
        jobs::becomes_scheduled(&beyond, &[]);
        let empty = beyond.scheduled_here(&[]);
        let one = rollmap::add_to_vec(&empty, bound(&P1[0]), NO_POPUP).unwrap();
        assert_eq!(one, beyond.scheduled(&P1[..1]));
        assert_eq!(rollmap::take_out_to_vec(&one, 0), Ok(empty));
    }
}

// ---- demand 3

#[test]
fn a_list_keeps_both_rules_exactly_if_it_is_ours() {
    let mut generator = Generator::new(165);
    let (mut changed, mut as_disks) = (0, 0);
    for round in 0..600 {
        let layout = generator.choose(&Layout::ALL);
        let sample = marks(layout, 1 + round % 9, round as u64);
        let beyond = draw_squares(&mut generator, &sample);
        let reel = beyond.reel(&sample);
        let ours = removals(&records(&beyond.scheduled_here(&sample)));
        assert_eq!(keep_both(reel, &ours), Ok(()));
        // Whoever takes them for disks names another list, or the same values.
        let others = removals(&schedule_in_rank_order(reel.with_shape(Disk)));
        as_disks += usize::from(!is_ours_if_kept(reel, &ours, &others));
        for m in 0..sample.len() {
            let other = generator.below(sample.len() as u32) as usize;
            let of_shape = |shape| touching_value(shape, &sample[m], &sample[other]);
            for value in [
                Removal::Never,
                Removal::At(of_shape(Disk)),
                Removal::At(of_shape(Square)),
                Removal::At(reel.pair_value(m, other)),
            ] {
                let mut list = ours.clone();
                list[m] = value;
                changed += usize::from(!is_ours_if_kept(reel, &ours, &list));
            }
        }
    }
    assert!(changed > 5_000 && as_disks > 100, "{changed} {as_disks}");
}

#[test]
fn a_list_of_the_other_shape_breaks_a_rule() {
    let lists = Shape::ALL.map(|shape| {
        let sheet = Beyond::shaped(Some(shape)).scheduled_here(&THREE_FOUR_FIVE);
        removals(&records(&sheet))
    });
    let kept = |shape| {
        let beyond = Beyond::shaped(Some(shape));
        let reel = beyond.reel(&THREE_FOUR_FIVE);
        lists.each_ref().map(|list| keep_both(reel, list))
    };
    assert_eq!(kept(Disk), [Ok(()), Err(Breach::Second(1))]);
    assert_eq!(kept(Square), [Err(Breach::First(0, 1)), Ok(())]);
}

#[test]
fn a_view_shows_whom_any_list_that_keeps_both_rules_has_living() {
    let mut generator = Generator::new(166);
    for round in 0..400 {
        let sample = marks(generator.choose(&Layout::ALL), 1 + round % 12, round as u64);
        let beyond = draw_squares(&mut generator, &sample);
        let reel = beyond.reel(&sample);
        let sheet = beyond.scheduled_here(&sample);
        let list = removals(&schedule_by_process(reel));
        let records = records(&sheet);
        let scheduled = Scheduled::with(beyond.clone(), sample.clone(), &records);
        for _ in 0..8 {
            let asked = scheduled.some_view(&mut generator, Turn::None);
            let shown = map_and_count(reel, &list, window(asked), in_64ths(asked.zoom));
            assert_view(&sheet, asked, shown.0.len(), &Ok(shown));
        }
    }
}

// ---- checking

#[test]
fn records_are_held_to_the_shape() {
    let mut generator = Generator::new(167);
    let mut numbers = Tally::default();
    for _ in 0..4_000 {
        let n = 2 + generator.below(12) as usize;
        let sample = rivals(&mut generator, n);
        let drawn = Beyond::draw(&mut generator, &sample);
        let [one, other] = [(); 2].map(|()| {
            let shape = generator.choose(&Shape::ALL);
            drawn.clone().with_shape(Some(shape))
        });
        let records = some_records(&mut generator, one.reel(&sample));
        assert_eq!(check(&one.with_records(&sample, &records)), 0);
        let number = check(&other.with_records(&sample, &records));
        assert!(number == 0 || one != other);
        numbers.add(number);
    }
    numbers.assert_reached([0, 8], 500);
}

#[test]
fn every_eliminator_of_squares() {
    let mut generator = Generator::new(168);
    for _ in 0..300 {
        let sample = rivals(&mut generator, 6);
        every_eliminator(&draw_squares(&mut generator, &sample), &sample);
    }
}

#[test]
fn places_at_both_ends_of_the_range() {
    let ends = [i16::MIN, i16::MIN + 1, -1, 0, 1, i16::MAX - 1, i16::MAX];
    let places: Vec<(i16, i16)> = ends
        .into_iter()
        .flat_map(|x| ends.map(|y| (x, y)))
        .collect();
    for (&(x, y), &(other_x, other_y)) in places
        .iter()
        .flat_map(|one| places.iter().map(move |other| (one, other)))
    {
        for radius in [1, 16_383] {
            let two = [
                Mark::plain(x, y, radius, 1),
                Mark::plain(other_x, other_y, radius, 0),
            ];
            let [dx, dy] = [(x, other_x), (y, other_y)]
                .map(|(one, other)| u64::from(i32::from(one).abs_diff(other.into())));
            let sum = 2 * u32::from(radius);
            let gone = Record::new(0, dx.max(dy).pow(2), sum * sum);
            let sheet = squares().scheduled_here(&two);
            assert_eq!(records(&sheet), [Record::NEVER, gone]);
        }
    }
}

// ---- damaged

#[test]
fn a_damaged_part_7_is_refused_by_every_job() {
    for part_7 in NO_SHAPES {
        for n in [0, 1, 2, 9] {
            let sample = marks(Layout::Grid, n, 5);
            for sheet in [
                with_part_7(&one_part(&sample), part_7),
                with_part_7(&scheduled(&sample), part_7),
                counted_with(part_7, &sample, vec![3; n]),
            ] {
                refused_by_every_job(&sheet, 24);
            }
        }
    }
}

#[test]
fn every_value_of_part_7() {
    let mut numbers = Tally::default();
    for sample in [&P1[..], &DIAGONAL, &THREE_FOUR_FIVE, &P5, &[]] {
        for shaped in [Some(Disk), Some(Square)] {
            for beyond in [Beyond::shaped(shaped), Beyond::shaped(shaped).counted()] {
                let mut sheet = beyond.scheduled(sample);
                for value in 0..=255 {
                    *sheet.last_mut().unwrap() = value;
                    let number = check(&sheet);
                    assert_eq!(number == 24, ![1, 2].contains(&value));
                    numbers.add(number);
                }
            }
        }
    }
    numbers.assert_reached([0, 8, 24], 5);
}

#[test]
fn part_7_is_asked_after_7_19_and_21_and_before_8_9_and_23() {
    let (part_1, part_2) = (write_marks(&P1), write_records(&[Record::NEVER; 4]));
    let part_3 = write_tree(&tree::build(&P1, &[Record::NEVER; 4]));
    let (no_records, no_tree) = ([0; 56], [0; 8]);
    let beyond = write_popups(&[0, 0, 0, 65_537]);
    let mut numbers = Tally::default();
    let shapes = [&[1][..], &[2]].into_iter().chain(NO_SHAPES);
    for (part_7, no_24) in shapes.map(|it| (it, Shape::read(it).is_none())) {
        for (part_5, no_21) in [(&[0; 16][..], false), (&beyond, true)] {
            for (part_4, no_19) in [(&[2][..], false), (&[0], true)] {
                for (records, no_7, no_8) in [
                    (&part_2[..], false, false),
                    (&no_records, false, true),
                    (&part_2[1..], true, true),
                ] {
                    for (tree, no_9) in [(&part_3[..], false), (&no_tree, true)] {
                        let before = [(7, no_7), (19, no_19), (21, no_21)];
                        let after = [(24, no_24), (8, no_8), (9, no_9), (23, true)];
                        let all = [&part_1, records, tree, part_4, part_5, &[], part_7];
                        let expected = first_no(&[&before[..], &after].concat());
                        assert_eq!(check(&join(&all)), expected);
                        numbers.add(expected);
                        // Without the parts in between, and without an index.
                        let parts = [(1, &part_1[..]), (2, records), (7, part_7)];
                        let questions = [(7, no_7), (24, no_24), (8, no_8)];
                        assert_eq!(check(&join_parts(&parts)), first_no(&questions));
                    }
                }
            }
        }
    }
    numbers.assert_reached([7, 8, 9, 19, 21, 23, 24], 1);
}

#[test]
fn question_24_comes_before_those_of_a_view_and_of_changes() {
    let sample = marks(Layout::Line, 4_096, 5);
    let full = three_parts(&sample, &vec![Record::NEVER; 4_096]);
    for sheet in [&full, &one_part(&sample)] {
        refused_by_every_job(&with_part_7(sheet, &[3]), 24);
    }
    // Once it is answered with yes, the others are asked.
    let shaped = with_part_7(&full, &[2]);
    let refused = |number| Err::<Vec<u8>, u32>(number);
    schedule_in(&shaped, [0, 0], add(P1[0], 0), &refused(18));
    schedule_in(&shaped, [0, 0], take_out(4_096), &refused(17));
    let viewed = rollmap::view(&shaped, OUTSIDE, &mut []);
    assert_eq!(viewed, Err(Refusal::Window));
    assert_eq!(rollmap::judge(&shaped), Err(Refusal::Judgement));
}

// ---- views

#[test]
fn many_small_sheets_are_viewed() {
    let mut generator = Generator::new(169);
    let (mut partly, mut otherwise) = (0, 0);
    for _ in 0..6_000 {
        let sample = some_marks(&mut generator);
        let beyond = draw_squares(&mut generator, &sample);
        let records = some_records(&mut generator, beyond.reel(&sample));
        let scheduled = Scheduled::with(beyond, sample, &records);
        for _ in 0..4 {
            let asked = scheduled.some_view(&mut generator, Turn::None);
            let count = scheduled.view(asked);
            partly += usize::from(count > 0 && (count as usize) < scheduled.marks.len());
            // Disks would not reach all of these.
            let reel = scheduled.beyond.reel(&scheduled.marks).with_shape(Disk);
            let k = in_64ths(asked.zoom);
            let disks = map_and_count(reel, &scheduled.removals, window(asked), k);
            assert!(disks.1 <= count);
            otherwise += usize::from(disks.1 < count);
        }
    }
    assert!(partly > 2_000 && otherwise > 500, "{partly} {otherwise}");
}

#[test]
fn larger_sheets_ours_and_foreign() {
    let mut generator = Generator::new(170);
    for (layout, n) in Layout::ALL
        .into_iter()
        .flat_map(|layout| [63, 64, 65, 200, 777].map(|n| (layout, n)))
    {
        let sample = marks(layout, n, n as u64);
        for beyond in [squares(), draw_squares(&mut generator, &sample)] {
            view_ours_and_foreign(&mut generator, &beyond, &sample, &[Turn::None], 20);
        }
    }
}

#[test]
fn the_largest_sheets_are_viewed() {
    let mut generator = Generator::new(171);
    for layout in Layout::ALL {
        let sample = marks(layout, 4_096, 8);
        let beyond = draw_squares(&mut generator, &sample);
        let records = foreign_records(&mut generator, beyond.reel(&sample));
        let scheduled = Scheduled::with(beyond, sample, &records);
        scheduled.some_views(&mut generator, Turn::None, 40);
        assert_view(&scheduled.sheet, WHOLE, 511, &Err(13));
    }
}

#[test]
fn squares_that_just_reach_the_rectangle_and_that_just_miss_it() {
    let mut generator = Generator::new(172);
    let mut corner = 0;
    let visit = |mark: &Mark, asked: View, shown| {
        let k = in_64ths(asked.zoom);
        corner += usize::from(shown && !reaches(Disk, mark, window(asked), k));
    };
    let [reached, ..] = each_beside_a_label(&mut generator, &squares(), 10, &[Turn::None], visit);
    assert!(reached.iter().all(|&n| n > 1_000), "{reached:?}");
    assert!(corner > 1_000, "{corner}");
}

#[test]
fn every_stop_and_its_wheel_value() {
    let mut generator = Generator::new(173);
    for layout in Layout::ALL {
        for n in [1, 9, 40] {
            let sample = marks(layout, n, 2);
            let sheet = draw_squares(&mut generator, &sample).scheduled(&sample);
            let length = n.div_ceil(8);
            for stop in 0..=255 {
                let asked = View::whole(Zoom::Stop(stop));
                let number = view(&sheet, asked, length);
                assert_eq!(number, if stop <= 16 { 0 } else { 12 });
                if stop > 16 {
                    continue;
                }
                let by_stop = rollmap::view_to_map(&sheet, asked);
                let by_wheel = rollmap::view_to_map(&sheet, View::whole(wheel(1 << stop)));
                assert_eq!(by_stop, by_wheel);
            }
            assert_view(&sheet, WHOLE, length - 1, &Err(13));
        }
    }
}

// ---- turns

#[test]
fn squares_take_no_turn_and_disks_all() {
    let mut generator = Generator::new(174);
    let mut numbers = Tally::default();
    for _ in 0..1_000 {
        let sample = some_marks(&mut generator);
        let drawn = Beyond::draw(&mut generator, &sample);
        for shaped in SHAPED {
            let beyond = drawn.clone().with_shape(shaped);
            let records = schedule_in_rank_order(beyond.reel(&sample));
            let scheduled = Scheduled::with(beyond, sample.clone(), &records);
            for turn in Turn::ALL {
                let asked = scheduled.some_view(&mut generator, turn);
                let needed = sample.len().div_ceil(8);
                let refused = shaped == Some(Square) && turn != Turn::None;
                for room in [needed, needed.saturating_sub(1)] {
                    let expected = first_no(&[(20, refused), (13, room < needed)]);
                    assert_eq!(view(&scheduled.sheet, asked, room), expected);
                    numbers.add(expected);
                }
            }
        }
    }
    numbers.assert_reached([0, 13, 20], 1_000);
}

#[test]
fn a_turned_view_of_squares_gets_20_after_10_and_before_11() {
    let crossed = |turn| View {
        x0: 1,
        x1: 0,
        zoom: Zoom::Stop(17),
        turn,
        ..WHOLE
    };
    for sample in [&P1[..], &P1[..1], &[]] {
        for (shaped, turn) in SHAPED
            .into_iter()
            .flat_map(|shaped| Turn::ALL.map(|turn| (shaped, turn)))
        {
            let beyond = Beyond::shaped(shaped);
            let turned = shaped == Some(Square) && turn != Turn::None;
            let expected = if turned { 20 } else { 11 };
            assert_eq!(view(&beyond.bare(sample), crossed(turn), 0), 10);
            assert_eq!(view(&beyond.scheduled(sample), crossed(turn), 0), expected);
            let counted = beyond.counted();
            assert_eq!(view(&counted.bare(sample), crossed(turn), 0), 10);
            assert_eq!(view(&counted.scheduled(sample), crossed(turn), 0), expected);
        }
    }
}

// ---- marks that come and go

#[test]
fn marks_come_and_go_and_their_shape_stays() {
    let mut generator = Generator::new(175);
    for round in 0..1_500 {
        let n = 1 + generator.below(24) as usize;
        let sample = match round % 2 {
            0 => rivals(&mut generator, n),
            _ => marks(generator.choose(&Layout::ALL), n, round),
        };
        let m = generator.below(n as u32) as usize;
        let beyond = Beyond::draw(&mut generator, &sample);
        come_and_go(&beyond.with_shape(SHAPED[round as usize % 3]), &sample, m);
    }
    for n in [192, 256, 700, 4_096] {
        let sample = rivals(&mut generator, n);
        let beyond = draw_squares(&mut generator, &sample);
        come_and_go(&beyond, &sample, n / 2);
    }
}

#[test]
fn a_scheduled_sheet_comes_back_byte_for_byte() {
    let mut generator = Generator::new(176);
    for _ in 0..1_500 {
        let n = generator.below(20) as usize;
        let sample = rivals(&mut generator, n);
        let beyond = draw_squares(&mut generator, &sample);
        let sheet = beyond.scheduled_here(&sample);
        let new = marks(generator.choose(&Layout::ALL), 1, generator.draw())[0];
        let more = rollmap::add_to_vec(&sheet, bound(&new), NO_POPUP).unwrap();
        assert_eq!(rollmap::part(&more, Code::Shape), Some(&[2][..]));
        assert_eq!(rollmap::take_out_to_vec(&more, n as u32), Ok(sheet));
    }
}

#[test]
fn the_buffers_of_its_own_have_room_for_part_7() {
    for (named, shaped) in NAMED
        .into_iter()
        .flat_map(|named| SHAPED.map(|shaped| (named, shaped)))
    {
        for popups in [None, Some(vec![64, 65_536])] {
            let beyond = Beyond::uncounted(named, popups).with_shape(shaped);
            come_in_buffers_of_its_own(&beyond, &THREE_FOUR_FIVE);
            come_in_buffers_of_its_own(&beyond.counted(), &THREE_FOUR_FIVE);
        }
    }
}

// ---- counting

#[test]
fn counting_puts_part_6_before_part_7() {
    let mut generator = Generator::new(177);
    for round in 0..1_500 {
        let sample = some_marks(&mut generator);
        let drawn = Beyond::draw(&mut generator, &sample);
        let beyond = Beyond {
            counted: false,
            shaped: SHAPED[round % 3],
            ..drawn
        };
        let records = some_records(&mut generator, beyond.reel(&sample));
        let sheet = beyond.with_records(&sample, &records);
        let counted = beyond.counted().with_records(&sample, &records);
        assert_eq!(counted.len(), sheet.len() + COUNTED_BYTES);
        let needed = counted.len();
        for given in [&sheet, &counted] {
            write_in(rollmap::count, given, needed, 1, &Ok(&counted));
            write_in(rollmap::count, given, needed + 9, 2, &Ok(&counted));
            let short = &Err::<Vec<u8>, _>(13);
            write_in(rollmap::count, given, needed - 1, 3, short);
        }
        let made = rollmap::count_to_vec(&sheet);
        assert_made(&sheet, made, &Ok(counted.clone()));
        // Part 7 stands behind it, and part 2 is enough.
        let codes = split(&counted).unwrap().present();
        assert!(codes.is_sorted_by_key(|&(code, _)| code));
        let mut unindexed = codes.clone();
        unindexed.retain(|&(code, _)| code != 3);
        let mut uncounted = unindexed.clone();
        uncounted.retain(|&(code, _)| code != 6);
        let made = rollmap::count_to_vec(&join_parts(&uncounted));
        assert_eq!(made, Ok(join_parts(&unindexed)));
    }
}

#[test]
fn counts_go_by_the_sheets_own_schedule_of_its_shape() {
    // As squares the second mark is gone at stop 7, where 64 times the zoom is 128.
    let notes = |shape| {
        let sheet = Beyond::shaped(Some(shape)).scheduled_here(&THREE_FOUR_FIVE);
        let counts = rollmap::counts(&rollmap::count_to_vec(&sheet).unwrap()).unwrap();
        [6, 7, 8].map(|stop| counts.at(stop).unwrap()[0])
    };
    assert_eq!(notes(Disk), [2, 2, 1]);
    assert_eq!(notes(Square), [2, 1, 1]);
    // Counts by the schedule of the other shape are refused.
    let [disks, squares] = Shape::ALL.map(|shape| {
        let beyond = Beyond::shaped(Some(shape)).counted();
        beyond.scheduled(&THREE_FOUR_FIVE)
    });
    let part_6 = split(&disks).unwrap().get(6).unwrap();
    let mut parts = split(&squares).unwrap().present();
    parts.retain(|&(code, _)| code != 6);
    let exchanged = with_part(&join_parts(&parts), 6, part_6);
    refused_by_every_job(&exchanged, 23);
}

// ---- judging

#[test]
fn the_judge_goes_by_the_shape() {
    let mut generator = Generator::new(178);
    let mut numbers = Tally::default();
    for round in 0..3_000 {
        let n = 1 + generator.below(10) as usize;
        let sample = match round % 2 {
            0 => tied_marks(&mut generator, n),
            _ => marks(generator.choose(&Layout::ALL), n, round),
        };
        let [one, other] = Shape::ALL.map(|shape| {
            let drawn = popups(Popups::Touching, &sample, round);
            let popups = (round % 3 == 0).then_some(drawn);
            Beyond::uncounted(None, popups).with_shape(Some(shape))
        });
        let records = some_records(&mut generator, one.reel(&sample));
        for beyond in [one, other] {
            let sheet = beyond.with_records(&sample, &records);
            let judged = number(&rollmap::judge(&sheet));
            let expected = oracle::judge::judge(&sheet).err().unwrap_or(0);
            assert_eq!(judged, expected, "{sheet:02x?}");
            let ours = rollmap::schedule_to_vec(&sheet).is_ok_and(|ours| ours == sheet);
            assert_eq!(judged == 0, ours);
            numbers.add(judged);
        }
    }
    numbers.assert_reached([0, 8, 22], 500);
}

#[test]
fn the_largest_sheets_of_squares_are_judged() {
    for layout in Layout::ALL {
        let sample = marks(layout, 4_096, 12);
        let sheet = squares().scheduled_here(&sample);
        assert_eq!(rollmap::judge(&sheet), Ok(()), "{layout:?}");
        // And refused where one mark stays that goes.
        let mut records = records(&sheet);
        let gone = records.iter().position(|&record| record != Record::NEVER);
        records[gone.expect("somebody goes")] = Record::NEVER;
        let foreign = squares().with_records(&sample, &records);
        let judged = rollmap::judge(&foreign);
        assert_eq!(judged, Err(Refusal::Judgement), "{layout:?}");
    }
}

// ---- all parts

#[test]
fn part_7_needs_no_other_part_but_1() {
    let part_5 = write_popups(&[0; 4]);
    let part_1 = write_marks(&P1);
    for further in [
        &[][..],
        &[(4, &[1][..])],
        &[(5, &part_5)],
        &[(4, &[2]), (5, &part_5)],
    ] {
        let mut parts = vec![(1, &part_1[..])];
        parts.extend(further);
        parts.push((7, &[2]));
        let sheet = join_parts(&parts);
        assert_eq!(check(&sheet), 0);
        let scheduled = rollmap::schedule_to_vec(&sheet).unwrap();
        assert_eq!(rollmap::part(&scheduled, Code::Shape), Some(&[2][..]));
    }
    // It does not stand in for part 1, nor part 2 for 3 and 6.
    for parts in [
        &[(7, &[2][..])][..],
        &[(1, &part_1), (3, &[0; 8]), (7, &[2])],
        &[(1, &part_1), (6, &[0; 170]), (7, &[2])],
        &[(1, &part_1), (7, &[2]), (7, &[2])],
        &[(1, &part_1), (7, &[2]), (8, &[2])],
    ] {
        assert_eq!(check(&join_parts(parts)), 2);
    }
}

#[test]
fn every_view_of_a_sheet_goes_by_its_own_bytes() {
    let mut generator = Generator::new(179);
    for _ in 0..500 {
        let sample = some_marks(&mut generator);
        let popups = popups(Popups::Any, &sample, 1);
        for part_7 in [[1], [2]] {
            let sheet = with_part_7(&with_popups(&one_part(&sample), &popups), &part_7);
            let sheet = rollmap::schedule_to_vec(&sheet).unwrap();
            let asked = View {
                zoom: some_zoom(&mut generator),
                ..WHOLE
            };
            let map = rollmap::view_to_map(&sheet, asked).unwrap();
            let expected = oracle::view::view(&sheet, window(asked), zoom(asked), 5).unwrap();
            assert_eq!((map.as_bytes(), map.count()), (&expected.0[..], expected.1));
        }
    }
}
