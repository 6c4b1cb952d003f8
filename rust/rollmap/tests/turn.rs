//! Turned views, compared with the oracle, which turns every mark; and the guarantee on
//! turned marks. Turns that there are not are asked for in C (`every_turn_through_c`).

mod common;

use common::views::{
    anywhere, assert_view, each_beside_a_label, some_edge, some_zoom, view, view_ours_and_foreign,
    wheel, window, zoom, Scheduled, WHOLE,
};
use common::{
    foreign_records, number, rivals, scheduled, some_marks, some_records, some_sheet, Beyond, Lent,
    Tally, NAMED,
};
use oracle::map::{is_set, map_bytes};
use oracle::mark::{read_marks, write_marks, Mark};
use oracle::process::schedule_in_rank_order;
use oracle::record::Record;
use oracle::sample::{marks, popups, refused_sheets, Generator, Layout, Popups, P1};
use oracle::turn::{turned, turned_marks};
use rollmap::{Code, Refusal, Turn, View, Zoom, FARTHEST_EDGE};

/// The view of all places with this turn, at stop 0.
const fn whole(turn: Turn) -> View {
    View { turn, ..WHOLE }
}

/// The view of one turned place at stop 0.
const fn at_place(x: i32, y: i32, turn: Turn) -> View {
    View {
        x0: x,
        x1: x,
        y0: y,
        y1: y,
        turn,
        zoom: Zoom::Stop(0),
    }
}

#[test]
fn turns_are_the_oracles() {
    let coordinates = [i16::MIN, i16::MIN + 1, -300, -1, 0, 1, 7, i16::MAX];
    for turn in Turn::ALL {
        for (x, y) in coordinates
            .into_iter()
            .flat_map(|x| coordinates.map(|y| (x, y)))
        {
            let expected = turned(turn.quarters(), x.into(), y.into());
            assert_eq!(turn.turned(x, y), expected);
        }
    }
}

// ---- views that are taken

#[test]
fn proved_examples_with_every_turn() {
    let sheet = scheduled(&P1);
    for (turn, [x0, x1, y0, y1]) in [
        (Turn::None, [50, 250, -10, 10]),
        (Turn::Quarter, [-10, 10, 50, 250]),
        (Turn::Half, [-250, -50, -10, 10]),
        (Turn::ThreeQuarters, [-10, 10, -250, -50]),
    ] {
        let at = |turn, wheel| View {
            x0,
            x1,
            y0,
            y1,
            turn,
            zoom: Zoom::Wheel(wheel),
        };
        assert_view(&sheet, at(turn, 1.0), 1, &Ok((vec![0x06], 2)));
        assert_view(&sheet, at(turn, 5.0), 1, &Ok((vec![0x05], 2)));
        // Turned the other way, the marks lie on the other side.
        let other = turn.then(Turn::Half);
        assert_view(&sheet, at(other, 1.0), 1, &Ok((vec![0x00], 0)));
    }
}

#[test]
fn every_mark_is_at_its_turned_place() {
    for layout in Layout::ALL {
        let sample = marks(layout, 60, 21);
        let never = Scheduled::new(sample, &[Record::NEVER; 60]);
        for (number, mark) in never.marks.iter().enumerate() {
            for turn in Turn::ALL {
                let (x, y) = turn.turned(mark.x, mark.y);
                let asked = at_place(x, y, turn);
                never.view(asked);
                assert!(is_set(&never.expected(asked).0, number));
                never.view(at_place(-x, -y, turn));
                never.view(whole(turn));
            }
        }
    }
}

#[test]
fn many_small_sheets() {
    let mut generator = Generator::new(91);
    let mut partly = [0; 4];
    for _ in 0..5_000 {
        let sample = some_marks(&mut generator);
        let beyond = Beyond::draw_disks(&mut generator, &sample);
        let records = some_records(&mut generator, beyond.reel(&sample));
        let scheduled = Scheduled::with(beyond, sample, &records);
        for turn in Turn::ALL {
            let asked = scheduled.some_view(&mut generator, turn);
            let count = scheduled.view(asked) as usize;
            let some = 0 < count && count < scheduled.marks.len();
            partly[usize::from(turn.quarters())] += usize::from(some);
            let needed = map_bytes(scheduled.marks.len());
            if let Some(short) = needed.checked_sub(1) {
                assert_view(&scheduled.sheet, asked, short, &Err(13));
            }
        }
    }
    assert!(partly.iter().all(|&views| views > 500), "{partly:?}");
}

#[test]
fn larger_sheets_ours_and_foreign() {
    let mut generator = Generator::new(92);
    for layout in Layout::ALL {
        for n in [64, 65, 300] {
            let sample = marks(layout, n, n as u64);
            let beyond = Beyond::default();
            view_ours_and_foreign(&mut generator, &beyond, &sample, &Turn::ALL, 12);
        }
    }
}

#[test]
fn the_largest_sheets() {
    let mut generator = Generator::new(93);
    for layout in Layout::ALL {
        let sample = marks(layout, 4_096, 22);
        let beyond = Beyond::popping_up(popups(Popups::Few, &sample, 22));
        let records = foreign_records(&mut generator, beyond.reel(&sample));
        let scheduled = Scheduled::with(beyond, sample, &records);
        for turn in Turn::ALL {
            scheduled.some_views(&mut generator, turn, 8);
            assert_view(&scheduled.sheet, whole(turn), 511, &Err(13));
        }
    }
}

#[test]
fn disks_that_just_reach_the_rectangle_and_that_just_miss_it() {
    let mut generator = Generator::new(94);
    let beyond = Beyond::default();
    let reached = each_beside_a_label(&mut generator, &beyond, 23, &Turn::ALL, |_, _, _| ());
    let mut numbers = reached.as_flattened().iter();
    assert!(numbers.all(|&n| n > 250), "{reached:?}");
}

#[test]
fn a_stop_and_its_wheel_value_give_the_same_with_every_turn() {
    let mut generator = Generator::new(95);
    let mut numbers = Tally::default();
    for _ in 0..2_000 {
        let sheet = some_sheet(&mut generator);
        let turn = generator.choose(&Turn::ALL);
        let (small, far) = (anywhere(&mut generator, turn), whole(turn));
        let beyond = View {
            y0: -FARTHEST_EDGE - 1,
            ..far
        };
        let asked = generator.choose(&[small, far, far, beyond]);
        for stop in 0..=16 {
            let answered = |zoom| {
                let mut map = Lent::new(6, stop);
                let answer = rollmap::view(&sheet, View { zoom, ..asked }, map.slice());
                (answer, map.slice().to_vec())
            };
            let by_stop = answered(Zoom::Stop(stop as u8));
            assert_eq!(by_stop, answered(wheel(1 << stop)));
            numbers.add(number(&by_stop.0));
        }
    }
    numbers.assert_reached((0..=10).chain([19, 20, 21, 23, 24]), 100);
}

// ---- what is refused

#[test]
fn edges_at_the_ends_of_their_range_and_beyond() {
    let taken = [-32_768, -32_767, -1, 0, 1, 32_767, 32_768];
    let beyond = [-32_769, 32_769, 65_535, 65_536, -65_536, i32::MAX, i32::MIN];
    let sheets = [
        scheduled(&P1),
        scheduled(&[]),
        scheduled(&marks(Layout::Extreme, 8, 24)),
    ];
    let set = |at: usize, edge: i32, turn| {
        let mut edges = [-32_768, 32_768, -32_768, 32_768];
        edges[at] = edge;
        let [x0, x1, y0, y1] = edges;
        View {
            x0,
            x1,
            y0,
            y1,
            ..whole(turn)
        }
    };
    for (sheet, turn) in sheets
        .iter()
        .flat_map(|sheet| Turn::ALL.map(|turn| (sheet, turn)))
    {
        for at in 0..4 {
            for edge in taken {
                assert_eq!(view(sheet, set(at, edge, turn), 1), 0);
            }
            for edge in beyond {
                assert_eq!(view(sheet, set(at, edge, turn), 1), 20);
            }
        }
    }
}

#[test]
fn every_edge_about_the_ends_of_the_range() {
    let sample = [i16::MIN, i16::MIN + 1, i16::MAX].map(|x| Mark::plain(x, x, 1, 0));
    let sheet = Scheduled::new(sample.to_vec(), &[Record::NEVER; 3]).sheet;
    let ends = [-32_769_i32, -32_768, -32_767, 32_767, 32_768, 32_769];
    let pairs = || ends.into_iter().flat_map(|a| ends.map(|b| (a, b)));
    let mut numbers = Tally::default();
    for ((x0, x1), (y0, y1)) in pairs().flat_map(|x| pairs().map(move |y| (x, y))) {
        let within = [x0, x1, y0, y1].iter().all(|edge| edge.abs() <= 32_768);
        let expected = if !within {
            20
        } else if x0 > x1 || y0 > y1 {
            11
        } else {
            0
        };
        for turn in Turn::ALL {
            let asked = View {
                x0,
                x1,
                y0,
                y1,
                ..whole(turn)
            };
            assert_eq!(view(&sheet, asked, 1), expected);
            numbers.add(expected);
        }
    }
    numbers.assert_reached([0, 11, 20], 300);
}

#[test]
fn a_place_that_is_turned_to_32_768_is_shown_there() {
    // One map unit is 64 pixels: no disk of radius 1 reaches the next place.
    let corner = scheduled(&[Mark::plain(i16::MIN, i16::MIN, 1, 0)]);
    for (turn, x, y) in [
        (Turn::None, -32_768, -32_768),
        (Turn::Quarter, 32_768, -32_768),
        (Turn::Half, 32_768, 32_768),
        (Turn::ThreeQuarters, -32_768, 32_768),
    ] {
        let count = |view| rollmap::view_to_map(&corner, view).map(|map| map.count());
        assert_eq!(count(at_place(x, y, turn)), Ok(1));
        assert_eq!(count(whole(turn)), Ok(1));
        assert_eq!(count(at_place(x - x.signum(), y, turn)), Ok(0));
        assert_eq!(count(at_place(x, y - y.signum(), turn)), Ok(0));
        assert_eq!(
            count(at_place(x + x.signum(), y, turn)),
            Err(Refusal::Window)
        );
        assert_eq!(
            count(at_place(x, y + y.signum(), turn)),
            Err(Refusal::Window)
        );
    }
}

#[test]
fn a_refused_sheet_gets_its_number_before_20() {
    let beyond = |turn| View {
        x0: FARTHEST_EDGE + 1,
        x1: 0,
        zoom: Zoom::Stop(17),
        ..whole(turn)
    };
    for (expected, sheet) in refused_sheets() {
        for turn in Turn::ALL {
            assert_eq!(view(&sheet, beyond(turn), 0), expected);
        }
    }
    let mut generator = Generator::new(96);
    let mut numbers = Tally::default();
    for _ in 0..6_000 {
        let sheet = some_sheet(&mut generator);
        let turn = generator.choose(&Turn::ALL);
        let asked = generator.choose(&[beyond(turn), whole(turn)]);
        numbers.add(view(&sheet, asked, generator.choose(&[0, 1, 6, 6])));
    }
    numbers.assert_reached((0..=10).chain([13, 19, 20, 21, 23, 24]), 20);
}

// ---- the guarantee on turned marks

/// The sheet with its marks turned and its parts beyond 3 but the counts carried along, put
/// together and scheduled by the library; none where a turned place does not fit.
fn turned_sheet(sheet: &[u8], turn: Turn) -> Option<Vec<u8>> {
    let marks = read_marks(rollmap::part(sheet, Code::Marks).unwrap());
    let part_1 = write_marks(&turned_marks(turn.quarters(), &marks)?);
    let mut parts = vec![(Code::Marks, part_1.as_slice())];
    let carried = [Code::Edition, Code::Popups, Code::Shape].iter();
    parts.extend(carried.filter_map(|&code| Some((code, rollmap::part(sheet, code)?))));
    let together = rollmap::assemble_to_vec(&parts).unwrap();
    Some(rollmap::schedule_to_vec(&together).unwrap())
}

/// Answers a view of a sheet in a map of so many bytes: the answer, and all bytes of the
/// map, of which none around it was written.
fn answered(sheet: &[u8], view: View, map_length: usize) -> (Result<u32, Refusal>, Vec<u8>) {
    let mut map = Lent::new(map_length, 5);
    let answer = rollmap::view(sheet, view, map.slice());
    map.assert_untouched_around();
    (answer, map.slice().to_vec())
}

/// A view of these marks with a turn, most often one that is taken.
fn some_asked(generator: &mut Generator, scheduled: &Scheduled, turn: Turn) -> View {
    let mut asked = scheduled.some_view(generator, turn);
    match generator.below(16) {
        0 => asked.x1 = FARTHEST_EDGE + 1,
        1 => asked.y0 = asked.y1 + 1,
        2 => asked.zoom = Zoom::Stop(17),
        3 => asked.zoom = Zoom::Wheel(0.3),
        4 => (asked.x0, asked.x1) = (some_edge(generator), some_edge(generator)),
        _ => {}
    }
    asked
}

#[test]
fn a_turned_view_is_the_view_of_the_turned_marks() {
    let mut generator = Generator::new(97);
    let mut numbers = Tally::default();
    let mut partly = [0; 4];
    for round in 0..1_000 {
        let sample = match round % 3 {
            0 => some_marks(&mut generator),
            1 => rivals(&mut generator, 12),
            _ => marks(generator.choose(&Layout::ALL), 30, round),
        };
        let beyond = Beyond::draw_disks(&mut generator, &sample);
        let sheet = beyond.scheduled_here(&sample);
        let records = oracle::sheet::open(&sheet).unwrap().records.unwrap();
        let scheduled = Scheduled::with(beyond, sample, &records);
        let n = scheduled.marks.len();
        for turn in Turn::ALL {
            let Some(other) = turned_sheet(&sheet, turn) else {
                continue;
            };
            for _ in 0..6 {
                let asked = some_asked(&mut generator, &scheduled, turn);
                let room = generator.choose(&[0, 1, 1, 1, 1, 1, 1, 4]) + map_bytes(n);
                let room = room.saturating_sub(1);
                let unturned = View {
                    turn: Turn::None,
                    ..asked
                };
                let ours = answered(&sheet, asked, room);
                assert_eq!(ours, answered(&other, unturned, room), "{asked:?}");
                let count = ours.0.unwrap_or(0) as usize;
                let some = 0 < count && count < n;
                partly[usize::from(turn.quarters())] += usize::from(some);
                numbers.add(number(&ours.0));
            }
        }
    }
    numbers.assert_reached([0, 11, 12, 13, 20], 500);
    assert!(partly.iter().all(|&views| views > 300), "{partly:?}");
}

#[test]
fn larger_reels_of_both_editions_and_with_popups_turned() {
    let mut generator = Generator::new(98);
    for layout in Layout::ALL {
        let mut sample = marks(layout, 700, 26);
        sample.iter_mut().for_each(|mark| mark.priority &= 3);
        let popping_up = Beyond::popping_up(popups(Popups::Any, &sample, 26));
        for beyond in NAMED.map(Beyond::named).into_iter().chain([popping_up]) {
            let sheet = beyond.scheduled_here(&sample);
            let records = oracle::sheet::open(&sheet).unwrap().records.unwrap();
            let scheduled = Scheduled::with(beyond, sample.clone(), &records);
            for turn in Turn::ALL {
                let Some(other) = turned_sheet(&sheet, turn) else {
                    continue;
                };
                let schedule = |sheet| rollmap::part(sheet, Code::Schedule);
                assert_eq!(schedule(&sheet), schedule(&other));
                for _ in 0..8 {
                    let asked = scheduled.some_view(&mut generator, turn);
                    let unturned = View {
                        turn: Turn::None,
                        ..asked
                    };
                    let ours = answered(&sheet, asked, 90);
                    assert_eq!(ours, answered(&other, unturned, 90));
                    assert!(ours.0.is_ok());
                }
            }
        }
    }
}

#[test]
fn marks_that_do_not_fit_are_viewed_with_the_turn_all_the_same() {
    let sample = [
        Mark::plain(i16::MIN, i16::MIN, 1, 1),
        Mark::plain(0, 0, 1, 0),
    ];
    let sheet = Beyond::default().scheduled_here(&sample);
    for turn in [Turn::Quarter, Turn::Half, Turn::ThreeQuarters] {
        assert_eq!(turned_sheet(&sheet, turn), None);
        assert_eq!(answered(&sheet, whole(turn), 1), (Ok(2), vec![0x03]));
    }
}

#[test]
fn edges_of_2_bytes_still_hold_all_places() {
    let mut generator = Generator::new(99);
    for _ in 0..1_000 {
        let sample = some_marks(&mut generator);
        let sheet = Beyond::draw_disks(&mut generator, &sample).scheduled_here(&sample);
        let asked = View {
            zoom: some_zoom(&mut generator),
            ..WHOLE
        };
        // The edges of all places as 2 bytes have them.
        let (low, high) = (i16::MIN.into(), i16::MAX.into());
        let narrow = View {
            x0: low,
            x1: high,
            y0: low,
            y1: high,
            ..asked
        };
        let map = |view| rollmap::view_to_map(&sheet, view).unwrap();
        assert_eq!(map(asked), map(narrow));
        let expected = oracle::view::view(&sheet, window(asked), zoom(asked), 5).unwrap();
        assert_eq!(map(asked).as_bytes(), expected.0);
    }
}

// ---- turns in succession

/// The marks of these places, which may be turned any number of times.
fn turnable(generator: &mut Generator) -> Vec<Mark> {
    let mut sample = some_marks(generator);
    for mark in &mut sample {
        (mark.x, mark.y) = (mark.x.max(-i16::MAX), mark.y.max(-i16::MAX));
    }
    sample
}

#[test]
fn turned_marks_viewed_with_a_turn_are_turned_in_succession() {
    let mut generator = Generator::new(100);
    for _ in 0..600 {
        let sample = turnable(&mut generator);
        let beyond = Beyond::draw_disks(&mut generator, &sample);
        let sheet = beyond.scheduled_here(&sample);
        let records = schedule_in_rank_order(beyond.reel(&sample));
        let scheduled = Scheduled::with(beyond, sample.clone(), &records);
        for (first, next) in Turn::ALL
            .into_iter()
            .flat_map(|first| Turn::ALL.map(|next| (first, next)))
        {
            let turned = turned_sheet(&sheet, first).expect("the places fit");
            let both = scheduled.some_view(&mut generator, first.then(next));
            let rest = View { turn: next, ..both };
            let room = map_bytes(sample.len());
            assert_eq!(answered(&sheet, both, room), answered(&turned, rest, room));
        }
    }
}

#[test]
fn four_quarter_turns_give_the_sheet_back() {
    let mut generator = Generator::new(101);
    for _ in 0..300 {
        let sample = turnable(&mut generator);
        let sheet = Beyond::draw_disks(&mut generator, &sample).scheduled_here(&sample);
        let quarter =
            |sheet: Vec<u8>, _| turned_sheet(&sheet, Turn::Quarter).expect("the places fit");
        let half = turned_sheet(&sheet, Turn::Half).expect("the places fit");
        assert_eq!((0..2).fold(sheet.clone(), quarter), half);
        let mut four = (0..4).fold(sheet.clone(), quarter);
        // The counts are not carried along, but are those that the marks had.
        if rollmap::part(&sheet, Code::Counts).is_some() {
            four = rollmap::count_to_vec(&four).unwrap();
        }
        assert_eq!(four, sheet);
    }
}
