//! What is raced against the library does the same jobs: all it answers and writes is
//! the oracle's.

use oracle::judge::judge;
use oracle::label::Label;
use oracle::map::map_bytes;
use oracle::mark::{write_marks, Mark};
use oracle::popup::write_popups;
use oracle::process::schedule_in_rank_order;
use oracle::rank::Edition;
use oracle::record::{write_records, Record};
use oracle::reel::Reel;
use oracle::sample::{each_schedule, fitting_records, marks, popups, Generator, Layout, Popups};
use oracle::shape::Shape;
use oracle::sheet::{check, join, join_parts, split};
use oracle::tree;
use oracle::view::{Edges, Window};
use oracle::zoom::Zoom;
use oracle::Refusal;

use super::columns::{from_columns, to_columns};
use super::count::count;
use super::schedule::Desk;
use super::sheet::open;
use super::view::{turned_back, view, walk};

/// The sheet of one part with these marks, and the scheduled one.
fn sheets(marks: &[Mark]) -> [Vec<u8>; 2] {
    sheets_of(Edition::First.reel(marks))
}

/// The sheets of a reel's marks without parts beyond 3.
fn sheets_of(reel: Reel) -> [Vec<u8>; 2] {
    let records = schedule_in_rank_order(reel);
    let bare = join(&[&write_marks(reel.marks)]);
    [bare, three_parts(reel.marks, &records)]
}

/// The sheet of three parts with these marks and records.
fn three_parts(marks: &[Mark], records: &[Record]) -> Vec<u8> {
    let part_3 = tree::write_tree(&tree::build(marks, records));
    join(&[&write_marks(marks), &write_records(records), &part_3])
}

/// The same with a part 4 that names the edition, a part 5 where the reel has popups, and a
/// part 7 where its labels are squares.
fn whole_sheets(reel: Reel) -> [Vec<u8>; 2] {
    sheets_of(reel).map(|sheet| with_kept(&sheet, reel))
}

/// The sheet with a part 4 that names the reel's edition, a part 5 where it has popups, and a
/// part 7 where its labels are squares.
fn with_kept(sheet: &[u8], reel: Reel) -> Vec<u8> {
    let (part_4, part_5) = (reel.edition.write(), reel.popups.map(write_popups));
    let part_7 = reel.shape.write();
    let mut parts = split(sheet).unwrap().present();
    parts.push((4, &part_4));
    parts.extend(part_5.as_ref().map(|part_5| (5, part_5.as_slice())));
    if reel.shape == Shape::Square {
        parts.push((7, &part_7));
    }
    join_parts(&parts)
}

/// The sheet, of which all parts but part 6 are accepted, with its counts.
fn with_counts(sheet: &[u8]) -> Vec<u8> {
    oracle::count::count(sheet, usize::MAX).unwrap()
}

/// The counted sheets of a reel: one in which nobody goes, and the scheduled one.
fn counted_sheets(reel: Reel) -> [Vec<u8>; 2] {
    let [_, scheduled] = whole_sheets(reel);
    let never = write_records(&vec![Record::NEVER; reel.marks.len()]);
    let foreign = join(&[&write_marks(reel.marks), &never]);
    [with_kept(&foreign, reel), scheduled].map(|sheet| with_counts(&sheet))
}

#[test]
fn every_core_writes_the_scheduled_sheet() {
    let cores = [
        Desk::schedule,
        Desk::schedule_by_cells,
        Desk::schedule_by_pairs,
    ];
    let mut desk = Desk::default();
    for layout in Layout::ALL {
        for n in [0, 1, 2, 9, 64, 159, 160, 400] {
            let mut sample = marks(layout, n, n as u64);
            let mut all = vec![sheets(&sample)];
            sample.iter_mut().for_each(|mark| mark.priority &= 1);
            all.extend(Edition::ALL.map(|edition| whole_sheets(edition.reel(&sample))));
            for how in Popups::ALL {
                let popups = popups(how, &sample, 1);
                let reel = Edition::Second.reel(&sample).with_popups(&popups);
                all.extend([whole_sheets(reel), counted_sheets(reel)]);
                let squares = reel.with_shape(Shape::Square);
                all.push(counted_sheets(squares));
            }
            let squares = Edition::First.reel(&sample).with_shape(Shape::Square);
            all.push(whole_sheets(squares));
            for ([sheet, expected], core) in all
                .iter()
                .flat_map(|sheets| cores.map(|core| (sheets, core)))
            {
                let mut out = vec![0xee; expected.len() + 1];
                assert_eq!(core(&mut desk, sheet, &mut out), Ok(expected.len()));
                assert!(out[..expected.len()] == *expected, "{layout:?} {n}");
                assert_eq!(out.last(), Some(&0xee));
                assert_eq!(core(&mut desk, sheet, &mut out[2..]), Err(13));
            }
        }
    }
}

#[test]
fn every_plan_of_cells_gives_the_scheduled_sheet() {
    let mut desk = Desk::default();
    for (layout, n) in Layout::ALL
        .into_iter()
        .flat_map(|layout| [399, 767, 768, 1_500].map(|n| (layout, n)))
    {
        let mut sample = marks(layout, n, 3);
        for _ in 0..2 {
            let [sheet, expected] = sheets(&sample);
            let mut out = vec![0xee; expected.len()];
            let written = desk.schedule_by_cells(&sheet, &mut out);
            assert_eq!(written, Ok(expected.len()));
            assert!(out == expected, "{layout:?} {n}");
            // The same on its side.
            for mark in &mut sample {
                (mark.x, mark.y) = (mark.y, mark.x);
            }
        }
    }
}

/// The number of a sheet, once the oracle is seen to give it too.
fn opened(sheet: &[u8]) -> u32 {
    let number = open(sheet).err().unwrap_or(0);
    assert_eq!(number, check(sheet), "{sheet:02x?}");
    number
}

#[test]
fn sheets_with_a_byte_changed_or_cut_short_are_refused_by_the_same_question() {
    for layout in Layout::ALL {
        let sample = marks(layout, 6, 3);
        let popups = popups(Popups::Touching, &sample, 3);
        let named = Edition::ALL.map(|edition| whole_sheets(edition.reel(&sample)));
        let reel = Edition::First.reel(&sample).with_popups(&popups);
        let popping_up = whole_sheets(reel).into_iter().chain(counted_sheets(reel));
        let squares = counted_sheets(reel.with_shape(Shape::Square));
        let others = named.concat().into_iter().chain(popping_up).chain(squares);
        for mut sheet in sheets(&sample).into_iter().chain(others) {
            assert_eq!(opened(&sheet), 0);
            for at in 0..sheet.len() {
                let own = sheet[at];
                for value in [0, 1, 2, 3, 5, 11, 64, 200, 255, own ^ 1, own ^ 128] {
                    sheet[at] = value;
                    opened(&sheet);
                }
                sheet[at] = own;
                assert_ne!(opened(&sheet[..at]), 0);
            }
            sheet.push(0);
            assert_eq!(opened(&sheet), 3);
        }
    }
}

#[test]
fn trees_with_two_numbers_exchanged_are_refused() {
    let n = 40;
    for layout in Layout::ALL {
        let [_, mut sheet] = sheets(&marks(layout, n, 4));
        let start = sheet.len() - 2 * n;
        for a in 0..n {
            for b in 0..a {
                // The numbers are below 256.
                sheet.swap(start + 2 * a, start + 2 * b);
                assert_eq!(opened(&sheet), 9);
                sheet.swap(start + 2 * a, start + 2 * b);
            }
        }
    }
}

/// Counts a sheet in so much room, and sees that the answer and every byte are the oracle's.
fn assert_counted(sheet: &[u8], room: usize) {
    let mut out = vec![0xee; room];
    let answer = count(sheet, &mut out);
    let expected = oracle::count::count(sheet, room);
    let written = expected.as_deref().unwrap_or_default();
    assert_eq!(answer, expected.as_ref().map(Vec::len).map_err(|no| *no));
    assert!(out.starts_with(written), "{sheet:02x?}");
    assert!(out[written.len()..].iter().all(|&byte| byte == 0xee));
}

#[test]
fn counts_are_the_oracles() {
    for (layout, n) in Layout::ALL
        .into_iter()
        .flat_map(|layout| [0, 1, 2, 60, 300].map(|n| (layout, n)))
    {
        let sample = marks(layout, n, 5);
        let drawn = Popups::ALL.map(|how| popups(how, &sample, 5));
        let bare = Edition::First.reel(&sample);
        let popping_up = drawn.iter().map(|popups| bare.with_popups(popups));
        let squares = bare.with_shape(Shape::Square);
        for reel in [bare, squares].into_iter().chain(popping_up) {
            let [foreign, scheduled] = counted_sheets(reel);
            let [alone, uncounted] = whole_sheets(reel);
            for sheet in [foreign, scheduled, alone, uncounted] {
                let needed = sheet.len() + 180;
                for room in [0, sheet.len() - 1, sheet.len(), needed - 1, needed + 3] {
                    assert_counted(&sheet, room);
                }
            }
        }
    }
}

#[test]
fn counts_about_each_stop_are_the_oracles() {
    // Two marks that lie d apart touch at 64 times zoom 32d / radius.
    for (d, radius) in (0..=15).flat_map(|bit| [1, 31, 32, 33].map(|radius| (1 << bit, radius))) {
        for d in [d - 1, d, d + 1].map(|d: i32| d.min(32_767) as i16) {
            let two = [Mark::plain(0, 0, radius, 1), Mark::plain(d, 0, radius, 0)];
            let [_, scheduled] = sheets(&two);
            assert_counted(&scheduled, 999);
        }
    }
    let far = [
        Mark::plain(i16::MIN, i16::MIN, 1, 1),
        Mark::plain(i16::MAX, i16::MAX, 1, 0),
    ];
    assert_counted(&sheets(&far)[1], 999);
    for popup in (0..=16).flat_map(|stop| [(1 << stop) - 1, 1 << stop, (1 << stop) + 1]) {
        let popups = [popup.min(65_536); 2];
        let reel = Edition::First.reel(&far).with_popups(&popups);
        assert_counted(&whole_sheets(reel)[1], 999);
    }
}

/// The number of a judged sheet, once the oracle is seen to give it too.
fn judged(desk: &mut Desk, sheet: &[u8]) -> u32 {
    let answer = desk.judge_by_scan(sheet);
    assert_eq!(answer, judge(sheet), "{sheet:02x?}");
    assert_eq!(answer, desk.judge_by_pairs(sheet), "{sheet:02x?}");
    answer.err().unwrap_or(0)
}

#[test]
fn the_judges_are_the_oracles() {
    let mut desk = Desk::default();
    let mut numbers = [0; 23];
    for (layout, n) in Layout::ALL
        .into_iter()
        .flat_map(|layout| [0, 1, 2, 3, 4].map(|n| (layout, n)))
    {
        let mut sample = marks(layout, n, 7);
        sample.iter_mut().for_each(|mark| mark.priority &= 1);
        let drawn = Popups::ALL.map(|how| popups(how, &sample, 7));
        for (edition, shape) in Edition::ALL
            .into_iter()
            .flat_map(|edition| Shape::ALL.map(|shape| (edition, shape)))
        {
            let reel = edition.reel(&sample).with_shape(shape);
            let popping_up = drawn.iter().map(|popups| reel.with_popups(popups));
            for reel in std::iter::once(reel).chain(popping_up) {
                each_schedule(reel, &mut |records| {
                    let sheet = with_kept(&three_parts(&sample, records), reel);
                    numbers[judged(&mut desk, &sheet) as usize] += 1;
                });
            }
        }
        let [bare, _] = sheets(&sample);
        assert_eq!(judged(&mut desk, &bare), 10);
    }
    assert!(numbers[0] > 500 && numbers[22] > 500, "{numbers:?}");
}

#[test]
fn the_judges_see_one_record_that_is_not_ours() {
    let mut desk = Desk::default();
    let mut generator = Generator::new(8);
    for layout in Layout::ALL {
        let sample = marks(layout, 90, 9);
        let drawn = popups(generator.choose(&Popups::ALL), &sample, 9);
        let bare = Edition::Second.reel(&sample);
        let squares = bare.with_shape(Shape::Square);
        for reel in [bare, bare.with_popups(&drawn), squares] {
            let ours = schedule_in_rank_order(reel);
            for _ in 0..20 {
                let m = generator.below(90) as usize;
                let mut records = ours.clone();
                records[m] = generator.choose(&fitting_records(reel, &ours, m));
                let sheet = with_kept(&three_parts(&sample, &records), reel);
                let accepted = judged(&mut desk, &sheet) == 0;
                assert_eq!(accepted, records == ours, "{layout:?} {m}");
            }
        }
    }
}

/// A small rectangle about as far from some turned mark as its label reaches at a stop, or
/// nearer; or one of which the edges are crossed. Some of them have a turn or an edge that
/// is refused.
fn some_window(generator: &mut Generator, marks: &[Mark], stop: u8) -> Window {
    let turn = generator.choose(&[0, 0, 1, 1, 2, 2, 3, 3, 4]);
    let Label { x, y, radius } = generator.choose(marks).label().turned(turn);
    let reach = (radius << stop.min(16)) / 64 + 2;
    let mut side = |place: i32| {
        let away = generator.below(reach) as i32 * generator.choose(&[1, -1]);
        let size = generator.choose(&[-1, 0, 5, 300, 300]);
        let edge = |at: i32| at.clamp(-32_769, 32_768);
        [edge(place + away), edge(place + away + size)]
    };
    let ([x0, x1], [y0, y1]) = (side(x), side(y));
    Edges { x0, x1, y0, y1 }.of_turned(turn)
}

#[test]
fn views_show_what_looking_at_every_mark_shows() {
    let mut generator = Generator::new(5);
    let numbers = [1, 9, 100, 300];
    for (layout, n) in Layout::ALL
        .into_iter()
        .flat_map(|layout| numbers.map(|n| (layout, n)))
    {
        let sample = marks(layout, n, 6);
        let [bare, sheet] = sheets(&sample);
        let drawn = [Popups::Any, Popups::Few].map(|how| popups(how, &sample, 6));
        let popping_up = drawn.map(|popups| {
            let [_, sheet] = whole_sheets(Edition::First.reel(&sample).with_popups(&popups));
            sheet
        });
        let compare = |sheet: &[u8], window, stop| {
            let zoom = Zoom::Stop(stop);
            let mut map = vec![0xee; map_bytes(n)];
            let answer = view(sheet, window, zoom, &mut map);
            let expected = oracle::view::view(sheet, window, zoom, map.len());
            assert_eq!(
                answer.map(|count| (map, count)),
                expected,
                "{layout:?} {window:?} {stop}"
            );
        };
        let squares = Edition::First.reel(&sample).with_shape(Shape::Square);
        let [_, squares] = whole_sheets(squares);
        for stop in 0..=17 {
            compare(&bare, Window::WHOLE, stop);
            for sheet in [&sheet, &squares].into_iter().chain(&popping_up) {
                compare(sheet, Window::WHOLE, stop);
                for _ in 0..30 {
                    compare(sheet, some_window(&mut generator, &sample, stop), stop);
                }
            }
        }
    }
    let [bare, empty] = sheets(&[]);
    assert_eq!(view(&bare, Window::WHOLE, Zoom::Stop(0), &mut []), Err(10));
    assert_eq!(view(&empty, Window::WHOLE, Zoom::Stop(0), &mut []), Ok(0));
}

#[test]
fn a_window_is_turned_back_to_the_places_that_it_shows() {
    let edges = Edges {
        x0: -7,
        x1: 2,
        y0: 1,
        y1: 5,
    };
    for turn in 0..=3 {
        let window = edges.of_turned(turn);
        let unturned = turned_back(window).unturned();
        for (x, y) in (-9..=9).flat_map(|x| (-9..=9).map(move |y| (x, y))) {
            let mark = Mark::plain(x, y, 1, 0);
            let reaches = |window| oracle::view::reaches(Shape::Disk, &mark, window, 1);
            assert_eq!(reaches(unturned), reaches(window));
        }
    }
}

#[test]
fn walks_hand_out_the_set_bits() {
    let mut generator = Generator::new(7);
    for _ in 0..300 {
        let bytes = generator.below(30) as usize;
        let map: Vec<u8> = (0..bytes)
            .map(|_| (generator.draw() & generator.draw() & generator.draw()) as u8)
            .collect();
        let n = generator.below(8 * bytes as u32 + 1);
        for start in 0..=n {
            let found = walk(&map, n as usize, start as usize);
            let number = found.map_or(oracle::map::NO_MARK, |mark| mark as u32);
            assert_eq!((0, number), oracle::map::walk(&map, n, start));
        }
    }
}

/// Sees that one of the two ways to rearrange answers and writes what the oracle's does.
fn assert_rearranged(
    way: fn(&[u8], &mut [u8]) -> Result<usize, Refusal>,
    expected: fn(&[u8], usize) -> Result<Vec<u8>, Refusal>,
    given: &[u8],
    room: usize,
) {
    let mut out = vec![0xee; room];
    let answer = way(given, &mut out);
    let expected = expected(given, room);
    let written = expected.as_deref().unwrap_or_default();
    assert_eq!(answer, expected.as_ref().map(Vec::len).map_err(|no| *no));
    assert!(out.starts_with(written), "{} {room}", given.len());
    assert!(out[written.len()..].iter().all(|&byte| byte == 0xee));
}

#[test]
fn columns_and_marks_are_the_oracles() {
    let mut generator = Generator::new(9);
    for length in (0..200_usize).chain([45_045, 45_055, 45_056, 45_057, 45_067]) {
        let given: Vec<u8> = (0..length).map(|_| generator.draw() as u8).collect();
        for room in [0, length.saturating_sub(1), length, length + 7] {
            assert_rearranged(to_columns, oracle::columns::to_columns, &given, room);
            assert_rearranged(from_columns, oracle::columns::from_columns, &given, room);
        }
    }
}
