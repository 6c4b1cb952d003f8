//! Views, compared with the oracle, which looks at every mark.

mod common;

use common::jobs::first_no;
use common::views::{
    anywhere, assert_view, each_beside_a_label, some_zoom, view, view_ours_and_foreign, wheel,
    window, zoom, Scheduled, WHOLE,
};
use common::{
    foreign_records, number, one_part, our_records, scheduled, some_marks, some_records,
    some_sheet, with_part, Beyond, Tally,
};
use oracle::fraction::Removal;
use oracle::map::map_bytes;
use oracle::mark::Mark;
use oracle::sample::{marks, popups, Generator, Layout, Popups, P1};
use oracle::zoom::removal_zoom_in_64ths;
use rollmap::{Turn, View, Zoom, FARTHEST_EDGE};

#[test]
fn proved_examples() {
    let sheet = scheduled(&P1);
    let at = |zoom| View {
        x0: 50,
        x1: 250,
        y0: -10,
        y1: 10,
        turn: Turn::None,
        zoom,
    };
    let p3 = Ok((vec![0x06], 2));
    assert_view(&sheet, at(Zoom::Wheel(1.0)), 1, &p3);
    let p4 = Ok((vec![0x05], 2));
    assert_view(&sheet, at(Zoom::Wheel(5.0)), 1, &p4);
    for taken in [1.0 / 64.0, 1_024.0] {
        assert_eq!(view(&sheet, at(Zoom::Wheel(taken)), 1), 0);
    }
    for refused in [1.0 / 128.0, 1_024.0 + 1.0 / 64.0] {
        assert_view(&sheet, at(Zoom::Wheel(refused)), 1, &Err(12));
    }
    assert_eq!(view(&sheet, at(Zoom::Stop(16)), 1), 0);
    assert_view(&sheet, at(Zoom::Stop(17)), 1, &Err(12));
}

#[test]
fn every_stop() {
    for layout in Layout::ALL {
        for n in [0, 1, 9, 40] {
            let sheet = scheduled(&marks(layout, n, 2));
            for stop in 0..=255 {
                let zoom = Zoom::Stop(stop);
                let number = view(&sheet, View { zoom, ..WHOLE }, map_bytes(n));
                assert_eq!(number, if stop <= 16 { 0 } else { 12 });
            }
        }
    }
}

/// Answers a view of a sheet at every stop and at the wheel value of the same zoom, sees
/// that both give the same answer and leave the same bytes, and answers the number, which
/// is that of every stop.
fn stops_and_wheel_values(sheet: &[u8], rectangle: View, map_length: usize) -> u32 {
    let answered = |zoom| {
        let mut map = vec![0xee; map_length + 2];
        let asked = View { zoom, ..rectangle };
        let answer = rollmap::view(sheet, asked, &mut map[..map_length]);
        (answer, map)
    };
    let numbers = (0..=16).map(|stop| {
        let by_stop = answered(Zoom::Stop(stop));
        let wheel = Zoom::Wheel(2_f32.powi(i32::from(stop) - 6));
        assert_eq!(by_stop, answered(wheel), "stop {stop} {sheet:02x?}");
        number(&by_stop.0)
    });
    let numbers: Vec<u32> = numbers.collect();
    assert!(numbers.iter().all(|&number| number == numbers[0]));
    numbers[0]
}

#[test]
fn a_stop_and_its_wheel_value_give_the_same() {
    for layout in Layout::ALL {
        let sheet = scheduled(&marks(layout, 50, 3));
        assert_eq!(stops_and_wheel_values(&sheet, WHOLE, 7), 0);
        assert_eq!(stops_and_wheel_values(&sheet, WHOLE, 6), 13);
        let crossed = View {
            x0: 1,
            x1: 0,
            ..WHOLE
        };
        assert_eq!(stops_and_wheel_values(&sheet, crossed, 7), 11);
    }
}

#[test]
fn a_stop_and_its_wheel_value_give_the_same_of_any_sheet() {
    let mut generator = Generator::new(49);
    let mut numbers = Tally::default();
    for _ in 0..6_000 {
        let sheet = some_sheet(&mut generator);
        let small = anywhere(&mut generator, Turn::None);
        let rectangle = generator.choose(&[WHOLE, small]);
        let length = generator.choose(&[0, 1, 6, 6]);
        let number = stops_and_wheel_values(&sheet, rectangle, length);
        numbers.add(number);
    }
    numbers.assert_reached((0..=10).chain([13, 19, 21, 23, 24]), 20);
}

#[test]
fn every_wheel_value_that_is_taken_and_its_neighbours() {
    let sheet = scheduled(&marks(Layout::Line, 6, 4));
    let number = |wheel: f32| {
        let zoom = Zoom::Wheel(wheel);
        view(&sheet, View { zoom, ..WHOLE }, 1)
    };
    for k in 1..=65_536 {
        let wheel = k as f32 / 64.0;
        assert_eq!(number(wheel), 0);
        assert_eq!(number(f32::from_bits(wheel.to_bits() + 1)), 12);
        assert_eq!(number(f32::from_bits(wheel.to_bits() - 1)), 12);
    }
}

#[test]
fn wheel_values_of_every_exponent() {
    let sheet = scheduled(&P1);
    let mut generator = Generator::new(41);
    let mut taken = 0;
    for top in 0..512_u32 {
        let single = (0..23).map(|bit| 1 << bit);
        let ones = (0..=23).map(|bits| 0x007f_ffff_u32 & !(0x007f_ffff >> bits));
        let any = (0..60).map(|_| generator.below(1 << 23));
        let mantissas = [0, 1, 2, 0x3f_ffff, 0x40_0001, 0x7f_fffe, 0x7f_ffff];
        for mantissa in mantissas.into_iter().chain(single).chain(ones).chain(any) {
            let zoom = Zoom::Wheel(f32::from_bits(top << 23 | mantissa));
            taken += usize::from(view(&sheet, View { zoom, ..WHOLE }, 1) == 0);
        }
    }
    assert!(taken > 200, "only {taken} are taken");
}

#[test]
fn wheel_values_of_any_bits() {
    let sheet = scheduled(&P1);
    let mut generator = Generator::new(42);
    for _ in 0..60_000 {
        let zoom = Zoom::Wheel(f32::from_bits(generator.draw() as u32));
        view(&sheet, View { zoom, ..WHOLE }, 1);
    }
    for refused in [
        f32::NAN,
        f32::INFINITY,
        -f32::INFINITY,
        0.0,
        -0.0,
        -1.0,
        f32::MAX,
    ] {
        let zoom = Zoom::Wheel(refused);
        assert_view(&sheet, View { zoom, ..WHOLE }, 1, &Err(12));
    }
}

#[test]
fn a_mark_is_gone_at_its_own_removal_zoom() {
    let mut exact = 0;
    for layout in Layout::ALL {
        let sample = marks(layout, 60, 5);
        let records = our_records(&sample);
        let scheduled = Scheduled::new(sample, &records);
        for record in &records {
            let Removal::At(value) = record.removal() else {
                continue;
            };
            let k = removal_zoom_in_64ths(value);
            let square = u128::from(k) * u128::from(k) * u128::from(value.denominator);
            exact += usize::from(square == 4_096 * u128::from(value.numerator));
            for k in [k.saturating_sub(1), k, k + 1] {
                let zoom = wheel(k.clamp(1, 65_536) as u32);
                scheduled.view(View { zoom, ..WHOLE });
            }
        }
    }
    assert!(exact > 50, "only {exact} marks go at a zoom in 64ths");
}

#[test]
fn every_rectangle_about_the_places_of_a_few_marks() {
    let sample = [P1[0], P1[1], Mark::plain(i16::MAX, i16::MIN, 7, 3), P1[3]];
    let sheet = scheduled(&sample);
    let near = |places: [i32; 4]| -> Vec<i32> {
        let each = places.into_iter();
        each.flat_map(|at| [at - 1, at, at + 1])
            .filter(|edge| edge.abs() <= FARTHEST_EDGE)
            .collect()
    };
    let (xs, ys) = (near([0, 100, 32_767, -32_768]), near([0, 3, -32_768, 50]));
    let mut numbers = Tally::default();
    for (&x0, &x1) in xs.iter().flat_map(|x0| xs.iter().map(move |x1| (x0, x1))) {
        for (&y0, &y1) in ys.iter().flat_map(|y0| ys.iter().map(move |y1| (y0, y1))) {
            let asked = View {
                x0,
                x1,
                y0,
                y1,
                turn: Turn::None,
                zoom: Zoom::Stop(5),
            };
            let number = view(&sheet, asked, 1);
            assert_eq!(number, if x0 <= x1 && y0 <= y1 { 0 } else { 11 });
            numbers.add(number);
        }
    }
    numbers.assert_reached([0, 11], 4_000);
}

#[test]
fn every_length_of_the_map() {
    for n in [0, 1, 7, 8, 9, 15, 16, 17, 63, 64, 65, 100] {
        let sheet = scheduled(&marks(Layout::Uniform, n, 6));
        let needed = map_bytes(n);
        for length in 0..needed + 20 {
            let number = view(&sheet, WHOLE, length);
            assert_eq!(number, if length < needed { 13 } else { 0 });
        }
    }
}

#[test]
fn questions_9_to_13_20_and_23_are_put_in_turn_with_every_turn() {
    let sample = marks(Layout::Grid, 12, 7);
    let whole = scheduled(&sample);
    let mut wrong_tree = whole.clone();
    wrong_tree[32 + 25 * 12] ^= 1;
    let bare = one_part(&sample);
    let counted = Beyond::default().counted();
    let (whole_counted, unindexed) = (counted.scheduled(&sample), counted.bare(&sample));
    let [mut wrong_counts, mut wrong_unindexed] = [whole_counted.clone(), unindexed.clone()];
    for sheet in [&mut wrong_counts, &mut wrong_unindexed] {
        *sheet.last_mut().unwrap() ^= 1;
    }
    let zooms = [
        [Zoom::Stop(3), Zoom::Stop(17)],
        [Zoom::Wheel(0.25), Zoom::Wheel(0.3)],
    ];
    for (sheet, first) in [
        (&whole, 0),
        (&bare, 10),
        (&wrong_tree, 9),
        (&whole_counted, 0),
        (&unindexed, 10),
        (&wrong_counts, 23),
        (&wrong_unindexed, 23),
        (&with_part(&wrong_tree, 6, &[]), 9),
    ] {
        for (turn, [taken, refused]) in Turn::ALL
            .into_iter()
            .flat_map(|turn| zooms.map(|zooms| (turn, zooms)))
        {
            for faults in 0..64 {
                let fault = |bit: u32| faults >> bit & 1 == 1;
                let asked = View {
                    x1: if fault(0) { -32_768 } else { 32_768 },
                    x0: if fault(4) { 32_769 } else { -5 },
                    y1: if fault(1) { -6 } else { 32_767 },
                    y0: if fault(5) { -32_769 } else { -5 },
                    turn,
                    zoom: if fault(2) { refused } else { taken },
                };
                let expected = first_no(&[
                    (first, first > 0),
                    (20, fault(4) || fault(5)),
                    (11, fault(0) || fault(1)),
                    (12, fault(2)),
                    (13, fault(3)),
                ]);
                let length = if fault(3) { 1 } else { 2 };
                assert_eq!(view(sheet, asked, length), expected);
            }
        }
    }
}

#[test]
fn sheets_without_marks() {
    for (parts, expected) in [(1, 10), (2, 10), (3, 0)] {
        let bodies = vec![Vec::new(); parts];
        let sheet = common::joined(&bodies);
        assert_eq!(view(&sheet, WHOLE, 0), expected);
        assert_eq!(view(&sheet, WHOLE, 5), expected);
    }
}

#[test]
fn many_small_sheets() {
    let mut generator = Generator::new(43);
    let mut partly = 0;
    for _ in 0..30_000 {
        let sample = some_marks(&mut generator);
        let beyond = Beyond::draw(&mut generator, &sample);
        let records = some_records(&mut generator, beyond.reel(&sample));
        let scheduled = Scheduled::with(beyond, sample, &records);
        for _ in 0..4 {
            let view = scheduled.some_view(&mut generator, Turn::None);
            let count = scheduled.view(view);
            partly += usize::from(count > 0 && (count as usize) < scheduled.marks.len());
        }
    }
    assert!(
        partly > 10_000,
        "only {partly} views show some of the marks"
    );
}

#[test]
fn larger_sheets_ours_and_foreign() {
    let mut generator = Generator::new(44);
    for (layout, n) in Layout::ALL
        .into_iter()
        .flat_map(|layout| [63, 64, 65, 200, 777].map(|n| (layout, n)))
    {
        let sample = marks(layout, n, n as u64);
        let ways = [Popups::Any, Popups::Few, Popups::Touching];
        let popping_up = ways.map(|how| Beyond::popping_up(popups(how, &sample, 1)));
        for beyond in [Beyond::default()].into_iter().chain(popping_up) {
            view_ours_and_foreign(&mut generator, &beyond, &sample, &[Turn::None], 30);
        }
    }
}

#[test]
fn disks_that_just_reach_the_rectangle_and_that_just_miss_it() {
    let mut generator = Generator::new(47);
    let beyond = Beyond::default();
    let [reached, ..] =
        each_beside_a_label(&mut generator, &beyond, 10, &[Turn::None], |_, _, _| ());
    assert!(reached.iter().all(|&n| n > 1_000), "{reached:?}");
}

#[test]
fn the_largest_sheets() {
    let mut generator = Generator::new(45);
    for layout in Layout::ALL {
        let sample = marks(layout, 4_096, 8);
        let popping_up = Beyond::popping_up(popups(Popups::Any, &sample, 8));
        for beyond in [Beyond::default(), popping_up] {
            let records = foreign_records(&mut generator, beyond.reel(&sample));
            let scheduled = Scheduled::with(beyond, sample.clone(), &records);
            scheduled.some_views(&mut generator, Turn::None, 40);
            assert_view(&scheduled.sheet, WHOLE, 511, &Err(13));
        }
    }
}

#[test]
fn refused_sheets_write_nothing() {
    let mut generator = Generator::new(46);
    let mut numbers = Tally::default();
    for _ in 0..30_000 {
        let sheet = some_sheet(&mut generator);
        let small = anywhere(&mut generator, Turn::None);
        let asked = View {
            zoom: some_zoom(&mut generator),
            ..generator.choose(&[WHOLE, small])
        };
        let number = view(&sheet, asked, generator.choose(&[0, 1, 6, 6, 6]));
        numbers.add(number);
    }
    numbers.assert_reached((0..=10).chain([13, 19, 21, 23, 24]), 100);
}

#[test]
fn a_map_of_its_own() {
    for n in [0, 1, 8, 9, 100] {
        let sheet = scheduled(&marks(Layout::Clustered, n, 9));
        for stop in 0..=16 {
            let asked = View {
                zoom: Zoom::Stop(stop),
                ..WHOLE
            };
            let map = rollmap::view_to_map(&sheet, asked).unwrap();
            let expected = oracle::view::view(&sheet, window(asked), zoom(asked), map_bytes(n));
            assert_eq!(Ok((map.as_bytes().to_vec(), map.count())), expected);
            assert_eq!(map.marks() as usize, n);
            assert_eq!(map.iter().count(), map.count() as usize);
            assert!((&map).into_iter().is_sorted());
            let contained = (0..n as u32 + 9).filter(|&mark| map.contains(mark));
            assert!(contained.eq(&map));
        }
    }
    let refused = rollmap::view_to_map(&one_part(&P1), WHOLE);
    assert_eq!(number(&refused), 10);
    assert_eq!(number(&rollmap::view_to_map(&[], WHOLE)), 1);
}
