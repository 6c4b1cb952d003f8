//! Every job on sheets with popups, compared with the oracle.

mod common;

use common::jobs::{
    becomes_scheduled, check, come_and_go, come_in_buffers_of_its_own, every_eliminator, first_no,
    is_ours_if_kept, records, refused_by_every_job, schedule,
};
use common::views::{assert_alike, assert_view, in_64ths, view, wheel, window, Scheduled, WHOLE};
use common::{
    add, bound, foreign_records, longest, one_part, rivals, schedule_in, scheduled, scheduled_with,
    some_records, three_parts, tied_marks, with_named, with_part, with_part_4, with_popups, Beyond,
    Tally, NAMED,
};
use oracle::fraction::{Fraction, Removal};
use oracle::mark::{touching_value, write_marks, Mark};
use oracle::popup::{read_popups, write_popups};
use oracle::process::{schedule_by_process, schedule_in_rank_order};
use oracle::rank::Edition::First;
use oracle::record::{removals, write_records, Record};
use oracle::rules::{keep_both, Breach};
use oracle::sample::{
    each_list, marks, popups, small_choice, Generator, Layout, PopupExample, Popups, P1, P5,
    POPUP_EXAMPLES,
};
use oracle::sheet::{join, join_parts, open};
use oracle::tree::{self, write_tree};
use oracle::view::map_and_count;
use oracle::zoom::zoom_squared;
use rollmap::{Code, Refusal, Turn, View, Zoom, LARGEST_POPUP, NO_POPUP};

/// These marks' popups of a kind, and no part 4.
fn popping_up(how: Popups, marks: &[Mark], seed: u64) -> Beyond {
    Beyond::popping_up(popups(how, marks, seed))
}

/// Calls `visit` with samples of every layout that pop up in every way, and a seed.
fn each_sample(n: impl Fn(u64) -> usize, seeds: u64, mut visit: impl FnMut(&[Mark], &[u32], u64)) {
    for layout in Layout::ALL {
        for (seed, how) in (0..seeds).flat_map(|seed| Popups::ALL.map(|how| (seed, how))) {
            let sample = marks(layout, n(seed), seed);
            visit(&sample, &popups(how, &sample, seed), seed);
        }
    }
}

/// The view of all places at k/64.
fn whole_at(k: u32) -> View {
    View::whole(wheel(k))
}

// ---- worked examples

#[test]
fn worked_examples() {
    for PopupExample {
        marks,
        popups,
        records: expected,
        shown,
    } in POPUP_EXAMPLES
    {
        let beyond = Beyond::popping_up(popups.to_vec());
        let sheet = beyond.scheduled_here(marks);
        assert_eq!(records(&sheet), expected, "{popups:?}");
        for &(k, map) in shown {
            let expected = Ok((vec![map], map.count_ones()));
            assert_view(&sheet, whole_at(k), 1, &expected);
        }
    }
}

#[test]
fn a_root_that_has_not_popped_up_ends_no_search() {
    let sheet = Beyond::popping_up(vec![640, 0, 0, 0]).scheduled(&P1);
    assert_eq!(open(&sheet).unwrap().tree.unwrap()[0], 0);
    for turn in Turn::ALL {
        let view = View {
            turn,
            ..whole_at(1)
        };
        assert_view(&sheet, view, 1, &Ok((vec![0x0e], 3)));
    }
    // Nor does a chain of such roots, each the only one above the next.
    let n = 40;
    let line: Vec<Mark> = (0..n).map(|x| Mark::plain(500 * x, 0, 1, 99)).collect();
    let last = n as usize - 1;
    for alone in 0..=last {
        let mut popups = vec![LARGEST_POPUP; line.len()];
        popups[alone] = 0;
        let beyond = Beyond::popping_up(popups);
        let never = Scheduled::with(beyond, line.clone(), &vec![Record::NEVER; line.len()]);
        assert_eq!(never.view(whole_at(1)), 1);
        assert_eq!(never.view(whole_at(LARGEST_POPUP - 1)), 1);
        assert_eq!(never.view(whole_at(LARGEST_POPUP)), line.len() as u32);
    }
}

#[test]
fn a_mark_that_goes_where_it_would_pop_up_is_never_shown() {
    for popups in [[0, 320, 0, 0], [0, 321, 0, 0], [0, 640, 0, 0]] {
        let sheet = rollmap::schedule_to_vec(&with_popups(&one_part(&P1), &popups)).unwrap();
        let own = Removal::At(zoom_squared(popups[1]));
        assert!(records(&sheet)[1].removal().equals(own));
        let mut map = [0];
        for k in 1..=LARGEST_POPUP {
            rollmap::view(&sheet, whole_at(k), &mut map).unwrap();
            assert_eq!(map[0] & 0x02, 0, "{popups:?} {k}");
        }
    }
}

#[test]
fn an_equal_popup_keeps_the_numbers_of_the_touching_value() {
    // Two marks of radius r, which touch at 64 times zoom 32d / r.
    for (d, radius) in [
        (1, 1),
        (7, 1),
        (3, 2),
        (5, 4),
        (100, 10),
        (2_048, 1),
        (9, 32),
    ] {
        let two = [Mark::plain(0, 0, radius, 1), Mark::plain(d, 0, radius, 0)];
        let k = 32 * u32::from(d.unsigned_abs()) / u32::from(radius);
        let touching = First.reel(&two).pair_value(0, 1);
        assert!(touching.compare(zoom_squared(k)).is_eq());
        for (popups, value) in [
            ([0, 0], touching),
            ([k, 0], touching),
            ([0, k], touching),
            ([k, k], touching),
            ([k - 1, k], touching),
            ([k + 1, 0], zoom_squared(k + 1)),
            ([0, k + 1], zoom_squared(k + 1)),
            ([k + 1, k], zoom_squared(k + 1)),
        ] {
            if popups.iter().any(|&k| k > LARGEST_POPUP) {
                continue;
            }
            let beyond = Beyond::popping_up(popups.to_vec());
            becomes_scheduled(&beyond, &two);
            let sheet = beyond.scheduled_here(&two);
            assert_eq!(records(&sheet)[1], Record::removed(0, value));
        }
    }
}

// ---- scheduling

#[test]
fn many_small_sheets() {
    let mut differing = 0;
    each_sample(
        |seed| seed as usize % 24,
        120,
        |marks, popups, seed| {
            let named = NAMED[seed as usize % 3];
            let popups = Some(popups.to_vec());
            let beyond = Beyond::uncounted(named, popups);
            becomes_scheduled(&beyond, marks);
            if seed < 24 {
                let records = schedule_by_process(beyond.reel(marks));
                let by_process = beyond.with_records(marks, &records);
                assert_eq!(by_process, beyond.scheduled(marks));
                let bare = Beyond::named(named);
                let without = schedule_by_process(bare.reel(marks));
                differing += usize::from(records != without);
            }
        },
    );
    assert!(differing > 700, "{differing} schedules differ");
}

#[test]
fn many_sheets_full_of_ties() {
    let mut generator = Generator::new(110);
    let ways = [Popups::Touching, Popups::Together, Popups::Few];
    for _ in 0..4_000 {
        let n = 2 + generator.below(30) as usize;
        let sample = match generator.below(2) {
            0 => tied_marks(&mut generator, n),
            _ => rivals(&mut generator, n),
        };
        let how = generator.choose(&ways);
        let named = generator.choose(&NAMED);
        let drawn = popups(how, &sample, generator.draw());
        let beyond = Beyond::uncounted(named, Some(drawn));
        becomes_scheduled(&beyond, &sample);
    }
}

#[test]
fn every_choice_of_a_few_popups() {
    // On this line marks touch at 64ths that are among the popups: 16, 32, 48 and 64.
    let line = [(0, 5), (1, 7), (2, 5), (3, 6)].map(|(x, priority)| Mark::plain(x, 0, 2, priority));
    for marks in [line, P1] {
        each_list(
            &[0, 16, 17, 32, 47, 48, 320, 640, 65_536],
            4,
            &mut |popups| {
                becomes_scheduled(&Beyond::popping_up(popups.to_vec()), &marks);
            },
        );
    }
}

#[test]
fn every_sheet_of_three_marks_from_a_small_choice() {
    let choice = small_choice();
    let popups = [[0, 16, 32], [33, 0, 16], [17, 33, 33]];
    each_list(&choice, 3, &mut |marks| {
        for popups in popups {
            becomes_scheduled(&Beyond::popping_up(popups.to_vec()), marks);
        }
    });
}

#[test]
fn sheets_about_the_number_from_which_cells_are_used() {
    for (layout, how) in Layout::ALL
        .into_iter()
        .flat_map(|layout| Popups::ALL.map(|how| (layout, how)))
    {
        for n in [40, 191, 192, 193, 255, 256, 257, 500] {
            let sample = marks(layout, n, 8);
            becomes_scheduled(&popping_up(how, &sample, 8), &sample);
        }
    }
}

#[test]
fn the_largest_sheets() {
    for layout in [Layout::Uniform, Layout::Clustered, Layout::FewHuge] {
        let sample = marks(layout, 4_096, 9);
        for how in Popups::ALL {
            let beyond = popping_up(how, &sample, 9);
            let (bare, ours) = (beyond.bare(&sample), beyond.scheduled(&sample));
            schedule(&bare, beyond.lengths(4_096), Ok(&ours));
        }
    }
    let sample = marks(Layout::OnePlace, 4_096, 9);
    let popups = Some(popups(Popups::Any, &sample, 9));
    let named = NAMED[2];
    becomes_scheduled(&Beyond::uncounted(named, popups), &sample);
}

#[test]
fn where_every_popup_is_0_all_is_as_without_part_5_but_for_its_own_bytes() {
    let mut generator = Generator::new(111);
    for layout in Layout::ALL {
        for n in [0, 1, 2, 30, 300] {
            let sample = marks(layout, n, 4);
            for named in NAMED {
                let zeros = Some(vec![NO_POPUP; n]);
                let [bare, popping_up] = [None, zeros].map(|popups| {
                    let beyond = Beyond::uncounted(named, popups);
                    beyond.scheduled_here(&sample)
                });
                assert_eq!(popping_up, with_popups(&bare, &vec![NO_POPUP; n]));
                let codes = [Code::Marks, Code::Schedule, Code::Index, Code::Edition];
                let zoom = Zoom::Stop(generator.below(17) as u8);
                assert_alike(&bare, &popping_up, &codes, zoom);
            }
        }
    }
}

#[test]
fn a_schedule_that_is_there_is_replaced_and_part_5_is_kept() {
    let mut generator = Generator::new(112);
    for _ in 0..1_500 {
        let n = generator.below(20) as usize;
        let sample = rivals(&mut generator, n);
        let beyond = Beyond::draw(&mut generator, &sample);
        let records = foreign_records(&mut generator, beyond.reel(&sample));
        let (foreign, ours) = (
            beyond.with_records(&sample, &records),
            beyond.scheduled(&sample),
        );
        let lengths = beyond.lengths(n);
        schedule(&foreign, lengths, Ok(&ours));
        schedule(&ours, lengths, Ok(&ours));
    }
}

#[test]
fn part_5_of_no_marks_is_kept() {
    for named in NAMED {
        let popups = Some(Vec::new());
        let beyond = Beyond::uncounted(named, popups);
        becomes_scheduled(&beyond, &[]);
        let empty = beyond.scheduled_here(&[]);
        assert_eq!(rollmap::part(&empty, Code::Popups), Some(&[][..]));
        let one = rollmap::add_to_vec(&empty, bound(&P1[0]), 7).unwrap();
        assert_eq!(rollmap::part(&one, Code::Popups), Some(&[7, 0, 0, 0][..]));
        assert_eq!(rollmap::take_out_to_vec(&one, 0), Ok(empty));
    }
}

// ---- demand 3

#[test]
fn a_list_keeps_both_rules_exactly_if_it_is_ours() {
    let mut generator = Generator::new(113);
    let (mut changed, mut by_touching) = (0, 0);
    for round in 0..600 {
        let layout = generator.choose(&Layout::ALL);
        let sample = marks(layout, 1 + round % 9, round as u64);
        let beyond = Beyond::draw(&mut generator, &sample);
        let reel = beyond.reel(&sample);
        let sheet = beyond.scheduled_here(&sample);
        let ours = removals(&records(&sheet));
        assert_eq!(keep_both(reel, &ours), Ok(()));
        // Whoever leaves the popups aside names another list, or the same values.
        let without = Beyond::named(beyond.named).with_shape(beyond.shaped);
        let others = removals(&schedule_in_rank_order(without.reel(&sample)));
        by_touching += usize::from(!is_ours_if_kept(reel, &ours, &others));
        for m in 0..sample.len() {
            let other = generator.below(sample.len() as u32) as usize;
            for value in [
                Removal::Never,
                Removal::At(touching_value(reel.shape, &sample[m], &sample[other])),
                Removal::At(zoom_squared(reel.popup(m))),
                Removal::At(zoom_squared(reel.popup(m) + 1)),
                Removal::At(reel.pair_value(m, other)),
                Removal::At(Fraction::new(0, 1)),
            ] {
                let mut list = ours.clone();
                list[m] = value;
                changed += usize::from(!is_ours_if_kept(reel, &ours, &list));
            }
        }
    }
    assert!(
        changed > 5_000 && by_touching > 150,
        "{changed} {by_touching}"
    );
}

#[test]
fn a_view_shows_whom_any_list_that_keeps_both_rules_has_living() {
    let thrice = |removal| match removal {
        Removal::Never => Removal::Never,
        Removal::At(Fraction {
            numerator,
            denominator,
        }) => Removal::At(Fraction::new(3 * numerator, 3 * denominator)),
    };
    each_sample(
        |seed| 1 + seed as usize % 12,
        12,
        |marks, popups, seed| {
            let beyond = Beyond::popping_up(popups.to_vec());
            let reel = beyond.reel(marks);
            let sheet = beyond.scheduled_here(marks);
            // The list that someone else names, with other numbers for the same values.
            let list = removals(&schedule_by_process(reel)).into_iter().map(thrice);
            let list: Vec<Removal> = list.collect();
            assert_eq!(keep_both(reel, &list), Ok(()));
            for k in popups.iter().copied().chain([1, 64, 1_000, 65_536]) {
                let asked = View {
                    turn: Turn::ALL[seed as usize % 4],
                    ..whole_at(k.max(1))
                };
                let shown = map_and_count(reel, &list, window(asked), k.max(1));
                assert_view(&sheet, asked, shown.0.len(), &Ok(shown));
            }
        },
    );
}

#[test]
fn a_list_that_leaves_a_popup_aside_breaks_a_rule() {
    let popups = [640, 0, 0, 0];
    let beyond = Beyond::popping_up(popups.to_vec());
    let sheet = beyond.scheduled_here(&P1);
    let reel = beyond.reel(&P1);
    let ours = removals(&records(&sheet));
    assert_eq!(keep_both(reel, &ours), Ok(()));
    let early = removals(&records(&scheduled(&P1)));
    assert_eq!(keep_both(reel, &early), Err(Breach::Second(1)));
    let without = Beyond::default();
    assert_eq!(keep_both(without.reel(&P1), &early), Ok(()));
    let broken = keep_both(without.reel(&P1), &ours);
    assert_eq!(broken, Err(Breach::First(0, 1)));
}

// ---- checking

#[test]
fn records_are_held_to_the_popups() {
    let mut generator = Generator::new(114);
    let mut numbers = Tally::default();
    for _ in 0..4_000 {
        let n = 2 + generator.below(12) as usize;
        let sample = rivals(&mut generator, n);
        let [one, other] = [(); 2].map(|()| Beyond::draw(&mut generator, &sample));
        let records = some_records(&mut generator, one.reel(&sample));
        assert_eq!(check(&one.with_records(&sample, &records)), 0);
        numbers.add(check(&other.with_records(&sample, &records)));
    }
    numbers.assert_reached([0, 8], 500);
}

#[test]
fn every_eliminator_with_popups() {
    let mut generator = Generator::new(115);
    for _ in 0..300 {
        let sample = rivals(&mut generator, 6);
        every_eliminator(&Beyond::draw(&mut generator, &sample), &sample);
    }
}

#[test]
fn the_popup_of_either_mark_counts_in_a_record() {
    let pair = [P1[0], P1[1]];
    for (popups, k) in [([700, 0], 700), ([0, 700], 700), ([650, 700], 700)] {
        for named in [640, 649, 650, 699, 700, 701] {
            let gone = Record::removed(0, zoom_squared(named));
            let sheet = with_popups(&three_parts(&pair, &[Record::NEVER, gone]), &popups);
            assert_eq!(check(&sheet), if named == k { 0 } else { 8 });
        }
    }
}

// ---- damaged

#[test]
fn a_damaged_part_5_is_refused_by_every_job() {
    for n in [0, 1, 2, 9] {
        let sample = marks(Layout::Grid, n, 5);
        let whole = write_popups(&vec![3; n]);
        let mut damaged = vec![[whole.as_slice(), &[0]].concat(), vec![0; 4 * n + 4]];
        if n > 0 {
            damaged.extend([Vec::new(), whole[1..].to_vec(), whole[4..].to_vec()]);
            for (m, k) in [
                (0, 65_537),
                (n - 1, 65_537),
                (n / 2, 1 << 17),
                (0, u32::MAX),
            ] {
                let mut popups = vec![LARGEST_POPUP; n];
                popups[m] = k;
                damaged.push(write_popups(&popups));
            }
        }
        for (part_5, named) in damaged.iter().flat_map(|it| NAMED.map(|named| (it, named))) {
            for sheet in [
                with_named(one_part(&sample), named),
                scheduled_with(named, &sample),
            ] {
                refused_by_every_job(&with_part(&sheet, 5, part_5), 21);
            }
        }
    }
}

#[test]
fn every_value_of_every_byte_of_part_5() {
    let mut numbers = Tally::default();
    for (marks, popups) in [
        (&P1[..], &[0, 320, 0, 65_536][..]),
        (&P5, &[64, 65_535]),
        (&P1[..1], &[65_536]),
    ] {
        for named in NAMED {
            let popups = Some(popups.to_vec());
            let mut sheet = Beyond::uncounted(named, popups).scheduled(marks);
            let part_5 = 4 * marks.len();
            for at in sheet.len() - part_5..sheet.len() {
                let own = sheet[at];
                for value in 0..=255 {
                    sheet[at] = value;
                    numbers.add(check(&sheet));
                }
                sheet[at] = own;
            }
        }
    }
    numbers.assert_reached([0, 8, 21], 1_000);
}

#[test]
fn every_popup_about_the_largest() {
    for k in (65_530..65_545).chain([0, 1, 131_071, 131_072, 1 << 24, 1 << 31, u32::MAX]) {
        let expected = if k <= LARGEST_POPUP { 0 } else { 21 };
        for sheet in [one_part(&P5), three_parts(&P5, &[Record::NEVER; 2])] {
            assert_eq!(check(&with_popups(&sheet, &[k, 0])), expected);
            assert_eq!(check(&with_popups(&sheet, &[0, k])), expected);
        }
    }
}

#[test]
fn part_5_is_asked_after_7_and_19_and_before_8() {
    let (part_1, part_2) = (write_marks(&P1), write_records(&[Record::NEVER; 4]));
    let part_3 = write_tree(&tree::build(&P1, &[Record::NEVER; 4]));
    let (no_records, no_tree) = ([0; 56], [0; 8]);
    let beyond = write_popups(&[0, 0, 0, 65_537]);
    for (part_5, no_21) in [
        (&[0; 16][..], false),
        (&beyond, true),
        (&[0; 15], true),
        (&[], true),
    ] {
        for (part_4, no_19) in [(&[1][..], false), (&[2], false), (&[0], true), (&[], true)] {
            for (records, no_7, no_8) in [
                (&part_2[..], false, false),
                (&no_records, false, true),
                (&part_2[1..], true, true),
            ] {
                for (tree, no_9) in [(&part_3[..], false), (&no_tree, true)] {
                    let (seven, eight) = ((7, no_7), (8, no_8));
                    let whole = join(&[&part_1, records, tree, part_4, part_5]);
                    let questions = [seven, (19, no_19), (21, no_21), eight, (9, no_9)];
                    assert_eq!(check(&whole), first_no(&questions));
                    let unnamed = [(1, &part_1[..]), (2, records), (3, tree), (5, part_5)];
                    let questions = [seven, (19, false), (21, no_21), eight, (9, no_9)];
                    assert_eq!(check(&join_parts(&unnamed)), first_no(&questions));
                    let unindexed = [(1, &part_1[..]), (2, records), (4, part_4), (5, part_5)];
                    let questions = [seven, (19, no_19), (21, no_21), eight, (9, false)];
                    assert_eq!(check(&join_parts(&unindexed)), first_no(&questions));
                }
            }
        }
    }
}

// ---- views

#[test]
fn every_mark_about_its_popup_and_its_removal() {
    let (mut appeared, mut never) = (0, 0);
    each_sample(
        |_| 12,
        4,
        |marks, popups, _| {
            let beyond = Beyond::popping_up(popups.to_vec());
            let records = schedule_in_rank_order(beyond.reel(marks));
            let scheduled = Scheduled::with(beyond, marks.to_vec(), &records);
            for (m, &popup) in popups.iter().enumerate() {
                let near = [popup.saturating_sub(1), popup, popup + 1];
                let [before, at, _] = near.map(|k| {
                    let view = whole_at(k.clamp(1, LARGEST_POPUP));
                    scheduled.view(view);
                    scheduled.expected(view).0[m / 8] >> (m % 8) & 1 == 1
                });
                appeared += usize::from(popup > 1 && !before && at);
                never += usize::from(popup > 1 && !at);
                assert!(popup <= 1 || !before);
            }
        },
    );
    assert!(appeared > 500 && never > 500, "{appeared} {never}");
}

#[test]
fn every_stop_and_its_wheel_value() {
    each_sample(
        |seed| 1 + seed as usize % 40,
        6,
        |marks, popups, _| {
            let sheet = Beyond::popping_up(popups.to_vec()).scheduled(marks);
            let length = marks.len().div_ceil(8);
            for stop in 0..=17 {
                let zoom = Zoom::Stop(stop);
                let number = view(&sheet, View { zoom, ..WHOLE }, length);
                assert_eq!(number, if stop <= 16 { 0 } else { 12 });
                if stop > 16 {
                    continue;
                }
                let by_stop = rollmap::view_to_map(&sheet, View::whole(zoom));
                let by_wheel = rollmap::view_to_map(&sheet, whole_at(in_64ths(zoom)));
                assert_eq!(by_stop, by_wheel);
            }
            assert_view(&sheet, WHOLE, length - 1, &Err(13));
        },
    );
}

// ---- marks that come and go

#[test]
fn marks_come_and_go_with_their_popups() {
    let mut generator = Generator::new(116);
    each_sample(
        |seed| 1 + seed as usize % 24,
        40,
        |marks, popups, seed| {
            let m = generator.below(marks.len() as u32) as usize;
            let named = NAMED[seed as usize % 3];
            come_and_go(&Beyond::uncounted(named, Some(popups.to_vec())), marks, m);
        },
    );
    for n in [192, 256, 700, 4_096] {
        let sample = rivals(&mut generator, n);
        let popups = popups(Popups::Any, &sample, 1);
        come_and_go(&Beyond::uncounted(NAMED[2], Some(popups)), &sample, n / 2);
    }
}

#[test]
fn a_scheduled_sheet_comes_back_byte_for_byte() {
    let mut generator = Generator::new(117);
    for _ in 0..1_500 {
        let n = generator.below(20) as usize;
        let sample = rivals(&mut generator, n);
        let beyond = Beyond::draw(&mut generator, &sample);
        let sheet = beyond.scheduled_here(&sample);
        let new = marks(generator.choose(&Layout::ALL), 1, generator.draw())[0];
        let popup = match beyond.popups {
            Some(_) => generator.choose(&[0, 1, 64, 640, 65_535, 65_536]),
            None => NO_POPUP,
        };
        let more = rollmap::add_to_vec(&sheet, bound(&new), popup).unwrap();
        if beyond.popups.is_some() {
            let part_5 = rollmap::part(&more, Code::Popups).unwrap();
            assert_eq!(read_popups(part_5).last(), Some(&popup));
        }
        assert_eq!(rollmap::take_out_to_vec(&more, n as u32), Ok(sheet));
    }
}

#[test]
fn a_popup_without_part_5_is_refused() {
    for named in NAMED {
        for marks in [&P1[..], &[]] {
            let sheet = Beyond::named(named).scheduled(marks);
            let new = bound(&P1[0]);
            let more = rollmap::add_to_vec(&sheet, new, NO_POPUP).unwrap();
            assert_eq!(rollmap::part(&more, Code::Popups), None);
            for popup in [1, 2, 256, 65_536, 65_537, 1 << 31, u32::MAX] {
                for lengths in [[0, 0], longest()] {
                    let refused = &Err::<Vec<u8>, _>(21);
                    schedule_in(&sheet, lengths, add(P1[0], popup), refused);
                }
                let refused = rollmap::add_to_vec(&sheet, new, popup);
                assert_eq!(refused, Err(Refusal::Popups));
            }
        }
    }
}

#[test]
fn questions_18_5_6_21_and_13_are_put_in_turn() {
    let line = marks(Layout::Line, 4_096, 5);
    let never = vec![Record::NEVER; 4_096];
    let sheet_of = |n: usize, part_5: bool| {
        let beyond = Beyond::uncounted(None, part_5.then(|| vec![0; n]));
        beyond.with_records(&line[..n], &never[..n])
    };
    for part_5 in [false, true] {
        let [fewer, full] = [4_095, 4_096].map(|n| sheet_of(n, part_5));
        let (taken, refused) = match part_5 {
            false => (vec![0], vec![1, 65_536, 65_537]),
            true => (vec![0, 1, 65_536], vec![65_537, 1 << 20, u32::MAX]),
        };
        let popups = taken.iter().map(|&k| (k, false));
        let popups = popups.chain(refused.iter().map(|&k| (k, true)));
        for (popup, no_21) in popups {
            for (kind, radius) in [(0, 1), (200, 16_384), (255, 1), (199, 16_384)] {
                let mark = Mark {
                    kind,
                    ..Mark::plain(1, 2, radius, 3)
                };
                for lengths in [[0, 0], [longest()[0], 0], [0, longest()[1]]] {
                    let expected = first_no(&[
                        (5, kind >= 200),
                        (6, radius > 16_383),
                        (21, no_21),
                        (13, true),
                    ]);
                    let refused = |number| Err::<Vec<u8>, u32>(number);
                    schedule_in(&fewer, lengths, add(mark, popup), &refused(expected));
                    schedule_in(&full, lengths, add(mark, popup), &refused(18));
                }
            }
        }
    }
}

#[test]
fn the_buffers_of_its_own_have_room_for_parts_4_and_5() {
    for named in NAMED {
        let beyond = Beyond::uncounted(named, Some(vec![64, 65_536]));
        let two = come_in_buffers_of_its_own(&beyond, &P5);
        let other = rollmap::take_out_to_vec(&two, 0).unwrap();
        assert!(rollmap::popups(&other).unwrap().eq([65_536]));
    }
}

#[test]
fn another_part_5_is_another_schedule() {
    let sheet = Beyond::popping_up(vec![640, 0, 0, 0]).scheduled(&P1);
    let popups = write_popups(&[0; 4]);
    let part = |code| (code, rollmap::part(&sheet, code).unwrap());
    let [marks, schedule, index] = [Code::Marks, Code::Schedule, Code::Index].map(part);
    let exchanged = [marks, schedule, index, (Code::Popups, &popups)];
    let refused = rollmap::assemble_to_vec(&exchanged);
    assert_eq!(refused, Err(Refusal::Schedule));
    let afresh = rollmap::assemble_to_vec(&[marks, (Code::Popups, &popups)]).unwrap();
    let afresh = rollmap::schedule_to_vec(&afresh).unwrap();
    assert_eq!(afresh, with_popups(&scheduled(&P1), &[0; 4]));
    // Both parts travel together.
    let named = with_part_4(&sheet, &[2]);
    assert_eq!(rollmap::schedule_to_vec(&named).as_ref(), Ok(&named));
}
