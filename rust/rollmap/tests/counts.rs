//! Part 6, compared with the oracle and with views of everything: what counting writes, that
//! whatever schedules renews it, and what is refused.

mod common;

use common::jobs::{
    assert_made, becomes_scheduled, check, come_and_go, come_in_buffers_of_its_own, first_no,
    is_rescheduled, refused_by_every_job, schedule,
};
use common::views::OUTSIDE;
use common::{
    add, bound, foreign_records, longest, named_parts, number, one_part, rivals, schedule_in,
    scheduled, scheduled_having, scheduled_of, some_marks, some_records, some_room, some_sheet,
    take_out, three_parts, tied_marks, with_part, with_popups, write_in, Beyond, Tally, NAMED,
    SHAPED,
};
use oracle::contents::Part;
use oracle::count::part_6;
use oracle::mark::{write_marks, Mark};
use oracle::popup::write_popups;
use oracle::process::schedule_in_rank_order;
use oracle::rank::Edition;
use oracle::record::{write_records, Record};
use oracle::sample::{
    marks, popups, refused_sheets, Generator, Layout, Popups, CODES_TAKEN, P1, P5, P6,
    POPUP_EXAMPLES,
};
use oracle::sheet::{join, join_parts, part_extent, split};
use oracle::tree::{self, write_tree};
use rollmap::{
    Code, Counts, Group, Refusal, View, Zoom, COUNTED_BYTES, COUNTS_BYTES, GROUPS, STOPS,
};

/// Counts a sheet in a buffer of so many bytes, and sees that the answer and every byte are
/// as expected. Answers the number.
fn assert_counted(
    sheet: &[u8],
    out_length: usize,
    expected: &Result<impl AsRef<[u8]>, u32>,
) -> u32 {
    let seed = (sheet.len() + out_length) as u64;
    write_in(rollmap::count, sheet, out_length, seed, expected)
}

/// Counts a sheet as the oracle does. Answers the number.
fn count(sheet: &[u8], out_length: usize) -> u32 {
    let expected = oracle::count::count(sheet, out_length);
    assert_counted(sheet, out_length, &expected)
}

/// Sees that counting this sheet writes that one, in a buffer that is just long enough and
/// in a longer one, and is refused in a shorter one.
fn becomes_counted(sheet: &[u8], expected: &[u8]) {
    let needed = expected.len();
    assert_counted(sheet, needed, &Ok(expected));
    assert_counted(sheet, needed + 9, &Ok(expected));
    assert_counted(sheet, needed - 1, &Err::<Vec<u8>, _>(13));
}

/// The sheet with its counts, which it has none of, by the library.
fn counted(sheet: &[u8]) -> Vec<u8> {
    rollmap::count_to_vec(sheet).unwrap()
}

/// The counts of a counted sheet, stop by stop.
fn stops(sheet: &[u8]) -> Vec<[u16; GROUPS]> {
    let counts = rollmap::counts(sheet).expect("the sheet is counted");
    let stops = (0..STOPS as u8).map(|stop| counts.at(stop).unwrap());
    stops.collect()
}

/// How many marks of each group a view of all places shows at each stop.
fn shown_of_groups(sheet: &[u8]) -> Vec<[u16; GROUPS]> {
    let marks: Vec<rollmap::Mark> = rollmap::marks(sheet).unwrap().collect();
    let of_stop = |stop| {
        let map = rollmap::view_to_map(sheet, View::whole(Zoom::Stop(stop))).unwrap();
        let kinds = map.iter().map(|m| marks[m as usize].kind);
        let groups: Vec<Group> = kinds.map(|kind| Group::of(kind).unwrap()).collect();
        Group::ALL.map(|group| groups.iter().filter(|&&it| it == group).count() as u16)
    };
    (0..STOPS as u8).map(of_stop).collect()
}

/// Sees that a sheet with parts 2 and 3 and without part 6 is counted as views of all places
/// and the oracle say. Answers the counts.
fn compare_with_views(sheet: &[u8]) -> Vec<[u16; GROUPS]> {
    let expected = oracle::count::count(sheet, usize::MAX).unwrap();
    assert_eq!(expected.len(), sheet.len() + COUNTED_BYTES);
    becomes_counted(sheet, &expected);
    let counts = stops(&expected);
    assert_eq!(counts, shown_of_groups(sheet));
    assert_eq!(counts, shown_of_groups(&expected));
    counts
}

/// Some parts for these marks, without counts.
fn some_uncounted(generator: &mut Generator, marks: &[Mark]) -> Beyond {
    Beyond {
        counted: false,
        ..Beyond::draw(generator, marks)
    }
}

/// Whether a count of some group grows from one stop to the next, and whether one falls.
fn grows_and_falls(stops: &[[u16; GROUPS]]) -> [bool; 2] {
    let groups = || {
        let pairs = stops.iter().zip(&stops[1..]);
        pairs.flat_map(|(now, next)| now.iter().zip(next))
    };
    [
        groups().any(|(now, next)| next > now),
        groups().any(|(now, next)| next < now),
    ]
}

// ---- what is written

#[test]
fn p1_by_hand() {
    let notes = [4, 4, 4, 4, 3, 3, 3, 3, 3, 2, 1, 1, 1, 1, 1, 1, 1];
    let sheet = counted(&scheduled(&P1));
    assert_eq!(stops(&sheet), notes.map(|notes| [notes, 0, 0, 0, 0]));
    let part_6 = rollmap::part(&sheet, Code::Counts).unwrap();
    let bytes: Vec<u8> = notes.iter().flat_map(|&it| [it as u8, 0]).collect();
    assert_eq!(part_6.len(), COUNTS_BYTES);
    assert!(part_6.chunks(10).map(|stop| &stop[..2]).eq(bytes.chunks(2)));
    assert_eq!(sheet.len(), 140 + 180);
    // Part 6 ends the sheet, behind all others.
    assert!(sheet.ends_with(part_6));
}

#[test]
fn worked_examples_of_popups() {
    for example in POPUP_EXAMPLES {
        let beyond = Beyond::popping_up(example.popups.to_vec());
        let sheet = beyond.with_records(example.marks, example.records);
        let counts = compare_with_views(&sheet);
        for &(k, map) in example.shown.iter().filter(|(k, _)| k.is_power_of_two()) {
            let stop = k.trailing_zeros() as usize;
            assert_eq!(u32::from(counts[stop][0]), map.count_ones());
        }
    }
}

#[test]
fn every_kind_is_counted_in_its_group() {
    let firsts = [0, 10, 50, 100, 150, 200];
    for kind in 0..200 {
        let mark = Mark {
            kind,
            ..Mark::plain(0, 0, 1, 0)
        };
        let group = firsts.iter().filter(|&&first| first <= kind).count() - 1;
        let mut expected = [0; GROUPS];
        expected[group] = 1;
        let sheet = scheduled(&[mark]);
        assert_eq!(compare_with_views(&sheet), [expected; STOPS]);
        let popping_up = with_popups(&sheet, &[1 << 16]);
        let counts = compare_with_views(&popping_up);
        assert_eq!(counts[..16], [[0; GROUPS]; 16]);
        assert_eq!(counts[16], expected);
    }
}

#[test]
fn every_removal_and_every_popup_about_a_stop() {
    for stop in 0..=16_u32 {
        let k = 1 << stop;
        for popup in [k - 1, k, k + 1].into_iter().filter(|&it| it <= 65_536) {
            for sheet in [scheduled(&P1[..1]), three_parts(&P6, &[Record::NEVER; 2])] {
                let n = rollmap::mark_count(&sheet).unwrap();
                let counts = compare_with_views(&with_popups(&sheet, &vec![popup; n]));
                let first = counts.iter().position(|&[notes, ..]| notes > 0);
                let expected = (0..17).find(|stop| 1 << stop >= popup);
                assert_eq!(first, expected, "{popup}");
            }
        }
        // Two marks of radius 32 that lie d apart touch at 64 times zoom d.
        for d in [k - 1, k, k + 1].into_iter().filter(|&it| it < 32_768) {
            let two = [Mark::plain(0, 0, 32, 1), Mark::plain(d as i16, 0, 32, 0)];
            let counts = compare_with_views(&scheduled(&two));
            let both = counts.iter().filter(|&&[notes, ..]| notes == 2).count();
            let expected = (0..17).filter(|stop| 1_u32 << stop < d).count();
            assert_eq!(both, expected, "{d}");
        }
    }
}

#[test]
fn many_sheets_of_every_layout() {
    let mut generator = Generator::new(140);
    let (mut growing, mut falling) = (0, 0);
    for round in 0..1_200 {
        let layout = Layout::ALL[round % Layout::ALL.len()];
        let n = generator.below(60) as usize;
        let sample = match round % 4 {
            0 => tied_marks(&mut generator, n),
            1 => rivals(&mut generator, n),
            _ => marks(layout, n, round as u64),
        };
        let beyond = some_uncounted(&mut generator, &sample);
        let records = some_records(&mut generator, beyond.reel(&sample));
        let counts = compare_with_views(&beyond.with_records(&sample, &records));
        let [grows, falls] = grows_and_falls(&counts);
        assert!(!grows || beyond.popups.is_some(), "{counts:?}");
        growing += usize::from(grows);
        falling += usize::from(falls && beyond.popups.is_none());
    }
    assert!(growing > 300 && falling > 150, "{growing} {falling}");
}

#[test]
fn sheets_with_any_parts_beyond_3() {
    for layout in Layout::ALL {
        for n in [0, 1, 2, 9, 70] {
            let sample = marks(layout, n, n as u64);
            for (named, how) in NAMED.into_iter().cycle().zip(Popups::ALL) {
                let drawn = popups(how, &sample, 3);
                for popups in [None, Some(drawn)] {
                    let beyond = Beyond::uncounted(named, popups);
                    compare_with_views(&beyond.scheduled(&sample));
                }
            }
        }
    }
}

#[test]
fn a_sheet_is_counted_by_its_own_schedule() {
    let mut generator = Generator::new(141);
    let mut differing = 0;
    for _ in 0..600 {
        let n = 2 + generator.below(20) as usize;
        let sample = rivals(&mut generator, n);
        let beyond = some_uncounted(&mut generator, &sample);
        let reel = beyond.reel(&sample);
        let foreign = foreign_records(&mut generator, reel);
        let ours = schedule_in_rank_order(reel);
        let [own, other] = [foreign, ours]
            .map(|records| compare_with_views(&beyond.with_records(&sample, &records)));
        differing += usize::from(own != other);
    }
    assert!(differing > 200, "{differing}");
}

#[test]
fn counting_again_gives_the_same_bytes() {
    let mut generator = Generator::new(142);
    for _ in 0..1_500 {
        let sample = some_marks(&mut generator);
        let beyond = Beyond::draw(&mut generator, &sample).counted();
        let records = some_records(&mut generator, beyond.reel(&sample));
        let sheet = beyond.with_records(&sample, &records);
        becomes_counted(&sheet, &sheet);
        // All other parts are as they were.
        let mut parts = split(&sheet).unwrap().present();
        parts.retain(|&(code, _)| code != 6);
        becomes_counted(&join_parts(&parts), &sheet);
        // And so are the counts of the sheet that is put together of them all.
        let counts = rollmap::counts(&sheet).unwrap().to_bytes();
        let mut named = named_parts(&parts);
        named.push((Code::Counts, &counts));
        named.sort_unstable_by_key(|&(code, _)| code);
        assert_eq!(rollmap::assemble_to_vec(&named), Ok(sheet));
    }
}

#[test]
fn every_list_of_codes_is_counted_or_lacks_a_schedule() {
    for sample in [&P1[..], &P5, &P1[..1], &[]] {
        let popups = vec![320; sample.len()];
        for codes in CODES_TAKEN {
            let sheet = scheduled_of(codes, sample, &popups);
            if !codes.contains(&2) {
                for length in [0, sheet.len(), sheet.len() + COUNTED_BYTES] {
                    assert_eq!(count(&sheet, length), 10, "{codes:?}");
                }
                continue;
            }
            let mut more = codes.to_vec();
            more.push(6);
            more.sort_unstable();
            more.dedup();
            becomes_counted(&sheet, &scheduled_of(&more, sample, &popups));
        }
    }
}

#[test]
fn no_index_is_needed_and_none_is_added() {
    let [part_1, part_2] = [write_marks(&P1), write_records(&[Record::NEVER; 4])];
    let sheet = counted(&join(&[&part_1, &part_2]));
    let codes = split(&sheet).unwrap().present();
    assert!(codes.iter().map(|&(code, _)| code).eq([1, 2, 6]));
    assert_eq!(stops(&sheet), [[4, 0, 0, 0, 0]; STOPS]);
    assert_eq!(check(&sheet), 0);
    let view = rollmap::view_to_map(&sheet, View::whole(Zoom::Stop(0)));
    assert_eq!(view.unwrap_err(), Refusal::Unscheduled);
    assert_eq!(rollmap::judge(&sheet), Err(Refusal::Unscheduled));
    // Scheduling gives it an index, and renews the counts.
    let scheduled = rollmap::schedule_to_vec(&sheet);
    assert_eq!(scheduled, Ok(Beyond::default().counted().scheduled(&P1)));
}

#[test]
fn no_marks() {
    for named in NAMED {
        for popups in [None, Some(Vec::new())] {
            let beyond = Beyond::uncounted(named, popups);
            let sheet = beyond.scheduled(&[]);
            assert_eq!(compare_with_views(&sheet), [[0; GROUPS]; STOPS]);
            let counted = beyond.counted();
            becomes_counted(&sheet, &counted.scheduled(&[]));
            let bare = counted.bare(&[]);
            becomes_counted(&bare, &bare);
        }
    }
    let zeros = Counts::from_bytes([0; COUNTS_BYTES]);
    let empty = join(&[&[], &[]]);
    assert_eq!(rollmap::counts(&counted(&empty)), Some(zeros));
}

#[test]
fn the_most_marks() {
    let ways = Popups::ALL.into_iter().cycle();
    for (layout, how) in Layout::ALL.into_iter().zip(ways) {
        let sample = marks(layout, 4_096, 14);
        let popping_up = Beyond::popping_up(popups(how, &sample, 14));
        for beyond in [Beyond::named(NAMED[2]), popping_up] {
            let records = schedule_in_rank_order(beyond.reel(&sample));
            compare_with_views(&beyond.with_records(&sample, &records));
        }
    }
    // All of one group, and none goes: the largest count that there is.
    for kind in [0, 199] {
        let mut sample = marks(Layout::Uniform, 4_096, 15);
        sample.iter_mut().for_each(|mark| mark.kind = kind);
        let mut expected = [0; GROUPS];
        expected[if kind == 0 { 0 } else { 4 }] = 4_096;
        let never = three_parts(&sample, &[Record::NEVER; 4_096]);
        assert_eq!(compare_with_views(&never), [expected; STOPS]);
    }
}

// ---- renewal

#[test]
fn scheduling_renews_the_counts() {
    let mut generator = Generator::new(143);
    let mut differing = 0;
    for _ in 0..1_500 {
        let n = generator.below(24) as usize;
        let sample = rivals(&mut generator, n);
        let beyond = Beyond::draw(&mut generator, &sample).counted();
        let records = foreign_records(&mut generator, beyond.reel(&sample));
        let (foreign, ours) = (
            beyond.with_records(&sample, &records),
            beyond.scheduled(&sample),
        );
        differing += usize::from(stops(&foreign) != stops(&ours));
        let [work, out] = beyond.lengths(n);
        for sheet in [&foreign, &ours, &beyond.bare(&sample)] {
            is_rescheduled(&beyond, n, sheet, &ours);
            schedule(sheet, [work, out - COUNTED_BYTES], Err(13));
        }
    }
    assert!(differing > 500, "{differing}");
}

#[test]
fn the_counts_of_the_largest_sheets_are_renewed() {
    for layout in [Layout::Uniform, Layout::Clustered, Layout::Reel] {
        let sample = marks(layout, 4_096, 16);
        let popups = Some(popups(Popups::Few, &sample, 16));
        let beyond = Beyond::uncounted(NAMED[2], popups).counted();
        let beyond = beyond.with_shape(SHAPED[2]);
        assert_eq!(beyond.lengths(4_096), longest());
        becomes_scheduled(&beyond, &sample);
    }
}

#[test]
fn adding_and_taking_out_renew_the_counts() {
    let mut generator = Generator::new(144);
    for round in 0..1_000 {
        let n = 1 + generator.below(24) as usize;
        let sample = match round % 2 {
            0 => rivals(&mut generator, n),
            _ => marks(generator.choose(&Layout::ALL), n, round),
        };
        let m = generator.below(n as u32) as usize;
        let drawn = popups(generator.choose(&Popups::ALL), &sample, round);
        let popups = (generator.below(2) == 0).then_some(drawn);
        let beyond = Beyond::uncounted(generator.choose(&NAMED), popups);
        let beyond = beyond.with_shape(generator.choose(&SHAPED));
        come_and_go(&beyond.counted(), &sample, m);
    }
    for n in [256, 4_096] {
        let sample = rivals(&mut generator, n);
        let popups = popups(Popups::Any, &sample, 1);
        let beyond = Beyond::uncounted(NAMED[2], Some(popups));
        come_and_go(&beyond.counted(), &sample, n / 2);
    }
}

#[test]
fn the_buffers_of_its_own_have_room_for_part_6() {
    for named in NAMED {
        for popups in [None, Some(vec![64, 65_536])] {
            for shaped in SHAPED {
                let beyond = Beyond::uncounted(named, popups.clone()).counted();
                let beyond = beyond.with_shape(shaped);
                let two = come_in_buffers_of_its_own(&beyond, &P5);
                assert_eq!(rollmap::count_to_vec(&two), Ok(two));
            }
        }
    }
}

#[test]
fn a_sheet_without_part_6_is_given_none() {
    let mut generator = Generator::new(145);
    for _ in 0..300 {
        let sample = some_marks(&mut generator);
        let beyond = some_uncounted(&mut generator, &sample);
        let sheet = beyond.scheduled_here(&sample);
        let more = rollmap::add_to_vec(&sheet, bound(&P1[0]), 0).unwrap();
        let fewer = rollmap::take_out_to_vec(&more, 0).unwrap();
        for sheet in [sheet, more, fewer] {
            assert_eq!(rollmap::part(&sheet, Code::Counts), None);
        }
    }
}

#[test]
fn the_judge_takes_counts_along() {
    let mut generator = Generator::new(146);
    let mut numbers = Tally::default();
    for _ in 0..1_000 {
        let n = 1 + generator.below(8) as usize;
        let sample = rivals(&mut generator, n);
        let beyond = Beyond::draw(&mut generator, &sample).counted();
        let records = some_records(&mut generator, beyond.reel(&sample));
        let sheet = beyond.with_records(&sample, &records);
        let judged = rollmap::judge(&sheet);
        let ours = rollmap::schedule_to_vec(&sheet).is_ok_and(|ours| ours == sheet);
        assert_eq!(judged.is_ok(), ours);
        numbers.add(number(&judged));
    }
    numbers.assert_reached([0, 22], 200);
}

// ---- damaged

/// Counted sheets of a few marks with every list of codes that has part 6.
fn small_sheets() -> Vec<Vec<u8>> {
    let samples = [&P1[..], &P5, &[]];
    let sheets = samples.map(|sample| scheduled_having(6, sample));
    sheets.concat()
}

#[test]
fn every_byte_of_part_6_with_every_value() {
    for mut sheet in small_sheets() {
        let (start, length) = part_extent(&sheet, 6);
        assert_eq!(length as usize, COUNTS_BYTES);
        for at in start as usize..(start + length) as usize {
            let own = sheet[at];
            for value in (0..=255).filter(|&value| value != own) {
                sheet[at] = value;
                assert_eq!(number(&rollmap::check(&sheet)), 23, "{at} {value}");
            }
            sheet[at] = own ^ 1;
            refused_by_every_job(&sheet, 23);
            sheet[at] = own;
        }
        assert_eq!(check(&sheet), 0);
    }
}

#[test]
fn every_length_of_part_6() {
    for sheet in small_sheets() {
        let mut parts = split(&sheet).unwrap().present();
        let own = split(&sheet).unwrap().get(6).unwrap();
        parts.retain(|&(code, _)| code != 6);
        let without = join_parts(&parts);
        for length in (0..COUNTS_BYTES).chain([171, 172, 180, 340, 65_536]) {
            let mut part_6 = own.to_vec();
            part_6.resize(length, 0);
            let damaged = with_part(&without, 6, &part_6);
            assert_eq!(check(&damaged), 23, "{length}");
            if [0, 2, 168, 169, 171, 340].contains(&length) {
                refused_by_every_job(&damaged, 23);
            }
        }
    }
}

#[test]
fn part_6_needs_part_2() {
    for (marks, part_6) in [(&P1[..], &[0; 170][..]), (&[], &[0; 170]), (&[], &[])] {
        let part_1 = write_marks(marks);
        let part_5 = write_popups(&vec![0; marks.len()]);
        let lists: [&[Part]; 5] = [
            &[(1, &part_1), (6, part_6)],
            &[(1, &part_1), (6, part_6), (7, &[2])],
            &[(1, &part_1), (4, &[1]), (6, part_6)],
            &[(1, &part_1), (5, &part_5), (6, part_6)],
            &[(1, &part_1), (3, &[]), (6, part_6)],
        ];
        for parts in lists {
            refused_by_every_job(&join_parts(parts), 2);
        }
    }
}

#[test]
fn counts_by_another_schedule_or_other_popups_are_refused() {
    let mut generator = Generator::new(147);
    let mut numbers = Tally::default();
    for _ in 0..2_000 {
        let n = 1 + generator.below(12) as usize;
        let sample = rivals(&mut generator, n);
        let [one, other] = [(); 2].map(|()| some_uncounted(&mut generator, &sample));
        let [own, others] =
            [&one, &other].map(|beyond| some_records(&mut generator, beyond.reel(&sample)));
        let part_6 = part_6(other.reel(&sample), &others);
        let sheet = with_part(&one.with_records(&sample, &own), 6, &part_6);
        numbers.add(check(&sheet));
    }
    numbers.assert_reached([0, 23], 100);
}

#[test]
fn many_sheets_with_a_few_faults() {
    let mut generator = Generator::new(148);
    let mut numbers = Tally::default();
    for _ in 0..40_000 {
        let sheet = some_sheet(&mut generator);
        let counted = oracle::count::count(&sheet, usize::MAX).map_or(400, |it| it.len());
        let room = some_room(&mut generator, counted);
        numbers.add(count(&sheet, room));
    }
    numbers.assert_reached((0..=10).chain([13, 19, 21, 23, 24]), 100);
}

#[test]
fn the_buffer_of_its_own_is_long_enough() {
    let mut generator = Generator::new(149);
    let mut numbers = Tally::default();
    for _ in 0..4_000 {
        let sheet = some_sheet(&mut generator);
        let counted = rollmap::count_to_vec(&sheet);
        let expected = oracle::count::count(&sheet, usize::MAX);
        numbers.add(assert_made(&sheet, counted, &expected));
    }
    numbers.assert_reached((0..=10).chain([19, 21, 23, 24]), 10);
}

// ---- what is asked

#[test]
fn every_length_about_the_needed_one() {
    for sample in [&P1[..], &P1[..1], &[]] {
        let popups = vec![12; sample.len()];
        for codes in CODES_TAKEN.iter().filter(|codes| codes.contains(&2)) {
            let sheet = scheduled_of(codes, sample, &popups);
            let more = if codes.contains(&6) { 0 } else { COUNTED_BYTES };
            let needed = sheet.len() + more;
            for length in (0..40).chain(needed.saturating_sub(200)..needed + 40) {
                let expected = if length < needed { 13 } else { 0 };
                assert_eq!(count(&sheet, length), expected, "{codes:?} {length}");
            }
        }
    }
}

#[test]
fn a_refused_sheet_gets_its_own_number() {
    for (refused, sheet) in refused_sheets() {
        let scheduled = split(&sheet).is_ok_and(|bodies| bodies.get(2).is_some());
        for room in [0, 100, longest()[1]] {
            // Of the sheets that 10 refuses in a view, some have a part 2.
            let expected = match refused {
                10 if scheduled && room < sheet.len() => 13,
                10 if scheduled => 0,
                _ => refused,
            };
            let room = if expected == 0 { longest()[1] } else { room };
            assert_eq!(count(&sheet, room), expected);
        }
    }
}

#[test]
fn questions_7_19_21_24_8_9_23_10_and_13_are_put_in_turn() {
    let part_1 = write_marks(&P1);
    let never = [Record::NEVER; 4];
    let (part_2, part_3) = (write_records(&never), write_tree(&tree::build(&P1, &never)));
    let counts = part_6(Edition::First.reel(&P1), &never);
    let (no_records, no_tree) = ([0; 56], [0; 8]);
    let beyond = write_popups(&[0, 0, 0, 65_537]);
    let shapes: [(Option<&[u8]>, bool); 3] =
        [(None, false), (Some(&[2]), false), (Some(&[3]), true)];
    let mut numbers = Tally::default();
    for (records, no_7, no_8) in [
        (Some(&part_2[..]), false, false),
        (Some(&no_records), false, true),
        (Some(&part_2[1..]), true, true),
        (None, false, false),
    ] {
        for (tree, no_9) in [
            (records.and(Some(&part_3[..])), false),
            (records.and(Some(&no_tree[..])), records.is_some()),
            (None, false),
        ] {
            for (part_6, no_23) in [
                (records.and(Some(&counts[..])), false),
                (records.and(Some(&counts[1..])), records.is_some()),
                (None, false),
            ] {
                for (edition, no_19) in [(1, false), (0, true)] {
                    for ((part_5, no_21), (part_7, no_24)) in
                        [(&[0; 16][..], false), (&beyond, true)]
                            .into_iter()
                            .flat_map(|popups| shapes.map(|shape| (popups, shape)))
                    {
                        let part_4 = [edition];
                        let all = [
                            Some(&part_1[..]),
                            records,
                            tree,
                            Some(&part_4),
                            Some(part_5),
                            part_6,
                            part_7,
                        ];
                        let there = (1..).zip(all);
                        let parts = there.filter_map(|(code, body)| Some((code, body?)));
                        let sheet = join_parts(&parts.collect::<Vec<Part>>());
                        let more = if part_6.is_some() { 0 } else { COUNTED_BYTES };
                        let needed = sheet.len() + more;
                        for (room, no_13) in [(needed, false), (needed - 1, true), (0, true)] {
                            let expected = first_no(&[
                                (7, no_7),
                                (19, no_19),
                                (21, no_21),
                                (24, no_24),
                                (8, no_8),
                                (9, no_9),
                                (23, no_23),
                                (10, records.is_none()),
                                (13, no_13),
                            ]);
                            assert_eq!(count(&sheet, room), expected);
                            numbers.add(expected);
                        }
                    }
                }
            }
        }
    }
    numbers.assert_reached([0, 7, 8, 9, 10, 13, 19, 21, 23, 24], 1);
}

#[test]
fn question_23_comes_before_those_of_a_view_and_of_changes() {
    let sample = marks(Layout::Line, 4_096, 5);
    let never = vec![Record::NEVER; 4_096];
    let full = three_parts(&sample, &never);
    let unindexed = join(&[&write_marks(&sample), &write_records(&never)]);
    for sheet in [full, unindexed] {
        refused_by_every_job(&with_part(&sheet, 6, &[0; 170]), 23);
    }
    // Once it is answered with yes, the others are asked.
    let counted = Beyond::default().counted().with_records(&sample, &never);
    let refused = |number| Err::<Vec<u8>, u32>(number);
    schedule_in(&counted, [0, 0], add(P1[0], 0), &refused(18));
    schedule_in(&counted, [0, 0], take_out(4_096), &refused(17));
    let viewed = rollmap::view(&counted, OUTSIDE, &mut []);
    assert_eq!(viewed, Err(Refusal::Window));
    assert_eq!(rollmap::judge(&counted), Err(Refusal::Judgement));
    assert_eq!(
        rollmap::judge(&one_part(&sample)),
        Err(Refusal::Unscheduled)
    );
}
