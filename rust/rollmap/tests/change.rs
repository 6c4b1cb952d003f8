//! Adding a mark and taking one out, compared with the oracle byte for byte.

mod common;

use common::jobs::{assert_made, records};
use common::{
    bound, foreign_records, lengths, longest, one_part, schedule_in, scheduled, some_marks,
    some_room, some_sheet, three_parts, tied_marks, Beyond, Expected, Tally, Written,
};
use oracle::mark::Mark;
use oracle::rank::Edition::First;
use oracle::record::Record;
use oracle::sample::{marks, refused_sheets, small_choice, Generator, Layout, P1};
use rollmap::{work_bytes, Refusal, Work};

/// A mark with something in every field.
const NEW: Mark = Mark {
    x: -300,
    y: 1_025,
    radius: 0,
    priority: 513,
    kind: 149,
    tag: 65_534,
};

/// A mark comes, with its popup, or the mark of a number goes.
#[derive(Clone, Copy, Debug)]
enum Change {
    Add(Mark, u32),
    TakeOut(u32),
}

use Change::{Add, TakeOut};

impl Change {
    /// What the library makes of a sheet.
    fn make(self, sheet: &[u8], work: Work<'_>, out: &mut [u8]) -> Written {
        match self {
            Add(mark, popup) => rollmap::add(sheet, bound(&mark), popup, work, out),
            TakeOut(m) => rollmap::take_out(sheet, m, work, out),
        }
    }

    /// What the library makes of a sheet in buffers of its own.
    fn make_to_vec(self, sheet: &[u8]) -> Result<Vec<u8>, Refusal> {
        match self {
            Add(mark, popup) => rollmap::add_to_vec(sheet, bound(&mark), popup),
            TakeOut(m) => rollmap::take_out_to_vec(sheet, m),
        }
    }

    /// What the oracle makes of a sheet in buffers of these lengths.
    fn expected(self, sheet: &[u8], [work, out]: [usize; 2]) -> Expected {
        match self {
            Add(mark, popup) => oracle::change::add(sheet, mark, popup, work, out),
            TakeOut(m) => oracle::change::take_out(sheet, m, work, out),
        }
    }

    /// What becomes of the marks, where the change is not refused.
    fn of(self, old: &[Mark]) -> Vec<Mark> {
        let mut new = old.to_vec();
        match self {
            Add(mark, _) => new.push(mark),
            TakeOut(m) => _ = new.remove(m as usize),
        }
        new
    }

    /// Some change of a sheet of n marks, most often one that is not refused where it has a
    /// part 5, or has none.
    fn draw(generator: &mut Generator, n: usize, part_5: bool) -> Self {
        if generator.below(2) == 0 {
            let mut choice = marks(generator.choose(&Layout::ALL), 1, generator.draw());
            choice.extend([NEW, NEW]);
            let popup = match generator.below(8) {
                0 => generator.choose(&[1, 65_536, 65_537, 1 << 17, u32::MAX]),
                1..=5 if part_5 => generator.below(65_537) >> generator.below(17),
                _ => 0,
            };
            return Add(generator.choose(&choice), popup);
        }
        let n = n as u32;
        let wide = generator.choose(&[1 << 8, 1 << 12, 1 << 16, 1 << 31]);
        TakeOut(match generator.below(8) {
            0 => n,
            1 => wide + generator.below(n + 1),
            2 => n.wrapping_sub(1),
            _ => generator.below(n.max(1)),
        })
    }
}

/// Makes a change in buffers of these lengths, and sees that the answer and every byte
/// are as expected. Answers the number.
fn make_in(sheet: &[u8], change: Change, lengths: [usize; 2], expected: &Expected) -> u32 {
    let call = |sheet: &[u8], work: Work<'_>, out: &mut [u8]| change.make(sheet, work, out);
    schedule_in(sheet, lengths, call, expected)
}

/// Makes a change in buffers of these lengths, and sees that the answer and every byte
/// are the oracle's. Answers the number.
fn change(sheet: &[u8], change: Change, lengths: [usize; 2]) -> u32 {
    make_in(sheet, change, lengths, &change.expected(sheet, lengths))
}

/// Makes a change of a sheet of these marks in buffers that are just long enough, and
/// sees that it writes the sheet that scheduling the new marks does, worked out here in
/// the order of rank, and leaves every other byte.
fn becomes(sheet: &[u8], old: &[Mark], change: Change) {
    let new = change.of(old);
    make_in(sheet, change, lengths(new.len()), &Ok(scheduled(&new)));
}

/// Makes changes one after the other, none of which is refused.
fn changed(sheet: &[u8], changes: impl IntoIterator<Item = Change>) -> Vec<u8> {
    let make = |sheet: Vec<u8>, change: Change| change.make_to_vec(&sheet).unwrap();
    changes.into_iter().fold(sheet.to_vec(), make)
}

/// Splits the last off some marks, of which there is at least one.
fn split_last(marks: &[Mark]) -> (&[Mark], Mark) {
    let (&last, others) = marks.split_last().expect("there is a mark");
    (others, last)
}

// ---- what is written

#[test]
fn p1_comes_and_goes_mark_by_mark() {
    let mut sheet = scheduled(&[]);
    for n in 0..P1.len() {
        becomes(&sheet, &P1[..n], Add(P1[n], 0));
        sheet = changed(&sheet, [Add(P1[n], 0)]);
    }
    assert_eq!(sheet, scheduled(&P1));
    for n in 0..P1.len() {
        becomes(&sheet, &P1[n..], TakeOut(0));
        sheet = changed(&sheet, [TakeOut(0)]);
    }
    assert_eq!(sheet, scheduled(&[]));
}

#[test]
fn eliminators_go_by_the_new_numbers() {
    let fewer = changed(&scheduled(&P1), [TakeOut(0)]);
    let expected = [
        Record::NEVER,
        Record::new(0, 10_000, 400),
        Record::new(0, 10_009, 225),
    ];
    assert_eq!(records(&fewer), expected);
    let more = changed(&fewer, [Add(P1[0], 0)]);
    let expected = [
        Record::new(3, 10_000, 400),
        Record::new(3, 40_000, 400),
        Record::new(3, 9, 225),
        Record::NEVER,
    ];
    assert_eq!(records(&more), expected);
}

#[test]
fn every_field_of_a_new_mark() {
    let ends = [
        Mark::plain(i16::MIN, i16::MAX, 16_383, 0),
        Mark::plain(i16::MAX, i16::MIN, 1, 65_535),
        Mark {
            kind: 199,
            tag: 65_535,
            ..Mark::plain(-1, 1, 256, 256)
        },
        Mark {
            tag: 256,
            ..Mark::plain(255, -256, 0, 1)
        },
        NEW,
    ];
    for mark in ends {
        for old in [&[], &P1[..1], &P1[..]] {
            becomes(&scheduled(old), old, Add(mark, 0));
        }
    }
}

#[test]
fn many_small_sheets() {
    for layout in Layout::ALL {
        for seed in 0..600 {
            let sample = marks(layout, 1 + seed as usize % 24, seed);
            let (others, last) = split_last(&sample);
            becomes(&scheduled(others), others, Add(last, 0));
            let m = seed as u32 % sample.len() as u32;
            becomes(&scheduled(&sample), &sample, TakeOut(m));
        }
    }
}

#[test]
fn each_mark_of_small_sheets_is_taken_out() {
    let mut generator = Generator::new(61);
    for n in 1..=12 {
        let layouts = Layout::ALL.map(|layout| marks(layout, n, 7));
        for sample in layouts.into_iter().chain([tied_marks(&mut generator, n)]) {
            let sheet = scheduled(&sample);
            for m in 0..n as u32 {
                becomes(&sheet, &sample, TakeOut(m));
                assert_eq!(change(&sheet, TakeOut(m), lengths(n - 1)), 0);
            }
        }
    }
}

#[test]
fn every_change_of_two_marks_from_a_small_choice() {
    let choice = small_choice();
    for &a in &choice {
        for &b in &choice {
            let sheet = scheduled(&[a, b]);
            for &new in &choice {
                becomes(&sheet, &[a, b], Add(new, 0));
            }
            becomes(&sheet, &[a, b], TakeOut(0));
            becomes(&sheet, &[a, b], TakeOut(1));
        }
    }
}

#[test]
fn many_sheets_full_of_ties() {
    let mut generator = Generator::new(62);
    for _ in 0..3_000 {
        let n = 2 + generator.below(30);
        let sample = tied_marks(&mut generator, n as usize);
        let (others, last) = split_last(&sample);
        becomes(&scheduled(others), others, Add(last, 0));
        let m = generator.below(n);
        becomes(&scheduled(&sample), &sample, TakeOut(m));
    }
}

#[test]
fn sheets_about_the_number_from_which_cells_are_used() {
    let mut generator = Generator::new(63);
    for layout in Layout::ALL {
        for n in [191, 192, 193, 255, 256, 257, 300, 700] {
            let sample = marks(layout, n, 8);
            let (others, last) = split_last(&sample);
            becomes(&scheduled(others), others, Add(last, 0));
            let m = generator.below(n as u32);
            becomes(&scheduled(&sample), &sample, TakeOut(m));
        }
    }
}

#[test]
fn the_largest_sheets() {
    let layouts = [
        Layout::Uniform,
        Layout::Clustered,
        Layout::Reel,
        Layout::OnePlace,
    ];
    for layout in layouts {
        let sample = marks(layout, 4_096, 9);
        let (others, last) = split_last(&sample);
        becomes(&scheduled(others), others, Add(last, 0));
        let sheet = scheduled(&sample);
        for m in [0, 2_048, 4_095] {
            becomes(&sheet, &sample, TakeOut(m));
        }
    }
}

#[test]
fn a_schedule_that_is_not_ours_is_taken_and_the_result_is_fresh() {
    let mut generator = Generator::new(64);
    for layout in Layout::ALL {
        for n in [0, 1, 2, 5, 30, 120] {
            let sample = marks(layout, n, 3);
            let never = vec![Record::NEVER; n];
            for records in [never, foreign_records(&mut generator, First.reel(&sample))] {
                let foreign = three_parts(&sample, &records);
                becomes(&foreign, &sample, Add(NEW, 0));
                if n > 0 {
                    let m = generator.below(n as u32);
                    becomes(&foreign, &sample, TakeOut(m));
                }
                let back = changed(&foreign, [Add(NEW, 0), TakeOut(n as u32)]);
                assert_eq!(back, scheduled(&sample));
            }
        }
    }
}

#[test]
fn a_scheduled_sheet_comes_back_byte_for_byte() {
    let mut generator = Generator::new(65);
    for _ in 0..2_000 {
        let sample = some_marks(&mut generator);
        let n = sample.len();
        let sheet = rollmap::schedule_to_vec(&one_part(&sample)).unwrap();
        let new = marks(generator.choose(&Layout::ALL), 1, generator.draw());
        let back = changed(&sheet, [Add(new[0], 0), TakeOut(n as u32)]);
        assert_eq!(back, sheet);
        // A copy of a mark that is there is a mark of its own.
        if n > 0 {
            let twin = generator.choose(&sample);
            let back = changed(&sheet, [Add(twin, 0), TakeOut(n as u32)]);
            assert_eq!(back, sheet);
        }
    }
}

#[test]
fn changes_one_after_the_other_are_one_scheduling() {
    let mut generator = Generator::new(66);
    for _ in 0..300 {
        let mut held = some_marks(&mut generator);
        let first = scheduled(&held);
        let mut changes = Vec::new();
        for _ in 0..generator.below(20) {
            let next = match Change::draw(&mut generator, held.len(), false) {
                TakeOut(m) if (m as usize) < held.len() => TakeOut(m),
                TakeOut(_) => Add(NEW, 0),
                Add(mark, _) => Add(mark, 0),
            };
            held = next.of(&held);
            changes.push(next);
        }
        assert_eq!(changed(&first, changes), scheduled(&held));
    }
}

#[test]
fn what_the_work_buffer_held_makes_no_difference() {
    let mut generator = Generator::new(67);
    for n in [0, 1, 7, 64, 250, 1_000] {
        let sample = marks(Layout::Clustered, n, 31);
        let sheet = scheduled(&sample);
        let first = (n > 0).then_some(TakeOut(0));
        for next in [Add(NEW, 0)].into_iter().chain(first) {
            let expected = scheduled(&next.of(&sample));
            let mut work = vec![0; work_bytes(n + 1)];
            let mut out = vec![0; expected.len()];
            for turn in 0..4 {
                match turn {
                    1 => work.fill(0xff),
                    2 => work.fill_with(|| generator.draw() as u8),
                    _ => {} // zeros, and what the turn before left
                }
                out.fill(turn);
                let written = next.make(&sheet, Work(&mut work), &mut out);
                assert_eq!(written, Ok(expected.len()));
                assert!(out == expected, "{next:?} {n} {turn}");
            }
        }
    }
}

// ---- what is asked

/// New marks by the number that refuses them.
fn refused_marks() -> [(u32, Mark); 4] {
    let with = |kind, radius| Mark {
        kind,
        radius,
        ..NEW
    };
    [
        (5, with(200, 16_384)),
        (5, with(255, 0)),
        (6, with(199, 16_384)),
        (6, with(0, 65_535)),
    ]
}

#[test]
fn questions_1_to_10_come_first() {
    let [(_, unknown), ..] = refused_marks();
    for (number, sheet) in refused_sheets() {
        for next in [
            Add(NEW, 0),
            Add(NEW, 65_537),
            Add(unknown, 0),
            TakeOut(0),
            TakeOut(4),
            TakeOut(65_536),
        ] {
            for lengths in [[0, 0], lengths(5), longest()] {
                assert_eq!(change(&sheet, next, lengths), number, "{next:?}");
            }
        }
    }
}

#[test]
fn every_number_near_n_and_beyond_16_bits() {
    for n in [0, 1, 2, 4, 9] {
        let sheet = scheduled(&marks(Layout::Grid, n, 4));
        let near = 0..n as u32 + 3;
        for m in near.clone() {
            let expected = if (m as usize) < n { 0 } else { 17 };
            assert_eq!(change(&sheet, TakeOut(m), longest()), expected, "{n} {m}");
        }
        for beyond in [1 << 8, 1 << 12, 1 << 16, 1 << 17, 1 << 24, 1 << 31] {
            for m in near.clone().map(|m| beyond + m) {
                assert_eq!(change(&sheet, TakeOut(m), longest()), 17, "{n} {m}");
            }
        }
        assert_eq!(change(&sheet, TakeOut(u32::MAX), longest()), 17);
    }
}

#[test]
fn a_number_is_asked_before_the_buffers() {
    let sheet = scheduled(&P1);
    for lengths in [[0, 0], lengths(2), lengths(3), longest()] {
        assert_eq!(change(&sheet, TakeOut(4), lengths), 17);
        let expected = if lengths[0] < work_bytes(3) { 13 } else { 0 };
        assert_eq!(change(&sheet, TakeOut(3), lengths), expected);
    }
}

#[test]
fn a_full_sheet_is_asked_before_the_new_mark() {
    let sample = marks(Layout::Line, 4_096, 5);
    let never = vec![Record::NEVER; 4_096];
    let full = three_parts(&sample, &never);
    let fewer = three_parts(&sample[1..], &never[1..]);
    for (number, mark) in refused_marks() {
        for (lengths, popup) in [[0, 0], longest()]
            .into_iter()
            .flat_map(|lengths| [0, 1, 65_537].map(|popup| (lengths, popup)))
        {
            assert_eq!(change(&full, Add(mark, popup), lengths), 18);
            assert_eq!(change(&fewer, Add(mark, popup), lengths), number);
        }
    }
    for lengths in [[0, 0], lengths(4_096), lengths(4_097)] {
        assert_eq!(change(&full, Add(NEW, 0), lengths), 18);
        assert_eq!(change(&full, Add(NEW, 65_537), lengths), 18);
        assert_eq!(change(&fewer, Add(NEW, 65_537), lengths), 21);
    }
    let [work, out] = lengths(4_096);
    assert_eq!(change(&fewer, Add(NEW, 0), [work - 1, out]), 13);
    assert_eq!(change(&fewer, Add(NEW, 0), [work, out - 1]), 13);
    assert_eq!(change(&full, TakeOut(4_096), longest()), 17);
    assert_eq!(change(&one_part(&sample), Add(NEW, 0), longest()), 10);
    assert_eq!(change(&one_part(&sample), TakeOut(4_096), longest()), 10);
}

#[test]
fn every_kind_of_a_new_mark_with_radii_at_both_sides_of_the_limit() {
    let sheet = scheduled(&P1);
    for kind in 0..=255 {
        for radius in [0, 1, 255, 256, 16_383, 16_384, 32_768, 65_535] {
            let mark = Mark {
                kind,
                radius,
                ..NEW
            };
            let expected = match (kind, radius) {
                (200.., _) => 5,
                (_, 16_384..) => 6,
                _ => 0,
            };
            assert_eq!(change(&sheet, Add(mark, 0), lengths(5)), expected);
            let short = if expected == 0 { 13 } else { expected };
            assert_eq!(change(&sheet, Add(mark, 0), [0, 0]), short);
            // The popup is asked about right after these.
            let popup = if expected == 0 { 21 } else { expected };
            assert_eq!(change(&sheet, Add(mark, 7), [0, 0]), popup);
        }
    }
}

#[test]
fn lengths_of_both_buffers() {
    for n in [0, 1, 4] {
        let sheet = scheduled(&P1[..n]);
        let first = (n > 0).then_some(TakeOut(0));
        for next in [Add(NEW, 0)].into_iter().chain(first) {
            let [work, out] = lengths(next.of(&P1[..n]).len());
            for (longer_work, longer_out) in [(0, 0), (1, 0), (0, 1), (100, 3), (7, 500)] {
                let longer = [work + longer_work, out + longer_out];
                assert_eq!(change(&sheet, next, longer), 0);
            }
            for short_work in [0, 1, 1_023, work - 32, work - 1] {
                assert_eq!(change(&sheet, next, [short_work, out + 50]), 13);
                assert_eq!(change(&sheet, next, [short_work, 0]), 13);
            }
            for short_out in 0..out {
                assert_eq!(change(&sheet, next, [work + 50, short_out]), 13);
            }
        }
    }
}

#[test]
fn many_sheets_and_changes_with_a_few_faults() {
    let mut generator = Generator::new(68);
    let (mut added, mut taken_out) = (Tally::default(), Tally::default());
    for _ in 0..40_000 {
        let sheet = some_sheet(&mut generator);
        let (n, beyond) = oracle::sheet::open(&sheet).map_or_else(
            |_| (4, Beyond::default()),
            |opened| (opened.marks.len(), Beyond::of(&opened)),
        );
        let mut next = Change::draw(&mut generator, n, beyond.popups.is_some());
        if let (Add(mark, _), 0) = (&mut next, generator.below(6)) {
            (_, *mark) = generator.choose(&refused_marks());
        }
        let n = match next {
            Add(..) => n + 1,
            TakeOut(_) => n.saturating_sub(1),
        };
        let needed = beyond.lengths(n);
        let number = change(&sheet, next, needed.map(|it| some_room(&mut generator, it)));
        match next {
            Add(..) => added.add(number),
            TakeOut(_) => taken_out.add(number),
        }
    }
    added.assert_reached((0..=10).chain([13, 19, 21, 23, 24]), 50);
    taken_out.assert_reached((0..=10).chain([13, 17, 19, 21, 23, 24]), 50);
}

#[test]
fn a_new_mark_is_refused_on_sheets_that_are_taken() {
    let mut generator = Generator::new(69);
    for _ in 0..500 {
        let sample = some_marks(&mut generator);
        for (number, mark) in refused_marks() {
            assert_eq!(change(&scheduled(&sample), Add(mark, 0), longest()), number);
        }
    }
}

#[test]
fn the_buffers_of_its_own_are_long_enough() {
    let mut generator = Generator::new(70);
    let mut numbers = Tally::default();
    for _ in 0..4_000 {
        let sheet = some_sheet(&mut generator);
        let (n, part_5) = oracle::sheet::open(&sheet).map_or((4, false), |opened| {
            (opened.marks.len(), opened.popups.is_some())
        });
        let next = Change::draw(&mut generator, n, part_5);
        let made = next.make_to_vec(&sheet);
        let expected = next.expected(&sheet, longest());
        numbers.add(assert_made(&sheet, made, &expected));
    }
    numbers.assert_reached((0..=10).chain([17, 19, 21, 23, 24]), 5);
    let full = three_parts(&marks(Layout::Line, 4_096, 5), &[Record::NEVER; 4_096]);
    let refused = rollmap::add_to_vec(&full, bound(&NEW), 0);
    assert_eq!(refused, Err(Refusal::Full));
    let refused = rollmap::take_out_to_vec(&full, 4_096);
    assert_eq!(refused, Err(Refusal::Missing));
}
