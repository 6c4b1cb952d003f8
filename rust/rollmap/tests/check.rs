//! Checking, compared with the oracle on accepted and damaged sheets.

mod common;

use common::jobs::check;
use common::{
    bodies_of, joined, one_part, our_records, scheduled, scheduled_having, scheduled_of,
    scheduled_with, some_sheet, three_parts, with_part_4, with_part_7, Beyond, Tally,
};
use oracle::fraction::Fraction;
use oracle::mark::{touching_value, write_marks, Mark};
use oracle::process::schedule_in_rank_order;
use oracle::rank::Edition::{First, Second};
use oracle::record::{write_records, Record};
use oracle::reel::Reel;
use oracle::sample::{
    each_list, marks, popups, raw_sheet, Generator, Layout, Popups, CODES_TAKEN, P1,
};
use oracle::shape::Shape;
use oracle::sheet::{join, join_parts};
use oracle::tree::write_tree;

/// Accepted sheets of one to seven parts: P1, no marks, and a few samples.
fn small_sheets() -> Vec<Vec<u8>> {
    let samples = [
        P1.to_vec(),
        Vec::new(),
        marks(Layout::Extreme, 3, 5),
        marks(Layout::Grid, 6, 8),
        marks(Layout::OnePlace, 2, 1),
    ];
    let mut sheets = Vec::new();
    for sample in samples {
        // Every list of codes has part 1.
        sheets.extend(scheduled_having(1, &sample));
        sheets.push(scheduled_with(Some(Second), &sample));
    }
    sheets
}

#[test]
fn proved_examples() {
    assert_eq!(check(&one_part(&[Mark::plain(0, 0, 16_383, 0)])), 0);
    assert_eq!(check(&one_part(&[Mark::plain(0, 0, 16_384, 0)])), 6);
    let of = |kind| Mark {
        kind,
        ..Mark::plain(0, 0, 0, 0)
    };
    assert_eq!(check(&one_part(&[of(199)])), 0);
    assert_eq!(check(&one_part(&[of(200)])), 5);
    assert_eq!(check(&[1, 0, 1, 0, 0x0c, 0, 0, 0, 0, 0, 0, 0]), 0);
    assert_eq!(check(&scheduled(&P1)), 0);
}

#[test]
fn every_byte_of_small_sheets_with_every_value() {
    for mut sheet in small_sheets() {
        assert_eq!(check(&sheet), 0);
        for at in 0..sheet.len() {
            let own = sheet[at];
            for value in 0..=255 {
                sheet[at] = value;
                check(&sheet);
            }
            sheet[at] = own;
        }
    }
}

#[test]
fn every_length_of_small_sheets() {
    for mut sheet in small_sheets() {
        for length in 0..sheet.len() {
            assert_ne!(check(&sheet[..length]), 0);
        }
        for _ in 0..40 {
            sheet.push(0);
            assert_eq!(check(&sheet), 3);
        }
    }
}

/// Where the fields of the contents stand in a sheet of so many parts, and their
/// widths: the number of parts, then code, offset and length of each.
fn fields(parts: usize) -> Vec<(usize, usize)> {
    let entries = (0..parts).map(|part| 2 + 10 * part);
    let of_entry = |at| [(at, 2), (at + 2, 4), (at + 6, 4)];
    let mut fields = vec![(0, 2)];
    fields.extend(entries.flat_map(of_entry));
    fields
}

/// The sheet with a field of its contents changed to a value near its own, or at an
/// end of its range.
fn with_field(sheet: &[u8], (at, width): (usize, usize), choice: u32) -> Vec<u8> {
    let mut wide = [0; 4];
    wide[..width].copy_from_slice(&sheet[at..at + width]);
    let own = u32::from_le_bytes(wide);
    let value = match choice {
        0..=8 => choice,
        9 => own.wrapping_add(1),
        10 => own.wrapping_sub(1),
        11 => own.wrapping_add(11),
        12 => own.wrapping_sub(14),
        13 => own.wrapping_neg(),
        14 => own ^ 0x8000_8000,
        15 => own ^ 0x0100_0100,
        16 => sheet.len() as u32,
        _ => u32::MAX,
    };
    let mut changed = sheet.to_vec();
    changed[at..at + width].copy_from_slice(&value.to_le_bytes()[..width]);
    changed
}

/// How many changes of a field are tried.
const CHOICES: u32 = 18;

#[test]
fn every_field_of_the_contents_and_every_two() {
    let mut numbers = Tally::default();
    let codes: [&[u16]; 8] = [
        &[1, 2, 3],
        &[1, 2, 3, 4],
        &[1, 2, 3, 5],
        &[1, 2, 6],
        &[1, 2, 3, 4, 5],
        &[1, 2, 3, 4, 5, 6],
        &[1, 2, 3, 7],
        &[1, 2, 3, 4, 5, 6, 7],
    ];
    for sheet in codes.into_iter().flat_map(|codes| {
        let marks: [&[Mark]; 2] = [&P1, &[]];
        marks.map(|marks| scheduled_of(codes, marks, &[0; 4][..marks.len()]))
    }) {
        let fields = fields(sheet[0].into());
        for &first in &fields {
            for choice in 0..CHOICES {
                let once = with_field(&sheet, first, choice);
                numbers.add(check(&once));
                for &second in &fields {
                    for choice in 0..CHOICES {
                        check(&with_field(&once, second, choice));
                    }
                }
            }
        }
    }
    numbers.assert_reached([0, 1, 2, 3, 7, 19, 21, 23, 24], 1);
}

#[test]
fn ends_that_wrap_are_no_ends() {
    let body = write_marks(&P1);
    let number = |entries: &[(u16, u32, u32)]| check(&raw_sheet(entries, &body));
    for missing in [1, 10, 11, 22, 32, 33, 44, 54, 1 << 16, 1 << 31] {
        // In 32 bits a body of this length ends so many bytes before it starts.
        let long = 0_u32.wrapping_sub(missing);
        let after = |offset: u32| offset.wrapping_add(long);
        for rest in 0..100 {
            let second = [(1, 22, long), (2, after(22), rest)];
            assert_eq!(number(&second), 3);
            let second = [
                (1, 32, long),
                (2, after(32), rest),
                (3, after(32 + rest), 44),
            ];
            assert_eq!(number(&second), 3);
            let third = [(1, 32, 44), (2, 76, long), (3, after(76), rest)];
            assert_eq!(number(&third), 3);
        }
    }
    let last = [(1, 32, 0), (2, 32, 5), (3, 37, u32::MAX - 4)];
    assert_eq!(check(&raw_sheet(&last, &[])), 3);
}

#[test]
fn every_length_of_a_body() {
    let bodies = bodies_of(&P1, &our_records(&P1));
    for parts in 1..=3 {
        for body in 0..parts {
            for length in 0..bodies[body].len() + 30 {
                let mut changed = bodies.clone();
                changed[body].resize(length, 0);
                check(&joined(&changed[..parts]));
            }
        }
    }
    for length in [45_045, 45_055, 45_056, 45_057, 45_067, 45_078, 65_536 * 11] {
        let number = check(&join(&[&vec![0; length]]));
        assert_eq!(number == 0, length <= 45_056 && length % 11 == 0);
    }
}

#[test]
fn every_list_of_codes() {
    let mut numbers = Tally::default();
    let bodies: [[&[u8]; 4]; 6] = [
        [&[1], &[], &[0; 170], &[2]],
        [&[2], &[0; 4], &[0; 170], &[1]],
        [&[0], &[], &[], &[2]],
        [&[], &[0], &[], &[0]],
        [&[2], &[], &[0; 169], &[1]],
        [&[1], &[], &[0; 170], &[]],
    ];
    let mut try_list = |codes: &[u16]| {
        for [part_4, part_5, part_6, part_7] in bodies {
            let body = |code| match code {
                4 => part_4,
                5 => part_5,
                6 => part_6,
                7 => part_7,
                _ => &[],
            };
            let parts: Vec<_> = codes.iter().map(|&code| (code, body(code))).collect();
            let number = check(&join_parts(&parts));
            let taken = CODES_TAKEN.contains(&codes);
            assert_eq!(taken, [0, 19, 21, 23, 24].contains(&number), "{codes:?}");
            numbers.add(number);
        }
    };
    for length in 0..=5 {
        each_list(&[0, 1, 2, 3, 4, 5, 6, 7, 8], length, &mut try_list);
    }
    // As many as there are, and one more.
    for length in [6, 7, 8] {
        each_list(&[1, 2, 6, 7], length, &mut try_list);
    }
    CODES_TAKEN.iter().for_each(|codes| try_list(codes));
    try_list(&[1, 2, 3, 4, 5, 6, 8]);
    try_list(&[1, 2, 3, 4, 5, 6, 7, 8]);
    numbers.assert_reached([0, 1, 2, 19, 21, 23, 24], 5);
}

#[test]
fn every_byte_and_some_lengths_of_parts_4_and_7() {
    let (part_1, part_2) = (write_marks(&P1), write_records(&our_records(&P1)));
    let sheets = [
        one_part(&P1),
        join(&[&part_1, &part_2]),
        scheduled(&P1),
        scheduled(&[]),
    ];
    for sheet in sheets {
        for byte in 0..=255 {
            let named = byte == 1 || byte == 2;
            let [edition, shape] = [19, 24].map(|refused| if named { 0 } else { refused });
            assert_eq!(check(&with_part_4(&sheet, &[byte])), edition);
            assert_eq!(check(&with_part_7(&sheet, &[byte])), shape);
            for length in [2, 3, 10, 11, 14] {
                assert_eq!(check(&with_part_4(&sheet, &vec![byte; length])), 19);
                assert_eq!(check(&with_part_7(&sheet, &vec![byte; length])), 24);
            }
        }
        assert_eq!(check(&with_part_4(&sheet, &[])), 19);
        assert_eq!(check(&with_part_7(&sheet, &[])), 24);
    }
}

#[test]
fn part_4_is_asked_after_7_and_before_8() {
    let (part_1, part_2) = (write_marks(&P1), write_records(&our_records(&P1)));
    for part_4 in [&[][..], &[0], &[3], &[255], &[1, 1]] {
        let numbers = |part_2: &[u8], part_3: &[u8]| {
            let without_index = join_parts(&[(1, &part_1), (2, part_2), (4, part_4)]);
            let whole = join(&[&part_1, part_2, part_3, part_4]);
            [check(&without_index), check(&whole)]
        };
        assert_eq!(numbers(&part_2[1..], &[0; 7]), [7, 7]);
        assert_eq!(numbers(&[0; 56], &[0; 7]), [19, 7]);
        assert_eq!(numbers(&[0; 56], &[0; 8]), [19, 19]);
        assert_eq!(numbers(&part_2, &[0; 8]), [19, 19]);
    }
}

#[test]
fn every_kind_with_radii_at_both_sides_of_the_limit() {
    let good = Mark::plain(3, -4, 5, 6);
    for kind in 0..=255 {
        for radius in [0, 1, 255, 256, 16_383, 16_384, 32_768, 65_535] {
            let odd = Mark {
                kind,
                radius,
                ..good
            };
            for other in [
                good,
                Mark { kind: 200, ..good },
                Mark::plain(0, 0, 16_384, 0),
            ] {
                check(&one_part(&[odd, other]));
                check(&one_part(&[other, odd]));
                check(&one_part(&[good, odd, other, good]));
            }
        }
    }
}

/// Records near the one of `mark` that goes for `other`: exact, by the touching value alone, of
/// this shape and of the other, reduced, scaled, off by one, and with numbers of any size.
fn records_near(reel: Reel, mark: usize, other: usize) -> Vec<Record> {
    let Fraction {
        numerator,
        denominator,
    } = reel.pair_value(other, mark);
    let [disks, squares] =
        Shape::ALL.map(|shape| touching_value(shape, &reel.marks[other], &reel.marks[mark]));
    let mut near = vec![
        (numerator, denominator),
        (disks.numerator, disks.denominator),
        (squares.numerator, squares.denominator),
        (2 * numerator, 2 * denominator),
        (numerator / 2, denominator / 2),
        (numerator + 1, denominator),
        (numerator.wrapping_sub(1), denominator),
        (numerator, denominator + 1),
        (numerator, denominator - 1),
        (numerator, 0),
        (0, denominator),
        (0, 0),
        (numerator + (1 << 32), denominator),
        (numerator, denominator ^ 1 << 16),
        (u64::MAX, u32::MAX),
        (u64::MAX, 1),
        (1, u32::MAX),
    ];
    for divisor in [3, 4, 5, 9, 25, 100, 400, 4_096] {
        near.push((numerator / u64::from(divisor), denominator / divisor));
    }
    let of =
        |(numerator, denominator)| Record::removed(other, Fraction::new(numerator, denominator));
    near.into_iter().map(of).collect()
}

#[test]
fn records_for_every_mark_that_nearly_fit() {
    let mut numbers = [(); 4].map(|()| Tally::default());
    for (seed, layout) in (0..12).flat_map(|seed| Layout::ALL.map(|layout| (seed, layout))) {
        let sample = marks(layout, 5, seed);
        let how = Popups::ALL[seed as usize % Popups::ALL.len()];
        let popping_up = Beyond::popping_up(popups(how, &sample, seed));
        let disks = [Beyond::default(), popping_up];
        let squares = disks.clone();
        let squares = squares.map(|beyond| beyond.with_shape(Some(Shape::Square)));
        for (beyond, numbers) in disks.iter().chain(&squares).zip(&mut numbers) {
            let reel = beyond.reel(&sample);
            let ours = schedule_in_rank_order(reel);
            for mark in 0..sample.len() {
                let mut records = ours.clone();
                for other in 0..sample.len() {
                    for record in records_near(reel, mark, other) {
                        records[mark] = record;
                        numbers.add(check(&beyond.with_records(&sample, &records)));
                    }
                }
                for eliminator in [0, 4, 5, 6, 256, 4_096, 65_534, 65_535] {
                    records[mark] = Record {
                        eliminator,
                        ..ours[mark]
                    };
                    check(&beyond.with_records(&sample, &records));
                }
            }
        }
    }
    for numbers in numbers {
        numbers.assert_reached([0, 8], 300);
    }
}

#[test]
fn a_record_for_a_mark_that_goes_at_the_same_value_or_before() {
    // Mark 1 goes at 25, the value it has with mark 2, however that is written.
    for (x, radius) in [
        (200, 10),
        (160, 2),
        (159, 2),
        (161, 2),
        (199, 10),
        (201, 10),
    ] {
        let sample = [P1[0], P1[1], Mark::plain(x, 0, radius, 1)];
        let value = |a: usize, b: usize| First.reel(&sample).pair_value(a, b);
        let records = [
            Record::NEVER,
            Record::removed(0, value(0, 1)),
            Record::removed(1, value(1, 2)),
        ];
        let earlier = value(1, 2).compare(value(0, 1)).is_lt();
        let number = check(&three_parts(&sample, &records));
        assert_eq!(number, if earlier { 0 } else { 8 }, "{x} {radius}");
    }
}

#[test]
fn every_tree_of_a_few_marks() {
    let mut generator = Generator::new(4);
    let mut accepted = 0;
    let mut lists = 0;
    for (layout, n) in Layout::ALL
        .into_iter()
        .flat_map(|layout| (1..=5).map(move |n| (layout, n)))
    {
        let sample = marks(layout, n, n as u64);
        let ours = our_records(&sample);
        for records in [
            ours,
            common::foreign_records(&mut generator, First.reel(&sample)),
        ] {
            let (part_1, part_2) = (write_marks(&sample), write_records(&records));
            let mut choice: Vec<u16> = (0..n as u16).collect();
            choice.extend([n as u16, 256].iter().take(5 - n.min(5)));
            each_list(&choice, n as u32, &mut |tree| {
                let number = check(&join(&[&part_1, &part_2, &write_tree(tree)]));
                accepted += usize::from(number == 0);
            });
            lists += 1;
        }
    }
    assert_eq!(
        accepted, lists,
        "one tree is accepted for each list of records"
    );
}

#[test]
fn trees_with_two_numbers_exchanged() {
    for layout in Layout::ALL {
        let sample = marks(layout, 24, 3);
        let mut sheet = scheduled(&sample);
        let start = sheet.len() - 48;
        for a in 0..24 {
            for b in 0..a {
                sheet.swap(start + 2 * a, start + 2 * b);
                assert_eq!(check(&sheet), 9);
                sheet.swap(start + 2 * a, start + 2 * b);
            }
        }
        assert_eq!(check(&sheet), 0);
    }
}

#[test]
fn many_sheets_with_a_few_faults() {
    let mut generator = Generator::new(2);
    let mut numbers = Tally::default();
    for _ in 0..100_000 {
        let sheet = some_sheet(&mut generator);
        numbers.add(check(&sheet));
    }
    numbers.assert_reached((0..=9).chain([19, 21, 23, 24]), 500);
}

#[test]
fn the_largest_sheets_and_some_faults_in_them() {
    let mut generator = Generator::new(3);
    for layout in Layout::ALL {
        let sample = marks(layout, 4_096, 1);
        let records = common::foreign_records(&mut generator, First.reel(&sample));
        let mut sheet = three_parts(&sample, &records);
        assert_eq!(check(&sheet), 0);
        for _ in 0..12 {
            let at = generator.below(sheet.len() as u32) as usize;
            let bit = 1 << generator.below(8);
            sheet[at] ^= bit;
            check(&sheet);
            sheet[at] ^= bit;
        }
        let last = sheet.len() - 2;
        sheet.swap(last, last - 2);
        sheet.swap(last + 1, last - 1);
        check(&sheet);
    }
}
