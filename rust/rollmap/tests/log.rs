//! Logs turned into marks and marks into logs, compared with the oracle.

mod common;

use common::jobs::every_length;
use common::{damage_rows, some_marks, some_room, turn, Tally, FAULTS_OF_A_MARK};
use oracle::log::write_packed;
use oracle::mark::{write_marks, Mark};
use oracle::sample::{marks, Generator, Layout};
use rollmap::{LOG_RECORD_BYTES, MARK_BYTES};

fn log_to_marks(log: &[u8], out_length: usize, seed: u64) -> u32 {
    let expected = oracle::log::log_to_marks;
    turn(rollmap::log_to_marks, expected, log, out_length, seed)
}

fn marks_to_log(part_1: &[u8], out_length: usize, seed: u64) -> u32 {
    let expected = oracle::log::marks_to_log;
    turn(rollmap::marks_to_log, expected, part_1, out_length, seed)
}

/// The log of these marks.
fn log_of(marks: &[Mark]) -> Vec<u8> {
    rollmap::marks_to_log_vec(&write_marks(marks)).expect("the marks are taken")
}

/// A record with these coordinates, kind and radius.
fn record(x: [u8; 3], y: [u8; 3], kind: u8, radius: u16) -> Vec<u8> {
    let mut log = [x, y].concat();
    log.extend(radius.to_le_bytes());
    log.extend([5, 0, kind, 9, 1]);
    log
}

/// Coordinates that get 15 and 16, and one that is taken.
const UNPACKED: [u8; 3] = [0, 0, 0x0d];
const FAR: [u8; 3] = [0x99, 0x99, 0x9c];
const TAKEN: [u8; 3] = [0x12, 0x34, 0x5d];

#[test]
fn every_place_there_and_back() {
    let places: Vec<i16> = (i16::MIN..=i16::MAX).collect();
    for chunk in places.chunks(4_096) {
        let sample: Vec<Mark> = chunk
            .iter()
            .map(|&x| Mark::plain(x, !x, 1, x as u16))
            .collect();
        let (part_1, log) = (write_marks(&sample), log_of(&sample));
        assert_eq!(marks_to_log(&part_1, log.len(), 1), 0);
        assert_eq!(log_to_marks(&log, part_1.len(), 2), 0);
        assert_eq!(rollmap::log_to_marks_vec(&log), Ok(part_1));
    }
}

#[test]
fn coordinates_of_many_bytes() {
    let bytes = [
        0x00, 0x01, 0x09, 0x0a, 0x0c, 0x0d, 0x0f, 0x10, 0x1c, 0x32, 0x67, 0x76, 0x7c, 0x7d, 0x8c,
        0x8d, 0x8e, 0x90, 0x99, 0x9b, 0x9c, 0x9d, 0x9e, 0xa0, 0xc9, 0xdc, 0xff,
    ];
    let mut numbers = Tally::default();
    for a in bytes {
        for b in bytes {
            for c in bytes {
                for (x, y) in [([a, b, c], TAKEN), (TAKEN, [a, b, c])] {
                    let number = log_to_marks(&record(x, y, 0, 1), 11, u64::from(c));
                    numbers.add(number);
                }
            }
        }
    }
    numbers.assert_reached([0, 15, 16], 500);
}

#[test]
fn the_ends_of_the_range_and_minus_zero() {
    for (packed, expected) in [
        ([0x32, 0x76, 0x7c], 0),
        ([0x32, 0x76, 0x8c], 16),
        ([0x32, 0x76, 0x8d], 0),
        ([0x32, 0x76, 0x9d], 16),
        ([0x99, 0x99, 0x9c], 16),
        ([0x99, 0x99, 0x9d], 16),
        ([0x00, 0x00, 0x0c], 0),
        ([0x00, 0x00, 0x0d], 15),
        ([0x00, 0x00, 0x0a], 15),
        ([0x00, 0x00, 0x0f], 15),
        ([0x00, 0x00, 0xac], 15),
        ([0x0a, 0x00, 0x0c], 15),
    ] {
        assert_eq!(log_to_marks(&record(packed, TAKEN, 0, 1), 11, 1), expected);
        assert_eq!(log_to_marks(&record(TAKEN, packed, 0, 1), 11, 2), expected);
    }
    assert_eq!(write_packed(i16::MAX), [0x32, 0x76, 0x7c]);
}

#[test]
fn a_record_is_asked_by_x_y_kind_and_radius_before_the_next_one() {
    let faults = [
        (record(UNPACKED, FAR, 200, 16_384), 15),
        (record(FAR, UNPACKED, 200, 16_384), 16),
        (record(TAKEN, UNPACKED, 200, 16_384), 15),
        (record(TAKEN, FAR, 200, 16_384), 16),
        (record(TAKEN, TAKEN, 200, 16_384), 5),
        (record(TAKEN, TAKEN, 199, 16_384), 6),
    ];
    let taken = record(TAKEN, TAKEN, 199, 16_383);
    for (first, expected) in &faults {
        assert_eq!(log_to_marks(first, 0, 1), *expected);
        for (second, _) in &faults {
            let log = [first.as_slice(), second].concat();
            assert_eq!(log_to_marks(&log, 22, 2), *expected);
            let log = [&taken, first.as_slice(), second].concat();
            assert_eq!(log_to_marks(&log, 0, 3), *expected);
            // 4 is asked before all else.
            assert_eq!(log_to_marks(&log[1..], 33, 4), 4);
        }
    }
    assert_eq!(log_to_marks(&taken, 11, 5), 0);
    assert_eq!(log_to_marks(&taken, 10, 6), 13);
}

#[test]
fn every_length_of_the_input_and_of_the_written_buffer() {
    let sample = marks(Layout::Uniform, 4, 1);
    let (part_1, log) = (write_marks(&sample), log_of(&sample));
    every_length(log_to_marks, &log, [LOG_RECORD_BYTES, MARK_BYTES]);
    every_length(marks_to_log, &part_1, [MARK_BYTES, LOG_RECORD_BYTES]);
}

#[test]
fn the_most_records() {
    let sample = marks(Layout::Uniform, 4_096, 5);
    let (part_1, log) = (write_marks(&sample), log_of(&sample));
    assert_eq!(log_to_marks(&log, 45_056, 1), 0);
    assert_eq!(log_to_marks(&log, 45_055, 2), 13);
    assert_eq!(marks_to_log(&part_1, 53_248, 3), 0);
    assert_eq!(marks_to_log(&part_1, 53_247, 4), 13);
    let one_more = [log.as_slice(), &log[..13]].concat();
    assert_eq!(log_to_marks(&one_more, 1 << 17, 5), 4);
    let one_more = [part_1.as_slice(), &part_1[..11]].concat();
    assert_eq!(marks_to_log(&one_more, 1 << 17, 6), 4);
}

#[test]
fn many_logs_and_marks_with_a_few_faults() {
    let mut generator = Generator::new(41);
    let (mut of_logs, mut of_marks) = (Tally::default(), Tally::default());
    let faults = [
        (2, 0x0d),
        (5, 0x9a),
        (0, 0x99),
        (3, 0x99),
        (7, 0x40),
        (10, 200),
    ];
    for seed in 0..40_000 {
        let sample = some_marks(&mut generator);
        let (mut part_1, mut log) = (write_marks(&sample), log_of(&sample));
        damage_rows(&mut generator, &mut log, LOG_RECORD_BYTES, &faults);
        damage_rows(&mut generator, &mut part_1, MARK_BYTES, &FAULTS_OF_A_MARK);
        let needed = log.len() / LOG_RECORD_BYTES * MARK_BYTES;
        let room = some_room(&mut generator, needed);
        of_logs.add(log_to_marks(&log, room, seed));
        let needed = part_1.len() / MARK_BYTES * LOG_RECORD_BYTES;
        let room = some_room(&mut generator, needed);
        of_marks.add(marks_to_log(&part_1, room, seed));
    }
    of_logs.assert_reached([0, 4, 5, 6, 13, 15, 16], 100);
    of_marks.assert_reached([0, 4, 5, 6, 13], 100);
}

#[test]
fn accepted_logs_and_marks_come_back_byte_for_byte() {
    let mut generator = Generator::new(42);
    for layout in Layout::ALL {
        for n in [0, 1, 2, 30] {
            let mut sample = marks(layout, n, n as u64);
            for mark in &mut sample {
                mark.radius = generator.choose(&[0, mark.radius]);
                mark.tag = generator.draw() as u16;
            }
            let (part_1, log) = (write_marks(&sample), log_of(&sample));
            assert_eq!(rollmap::log_to_marks_vec(&log).as_ref(), Ok(&part_1));
            assert_eq!(rollmap::marks_to_log_vec(&part_1), Ok(log));
        }
    }
}

/// A number of five digits as packed decimal, by its text read as hexadecimal.
fn packed(number: i32) -> [u8; 3] {
    let sign = if number < 0 { 'd' } else { 'c' };
    let text = format!("{:05}{sign}", number.unsigned_abs());
    let bytes = u32::from_str_radix(&text, 16).expect("six digits");
    let [_, a, b, c] = bytes.to_be_bytes();
    [a, b, c]
}

#[test]
fn logs_by_another_hand() {
    let mut generator = Generator::new(43);
    let mut numbers = [0; 2];
    for seed in 0..4_000 {
        let coordinate = |generator: &mut Generator| generator.below(80_001) as i32 - 40_000;
        let (x, y) = (coordinate(&mut generator), coordinate(&mut generator));
        let log = record(packed(x), packed(y), 7, 0);
        let places = (i16::try_from(x), i16::try_from(y));
        let expected = if let (Ok(x), Ok(y)) = places {
            let mark = Mark {
                kind: 7,
                tag: 265,
                ..Mark::plain(x, y, 0, 5)
            };
            let part_1 = write_marks(&[mark]);
            assert_eq!(rollmap::log_to_marks_vec(&log).as_ref(), Ok(&part_1));
            assert_eq!(rollmap::marks_to_log_vec(&part_1).as_ref(), Ok(&log));
            0
        } else {
            16
        };
        assert_eq!(log_to_marks(&log, 11, seed), expected);
        numbers[usize::from(expected > 0)] += 1;
    }
    assert!(numbers.iter().all(|&times| times > 500), "{numbers:?}");
}
