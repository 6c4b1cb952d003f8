//! Marks rearranged by columns and columns into marks, compared with the oracle.

mod common;

use common::jobs::{every_length, first_no, Way, AS_WIDE};
use common::{
    damage_rows, number, one_part, scheduled, some_marks, some_room, some_sheet, turn, Beyond,
    Tally, FAULTS_OF_A_MARK,
};
use oracle::mark::{write_marks, Mark};
use oracle::sample::{marks, Generator, Layout};
use oracle::sheet::{join_parts, split};
use rollmap::{from_columns_vec, to_columns_vec, Code, Refusal, MARK_BYTES};

/// The longest part 1.
const LONGEST: usize = 45_056;

fn to_columns(part_1: &[u8], out_length: usize, seed: u64) -> u32 {
    let expected = oracle::columns::to_columns;
    turn(rollmap::to_columns, expected, part_1, out_length, seed)
}

fn from_columns(columns: &[u8], out_length: usize, seed: u64) -> u32 {
    let expected = oracle::columns::from_columns;
    turn(rollmap::from_columns, expected, columns, out_length, seed)
}

/// Both ways, of which each undoes the other.
const WAYS: [Way; 2] = [to_columns, from_columns];

/// So many bytes, of which each may be any.
fn some_bytes(generator: &mut Generator, length: usize) -> Vec<u8> {
    (0..length).map(|_| generator.draw() as u8).collect()
}

/// The number of 2 bytes at that place.
fn two_at(bytes: &[u8], at: usize) -> u16 {
    u16::from_le_bytes([bytes[at], bytes[at + 1]])
}

/// Sees that these marks have these columns, and these columns these marks.
fn assert_pair(part_1: &[u8], columns: &[u8]) {
    assert_eq!(to_columns_vec(part_1).as_deref(), Ok(columns));
    assert_eq!(from_columns_vec(columns).as_deref(), Ok(part_1));
    assert_eq!(to_columns(part_1, columns.len(), 1), 0);
    assert_eq!(from_columns(columns, part_1.len(), 2), 0);
}

/// Sees that these bytes come back from columns, and from marks.
fn assert_come_back(given: &[u8]) {
    let columns = to_columns_vec(given).expect("the marks are taken");
    assert_eq!(from_columns_vec(&columns).as_deref(), Ok(given));
    let part_1 = from_columns_vec(given).expect("the columns are taken");
    assert_eq!(to_columns_vec(&part_1).as_deref(), Ok(given));
}

// ---- by hand

/// Marks at these places, whose other fields differ from each other and from mark to mark.
fn at_places(places: &[(i16, i16)]) -> Vec<u8> {
    let mark = |(m, &(x, y)): (usize, &(i16, i16))| Mark {
        x,
        y,
        radius: 0x1000 + m as u16,
        priority: 0x2000 + m as u16,
        kind: (0x30 + m) as u8,
        tag: 0x4000 + m as u16,
    };
    write_marks(&places.iter().enumerate().map(mark).collect::<Vec<Mark>>())
}

#[test]
fn two_marks_by_hand() {
    let part_1 = [
        [5, 0, 2, 0, 255, 255, 7, 0, 250, 1, 2],
        [3, 0, 2, 1, 10, 0, 8, 0, 4, 3, 4],
    ];
    let columns = [
        [5, 0, 254, 255].as_slice(), // x: 5, then 3 - 5
        &[2, 0, 0, 1],               // y: 2, then 258 - 2
        &[255, 255, 10, 0],          // radii, of which 6 would refuse the first
        &[7, 0, 8, 0],               // priorities
        &[250, 4],                   // kinds, of which 5 would refuse the first
        &[1, 2, 3, 4],               // tags
    ];
    assert_pair(part_1.as_flattened(), &columns.concat());
}

#[test]
fn one_mark_and_none_stay_as_they_are() {
    assert_pair(&[], &[]);
    let mut generator = Generator::new(110);
    for _ in 0..200 {
        let mark = some_bytes(&mut generator, MARK_BYTES);
        assert_pair(&mark, &mark);
    }
}

#[test]
fn differences_are_from_the_place_before_as_it_was() {
    let part_1 = at_places(&[(7, -1), (9, -1), (4, 300), (4, -32_768), (-100, 32_767)]);
    let columns = to_columns_vec(&part_1).unwrap();
    let two = |at: usize| [0, 1, 2, 3, 4].map(|m| two_at(&columns, at + 2 * m));
    assert_eq!(two(0), [7, 2, 65_531, 0, 65_432]);
    assert_eq!(two(10), [65_535, 0, 301, 32_468, 65_535]);
    assert_pair(&part_1, &columns);
}

#[test]
fn differences_wrap() {
    for (one, other, difference) in [
        (32_767, -32_768, 1),
        (-32_768, 32_767, 65_535),
        (0, -32_768, 32_768),
        (-32_768, 0, 32_768),
        (-1, 32_767, 32_768),
        (32_767, -1, 32_768),
        (1, 0, 65_535),
        (0, 1, 1),
        (-1, 0, 1),
        (0, -1, 65_535),
        (255, 256, 1),
        (-32_768, -32_768, 0),
        (32_767, 32_767, 0),
        (32_767, -32_767, 2),
        (-32_767, 32_767, 65_534),
    ] {
        let back = 0_u16.wrapping_sub(difference);
        let still = ([5; 3], [5, 0, 0]);
        let there = ([one, other, one], [one as u16, difference, back]);
        let again = ([other, one, other], [other as u16, back, difference]);
        for ((x, of_x), (y, of_y)) in [
            (there, still),
            (still, there),
            (there, there),
            (there, again),
        ] {
            let part_1 = at_places(&[0, 1, 2].map(|m| (x[m], y[m])));
            let columns = to_columns_vec(&part_1).unwrap();
            let two = |at: usize| [0, 1, 2].map(|m| two_at(&columns, at + 2 * m));
            assert_eq!([two(0), two(6)], [of_x, of_y], "{x:?} {y:?}");
            assert_pair(&part_1, &columns);
        }
    }
}

#[test]
fn every_difference_there_and_back() {
    let (mut x, mut y) = (12_345_u16, 54_321_u16);
    let every: Vec<u16> = (0..=u16::MAX).collect();
    for chunk in every.chunks(4_096) {
        let mut places = Vec::new();
        for &difference in chunk {
            x = x.wrapping_add(difference);
            y = y.wrapping_sub(difference);
            places.push((x as i16, y as i16));
        }
        let part_1 = at_places(&places);
        let columns = to_columns_vec(&part_1).unwrap();
        for (m, &difference) in chunk.iter().enumerate().skip(1) {
            assert_eq!(two_at(&columns, 2 * m), difference);
            let of_y = two_at(&columns, 2 * 4_096 + 2 * m);
            assert_eq!(of_y, 0_u16.wrapping_sub(difference));
        }
        assert_pair(&part_1, &columns);
    }
}

#[test]
fn columns_by_another_hand() {
    let mut generator = Generator::new(111);
    for n in (0..40).chain([100, 255, 256, 257, 4_095, 4_096]) {
        let part_1 = some_bytes(&mut generator, MARK_BYTES * n);
        let columns = to_columns_vec(&part_1).expect("the marks are taken");
        assert_eq!(columns.len(), part_1.len());
        let (mut x, mut y) = (0_u16, 0_u16);
        for (m, mark) in part_1.chunks(MARK_BYTES).enumerate() {
            x = x.wrapping_add(two_at(&columns, 2 * m));
            y = y.wrapping_add(two_at(&columns, 2 * n + 2 * m));
            assert_eq!([x, y], [two_at(mark, 0), two_at(mark, 2)], "{m} of {n}");
            // Radius, priority and tag.
            for (column, at) in [(4 * n, 4), (6 * n, 6), (9 * n, 9)] {
                assert_eq!(two_at(&columns, column + 2 * m), two_at(mark, at));
            }
            assert_eq!(columns[8 * n + m], mark[8], "{m} of {n}");
        }
        assert_pair(&part_1, &columns);
    }
}

// ---- what is asked

#[test]
fn every_length_of_the_input_and_of_the_written_buffer() {
    let mut generator = Generator::new(112);
    let given = some_bytes(&mut generator, 60);
    for way in WAYS {
        every_length(way, &given, AS_WIDE);
    }
}

#[test]
fn every_length_about_multiples_of_11() {
    let mut generator = Generator::new(113);
    let mut numbers = Tally::default();
    for marks in 0..70 {
        for length in (MARK_BYTES * marks).saturating_sub(2)..MARK_BYTES * marks + 3 {
            let given = some_bytes(&mut generator, length);
            for room in [0, length.saturating_sub(1), length, length + 1, length + 40] {
                let expected = first_no(&[(4, length != MARK_BYTES * marks), (13, room < length)]);
                let seed = generator.draw();
                for way in WAYS {
                    assert_eq!(way(&given, room, seed), expected, "{length} {room}");
                    numbers.add(expected);
                }
            }
        }
    }
    numbers.assert_reached([0, 4, 13], 200);
}

#[test]
fn the_most_marks() {
    let mut generator = Generator::new(114);
    // Among them multiples of 11, one of which is 0 modulo 65,536.
    let lengths = [45_057, 45_066, 45_067, 65_527, 720_896, 720_907];
    let bytes = some_bytes(&mut generator, 720_907);
    for way in WAYS {
        let given = &bytes[..LONGEST];
        assert_eq!(way(given, LONGEST, 1), 0);
        assert_eq!(way(given, LONGEST + 5, 2), 0);
        assert_eq!(way(given, LONGEST - 1, 3), 13);
        assert_eq!(way(given, 0, 4), 13);
        assert_eq!(way(&given[..LONGEST - 11], LONGEST - 11, 5), 0);
        for length in lengths {
            // 4 is asked before 13.
            for room in [0, LONGEST, length] {
                assert_eq!(way(&bytes[..length], room, 6), 4, "{length} {room}");
            }
        }
    }
}

#[test]
fn every_kind_and_every_radius_is_taken() {
    let row = |m: u16| Mark {
        radius: m,
        kind: (m >> 2) as u8,
        ..Mark::plain(3, 4, 0, 5)
    };
    let every: Vec<Mark> = (0..=u16::MAX).map(row).collect();
    let mut numbers = Tally::default();
    for chunk in every.chunks(4_096) {
        let part_1 = write_marks(chunk);
        // What a sheet would be refused for.
        numbers.add(number(&rollmap::check(&one_part(chunk))));
        for (way, seed) in WAYS.into_iter().zip(1..) {
            assert_eq!(way(&part_1, part_1.len(), seed), 0);
        }
        assert_come_back(&part_1);
    }
    numbers.assert_reached([5, 6], 3);
}

#[test]
fn many_marks_with_a_few_faults() {
    let mut generator = Generator::new(115);
    let mut numbers = [Tally::default(), Tally::default()];
    let mut refused_elsewhere = 0;
    for seed in 0..40_000 {
        let mut given = write_marks(&some_marks(&mut generator));
        damage_rows(&mut generator, &mut given, MARK_BYTES, &FAULTS_OF_A_MARK);
        let room = some_room(&mut generator, given.len());
        for (way, numbers) in WAYS.into_iter().zip(&mut numbers) {
            numbers.add(way(&given, room, seed));
        }
        let elsewhere = rollmap::fill_to_vec(&given);
        if let Err(Refusal::Kind | Refusal::Radius) = elsewhere {
            assert!(to_columns_vec(&given).is_ok() && from_columns_vec(&given).is_ok());
            refused_elsewhere += 1;
        }
    }
    for numbers in numbers {
        numbers.assert_reached([0, 4, 13], 1_000);
    }
    assert!(refused_elsewhere > 1_000, "{refused_elsewhere}");
}

#[test]
fn no_alignment_matters() {
    let given = some_bytes(&mut Generator::new(121), MARK_BYTES * 13);
    for way in WAYS {
        // Each seed lends the two buffers otherwise aligned.
        for seed in 0..64 {
            assert_eq!(way(&given, given.len() + 9, seed), 0);
        }
    }
}

#[test]
fn a_buffer_of_its_own_is_asked_for_nothing() {
    let (part_1, longest) = (write_marks(&marks(Layout::Reel, 3, 1)), vec![7; LONGEST]);
    for call in [to_columns_vec, from_columns_vec] {
        for given in [&[][..], &part_1, &longest] {
            assert_eq!(call(given).map(|out| out.len()), Ok(given.len()));
        }
        for given in [&part_1[1..], &[0; 10], &[0; LONGEST + 11]] {
            assert_eq!(call(given), Err(Refusal::Marks));
        }
    }
}

// ---- there and back

#[test]
fn every_multiple_of_11_comes_back_both_ways_round() {
    let mut generator = Generator::new(116);
    for n in (0..=120).chain([255, 256, 257, 1_000, 4_095, 4_096]) {
        for _ in 0..3 {
            let given = some_bytes(&mut generator, MARK_BYTES * n);
            assert_come_back(&given);
            // Neither way does nothing, and they are not the same.
            let rearranged = [to_columns_vec(&given), from_columns_vec(&given)];
            let [columns, part_1] = rearranged.map(Result::unwrap);
            let moved = [columns != given, part_1 != given, columns != part_1];
            assert_eq!(moved, [n > 1; 3], "{n}");
        }
    }
}

#[test]
fn every_bit_comes_back_both_ways_round() {
    for n in [1, 2, 3, 9] {
        for bit in 0..8 * MARK_BYTES * n {
            for ground in [0x00, 0xff] {
                let mut given = vec![ground; MARK_BYTES * n];
                given[bit / 8] ^= 1 << (bit % 8);
                assert_come_back(&given);
                for way in WAYS {
                    assert_eq!(way(&given, given.len(), bit as u64), 0);
                }
            }
        }
    }
}

#[test]
fn marks_of_every_layout_come_back() {
    for layout in Layout::ALL {
        for n in [0, 1, 2, 30, 4_096] {
            let part_1 = write_marks(&marks(layout, n, n as u64));
            assert_come_back(&part_1);
            for (way, seed) in WAYS.into_iter().zip(1..) {
                assert_eq!(way(&part_1, part_1.len(), seed), 0);
            }
        }
    }
}

#[test]
fn an_archived_sheet_is_brought_back() {
    let mut generator = Generator::new(117);
    for layout in Layout::ALL {
        for n in [0, 1, 2, 9, 300] {
            let sample = marks(layout, n, 5);
            let whole = Beyond::draw(&mut generator, &sample).scheduled(&sample);
            for sheet in [one_part(&sample), scheduled(&sample), whole] {
                // The archive has the columns, and every other part as it is.
                let archived = to_columns_vec(rollmap::part(&sheet, Code::Marks).unwrap());
                let part_1 = from_columns_vec(&archived.unwrap()).unwrap();
                let mut parts = Vec::new();
                for &code in Code::ALL {
                    parts.extend(rollmap::part(&sheet, code).map(|body| (code, body)));
                }
                parts[0].1 = &part_1;
                let back = rollmap::assemble_to_vec(&parts).expect("it is accepted");
                assert_eq!(back, sheet);
                assert_eq!(rollmap::check(&back), Ok(()));
            }
        }
    }
}

/// The sheet with its part 1 brought back from the archive, accepted or not.
fn brought_back(sheet: &[u8]) -> Vec<u8> {
    let bodies = split(sheet).expect("its parts are joined");
    let archived = to_columns_vec(bodies.part_1()).expect("its length is taken");
    let part_1 = from_columns_vec(&archived).expect("its length is taken");
    let mut parts = bodies.present();
    parts[0].1 = &part_1;
    join_parts(&parts)
}

#[test]
fn a_sheet_that_is_brought_back_checks_as_before() {
    let mut generator = Generator::new(118);
    let mut numbers = Tally::default();
    for _ in 0..20_000 {
        let sheet = some_sheet(&mut generator);
        let before = number(&rollmap::check(&sheet));
        // Where 1 to 4 are answered with yes, there is a part 1 to archive.
        if before == 0 || before > 4 {
            let back = brought_back(&sheet);
            assert_eq!(back, sheet);
            assert_eq!(number(&rollmap::check(&back)), before);
            numbers.add(before);
        }
    }
    numbers.assert_reached([0, 5, 6, 7, 8, 9, 19, 21, 23, 24], 50);
}

// ---- like stands with like

/// The columns of radius, priority, kind and tag, as ranges of n marks.
fn other_columns(n: usize) -> [std::ops::Range<usize>; 4] {
    [4 * n..6 * n, 6 * n..8 * n, 8 * n..9 * n, 9 * n..11 * n]
}

/// How many bytes are the same as the one before.
fn repeated(bytes: &[u8]) -> usize {
    bytes.windows(2).filter(|pair| pair[0] == pair[1]).count()
}

#[test]
fn like_stands_with_like() {
    let n = 500;
    let row = |m: i16| Mark {
        kind: 150,
        tag: 0x9999,
        ..Mark::plain(3 * m, 16_000 - 64 * m, 0x2121, 0x0707)
    };
    let part_1 = write_marks(&(0..n as i16).map(row).collect::<Vec<Mark>>());
    let columns = to_columns_vec(&part_1).unwrap();
    let runs = [0x21, 0x07, 150, 0x99].into_iter().zip(other_columns(n));
    for (byte, column) in runs {
        assert!(columns[column].iter().all(|&own| own == byte), "{byte}");
    }
    // Places at equal distances are a row of one difference.
    assert!((1..n).all(|m| two_at(&columns, 2 * m) == 3));
    assert!((1..n).all(|m| two_at(&columns, 2 * (n + m)) == 65_472));
    // Of a mark's 11 bytes hardly more than 3 repeat the one before, and by columns nearly 7.
    assert!(repeated(&part_1) < 4 * n, "{}", repeated(&part_1));
    assert!(repeated(&columns) > 13 * n / 2, "{}", repeated(&columns));
}

#[test]
fn a_field_that_all_marks_share_is_a_run() {
    let mut generator = Generator::new(120);
    for n in [1, 2, 17, 4_096] {
        let (own, shared) = (
            some_bytes(&mut generator, MARK_BYTES * n),
            generator.draw() as u8,
        );
        let fields = [(4, 2), (6, 2), (8, 1), (9, 2)].into_iter();
        for ((at, width), column) in fields.zip(other_columns(n)) {
            let mut part_1 = own.clone();
            for mark in part_1.chunks_mut(MARK_BYTES) {
                mark[at..at + width].fill(shared);
            }
            let columns = to_columns_vec(&part_1).unwrap();
            assert!(columns[column.clone()].iter().all(|&byte| byte == shared));
            // The other columns are as they would be otherwise.
            let others = to_columns_vec(&own).unwrap();
            assert_eq!(columns[..column.start], others[..column.start]);
            assert_eq!(columns[column.end..], others[column.end..]);
        }
    }
}
