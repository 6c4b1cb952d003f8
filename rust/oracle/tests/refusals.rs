//! Each question of 01 answered with no, on both sides of its limits, and in the
//! order the questions are put.

mod common;

use common::{
    one_part, popup_bytes, schedule_large, three_parts, with_counts, with_edition, with_part,
    with_part_4, with_part_7, with_popups, with_shape, with_tree, COUNTS, EDITION, LONGEST, OUT,
    SHAPE, WORK,
};
use oracle::change::{add, take_out};
use oracle::contents::Part;
use oracle::count::{count, part_6};
use oracle::judge::judge;
use oracle::map::walk;
use oracle::mark::{write_marks, Mark};
use oracle::popup::write_popups;
use oracle::rank::Edition;
use oracle::record::{write_records, Record};
use oracle::report::print;
use oracle::sample::{each_list, marks, raw_sheet, refused_sheets, Layout, CODES_TAKEN, P1};
use oracle::shape::Shape;
use oracle::sheet::{assemble, check, join, join_parts, schedule, split};
use oracle::tree;
use oracle::view::{view, Edges, Window};
use oracle::zoom::Zoom;

const UNKNOWN_KIND: Mark = Mark {
    kind: 200,
    ..Mark::plain(0, 0, 1, 0)
};

const LARGE_RADIUS: Mark = Mark::plain(0, 0, 16_384, 0);

/// The schedule of P1.
fn p1_records() -> [Record; 4] {
    [
        Record::NEVER,
        Record::new(0, 10_000, 400),
        Record::new(0, 40_000, 400),
        Record::new(0, 9, 225),
    ]
}

/// The number of P1's sheet with one record changed.
fn check_p1_with(mark: usize, changed: Record) -> u32 {
    let mut records = p1_records();
    records[mark] = changed;
    check(&three_parts(&P1, &records))
}

/// A sheet with these entries (code, offset, length) and this many zero bytes
/// after them.
fn raw(entries: &[(u16, u32, u32)], body: usize) -> Vec<u8> {
    raw_sheet(entries, &vec![0; body])
}

#[test]
fn sheets_that_two_questions_refuse_get_the_first() {
    for (number, sheet) in refused_sheets() {
        let unscheduled = number == 10;
        assert_eq!(check(&sheet), if unscheduled { 0 } else { number });
        assert_eq!(view_all(&sheet), Err(number));
    }
}

#[test]
fn question_1_two_bytes_and_a_number_of_parts() {
    assert_eq!(check(&[]), 1);
    assert_eq!(check(&[1]), 1);
    assert_eq!(check(&raw(&[], 0)), 1);
    let eight = [1, 2, 3, 4, 5, 6, 7, 8].map(|code| (code, 82, 0));
    assert_eq!(check(&raw(&eight, 0)), 1);
    assert_eq!(check(&raw(&[(9, 0, 0); 8], 0)), 1);
    assert_eq!(check(&raw(&[(9, 0, 0); 7], 0)), 2);
    // 257 parts, by both bytes of the number, with all of its contents.
    assert_eq!(check(&raw(&[(1, 12, 0); 257], 0)), 1);
}

#[test]
fn question_1_the_whole_contents() {
    let sheets = [
        raw(&[(1, 12, 0)], 0),
        raw(&[(1, 22, 0), (2, 22, 0)], 0),
        raw(&[(1, 32, 0), (2, 32, 0), (3, 32, 0)], 0),
        join_parts(&[(1, &[]), (4, &[1])]),
        join_parts(&[(1, &[]), (5, &[])]),
        join(&[&[], &[], &[], &[2]]),
        join(&[&[], &[], &[], &[2], &[]]),
        join_parts(&[(1, &[]), (2, &[]), (6, &[0; 170])]),
        join(&[&[], &[], &[], &[2], &[], &[0; 170]]),
        join_parts(&[(1, &[]), (7, &[1])]),
        join(&[&[], &[], &[], &[2], &[], &[0; 170], &[2]]),
    ];
    for sheet in sheets {
        assert_eq!(check(&sheet), 0);
        let contents = 2 + 10 * usize::from(sheet[0]);
        for length in 0..contents {
            assert_eq!(check(&sheet[..length]), 1, "{length}");
        }
        for length in contents..sheet.len() {
            assert_eq!(check(&sheet[..length]), 3, "{length}");
        }
    }
    assert_eq!(check(&raw(&[(8, 0, 0), (8, 0, 0)], 0)[..21]), 1);
}

/// The number that questions 1 and 2 refuse a list of codes by, or 0, as 02 words it:
/// "questions 1 and 2 allow four parts with codes rising within 1 to 4 (one part and code
/// more with each code added later), part 1 present and part 3 only with part 2"; and later
/// "contents may hold code 5", "code 6, only with part 2", and "code 7".
fn refusal_of_codes(codes: &[u16]) -> u32 {
    let rising = codes.windows(2).all(|pair| pair[0] < pair[1]);
    let within = codes
        .iter()
        .all(|code| [1, 2, 3, 4, 5, 6, 7].contains(code));
    let with_second = |code| !codes.contains(&code) || codes.contains(&2);
    let there = codes.contains(&1) && with_second(3) && with_second(6);
    match codes.len() {
        0 | 8.. => 1,
        _ if rising && within && there => 0,
        _ => 2,
    }
}

/// An empty reel's body of a part.
fn empty_body(code: u16) -> &'static [u8] {
    match code {
        4 | 7 => &[2],
        6 => &[0; 170],
        _ => &[],
    }
}

#[test]
fn questions_1_and_2_of_every_list_of_codes() {
    let mut taken = Vec::new();
    let mut try_list = |codes: &[u16]| {
        let expected = refusal_of_codes(codes);
        let bodies: Vec<&[u8]> = codes.iter().map(|&code| empty_body(code)).collect();
        let parts: Vec<(u16, &[u8])> = codes.iter().copied().zip(bodies.clone()).collect();
        let sheet = join_parts(&parts);
        assert_eq!(check(&sheet), expected, "{codes:?}");
        let assembled = assemble(codes, &bodies, 999);
        match expected {
            0 => assert_eq!(assembled, Ok(sheet)),
            _ => assert_eq!(assembled, Err(expected), "{codes:?}"),
        }
        if expected == 0 {
            taken.push(codes.to_vec());
        }
    };
    for length in 0..=6 {
        each_list(&[0, 1, 2, 3, 4, 5, 6, 7, 8], length, &mut try_list);
    }
    // As many as there are, and one more.
    for length in [7, 8] {
        each_list(&[1, 2, 6, 7], length, &mut try_list);
    }
    for first in [0, 1, 2] {
        let codes: Vec<u16> = (first..first + 8).collect();
        try_list(&codes[..7]);
        try_list(&codes);
    }
    taken.sort_by_key(|codes| (codes.len(), codes.clone()));
    assert_eq!(taken, CODES_TAKEN);
}

#[test]
fn question_2_codes_have_two_bytes() {
    for code in [0, 2, 257, 65_535] {
        assert_eq!(check(&raw(&[(code, 12, 0)], 0)), 2, "{code}");
        assert_eq!(assemble(&[code], &[&[]], 99), Err(2));
    }
    for code in [258, 260, 261, 262, 263, 1_028, 1_799, 65_535] {
        assert_eq!(check(&raw(&[(1, 22, 0), (code, 22, 0)], 0)), 2, "{code}");
        assert_eq!(assemble(&[1, code], &[&[], &[1]], 99), Err(2));
    }
}

#[test]
fn question_2_is_put_of_all_codes_before_any_body() {
    assert_eq!(check(&raw(&[(1, 0, 5), (3, 22, 0)], 0)), 2);
    assert_eq!(check(&raw(&[(1, 0, 5), (2, 22, 0)], 0)), 3);
}

#[test]
fn question_3_offsets_and_ends() {
    assert_eq!(check(&raw(&[(1, 11, 0)], 0)), 3);
    assert_eq!(check(&raw(&[(1, 13, 0)], 0)), 3);
    assert_eq!(check(&raw(&[(1, 12, 11)], 11)), 0);
    assert_eq!(check(&raw(&[(1, 12, 11)], 10)), 3);
    assert_eq!(check(&raw(&[(1, 12, 11)], 12)), 3);
    assert_eq!(check(&raw(&[(1, 12, u32::MAX)], 0)), 3);
    let joined = |second| raw(&[(1, 22, 11), (2, second, 14)], 25);
    assert_eq!(check(&joined(33)), 8); // a record of zeros
    assert_eq!(check(&joined(32)), 3);
    assert_eq!(check(&joined(34)), 3);
}

#[test]
fn question_3_an_empty_body_stands_in_its_place_too() {
    assert_eq!(check(&raw(&[(1, 22, 0), (2, 0, 0)], 0)), 3);
    assert_eq!(check(&raw(&[(1, 22, 0), (2, 22, 0)], 0)), 0);
}

#[test]
fn question_3_ends_do_not_wrap() {
    // In 32 bits the first body would end at 0 and the second with the sheet.
    let wrapping = [(1, 22, u32::MAX - 21), (2, 0, 22)];
    assert_eq!(check(&raw(&wrapping, 0)), 3);
    // Here the last end would be the sheet's length modulo 2 to the power 32.
    let third = [(1, 32, 0), (2, 32, 5), (3, 37, u32::MAX - 4)];
    assert_eq!(check(&raw(&third, 0)), 3);
}

#[test]
fn question_4_length_of_part_1() {
    for length in [1, 10, 12, 21] {
        assert_eq!(check(&join(&[&vec![0; length]])), 4, "{length}");
    }
    assert_eq!(check(&join(&[&[0; 11]])), 0);
    assert_eq!(check(&join(&[&vec![0; 45_056]])), 0);
    assert_eq!(check(&join(&[&vec![0; 45_057]])), 4);
    assert_eq!(check(&join(&[&vec![0; 45_067]])), 4);
}

#[test]
fn question_4_comes_after_3_and_before_5() {
    let mut body = write_marks(&[UNKNOWN_KIND]);
    body.push(0);
    let mut sheet = join(&[&body]);
    assert_eq!(check(&sheet), 4);
    sheet.push(0);
    assert_eq!(check(&sheet), 3);
}

#[test]
fn questions_5_and_6_limits() {
    let of = |kind| Mark {
        kind,
        ..Mark::plain(0, 0, 0, 0)
    };
    assert_eq!(check(&one_part(&[of(199)])), 0);
    assert_eq!(check(&one_part(&[of(200)])), 5);
    assert_eq!(check(&one_part(&[of(255)])), 5);
    let wide = |radius| Mark::plain(0, 0, radius, 0);
    assert_eq!(check(&one_part(&[wide(16_383)])), 0);
    assert_eq!(check(&one_part(&[wide(16_384)])), 6);
    assert_eq!(check(&one_part(&[wide(65_535)])), 6);
}

#[test]
fn questions_5_and_6_are_put_mark_by_mark() {
    let good = Mark::plain(0, 0, 1, 0);
    let both = Mark {
        kind: 200,
        ..LARGE_RADIUS
    };
    assert_eq!(check(&one_part(&[LARGE_RADIUS, UNKNOWN_KIND])), 6);
    assert_eq!(check(&one_part(&[UNKNOWN_KIND, LARGE_RADIUS])), 5);
    assert_eq!(check(&one_part(&[good, good, both])), 5);
    assert_eq!(check(&one_part(&[good, good, LARGE_RADIUS])), 6);
}

#[test]
fn question_7_lengths_of_parts_2_and_3() {
    let part_1 = write_marks(&P1);
    let part_2 = write_records(&p1_records());
    let part_3 = tree::write_tree(&[0, 1, 3, 2]);
    assert_eq!(check(&join(&[&part_1, &part_2])), 0);
    assert_eq!(check(&join(&[&part_1, &part_2, &part_3])), 0);
    for length in [0, 14, 42, 55, 57, 70] {
        let body = vec![0; length];
        assert_eq!(check(&join(&[&part_1, &body])), 7, "{length}");
    }
    for length in [0, 4, 6, 7, 9, 10] {
        let body = vec![0; length];
        assert_eq!(check(&join(&[&part_1, &part_2, &body])), 7, "{length}");
    }
    assert_eq!(check(&join(&[&[], &[0; 14]])), 7);
    assert_eq!(check(&join(&[&[], &[], &[0; 2]])), 7);
}

#[test]
fn question_7_comes_after_6_and_before_8() {
    let bad_records = [Record::new(0, 0, 0); 4];
    let part_2 = write_records(&bad_records);
    assert_eq!(check(&join(&[&write_marks(&P1), &part_2, &[]])), 7);
    assert_eq!(check(&join(&[&write_marks(&P1), &part_2, &[0; 8]])), 8);
    let part_1 = write_marks(&[P1[0], LARGE_RADIUS]);
    assert_eq!(check(&join(&[&part_1, &[0; 3]])), 6);
}

/// Bodies of part 4 that question 19 refuses.
const NO_EDITIONS: [&[u8]; 8] = [&[], &[0], &[3], &[255], &[1, 0], &[1, 1], &[2, 2], &[0; 14]];

#[test]
fn question_19_one_byte_of_1_or_2() {
    let (part_1, part_2) = (write_marks(&P1), write_records(&p1_records()));
    let sheets = [
        join(&[&part_1]),
        join(&[&part_1, &part_2]),
        three_parts(&P1, &p1_records()),
        join(&[&[]]),
        join(&[&[], &[], &[]]),
    ];
    for sheet in sheets {
        for byte in 0..=255 {
            let expected = if byte == 1 || byte == 2 { 0 } else { 19 };
            assert_eq!(check(&with_part_4(&sheet, &[byte])), expected, "{byte}");
        }
        for part_4 in NO_EDITIONS {
            let named = with_part_4(&sheet, part_4);
            assert_eq!(check(&named), 19, "{part_4:?}");
            assert_eq!(schedule_large(&named), Err(19));
            assert_eq!(view_all(&named), Err(19));
            assert_eq!(print(&named), "refused 19\n");
        }
    }
}

#[test]
fn question_19_comes_after_7() {
    let part_1 = write_marks(&P1);
    for part_4 in NO_EDITIONS {
        let number =
            |part_2: &[u8], part_3: &[u8]| check(&join(&[&part_1, part_2, part_3, part_4]));
        assert_eq!(number(&[0; 55], &[0; 8]), 7);
        assert_eq!(number(&[0; 56], &[0; 7]), 7);
        assert_eq!(number(&[0; 56], &[0; 8]), 19);
        let without_index =
            |part_2: &[u8]| check(&join_parts(&[(1, &part_1), (2, part_2), (4, part_4)]));
        assert_eq!(without_index(&[0; 57]), 7);
        assert_eq!(without_index(&[0; 56]), 19);
        assert_eq!(check(&with_part_4(&one_part(&[LARGE_RADIUS]), part_4)), 6);
    }
}

#[test]
fn question_19_comes_before_8_and_9() {
    let (part_1, part_2) = (write_marks(&P1), write_records(&p1_records()));
    for (records, tree, number) in [
        (&[0; 56][..], &[0; 8][..], 8),
        (&part_2, &[0; 8], 9),
        (&part_2, &[0, 0, 1, 0, 3, 0, 2, 0], 0),
    ] {
        for part_4 in NO_EDITIONS {
            assert_eq!(check(&join(&[&part_1, records, tree, part_4])), 19);
        }
        for edition in Edition::ALL {
            let sheet = join(&[&part_1, records, tree, &edition.write()]);
            assert_eq!(check(&sheet), number);
        }
    }
}

/// A sheet of P1 and its records, of one to three parts, and sheets without marks.
fn sheets_without_popups() -> [(Vec<u8>, usize); 5] {
    let (part_1, part_2) = (write_marks(&P1), write_records(&p1_records()));
    [
        (join(&[&part_1]), 4),
        (join(&[&part_1, &part_2]), 4),
        (three_parts(&P1, &p1_records()), 4),
        (join(&[&[]]), 0),
        (join(&[&[], &[], &[]]), 0),
    ]
}

#[test]
fn question_21_four_bytes_a_mark() {
    for (sheet, n) in sheets_without_popups() {
        for sheet in [sheet.clone(), with_edition(&sheet, Edition::Second)] {
            for length in 0..40 {
                let number = check(&with_part(&sheet, 5, &vec![0; length]));
                assert_eq!(number, if length == 4 * n { 0 } else { 21 }, "{length}");
            }
        }
    }
}

#[test]
fn question_21_no_popup_above_65_536() {
    let taken = [0, 1, 255, 256, 319, 65_535, 65_536];
    let refused = [65_537, 65_538, 131_072, 1 << 24, 1 << 31, u32::MAX];
    let (bare, marked) = (one_part(&P1), three_parts(&P1, &[Record::NEVER; 4]));
    for m in 0..4 {
        let with = |sheet: &[u8], popup| {
            let mut popups = [0; 4];
            popups[m] = popup;
            with_popups(sheet, &popups)
        };
        for sheet in [&bare, &marked, &with_edition(&marked, Edition::First)] {
            let numbers = taken.map(|popup| check(&with(sheet, popup)));
            assert_eq!(numbers, [0; 7]);
            let numbers = refused.map(|popup| check(&with(sheet, popup)));
            assert_eq!(numbers, [21; 6]);
        }
        let damaged = with(&marked, 65_537);
        assert_eq!(schedule_large(&damaged), Err(21));
        assert_eq!(view_all(&damaged), Err(21));
        assert_eq!(print(&damaged), "refused 21\n");
    }
}

/// Bodies of part 5 that question 21 refuses for the four marks of P1.
fn no_popups() -> [Vec<u8>; 6] {
    [
        vec![],
        vec![0; 4],
        vec![0; 15],
        vec![0; 17],
        write_popups(&[65_537, 0, 0, 0]),
        write_popups(&[0, 0, 65_536, u32::MAX]),
    ]
}

#[test]
fn question_21_comes_after_7_and_19() {
    let part_1 = write_marks(&P1);
    for part_5 in no_popups() {
        let number = |part_2: &[u8], part_3: &[u8], part_4: &[u8]| {
            check(&join(&[&part_1, part_2, part_3, part_4, &part_5]))
        };
        assert_eq!(number(&[0; 55], &[0; 8], &[1]), 7);
        assert_eq!(number(&[0; 56], &[0; 7], &[1]), 7);
        assert_eq!(number(&[0; 55], &[0; 8], &[0]), 7);
        for part_4 in NO_EDITIONS {
            assert_eq!(number(&[0; 56], &[0; 8], part_4), 19);
            let parts = [(1, part_1.as_slice()), (4, part_4), (5, &part_5)];
            assert_eq!(check(&join_parts(&parts)), 19);
        }
        for edition in [[1], [2]] {
            assert_eq!(number(&[0; 56], &[0; 8], &edition), 21);
        }
        let unnamed = |part_2: &[u8]| {
            let parts = [(1, part_1.as_slice()), (2, part_2), (5, &part_5)];
            check(&join_parts(&parts))
        };
        assert_eq!(unnamed(&[0; 57]), 7);
        assert_eq!(unnamed(&[0; 56]), 21);
        assert_eq!(check(&with_part(&one_part(&[LARGE_RADIUS]), 5, &part_5)), 6);
    }
}

#[test]
fn question_21_comes_before_8_and_9() {
    let (part_1, part_2) = (write_marks(&P1), write_records(&p1_records()));
    for (records, tree, number) in [
        (&[0; 56][..], &[0; 8][..], 8),
        (&part_2, &[0; 8], 9),
        (&part_2, &[0, 0, 1, 0, 3, 0, 2, 0], 0),
    ] {
        for edition in Edition::ALL.map(Edition::write) {
            let with = |part_5: &[u8]| check(&join(&[&part_1, records, tree, &edition, part_5]));
            assert!(no_popups().iter().all(|part_5| with(part_5) == 21));
            assert_eq!(with(&[0; 16]), number);
        }
        let sheet = join(&[&part_1, records, tree]);
        for part_5 in no_popups() {
            assert_eq!(check(&with_part(&sheet, 5, &part_5)), 21);
        }
    }
}

/// Bodies of part 7 that question 24 refuses.
const NO_SHAPES: [&[u8]; 9] = [
    &[],
    &[0],
    &[3],
    &[255],
    &[1, 0],
    &[1, 1],
    &[2, 2],
    &[1, 2],
    &[0; 14],
];

#[test]
fn question_24_one_byte_of_1_or_2() {
    for (sheet, n) in sheets_without_popups() {
        let named = with_edition(&sheet, Edition::Second);
        for sheet in [&sheet, &with_popups(&named, &vec![0; n])] {
            for byte in 0..=255 {
                let expected = if byte == 1 || byte == 2 { 0 } else { 24 };
                assert_eq!(check(&with_part_7(sheet, &[byte])), expected, "{byte}");
            }
            for part_7 in NO_SHAPES {
                assert_eq!(check(&with_part_7(sheet, part_7)), 24, "{part_7:?}");
            }
        }
    }
}

#[test]
fn every_job_asks_question_24() {
    let counted = sheets_without_counts().into_iter();
    let counted = counted.map(|sheet| with_counts(&sheet));
    let sheets = sheets_without_popups().map(|(sheet, _)| sheet);
    for sheet in sheets.into_iter().chain(counted) {
        for part_7 in NO_SHAPES {
            let damaged = with_part_7(&sheet, part_7);
            for (work, out) in [(0, 0), (WORK, LONGEST)] {
                assert_eq!(schedule(&damaged, work, out), Err(24));
                assert_eq!(add(&damaged, UNKNOWN_KIND, 65_537, work, out), Err(24));
                assert_eq!(take_out(&damaged, 4_096, work, out), Err(24));
                assert_eq!(count(&damaged, out), Err(24));
            }
            assert_eq!(view_all(&damaged), Err(24));
            assert_eq!(judge(&damaged), Err(24));
            assert_eq!(print(&damaged), "refused 24\n");
            let parts = split(&damaged).unwrap().present();
            let (codes, bodies): (Vec<u16>, Vec<&[u8]>) = parts.into_iter().unzip();
            for out in [0, LONGEST] {
                assert_eq!(assemble(&codes, &bodies, out), Err(24));
            }
        }
    }
}

#[test]
fn question_24_comes_after_7_19_and_21() {
    let part_1 = write_marks(&P1);
    for part_7 in NO_SHAPES {
        let number = |part_2: &[u8], part_3: &[u8], part_4: &[u8], part_5: &[u8]| {
            check(&with_part_7(
                &join(&[&part_1, part_2, part_3, part_4, part_5]),
                part_7,
            ))
        };
        assert_eq!(number(&[0; 55], &[0; 8], &[1], &[0; 16]), 7);
        assert_eq!(number(&[0; 56], &[0; 7], &[0], &[0; 15]), 7);
        for part_4 in NO_EDITIONS {
            assert_eq!(number(&[0; 56], &[0; 8], part_4, &[0; 16]), 19);
        }
        for part_5 in no_popups() {
            assert_eq!(number(&[0; 56], &[0; 8], &[2], &part_5), 21);
            let parts = [(1, part_1.as_slice()), (5, &part_5), (7, part_7)];
            assert_eq!(check(&join_parts(&parts)), 21);
        }
        assert_eq!(number(&[0; 56], &[0; 8], &[2], &[0; 16]), 24);
        let parts = [(1, part_1.as_slice()), (4, &[0]), (7, part_7)];
        assert_eq!(check(&join_parts(&parts)), 19);
        assert_eq!(check(&with_part_7(&one_part(&[LARGE_RADIUS]), part_7)), 6);
    }
}

#[test]
fn question_24_comes_before_8_9_and_23() {
    let (part_1, part_2) = (write_marks(&P1), write_records(&p1_records()));
    let counts = part_6(Edition::First.reel(&P1), &p1_records());
    let index = [0, 0, 1, 0, 3, 0, 2, 0];
    for (records, tree, part_6, number) in [
        (&[0; 56][..], &[0; 8][..], &[][..], 8),
        (&part_2, &[0; 8], &[], 9),
        (&part_2, &index, &[0; 170], 23),
        (&part_2, &index, &counts, 0),
    ] {
        let sheet = join(&[&part_1, records, tree, &[2], &[0; 16], part_6]);
        for part_7 in NO_SHAPES {
            assert_eq!(check(&with_part_7(&sheet, part_7)), 24);
        }
        // The marks of P1 go along an axis each, as disks and as squares.
        for shape in Shape::ALL {
            assert_eq!(check(&with_shape(&sheet, shape)), number);
        }
    }
}

#[test]
fn question_8_goes_by_the_shape() {
    let marks = [Mark::plain(0, 0, 10, 9), Mark::plain(30, 40, 10, 5)];
    let numbers = |record| {
        let sheet = three_parts(&marks, &[Record::NEVER, record]);
        let [disks, squares] = Shape::ALL.map(|shape| check(&with_shape(&sheet, shape)));
        [check(&sheet), disks, squares]
    };
    assert_eq!(numbers(Record::new(0, 2_500, 400)), [0, 0, 8]);
    assert_eq!(numbers(Record::new(0, 1_600, 400)), [8, 8, 0]);
    // The smaller difference counts for neither, and the numbers stand unreduced.
    assert_eq!(numbers(Record::new(0, 900, 400)), [8; 3]);
    assert_eq!(numbers(Record::new(0, 4, 1)), [8; 3]);
    assert_eq!(numbers(Record::NEVER), [0; 3]);
    // A popup that exceeds the one and not the other.
    let popping_up = |record| {
        let sheet = three_parts(&marks, &[Record::NEVER, record]);
        let sheet = with_popups(&sheet, &[0, 150]);
        Shape::ALL.map(|shape| check(&with_shape(&sheet, shape)))
    };
    assert_eq!(popping_up(Record::new(0, 2_500, 400)), [0, 8]);
    assert_eq!(popping_up(Record::new(0, 1_600, 400)), [8, 8]);
    assert_eq!(popping_up(Record::new(0, 22_500, 4_096)), [8, 0]);
}

#[test]
fn question_8_goes_by_pair_values() {
    // They touch at 64 times zoom 320.
    let marks = [P1[0], P1[1]];
    let gone_at = |numerator, denominator| Record::new(0, numerator, denominator);
    let number = |popups: [u32; 2], record| {
        let sheet = three_parts(&marks, &[Record::NEVER, record]);
        check(&with_popups(&sheet, &popups))
    };
    let touching = gone_at(10_000, 400);
    for popups in [[0, 0], [0, 319], [319, 0], [320, 0], [0, 320], [320, 320]] {
        assert_eq!(number(popups, touching), 0);
        assert_eq!(number(popups, gone_at(102_400, 4_096)), 8);
        assert_eq!(number(popups, gone_at(103_041, 4_096)), 8);
    }
    // The larger popup of the two counts, also where it is the eliminator's.
    for popups in [[0, 321], [321, 0], [321, 321], [321, 320], [5, 321]] {
        assert_eq!(number(popups, gone_at(103_041, 4_096)), 0);
        assert_eq!(number(popups, touching), 8);
        // It stands unreduced, and as no other popup's.
        assert_eq!(number(popups, gone_at(206_082, 8_192)), 8);
        assert_eq!(number(popups, gone_at(103_684, 4_096)), 8);
    }
    let even = [
        gone_at(409_600, 4_096),
        gone_at(100, 1),
        gone_at(40_000, 400),
    ];
    assert_eq!(even.map(|record| number([640, 0], record)), [0, 8, 8]);
    let last = gone_at(1 << 32, 4_096);
    assert_eq!(number([65_536, 7], last), 0);
    assert_eq!(number([65_536, 7], gone_at(0, 4_096)), 8);
    assert_eq!(number([0, 0], Record::NEVER), 0);
    assert_eq!(number([65_536; 2], Record::NEVER), 0);
}

#[test]
fn question_8_an_eliminator_that_goes_where_it_would_pop_up_removes_nobody_there() {
    // 1 goes by 0 at its popup, at which it would touch 2 first.
    let marks = [P1[0], P1[1], P1[2]];
    let records = |of_2| [Record::NEVER, Record::new(0, 409_600, 4_096), of_2];
    let number = |of_2| {
        check(&with_popups(
            &three_parts(&marks, &records(of_2)),
            &[0, 640, 0],
        ))
    };
    assert_eq!(number(Record::new(1, 409_600, 4_096)), 8);
    assert_eq!(number(Record::new(0, 40_000, 400)), 0);
    assert_eq!(number(Record::NEVER), 0);
}

#[test]
fn question_8_goes_by_the_edition() {
    // Of equal priority, and the larger one has the higher number.
    let marks = [Mark::plain(0, 0, 10, 5), Mark::plain(90, 0, 20, 5)];
    let lower_stays = [Record::NEVER, Record::new(0, 8_100, 900)];
    let larger_stays = [Record::new(1, 8_100, 900), Record::NEVER];
    let numbers = |records: &[Record]| {
        let sheet = three_parts(&marks, records);
        let [first, second] = Edition::ALL.map(|edition| check(&with_edition(&sheet, edition)));
        [check(&sheet), first, second]
    };
    assert_eq!(numbers(&lower_stays), [0, 0, 8]);
    assert_eq!(numbers(&larger_stays), [8, 8, 0]);
    assert_eq!(numbers(&[Record::NEVER; 2]), [0, 0, 0]);
}

#[test]
fn question_8_the_never_record_is_whole() {
    assert_eq!(check_p1_with(1, Record::NEVER), 0);
    assert_eq!(check_p1_with(1, Record::new(65_535, 0, 400)), 8);
    assert_eq!(check_p1_with(1, Record::new(65_535, 1, 0)), 8);
    assert_eq!(check_p1_with(1, Record::new(65_535, 10_000, 400)), 8);
    assert_eq!(check_p1_with(1, Record::new(65_534, 0, 0)), 8);
    assert_eq!(check_p1_with(1, Record::new(0, 0, 0)), 8);
}

#[test]
fn question_8_the_eliminator_is_a_higher_ranked_mark_below_n() {
    assert_eq!(check_p1_with(1, Record::new(4, 10_000, 400)), 8);
    assert_eq!(check_p1_with(1, Record::new(256, 10_000, 400)), 8);
    // Mark 1 itself, and mark 2 of equal priority and higher number.
    assert_eq!(check_p1_with(1, Record::new(1, 0, 400)), 8);
    assert_eq!(check_p1_with(1, Record::new(2, 10_000, 400)), 8);
    // The highest-ranked mark has nobody to go for.
    assert_eq!(check_p1_with(0, Record::new(2, 40_000, 400)), 8);
    // A higher number may still rank higher.
    let swapped = [P1[1], P1[0]];
    let records = [Record::new(1, 10_000, 400), Record::NEVER];
    assert_eq!(check(&three_parts(&swapped, &records)), 0);
}

#[test]
fn question_8_the_numbers_are_the_unreduced_ones() {
    for (numerator, denominator) in [
        (25, 1),
        (20_000, 800),
        (5_000, 200),
        (10_001, 400),
        (9_999, 400),
        (10_000, 401),
        (10_000 + (1 << 32), 400),
        (10_000, 400 + (1 << 16)),
        (400, 10_000),
    ] {
        let changed = Record::new(0, numerator, denominator);
        assert_eq!(check_p1_with(1, changed), 8, "{changed:?}");
    }
}

#[test]
fn question_8_the_eliminator_is_removed_strictly_later() {
    // Mark 1 goes at the very value it is named for.
    assert_eq!(check_p1_with(2, Record::new(1, 10_000, 400)), 8);
    // The same with equal values that are written differently.
    let marks = [P1[0], P1[1], Mark::plain(160, 0, 2, 1)];
    let mut records = [
        Record::NEVER,
        Record::new(0, 10_000, 400),
        Record::new(1, 3_600, 144),
    ];
    assert_eq!(check(&three_parts(&marks, &records)), 8);
    // One map unit nearer, mark 2 goes before mark 1 does.
    let nearer = [P1[0], P1[1], Mark::plain(159, 0, 2, 1)];
    records[2] = Record::new(1, 59 * 59, 144);
    assert_eq!(check(&three_parts(&nearer, &records)), 0);
}

#[test]
fn question_8_reads_records_of_any_size() {
    let largest = Record::new(1, u64::MAX, u32::MAX);
    assert_eq!(check_p1_with(0, largest), 8);
    assert_eq!(check_p1_with(0, Record::new(1, u64::MAX, 0)), 8);
    assert_eq!(check_p1_with(3, largest), 8);
}

#[test]
fn question_8_takes_schedules_that_are_not_ours() {
    let never = [Record::NEVER; 4];
    assert_eq!(check(&three_parts(&P1, &never)), 0);
    // Mark 1 stays, so mark 2 may go for it, and mark 3 too late.
    let mut records = never;
    records[2] = Record::new(1, 10_000, 400);
    records[3] = Record::new(1, 10_009, 225);
    assert_eq!(check(&three_parts(&P1, &records)), 0);
}

#[test]
fn question_9_another_tree() {
    let number = |tree: &[u16]| check(&with_tree(&P1, &p1_records(), tree));
    assert_eq!(number(&[0, 1, 3, 2]), 0);
    let others = [
        [0, 1, 2, 3],
        [0, 3, 1, 2],
        [0, 2, 1, 3],
        [1, 0, 3, 2],
        [0, 0, 0, 0],
        [0, 1, 3, 4],
        [0, 1, 3, 65_535],
        [0, 1, 3, 258],
        [256, 1, 3, 2],
    ];
    for tree in others {
        assert_eq!(number(&tree), 9, "{tree:?}");
    }
}

#[test]
fn question_9_goes_by_the_records_there() {
    let marks = [P1[1], P1[2], P1[0]];
    let ours = [
        Record::new(2, 10_000, 400),
        Record::new(2, 40_000, 400),
        Record::NEVER,
    ];
    assert_eq!(check(&with_tree(&marks, &ours, &[2, 0, 1])), 0);
    let never = [Record::NEVER; 3];
    assert_eq!(check(&with_tree(&marks, &never, &[2, 0, 1])), 9);
    assert_eq!(check(&with_tree(&marks, &never, &[0, 2, 1])), 0);
}

#[test]
fn question_9_comes_after_8() {
    let mut records = p1_records();
    assert_eq!(check(&with_tree(&P1, &records, &[0; 4])), 9);
    records[3] = Record::new(0, 1, 25);
    assert_eq!(check(&with_tree(&P1, &records, &[0; 4])), 8);
}

/// P1 and its records, of two and three parts, with and without parts 4 and 5; and sheets
/// without marks.
fn sheets_without_counts() -> Vec<Vec<u8>> {
    let two = join(&[&write_marks(&P1), &write_records(&p1_records())]);
    let three = three_parts(&P1, &p1_records());
    let mut sheets = vec![join(&[&[], &[]]), join(&[&[], &[], &[]])];
    for sheet in [two, three] {
        let named = with_edition(&sheet, Edition::Second);
        sheets.push(with_popups(&named, &[0, 320, 0, 12]));
        sheets.extend([sheet, named]);
    }
    sheets
}

#[test]
fn question_23_exactly_the_counts_in_170_bytes() {
    for sheet in sheets_without_counts() {
        let mut counted = with_counts(&sheet);
        assert_eq!(check(&counted), 0);
        for at in counted.len() - 170..counted.len() {
            let own = counted[at];
            for value in [0, 1, 255, own ^ 1, own ^ 2, own ^ 128] {
                counted[at] = value;
                let expected = if value == own { 0 } else { 23 };
                assert_eq!(check(&counted), expected, "{at} {value}");
            }
            counted[at] = own;
        }
        let part_6 = &counted[counted.len() - 170..];
        for length in (0..170).chain([171, 172, 180, 340]) {
            let mut other = part_6.to_vec();
            other.resize(length, 0);
            assert_eq!(check(&with_part(&sheet, 6, &other)), 23, "{length}");
        }
    }
}

#[test]
fn question_23_goes_by_the_schedule_that_is_there_and_by_the_popups() {
    let of = |records: &[Record], part_6: &[u8]| {
        let sheet = three_parts(&P1, records);
        check(&with_part(&sheet, 6, part_6))
    };
    let reel = Edition::First.reel(&P1);
    let [ours, foreign] = [p1_records(), [Record::NEVER; 4]];
    let counts = |records: &[Record]| part_6(reel, records);
    assert_eq!(of(&ours, &counts(&ours)), 0);
    assert_eq!(of(&foreign, &counts(&foreign)), 0);
    assert_eq!(of(&ours, &counts(&foreign)), 23);
    assert_eq!(of(&foreign, &counts(&ours)), 23);
    // Mark 1 pops up where it goes, and mark 3 one 64th before.
    let popups = [0, 320, 0, 12];
    let popping_up = with_popups(&three_parts(&P1, &ours), &popups);
    let heeded = part_6(reel.with_popups(&popups), &ours);
    assert_eq!(check(&with_part(&popping_up, 6, &heeded)), 0);
    assert_eq!(check(&with_part(&popping_up, 6, &counts(&ours))), 23);
}

#[test]
fn question_23_comes_after_all_others_of_checking() {
    let (part_1, part_2) = (write_marks(&P1), write_records(&p1_records()));
    let index = [0, 0, 1, 0, 3, 0, 2, 0];
    for part_6 in [&[][..], &[0; 169], &[0; 170], &[1; 171]] {
        let number = |part_2: &[u8], part_3: &[u8], part_4: &[u8], part_5: &[u8]| {
            check(&join(&[&part_1, part_2, part_3, part_4, part_5, part_6]))
        };
        assert_eq!(number(&[0; 55], &[0; 8], &[0], &[0; 15]), 7);
        assert_eq!(number(&[0; 56], &[0; 8], &[0], &[0; 15]), 19);
        assert_eq!(number(&[0; 56], &[0; 8], &[1], &[0; 15]), 21);
        assert_eq!(number(&[0; 56], &[0; 8], &[1], &[0; 16]), 8);
        assert_eq!(number(&part_2, &[0; 8], &[1], &[0; 16]), 9);
        assert_eq!(number(&part_2, &index, &[1], &[0; 16]), 23);
        let unindexed = |part_2: &[u8]| join_parts(&[(1, &part_1), (2, part_2), (6, part_6)]);
        assert_eq!(check(&unindexed(&[0; 56])), 8);
        assert_eq!(check(&unindexed(&part_2)), 23);
    }
}

#[test]
fn every_job_asks_question_23() {
    for sheet in sheets_without_counts() {
        for part_6 in [&[][..], &[0; 169], &[255; 170], &[0; 171]] {
            let damaged = with_part(&sheet, 6, part_6);
            assert_eq!(check(&damaged), 23);
            assert_eq!(schedule_large(&damaged), Err(23));
            assert_eq!(schedule(&damaged, 0, 0), Err(23));
            assert_eq!(view_all(&damaged), Err(23));
            assert_eq!(judge(&damaged), Err(23));
            assert_eq!(count(&damaged, LONGEST), Err(23));
            assert_eq!(count(&damaged, 0), Err(23));
            assert_eq!(print(&damaged), "refused 23\n");
        }
    }
}

#[test]
fn questions_10_and_13_of_counting() {
    for parts in [
        &[(1, &[][..])][..],
        &[(1, &[]), (4, &[1])],
        &[(1, &[]), (5, &[])],
    ] {
        for out in [0, LONGEST] {
            assert_eq!(count(&join_parts(parts), out), Err(10));
        }
    }
    assert_eq!(count(&one_part(&[UNKNOWN_KIND]), 0), Err(5));
    for sheet in sheets_without_counts() {
        let counted = with_counts(&sheet);
        for given in [&sheet, &counted] {
            assert_eq!(count(given, counted.len()).as_ref(), Ok(&counted));
            assert_eq!(count(given, LONGEST).as_ref(), Ok(&counted));
            for short in [0, 170, 180, sheet.len(), counted.len() - 1] {
                assert_eq!(count(given, short.min(counted.len() - 1)), Err(13));
            }
        }
    }
}

/// What a view answers that shows all it can.
fn view_all(sheet: &[u8]) -> Result<(Vec<u8>, u32), u32> {
    view(sheet, Window::WHOLE, Zoom::Stop(0), 512)
}

#[test]
fn question_10_parts_2_and_3_are_there() {
    let part_1 = write_marks(&P1);
    let part_2 = write_records(&p1_records());
    assert_eq!(view_all(&join(&[&part_1])), Err(10));
    assert_eq!(view_all(&join(&[&part_1, &part_2])), Err(10));
    assert_eq!(
        view_all(&three_parts(&P1, &p1_records())),
        Ok((vec![0x0f], 4))
    );
}

#[test]
fn question_10_there_is_not_longer_than_0() {
    assert_eq!(view_all(&join(&[&[]])), Err(10));
    assert_eq!(view_all(&join(&[&[], &[]])), Err(10));
    let empty = join(&[&[], &[], &[]]);
    assert_eq!(
        view(&empty, Window::WHOLE, Zoom::Stop(0), 0),
        Ok((vec![], 0))
    );
}

#[test]
fn question_11_edges_in_order() {
    let sheet = three_parts(&P1, &p1_records());
    let number = |x0, x1, y0, y1| {
        let window = Edges { x0, x1, y0, y1 }.unturned();
        view(&sheet, window, Zoom::Stop(0), 1).map(|(_, count)| count)
    };
    assert_eq!(number(100, 100, 0, 0), Ok(1));
    assert_eq!(number(101, 100, 0, 0), Err(11));
    assert_eq!(number(100, 100, 1, 0), Err(11));
    assert_eq!(number(32_767, -32_768, 0, 0), Err(11));
    assert_eq!(number(32_768, -32_768, 0, 0), Err(11));
    assert_eq!(number(-32_768, 32_767, -32_768, 32_767), Ok(4));
    assert_eq!(number(-32_768, 32_768, -32_768, 32_768), Ok(4));
}

#[test]
fn question_20_a_turn_that_there_is_and_edges_within_the_range() {
    let sheet = three_parts(&P1, &p1_records());
    let number = |edges: Edges, turn| {
        let answer = view(&sheet, edges.of_turned(turn), Zoom::Stop(0), 1);
        answer.map(|(_, count)| count)
    };
    for turn in 0..=255 {
        let expected = if turn <= 3 { Ok(4) } else { Err(20) };
        assert_eq!(number(Edges::WHOLE, turn), expected);
    }
    for turn in 0..=3 {
        for beyond in [-32_769, 32_769, i32::MIN, i32::MAX, 65_536, -65_536] {
            let each = [0, 1, 2, 3].map(|at| {
                let mut edges = [-32_768, 32_768, -32_768, 32_768];
                edges[at] = beyond;
                let [x0, x1, y0, y1] = edges;
                Edges { x0, x1, y0, y1 }
            });
            assert_eq!(each.map(|edges| number(edges, turn)), [Err(20); 4]);
        }
    }
}

#[test]
fn question_20_squares_take_no_turn_but_0() {
    let sheet = three_parts(&P1, &p1_records());
    let [disks, squares] = Shape::ALL.map(|shape| with_shape(&sheet, shape));
    for turn in 0..=255 {
        let number = |sheet| {
            let window = Edges::WHOLE.of_turned(turn);
            view(sheet, window, Zoom::Stop(0), 1).map(|(_, count)| count)
        };
        let of_disks = if turn <= 3 { Ok(4) } else { Err(20) };
        assert_eq!([number(&sheet), number(&disks)], [of_disks; 2]);
        let expected = if turn == 0 { Ok(4) } else { Err(20) };
        assert_eq!(number(&squares), expected);
    }
    // It comes after 10 and before 11.
    let crossed = Edges {
        x0: 1,
        x1: 0,
        ..Edges::WHOLE
    };
    let bare = with_shape(&one_part(&P1), Shape::Square);
    for turn in [1, 2, 3] {
        let number = |sheet| view(sheet, crossed.of_turned(turn), Zoom::Stop(17), 0);
        assert_eq!(number(&bare), Err(10));
        assert_eq!(number(&squares), Err(20));
        assert_eq!(number(&disks), Err(11));
    }
    let upright = view(&squares, crossed.unturned(), Zoom::Stop(17), 0);
    assert_eq!(upright, Err(11));
}

#[test]
fn view_puts_9_23_10_20_and_11_to_13_in_order() {
    let sheet = three_parts(&P1, &p1_records());
    let wrong_tree = with_tree(&P1, &p1_records(), &[0, 1, 2, 3]);
    let wrong_counts = with_part(&sheet, 6, &[0; 170]);
    let two = join(&[&write_marks(&P1), &write_records(&p1_records())]);
    let unindexed = with_part(&two, 6, &[0; 170]);
    let crossed = Edges {
        x0: 1,
        x1: 0,
        ..Edges::WHOLE
    };
    let far = Edges {
        y0: 32_769,
        ..crossed
    };
    let (bad, good) = (Zoom::Stop(17), Zoom::Stop(16));
    for outside in [crossed.of_turned(4), far.unturned(), far.of_turned(255)] {
        assert_eq!(view(&wrong_tree, outside, bad, 0), Err(9));
        assert_eq!(
            view(&with_part(&wrong_tree, 6, &[]), outside, bad, 0),
            Err(9)
        );
        assert_eq!(view(&wrong_counts, outside, bad, 0), Err(23));
        assert_eq!(view(&unindexed, outside, bad, 0), Err(23));
        assert_eq!(view(&one_part(&P1), outside, bad, 0), Err(10));
        assert_eq!(view(&sheet, outside, bad, 0), Err(20));
        assert_eq!(view(&sheet, outside, good, 1), Err(20));
    }
    assert_eq!(view(&sheet, crossed.of_turned(3), bad, 0), Err(11));
    assert_eq!(view(&sheet, Window::WHOLE, bad, 0), Err(12));
    assert_eq!(view(&sheet, Window::WHOLE, good, 0), Err(13));
    assert_eq!(view(&sheet, Window::WHOLE, good, 1), Ok((vec![0x01], 1)));
}

#[test]
fn question_12_zooms() {
    let sheet = three_parts(&P1, &p1_records());
    let number = |zoom| view(&sheet, Window::WHOLE, zoom, 1).map(|(_, count)| count);
    assert_eq!(number(Zoom::Stop(0)), Ok(4));
    assert_eq!(number(Zoom::Stop(80)), Err(12));
    assert_eq!(number(Zoom::Wheel(0.0)), Err(12));
    assert_eq!(number(Zoom::Wheel(f32::NAN)), Err(12));
    // Mark 3 goes at zoom 1/5, between 12/64 and 13/64.
    assert_eq!(number(Zoom::Wheel(12.0 / 64.0)), Ok(4));
    assert_eq!(number(Zoom::Wheel(12.5 / 64.0)), Err(12));
    assert_eq!(number(Zoom::Wheel(13.0 / 64.0)), Ok(3));
}

#[test]
fn question_13_of_a_map() {
    for n in [1, 8, 9, 16, 17] {
        let marks = marks(Layout::Line, n, 1);
        let sheet = three_parts(&marks, &vec![Record::NEVER; n]);
        let bytes = n.div_ceil(8);
        let short = view(&sheet, Window::WHOLE, Zoom::Stop(16), bytes - 1);
        assert_eq!(short, Err(13));
        let (map, count) = view(&sheet, Window::WHOLE, Zoom::Stop(16), bytes).unwrap();
        assert_eq!((map.len(), count as usize), (bytes, n));
    }
}

/// The records of n marks that are never removed.
fn never(n: usize) -> Vec<u8> {
    write_records(&vec![Record::NEVER; n])
}

#[test]
fn question_13_of_scheduling() {
    for n in [0, 1, 4] {
        let sheet = one_part(&P1[..n]);
        let (work, out) = (32 * n + 1_024, 32 + 27 * n);
        let named = with_edition(&sheet, Edition::Second);
        let with_popups = |sheet: &[u8]| with_popups(sheet, &[9; 4][..n]);
        let [popping_up, both] = [&sheet, &named].map(|sheet| with_popups(sheet));
        let more = popup_bytes(n);
        let counted = with_counts(&join(&[&write_marks(&P1[..n]), &never(n)]));
        let named_counted = with_edition(&counted, Edition::Second);
        let [squares, counted_squares] =
            [&sheet, &counted].map(|sheet| with_shape(sheet, Shape::Square));
        let all = with_shape(&with_counts(&schedule_large(&both).unwrap()), Shape::Disk);
        for (sheet, out) in [
            (&sheet, out),
            (&named, out + EDITION),
            (&popping_up, out + more),
            (&both, out + EDITION + more),
            (&counted, out + COUNTS),
            (&named_counted, out + EDITION + COUNTS),
            (&squares, out + SHAPE),
            (&counted_squares, out + COUNTS + SHAPE),
            (&all, out + EDITION + more + COUNTS + SHAPE),
        ] {
            assert_eq!(schedule(sheet, work, out).unwrap().len(), out);
            assert_eq!(schedule(sheet, work - 1, out), Err(13));
            assert_eq!(schedule(sheet, work, out - 1), Err(13));
        }
    }
    assert_eq!(schedule(&one_part(&[UNKNOWN_KIND]), 0, 0), Err(5));
}

#[test]
fn scheduling_does_not_heal_a_bad_part_2_or_3() {
    let (part_1, part_2) = (write_marks(&P1), write_records(&p1_records()));
    let sheets = [
        (join(&[&part_1, &part_2[1..]]), 7),
        (join(&[&part_1, &[0; 56]]), 8),
        (join(&[&part_1, &part_2, &[0; 8]]), 9),
    ];
    for (sheet, number) in sheets {
        assert_eq!(schedule(&sheet, WORK, OUT), Err(number));
    }
}

#[test]
fn question_1_of_putting_together_is_of_codes_and_bodies() {
    let codes: [u16; 9] = [1, 2, 3, 4, 5, 6, 7, 8, 9];
    let bodies: [&[u8]; 9] = [&[], &[], &[], &[1], &[], &[0; 170], &[2], &[], &[]];
    for count in 0..=9 {
        for given in 0..=9 {
            let assembled = assemble(&codes[..count], &bodies[..given], OUT);
            let taken = (1..=7).contains(&count) && given >= count;
            assert_eq!(assembled, taken.then(|| join(&bodies[..count])).ok_or(1));
        }
    }
}

#[test]
fn question_1_of_putting_together_comes_before_2() {
    for codes in [&[][..], &[0; 8], &[7, 6, 5, 4, 3, 2, 1, 0]] {
        assert_eq!(assemble(codes, &[&[0][..]; 8], 0), Err(1));
    }
    assert_eq!(assemble(&[2, 1], &[&[0]], 0), Err(1));
    assert_eq!(assemble(&[2, 1], &[&[0], &[0]], 0), Err(2));
}

#[test]
fn putting_together_asks_2_before_4_and_4_to_9_and_23_before_13() {
    let part_1 = write_marks(&P1);
    let part_2 = write_records(&p1_records());
    let part_3 = tree::write_tree(&[0, 1, 3, 2]);
    let unknown = write_marks(&[UNKNOWN_KIND]);
    let large = write_marks(&[LARGE_RADIUS]);
    let (short_index, no_records) = (&part_3[1..], [0; 56]);
    let beyond = write_popups(&[0, 0, 0, 65_537]);
    let part_6 = part_6(Edition::First.reel(&P1), &p1_records());
    let mut other = part_6.clone();
    other[0] ^= 1;
    let cases: [(u32, &[Part]); 24] = [
        (2, &[(2, &part_1[1..])]),
        (2, &[(1, &part_1[1..]), (6, &part_6)]),
        (2, &[(1, &part_1), (4, &[1]), (6, &part_6)]),
        (4, &[(1, &part_1[1..])]),
        (5, &[(1, &unknown)]),
        (6, &[(1, &large), (4, &[0])]),
        (
            7,
            &[(1, &part_1), (2, &part_2), (3, short_index), (4, &[0])],
        ),
        (
            19,
            &[(1, &part_1), (2, &no_records), (3, &part_3), (4, &[0])],
        ),
        (19, &[(1, &part_1), (4, &[0]), (5, &beyond)]),
        (21, &[(1, &part_1), (2, &no_records), (5, &beyond)]),
        (
            21,
            &[(1, &part_1), (2, &no_records), (4, &[1]), (5, &[0; 15])],
        ),
        (21, &[(1, &part_1), (5, &beyond), (7, &[0])]),
        (24, &[(1, &part_1), (2, &no_records), (7, &[0])]),
        (24, &[(1, &part_1), (7, &[])]),
        (24, &[(1, &part_1), (2, &part_2), (6, &other), (7, &[3])]),
        (24, &[(1, &part_1), (5, &[0; 16]), (7, &[1, 1])]),
        (8, &[(1, &part_1), (2, &no_records), (7, &[2])]),
        (8, &[(1, &part_1), (2, &no_records), (4, &[1])]),
        (8, &[(1, &part_1), (2, &no_records), (3, &[0; 8])]),
        (9, &[(1, &part_1), (2, &part_2), (3, &[0; 8]), (4, &[2])]),
        (9, &[(1, &part_1), (2, &part_2), (3, &[0; 8]), (6, &other)]),
        (23, &[(1, &part_1), (2, &part_2), (3, &part_3), (6, &other)]),
        (23, &[(1, &part_1), (2, &part_2), (6, &other)]),
        (23, &[(1, &part_1), (2, &part_2), (6, &part_6[1..])]),
    ];
    for (number, parts) in cases {
        let (codes, bodies): (Vec<u16>, Vec<&[u8]>) = parts.iter().copied().unzip();
        for out in [0, OUT] {
            assert_eq!(assemble(&codes, &bodies, out), Err(number), "{codes:?}");
        }
    }
    let bodies: [&[u8]; 7] = [&part_1, &part_2, &part_3, &[2], &[0; 16], &part_6, &[2]];
    let lengths = [56, 122, 140, 151, 177, 357, 368];
    for (count, length) in (1..).zip(lengths) {
        let codes = &[1, 2, 3, 4, 5, 6, 7][..count];
        assert_eq!(assemble(codes, &bodies, length - 1), Err(13));
        assert_eq!(assemble(codes, &bodies, length), Ok(join(&bodies[..count])));
    }
}

#[test]
fn putting_together_takes_bodies_in_the_order_of_the_codes() {
    let part_1 = write_marks(&P1);
    let sheet = assemble(&[1, 4], &[&part_1, &[2]], 67).unwrap();
    assert_eq!(sheet, with_edition(&one_part(&P1), Edition::Second));
    assert_eq!(assemble(&[4, 1], &[&[2], &part_1], 67), Err(2));
    // Part 4 is no part 2 though it stands second, and part 5 neither.
    assert_eq!(assemble(&[1, 2], &[&part_1, &[2]], 67), Err(7));
    let popups = write_popups(&[0, 1, 65_536, 9]);
    let sheet = assemble(&[1, 5], &[&part_1, &popups], 82).unwrap();
    assert_eq!(sheet, with_popups(&one_part(&P1), &[0, 1, 65_536, 9]));
    assert_eq!(assemble(&[1, 4], &[&part_1, &popups], 82), Err(19));
    assert_eq!(assemble(&[1, 5], &[&part_1, &[2]], 82), Err(21));
    let sheet = assemble(&[1, 7], &[&part_1, &[2]], 67).unwrap();
    assert_eq!(sheet, with_shape(&one_part(&P1), Shape::Square));
    assert_eq!(assemble(&[1, 7], &[&part_1, &popups], 82), Err(24));
}

#[test]
fn putting_together_ignores_further_bodies() {
    let part_1 = write_marks(&P1);
    let junk: &[u8] = &[0xff; 5];
    for further in 0..9 {
        let bodies = [vec![part_1.as_slice()], vec![junk; further]].concat();
        assert_eq!(assemble(&[1], &bodies, 56), Ok(one_part(&P1)));
    }
    assert_eq!(assemble(&[1, 2], &[&part_1, junk, junk], OUT), Err(7));
    assert_eq!(assemble(&[1, 4], &[&part_1, junk, junk], OUT), Err(19));
    assert_eq!(assemble(&[1, 5], &[&part_1, junk, junk], OUT), Err(21));
    assert_eq!(assemble(&[1, 7], &[&part_1, junk, junk], OUT), Err(24));
}

#[test]
fn question_13_of_a_walk() {
    assert_eq!(walk(&[0x04], 3, 0), (0, 2));
    assert_eq!(walk(&[], 3, 0), (13, 65_535));
    assert_eq!(walk(&[0; 513], 4_097, 0), (13, 65_535));
    assert_eq!(walk(&[0; 513], 4_096, 0), (0, 65_535));
}

#[test]
fn question_14_a_longer_input_gets_14_before_all_else() {
    assert_eq!(print(&[0; 65_536]), "refused 1\n");
    assert_eq!(print(&[0; 65_537]), "refused 14\n");
}

#[test]
fn question_14_whole_sheets_about_the_longest_input() {
    let sheet_of = |n: usize| {
        let marks = marks(Layout::Uniform, n, 2);
        three_parts(&marks, &vec![Record::NEVER; n])
    };
    let (mut shorter, mut longer) = (sheet_of(2_426), sheet_of(2_427));
    assert_eq!((shorter.len(), longer.len()), (65_534, 65_561));
    assert_eq!((check(&shorter), check(&longer)), (0, 0));
    assert_eq!(print(&shorter), "refused 14\n");
    assert_eq!(print(&longer), "refused 14\n");
    // A wrong tree comes before too many marks, and after too many bytes.
    *shorter.last_mut().unwrap() ^= 0x80;
    *longer.last_mut().unwrap() ^= 0x80;
    assert_eq!(print(&shorter), "refused 9\n");
    assert_eq!(print(&longer), "refused 14\n");
}

#[test]
fn question_14_at_most_2_000_marks() {
    let mut many = marks(Layout::Grid, 2_001, 1);
    let text = print(&one_part(&many[..2_000]));
    assert_eq!(text.lines().count(), 2_001);
    assert!(text.starts_with("marks 2000\n"));
    assert_eq!(print(&one_part(&many)), "refused 14\n");
    many[2_000].kind = 200;
    assert_eq!(print(&one_part(&many)), "refused 5\n");
    let too_many = marks(Layout::Grid, 4_097, 1);
    assert_eq!(print(&one_part(&too_many)), "refused 4\n");
}
