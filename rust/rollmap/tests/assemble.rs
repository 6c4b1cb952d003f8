//! Putting together and reading parts, compared with the oracle. Codes that have no name,
//! and other numbers of bodies than of codes, are tried through C.

mod common;

use common::{
    bodies_of, code, our_records, scheduled_of, some_room, some_sheet, Lent, SomeBodies, Tally,
};
use oracle::contents::Part;
use oracle::count::part_6;
use oracle::mark::write_marks;
use oracle::popup::write_popups;
use oracle::rank::Edition::{First, Second};
use oracle::sample::{each_list, marks, popups, Generator, Layout, Popups, CODES_TAKEN, P1};
use oracle::shape::Shape;
use oracle::sheet::{join, join_parts, part_extent, split};
use rollmap::Code;

/// Puts parts together in a buffer of so many bytes, and sees that the answer and every
/// byte are the oracle's. Answers the number.
fn assemble(parts: &[Part], out_length: usize, seed: u64) -> u32 {
    let mut out = Lent::new(out_length, seed);
    let lent = parts.iter().map(|(_, body)| Lent::holding(body, seed >> 3));
    let mut lent: Vec<Lent> = lent.collect();
    let bodies = lent.iter_mut().map(|lent| &*lent.slice());
    let codes = parts.iter().map(|&(number, _)| code(number));
    let named: Vec<(Code, &[u8])> = codes.zip(bodies).collect();
    let answer = rollmap::assemble(&named, out.slice());
    lent.iter().for_each(Lent::assert_untouched);
    let (codes, bodies): (Vec<u16>, Vec<&[u8]>) = parts.iter().copied().unzip();
    let expected = oracle::sheet::assemble(&codes, &bodies, out_length);
    out.assert_answered(&answer, &expected)
}

/// Popups of P1 that change neither its schedule nor its counts: all are there at stop 0.
const P1_POPUPS: [u32; 4] = [1, 1, 0, 1];

/// The bodies of P1, scheduled, by code, with an edition, popups and a shape with which they
/// are the same: all its marks go along an axis.
fn p1_bodies() -> [Vec<u8>; 7] {
    let [part_1, part_2, part_3] = bodies_of(&P1, &our_records(&P1));
    let (part_4, part_5) = (Second.write().to_vec(), write_popups(&P1_POPUPS));
    let part_6 = part_6(First.reel(&P1), &our_records(&P1));
    let part_7 = Shape::Square.write().to_vec();
    [part_1, part_2, part_3, part_4, part_5, part_6, part_7]
}

/// The bodies of no marks, with an edition and a shape of this number.
fn empty_bodies(named: u8) -> [Vec<u8>; 7] {
    let [none, named] = [vec![], vec![named]];
    let [part_1, part_2, part_3, part_5] = [(); 4].map(|()| none.clone());
    [
        part_1,
        part_2,
        part_3,
        named.clone(),
        part_5,
        vec![0; 170],
        named,
    ]
}

/// The parts of these codes.
fn parts_of<'a>(codes: &[u16], bodies: &'a [Vec<u8>; 7]) -> Vec<Part<'a>> {
    let body = |code: u16| bodies[usize::from(code) - 1].as_slice();
    codes.iter().map(|&code| (code, body(code))).collect()
}

#[test]
fn every_list_of_codes() {
    let whole = p1_bodies();
    let empty = empty_bodies(1);
    let faulty = [(); 7].map(|()| vec![0]);
    let mut try_list = |codes: &[u16]| {
        let expected = match codes.len() {
            0 | 8.. => 1,
            _ if CODES_TAKEN.contains(&codes) => 0,
            _ => 2,
        };
        for bodies in [&whole, &empty] {
            let number = assemble(&parts_of(codes, bodies), 400, 1);
            assert_eq!(number, expected, "{codes:?}");
        }
        // The codes are asked for before the bodies and the buffer.
        let expected = if expected == 0 { 4 } else { expected };
        let number = assemble(&parts_of(codes, &faulty), 0, 2);
        assert_eq!(number, expected, "{codes:?}");
    };
    for length in 0..=5 {
        each_list(&[1, 2, 3, 4, 5, 6, 7], length, &mut try_list);
    }
    // As many as there are, one more, and two more.
    for length in [6, 7] {
        each_list(&[1, 2, 6, 7], length, &mut try_list);
    }
    for length in [8, 9] {
        each_list(&[1, 2, 7], length, &mut try_list);
    }
    CODES_TAKEN.iter().for_each(|codes| try_list(codes));
}

#[test]
fn every_length_of_the_written_buffer() {
    for bodies in [&p1_bodies(), &empty_bodies(2)] {
        for codes in CODES_TAKEN {
            let parts = parts_of(codes, bodies);
            let needed = join_parts(&parts).len();
            for length in 0..needed + 40 {
                let expected = if length < needed { 13 } else { 0 };
                assert_eq!(assemble(&parts, length, length as u64), expected);
            }
        }
    }
}

#[test]
fn a_part_goes_by_its_code_and_not_by_its_place() {
    let bodies = p1_bodies();
    let [part_1, part_2, _, part_4, part_5, part_6, part_7] = bodies.each_ref().map(Vec::as_slice);
    assert_eq!(assemble(&[(1, part_1), (4, part_4)], 67, 1), 0);
    assert_eq!(assemble(&[(1, part_1), (2, part_4)], 67, 2), 7);
    assert_eq!(assemble(&[(1, part_1), (4, part_2)], 200, 3), 19);
    assert_eq!(
        assemble(&[(1, part_1), (2, part_2), (4, part_4)], 133, 4),
        0
    );
    assert_eq!(assemble(&[(1, part_1), (5, part_5)], 82, 5), 0);
    assert_eq!(assemble(&[(1, part_1), (2, part_5)], 82, 6), 7);
    assert_eq!(assemble(&[(1, part_1), (4, part_5)], 82, 7), 19);
    assert_eq!(assemble(&[(1, part_1), (5, part_4)], 82, 8), 21);
    let third = |code, body| [(1, part_1), (2, part_2), (code, body)];
    assert_eq!(assemble(&third(6, part_6), 302, 9), 0);
    assert_eq!(assemble(&third(5, part_6), 302, 10), 21);
    assert_eq!(assemble(&third(3, part_6), 302, 11), 7);
    assert_eq!(assemble(&third(6, part_5), 302, 12), 23);
    assert_eq!(assemble(&[(1, part_1), (6, part_6)], 302, 13), 2);
    assert_eq!(assemble(&[(1, part_1), (7, part_7)], 67, 14), 0);
    assert_eq!(assemble(&[(1, part_1), (7, part_5)], 82, 15), 24);
    assert_eq!(assemble(&[(1, part_1), (5, part_7)], 82, 16), 21);
    assert_eq!(assemble(&third(6, part_7), 302, 17), 23);
}

#[test]
fn damaged_editions() {
    let mut bodies = p1_bodies();
    for part_4 in [&[][..], &[0], &[3], &[255], &[1, 1], &[2, 0], &[1, 2]] {
        bodies[3] = part_4.to_vec();
        for codes in CODES_TAKEN {
            let expected = if codes.contains(&4) { 19 } else { 0 };
            assert_eq!(assemble(&parts_of(codes, &bodies), 400, 1), expected);
            let short = if codes.contains(&4) { 19 } else { 13 };
            assert_eq!(assemble(&parts_of(codes, &bodies), 0, 1), short);
        }
    }
}

#[test]
fn damaged_popups() {
    let mut bodies = p1_bodies();
    let longer = [bodies[4].as_slice(), &[0]].concat();
    let damaged = [
        vec![],
        bodies[4][1..].to_vec(),
        longer,
        write_popups(&[0, 0, 0, 65_537]),
        write_popups(&[u32::MAX, 0, 0, 0]),
    ];
    for part_5 in damaged {
        bodies[4] = part_5;
        for codes in CODES_TAKEN {
            for part_4 in [[2], [0]] {
                bodies[3] = part_4.to_vec();
                let refused = match codes {
                    _ if codes.contains(&4) && part_4 == [0] => Some(19),
                    _ if codes.contains(&5) => Some(21),
                    _ => None,
                };
                let parts = parts_of(codes, &bodies);
                assert_eq!(assemble(&parts, 400, 1), refused.unwrap_or(0));
                assert_eq!(assemble(&parts, 0, 1), refused.unwrap_or(13));
            }
        }
    }
}

#[test]
fn damaged_shapes() {
    let mut bodies = p1_bodies();
    let beyond = write_popups(&[0, 0, 0, 65_537]);
    for part_7 in [&[][..], &[0], &[3], &[255], &[1, 1], &[2, 0], &[1, 2]] {
        bodies[6] = part_7.to_vec();
        for codes in CODES_TAKEN {
            for part_5 in [write_popups(&P1_POPUPS), beyond.clone()] {
                let no_21 = part_5 == beyond;
                bodies[4] = part_5;
                let refused = match codes {
                    _ if codes.contains(&5) && no_21 => Some(21),
                    _ if codes.contains(&7) => Some(24),
                    _ => None,
                };
                let parts = parts_of(codes, &bodies);
                assert_eq!(assemble(&parts, 400, 1), refused.unwrap_or(0));
                assert_eq!(assemble(&parts, 0, 1), refused.unwrap_or(13));
            }
        }
    }
}

#[test]
fn damaged_counts() {
    let mut bodies = p1_bodies();
    let own = bodies[5].clone();
    let mut damaged: Vec<Vec<u8>> = [0, 2, 168, 169, 171, 172, 340]
        .map(|length| own.iter().copied().cycle().take(length).collect())
        .to_vec();
    for at in 0..own.len() {
        let mut other = own.clone();
        other[at] ^= 1 << (at % 8);
        damaged.push(other);
    }
    for part_6 in damaged {
        bodies[5] = part_6;
        for codes in CODES_TAKEN {
            let refused = codes.contains(&6).then_some(23);
            let parts = parts_of(codes, &bodies);
            assert_eq!(assemble(&parts, 600, 1), refused.unwrap_or(0));
            assert_eq!(assemble(&parts, 0, 1), refused.unwrap_or(13));
        }
    }
}

#[test]
fn every_byte_of_the_bodies_with_some_values() {
    let mut bodies = p1_bodies();
    for body in 0..7 {
        for at in 0..bodies[body].len() {
            let own = bodies[body][at];
            for value in [0, 1, 2, 3, 10, 64, 199, 200, 255, own ^ 1, own ^ 128] {
                bodies[body][at] = value;
                for codes in CODES_TAKEN {
                    assemble(&parts_of(codes, &bodies), 368, u64::from(value));
                }
            }
            bodies[body][at] = own;
        }
    }
}

#[test]
fn many_bodies_with_a_few_faults() {
    let mut generator = Generator::new(6);
    let mut numbers = Tally::default();
    for seed in 0..60_000 {
        let drawn = SomeBodies::draw(&mut generator);
        let mut parts = drawn.parts();
        if generator.below(20) == 0 {
            let at = generator.below(parts.len() as u32) as usize;
            parts[at].0 = generator.choose(&[1, 2, 3, 4, 5, 6, 7]);
        }
        if generator.below(40) == 0 {
            parts.resize(generator.choose(&[0, 8, 9]), (4, &[1]));
        }
        let needed = join_parts(&parts).len();
        let length = some_room(&mut generator, needed);
        numbers.add(assemble(&parts, length, seed));
    }
    numbers.assert_reached([0, 1, 2, 4, 5, 6, 7, 8, 9, 13, 19, 21, 23, 24], 100);
}

#[test]
fn the_longest_bodies() {
    let mut generator = Generator::new(7);
    let sample = marks(Layout::Clustered, 4_096, 2);
    let records = common::foreign_records(&mut generator, First.reel(&sample));
    let [part_1, part_2, part_3] = bodies_of(&sample, &records);
    let (part_4, part_5) = (First.write().to_vec(), write_popups(&[0; 4_096]));
    let part_6 = part_6(First.reel(&sample), &records);
    let part_7 = Shape::Disk.write().to_vec();
    let bodies = [part_1, part_2, part_3, part_4, part_5, part_6, part_7];
    let lengths = [45_056, 57_344, 8_192, 1, 16_384, 170, 1];
    assert_eq!(bodies.each_ref().map(Vec::len), lengths);
    for codes in CODES_TAKEN {
        let body = |&code: &u16| 10 + lengths[usize::from(code) - 1];
        let needed = 2 + codes.iter().map(body).sum::<usize>();
        assert_eq!(assemble(&parts_of(codes, &bodies), needed, 1), 0);
        assert_eq!(assemble(&parts_of(codes, &bodies), needed - 1, 2), 13);
    }
    let longer = [bodies[0].as_slice(), &[0; 11]].concat();
    assert_eq!(assemble(&[(1, &longer)], 1 << 17, 3), 4);
}

#[test]
fn the_buffer_of_its_own_is_long_enough() {
    let mut generator = Generator::new(9);
    let mut numbers = Tally::default();
    for _ in 0..4_000 {
        let drawn = SomeBodies::draw(&mut generator);
        let parts = drawn.parts();
        let named: Vec<(Code, &[u8])> = parts.iter().map(|&(it, body)| (code(it), body)).collect();
        let assembled = rollmap::assemble_to_vec(&named);
        let bodies: Vec<&[u8]> = parts.iter().map(|&(_, body)| body).collect();
        let expected = oracle::sheet::assemble(drawn.codes, &bodies, usize::MAX);
        let number = common::number(&assembled);
        assert_eq!(assembled.map_err(|refusal| refusal.number()), expected);
        numbers.add(number);
    }
    numbers.assert_reached([0, 4, 5, 6, 7, 8, 9, 19, 21, 23, 24], 10);
}

// ---- reading parts

/// The part of that code, once it is seen to be the oracle's, in the very bytes of
/// the sheet.
fn part(sheet: &[u8], code: Code) -> Option<&[u8]> {
    let part = rollmap::part(sheet, code);
    let place = |part: &[u8]| {
        let offset = part.as_ptr() as usize - sheet.as_ptr() as usize;
        (offset as u32, part.len() as u32)
    };
    let extent = part.map_or((0, 0), place);
    let expected = part_extent(sheet, code.number().into());
    assert_eq!(extent, expected, "{code:?} {sheet:02x?}");
    part
}

/// All parts, once they are seen to be the oracle's.
fn parts(sheet: &[u8]) -> Vec<Option<&[u8]>> {
    Code::ALL.iter().map(|&code| part(sheet, code)).collect()
}

#[test]
fn parts_of_accepted_sheets() {
    for layout in Layout::ALL {
        for n in [0, 1, 2, 9, 40] {
            let sample = marks(layout, n, n as u64);
            for codes in CODES_TAKEN {
                let sheet = scheduled_of(codes, &sample, &popups(Popups::Any, &sample, 1));
                let own = split(&sheet).unwrap().present();
                let body = |code: &Code| own.iter().find(|(own, _)| *own == code.number());
                let expected = Code::ALL.iter().map(|code| body(code).map(|part| part.1));
                assert!(parts(&sheet).into_iter().eq(expected));
                assert_eq!(rollmap::mark_count(&sheet), Some(n));
            }
        }
    }
}

#[test]
fn parts_of_every_sheet_with_a_byte_changed() {
    for codes in CODES_TAKEN {
        let mut sheet = scheduled_of(codes, &P1, &[640, 0, 5, 65_536]);
        for at in 0..sheet.len() {
            for bit in 0..8 {
                sheet[at] ^= 1 << bit;
                parts(&sheet);
                sheet[at] ^= 1 << bit;
            }
            parts(&sheet[..at]);
        }
        sheet.push(0);
        assert_eq!(parts(&sheet), [None; 7]);
    }
    assert_eq!(parts(&[]), [None; 7]);
}

#[test]
fn parts_of_many_sheets_with_a_few_faults() {
    let mut generator = Generator::new(8);
    let mut found = [0; 2];
    for _ in 0..40_000 {
        let sheet = some_sheet(&mut generator);
        let code = generator.choose(Code::ALL);
        found[usize::from(part(&sheet, code).is_some())] += 1;
    }
    assert!(found.iter().all(|&times| times > 5_000), "{found:?}");
}

#[test]
fn putting_the_parts_of_a_sheet_together_gives_the_sheet() {
    for layout in Layout::ALL {
        let sample = marks(layout, 33, 9);
        for codes in CODES_TAKEN {
            let sheet = scheduled_of(codes, &sample, &popups(Popups::Few, &sample, 9));
            let own = Code::ALL
                .iter()
                .map(|&code| Some((code, part(&sheet, code)?)));
            let own: Vec<(Code, &[u8])> = own.flatten().collect();
            assert_eq!(rollmap::assemble_to_vec(&own).as_ref(), Ok(&sheet));
        }
    }
    let marks = write_marks(&P1);
    let mut out = vec![0; 56];
    let written = rollmap::assemble(&[(Code::Marks, &marks)], &mut out);
    assert_eq!(written, Ok(56));
    assert_eq!(out, join(&[&marks]));
}
