//! Reading a map, one mark and as a walk, compared with the oracle.

mod common;

use common::number;
use oracle::map::{is_set, map_bytes, NO_MARK};
use oracle::sample::Generator;

/// One step of a walk, once it is seen to be the oracle's.
fn walk(map: &[u8], n: u32, start: u32) -> Option<u32> {
    let answer = rollmap::walk(map, n, start);
    let value = match answer {
        Ok(Some(mark)) => mark,
        Ok(None) | Err(_) => NO_MARK,
    };
    let expected = oracle::map::walk(map, n, start);
    assert_eq!((number(&answer), value), expected, "{map:02x?} {n} {start}");
    answer.ok().flatten()
}

/// Whether a mark is shown, once it is seen to be the oracle's answer.
fn is_shown(map: &[u8], n: u32, mark: u32) -> bool {
    let answer = rollmap::is_shown(map, n, mark);
    let value = u32::from(answer == Ok(true));
    let expected = oracle::map::is_shown(map, n, mark);
    assert_eq!((number(&answer), value), expected, "{map:02x?} {n} {mark}");
    value == 1
}

/// All that a walk hands out, once it is seen to be the set bits.
fn walked(map: &[u8], n: u32) -> Vec<u32> {
    let mut shown = rollmap::shown(map, n).unwrap();
    let mut found = Vec::new();
    let all = shown.len();
    while let Some(mark) = shown.next() {
        found.push(mark);
        assert_eq!(shown.len(), all - found.len(), "exactly so many are left");
    }
    assert_eq!(found.len(), all);
    let set = (0..n).filter(|&mark| is_set(map, mark as usize));
    assert!(found.iter().copied().eq(set), "{map:02x?} {n}");
    found
}

/// A map of so many bytes: about one bit in 2, or far fewer, or far more.
fn some_map(generator: &mut Generator, bytes: usize) -> Vec<u8> {
    let thinner = generator.below(8);
    let thicker = if thinner == 0 { generator.below(6) } else { 0 };
    let mut byte = || {
        let thin = (0..thinner).fold(u64::MAX, |bits, _| bits & generator.draw());
        (0..thicker).fold(thin, |bits, _| bits | generator.draw()) as u8
    };
    (0..bytes).map(|_| byte()).collect()
}

#[test]
fn every_map_of_one_byte() {
    for byte in 0..=255 {
        for map in [[byte].as_slice(), &[byte, 0xff], &[byte, 0]] {
            for n in 0..=9 {
                for start in (0..=10).chain([63, 64, 65_535, 65_536, u32::MAX - 1, u32::MAX]) {
                    walk(map, n, start);
                    is_shown(map, n, start);
                }
            }
        }
    }
}

#[test]
fn every_single_bit_from_every_start() {
    for bit in 0..140 {
        let mut map = vec![0; 18];
        map[bit / 8] = 1 << (bit % 8);
        for n in [0, bit as u32, bit as u32 + 1, 63, 64, 65, 128, 143, 144] {
            for start in 0..=144 {
                walk(&map, n, start);
            }
        }
    }
}

#[test]
fn every_length_of_a_map() {
    let map = vec![0xff; 600];
    for n in (0..70_u32).chain([4_080, 4_088, 4_089, 4_095, 4_096]) {
        let needed = map_bytes(n as usize);
        for length in (0..12)
            .chain(505..=514)
            .chain([needed.saturating_sub(1), needed])
        {
            for start in [0, n / 2, n.saturating_sub(1), n, n + 1] {
                assert_eq!(
                    is_shown(&map[..length], n, start),
                    length >= needed && start < n
                );
                let expected = (length >= needed && start < n).then_some(start);
                assert_eq!(walk(&map[..length], n, start), expected);
            }
            let refused = length < needed;
            assert_eq!(rollmap::shown(&map[..length], n).is_err(), refused);
        }
    }
    assert_eq!(walk(&[], 0, 0), None);
}

#[test]
fn no_more_than_4_096_marks_are_walked() {
    let map = vec![0xff; 70_000 / 8];
    for n in [
        4_097,
        4_104,
        8_192,
        65_535,
        65_536,
        65_537,
        1 << 31,
        u32::MAX,
    ] {
        for start in [0, 4_095, 4_096, 65_535, u32::MAX] {
            assert_eq!(walk(&map, n, start), None);
            assert_eq!(number(&rollmap::walk(&map, n, start)), 13);
            assert_eq!(number(&rollmap::walk(&[], n, start)), 13);
            assert!(!is_shown(&map, n, start));
            assert_eq!(number(&rollmap::is_shown(&map, n, start)), 13);
        }
    }
    assert_eq!(walk(&map, 4_096, 4_095), Some(4_095));
    assert_eq!(walk(&map, 4_096, 4_096), None);
}

#[test]
fn many_maps() {
    let mut generator = Generator::new(31);
    for _ in 0..30_000 {
        let bytes = generator.below(40) as usize;
        let map = some_map(&mut generator, bytes);
        let n = generator.below(8 * bytes as u32 + 12);
        for _ in 0..8 {
            let start = generator.below(n + 3);
            walk(&map, n, start);
            is_shown(&map, n, start);
        }
    }
}

#[test]
fn maps_at_every_alignment() {
    let mut generator = Generator::new(32);
    for _ in 0..300 {
        let bytes = some_map(&mut generator, 64);
        for from in 0..16 {
            for to in 40..64 {
                let map = &bytes[from..to];
                walked(map, 8 * map.len() as u32);
            }
        }
    }
}

#[test]
fn whole_walks() {
    let mut generator = Generator::new(33);
    for turn in 0..400 {
        let map = some_map(&mut generator, 512);
        let n = match turn % 4 {
            0 => 4_096,
            _ => generator.below(4_097),
        };
        let found = walked(&map, n);
        let mut again = rollmap::shown(&map, n).unwrap();
        assert_eq!(again.by_ref().count(), found.len());
        assert_eq!(again.next(), None);
    }
    assert_eq!(walked(&[0xff; 512], 4_096).len(), 4_096);
    assert!(walked(&[0; 512], 4_096).is_empty());
}
