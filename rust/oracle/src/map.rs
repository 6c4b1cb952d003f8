//! The map of a view, one bit a mark, and the walk over it (01, 'The view and its map').

use crate::mark::MOST_MARKS;

/// What the walk answers where it finds no mark.
pub const NO_MARK: u32 = 65_535;

/// The bytes of a map of n marks.
pub fn map_bytes(n: usize) -> usize {
    n.div_ceil(8)
}

/// Sets mark m's bit in a map where the mark is shown.
#[inline]
pub fn set_bit(map: &mut [u8], m: usize, shown: bool) {
    map[m / 8] |= u8::from(shown) << (m % 8);
}

/// Whether mark m's bit is set in a map.
pub fn is_set(map: &[u8], m: usize) -> bool {
    map[m / 8] >> (m % 8) & 1 == 1
}

/// Walks a map of n marks: the number of the question refused, or 0, and the
/// least shown number at or after the start and below n, or 65,535. Asks 13.
pub fn walk(map: &[u8], n: u32, start: u32) -> (u32, u32) {
    if !is_map(map, n) {
        return (13, NO_MARK);
    }
    let found = (start..n).find(|&m| is_set(map, m as usize));
    (0, found.unwrap_or(NO_MARK))
}

/// Whether a map of n marks shows mark m: the number of the question refused, or 0,
/// and 1 or 0. Asks 13.
pub fn is_shown(map: &[u8], n: u32, m: u32) -> (u32, u32) {
    if !is_map(map, n) {
        return (13, 0);
    }
    (0, u32::from(m < n && is_set(map, m as usize)))
}

/// 13, of a map that is read: it is long enough for n marks, of which there are at
/// most 4,096.
fn is_map(map: &[u8], n: u32) -> bool {
    n <= MOST_MARKS as u32 && map.len() >= map_bytes(n as usize)
}

#[cfg(test)]
mod tests {
    use super::*;

    #[test]
    fn a_walk_hands_out_the_set_bits_in_rising_order() {
        let map = [0b1000_0010, 0, 0b0001_0001];
        let mut found = Vec::new();
        let mut start = 0;
        while let (0, number @ 0..=4_095) = walk(&map, 24, start) {
            found.push(number);
            start = number + 1;
        }
        assert_eq!(found, [1, 7, 16, 20]);
    }

    #[test]
    fn a_walk_starts_at_its_start_and_ends_below_n() {
        let map = [0b1000_0010, 0xff];
        assert_eq!(walk(&map, 16, 1), (0, 1));
        assert_eq!(walk(&map, 16, 2), (0, 7));
        assert_eq!(walk(&map, 7, 2), (0, NO_MARK));
        assert_eq!(walk(&map, 8, 8), (0, NO_MARK));
        assert_eq!(walk(&map, 8, u32::MAX), (0, NO_MARK));
        assert_eq!(walk(&map, 9, 8), (0, 8));
        assert_eq!(walk(&[], 0, 0), (0, NO_MARK));
    }

    #[test]
    fn a_walk_refuses_a_short_map_and_too_many_marks() {
        let map = [0xff; 600];
        assert_eq!(walk(&map[..1], 8, 0), (0, 0));
        assert_eq!(walk(&map[..1], 9, 0), (13, NO_MARK));
        assert_eq!(walk(&map[..512], 4_096, 4_095), (0, 4_095));
        assert_eq!(walk(&map[..511], 4_096, 0), (13, NO_MARK));
        assert_eq!(walk(&map, 4_097, 0), (13, NO_MARK));
        assert_eq!(walk(&map, u32::MAX, 0), (13, NO_MARK));
    }
}
