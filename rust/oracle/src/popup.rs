//! Popups (02, request 9): "Part 5 gives each mark k, 4 bytes: it isn't there while 64z is
//! below k." Where there is no part 5, every k is 0.

use crate::fraction::Fraction;
use crate::zoom::zoom_squared;

/// Bytes a mark takes in part 5.
pub const POPUP_BYTES: usize = 4;

/// The largest popup.
pub const LARGEST_POPUP: u32 = 65_536;

/// Question 21 of one popup: it does not exceed 65,536.
#[inline]
pub fn popup_fits(popup: u32) -> bool {
    popup <= LARGEST_POPUP
}

/// The value of two marks with this touching value, of which `popup` is the larger popup:
/// "the larger of the touching value and both k²/4096; a popup fraction is kept only where
/// it exceeds the touching value".
#[inline]
pub fn pair_value(touching: Fraction, popup: u32) -> Fraction {
    let popup_value = zoom_squared(popup);
    if popup_value.compare(touching).is_gt() {
        popup_value
    } else {
        touching
    }
}

/// Reads a popup of part 5.
#[inline]
pub fn read_popup(bytes: &[u8; POPUP_BYTES]) -> u32 {
    u32::from_le_bytes(*bytes)
}

/// Writes a popup of part 5.
pub fn write_popup(popup: &u32) -> [u8; POPUP_BYTES] {
    popup.to_le_bytes()
}

/// Reads part 5: all its popups, a body whose length is a multiple of 4.
pub fn read_popups(part_5: &[u8]) -> Vec<u32> {
    part_5.as_chunks().0.iter().map(read_popup).collect()
}

/// Writes part 5.
pub fn write_popups(popups: &[u32]) -> Vec<u8> {
    popups.iter().flat_map(write_popup).collect()
}

#[cfg(test)]
mod tests {
    use super::*;

    #[test]
    fn popups_stand_little_endian() {
        assert_eq!(write_popups(&[65_536, 258]), [0, 0, 1, 0, 2, 1, 0, 0]);
        assert_eq!(
            read_popups(&[0, 0, 1, 0, 4, 3, 2, 1]),
            [65_536, 0x0102_0304]
        );
    }

    #[test]
    fn the_largest_popup_is_the_largest_zoom() {
        let taken = [0, 1, 65_535, 65_536].map(popup_fits);
        assert_eq!(taken, [true; 4]);
        let refused = [65_537, 65_792, 1 << 24, u32::MAX].map(popup_fits);
        assert_eq!(refused, [false; 4]);
    }

    #[test]
    fn a_popup_fraction_is_kept_only_where_it_exceeds_the_touching_value() {
        // 25 is k²/4096 for k = 320.
        for touching in [Fraction::new(25, 1), Fraction::new(10_000, 400)] {
            let value = |popup| pair_value(touching, popup);
            assert_eq!([0, 1, 319, 320].map(value), [touching; 4]);
            assert_eq!(value(321), Fraction::new(103_041, 4_096));
        }
    }

    #[test]
    fn the_numbers_of_a_popup_fraction_are_not_reduced() {
        let none = Fraction::new(0, 4);
        assert_eq!(pair_value(none, 0), none);
        assert_eq!(pair_value(none, 64), Fraction::new(4_096, 4_096));
        let last = Fraction::new(1 << 32, 4_096);
        assert_eq!(pair_value(none, 65_536), last);
        // The largest touching value is above all popups.
        let largest = Fraction::new(8_589_672_450, 4);
        assert_eq!(pair_value(largest, 65_536), largest);
    }

    #[test]
    fn the_larger_of_three_is_the_larger_of_the_touching_value_and_the_larger_popup() {
        let touching = [(0, 4), (1, 4_096), (25, 1), (81, 64), (1 << 20, 1)];
        let exceeding = |value: Fraction, popup: u32| {
            let other = zoom_squared(popup);
            if other.compare(value).is_gt() {
                other
            } else {
                value
            }
        };
        let popups = [0, 1, 71, 72, 73, 320, 65_536];
        for (numerator, denominator) in touching {
            let touching = Fraction::new(numerator, denominator);
            for (a, b) in popups.into_iter().flat_map(|a| popups.map(|b| (a, b))) {
                let one_by_one = exceeding(exceeding(touching, a), b);
                assert_eq!(pair_value(touching, a.max(b)), one_by_one);
            }
        }
    }
}
