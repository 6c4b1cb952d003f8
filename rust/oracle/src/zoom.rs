//! Zooms: which are taken, who lives at one, and the one that is printed (01, 'The view
//! and its map' and 'The printed schedule'; 02, requests 7 and 9). Zoom z is map units per
//! pixel, and k = 64z.

use std::cmp::Ordering;

use crate::fraction::{Fraction, Removal};
use crate::Refusal;

/// A zoom as the viewer has it: a stop or a wheel value.
#[derive(Clone, Copy, Debug, PartialEq)]
pub enum Zoom {
    Stop(u8),
    Wheel(f32),
}

/// The last stop.
pub const LAST_STOP: u8 = 16;

/// The largest zoom in 64ths.
const LARGEST_K: u64 = 65_536;

/// The zoom z in 64ths, k = 64z. Asks 12.
pub fn zoom_in_64ths(zoom: Zoom) -> Result<u32, Refusal> {
    let k = match zoom {
        Zoom::Stop(stop) => stop_in_64ths(stop),
        Zoom::Wheel(wheel) => wheel_in_64ths(wheel),
    };
    k.ok_or(12)
}

/// Stop s, 0 to 16, means k = 2 to the power s.
fn stop_in_64ths(stop: u8) -> Option<u32> {
    (stop <= LAST_STOP).then(|| 1 << stop)
}

/// A wheel value w is taken if 64w is a whole number from 1 to 65,536. The
/// float's bits are read as an odd number times a power of two, so nothing is
/// rounded.
fn wheel_in_64ths(wheel: f32) -> Option<u32> {
    let (mantissa, exponent) = magnitude(wheel)?;
    if wheel.is_sign_negative() || mantissa == 0 {
        return None;
    }
    let twos = mantissa.trailing_zeros();
    let odd = u64::from(mantissa >> twos);
    let k = match exponent + twos as i32 + 6 {
        power @ 0..=16 => odd << power,
        _ => return None, // not whole, or at least 2 to the power 17
    };
    (k <= LARGEST_K).then_some(k as u32)
}

/// A finite float's magnitude as a whole number and the exponent of the power of
/// two it is multiplied with; none for infinities and what is no number.
fn magnitude(float: f32) -> Option<(u32, i32)> {
    let bits = float.to_bits();
    let fraction = bits & 0x007f_ffff;
    match (bits >> 23) & 0xff {
        0xff => None,
        0 => Some((fraction, -149)),
        exponent => Some((fraction | 0x0080_0000, exponent as i32 - 150)),
    }
}

/// The squared zoom k²/4096.
#[inline]
pub fn zoom_squared(k: u32) -> Fraction {
    let k = u64::from(k);
    Fraction::new(k * k, 4_096)
}

/// Whether a mark with this removal value is not removed yet at zoom k/64: the squared
/// zoom is below the removal value, or it has none.
#[inline]
pub fn remains(removal: Removal, k: u32) -> bool {
    removal.later_than(zoom_squared(k))
}

/// Whether a mark with this popup and removal value lives at zoom k/64: it is not removed
/// yet, and "living also needs z² at least the mark's own popup value" (02, request 9).
#[inline]
pub fn lives(popup: u32, removal: Removal, k: u32) -> bool {
    zoom_squared(popup).compare(zoom_squared(k)).is_le() && remains(removal, k)
}

/// The removal zoom to the nearest 64th, an exact half to the even number (02,
/// request 7). 64 times the true zoom, squared, is 4096 times the value. The
/// largest k that is at most it is found from its highest bit down; then it is
/// compared with k and a half. The denominator is above 0.
pub fn removal_zoom_in_64ths(value: Fraction) -> u64 {
    // How n / 2 compares with 64 times the true zoom.
    let halves = |n: u64| {
        let square = u128::from(n) * u128::from(n);
        (square * u128::from(value.denominator)).cmp(&(16_384 * u128::from(value.numerator)))
    };
    // The root of 4096 times the largest numerator has 38 bits.
    let down = (0..38).rev().map(|bit| 1 << bit).fold(0, |k, bit| {
        if halves(2 * (k + bit)).is_le() {
            k + bit
        } else {
            k
        }
    });
    match halves(2 * down + 1) {
        Ordering::Less => down + 1,
        Ordering::Equal => down + down % 2,
        Ordering::Greater => down,
    }
}

#[cfg(test)]
mod tests {
    use super::*;

    #[test]
    fn every_whole_k_is_taken_and_its_float_neighbours_are_not() {
        for k in 1..=65_536_u32 {
            let wheel = k as f32 / 64.0;
            assert_eq!(zoom_in_64ths(Zoom::Wheel(wheel)), Ok(k));
            let above = f32::from_bits(wheel.to_bits() + 1);
            let below = f32::from_bits(wheel.to_bits() - 1);
            assert_eq!(zoom_in_64ths(Zoom::Wheel(above)), Err(12));
            assert_eq!(zoom_in_64ths(Zoom::Wheel(below)), Err(12));
        }
    }

    #[test]
    fn a_stop_is_the_wheel_value_of_the_same_zoom() {
        for stop in 0..=16 {
            let wheel = 2_f32.powi(i32::from(stop) - 6);
            let k = zoom_in_64ths(Zoom::Stop(stop));
            assert_eq!(k, Ok(1 << stop));
            assert_eq!(zoom_in_64ths(Zoom::Wheel(wheel)), k);
        }
    }

    #[test]
    fn stops_past_the_last_are_refused_whatever_they_are_as_a_shift() {
        for stop in 17..=255 {
            assert_eq!(zoom_in_64ths(Zoom::Stop(stop)), Err(12));
        }
    }

    #[test]
    fn odd_wheel_values_are_refused() {
        let smallest = f32::from_bits(1);
        let refused = [
            f32::NAN,
            -f32::NAN,
            f32::INFINITY,
            f32::NEG_INFINITY,
            0.0,
            -0.0,
            -1.0,
            -1.0 / 64.0,
            f32::MAX,
            f32::MIN_POSITIVE,
            smallest,
            65_536.0,
            1_025.0,
            2_f32.powi(122),
        ];
        for wheel in refused {
            assert_eq!(zoom_in_64ths(Zoom::Wheel(wheel)), Err(12), "{wheel}");
        }
    }

    #[test]
    fn reading_the_bits_agrees_with_an_exact_product() {
        // 64w is exact in a double, and so is the test for a whole number.
        for step in 0..400_000_u32 {
            let wheel = f32::from_bits(step.wrapping_mul(10_737) ^ 0x3c00_0000);
            let product = f64::from(wheel) * 64.0;
            let whole = product.fract() == 0.0 && (1.0..=65_536.0).contains(&product);
            let expected = if whole { Ok(product as u32) } else { Err(12) };
            assert_eq!(zoom_in_64ths(Zoom::Wheel(wheel)), expected, "{wheel}");
        }
    }

    #[test]
    fn a_mark_is_gone_at_its_own_removal_zoom() {
        let five = Removal::At(Fraction::new(10_000, 400));
        assert!(lives(0, five, 319));
        assert!(!lives(0, five, 320));
        assert!(!lives(0, five, 321));
        assert!(!lives(0, Removal::At(Fraction::new(0, 4)), 1));
    }

    #[test]
    fn a_mark_is_there_from_its_popup_on() {
        let five = Removal::At(Fraction::new(10_000, 400));
        let from = |popup| [1, 200, 201, 319, 320, 65_536].map(|k| lives(popup, five, k));
        assert_eq!(from(0), [true, true, true, true, false, false]);
        assert_eq!(from(201), [false, false, true, true, false, false]);
        assert_eq!(from(319), [false, false, false, true, false, false]);
        // One that goes where it would pop up never lives.
        assert_eq!(from(320), [false; 6]);
        for popup in 1..=65_536 {
            assert!(!lives(popup, Removal::Never, popup - 1));
            assert!(lives(popup, Removal::Never, popup));
        }
    }

    #[test]
    fn the_largest_zoom_is_compared_without_wrapping() {
        let million = 1 << 20; // z² at k = 65,536
        assert!(lives(65_536, Removal::Never, 65_536));
        assert!(remains(Removal::At(Fraction::new(million + 1, 1)), 65_536));
        assert!(!remains(Removal::At(Fraction::new(million, 1)), 65_536));
    }

    #[test]
    fn the_removal_zoom_is_the_nearest_64th() {
        let zoom =
            |numerator, denominator| removal_zoom_in_64ths(Fraction::new(numerator, denominator));
        assert_eq!(zoom(10_000, 400), 320);
        assert_eq!(zoom(9_999, 400), 320);
        assert_eq!(zoom(9, 225), 13);
        assert_eq!(zoom(0, 4), 0);
        assert_eq!(zoom(1, 16_385), 0);
        assert_eq!(zoom(1, 16_383), 1);
        assert_eq!(zoom(8_589_672_450, 4), 2_965_776);
        assert_eq!(zoom(u64::MAX, 1), 1 << 38);
    }

    #[test]
    fn an_exact_half_goes_to_the_even_number() {
        for k in 0..2_000 {
            let half = Fraction::new((2 * k + 1) * (2 * k + 1), 16_384);
            assert_eq!(removal_zoom_in_64ths(half), k + k % 2, "{k} and a half");
        }
        assert_eq!(removal_zoom_in_64ths(Fraction::new(625, 16_384)), 12);
    }
}
