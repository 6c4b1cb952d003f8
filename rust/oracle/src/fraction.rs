//! Exact fractions and removal values (01, 'Touching, rank, removal').

use std::cmp::Ordering;

/// A fraction kept as its two whole numbers, never reduced.
///
/// `==` asks whether the two numbers are the same as written, which is what
/// question 8 needs. Values are compared with [`Fraction::compare`], where 25/1
/// and 100/4 are equal.
#[derive(Clone, Copy, Debug, PartialEq, Eq)]
pub struct Fraction {
    pub numerator: u64,
    pub denominator: u32,
}

impl Fraction {
    /// The fraction of these two numbers.
    pub const fn new(numerator: u64, denominator: u32) -> Self {
        Self {
            numerator,
            denominator,
        }
    }

    /// The order of two fractions by exact cross products. It is an order of
    /// values where both denominators are above 0.
    #[inline]
    pub fn compare(self, other: Self) -> Ordering {
        let left = u128::from(self.numerator) * u128::from(other.denominator);
        let right = u128::from(other.numerator) * u128::from(self.denominator);
        left.cmp(&right)
    }
}

/// The removal value of a mark: none, or the squared zoom it is removed at.
#[derive(Clone, Copy, Debug, PartialEq, Eq)]
pub enum Removal {
    Never,
    At(Fraction),
}

impl Removal {
    /// The order of removal values: 'never' is later than all, and equal only to
    /// 'never'; two fractions go by cross products.
    #[inline]
    pub fn compare(self, other: Self) -> Ordering {
        match (self, other) {
            (Self::Never, Self::Never) => Ordering::Equal,
            (Self::Never, Self::At(_)) => Ordering::Greater,
            (Self::At(_), Self::Never) => Ordering::Less,
            (Self::At(mine), Self::At(theirs)) => mine.compare(theirs),
        }
    }

    /// Whether this removal is later than a value.
    #[inline]
    pub fn later_than(self, value: Fraction) -> bool {
        self.compare(Self::At(value)).is_gt()
    }

    /// Whether two removal values are equal by cross products.
    pub fn equals(self, other: Self) -> bool {
        self.compare(other).is_eq()
    }
}

#[cfg(test)]
mod tests {
    use super::*;

    #[test]
    fn equal_values_may_be_written_differently() {
        let (short, long) = (Fraction::new(25, 1), Fraction::new(100, 4));
        assert_eq!(short.compare(long), Ordering::Equal);
        assert_ne!(short, long);
        assert!(Removal::At(short).equals(Removal::At(long)));
    }

    #[test]
    fn the_widest_cross_products_do_not_wrap() {
        let largest = Fraction::new(u64::MAX, 1);
        let nearly = Fraction::new(u64::MAX - 1, 1);
        let small = Fraction::new(u64::MAX, u32::MAX);
        assert_eq!(largest.compare(nearly), Ordering::Greater);
        assert_eq!(nearly.compare(largest), Ordering::Less);
        assert_eq!(small.compare(largest), Ordering::Less);
        assert_eq!(largest.compare(small), Ordering::Greater);
    }

    #[test]
    fn neighbours_that_division_confuses_are_told_apart() {
        let third = Fraction::new(1, 3);
        let above = Fraction::new(333_333_334, 1_000_000_000);
        assert_eq!(third.compare(above), Ordering::Less);
        assert_eq!(above.compare(third), Ordering::Greater);
    }

    #[test]
    fn never_is_later_than_all_and_equal_to_itself_only() {
        let late = Removal::At(Fraction::new(u64::MAX, 1));
        assert!(Removal::Never.later_than(Fraction::new(u64::MAX, 1)));
        assert_eq!(late.compare(Removal::Never), Ordering::Less);
        assert!(Removal::Never.equals(Removal::Never));
        assert!(!Removal::Never.equals(late));
        assert!(!late.equals(Removal::Never));
    }

    #[test]
    fn later_is_strict() {
        let value = Fraction::new(100, 4);
        assert!(!Removal::At(Fraction::new(25, 1)).later_than(value));
        assert!(!Removal::At(Fraction::new(24, 1)).later_than(value));
        assert!(Removal::At(Fraction::new(101, 4)).later_than(value));
    }
}
