//! Removal values in a form that is quickly compared.

use std::cmp::Ordering;

use oracle::fraction::{Fraction, Removal};

/// A touching value, or 'never', which is 1/0 and so later than every fraction. The
/// cross products of two such values fit in 64 bits.
#[derive(Clone, Copy, Debug, PartialEq, Eq)]
pub struct Value {
    pub numerator: u64,
    pub denominator: u64,
}

impl Value {
    pub const ZERO: Self = Self {
        numerator: 0,
        denominator: 1,
    };

    pub const NEVER: Self = Self {
        numerator: 1,
        denominator: 0,
    };

    /// The order of values by cross products.
    #[inline]
    pub fn compare(self, other: Self) -> Ordering {
        let left = self.numerator * other.denominator;
        let right = other.numerator * self.denominator;
        left.cmp(&right)
    }

    /// Whether this value is later than another.
    #[inline]
    pub fn later_than(self, other: Self) -> bool {
        self.compare(other).is_gt()
    }

    /// Whether this value goes before another: it is less, or equal, where a tie goes to it.
    /// That is one comparison, in which such a tie makes the bound one more.
    #[inline]
    pub fn precedes(self, other: Self, tie: bool) -> bool {
        let left = self.numerator * other.denominator;
        let right = other.numerator * self.denominator;
        left < right + u64::from(tie)
    }

    /// The fraction of the value, none for 'never'.
    #[inline]
    pub fn fraction(self) -> Option<Fraction> {
        (self != Self::NEVER).then(|| Fraction::new(self.numerator, self.denominator as u32))
    }
}

impl From<Fraction> for Value {
    #[inline]
    fn from(value: Fraction) -> Self {
        Self {
            numerator: value.numerator,
            denominator: value.denominator.into(),
        }
    }
}

impl From<Removal> for Value {
    #[inline]
    fn from(removal: Removal) -> Self {
        match removal {
            Removal::Never => Self::NEVER,
            Removal::At(value) => value.into(),
        }
    }
}
