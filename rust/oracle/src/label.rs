//! A label, which touches others and reaches into a view (01, 'Touching, rank,
//! removal').

use crate::fraction::Fraction;
use crate::shape::Shape;
use crate::turn::turned;

/// A place in map units and a used radius in screen pixels: at zoom z the label is a
/// disk about the place, of z times the radius, or a square that reaches as far along x and
/// along y.
#[derive(Clone, Copy, Debug, PartialEq, Eq)]
pub struct Label {
    pub x: i32,
    pub y: i32,
    pub radius: u32,
}

impl Label {
    /// The touching value of two labels of a shape: the squared distance of their places
    /// over the squared sum of their radii, as these two whole numbers. Both radii are
    /// ones that question 6 takes.
    #[inline]
    pub fn touching_value(self, other: Self, shape: Shape) -> Fraction {
        let reach = self.radius + other.radius;
        Fraction {
            numerator: shape.squared_distance(self.x - other.x, self.y - other.y),
            denominator: reach * reach,
        }
    }

    /// The label with its place turned so many quarter turns (02, request 8).
    pub fn turned(self, turn: u8) -> Self {
        let (x, y) = turned(turn, self.x, self.y);
        Self { x, y, ..self }
    }
}

#[cfg(test)]
mod tests {
    use super::*;

    #[test]
    fn a_turned_label_keeps_its_radius_and_its_distances() {
        let of = |x, y, radius| Label { x, y, radius };
        let (a, b) = (of(-32_768, 32_767, 40), of(300, -7, 16_383));
        assert_eq!(a.turned(3), of(32_767, 32_768, 40));
        for (turn, shape) in (0..=3).flat_map(|turn| Shape::ALL.map(|shape| (turn, shape))) {
            let value = a.turned(turn).touching_value(b.turned(turn), shape);
            assert_eq!(value, a.touching_value(b, shape));
        }
    }
}
