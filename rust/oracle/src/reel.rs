//! The reel: all that decides a schedule (01, 'Touching, rank, removal'; 02, requests 6, 9
//! and 13).

use std::cmp::Ordering;

use crate::fraction::Fraction;
use crate::mark::{touching_value, Mark};
use crate::popup::pair_value;
use crate::rank::{Edition, RankKey};
use crate::shape::Shape;

/// Marks that questions 5 and 6 take, the edition that ranks them, their popups, where there
/// is a part 5, and the shape of their labels.
#[derive(Clone, Copy, Debug)]
pub struct Reel<'a> {
    pub marks: &'a [Mark],
    pub edition: Edition,
    pub popups: Option<&'a [u32]>,
    pub shape: Shape,
}

impl<'a> Reel<'a> {
    /// The same marks with these popups, one for each.
    pub fn with_popups(self, popups: &'a [u32]) -> Self {
        Self {
            popups: Some(popups),
            ..self
        }
    }

    /// The same marks with labels of this shape.
    pub fn with_shape(self, shape: Shape) -> Self {
        Self { shape, ..self }
    }

    /// The popup of the mark of that number.
    pub fn popup(&self, number: usize) -> u32 {
        self.popups.map_or(0, |popups| popups[number])
    }

    /// The pair value of two marks by their numbers.
    pub fn pair_value(&self, a: usize, b: usize) -> Fraction {
        let touching = touching_value(self.shape, &self.marks[a], &self.marks[b]);
        pair_value(touching, self.popup(a).max(self.popup(b)))
    }

    /// The rank of the mark of that number.
    pub fn rank(&self, number: usize) -> RankKey {
        RankKey::of(self.edition, &self.marks[number], number)
    }

    /// Rank as an order of mark numbers, highest rank first.
    pub fn rank_order(&self, a: usize, b: usize) -> Ordering {
        self.rank(a).cmp(&self.rank(b))
    }

    /// The numbers of the marks, highest rank first.
    pub fn ranked(&self) -> Vec<usize> {
        let mut numbers: Vec<usize> = (0..self.marks.len()).collect();
        numbers.sort_by(|&a, &b| self.rank_order(a, b));
        numbers
    }

    /// Whether mark number `a` ranks higher than mark number `b`.
    pub fn outranks(&self, a: usize, b: usize) -> bool {
        self.rank_order(a, b).is_lt()
    }
}

#[cfg(test)]
mod tests {
    use super::*;
    use crate::sample::P1;

    #[test]
    fn the_larger_popup_of_two_marks_counts_whichever_has_it() {
        let reel = Edition::First.reel(&P1);
        let touching = Fraction::new(10_000, 400);
        assert_eq!(reel.pair_value(0, 1), touching);
        assert_eq!(reel.with_popups(&[0; 4]).pair_value(0, 1), touching);
        let late = Fraction::new(640 * 640, 4_096);
        for popups in [[640, 0, 0, 0], [0, 640, 0, 0], [639, 640, 9, 9]] {
            let reel = reel.with_popups(&popups);
            assert_eq!(reel.pair_value(0, 1), late);
            assert_eq!(reel.pair_value(1, 0), late);
            assert_eq!(reel.pair_value(2, 3), reel.pair_value(3, 2));
        }
    }

    #[test]
    fn a_popup_is_held_against_the_touching_value_of_the_shape() {
        // Disks touch at 160/64, and squares at 128/64.
        let two = [Mark::plain(0, 0, 10, 9), Mark::plain(30, 40, 10, 5)];
        let value = |shape, popup| {
            let popups = [0, popup];
            let reel = Edition::First.reel(&two).with_shape(shape);
            reel.with_popups(&popups).pair_value(0, 1)
        };
        for popup in [0, 1, 128, 129, 160, 161, 65_536] {
            let late = Fraction::new(u64::from(popup) * u64::from(popup), 4_096);
            let [disks, squares] = Shape::ALL.map(|shape| value(shape, popup));
            let early = |last, numerator| match popup {
                popup if popup <= last => Fraction::new(numerator, 400),
                _ => late,
            };
            assert_eq!(disks, early(160, 2_500));
            assert_eq!(squares, early(128, 1_600));
        }
    }

    #[test]
    fn without_part_5_every_popup_is_0() {
        let reel = Edition::Second.reel(&P1);
        let popups = [0, 5, 65_536, 1];
        for number in 0..4 {
            assert_eq!(reel.popup(number), 0);
            assert_eq!(reel.with_popups(&popups).popup(number), popups[number]);
        }
    }
}
