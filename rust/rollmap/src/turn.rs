//! Turns, for screens on which the reel lies otherwise than in its places.

/// A turn of the places of a view. Where x is drawn to the right and y downwards, it is
/// clockwise, and counterclockwise where y is drawn upwards. A view of
/// [squares](crate::Shape::Square) takes no turn but [`None`](Self::None).
///
/// Which one a screen takes on which the web runs from left to right depends on where the
/// places run along the web: [`None`](Self::None) where x grows, [`Quarter`](Self::Quarter)
/// where y falls, [`Half`](Self::Half) where x falls,
/// [`ThreeQuarters`](Self::ThreeQuarters) where y grows.
#[derive(Clone, Copy, Debug, Default, PartialEq, Eq, Hash)]
#[repr(u8)]
pub enum Turn {
    /// No turn: every place stays where it is.
    #[default]
    None = 0,
    /// One quarter turn: x, y goes to -y, x.
    Quarter = 1,
    /// Two quarter turns: x, y goes to -x, -y.
    Half = 2,
    /// Three quarter turns: x, y goes to y, -x.
    ThreeQuarters = 3,
}

impl Turn {
    /// Every turn, by rising number of quarter turns.
    pub const ALL: [Self; 4] = [Self::None, Self::Quarter, Self::Half, Self::ThreeQuarters];

    /// The number of quarter turns, 0 to 3.
    pub const fn quarters(self) -> u8 {
        self as u8
    }

    /// The turn of so many quarter turns, none where they are more than 3.
    pub const fn from_quarters(quarters: u8) -> Option<Self> {
        match quarters {
            0 => Some(Self::None),
            1 => Some(Self::Quarter),
            2 => Some(Self::Half),
            3 => Some(Self::ThreeQuarters),
            _ => None,
        }
    }

    /// This turn and then the next one. Four quarter turns are no turn.
    pub const fn then(self, next: Self) -> Self {
        let quarters = self.quarters() + next.quarters();
        Self::ALL[quarters as usize % Self::ALL.len()]
    }

    /// Where the turn takes a place, x and y: what the edges of a view with this turn refer
    /// to, and where its screen draws a mark.
    pub const fn turned(self, x: i16, y: i16) -> (i32, i32) {
        let (x, y) = (x as i32, y as i32);
        match self {
            Self::None => (x, y),
            Self::Quarter => (-y, x),
            Self::Half => (-x, -y),
            Self::ThreeQuarters => (y, -x),
        }
    }
}

#[cfg(test)]
mod tests {
    use super::*;

    #[test]
    fn a_turn_is_0_to_3_quarter_turns() {
        let quarters = Turn::ALL.map(Turn::quarters);
        assert_eq!(quarters, [0, 1, 2, 3]);
        for quarters in 0..=255 {
            let turn = Turn::from_quarters(quarters);
            assert_eq!(
                turn.map(Turn::quarters),
                (quarters <= 3).then_some(quarters)
            );
        }
        assert_eq!(Turn::default(), Turn::None);
    }

    #[test]
    fn turns_in_succession_turn_places_one_after_the_other() {
        let there = |turn: Turn, (x, y): (i32, i32)| turn.turned(x as i16, y as i16);
        for first in Turn::ALL {
            for next in Turn::ALL {
                let both = first.then(next).turned(300, -7);
                assert_eq!(both, there(next, first.turned(300, -7)));
            }
        }
        let four = [Turn::Quarter; 4].into_iter().fold(Turn::None, Turn::then);
        assert_eq!(four, Turn::None);
    }

    #[test]
    fn the_least_place_turns_to_32_768() {
        assert_eq!(Turn::Quarter.turned(0, i16::MIN), (32_768, 0));
        assert_eq!(Turn::Half.turned(i16::MIN, i16::MIN), (32_768, 32_768));
        assert_eq!(Turn::ThreeQuarters.turned(i16::MIN, 0), (0, 32_768));
    }

    #[test]
    fn along_the_web_x_grows_on_a_screen_from_left_to_right() {
        // Which way the places run along the web, and the turn that is named for it.
        let along = [
            ((1, 0), Turn::None),
            ((0, -1), Turn::Quarter),
            ((-1, 0), Turn::Half),
            ((0, 1), Turn::ThreeQuarters),
        ];
        for ((x, y), turn) in along {
            assert_eq!(turn.turned(x, y), (1, 0));
        }
    }
}
