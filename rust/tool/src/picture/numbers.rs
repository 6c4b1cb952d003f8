//! Numbers of marks beside their labels, where there is room.

use super::frame::Frame;

/// The largest and the least size of letters in pixels.
const SIZES: (f64, f64) = (15.0, 8.0);

/// The size of letters beside a label that is too small to hold them.
const BESIDE: f64 = 9.0;

/// How wide a letter is for its size, at most about that.
const ASPECT: f64 = 0.62;

/// The middle of a text, and the size of its letters.
#[derive(Clone, Copy, Debug, PartialEq)]
pub struct Spot {
    /// The middle across.
    pub x: f64,
    /// The middle down.
    pub y: f64,
    /// The size of the letters.
    pub size: f64,
}

/// A rectangle of pixels that is taken.
#[derive(Clone, Copy, Debug)]
struct Taken {
    left: f64,
    right: f64,
    top: f64,
    bottom: f64,
}

impl Taken {
    fn around(x: f64, y: f64, half_width: f64, half_height: f64) -> Self {
        Self {
            left: x - half_width,
            right: x + half_width,
            top: y - half_height,
            bottom: y + half_height,
        }
    }

    fn overlaps(&self, other: &Self) -> bool {
        self.left < other.right
            && other.left < self.right
            && self.top < other.bottom
            && other.top < self.bottom
    }
}

/// What is taken of a picture: labels first, and then each number that found its place.
#[derive(Debug, Default)]
pub struct Room {
    taken: Vec<Taken>,
}

impl Room {
    /// Takes what a label or a dot covers.
    pub fn take(&mut self, (x, y): (f64, f64), radius: f64) {
        self.taken.push(Taken::around(x, y, radius, radius));
    }

    /// The place of a text of so many letters inside a label, as near to its middle as the frame
    /// shows it; none where it would not fit.
    pub fn within(
        frame: &Frame,
        (x, y): (f64, f64),
        radius: f64,
        square: bool,
        letters: usize,
    ) -> Option<Spot> {
        let at = frame.inside((x, y), SIZES.0);
        let (dx, dy) = ((at.0 - x).abs(), (at.1 - y).abs());
        let off = if square { dx.max(dy) } else { dx.hypot(dy) };
        let size = (1.5 * (radius - off) / (ASPECT * letters as f64)).min(SIZES.0);
        (size >= SIZES.1).then_some(Spot {
            x: at.0,
            y: at.1,
            size,
        })
    }

    /// A place right, left, above or below a small label that nothing else covers; it is taken
    /// then.
    pub fn beside(
        &mut self,
        frame: &Frame,
        (x, y): (f64, f64),
        radius: f64,
        letters: usize,
    ) -> Option<Spot> {
        let (half_width, half_height) = (ASPECT * BESIDE * letters as f64 / 2.0, BESIDE / 2.0);
        let (across, down) = (radius + half_width + 2.0, radius + half_height + 1.0);
        let places = [
            (x + across, y),
            (x - across, y),
            (x, y - down),
            (x, y + down),
        ];
        let free = places.into_iter().find_map(|(x, y)| {
            let text = Taken::around(x, y, half_width, half_height);
            let inside = frame.inside((x, y), half_width) == (x, y);
            let clear = || !self.taken.iter().any(|taken| taken.overlaps(&text));
            (inside && clear()).then_some((x, y, text))
        });
        let (x, y, text) = free?;
        self.taken.push(text);
        Some(Spot { x, y, size: BESIDE })
    }
}
