//! Where the parts of a picture stand, and where a place is drawn.

use rollmap::View;

use super::Size;
use crate::words;

/// The heading's height.
pub const HEADING: f64 = 64.0;

/// The width of the legend beside the map.
pub const LEGEND: f64 = 410.0;

/// The room left of the map, for the numbers along y.
const LEFT: f64 = 64.0;

/// The room below the map, for the numbers along x.
const BELOW: f64 = 40.0;

/// The least radius that a label is drawn with, so that each one is seen.
pub const LEAST_RADIUS: f64 = 1.5;

/// The map's rectangle in pixels, and the scale at which places are drawn in it.
#[derive(Clone, Copy, Debug)]
pub struct Frame {
    /// Its left edge.
    pub left: f64,
    /// Its upper edge.
    pub top: f64,
    /// Its width.
    pub width: f64,
    /// Its height.
    pub height: f64,
    /// Pixels of the picture for a map unit.
    pub scale: f64,
    x0: f64,
    y0: f64,
    zoom: f64,
}

impl Frame {
    /// The frame of a view in a picture of that size: the whole rectangle, as large as it gets,
    /// both directions to one scale.
    pub fn of(view: View, size: Size) -> Self {
        let room_x = f64::from(size.width) - LEGEND - LEFT;
        let room_y = f64::from(size.height) - HEADING - BELOW;
        // Edges may meet in a point; it is drawn as a map unit.
        let wide = f64::from((view.x1 - view.x0).max(1));
        let high = f64::from((view.y1 - view.y0).max(1));
        let scale = (room_x / wide).min(room_y / high);
        Self {
            left: LEFT,
            top: HEADING,
            width: wide * scale,
            height: high * scale,
            scale,
            x0: view.x0.into(),
            y0: view.y0.into(),
            zoom: f64::from(words::in_64ths(view.zoom)) / 64.0,
        }
    }

    /// Where a turned place is drawn: x to the right, y downwards.
    pub fn point(&self, (x, y): (i32, i32)) -> (f64, f64) {
        let x = self.left + (f64::from(x) - self.x0) * self.scale;
        let y = self.top + (f64::from(y) - self.y0) * self.scale;
        (x, y)
    }

    /// The radius that a label is drawn with: to scale, but not too small to be seen.
    pub fn radius(&self, radius: u16) -> f64 {
        (f64::from(radius) * self.zoom * self.scale).max(LEAST_RADIUS)
    }

    /// The nearest point that lies inside by at least `inset`, or the middle of a frame that is
    /// too small for that.
    pub fn inside(&self, (x, y): (f64, f64), inset: f64) -> (f64, f64) {
        let within = |at: f64, low: f64, length: f64| match 2.0 * inset < length {
            true => at.max(low + inset).min(low + length - inset),
            false => low + length / 2.0,
        };
        (
            within(x, self.left, self.width),
            within(y, self.top, self.height),
        )
    }
}

/// The places along an edge that get a number: whole multiples of 1, 2 or 5 times a power of
/// ten, at least `apart` pixels from each other.
pub fn ticks(low: i32, high: i32, scale: f64, apart: f64) -> Vec<i32> {
    let tens = (0..6).map(|power| 10_i32.pow(power));
    let steps = tens.flat_map(|ten| [ten, 2 * ten, 5 * ten]);
    let step = steps
        .into_iter()
        .find(|&step| f64::from(step) * scale >= apart);
    let Some(step) = step else {
        return Vec::new();
    };
    let first = low.div_euclid(step) + i32::from(low.rem_euclid(step) != 0);
    (first..=high.div_euclid(step))
        .map(|at| at * step)
        .collect()
}

#[cfg(test)]
mod tests {
    use super::*;
    use rollmap::Zoom;

    #[test]
    fn ticks_are_round_and_within() {
        assert_eq!(ticks(-7, 12, 10.0, 50.0), [-5, 0, 5, 10]);
        assert_eq!(ticks(1, 4, 1.0, 50.0), []);
        assert_eq!(ticks(0, 0, 1.0, 50.0), [0]);
        let wide = ticks(-32_768, 32_768, 0.01, 80.0);
        assert_eq!(wide, [-30_000, -20_000, -10_000, 0, 10_000, 20_000, 30_000]);
    }

    #[test]
    fn a_thin_frame_has_a_middle() {
        for wide in [1, 2, 3, 7, 1_000, 65_536] {
            let view = View {
                x0: -32_768,
                x1: -32_768 + wide,
                y0: 5,
                y1: 5,
                ..View::whole(Zoom::Stop(0))
            };
            let frame = Frame::of(view, Size::USUAL);
            let (x, y) = frame.inside((1e9, -1e9), 15.0);
            assert!((frame.left..=frame.left + frame.width).contains(&x));
            assert!((frame.top..=frame.top + frame.height).contains(&y));
        }
    }

    #[test]
    fn a_frame_keeps_one_scale_and_the_whole_view() {
        let view = View {
            x0: -100,
            x1: 900,
            y0: 0,
            y1: 50,
            ..View::whole(Zoom::Wheel(2.0))
        };
        let frame = Frame::of(view, Size::USUAL);
        assert_eq!(frame.point((-100, 0)), (frame.left, frame.top));
        let (right, bottom) = frame.point((900, 50));
        assert!((right - frame.left - frame.width).abs() < 1e-9);
        assert!((bottom - frame.top - frame.height).abs() < 1e-9);
        assert!((frame.radius(10) - 20.0 * frame.scale).abs() < 1e-9);
    }
}
