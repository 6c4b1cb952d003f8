//! The view and who is shown in it (01, 'The view and its map'; 02, requests 1, 8, 9 and
//! 13).

use crate::fraction::Removal;
use crate::label::Label;
use crate::map::{map_bytes, set_bit};
use crate::mark::Mark;
use crate::record::removals;
use crate::reel::Reel;
use crate::shape::Shape;
use crate::sheet::open;
use crate::turn::MOST_TURNS;
use crate::zoom::{lives, zoom_in_64ths, Zoom};
use crate::{ask, Refusal};

/// How far out an edge lies at most, on either side of 0.
pub const FARTHEST_EDGE: i32 = 32_768;

/// The edges of a view, all of them inside it.
#[derive(Clone, Copy, Debug, PartialEq, Eq)]
pub struct Edges {
    pub x0: i32,
    pub x1: i32,
    pub y0: i32,
    pub y1: i32,
}

impl Edges {
    /// The edges of all places, turned ones too.
    pub const WHOLE: Self = Self {
        x0: -FARTHEST_EDGE,
        x1: FARTHEST_EDGE,
        y0: -FARTHEST_EDGE,
        y1: FARTHEST_EDGE,
    };

    /// The view's rectangle without a turn.
    pub const fn unturned(self) -> Window {
        self.of_turned(0)
    }

    /// The view's rectangle of places that are turned so many quarter turns.
    pub const fn of_turned(self, turn: u8) -> Window {
        Window { edges: self, turn }
    }
}

/// What a view looks at: its edges, which "refer to turned places", and the turn.
#[derive(Clone, Copy, Debug, PartialEq, Eq)]
pub struct Window {
    pub edges: Edges,
    pub turn: u8,
}

impl Window {
    /// All places without a turn.
    pub const WHOLE: Self = Edges::WHOLE.unturned();
}

/// Whether a mark's label at zoom k/64, of this shape, reaches the rectangle, once its place
/// is turned.
///
/// # Panics
///
/// On marks that question 5 refuses, and edges that question 11 refuses.
pub fn reaches(shape: Shape, mark: &Mark, window: Window, k: u32) -> bool {
    label_reaches(shape, mark.label().turned(window.turn), window.edges, k)
}

/// Whether a label of a shape at zoom k/64 reaches the rectangle, touching included: the
/// squared distance from the label's place to the rectangle, times 4096, is at most k²
/// times the squared radius. The nearest place of the rectangle is the place itself
/// where it lies inside.
///
/// # Panics
///
/// On edges that question 11 refuses.
#[inline]
pub fn label_reaches(shape: Shape, label: Label, edges: Edges, k: u32) -> bool {
    let dx = label.x - label.x.clamp(edges.x0, edges.x1);
    let dy = label.y - label.y.clamp(edges.y0, edges.y1);
    let (k, radius) = (u64::from(k), u64::from(label.radius));
    4_096 * shape.squared_distance(dx, dy) <= k * k * (radius * radius)
}

/// Answers a view by looking at every mark: the bytes written to the map, and the
/// count of shown marks. Asks 1 to 13.
pub fn view(
    sheet: &[u8],
    window: Window,
    zoom: Zoom,
    map_length: usize,
) -> Result<(Vec<u8>, u32), Refusal> {
    let opened = open(sheet)?;
    let records = opened.indexed_records()?;
    let k = ask_view(opened.shape, window, zoom)?;
    ask(13, map_length >= map_bytes(opened.marks.len()))?;
    Ok(map_and_count(opened.reel(), &removals(records), window, k))
}

/// The map of the shown marks of a reel, and their count. A mark is shown if it lives,
/// by the removal value that a list names for it, and its label reaches the rectangle.
///
/// # Panics
///
/// As [`reaches`] does.
pub fn map_and_count(reel: Reel, list: &[Removal], window: Window, k: u32) -> (Vec<u8>, u32) {
    let mut map = vec![0; map_bytes(list.len())];
    let mut count = 0;
    for (m, &removal) in list.iter().enumerate() {
        let shown =
            lives(reel.popup(m), removal, k) && reaches(reel.shape, &reel.marks[m], window, k);
        set_bit(&mut map, m, shown);
        count += u32::from(shown);
    }
    (map, count)
}

/// The zoom of a view in 64ths, of labels of this shape. Asks 20 of the turn, which is none
/// but 0 for squares, and of the edges; 11 of the edges; and 12.
pub fn ask_view(shape: Shape, window: Window, zoom: Zoom) -> Result<u32, Refusal> {
    let Edges { x0, x1, y0, y1 } = window.edges;
    let within = |edge| (-FARTHEST_EDGE..=FARTHEST_EDGE).contains(&edge);
    let turns = match shape {
        Shape::Disk => MOST_TURNS,
        Shape::Square => 0,
    };
    ask(
        20,
        window.turn <= turns && [x0, x1, y0, y1].into_iter().all(within),
    )?;
    ask(11, x0 <= x1 && y0 <= y1)?;
    zoom_in_64ths(zoom)
}

#[cfg(test)]
mod tests {
    use super::Shape::{Disk, Square};
    use super::*;

    /// These edges, without a turn.
    fn window(x0: i32, x1: i32, y0: i32, y1: i32) -> Window {
        Edges { x0, x1, y0, y1 }.unturned()
    }

    /// The edges of one place.
    fn about(x: i32, y: i32) -> Edges {
        let (x0, x1, y0, y1) = (x, x, y, y);
        Edges { x0, x1, y0, y1 }
    }

    /// At zoom 5, k = 320, its disk has radius 50, and its square reaches as far along x and
    /// along y.
    const TEN_WIDE: Mark = Mark::plain(0, 0, 10, 0);

    #[test]
    fn a_label_that_touches_the_rectangle_reaches_it() {
        let beside = |d: i32| {
            [
                window(d, 200, -9, 9),
                window(-200, -d, -9, 9),
                window(-9, 9, d, 200),
                window(-9, 9, -200, -d),
            ]
        };
        for shape in Shape::ALL {
            let each = |d, k| beside(d).map(|edges| reaches(shape, &TEN_WIDE, edges, k));
            assert_eq!(each(50, 320), [true; 4]);
            assert_eq!(each(51, 320), [false; 4]);
            assert_eq!(each(50, 319), [false; 4]);
        }
    }

    #[test]
    fn towards_a_corner_both_axes_count_for_disks_and_the_farther_one_for_squares() {
        let shapes = |x0, y0, k| {
            Shape::ALL.map(|shape| reaches(shape, &TEN_WIDE, window(x0, 99, y0, 99), k))
        };
        // 30, 40 and 50 are the sides of a right triangle.
        assert_eq!(shapes(30, 40, 320), [true, true]);
        assert_eq!(shapes(30, 40, 319), [false, true]);
        assert_eq!(shapes(31, 40, 320), [false, true]);
        assert_eq!(shapes(30, 41, 320), [false, true]);
        // 64 times zoom 4 is 256, where the square reaches 40 along both.
        assert_eq!(shapes(30, 40, 256), [false, true]);
        assert_eq!(shapes(30, 40, 255), [false, false]);
        // The corner of the square itself, and one unit further on either axis.
        assert_eq!(shapes(50, 50, 320), [false, true]);
        assert_eq!(shapes(50, 50, 319), [false, false]);
        assert_eq!(shapes(51, 50, 320), [false, false]);
        assert_eq!(shapes(50, 51, 320), [false, false]);
    }

    #[test]
    fn a_label_reaches_the_rectangles_that_have_a_place_in_it() {
        let mark = Mark::plain(0, 0, 3, 0);
        let side = |low: i32| (low..=6).map(move |high| (low, high));
        for k in [1, 40, 64, 100] {
            let in_label = |shape, x: i32, y: i32| match shape {
                Disk => 4_096 * (x * x + y * y) <= k * k * 9,
                Square => [x, y].iter().all(|place| 64 * place.abs() <= k * 3),
            };
            for (x0, x1) in (-6..=6).flat_map(side) {
                for (y0, y1) in (-6..=6).flat_map(side) {
                    for shape in Shape::ALL {
                        let any = (x0..=x1).any(|x| (y0..=y1).any(|y| in_label(shape, x, y)));
                        let rectangle = window(x0, x1, y0, y1);
                        assert_eq!(reaches(shape, &mark, rectangle, k as u32), any);
                    }
                }
            }
        }
    }

    #[test]
    fn a_mark_of_radius_0_reaches_as_far_as_its_house_radius() {
        let patch = Mark {
            radius: 0,
            kind: 10,
            ..TEN_WIDE
        };
        for shape in Shape::ALL {
            assert!(reaches(shape, &patch, window(60, 99, 0, 0), 64));
            assert!(!reaches(shape, &patch, window(61, 99, 0, 0), 64));
        }
    }

    #[test]
    fn the_widest_labels_are_compared_without_wrapping() {
        let low = i16::MIN;
        let widest = Mark::plain(low, low, 16_383, 0);
        for high in [32_767, 32_768] {
            let far = window(high, high, high, high);
            for (shape, first) in [(Disk, 363), (Square, 257)] {
                assert!(!reaches(shape, &widest, far, first - 1));
                assert!(reaches(shape, &widest, far, first));
                assert!(reaches(shape, &widest, far, 65_536));
                let narrowest = Mark::plain(low, low, 1, 0);
                assert!(!reaches(shape, &narrowest, far, 65_536));
            }
        }
    }

    #[test]
    fn a_disk_reaches_a_rectangle_of_turned_places() {
        // At zoom 5 its disk has radius 50, about (70, -20).
        let mark = Mark::plain(70, -20, 10, 0);
        let at = |turn, x, y| reaches(Disk, &mark, about(x, y).of_turned(turn), 320);
        for (turn, x, y) in [(0, 70, -20), (1, 20, 70), (2, -70, 20), (3, -20, -70)] {
            for (dx, dy) in [(50, 0), (-50, 0), (0, 50), (30, -40), (-40, -30)] {
                assert!(at(turn, x + dx, y + dy));
                assert!(!at(turn, x + dx + dx.signum(), y + dy + dy.signum()));
            }
        }
    }

    #[test]
    fn a_place_that_is_turned_beyond_the_range_of_places_is_reached() {
        let mark = Mark::plain(i16::MIN, i16::MIN, 1, 0);
        let unturned = Edges {
            x1: 32_767,
            y1: 32_767,
            ..Edges::WHOLE
        };
        // The turned place, and the least k at which a place that is not turned is near.
        for (turn, x, y, near) in [
            (1, 32_768, -32_768, 64),
            (2, 32_768, 32_768, 91),
            (3, -32_768, 32_768, 64),
        ] {
            assert!(reaches(Disk, &mark, about(x, y).of_turned(turn), 1));
            assert!(reaches(Disk, &mark, Edges::WHOLE.of_turned(turn), 1));
            assert!(!reaches(Disk, &mark, unturned.of_turned(turn), near - 1));
            assert!(reaches(Disk, &mark, unturned.of_turned(turn), near));
        }
    }

    #[test]
    fn question_20_takes_three_turns_of_disks_none_of_squares_and_edges_up_to_the_farthest() {
        let zoom = Zoom::Stop(0);
        for (shape, turn) in (0..=255).flat_map(|turn| Shape::ALL.map(|shape| (shape, turn))) {
            let most = if shape == Disk { 3 } else { 0 };
            let expected = if turn <= most { Ok(1) } else { Err(20) };
            let window = Edges::WHOLE.of_turned(turn);
            assert_eq!(ask_view(shape, window, zoom), expected);
        }
        let beyond = [32_769, -32_769, i32::MAX, i32::MIN, 65_536, -65_536];
        for (turn, edge) in (0..=3).flat_map(|turn| beyond.map(|edge| (turn, edge))) {
            let whole = Edges::WHOLE;
            for edges in [
                Edges { x0: edge, ..whole },
                Edges { x1: edge, ..whole },
                Edges { y0: edge, ..whole },
                Edges { y1: edge, ..whole },
            ] {
                for shape in Shape::ALL {
                    assert_eq!(ask_view(shape, edges.of_turned(turn), zoom), Err(20));
                }
            }
        }
        // It is asked before 11 and 12.
        let crossed = Edges {
            x0: 1,
            x1: 0,
            ..Edges::WHOLE
        };
        for (turn, [disk, square]) in [(0, [11, 11]), (1, [11, 20]), (3, [11, 20])] {
            let asked = |shape| ask_view(shape, crossed.of_turned(turn), Zoom::Stop(17));
            assert_eq!(Shape::ALL.map(asked), [Err(disk), Err(square)]);
        }
    }
}
