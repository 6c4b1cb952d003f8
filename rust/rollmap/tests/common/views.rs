//! Views: what the oracle answers to them, and windows and zooms at which it matters what
//! is asked.

use oracle::fraction::Removal;
use oracle::map::is_set;
use oracle::mark::Mark;
use oracle::process::schedule_in_rank_order;
use oracle::record::{removals, Record};
use oracle::sample::{marks, Generator, Layout};
use oracle::shape::Shape;
use oracle::view::{map_and_count, Edges, Window};
use oracle::zoom::{removal_zoom_in_64ths, zoom_in_64ths};
use rollmap::{Code, Turn, View, Zoom, FARTHEST_EDGE};

use super::{foreign_records, number, Beyond, Lent};

/// All places at stop 0, without a turn.
pub const WHOLE: View = View::whole(Zoom::Stop(0));

/// A view that is refused of every sheet, by its edges, their order and its zoom.
pub const OUTSIDE: View = View {
    x0: 1 << 20,
    ..View::whole(Zoom::Stop(17))
};

/// Sees that two sheets have the same bytes under these codes, and show the same of all
/// places.
pub fn assert_alike(one: &[u8], other: &[u8], codes: &[Code], zoom: Zoom) {
    for &code in codes {
        assert_eq!(rollmap::part(one, code), rollmap::part(other, code));
    }
    let shown = |sheet| rollmap::view_to_map(sheet, View::whole(zoom));
    assert_eq!(shown(one), shown(other));
}

// ---- what the oracle answers

/// The edges of a view and its turn as the oracle has them.
pub fn window(view: View) -> Window {
    let View { x0, x1, y0, y1, .. } = view;
    Edges { x0, x1, y0, y1 }.of_turned(view.turn.quarters())
}

/// The zoom of a view as the oracle has it.
pub fn zoom(view: View) -> oracle::zoom::Zoom {
    match view.zoom {
        Zoom::Stop(stop) => oracle::zoom::Zoom::Stop(stop),
        Zoom::Wheel(wheel) => oracle::zoom::Zoom::Wheel(wheel),
    }
}

/// A zoom that is taken, in 64ths.
pub fn in_64ths(taken: Zoom) -> u32 {
    let zoom = zoom(View {
        zoom: taken,
        ..WHOLE
    });
    zoom_in_64ths(zoom).unwrap()
}

/// The zoom that is k 64ths, on the wheel.
pub fn wheel(k: u32) -> Zoom {
    Zoom::Wheel(k as f32 / 64.0)
}

/// Answers a view in a map of so many bytes, and sees that the number, the count and
/// every byte are as expected. Answers the number.
pub fn assert_view(
    sheet: &[u8],
    view: View,
    map_length: usize,
    expected: &Result<(Vec<u8>, u32), u32>,
) -> u32 {
    let mut map = Lent::new(map_length, (sheet.len() + map_length) as u64);
    let answer = rollmap::view(sheet, view, map.slice());
    match expected {
        Ok((bytes, count)) => {
            assert_eq!(answer, Ok(*count), "{view:?} {sheet:02x?}");
            map.assert_written(bytes);
        }
        Err(expected) => {
            assert_eq!(number(&answer), *expected, "{view:?} {sheet:02x?}");
            map.assert_untouched();
        }
    }
    number(&answer)
}

/// Answers a view as the oracle does. Answers the number.
pub fn view(sheet: &[u8], view: View, map_length: usize) -> u32 {
    let expected = oracle::view::view(sheet, window(view), zoom(view), map_length);
    assert_view(sheet, view, map_length, &expected)
}

/// A sheet with parts 2 and 3, and what it says, so that larger ones need not be opened
/// for each view.
pub struct Scheduled {
    pub sheet: Vec<u8>,
    pub marks: Vec<Mark>,
    pub removals: Vec<Removal>,
    pub beyond: Beyond,
}

impl Scheduled {
    /// The sheet of three parts with these marks and records.
    pub fn new(marks: Vec<Mark>, records: &[Record]) -> Self {
        Self::with(Beyond::default(), marks, records)
    }

    /// The sheet with these marks and records, and these parts beyond 3.
    pub fn with(beyond: Beyond, marks: Vec<Mark>, records: &[Record]) -> Self {
        Self {
            sheet: beyond.with_records(&marks, records),
            removals: removals(records),
            marks,
            beyond,
        }
    }

    /// The map and the count of a view that is taken.
    pub fn expected(&self, view: View) -> (Vec<u8>, u32) {
        let reel = self.beyond.reel(&self.marks);
        map_and_count(reel, &self.removals, window(view), in_64ths(view.zoom))
    }

    /// Some view of it with this turn that is taken.
    pub fn some_view(&self, generator: &mut Generator, turn: Turn) -> View {
        let zoom = self.some_zoom(generator);
        let k = in_64ths(zoom);
        View {
            zoom,
            ..some_window(generator, self.beyond.shape(), &self.marks, turn, k)
        }
    }

    /// Some zoom, or one about which a mark goes or pops up.
    fn some_zoom(&self, generator: &mut Generator) -> Zoom {
        if self.marks.is_empty() {
            return some_zoom(generator);
        }
        let m = generator.below(self.marks.len() as u32) as usize;
        let k = match (generator.below(4), self.removals[m], &self.beyond.popups) {
            (0, Removal::At(value), _) => removal_zoom_in_64ths(value),
            (1, _, Some(popups)) => popups[m].into(),
            (1, Removal::At(value), None) => removal_zoom_in_64ths(value),
            _ => return some_zoom(generator),
        };
        let near = (k + u64::from(generator.below(3))).saturating_sub(1);
        wheel(near.clamp(1, 65_536) as u32)
    }

    /// Answers a view that is taken, as looking at every mark does. Answers the count.
    pub fn view(&self, view: View) -> u32 {
        let expected = self.expected(view);
        let count = expected.1;
        assert_view(&self.sheet, view, expected.0.len(), &Ok(expected));
        count
    }

    /// Answers so many views with this turn that are taken.
    pub fn some_views(&self, generator: &mut Generator, turn: Turn, times: usize) {
        for _ in 0..times {
            let view = self.some_view(generator, turn);
            self.view(view);
        }
    }
}

/// Answers so many views with each of these turns, of the sheet of these marks and parts
/// beyond 3 with our records, with foreign ones, and with those by which nobody goes.
pub fn view_ours_and_foreign(
    generator: &mut Generator,
    beyond: &Beyond,
    marks: &[Mark],
    turns: &[Turn],
    times: usize,
) {
    let reel = beyond.reel(marks);
    let lists = [
        schedule_in_rank_order(reel),
        foreign_records(generator, reel),
        vec![Record::NEVER; marks.len()],
    ];
    for records in lists {
        let scheduled = Scheduled::with(beyond.clone(), marks.to_vec(), &records);
        for &turn in turns {
            scheduled.some_views(generator, turn, times);
        }
    }
}

/// How often a label touched a view's rectangle from outside, was shown, and was not, by the
/// quarters of the view's turn.
pub type Reached = [[usize; 3]; 4];

/// Answers views of samples with these parts beyond 3, in which nobody goes, with these turns
/// one after the other, 300 a sample: a label just reaches the rectangle, or just misses it.
/// Calls `visit` with its mark, the view, and whether it is shown.
pub fn each_beside_a_label(
    generator: &mut Generator,
    beyond: &Beyond,
    seed: u64,
    turns: &[Turn],
    mut visit: impl FnMut(&Mark, View, bool),
) -> Reached {
    let shape = beyond.shape();
    let mut reached = Reached::default();
    for (layout, n) in Layout::ALL
        .into_iter()
        .flat_map(|layout| [1, 2, 9, 120].map(|n| (layout, n)))
    {
        let never = vec![Record::NEVER; n];
        let scheduled = Scheduled::with(beyond.clone(), marks(layout, n, seed), &never);
        for &turn in turns.iter().cycle().take(300) {
            // At a whole zoom a label reaches a whole number of map units.
            let zoom = match generator.below(2) {
                0 => wheel(64 * (1 + generator.below(9))),
                _ => some_zoom(generator),
            };
            let k = in_64ths(zoom);
            let (beside, number) = beside_a_label(generator, shape, &scheduled.marks, turn, k);
            let asked = View { zoom, ..beside };
            let mark = &scheduled.marks[number];
            let expected = scheduled.expected(asked);
            let shown = is_set(&expected.0, number);
            let seen = [touches(shape, mark, asked, k), shown, !shown];
            let counts = &mut reached[usize::from(turn.quarters())];
            for (count, seen) in counts.iter_mut().zip(seen) {
                *count += usize::from(seen);
            }
            visit(mark, asked, shown);
            assert_view(&scheduled.sheet, asked, expected.0.len() - 1, &Err(13));
            assert_view(&scheduled.sheet, asked, expected.0.len(), &Ok(expected));
        }
    }
    reached
}

// ---- windows

/// All places with this turn, a rectangle between the turned places of two marks, one that
/// a label of this shape just reaches or just misses at k/64, or a small one anywhere.
pub fn some_window(
    generator: &mut Generator,
    shape: Shape,
    marks: &[Mark],
    turn: Turn,
    k: u32,
) -> View {
    if marks.is_empty() || generator.below(12) == 0 {
        return View { turn, ..WHOLE };
    }
    match generator.below(3) {
        0 => between_marks(generator, marks, turn),
        1 => beside_a_label(generator, shape, marks, turn, k).0,
        _ => anywhere(generator, turn),
    }
}

/// The rectangle with these edges, put in order and into the range of edges.
fn rectangle(x: [i32; 2], y: [i32; 2], turn: Turn) -> View {
    let fitting = |edge: i32| edge.clamp(-FARTHEST_EDGE, FARTHEST_EDGE);
    let ([x0, x1], [y0, y1]) = (x.map(fitting), y.map(fitting));
    View {
        x0: x0.min(x1),
        x1: x0.max(x1),
        y0: y0.min(y1),
        y1: y0.max(y1),
        turn,
        ..WHOLE
    }
}

/// A rectangle between the turned places of two marks, moved by a unit or not.
pub fn between_marks(generator: &mut Generator, marks: &[Mark], turn: Turn) -> View {
    let mut place = || generator.choose(marks).label().turned(turn.quarters());
    let (a, b) = (place(), place());
    let nudged = |edge: i32| edge + generator.choose(&[0, 0, 0, 1, -1]);
    let [x0, x1, y0, y1] = [a.x, b.x, a.y, b.y].map(nudged);
    rectangle([x0, x1], [y0, y1], turn)
}

/// An edge from the whole range.
pub fn some_edge(generator: &mut Generator) -> i32 {
    generator.below(2 * FARTHEST_EDGE as u32 + 1) as i32 - FARTHEST_EDGE
}

/// A rectangle of up to 9 places a side, which most labels are wider than.
pub fn anywhere(generator: &mut Generator, turn: Turn) -> View {
    let mut side = || {
        let low = some_edge(generator);
        [low, low + generator.below(9) as i32]
    };
    rectangle(side(), side(), turn)
}

/// A rectangle whose nearest place is as far from a turned mark as its label of this shape
/// reaches at k/64, as near as whole numbers allow, or one unit further; with the mark's
/// number.
fn beside_a_label(
    generator: &mut Generator,
    shape: Shape,
    marks: &[Mark],
    turn: Turn,
    k: u32,
) -> (View, usize) {
    let number = generator.below(marks.len() as u32) as usize;
    let label = marks[number].label().turned(turn.quarters());
    let radius = u64::from(label.radius);
    let reach = u64::from(k) * radius / 64;
    let along = match generator.below(3) {
        0 => 0, // beside an edge, not a corner
        1 => reach * 3 / 5,
        _ => u64::from(generator.below(reach.min(65_535) as u32 + 1)),
    };
    let squared = u64::from(k).pow(2) * radius.pow(2) / 4_096;
    let (along, across) = match shape {
        Shape::Disk => (along, (squared - along * along).isqrt()),
        // Its corner, too.
        Shape::Square => (generator.choose(&[along, reach]), reach),
    };
    let across = across + u64::from(generator.below(2));
    let exchanged = shape == Shape::Square && generator.below(2) == 0;
    let mut side = |place: i32, distance: u64| {
        let distance = distance.min(65_536) as i32 * generator.choose(&[1, -1]);
        let near = place + distance;
        let far = near + distance.signum() * generator.choose(&[0, 3, 1_000, 40_000]);
        [near, far]
    };
    let [along_x, along_y] = if exchanged {
        [across, along]
    } else {
        [along, across]
    };
    let (one, other) = (side(label.x, along_x), side(label.y, along_y));
    (rectangle(one, other, turn), number)
}

/// Whether a turned mark's label of this shape at k/64 touches the rectangle from outside.
fn touches(shape: Shape, mark: &Mark, view: View, k: u32) -> bool {
    let label = mark.label().turned(view.turn.quarters());
    let dx = i64::from(label.x - label.x.clamp(view.x0, view.x1));
    let dy = i64::from(label.y - label.y.clamp(view.y0, view.y1));
    let reach = i64::from(k) * i64::from(label.radius);
    match shape {
        Shape::Disk => (64 * dx).pow(2) + (64 * dy).pow(2) == reach.pow(2),
        Shape::Square => 64 * dx.abs().max(dy.abs()) == reach,
    }
}

// ---- zooms

/// A zoom that is taken: a stop, or any wheel value.
pub fn some_zoom(generator: &mut Generator) -> Zoom {
    match generator.below(3) {
        0 => Zoom::Stop(generator.below(17) as u8),
        _ => wheel(1 + (generator.below(65_536) >> generator.below(16))),
    }
}
