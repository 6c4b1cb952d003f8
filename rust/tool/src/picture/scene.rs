//! What a view shows, gathered for drawing: labels, hidden marks, and counts by group. Who is
//! shown, living or hidden, and by whom, is the library's answer.

use rollmap::{
    assemble_to_vec, marks_to_vec, records, schedule_to_vec, Code, Group, Mark, Record, Refusal,
    Shape, View, FARTHEST_EDGE, GROUPS, STOPS,
};

use crate::hold::{fates, Fate};
use crate::{words, Reel, Trouble};

/// A label that the view shows.
#[derive(Clone, Copy, Debug, PartialEq, Eq)]
pub struct Label {
    /// The mark's number.
    pub mark: usize,
    /// Its turned place.
    pub place: (i32, i32),
    /// The radius that it is used with, in screen pixels.
    pub radius: u16,
    /// The group of its kind.
    pub group: Group,
}

/// A mark that is hidden.
#[derive(Clone, Copy, Debug, PartialEq, Eq)]
pub struct Dot {
    /// The mark's number.
    pub mark: usize,
    /// Its turned place.
    pub place: (i32, i32),
    /// The group of its kind.
    pub group: Group,
    /// The mark that lives there now.
    pub now: usize,
    /// That mark's turned place.
    pub now_place: (i32, i32),
}

/// The heads of the counts of a group.
pub const HEADS: [&str; 5] = ["shown", "living", "hidden", "waiting", "all"];

/// How the marks of a group fare.
#[derive(Clone, Copy, Debug, Default, PartialEq, Eq)]
pub struct Tally {
    /// Those that the view shows.
    pub shown: usize,
    /// Those that live at the zoom but do not reach the view.
    pub outside: usize,
    /// Those that another mark has removed.
    pub hidden: usize,
    /// Those that pop up at a larger zoom.
    pub waiting: usize,
    /// Those that nothing explains, which the proofs rule out.
    pub unexplained: usize,
}

impl Tally {
    /// Those that live at the zoom.
    pub fn living(&self) -> usize {
        self.shown + self.outside
    }

    /// All of them.
    pub fn all(&self) -> usize {
        self.living() + self.hidden + self.waiting + self.unexplained
    }

    /// What is told of a group, in the order of [`HEADS`].
    pub fn columns(&self) -> [usize; 5] {
        [
            self.shown,
            self.living(),
            self.hidden,
            self.waiting,
            self.all(),
        ]
    }

    fn count(&mut self, fate: Fate) {
        let of_fate = match fate {
            Fate::Shown => &mut self.shown,
            Fate::Outside => &mut self.outside,
            Fate::Hidden { .. } => &mut self.hidden,
            Fate::NotYet => &mut self.waiting,
            Fate::NotOnReel | Fate::NotInList | Fate::Unexplained => &mut self.unexplained,
        };
        *of_fate += 1;
    }

    /// The tallies of all groups together.
    pub fn sum(tallies: &[Self]) -> Self {
        let sum = |field: fn(&Self) -> usize| tallies.iter().map(field).sum();
        Self {
            shown: sum(|tally| tally.shown),
            outside: sum(|tally| tally.outside),
            hidden: sum(|tally| tally.hidden),
            waiting: sum(|tally| tally.waiting),
            unexplained: sum(|tally| tally.unexplained),
        }
    }
}

/// What is drawn of a view.
#[derive(Clone, Debug)]
pub struct Scene {
    /// The view itself.
    pub view: View,
    /// What the labels are.
    pub shape: Shape,
    /// Those that are shown, by their numbers.
    pub labels: Vec<Label>,
    /// The hidden marks whose places lie in the view, by their numbers; none unless asked for.
    pub dots: Vec<Dot>,
    /// How the marks fare, by group.
    pub tallies: [Tally; GROUPS],
}

impl Scene {
    /// Gathers what a view shows, and the hidden marks where these are asked for.
    ///
    /// # Errors
    ///
    /// What the library refuses of the view.
    pub fn of(reel: &Reel, radii: &Radii, view: View, hidden: bool) -> Result<Self, Trouble> {
        let fates = fates(reel, view)?;
        let place = |m: usize| view.turn.turned(reel.marks[m].x, reel.marks[m].y);
        let mut scene = Self::empty(view, reel.shape);
        for (m, (mark, &fate)) in reel.marks.iter().zip(&fates).enumerate() {
            let group = group_of(mark);
            scene.tallies[group as usize].count(fate);
            match fate {
                Fate::Shown => scene.labels.push(Label {
                    mark: m,
                    place: place(m),
                    radius: radii.of(mark),
                    group,
                }),
                Fate::Hidden { now, .. } if hidden && lies_in(place(m), view) => {
                    scene.dots.push(Dot {
                        mark: m,
                        place: place(m),
                        group,
                        now,
                        now_place: place(now),
                    });
                }
                _ => {}
            }
        }
        Ok(scene)
    }

    fn empty(view: View, shape: Shape) -> Self {
        Self {
            view,
            shape,
            labels: Vec::new(),
            dots: Vec::new(),
            tallies: [Tally::default(); GROUPS],
        }
    }
}

/// The group of a mark of an accepted sheet.
pub fn group_of(mark: &Mark) -> Group {
    Group::of(mark.kind).expect("an accepted sheet has kinds below 200 only")
}

/// Whether a place lies in the rectangle of a view: where a dot is drawn, which has no reach.
fn lies_in((x, y): (i32, i32), view: View) -> bool {
    (view.x0..=view.x1).contains(&x) && (view.y0..=view.y1).contains(&y)
}

/// The part of the wider side that is left free on each side of everything.
const MARGIN: i32 = 32;

/// A view of everything, with a small margin: all places, and the labels that live at the zoom
/// of `whole`, which is the view of all places.
///
/// # Errors
///
/// What the library refuses of the view.
pub fn everything(reel: &Reel, radii: &Radii, whole: View) -> Result<View, Trouble> {
    let scene = Scene::of(reel, radii, whole, false)?;
    let k = u64::from(words::in_64ths(whole.zoom));
    let places = reel
        .marks
        .iter()
        .map(|mark| (whole.turn.turned(mark.x, mark.y), 0));
    let labels = scene.labels.iter().map(|label| {
        let reach = (u64::from(label.radius) * k).div_ceil(64);
        let reach = reach.min(2 * FARTHEST_EDGE as u64) as i32;
        (label.place, reach)
    });
    let boxes = places
        .chain(labels)
        .map(|((x, y), reach)| [x - reach, x + reach, y - reach, y + reach]);
    let around =
        boxes.reduce(|[a, b, c, d], [e, f, g, h]| [a.min(e), b.max(f), c.min(g), d.max(h)]);
    let Some([x0, x1, y0, y1]) = around else {
        return Ok(whole);
    };
    let margin = (x1 - x0).max(y1 - y0) / MARGIN + 1;
    let edge = |at: i32| at.clamp(-FARTHEST_EDGE, FARTHEST_EDGE);
    Ok(View {
        x0: edge(x0 - margin),
        x1: edge(x1 + margin),
        y0: edge(y0 - margin),
        y1: edge(y1 + margin),
        ..whole
    })
}

/// The radii that marks are used with: their own, or that of the house, which the library is
/// asked for once.
#[derive(Clone, Copy, Debug)]
pub struct Radii([u16; GROUPS]);

impl Radii {
    /// Asks the library for the house radius of each group.
    ///
    /// # Errors
    ///
    /// None are known: the library takes these marks.
    pub fn ask() -> Result<Self, Refusal> {
        let mut radii = [0; GROUPS];
        for group in Group::ALL {
            radii[group as usize] = house_radius(group)?;
        }
        Ok(Self(radii))
    }

    /// The radius that a mark of an accepted sheet is used with.
    pub fn of(&self, mark: &Mark) -> u16 {
        match mark.radius {
            0 => self.0[group_of(mark) as usize],
            own => own,
        }
    }
}

/// The house radius of a group: two marks of one of its kinds, both with radius 0, touch at a
/// value whose denominator is the square of twice that radius.
fn house_radius(group: Group) -> Result<u16, Refusal> {
    let kind = (0..=u8::MAX).find(|&kind| Group::of(kind) == Some(group));
    let mark = |x| Mark {
        x,
        y: 0,
        radius: 0,
        priority: 0,
        kind: kind.unwrap_or_default(),
        tag: 0,
    };
    let marks = marks_to_vec(&[mark(0), mark(1)]);
    let scheduled = schedule_to_vec(&assemble_to_vec(&[(Code::Marks, &marks)])?)?;
    let last = records(&scheduled).and_then(|mut records| records.next_back());
    match last {
        Some(Record::Removed { denominator, .. }) => Ok((denominator.isqrt() / 2) as u16),
        _ => Ok(0),
    }
}

/// The stop of so many 64ths of zoom, where there is one.
pub fn stop_of(k: u32) -> Option<u32> {
    (k.is_power_of_two() && k.ilog2() < STOPS as u32).then(|| k.ilog2())
}

/// A zoom in words: `zoom 4 (stop 8)`, `zoom 5`.
pub fn zoom_words(k: u32) -> String {
    let zoom = words::zoom_of(k.into());
    match stop_of(k) {
        Some(stop) => format!("zoom {zoom} (stop {stop})"),
        None => format!("zoom {zoom}"),
    }
}

#[cfg(test)]
mod tests {
    use super::*;

    #[test]
    fn the_house_radii_are_those_of_the_format() {
        assert_eq!(Radii::ask().unwrap().0, [40, 60, 90, 150, 200]);
    }

    #[test]
    fn stops_are_powers_of_two() {
        assert_eq!(
            [1, 3, 64, 65_536].map(stop_of),
            [Some(0), None, Some(6), Some(16)]
        );
        assert_eq!(zoom_words(256), "zoom 4 (stop 8)");
        assert_eq!(zoom_words(13), "zoom 0.203125");
    }
}
