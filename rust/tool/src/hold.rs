//! Holding a list of marks against the reel: where is each of them, and why is it not shown?

use std::collections::{HashMap, VecDeque};
use std::iter::successors;

use rollmap::{Map, Mark, View, NO_POPUP};

use crate::why::eliminator;
use crate::words;
use crate::{Reel, Trouble};

/// A mark as a list has it.
#[derive(Clone, Copy, Debug, PartialEq, Eq)]
pub struct Listed {
    /// The line of the list, counted from 1.
    pub line: usize,
    /// The mark.
    pub mark: Mark,
    /// Its popup, where the list names popups: a list that names none is not held by them.
    pub popup: Option<u32>,
}

/// Where a mark of the list or of the reel is.
#[derive(Clone, Copy, Debug, PartialEq, Eq)]
pub enum Fate {
    /// The view shows it.
    Shown,
    /// It is removed.
    Hidden {
        /// The mark that removed it.
        by: usize,
        /// How many marks stand in the chain before the one that lives now: 0 where that is
        /// `by`.
        through: usize,
        /// The mark at the end of that chain, which lives at the view's zoom.
        now: usize,
    },
    /// It pops up at a larger zoom.
    NotYet,
    /// It lives, but its label does not reach the view.
    Outside,
    /// It is in the list and not on the reel.
    NotOnReel,
    /// It is on the reel and not in the list.
    NotInList,
    /// It does not live, it has popped up, and no chain leads from it to a mark that lives:
    /// what is proved of a scheduled sheet rules that out.
    Unexplained,
}

/// A row of the answer: a mark of the list, one of the reel, or both where they are the same.
#[derive(Clone, Copy, Debug, PartialEq, Eq)]
pub struct Row {
    /// The mark's place in the list, counted from 0.
    pub listed: Option<usize>,
    /// The mark's number on the reel.
    pub mark: Option<usize>,
    /// Where it is.
    pub fate: Fate,
    /// The row that has the same tag, where both are unexplained and no other one has it.
    pub same_tag: Option<usize>,
}

/// How many rows there are of each fate.
#[derive(Clone, Copy, Debug, Default, PartialEq, Eq)]
pub struct Numbers {
    /// Rows with a mark that is shown.
    pub shown: usize,
    /// Rows with a mark that is hidden.
    pub hidden: usize,
    /// Rows with a mark that has not popped up yet.
    pub not_yet: usize,
    /// Rows with a mark outside the view.
    pub outside: usize,
    /// Rows with a mark that is not on the reel.
    pub not_on_reel: usize,
    /// Rows with a mark that is not in the list.
    pub not_in_list: usize,
    /// Rows with a mark that nothing explains.
    pub unexplained: usize,
}

/// The answer: a row for each mark of the list and each of the reel, each mark in one row.
#[derive(Clone, Debug, PartialEq, Eq)]
pub struct Held {
    /// Those of the list in its order, and then those on the reel alone by their numbers.
    pub rows: Vec<Row>,
    /// How many there are of each fate.
    pub numbers: Numbers,
}

impl Numbers {
    /// The numbers of these rows.
    fn of(rows: &[Row]) -> Self {
        let mut numbers = Self::default();
        for row in rows {
            *numbers.of_fate(row.fate) += 1;
        }
        numbers
    }

    /// The number of rows of a fate.
    fn of_fate(&mut self, fate: Fate) -> &mut usize {
        match fate {
            Fate::Shown => &mut self.shown,
            Fate::Hidden { .. } => &mut self.hidden,
            Fate::NotYet => &mut self.not_yet,
            Fate::Outside => &mut self.outside,
            Fate::NotOnReel => &mut self.not_on_reel,
            Fate::NotInList => &mut self.not_in_list,
            Fate::Unexplained => &mut self.unexplained,
        }
    }

    /// How many marks are in the list and on the reel.
    pub fn in_both(&self) -> usize {
        self.shown + self.hidden + self.not_yet + self.outside + self.unexplained
    }

    /// How many rows are not explained.
    pub fn not_explained(&self) -> usize {
        self.not_on_reel + self.not_in_list + self.unexplained
    }
}

impl Row {
    /// Whether it is explained where its mark is.
    pub fn is_explained(&self) -> bool {
        let fate = self.fate;
        !matches!(fate, Fate::NotOnReel | Fate::NotInList | Fate::Unexplained)
    }
}

/// Holds a list against the reel, as a view shows it. A mark of the list is one of the reel
/// where they have the same fields; equal ones are paired in the order in which they come.
///
/// # Errors
///
/// What the library refuses of the view.
pub fn hold(list: &[Listed], reel: &Reel, view: View) -> Result<Held, Trouble> {
    let fates = fates(reel, view)?;
    let row = |listed, mark, fate| Row {
        listed,
        mark,
        fate,
        same_tag: None,
    };
    let (pairs, left) = pair_up(list, reel);
    let of_list = pairs.iter().enumerate().map(|(at, pair)| match *pair {
        Some(m) => row(Some(at), Some(m), fates[m]),
        None => row(Some(at), None, Fate::NotOnReel),
    });
    let of_reel = left.iter().map(|&m| row(None, Some(m), Fate::NotInList));
    let mut rows: Vec<Row> = of_list.chain(of_reel).collect();
    join_by_tag(&mut rows, list, reel);
    let numbers = Numbers::of(&rows);
    Ok(Held { rows, numbers })
}

/// The mark of the reel that each of the list is, and the marks of the reel that none is.
fn pair_up(list: &[Listed], reel: &Reel) -> (Vec<Option<usize>>, Vec<usize>) {
    let by_popup = list.iter().any(|listed| listed.popup.is_some());
    let key = |mark: Mark, popup: u32| (mark, by_popup.then_some(popup));
    let mut numbers: HashMap<_, VecDeque<usize>> = HashMap::new();
    for (m, (&mark, &popup)) in reel.marks.iter().zip(&reel.popups).enumerate() {
        numbers.entry(key(mark, popup)).or_default().push_back(m);
    }
    let pairs = list.iter().map(|listed| {
        let popup = listed.popup.unwrap_or(NO_POPUP);
        numbers.get_mut(&key(listed.mark, popup))?.pop_front()
    });
    let pairs = pairs.collect();
    let mut left: Vec<usize> = numbers.into_values().flatten().collect();
    left.sort_unstable();
    (pairs, left)
}

/// Joins a row of the list alone and one of the reel alone where they have the same tag
/// other than 0, and no other row that is not explained has it.
fn join_by_tag(rows: &mut [Row], list: &[Listed], reel: &Reel) {
    let mut by_tag: HashMap<u16, (Vec<usize>, Vec<usize>)> = HashMap::new();
    for (at, row) in rows.iter().enumerate() {
        match *row {
            Row {
                listed: Some(it),
                mark: None,
                ..
            } => {
                by_tag.entry(list[it].mark.tag).or_default().0.push(at);
            }
            Row {
                listed: None,
                mark: Some(m),
                ..
            } => {
                by_tag.entry(reel.marks[m].tag).or_default().1.push(at);
            }
            _ => {}
        }
    }
    by_tag.remove(&0);
    for (of_list, of_reel) in by_tag.into_values() {
        if let ([one], [other]) = (&of_list[..], &of_reel[..]) {
            rows[*one].same_tag = Some(*other);
            rows[*other].same_tag = Some(*one);
        }
    }
}

/// Where each mark of the reel is in a view.
///
/// # Errors
///
/// What the library refuses of the view.
pub fn fates(reel: &Reel, view: View) -> Result<Vec<Fate>, Trouble> {
    let shown = reel.shown(view)?;
    let lives = in_map(&reel.living(view.zoom)?);
    let k = words::in_64ths(view.zoom);
    let ends = ends(reel, &lives);
    let fate = |m: usize| match (eliminator(reel.records[m]), ends[m]) {
        _ if shown.contains(m as u32) => Fate::Shown,
        _ if lives[m] => Fate::Outside,
        _ if reel.popups[m] > k => Fate::NotYet,
        (Some(by), Some(End { through, now })) => Fate::Hidden { by, through, now },
        _ => Fate::Unexplained,
    };
    Ok((0..reel.marks.len()).map(fate).collect())
}

/// Whether each mark is in a map.
fn in_map(map: &Map) -> Vec<bool> {
    let mut marks = vec![false; map.marks() as usize];
    for m in map {
        marks[m as usize] = true;
    }
    marks
}

/// The end of a mark's chain of eliminators: the first of them that lives, and how many stand
/// before it.
#[derive(Clone, Copy)]
struct End {
    through: usize,
    now: usize,
}

impl End {
    /// The end of the chain of a mark whose eliminator has this one.
    fn one_further(self) -> Self {
        Self {
            through: self.through + 1,
            ..self
        }
    }
}

/// The end of the chain of each mark that does not live. Each chain is followed to the first
/// mark whose end is known, so that no record is read twice.
fn ends(reel: &Reel, lives: &[bool]) -> Vec<Option<End>> {
    let mut ends: Vec<Option<End>> = vec![None; lives.len()];
    for m in 0..lives.len() {
        let known = |at: usize| lives[at] || ends[at].is_some();
        let next = |&at: &usize| eliminator(reel.records[at]).filter(|_| !known(at));
        let path: Vec<usize> = successors(Some(m), next).take(lives.len() + 1).collect();
        let [before @ .., last] = &path[..] else {
            continue;
        };
        let mut end = match lives[*last] {
            true => Some(End {
                through: 0,
                now: *last,
            }),
            false => ends[*last].map(End::one_further),
        };
        for &at in before.iter().rev() {
            ends[at] = end;
            end = end.map(End::one_further);
        }
    }
    ends
}
