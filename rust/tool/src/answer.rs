//! What holding a list against the reel has found, in words.

use std::fmt::Write;

use rollmap::Mark;

use crate::hold::{Fate, Held, Listed, Row};
use crate::rules::{ours, Breach, Removal};
use crate::why::links;
use crate::words;
use crate::Reel;

/// How many marks of a chain are named one by one.
const NAMED: usize = 6;

/// What is said of a mark that is in the list alone.
const NOT_ON_REEL: &str = "in the list and not on the reel";

/// The list and the reel that were held against each other, and what was found.
#[derive(Clone, Copy, Debug)]
pub struct Answer<'a> {
    /// The list.
    pub list: &'a [Listed],
    /// The reel.
    pub reel: &'a Reel,
    /// What was found.
    pub held: &'a Held,
}

impl Answer<'_> {
    /// The rows, each in a line: the line of the list, the mark's number on the reel, where
    /// it is, and what it is. Where `all` is not asked for, those that are not explained.
    pub fn table(&self, all: bool) -> String {
        let rows = self.held.rows.iter();
        let asked_for = rows.filter(|row| all || !row.is_explained());
        let lines: String = asked_for.map(|row| self.line(row)).collect();
        match lines.as_str() {
            "" => lines,
            _ => format!(" line  mark  where it is\n{lines}"),
        }
    }

    /// A row as a line of the table.
    fn line(&self, row: &Row) -> String {
        let line = row.listed.map(|at| self.list[at].line);
        let [line, mark] = [line, row.mark].map(number_or_dash);
        format!("{line:>5} {mark:>5}  {}\n", self.row(row))
    }

    /// A row in words: where its mark is, what it is, and a hint where there is one.
    pub fn row(&self, row: &Row) -> String {
        let mark = words::mark(self.mark(row));
        let hint = row.same_tag.map_or(String::new(), |other| {
            format!("; {}", self.hint(row, &self.held.rows[other]))
        });
        format!("{}: {mark}{hint}", self.fate(row))
    }

    /// The mark of a row: that of the reel, or of the list where it is not there.
    fn mark(&self, row: &Row) -> &Mark {
        match (row.mark, row.listed) {
            (Some(m), _) => &self.reel.marks[m],
            (None, Some(at)) => &self.list[at].mark,
            (None, None) => unreachable!("a row is of the list or of the reel"),
        }
    }

    /// Where a row's mark is, in words.
    pub fn fate(&self, row: &Row) -> String {
        match row.mark {
            Some(m) => fate_words(self.reel, m, row.fate),
            None => NOT_ON_REEL.to_owned(),
        }
    }

    /// What a row has in common with the one that has its tag, and in what they differ.
    fn hint(&self, row: &Row, other: &Row) -> String {
        let (here, there) = (self.mark(row), self.mark(other));
        let whose = match (other.mark, other.listed) {
            (Some(m), _) => format!("mark {m} of the reel"),
            (None, at) => format!("line {} of the list", at.map_or(0, |at| self.list[at].line)),
        };
        let mut fields = differences(here, there);
        if fields.is_empty() {
            fields.push("another popup".to_owned());
        }
        format!("{whose} has the same tag, with {}", words::and(&fields))
    }

    /// The numbers, which add up, and whether nothing is unexplained.
    pub fn numbers(&self) -> String {
        let n = self.held.numbers;
        let (listed, marks) = (self.list.len(), self.reel.marks.len());
        let both = n.in_both();
        let mut text = format!(
            "the list: {listed} = {both} on the reel + {} not on the reel\n\
             the reel: {marks} = {both} in the list + {} not in the list\n\
             in both:  {both} = {} shown + {} hidden + {} not yet popped up + {} outside the view",
            n.not_on_reel, n.not_in_list, n.shown, n.hidden, n.not_yet, n.outside,
        );
        if n.unexplained > 0 {
            write!(text, " + {} not explained", n.unexplained).expect("text can grow");
        }
        let verdict = match n.not_explained() {
            0 => "nothing unexplained".to_owned(),
            rows => format!("unexplained: {}", words::counted(rows, "row")),
        };
        format!("{text}\n{verdict}\n")
    }
}

/// A number, or a dash where there is none.
fn number_or_dash(number: Option<usize>) -> String {
    number.map_or_else(|| "-".to_owned(), |number| number.to_string())
}

/// Where a mark of the reel is, in words.
pub fn fate_words(reel: &Reel, mark: usize, fate: Fate) -> String {
    match fate {
        Fate::Shown => "shown".to_owned(),
        Fate::Hidden { by, through, now } => {
            let since = removal_zoom(Removal::of(reel.records[mark]));
            let end = through_words(reel, by, through, now);
            format!("hidden since {since} by mark {by}, {end}")
        }
        Fate::NotYet => {
            let zoom = words::zoom_of(reel.popups[mark].into());
            format!("not yet popped up, there from zoom {zoom} on")
        }
        Fate::Outside => "outside the view".to_owned(),
        Fate::NotOnReel => NOT_ON_REEL.to_owned(),
        Fate::NotInList => "on the reel and not in the list".to_owned(),
        Fate::Unexplained => "not explained".to_owned(),
    }
}

/// The way from the mark `by` to the one that lives now.
fn through_words(reel: &Reel, by: usize, through: usize, now: usize) -> String {
    match through {
        0 => "which lives".to_owned(),
        1 => format!("through it to mark {now}, which lives there now"),
        _ => {
            let first = links(reel, by).take(through.min(NAMED));
            let mut named: Vec<String> = first.map(|link| link.mark.to_string()).collect();
            if through > NAMED {
                named.push(format!("{} more", through - NAMED));
            }
            let named = words::and(&named);
            format!("through marks {named} to mark {now}, which lives there now")
        }
    }
}

/// The fields in which another mark differs from this one, with what it has there.
fn differences(here: &Mark, there: &Mark) -> Vec<String> {
    let fields = |mark: &Mark| {
        [
            ("x", i32::from(mark.x)),
            ("y", i32::from(mark.y)),
            ("radius", i32::from(mark.radius)),
            ("priority", i32::from(mark.priority)),
            ("kind", i32::from(mark.kind)),
        ]
    };
    let pairs = fields(here).into_iter().zip(fields(there));
    let differing = pairs.filter(|(here, there)| here != there);
    let words = differing.map(|((_, here), (name, there))| format!("{name} {there} for {here}"));
    words.collect()
}

/// The zoom at which a mark goes, or that it does not.
pub fn removal_zoom(removal: Removal) -> String {
    match removal {
        Removal::Never => "never".to_owned(),
        Removal::At {
            numerator,
            denominator,
        } => words::zoom_of_square(numerator, denominator),
    }
}

/// A list of removals that differs from ours: the marks that differ, and the rule that is
/// broken.
pub fn difference(
    list: &[Removal],
    reel: &Reel,
    differing: &[usize],
    breach: Option<Breach>,
) -> String {
    let mut text = String::new();
    for &m in differing {
        let (theirs, ours) = (list[m], ours(reel, m));
        writeln!(text, "mark {m}: the list has {theirs}, and ours is {ours}")
            .expect("text can grow");
    }
    let (some, all) = (differing.len(), words::marks(list.len()));
    format!(
        "{text}not ours: {some} of {all} differ\n{}\n",
        breach_words(list, breach)
    )
}

/// The rule that a list breaks, in words.
fn breach_words(list: &[Removal], breach: Option<Breach>) -> String {
    match breach {
        Some(Breach::First(pair)) => format!(
            "the first rule is broken for marks {} and {}: both are removed later than their \
             pair value {}",
            pair.higher, pair.lower, pair.value
        ),
        Some(Breach::Second(mark)) => format!(
            "the second rule is broken for mark {mark}: no higher-ranked mark that is removed \
             later has the pair value {} with it",
            list[mark]
        ),
        None => "no rule was found that is broken, which is proved to be impossible".to_owned(),
    }
}
