//! Scheduling by the rank-order algorithm, with and without cells, and by sorting all
//! pairs.

use oracle::contents::{contents_bytes, write_contents, MOST_PARTS};
use oracle::fraction::Fraction;
use oracle::label::Label;
use oracle::mark::{Mark, MARK_BYTES};
use oracle::popup::pair_value;
use oracle::rank::{Edition, RankKey};
use oracle::record::{Record, RECORD_BYTES};
use oracle::shape::Shape;
use oracle::sheet::{part_lengths, Rows};
use oracle::tree::{write_number, Axis, AxisKey, INDEX_BYTES};
use oracle::zoom::zoom_squared;
use oracle::{ask, Refusal};

use super::count::part_6;
use super::grid::Grid;
use super::index::{build, keys, Ordered};
use super::sheet::open;
use super::value::Value;

/// A mark in rank order: its label, removal value, and who removes it. Its popup stands in
/// an array of its own: the inner loop seldom reads one.
#[derive(Clone, Copy)]
pub(super) struct Row {
    pub(super) label: Label,
    pub(super) eliminator: u32,
    pub(super) value: Value,
}

/// The popups of the rows, none of them where there is no part 5.
#[derive(Default)]
pub(super) struct RowPopups(Vec<u32>);

impl RowPopups {
    /// The pair value of two rows with this touching value.
    #[inline]
    pub(super) fn pair_value(&self, p: usize, q: usize, touching: Fraction) -> Fraction {
        match self.0.as_slice() {
            [] => touching,
            popups => pair_value(touching, popups[p].max(popups[q])),
        }
    }

    /// The popup value of row p, which none of its pair values is below, where it pops up at all.
    #[inline]
    fn least(&self, p: usize) -> Option<Value> {
        let popup = self.0.get(p).copied().filter(|&popup| popup > 0)?;
        Some(zoom_squared(popup).into())
    }
}

/// Two rows and their pair value.
#[derive(Clone, Copy)]
struct Pair {
    numerator: u64,
    denominator: u32,
    higher: u16,
    lower: u16,
}

impl Pair {
    /// The pair value.
    #[inline]
    fn value(&self) -> Value {
        Value {
            numerator: self.numerator,
            denominator: self.denominator.into(),
        }
    }
}

/// The best row found so far for another, and their pair value.
#[derive(Clone, Copy)]
struct Candidate {
    value: Value,
    row: usize,
}

impl Candidate {
    const NONE: Self = Self {
        value: Value::NEVER,
        row: 0,
    };

    /// Whether row q takes its place with this value: it is less, or equal and the row ranks
    /// higher, and the row is removed later. Both are asked without a branch between them.
    #[inline]
    fn gives_way(self, rows: &[Row], q: usize, value: Value) -> bool {
        value.precedes(self.value, q < self.row) & rows[q].value.later_than(value)
    }

    /// Whether its value is no later than the least that there can be: then no row of lower
    /// rank goes before it.
    #[inline]
    fn is_at_most(self, least: Value) -> bool {
        !self.value.later_than(least)
    }

    /// This one, or row q, if it takes its place with its pair value, which `pair` gives for
    /// this touching value. Most rows do not even with the touching value, which is no greater.
    #[inline]
    fn or(
        self,
        rows: &[Row],
        q: usize,
        touching: Fraction,
        pair: impl Fn(Fraction) -> Fraction,
    ) -> Self {
        if !self.gives_way(rows, q, touching.into()) {
            return self;
        }
        let value = pair(touching).into();
        if self.gives_way(rows, q, value) {
            return Self { value, row: q };
        }
        self
    }
}

/// From this many rows on a grid is used, and below this many a search looks at all, as
/// in the proved library.
const MANY: usize = 160;
const FEW: usize = 32;

/// The arrays that scheduling and judging borrow, kept from run to run.
#[derive(Default)]
pub struct Desk {
    pub(super) order: Vec<RankKey>,
    pub(super) rows: Vec<Row>,
    pub(super) popups: RowPopups,
    pub(super) shape: Shape,
    grid: Grid,
    pairs: Vec<Pair>,
    ordered: Vec<Ordered>,
    numbers: Vec<u16>,
    keys: Vec<AxisKey>,
}

impl Desk {
    /// Schedules a sheet by the rank-order algorithm.
    pub fn schedule(&mut self, sheet: &[u8], out: &mut [u8]) -> Result<usize, Refusal> {
        self.schedule_by(sheet, out, Self::settle)
    }

    /// Schedules a sheet by the rank-order algorithm with the proved library's cells.
    pub fn schedule_by_cells(&mut self, sheet: &[u8], out: &mut [u8]) -> Result<usize, Refusal> {
        self.schedule_by(sheet, out, Self::settle_by_cells)
    }

    /// Schedules a sheet by sorting all pairs.
    pub fn schedule_by_pairs(&mut self, sheet: &[u8], out: &mut [u8]) -> Result<usize, Refusal> {
        self.schedule_by(sheet, out, Self::take_pairs)
    }

    /// Schedules a sheet with one of the cores. Asks 1 to 9, and 13 of `out`.
    fn schedule_by(
        &mut self,
        sheet: &[u8],
        out: &mut [u8],
        core: fn(&mut Self),
    ) -> Result<usize, Refusal> {
        let rows = open(sheet)?;
        let marks = rows.marks;
        let [length_1, length_2, length_3] = part_lengths(marks.len());
        let part_4 = rows.named.map(Edition::write);
        let part_4 = part_4.as_ref().map(|part_4| part_4.as_slice());
        let part_5 = rows.popups.map(|popups| popups.as_flattened());
        let part_7 = rows.shaped.map(Shape::write);
        let part_7 = part_7.as_ref().map(|part_7| part_7.as_slice());
        let mut parts = [(0, 0); MOST_PARTS];
        parts[..3].copy_from_slice(&[(1, length_1), (2, length_2), (3, length_3)]);
        let mut count = 3;
        // The counts are renewed in the same length.
        for (code, body) in [(4, part_4), (5, part_5), (6, rows.counts), (7, part_7)] {
            if let Some(body) = body {
                parts[count] = (code, body.len());
                count += 1;
            }
        }
        let parts = &parts[..count];
        let bodies: usize = parts.iter().map(|&(_, length)| length).sum();
        let written = contents_bytes(parts.len()) + bodies;
        ask(13, out.len() >= written)?;
        self.lay_out(&rows);
        core(self);
        write_contents(parts, out);
        let bodies = &mut out[contents_bytes(parts.len())..written];
        let (part_1, bodies) = bodies.split_at_mut(length_1);
        let (part_2, bodies) = bodies.split_at_mut(length_2);
        let (part_3, kept) = bodies.split_at_mut(length_3);
        part_1.copy_from_slice(marks.as_flattened());
        self.write_records(marks, part_2.as_chunks_mut().0);
        self.write_index(part_3.as_chunks_mut().0);
        let (named, rest) = kept.split_at_mut(part_4.map_or(0, <[u8]>::len));
        let (popups, rest) = rest.split_at_mut(part_5.map_or(0, <[u8]>::len));
        let (counts, shaped) = rest.split_at_mut(rows.counts.map_or(0, <[u8]>::len));
        named.copy_from_slice(part_4.unwrap_or_default());
        popups.copy_from_slice(part_5.unwrap_or_default());
        shaped.copy_from_slice(part_7.unwrap_or_default());
        if rows.counts.is_some() {
            counts.copy_from_slice(&part_6(&rows, part_2.as_chunks().0));
        }
        Ok(written)
    }

    /// Sorts the marks by rank and lays out their rows.
    pub(super) fn lay_out(&mut self, rows: &Rows) {
        let mark = |m: usize| Mark::read(&rows.marks[m]);
        let rank = |m| RankKey::of(rows.edition(), &mark(m), m);
        self.order.clear();
        self.order.extend((0..rows.marks.len()).map(rank));
        self.order.sort_unstable();
        let row = |rank: &RankKey| Row {
            label: mark(rank.number()).label(),
            eliminator: 0,
            value: Value::NEVER,
        };
        self.rows.clear();
        self.rows.extend(self.order.iter().map(row));
        let RowPopups(popups) = &mut self.popups;
        popups.clear();
        if rows.popups.is_some() {
            popups.extend(self.order.iter().map(|rank| rows.popup(rank.number())));
        }
        self.shape = rows.shape();
    }

    /// The rank-order core: each row goes at the least pair value with an earlier one that
    /// is removed later; of equal values the earliest is taken.
    fn settle(&mut self) {
        match self.shape {
            Shape::Disk => self.settle_as(Shape::Disk),
            Shape::Square => self.settle_as(Shape::Square),
        }
    }

    /// The same for labels of a shape, once for each.
    #[inline(always)]
    fn settle_as(&mut self, shape: Shape) {
        for p in 0..self.rows.len() {
            let (earlier, rest) = self.rows.split_at_mut(p);
            let row = &mut rest[0];
            let mut best = Value::NEVER;
            for (q, other) in earlier.iter().enumerate() {
                let touching = row.label.touching_value(other.label, shape);
                let goes = |value| best.later_than(value) && other.value.later_than(value);
                if goes(touching.into()) {
                    let value = self.popups.pair_value(p, q, touching).into();
                    if goes(value) {
                        best = value;
                        row.eliminator = q as u32;
                    }
                }
            }
            row.value = best;
        }
    }

    /// The rank-order core with cells, where the rows are many.
    fn settle_by_cells(&mut self) {
        match (self.rows.len() < MANY, self.popups.0.is_empty()) {
            (true, true) => self.settle(),
            (true, false) => self.settle_by_scans(),
            _ => match self.shape {
                Shape::Disk => self.settle_by_cells_as(Shape::Disk),
                Shape::Square => self.settle_by_cells_as(Shape::Square),
            },
        }
    }

    /// The rank-order core with popups, where the rows are few.
    fn settle_by_scans(&mut self) {
        for p in 0..self.rows.len() {
            let best = self.scan(p, p, self.rows[p].label, self.shape);
            self.rows[p].value = best.value;
            self.rows[p].eliminator = best.row as u32;
        }
    }

    /// The same by cells for labels of a shape, once for each.
    #[inline(always)]
    fn settle_by_cells_as(&mut self, shape: Shape) {
        self.grid.lay_over(self.rows.iter().map(|row| row.label));
        for p in 0..self.rows.len() {
            let label = self.rows[p].label;
            let cell = self.grid.cell_of(label);
            let best = self.search(p, label, cell, shape);
            self.grid.enter(cell, label, best.value);
            self.rows[p].value = best.value;
            self.rows[p].eliminator = best.row as u32;
        }
    }

    /// The best of the first rows above p, met from the highest rank down. It ends at the least
    /// value that there can be: no row of lower rank goes before that.
    #[inline(never)]
    fn scan(&self, p: usize, end: usize, label: Label, shape: Shape) -> Candidate {
        let rows = self.rows.as_slice();
        let least = self.popups.least(p);
        let mut best = Candidate::NONE;
        for q in 0..end {
            let touching = label.touching_value(rows[q].label, shape);
            best = best.or(rows, q, touching, |touching| {
                self.popups.pair_value(p, q, touching)
            });
            if least.is_some_and(|least| best.is_at_most(least)) {
                break;
            }
        }
        best
    }

    /// The best of all rows above p: of the first ones, where one of these touches row p as soon
    /// as it pops up, and else by cells, of which its own is searched first, so that the others
    /// are soon too far.
    #[inline(always)]
    fn search(&self, p: usize, label: Label, own: usize, shape: Shape) -> Candidate {
        let rows = self.rows.as_slice();
        let better = |best: Candidate, q: usize| {
            let touching = label.touching_value(rows[q].label, shape);
            best.or(rows, q, touching, |touching| {
                self.popups.pair_value(p, q, touching)
            })
        };
        if p < FEW {
            return self.scan(p, p, label, shape);
        }
        if let Some(least) = self.popups.least(p) {
            let top = self.scan(p, FEW, label, shape);
            if top.is_at_most(least) {
                return top;
            }
        }
        let value = |best: Candidate| best.value;
        self.grid
            .search(own, (label, shape), Candidate::NONE, value, better)
    }

    /// The core by sorting: all pairs by value and then by rank, each taken when its
    /// turn comes and both rows still live.
    fn take_pairs(&mut self) {
        self.pairs.clear();
        for (lower, row) in self.rows.iter().enumerate() {
            self.pairs.extend((0..lower).map(|higher| {
                let touching = row
                    .label
                    .touching_value(self.rows[higher].label, self.shape);
                let value = self.popups.pair_value(lower, higher, touching);
                Pair {
                    numerator: value.numerator,
                    denominator: value.denominator,
                    higher: higher as u16,
                    lower: lower as u16,
                }
            }));
        }
        self.pairs.sort_unstable_by(|a, b| {
            let by_value = a.value().compare(b.value());
            by_value.then((a.higher, a.lower).cmp(&(b.higher, b.lower)))
        });
        for pair in &self.pairs {
            let (higher, lower) = (usize::from(pair.higher), usize::from(pair.lower));
            let lives = |row: usize| self.rows[row].value == Value::NEVER;
            if lives(higher) && lives(lower) {
                self.rows[lower].eliminator = higher as u32;
                self.rows[lower].value = pair.value();
            }
        }
    }

    /// Writes part 2, and keeps what the index is made of.
    fn write_records(&mut self, marks: &[[u8; MARK_BYTES]], out: &mut [[u8; RECORD_BYTES]]) {
        let ordered = |(m, mark)| Ordered {
            keys: keys(&Mark::read(mark), m),
            value: Value::NEVER,
        };
        self.ordered.clear();
        self.ordered.extend(marks.iter().enumerate().map(ordered));
        for (rank, row) in self.order.iter().zip(&self.rows) {
            let m = rank.number();
            self.ordered[m].value = row.value;
            let eliminator = || self.order[row.eliminator as usize].number();
            let removed = |value| Record::removed(eliminator(), value);
            out[m] = row.value.fraction().map_or(Record::NEVER, removed).write();
        }
    }

    /// Writes part 3.
    fn write_index(&mut self, out: &mut [[u8; INDEX_BYTES]]) {
        self.numbers.clear();
        self.numbers.extend(0..self.ordered.len() as u16);
        build(&self.ordered, &mut self.numbers, Axis::TOP, &mut self.keys);
        for (place, number) in out.iter_mut().zip(&self.numbers) {
            *place = write_number(number);
        }
    }
}
