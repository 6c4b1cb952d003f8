//! Rows by place, in the regions of the proved library: cells in groups of 16. A cell has
//! a chain of its rows. Cells and groups have a box around the places of their rows, the
//! largest radius of these and their latest removal value.

use oracle::label::Label;
use oracle::shape::Shape;

use super::value::Value;

/// The cells of a group, and how many of them stand along a side of it.
const GROUP_SIZE: usize = 16;
const GROUP_SIDE: usize = 4;

/// What is known of some rows: the box around their places, their largest radius and
/// their latest removal value.
#[derive(Clone, Copy)]
struct Region {
    low: [i32; 2],
    high: [i32; 2],
    radius: u32,
    latest: Value,
}

impl Region {
    /// No rows: none is removed later than at 0.
    const EMPTY: Self = Self {
        low: [i16::MAX as i32; 2],
        high: [i16::MIN as i32; 2],
        radius: 0,
        latest: Value::ZERO,
    };

    /// Takes in a row of this label and removal value.
    #[inline]
    fn take_in(&mut self, Label { x, y, radius }: Label, value: Value) {
        self.low = [self.low[0].min(x), self.low[1].min(y)];
        self.high = [self.high[0].max(x), self.high[1].max(y)];
        self.radius = self.radius.max(radius);
        if value.later_than(self.latest) {
            self.latest = value;
        }
    }

    /// The touching value of a label of a shape and one at the nearest place of the box, with
    /// the largest radius.
    #[inline]
    fn bound(&self, label: Label, shape: Shape) -> Value {
        let gap = |axis: usize, at: i32| {
            let (below, above) = (self.low[axis] - at, at - self.high[axis]);
            below.max(0) + above.max(0)
        };
        let reach = u64::from(self.radius + label.radius);
        Value {
            numerator: shape.squared_distance(gap(0, label.x), gap(1, label.y)),
            denominator: reach * reach,
        }
    }

    /// Whether one of the rows may touch a label of a shape no later than at a value, and
    /// before it is gone.
    #[inline]
    fn may_touch(&self, label: Label, shape: Shape, best: Value) -> bool {
        let bound = self.bound(label, shape);
        !bound.later_than(best) && self.latest.later_than(bound)
    }
}

/// One cell. The number of its last row is kept plus one, so that 0 is no row.
#[derive(Clone, Copy)]
struct Cell {
    region: Region,
    last: u16,
}

impl Cell {
    const EMPTY: Self = Self {
        region: Region::EMPTY,
        last: 0,
    };
}

/// Where the cells lie: the least corner, the size of a cell, how many groups there are for
/// marks that are not large, and the radius above which one is. A further group is for those.
#[derive(Clone, Copy, Default)]
struct Plan {
    low: [i32; 2],
    size: [u32; 2],
    order: Order,
    small: usize,
    large: u32,
}

/// In what order the cells stand.
#[derive(Clone, Copy, Default)]
enum Order {
    /// In one strip, where the data is narrow.
    #[default]
    Strip,
    /// In groups of 4 by 4, of which so many stand in a column.
    Squares { rows: usize },
}

impl Plan {
    /// The cells over some labels. One is large from three times the average radius on.
    fn over(labels: impl ExactSizeIterator<Item = Label>) -> Self {
        let n = labels.len();
        let (mut low, mut high, mut radii) = ([i32::MAX; 2], [i32::MIN; 2], 0);
        for Label { x, y, radius } in labels {
            low = [low[0].min(x), low[1].min(y)];
            high = [high[0].max(x), high[1].max(y)];
            radii += radius;
        }
        let small = small_groups(n);
        let [across, down] = [0, 1].map(|axis| high[axis].abs_diff(low[axis]) + 1);
        let (cells, order) = division(across, down, small);
        Self {
            low,
            size: [across / cells[0] + 1, down / cells[1] + 1],
            order,
            small,
            large: 3 * radii / (n as u32 + 1),
        }
    }

    /// The cell of a label.
    #[inline]
    fn cell_of(&self, Label { x, y, radius }: Label) -> usize {
        let along = |axis: usize, at: i32| (at.abs_diff(self.low[axis]) / self.size[axis]) as usize;
        let (column, row) = (along(0, x), along(1, y));
        let cell = match self.order {
            Order::Strip => column + row,
            Order::Squares { rows } => {
                let group = column / GROUP_SIDE * rows + row / GROUP_SIDE;
                GROUP_SIZE * group + GROUP_SIDE * (column % GROUP_SIDE) + row % GROUP_SIDE
            }
        };
        let end = GROUP_SIZE * self.small;
        if self.large < radius {
            end + (cell / self.small).min(GROUP_SIZE - 1)
        } else {
            cell.min(end - 1)
        }
    }
}

/// How many groups there are for the marks that are not large, of so many rows.
fn small_groups(n: usize) -> usize {
    match n {
        ..400 => 2,
        400..768 => 4,
        768..2_048 => 8,
        _ => 16,
    }
}

/// How many cells of so many groups stand along x and along y, and in what order.
fn division(across: u32, down: u32, groups: usize) -> ([u32; 2], Order) {
    let strip = (GROUP_SIZE * groups) as u32;
    if 32 * down <= across {
        return ([strip, 1], Order::Strip);
    }
    if 32 * across <= down {
        return ([1, strip], Order::Strip);
    }
    let columns = columns_of(across, down, groups);
    let rows = groups / columns;
    let cells = [columns, rows].map(|groups| (GROUP_SIDE * groups) as u32);
    (cells, Order::Squares { rows })
}

/// How many of so many groups stand side by side, a power of 2, so that cells are about
/// square.
fn columns_of(across: u32, down: u32, groups: usize) -> usize {
    let groups = groups as u32;
    let mut columns = 1;
    while columns < groups && 2 * columns * columns * down <= groups * across {
        columns *= 2;
    }
    columns as usize
}

/// The cells, the regions of their groups, and the chains of rows.
#[derive(Default)]
pub struct Grid {
    cells: Vec<Cell>,
    groups: Vec<Region>,
    links: Vec<u16>,
    plan: Plan,
}

impl Grid {
    /// Lays empty cells over some labels.
    pub fn lay_over(&mut self, labels: impl ExactSizeIterator<Item = Label>) {
        self.plan = Plan::over(labels);
        let groups = self.plan.small + 1;
        self.cells.clear();
        self.cells.resize(GROUP_SIZE * groups, Cell::EMPTY);
        self.groups.clear();
        self.groups.resize(groups, Region::EMPTY);
        self.links.clear();
    }

    /// The cell of a label.
    #[inline]
    pub fn cell_of(&self, label: Label) -> usize {
        self.plan.cell_of(label)
    }

    /// The next row, of this label and removal value, goes into a cell, unless it is removed
    /// at 0: then it removes nobody.
    #[inline]
    pub fn enter(&mut self, cell: usize, label: Label, value: Value) {
        if value.numerator == 0 {
            return self.links.push(0);
        }
        self.groups[cell / GROUP_SIZE].take_in(label, value);
        let cell = &mut self.cells[cell];
        cell.region.take_in(label, value);
        self.links.push(cell.last);
        cell.last = self.links.len() as u16;
    }

    /// Goes through the rows that may touch a label of a shape as soon as the best so far, its
    /// own cell and group first, and then the group of large marks: `better` gives the better of
    /// the best and a row, and `value` the value of the best. It ends at the value 0: of the rows
    /// at one place only one can remove another.
    #[inline(always)]
    pub fn search<B: Copy>(
        &self,
        own: usize,
        (label, shape): (Label, Shape),
        none: B,
        value: impl Fn(B) -> Value,
        better: impl Fn(B, usize) -> B,
    ) -> B {
        let mut best = none;
        for group in own_first(self.groups.len(), own / GROUP_SIZE) {
            if !self.groups[group].may_touch(label, shape, value(best)) {
                continue;
            }
            let cells = &self.cells[GROUP_SIZE * group..][..GROUP_SIZE];
            for cell in counted_down(GROUP_SIZE, own % GROUP_SIZE) {
                let cell = &cells[cell];
                if cell.region.may_touch(label, shape, value(best)) {
                    let mut next = usize::from(cell.last);
                    while next > 0 {
                        best = better(best, next - 1);
                        next = usize::from(self.links[next - 1]);
                    }
                    if value(best).numerator == 0 {
                        return best;
                    }
                }
            }
        }
        best
    }
}

/// The numbers below `size`: `own`, and then the others from the greatest down.
#[inline]
fn own_first(size: usize, own: usize) -> impl Iterator<Item = usize> {
    (0..size).map(move |i| match size - i {
        _ if i == 0 => own,
        k if own < k => k,
        k => k - 1,
    })
}

/// The numbers below `size`, counted down from `start`, and then from the greatest.
#[inline]
fn counted_down(size: usize, start: usize) -> impl Iterator<Item = usize> {
    (0..size).map(move |i| {
        if i <= start {
            start - i
        } else {
            size + start - i
        }
    })
}
