//! Turned places (02, request 8): "a turn is a two by two grid of whole numbers, and
//! turning in succession multiplies the grids".

use crate::mark::Mark;

/// A two by two grid of whole numbers, row by row: the first row gives the new x, the
/// second the new y.
pub type Grid = [[i32; 2]; 2];

/// The grid that changes no place.
pub const NO_TURN: Grid = [[1, 0], [0, 1]];

/// "One quarter turn takes x, y to -y, x".
pub const QUARTER_TURN: Grid = [[0, -1], [1, 0]];

/// The most quarter turns of a view.
pub const MOST_TURNS: u8 = 3;

/// The product of two grids: the turn on the right, and after it the one on the left.
pub fn product(left: Grid, right: Grid) -> Grid {
    let entry = |row: [i32; 2], column| row[0] * right[0][column] + row[1] * right[1][column];
    left.map(|row| [entry(row, 0), entry(row, 1)])
}

/// The grid of so many quarter turns in succession.
pub fn quarter_turns(turn: u8) -> Grid {
    (0..turn).fold(NO_TURN, |grid, _| product(QUARTER_TURN, grid))
}

/// Where a grid takes a place.
pub fn apply(grid: Grid, x: i32, y: i32) -> (i32, i32) {
    let [x, y] = grid.map(|row| row[0] * x + row[1] * y);
    (x, y)
}

/// Where so many quarter turns take a place.
pub fn turned(turn: u8, x: i32, y: i32) -> (i32, i32) {
    apply(quarter_turns(turn), x, y)
}

/// The mark with its place turned, none where that does not fit 01's range.
pub fn turned_mark(turn: u8, mark: &Mark) -> Option<Mark> {
    let (x, y) = turned(turn, mark.x.into(), mark.y.into());
    Some(Mark {
        x: x.try_into().ok()?,
        y: y.try_into().ok()?,
        ..*mark
    })
}

/// The marks with their places turned, none where one does not fit 01's range.
pub fn turned_marks(turn: u8, marks: &[Mark]) -> Option<Vec<Mark>> {
    marks.iter().map(|mark| turned_mark(turn, mark)).collect()
}

#[cfg(test)]
mod tests {
    use super::*;

    /// Coordinates at both ends of 01's range, about its middle, and between.
    const COORDINATES: [i32; 9] = [-32_768, -32_767, -300, -1, 0, 1, 7, 32_766, 32_767];

    fn each_place(mut visit: impl FnMut(i32, i32)) {
        for x in COORDINATES {
            COORDINATES.iter().for_each(|&y| visit(x, y));
        }
    }

    #[test]
    fn a_product_is_rows_times_columns() {
        let (left, right) = ([[1, 2], [3, 4]], [[5, 6], [7, 8]]);
        assert_eq!(product(left, right), [[19, 22], [43, 50]]);
        assert_eq!(product(left, NO_TURN), left);
        assert_eq!(product(NO_TURN, left), left);
    }

    #[test]
    fn the_grids_of_the_turns() {
        assert_eq!(quarter_turns(0), NO_TURN);
        assert_eq!(quarter_turns(1), QUARTER_TURN);
        assert_eq!(quarter_turns(2), [[-1, 0], [0, -1]]);
        assert_eq!(quarter_turns(3), [[0, 1], [-1, 0]]);
    }

    #[test]
    fn four_quarter_turns_change_no_place() {
        assert_eq!(quarter_turns(4), NO_TURN);
        each_place(|x, y| {
            let quarter = |(x, y)| turned(1, x, y);
            let four = quarter(quarter(quarter(quarter((x, y)))));
            assert_eq!(four, (x, y));
        });
    }

    #[test]
    fn turns_in_succession_are_the_product() {
        for first in 0..=MOST_TURNS {
            for then in 0..=MOST_TURNS {
                let grid = product(quarter_turns(then), quarter_turns(first));
                assert_eq!(grid, quarter_turns(first + then));
                each_place(|x, y| {
                    let (a, b) = turned(first, x, y);
                    assert_eq!(turned(then, a, b), apply(grid, x, y));
                });
            }
        }
    }

    #[test]
    fn the_turns_in_closed_form() {
        each_place(|x, y| {
            assert_eq!(turned(0, x, y), (x, y));
            assert_eq!(turned(1, x, y), (-y, x));
            assert_eq!(turned(2, x, y), (-x, -y));
            assert_eq!(turned(3, x, y), (y, -x));
        });
    }

    #[test]
    fn the_least_coordinate_turns_beyond_the_range_of_places() {
        assert_eq!(turned(1, 0, -32_768), (32_768, 0));
        assert_eq!(turned(2, -32_768, -32_768), (32_768, 32_768));
        assert_eq!(turned(3, -32_768, 0), (0, 32_768));
    }

    #[test]
    fn a_turned_mark_keeps_its_other_fields() {
        let mark = Mark {
            x: 5,
            y: -9,
            radius: 0,
            priority: 65_535,
            kind: 199,
            tag: 4_660,
        };
        let expected = Mark { x: 9, y: 5, ..mark };
        assert_eq!(turned_mark(1, &mark), Some(expected));
        assert_eq!(turned_mark(0, &mark), Some(mark));
    }

    #[test]
    fn marks_are_turned_where_all_their_places_fit() {
        let (least_x, least_y) = (Mark::plain(-32_768, 1, 1, 0), Mark::plain(1, -32_768, 1, 0));
        let fits = |turn, mark| turned_marks(turn, &[Mark::plain(0, 0, 1, 0), mark]).is_some();
        assert_eq!(
            [0, 1, 2, 3].map(|turn| fits(turn, least_x)),
            [true, true, false, false]
        );
        assert_eq!(
            [0, 1, 2, 3].map(|turn| fits(turn, least_y)),
            [true, false, false, true]
        );
        let greatest = Mark::plain(32_767, 32_767, 1, 0);
        assert!((0..=MOST_TURNS).all(|turn| fits(turn, greatest)));
        assert_eq!(turned_marks(1, &[]), Some(Vec::new()));
    }
}
