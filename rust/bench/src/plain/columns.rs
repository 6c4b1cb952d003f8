//! Marks by columns and columns into marks: one pass over the marks, mark by mark, with all
//! six columns at hand.

use oracle::mark::{Mark, MARK_BYTES};
use oracle::sheet::unread_rows;
use oracle::{ask, Refusal};

/// Rearranges part 1 by columns, and answers how many bytes that are. Asks 4 and 13.
pub fn to_columns(part_1: &[u8], out: &mut [u8]) -> Result<usize, Refusal> {
    let marks = unread_rows(part_1)?;
    ask(13, out.len() >= part_1.len())?;
    let (n, mut rest) = (marks.len(), &mut out[..part_1.len()]);
    let mut column = || {
        let column = rest.split_off_mut(..2 * n).expect("there is room");
        &mut column.as_chunks_mut().0[..n]
    };
    let (x, y, radii, priorities) = (column(), column(), column(), column());
    let (kinds, tags) = rest.split_at_mut(n);
    let tags = &mut tags.as_chunks_mut().0[..n];
    let mut last = Mark::plain(0, 0, 0, 0);
    // By the numbers of the marks: with all columns zipped it takes a quarter longer.
    for (m, mark) in marks.iter().map(Mark::read).enumerate() {
        x[m] = mark.x.wrapping_sub(last.x).to_le_bytes();
        y[m] = mark.y.wrapping_sub(last.y).to_le_bytes();
        radii[m] = mark.radius.to_le_bytes();
        priorities[m] = mark.priority.to_le_bytes();
        kinds[m] = mark.kind;
        tags[m] = mark.tag.to_le_bytes();
        last = mark;
    }
    Ok(part_1.len())
}

/// Rearranges columns into part 1, and answers how many bytes that are. Asks 4 and 13.
pub fn from_columns(columns: &[u8], out: &mut [u8]) -> Result<usize, Refusal> {
    let n = unread_rows(columns)?.len();
    ask(13, out.len() >= columns.len())?;
    let mut rest = columns;
    let mut column = || {
        let column = rest.split_off(..2 * n).expect("they are there");
        column.as_chunks().0
    };
    let (x, y, radii, priorities) = (column(), column(), column(), column());
    let (kinds, tags) = rest.split_at(n);
    let places = x.iter().zip(y);
    let others = radii.iter().zip(priorities).zip(kinds);
    let others = others.zip(tags.as_chunks().0);
    let (marks, _) = out[..columns.len()].as_chunks_mut::<MARK_BYTES>();
    let (mut at_x, mut at_y) = (0_i16, 0_i16);
    for ((mark, (x, y)), (((radius, priority), kind), tag)) in
        marks.iter_mut().zip(places).zip(others)
    {
        at_x = at_x.wrapping_add(i16::from_le_bytes(*x));
        at_y = at_y.wrapping_add(i16::from_le_bytes(*y));
        // A mark that is written whole and then copied takes ten times as long.
        let ([a, b], [c, d]) = (at_x.to_le_bytes(), at_y.to_le_bytes());
        let ([e, f], [g, h], [i, j]) = (*radius, *priority, *tag);
        *mark = [a, b, c, d, e, f, g, h, *kind, i, j];
    }
    Ok(columns.len())
}
