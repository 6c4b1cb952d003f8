//! Part 1 by columns, as the archive stores it, and back (02, request 11).

use crate::mark::{write_marks, Mark, KIND_AT, PRIORITY_AT, RADIUS_AT, TAG_AT, X_AT, Y_AT};
use crate::sheet::unread_rows;
use crate::{ask, Refusal};

/// Rearranges part 1: all x, then all y, radii, priorities, kinds, tags. Each x after the
/// first is replaced by its difference from the x before, modulo 65,536, and each y
/// likewise. Asks 4, and 13 of the buffer written to.
pub fn to_columns(part_1: &[u8], out_length: usize) -> Result<Vec<u8>, Refusal> {
    let rows = unread_rows(part_1)?;
    ask(13, out_length >= part_1.len())?;
    let marks: Vec<Mark> = rows.iter().map(Mark::read).collect();
    let column = |field: fn(&Mark) -> u16| marks.iter().map(field).collect::<Vec<u16>>();
    let columns = [
        write_column(&differences(&column(|mark| modulo(mark.x.into())))),
        write_column(&differences(&column(|mark| modulo(mark.y.into())))),
        write_column(&column(|mark| mark.radius)),
        write_column(&column(|mark| mark.priority)),
        marks.iter().map(|mark| mark.kind).collect(),
        write_column(&column(|mark| mark.tag)),
    ];
    Ok(columns.concat())
}

/// The inverse: the part 1 that is rearranged to these columns. Asks 4 of them, and 13 of
/// the buffer written to.
pub fn from_columns(columns: &[u8], out_length: usize) -> Result<Vec<u8>, Refusal> {
    let n = unread_rows(columns)?.len();
    ask(13, out_length >= columns.len())?;
    // The fields that stand before one in a mark are the columns before its own.
    let column = |at: usize| read_column(&columns[at * n..(at + 2) * n]);
    let (x, y) = (sums(&column(X_AT)), sums(&column(Y_AT)));
    let (radii, priorities) = (column(RADIUS_AT), column(PRIORITY_AT));
    let (kinds, tags) = (&columns[KIND_AT * n..TAG_AT * n], column(TAG_AT));
    let mark = |m: usize| Mark {
        x: x[m] as i16,
        y: y[m] as i16,
        radius: radii[m],
        priority: priorities[m],
        kind: kinds[m],
        tag: tags[m],
    };
    let marks: Vec<Mark> = (0..n).map(mark).collect();
    Ok(write_marks(&marks))
}

/// A number modulo 65,536.
fn modulo(number: i32) -> u16 {
    number.rem_euclid(65_536) as u16
}

/// The first number as it is, and each after it as its difference from the one before.
fn differences(numbers: &[u16]) -> Vec<u16> {
    let mut differences = numbers.to_vec();
    for m in 1..numbers.len() {
        differences[m] = modulo(i32::from(numbers[m]) - i32::from(numbers[m - 1]));
    }
    differences
}

/// The numbers of which these are the first and the differences: each after the first is
/// its difference and the number before, added up.
fn sums(differences: &[u16]) -> Vec<u16> {
    let mut numbers = differences.to_vec();
    for m in 1..numbers.len() {
        numbers[m] = modulo(i32::from(differences[m]) + i32::from(numbers[m - 1]));
    }
    numbers
}

/// Writes a column of 2 bytes a number.
fn write_column(numbers: &[u16]) -> Vec<u8> {
    let numbers = numbers.iter().copied();
    numbers.flat_map(u16::to_le_bytes).collect()
}

/// Reads a column of 2 bytes a number.
fn read_column(column: &[u8]) -> Vec<u16> {
    let numbers = column.as_chunks().0.iter().copied();
    numbers.map(u16::from_le_bytes).collect()
}

#[cfg(test)]
mod tests {
    use super::*;

    /// Two marks, (5, 2) and (3, 258), that questions 5 and 6 refuse, and the same by
    /// columns.
    const MARKS: [[u8; 11]; 2] = [
        [5, 0, 2, 0, 255, 255, 7, 0, 250, 1, 2],
        [3, 0, 2, 1, 10, 0, 8, 0, 4, 3, 4],
    ];
    const COLUMNS: [u8; 22] = [
        5, 0, 254, 255, // x
        2, 0, 0, 1, // y
        255, 255, 10, 0, // radii
        7, 0, 8, 0, // priorities
        250, 4, // kinds
        1, 2, 3, 4, // tags
    ];

    #[test]
    fn two_marks_by_hand() {
        let marks = MARKS.as_flattened();
        assert_eq!(to_columns(marks, 22).as_deref(), Ok(&COLUMNS[..]));
        assert_eq!(from_columns(&COLUMNS, 22).as_deref(), Ok(marks));
        // One mark by columns is as it was, and so is none.
        assert_eq!(to_columns(&MARKS[0], 11).as_deref(), Ok(&MARKS[0][..]));
        assert_eq!(from_columns(&MARKS[0], 11).as_deref(), Ok(&MARKS[0][..]));
        assert_eq!(to_columns(&[], 0), Ok(vec![]));
        assert_eq!(from_columns(&[], 0), Ok(vec![]));
    }

    #[test]
    fn differences_are_those_of_the_numbers_as_they_were() {
        let numbers = [7, 9, 4, 4, 0, 65_535, 32_767, 32_768];
        let differing = [7, 2, 65_531, 0, 65_532, 65_535, 32_768, 1];
        assert_eq!(differences(&numbers), differing);
        assert_eq!(sums(&differing), numbers);
    }

    #[test]
    fn both_ask_4_and_then_13() {
        for call in [to_columns, from_columns] {
            let number = |given: &[u8], out_length| call(given, out_length).err();
            assert_eq!(number(&[0; 10], 0), Some(4));
            assert_eq!(number(&[0; 12], 12), Some(4));
            assert_eq!(number(&[0; 11], 10), Some(13));
            assert_eq!(number(&[0; 45_056], 45_055), Some(13));
            assert_eq!(number(&[0; 45_056], 45_056), None);
            assert_eq!(number(&[0; 45_067], 45_067), Some(4));
        }
    }

    #[test]
    fn each_undoes_the_other() {
        // A byte for every place, and no two columns alike.
        let bytes: Vec<u8> = (0..1_100_u32).map(|at| (at * at / 8) as u8).collect();
        for length in (0..=bytes.len()).step_by(11) {
            let given = &bytes[..length];
            let columns = to_columns(given, length).unwrap();
            assert_eq!(from_columns(&columns, length).as_deref(), Ok(given));
            let marks = from_columns(given, length).unwrap();
            assert_eq!(to_columns(&marks, length).as_deref(), Ok(given));
        }
    }
}
