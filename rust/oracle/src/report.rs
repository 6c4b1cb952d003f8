//! What the program `schedule` prints (01, 'The printed schedule').

use crate::fraction::Removal;
use crate::process::schedule_by_sorted_pairs;
use crate::record::Record;
use crate::sheet::open;
use crate::zoom::removal_zoom_in_64ths;
use crate::{ask, Refusal};

/// The longest input the program takes.
pub const LONGEST_INPUT: usize = 65_536;

/// The most marks the program takes.
pub const MOST_PRINTED: usize = 2_000;

/// All the program prints for the bytes of its standard input.
pub fn print(input: &[u8]) -> String {
    match lines(input) {
        Ok(lines) => lines.concat(),
        Err(number) => format!("refused {number}\n"),
    }
}

/// The lines of an input that is not refused, each with its line feed. Asks 14 of
/// the length before all else, 1 to 9, and then 14 of the number of marks.
fn lines(input: &[u8]) -> Result<Vec<String>, Refusal> {
    ask(14, input.len() <= LONGEST_INPUT)?;
    let opened = open(input)?;
    ask(14, opened.marks.len() <= MOST_PRINTED)?;
    let records = schedule_by_sorted_pairs(opened.reel());
    let mut lines = vec![format!("marks {}\n", records.len())];
    lines.extend(records.iter().enumerate().map(line));
    Ok(lines)
}

/// The line of one mark.
fn line((number, record): (usize, &Record)) -> String {
    match record.removal() {
        Removal::Never => format!("{number} -\n"),
        Removal::At(value) => format!(
            "{number} {} {} {} {}\n",
            record.eliminator,
            value.numerator,
            value.denominator,
            removal_zoom_in_64ths(value)
        ),
    }
}
