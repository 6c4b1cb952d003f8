//! Questions 1 to 9, 19, 21, 24 and 23.

use oracle::contents::split;
use oracle::mark::{touching_value, Mark};
use oracle::popup::pair_value;
use oracle::rank::RankKey;
use oracle::record::Record;
use oracle::sheet::{record_fits, Rows};
use oracle::{ask, Refusal};

use super::count::part_6;
use super::index::Indexed;

/// Opens a sheet. Asks 1 to 9.
pub fn open(sheet: &[u8]) -> Result<Rows<'_>, Refusal> {
    let rows = Rows::of(&split(sheet)?)?;
    if let Some(records) = rows.records {
        let (n, edition, shape) = (rows.marks.len(), rows.edition(), rows.shape());
        let mark = |m: usize| Mark::read(&rows.marks[m]);
        let rank = |m| RankKey::of(edition, &mark(m), m);
        let pair = |a, b| {
            let touching = touching_value(shape, &mark(a), &mark(b));
            match rows.popups {
                Some(_) => pair_value(touching, rows.popup(a).max(rows.popup(b))),
                None => touching,
            }
        };
        let record = |m: usize| Record::read(&records[m]);
        ask(8, (0..n).all(|m| record_fits(m, n, rank, pair, record)))?;
    }
    if let Some(indexed) = Indexed::of(&rows) {
        ask(9, indexed.is_tree())?;
    }
    if let (Some(records), Some(counts)) = (rows.records, rows.counts) {
        ask(23, counts == part_6(&rows, records))?;
    }
    Ok(rows)
}
