//! The judge of a schedule that someone proposes (02, request 10). It asks of all pairs what
//! 02 says of them, and works no schedule out.

use crate::fraction::Removal;
use crate::record::{removals, Record};
use crate::reel::Reel;
use crate::rules::{accounts_for, keep_both};
use crate::sheet::open;
use crate::{ask, Refusal};

/// Judges the schedule of a sheet, whoever made it. Asks 1 to 10, and 22.
pub fn judge(sheet: &[u8]) -> Result<(), Refusal> {
    let opened = open(sheet)?;
    let records = opened.indexed_records()?;
    ask(22, accepts(opened.reel(), records))
}

/// Whether the judge says yes of the records of a reel: "exactly when both rules over the
/// pair values hold and each removed mark names, of the higher-ranked marks that have that
/// pair value with it and are removed later, the highest-ranked".
pub fn accepts(reel: Reel, records: &[Record]) -> bool {
    let list = removals(records);
    let names_it = |m: usize| names_the_highest_ranked(reel, &list, m, records[m]);
    keep_both(reel, &list).is_ok() && (0..records.len()).all(names_it)
}

/// Whether the record of mark m names the highest-ranked of those that may remove it at its
/// removal value. A mark that is never removed names nobody.
fn names_the_highest_ranked(reel: Reel, list: &[Removal], m: usize, record: Record) -> bool {
    let Removal::At(value) = list[m] else {
        return true;
    };
    let others = (0..list.len()).filter(|&other| accounts_for(reel, list, m, value, other));
    let highest = others.min_by_key(|&other| reel.rank(other));
    highest == Some(record.eliminator.into())
}
