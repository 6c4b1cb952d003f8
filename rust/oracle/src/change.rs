//! Marks that come and go (02, request 5): one is added at the end, or one is taken
//! out. The sheet that is written is the one that scheduling the new marks writes,
//! whatever schedule the old marks had, with the sheet's own part 4 (request 6), with its
//! part 5, to which a new mark's popup comes, and from which that of one taken out goes
//! (request 9), with a new part 6, where the sheet has one (request 12), and with its own
//! part 7 (request 13).

use crate::contents::Part;
use crate::mark::{Mark, MOST_MARKS};
use crate::popup::{popup_fits, write_popups};
use crate::sheet::{ask_mark, open, schedule_reel, Opened};
use crate::{ask, Refusal};

/// Adds a mark with this popup at the end. Asks 1 to 10; 18; 5, 6 and 21 of the new mark;
/// and 13 of the work buffer and the buffer written to, by the new number of marks. 21 is:
/// the popup does not exceed 65,536, and is 0 where there is no part 5.
pub fn add(
    sheet: &[u8],
    mark: Mark,
    popup: u32,
    work_length: usize,
    out_length: usize,
) -> Result<Vec<u8>, Refusal> {
    let mut opened = open_indexed(sheet)?;
    let popups = &mut opened.popups;
    ask(18, opened.marks.len() < MOST_MARKS)?;
    ask_mark(mark)?;
    ask(21, popup_fits(popup) && (popup == 0 || popups.is_some()))?;
    popups.iter_mut().for_each(|popups| popups.push(popup));
    opened.marks.push(mark);
    schedule_afresh(&opened, work_length, out_length)
}

/// Takes out the mark of that number; higher numbers drop by one. Asks 1 to 10; 17;
/// and 13 of both buffers, by the new number of marks.
pub fn take_out(
    sheet: &[u8],
    m: u32,
    work_length: usize,
    out_length: usize,
) -> Result<Vec<u8>, Refusal> {
    let mut opened = open_indexed(sheet)?;
    let m = m as usize;
    ask(17, m < opened.marks.len())?;
    let popups = &mut opened.popups;
    popups.iter_mut().for_each(|popups| _ = popups.remove(m));
    opened.marks.remove(m);
    schedule_afresh(&opened, work_length, out_length)
}

/// Opens a sheet that has parts 2 and 3. Asks 1 to 10.
fn open_indexed(sheet: &[u8]) -> Result<Opened<'_>, Refusal> {
    let opened = open(sheet)?;
    opened.indexed_records()?;
    Ok(opened)
}

/// What scheduling writes for a sheet that was opened and of which the marks, all of which
/// 5 and 6 take, and the popups are now others. Asks 13.
fn schedule_afresh(
    changed: &Opened,
    work_length: usize,
    out_length: usize,
) -> Result<Vec<u8>, Refusal> {
    let (old, part_5) = (&changed.bodies, changed.popups.as_deref().map(write_popups));
    let present = [(4, old.get(4)), (5, part_5.as_deref()), (7, old.get(7))];
    let parts = present
        .into_iter()
        .filter_map(|(code, body)| Some((code, body?)));
    let carried: Vec<Part> = parts.collect();
    let counted = old.get(6).is_some();
    schedule_reel(changed.reel(), &carried, counted, work_length, out_length)
}
