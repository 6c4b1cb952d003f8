//! Counts of the living marks by stop and kind group: for each mark the stops from which and
//! before which it lives are found, and both ends are noted in a table that is added up.

use oracle::contents::{contents_bytes, split, write_contents, MOST_PARTS};
use oracle::count::{COUNTS_BYTES, STOPS};
use oracle::fraction::Removal;
use oracle::mark::{Group, Mark};
use oracle::record::{Record, RECORD_BYTES};
use oracle::sheet::Rows;
use oracle::{ask, Refusal};

use super::sheet::open;

/// Part 6 of a sheet's rows by these records.
pub fn part_6(rows: &Rows, records: &[[u8; RECORD_BYTES]]) -> [u8; COUNTS_BYTES] {
    // By how many the marks of a group are more at a stop than at the one before.
    let mut steps = [[0_i16; Group::ALL.len()]; STOPS + 1];
    for (m, (mark, record)) in rows.marks.iter().zip(records).enumerate() {
        let group = Group::of(Mark::read(mark).kind).expect("the kind exists") as usize;
        let first = first_stop(rows.popup(m));
        let end = end_stop(Record::read(record).removal());
        if first < end {
            steps[first][group] += 1;
            steps[end][group] -= 1;
        }
    }
    let mut part_6 = [0; COUNTS_BYTES];
    let mut living = [0_i16; Group::ALL.len()];
    let (places, _) = part_6.as_chunks_mut();
    for (stop, places) in steps.iter().zip(places.chunks_mut(living.len())) {
        for ((count, step), place) in living.iter_mut().zip(stop).zip(places) {
            *count += step;
            *place = count.to_le_bytes();
        }
    }
    part_6
}

/// The first stop at which a mark with this popup is there: the least s with 2 to the power
/// s at least the popup.
#[inline]
fn first_stop(popup: u32) -> usize {
    popup.max(1).next_power_of_two().trailing_zeros() as usize
}

/// The first stop at which a mark is gone, 17 where it lives at the last: the least s with 4
/// to the power s times the denominator at least 4,096 times the numerator. Half the
/// difference of the lengths of both in bits, rounded up, is that stop or the one before.
/// What question 8 takes has 34 bits at most above, and 30 below.
#[inline]
fn end_stop(removal: Removal) -> usize {
    let Removal::At(value) = removal else {
        return STOPS;
    };
    let (numerator, denominator) = (value.numerator << 12, u64::from(value.denominator));
    let more_bits = denominator
        .leading_zeros()
        .saturating_sub(numerator.leading_zeros());
    let near = (more_bits.div_ceil(2) as usize).min(STOPS - 1);
    let gone = denominator << (2 * near) >= numerator;
    near + usize::from(!gone)
}

/// Writes a sheet with part 6, and answers how many bytes that are. Asks 1 to 9, 10 and 13.
pub fn count(sheet: &[u8], out: &mut [u8]) -> Result<usize, Refusal> {
    let rows = open(sheet)?;
    let records = rows.records.ok_or(10_u32)?;
    let written = match rows.counts {
        Some(_) => sheet.len(),
        None => sheet.len() + oracle::count::ADDED_BYTES,
    };
    ask(13, out.len() >= written)?;
    let out = &mut out[..written];
    if rows.counts.is_some() {
        out.copy_from_slice(sheet);
        return Ok(written);
    }
    let bodies = split(sheet)?;
    let length = |code| match code {
        6 => Some(COUNTS_BYTES),
        _ => bodies.get(code).map(<[u8]>::len),
    };
    let mut parts = [(0, 0); MOST_PARTS];
    let mut count = 0;
    for (code, length) in (1..=MOST_PARTS).filter_map(|code| Some((code, length(code)?))) {
        parts[count] = (code as u16, length);
        count += 1;
    }
    let parts = &parts[..count];
    // The bodies before part 6 stand one behind the other, and so do those behind it.
    let before = parts.iter().take_while(|&&(code, _)| code < 6);
    let before = before.map(|&(_, length)| length).sum();
    let (others_before, others_behind) = sheet[contents_bytes(count - 1)..].split_at(before);
    write_contents(parts, out);
    let (first, rest) = out[contents_bytes(count)..].split_at_mut(before);
    let (counts, last) = rest.split_at_mut(COUNTS_BYTES);
    first.copy_from_slice(others_before);
    counts.copy_from_slice(&part_6(&rows, records));
    last.copy_from_slice(others_behind);
    Ok(written)
}
