//! Counts of the living marks by stop and kind group (02, request 12): "Part 6 holds 85
//! counts of 2 bytes: stop 0 first, the five groups of 01 in order within it. Each count
//! equals the number of living marks, popups heeded, over the whole reel."

use crate::contents::ENTRY_BYTES;
use crate::fraction::Removal;
use crate::mark::Group;
use crate::record::{removals, Record};
use crate::reel::Reel;
use crate::sheet::{join_parts, open};
use crate::zoom::{lives, zoom_in_64ths, Zoom, LAST_STOP};
use crate::{ask, Refusal};

/// The number of stops.
pub const STOPS: usize = LAST_STOP as usize + 1;

/// Bytes of a count in part 6.
pub const COUNT_BYTES: usize = 2;

/// Bytes of part 6.
pub const COUNTS_BYTES: usize = COUNT_BYTES * STOPS * Group::ALL.len();

/// Bytes that part 6 adds to a sheet: an entry in the contents, and its body.
pub const ADDED_BYTES: usize = ENTRY_BYTES + COUNTS_BYTES;

/// How many marks of a group live at k/64 by the removal values that a list names for them.
pub fn living(reel: Reel, list: &[Removal], group: Group, k: u32) -> u16 {
    let counted = |&m: &usize| {
        let of_group = Group::of(reel.marks[m].kind) == Some(group);
        of_group && lives(reel.popup(m), list[m], k)
    };
    (0..list.len()).filter(counted).count() as u16
}

/// All 85 counts of a reel with these records: stop by stop, and group by group within it.
pub fn counts(reel: Reel, records: &[Record]) -> Vec<u16> {
    let list = removals(records);
    let mut counts = Vec::new();
    for stop in 0..=LAST_STOP {
        let k = zoom_in_64ths(Zoom::Stop(stop)).expect("the stop is taken");
        for group in Group::ALL {
            counts.push(living(reel, &list, group, k));
        }
    }
    counts
}

/// Part 6 of a reel with these records.
pub fn part_6(reel: Reel, records: &[Record]) -> Vec<u8> {
    write_counts(&counts(reel, records))
}

/// Reads part 6: all its counts, a body whose length is a multiple of 2.
pub fn read_counts(part_6: &[u8]) -> Vec<u16> {
    let counts = part_6.as_chunks().0.iter().copied();
    counts.map(u16::from_le_bytes).collect()
}

/// Writes part 6.
pub fn write_counts(counts: &[u16]) -> Vec<u8> {
    let counts = counts.iter().copied();
    counts.flat_map(u16::to_le_bytes).collect()
}

/// Writes the sheet with part 6, by the schedule that it has, whoever made it. Asks 1 to 9;
/// 10, of part 2 alone; and 13 of the buffer written to.
pub fn count(sheet: &[u8], out_length: usize) -> Result<Vec<u8>, Refusal> {
    let opened = open(sheet)?;
    let records = opened.records.as_deref().ok_or(10_u32)?;
    let part_6 = part_6(opened.reel(), records);
    let mut parts = opened.bodies.present();
    parts.retain(|&(code, _)| code != 6);
    parts.push((6, &part_6));
    parts.sort_unstable_by_key(|&(code, _)| code);
    let counted = join_parts(&parts);
    ask(13, out_length >= counted.len())?;
    Ok(counted)
}

#[cfg(test)]
mod tests {
    use super::*;
    use crate::mark::Mark;
    use crate::rank::Edition;
    use crate::sample::{P1, POPUP_EXAMPLES};

    /// The counts of notes at each stop, once there is seen to be no other mark.
    fn notes(reel: Reel, records: &[Record]) -> Vec<u16> {
        let counts = counts(reel, records);
        let (stops, _) = counts.as_chunks::<5>();
        assert!(stops.iter().all(|[_, others @ ..]| *others == [0; 4]));
        stops.iter().map(|[notes, ..]| *notes).collect()
    }

    #[test]
    fn there_are_85_counts_of_2_bytes() {
        assert_eq!((STOPS, COUNTS_BYTES, ADDED_BYTES), (17, 170, 180));
        let reel = Edition::First.reel(&[]);
        assert_eq!(counts(reel, &[]), [0; 85]);
        assert_eq!(part_6(reel, &[]), [0; 170]);
    }

    #[test]
    fn p1_by_hand() {
        // Mark 3 goes between 12/64 and 13/64, mark 1 at 320/64, and mark 2 at 640/64.
        let reel = Edition::First.reel(&P1);
        let expected = [4, 4, 4, 4, 3, 3, 3, 3, 3, 2, 1, 1, 1, 1, 1, 1, 1];
        assert_eq!(notes(reel, POPUP_EXAMPLES[0].records), expected);
        assert_eq!(notes(reel, &[Record::NEVER; 4]), [4; 17]);
    }

    #[test]
    fn popups_are_heeded() {
        // Mark 0 pops up at 640/64, where mark 1 goes, after 2 and 3.
        let example = POPUP_EXAMPLES[4];
        let reel = Edition::First.reel(example.marks);
        let reel = reel.with_popups(example.popups);
        let expected = [3, 3, 3, 3, 3, 3, 3, 3, 3, 1, 1, 1, 1, 1, 1, 1, 1];
        assert_eq!(notes(reel, example.records), expected);
        // All pop up at the last stop, where all but one go: there a count grows.
        let example = POPUP_EXAMPLES[6];
        let reel = reel.with_popups(example.popups);
        let [mut never, mut last] = [[0; 17]; 2];
        last[16] = 1;
        assert_eq!(notes(reel, example.records), last);
        never[16] = 4;
        assert_eq!(notes(reel, &[Record::NEVER; 4]), never);
    }

    #[test]
    fn a_mark_is_gone_at_the_stop_of_its_removal_and_there_at_that_of_its_popup() {
        // Two marks of radius 32, so far apart, touch at 64 times zoom d.
        for stop in 0..=14 {
            let d = 1_i16 << stop;
            for (d, last) in [(d, stop), (d + 1, stop + 1)] {
                let two = [Mark::plain(0, 0, 32, 1), Mark::plain(d, 0, 32, 0)];
                let value = Edition::First.reel(&two).pair_value(0, 1);
                let records = [Record::NEVER, Record::removed(0, value)];
                let expected = (0..17).map(|at| if at < last { 2 } else { 1 });
                let notes = notes(Edition::First.reel(&two), &records);
                assert!(notes.into_iter().eq(expected), "{d}");
            }
        }
        for stop in 0..=16 {
            let at = 1 << stop;
            for (popup, first) in [(at, stop), (at + 1, stop + 1)] {
                let reel = Edition::First.reel(&P1[..1]);
                let popups = [popup];
                let notes = notes(reel.with_popups(&popups), &[Record::NEVER]);
                let expected = (0..17).map(|at| u16::from(at >= first));
                assert!(notes.into_iter().eq(expected), "{popup}");
            }
        }
    }

    #[test]
    fn the_groups_stand_in_order_within_each_stop() {
        // As many marks of each group as its place, with its first and its last kinds.
        let ends = [(0, 9), (10, 49), (50, 99), (100, 149), (150, 199)];
        let mut marks = Vec::new();
        for (group, (first, last)) in (1..).zip(ends) {
            for m in 0..group {
                let kind = if m % 2 == 0 { first } else { last };
                let mark = Mark::plain(1_000 * group, 1_000 * m, 1, 0);
                marks.push(Mark { kind, ..mark });
            }
        }
        let never = vec![Record::NEVER; marks.len()];
        let counts = counts(Edition::First.reel(&marks), &never);
        assert_eq!(counts, [1, 2, 3, 4, 5].repeat(17));
    }

    #[test]
    fn counts_stand_little_endian() {
        assert_eq!(write_counts(&[258, 4_096]), [2, 1, 0, 16]);
        assert_eq!(read_counts(&[2, 1, 0, 16]), [258, 4_096]);
    }
}
