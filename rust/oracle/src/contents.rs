//! Contents and bodies of a sheet, and questions 1 to 3 (01, 'The sheet:
//! contents, then bodies'; 02, requests 6, 9, 12 and 13). A part goes by its code, and not
//! by where it stands.

use crate::bytes::{field, put};
use crate::{ask, Refusal};

/// Bytes of the number of parts.
const COUNT_BYTES: usize = 2;

/// Bytes of each part's line in the contents.
pub(crate) const ENTRY_BYTES: usize = 10;

/// Where the fields of such a line stand in it.
const CODE_AT: usize = 0;
const OFFSET_AT: usize = 2;
const LENGTH_AT: usize = 6;

/// The most parts a sheet has: one of each code.
pub const MOST_PARTS: usize = 7;

/// The code and the body of a part.
pub type Part<'a> = (u16, &'a [u8]);

/// One part's line in the contents.
struct Entry {
    code: u16,
    offset: u32,
    length: u32,
}

impl Entry {
    #[inline]
    fn read(bytes: &[u8; ENTRY_BYTES]) -> Self {
        Self {
            code: u16::from_le_bytes(field(bytes, CODE_AT)),
            offset: u32::from_le_bytes(field(bytes, OFFSET_AT)),
            length: u32::from_le_bytes(field(bytes, LENGTH_AT)),
        }
    }

    #[inline]
    fn write(&self) -> [u8; ENTRY_BYTES] {
        let mut bytes = [0; ENTRY_BYTES];
        put(&mut bytes, CODE_AT, self.code.to_le_bytes());
        put(&mut bytes, OFFSET_AT, self.offset.to_le_bytes());
        put(&mut bytes, LENGTH_AT, self.length.to_le_bytes());
        bytes
    }
}

/// The bodies of a sheet by the codes of their parts, as they stand in the caller's
/// bytes. A part that is there may still be empty.
#[derive(Clone, Copy, Debug, PartialEq, Eq)]
pub struct Bodies<'a>([Option<&'a [u8]>; MOST_PARTS]);

impl<'a> Bodies<'a> {
    /// The bodies of parts whose codes question 2 takes.
    pub fn of(parts: &[Part<'a>]) -> Self {
        let mut bodies = Self([None; MOST_PARTS]);
        parts.iter().for_each(|&part| bodies.put(part));
        bodies
    }

    /// Puts a body in the place of its code.
    #[inline]
    fn put(&mut self, (code, body): Part<'a>) {
        self.0[usize::from(code) - 1] = Some(body);
    }

    /// The body of the part with that code, none where there is no such part.
    #[inline]
    pub fn get(&self, code: usize) -> Option<&'a [u8]> {
        *self.0.get(code.checked_sub(1)?)?
    }

    /// The marks' body, which every sheet has.
    #[inline]
    pub fn part_1(&self) -> &'a [u8] {
        self.get(1).expect("part 1 is there")
    }

    /// The parts that are there, by rising code.
    pub fn present(&self) -> Vec<Part<'a>> {
        let places = (1..).zip(self.0);
        places
            .filter_map(|(code, body)| Some((code, body?)))
            .collect()
    }

    /// The parts that decide the schedule beside part 1: those beyond 3 but part 6, which
    /// comes of it. Scheduling keeps them, and turned marks are put together with them.
    pub fn carried(&self) -> Vec<Part<'a>> {
        let mut parts = self.present();
        parts.retain(|&(code, _)| code > 3 && code != 6);
        parts
    }
}

/// Bytes of the contents of a sheet of so many parts.
#[inline]
pub const fn contents_bytes(parts: usize) -> usize {
    COUNT_BYTES + ENTRY_BYTES * parts
}

/// Splits a sheet into its bodies. Asks 1 to 3.
#[inline]
pub fn split(sheet: &[u8]) -> Result<Bodies<'_>, Refusal> {
    let entries = entries(sheet).ok_or(1_u32)?;
    let codes = entries.iter().map(|entry| Entry::read(entry).code);
    ask(2, codes_fit(codes))?;
    joined_bodies(sheet, entries).ok_or(3)
}

/// Question 1: the entries, if there are the 2 bytes of the number of parts, 1 to
/// 7 parts, and the whole contents.
#[inline]
fn entries(sheet: &[u8]) -> Option<&[[u8; ENTRY_BYTES]]> {
    let (count, rest) = sheet.split_first_chunk()?;
    let parts = usize::from(u16::from_le_bytes(*count));
    if !count_fits(parts) {
        return None;
    }
    rest.as_chunks().0.get(..parts)
}

/// Question 1, of the number of parts: one to as many as there are codes.
#[inline]
pub(crate) fn count_fits(parts: usize) -> bool {
    (1..=MOST_PARTS).contains(&parts)
}

/// Question 2: "codes rising within 1 to" 7, "part 1 present and part 3 only with part
/// 2"; "code 6, only with part 2".
#[inline]
pub(crate) fn codes_fit(codes: impl Iterator<Item = u16> + Clone) -> bool {
    let holds = |wanted| codes.clone().any(|code| code == wanted);
    let within = |code| (1..=MOST_PARTS as u16).contains(&code);
    codes.clone().is_sorted_by(|a, b| a < b)
        && codes.clone().all(within)
        && holds(1)
        && (holds(2) || !holds(3) && !holds(6))
}

/// Question 3: the bodies, if the first starts right after the contents, each next
/// one where the last ended, and the last ends with the sheet.
#[inline]
fn joined_bodies<'a>(sheet: &'a [u8], entries: &[[u8; ENTRY_BYTES]]) -> Option<Bodies<'a>> {
    let mut bodies = Bodies([None; MOST_PARTS]);
    let mut end = contents_bytes(entries.len());
    for entry in entries.iter().map(Entry::read) {
        if entry.offset as usize != end {
            return None;
        }
        let body = sheet[end..].get(..entry.length as usize)?;
        bodies.put((entry.code, body));
        end += body.len();
    }
    (end == sheet.len()).then_some(bodies)
}

/// Offset and length of the part with that code, as the contents have them; none
/// where there is no such part.
pub(crate) fn extent(sheet: &[u8], code: u32) -> Option<(u32, u32)> {
    let mut entries = entries(sheet)?.iter().map(Entry::read);
    let entry = entries.find(|entry| u32::from(entry.code) == code)?;
    Some((entry.offset, entry.length))
}

/// Writes the contents of a sheet with parts of these codes and lengths to the front of
/// a buffer.
///
/// # Panics
///
/// Where a body's end has no 4-byte number, which questions 4, 7, 19, 21, 24 and 23 exclude,
/// and where the buffer is short.
#[inline]
pub fn write_contents(parts: &[(u16, usize)], out: &mut [u8]) {
    let number = |length| u32::try_from(length).expect("the bodies are short");
    let contents = &mut out[..contents_bytes(parts.len())];
    let (count, entries) = contents.split_at_mut(COUNT_BYTES);
    count.copy_from_slice(&(parts.len() as u16).to_le_bytes());
    let mut offset = number(COUNT_BYTES + entries.len());
    let places = entries.as_chunks_mut().0.iter_mut();
    for (place, &(code, length)) in places.zip(parts) {
        let entry = Entry {
            code,
            offset,
            length: number(length),
        };
        *place = entry.write();
        offset += entry.length;
    }
}

/// Joins parts into a sheet, in the order in which they are given.
///
/// # Panics
///
/// As [`write_contents`] does.
pub fn join_parts(parts: &[Part]) -> Vec<u8> {
    let lengths = parts.iter().map(|&(code, body)| (code, body.len()));
    let mut sheet = vec![0; contents_bytes(parts.len())];
    write_contents(&lengths.collect::<Vec<_>>(), &mut sheet);
    parts.iter().for_each(|(_, body)| sheet.extend(*body));
    sheet
}

/// Joins bodies into a sheet, those of parts 1, 2, .. in order.
///
/// # Panics
///
/// As [`write_contents`] does.
pub fn join(bodies: &[&[u8]]) -> Vec<u8> {
    let parts: Vec<Part> = (1..).zip(bodies.iter().copied()).collect();
    join_parts(&parts)
}

#[cfg(test)]
mod tests {
    use super::*;
    use crate::sample::{each_list, CODES_TAKEN};

    #[test]
    fn contents_stand_before_the_bodies() {
        let sheet = join(&[&[7, 8, 9], &[], &[5]]);
        let contents = [
            [3, 0].as_slice(),
            &[1, 0, 32, 0, 0, 0, 3, 0, 0, 0],
            &[2, 0, 35, 0, 0, 0, 0, 0, 0, 0],
            &[3, 0, 35, 0, 0, 0, 1, 0, 0, 0],
        ];
        assert_eq!(sheet, [contents.concat(), vec![7, 8, 9, 5]].concat());
    }

    #[test]
    fn splitting_gives_the_joined_bodies_back() {
        let all: [Part; 7] = [
            (1, &[1, 2, 3, 4]),
            (2, &[]),
            (3, &[5; 300]),
            (4, &[6]),
            (5, &[7; 9]),
            (6, &[8; 170]),
            (7, &[9]),
        ];
        for codes in CODES_TAKEN {
            let of_codes = |(code, _): &Part| codes.contains(code);
            let parts: Vec<Part> = all.into_iter().filter(of_codes).collect();
            let sheet = join_parts(&parts);
            let bodies = split(&sheet).unwrap();
            assert_eq!(bodies.present(), parts);
            assert_eq!(bodies, Bodies::of(&parts));
            let carried = parts.iter().filter(|(code, _)| [4, 5, 7].contains(code));
            assert!(bodies.carried().iter().eq(carried));
        }
    }

    #[test]
    fn a_body_is_found_by_its_code() {
        let sheet = join_parts(&[(1, &[7]), (2, &[]), (5, &[8, 9]), (6, &[1]), (7, &[5])]);
        let bodies = split(&sheet).unwrap();
        let found = [0, 1, 2, 3, 4, 5, 6, 7, 8].map(|code| bodies.get(code));
        let [marks, popups, counts, shape] = [&[7][..], &[8, 9], &[1], &[5]].map(Some);
        let [none, empty] = [None, Some(&[][..])];
        assert_eq!(
            found,
            [none, marks, empty, none, none, popups, counts, shape, none]
        );
        assert_eq!(bodies.part_1(), [7]);
        assert_eq!(extent(&sheet, 2), Some((53, 0)));
        assert_eq!(extent(&sheet, 5), Some((53, 2)));
        assert_eq!(extent(&sheet, 6), Some((55, 1)));
        assert_eq!(extent(&sheet, 7), Some((56, 1)));
        assert_eq!(extent(&sheet, 4), None);
    }

    #[test]
    fn only_forty_lists_of_codes_are_taken() {
        let try_list = &mut |codes: &[u16]| {
            let taken = count_fits(codes.len()) && codes_fit(codes.iter().copied());
            assert_eq!(taken, CODES_TAKEN.contains(&codes), "{codes:?}");
        };
        for length in 0..=6 {
            each_list(&[0, 1, 2, 3, 4, 5, 6, 7, 8], length, try_list);
        }
        // As many as there are, and one more.
        for length in [7, 8] {
            each_list(&[1, 2, 6, 7], length, try_list);
        }
        for first in [0, 1, 2] {
            let rising: Vec<u16> = (first..first + 7).collect();
            try_list(&rising);
        }
        assert!(!codes_fit([257].into_iter()));
    }
}
