//! Logs from the winder, turned into marks and back (02, request 3).

use crate::bytes::field;
use crate::mark::{write_marks, Mark, MARK_BYTES, MOST_MARKS, RADIUS_AT};
use crate::sheet::{ask_mark, open_marks};
use crate::{ask, Refusal};

/// Bytes of a record in a log.
pub const LOG_RECORD_BYTES: usize = 13;

/// Bytes of a coordinate as packed decimal.
const PACKED_BYTES: usize = 3;

/// The half-bytes of a sign.
const PLUS: u8 = 12;
const MINUS: u8 = 13;

/// The number that packed decimal holds: five digits, one a half-byte, highest
/// first, the upper half of a byte before the lower, then the sign. None where a
/// digit is above 9, the sign is another one, or the number is minus zero.
pub fn read_packed(bytes: [u8; PACKED_BYTES]) -> Option<i32> {
    let halves = bytes.map(|byte| [byte >> 4, byte & 15]);
    let [digits @ .., sign] = halves.as_flattened() else {
        unreachable!("there are six halves");
    };
    let taken = digits.iter().all(|&digit| digit <= 9);
    let magnitude = digits.iter().fold(0, |m, &digit| 10 * m + i32::from(digit));
    match *sign {
        PLUS if taken => Some(magnitude),
        MINUS if taken && magnitude > 0 => Some(-magnitude),
        _ => None,
    }
}

/// A place as packed decimal.
pub fn write_packed(place: i16) -> [u8; PACKED_BYTES] {
    let digits = format!("{:05}", place.unsigned_abs());
    let sign = if place < 0 { MINUS } else { PLUS };
    let mut halves = digits.bytes().map(|digit| digit - b'0').chain([sign]);
    let mut half = || halves.next().expect("there are six halves");
    [(); PACKED_BYTES].map(|()| half() << 4 | half())
}

/// A coordinate of a record. Asks 15 and 16.
fn read_place(bytes: [u8; PACKED_BYTES]) -> Result<i16, Refusal> {
    let number = read_packed(bytes).ok_or(15_u32)?;
    i16::try_from(number).map_err(|_| 16)
}

/// The mark of a record: its places from packed decimal, and the rest as in a sheet.
/// Asks 15 and 16 of x, then of y, and 5 and 6.
fn read_record(record: &[u8; LOG_RECORD_BYTES]) -> Result<Mark, Refusal> {
    let x = read_place(field(record, 0))?;
    let y = read_place(field(record, PACKED_BYTES))?;
    let mut bytes = Mark::plain(x, y, 0, 0).write();
    bytes[RADIUS_AT..].copy_from_slice(&record[2 * PACKED_BYTES..]);
    let mark = Mark::read(&bytes);
    ask_mark(mark)?;
    Ok(mark)
}

/// The record of a mark: its places as packed decimal, and the rest as in a sheet.
fn write_record(mark: &Mark) -> Vec<u8> {
    let rest = &mark.write()[RADIUS_AT..];
    [&write_packed(mark.x), &write_packed(mark.y), rest].concat()
}

/// Turns a log into marks. Asks 4; 15, 16, 5 and 6 record by record; and 13 of the
/// buffer written to.
pub fn log_to_marks(log: &[u8], out_length: usize) -> Result<Vec<u8>, Refusal> {
    let (records, rest) = log.as_chunks();
    ask(4, rest.is_empty() && records.len() <= MOST_MARKS)?;
    let marks: Result<Vec<Mark>, Refusal> = records.iter().map(read_record).collect();
    let marks = marks?;
    ask(13, out_length >= MARK_BYTES * marks.len())?;
    Ok(write_marks(&marks))
}

/// Turns marks into a log. Asks 4, then 5 and 6 mark by mark, and 13 of the buffer
/// written to.
pub fn marks_to_log(part_1: &[u8], out_length: usize) -> Result<Vec<u8>, Refusal> {
    let marks = open_marks(part_1)?;
    ask(13, out_length >= LOG_RECORD_BYTES * marks.len())?;
    Ok(marks.iter().flat_map(write_record).collect())
}

#[cfg(test)]
mod tests {
    use super::*;

    #[test]
    fn packed_decimal_by_hand() {
        assert_eq!(read_packed([0x12, 0x34, 0x5c]), Some(12_345));
        assert_eq!(read_packed([0x12, 0x34, 0x5d]), Some(-12_345));
        assert_eq!(read_packed([0x99, 0x99, 0x9d]), Some(-99_999));
        assert_eq!(read_packed([0x00, 0x00, 0x0c]), Some(0));
        assert_eq!(read_packed([0x00, 0x00, 0x0d]), None);
        assert_eq!(read_packed([0x12, 0x34, 0x5f]), None);
        assert_eq!(read_packed([0xa0, 0x00, 0x0c]), None);
        assert_eq!(write_packed(i16::MIN), [0x32, 0x76, 0x8d]);
        assert_eq!(write_packed(0), [0, 0, 0x0c]);
    }

    #[test]
    fn every_number_has_one_form() {
        let mut forms = vec![0; 200_000];
        for bytes in 0..1_u32 << 24 {
            let [a, b, c, _] = bytes.to_le_bytes();
            if let Some(number) = read_packed([a, b, c]) {
                forms[(number + 99_999) as usize] += 1;
            }
        }
        assert!(forms[..199_999].iter().all(|&forms| forms == 1));
        assert_eq!(forms[199_999], 0);
    }
}
