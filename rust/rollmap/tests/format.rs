//! What `docs/FORMAT.md` says of the bytes of a sheet, compared with the library.

mod common;

use common::{one_part, with_part_4, with_part_7, with_popups, Beyond};
use oracle::mark::{house_radius, Mark};
use oracle::sample::{CODES_TAKEN, P1};
use rollmap::{schedule_to_vec, Code};

const FORMAT: &str = include_str!("../../../docs/FORMAT.md");

/// The bytes of a line of the dump, and the offset that it names. A line is an offset,
/// two spaces, bytes, and words, which begin at one column.
fn dumped(line: &str) -> (usize, Vec<u8>) {
    let (offset, rest) = line.split_at(6);
    let bytes = &rest[..rest.len().min(44)];
    let byte = |word| u8::from_str_radix(word, 16).expect("a byte");
    (
        usize::from_str_radix(offset.trim(), 16).expect("an offset"),
        bytes.split_whitespace().map(byte).collect(),
    )
}

/// A run of bytes in hexadecimal, as the text has it.
fn hexadecimal(bytes: &[u8]) -> String {
    let words: Vec<String> = bytes.iter().map(|byte| format!("{byte:02x}")).collect();
    words.join(" ")
}

#[test]
fn the_dump_is_the_scheduled_sheet() {
    let (_, rest) = FORMAT.split_once("```text\n").expect("a dump");
    let (dump, _) = rest.split_once("```").expect("its end");
    let mut sheet = Vec::new();
    for line in dump.lines() {
        let (offset, bytes) = dumped(line);
        assert_eq!(offset, sheet.len(), "{line}");
        sheet.extend(bytes);
    }
    assert_eq!(Ok(sheet), schedule_to_vec(&one_part(&P1)));
}

#[test]
fn the_sheets_in_the_text_are_accepted() {
    let given = one_part(&P1);
    assert_eq!(given.len(), 56);
    assert!(FORMAT.contains(&format!(
        "`{}`, `{}`",
        hexadecimal(&given[..2]),
        hexadecimal(&given[2..12])
    )));
    let named = with_part_4(&given, &[2]);
    assert_eq!((named.len(), rollmap::check(&named)), (67, Ok(())));
    assert!(FORMAT.contains(&format!(
        "`{}`, `{}`, `{}`, the marks, and `{}`",
        hexadecimal(&named[..2]),
        hexadecimal(&named[2..12]),
        hexadecimal(&named[12..22]),
        hexadecimal(&named[66..])
    )));
    let empty = one_part(&[]);
    assert_eq!(rollmap::check(&empty), Ok(()));
    assert!(FORMAT.contains(&format!("`{}`", hexadecimal(&empty))));
}

#[test]
fn the_codes_are_those_of_the_text() {
    let list = |codes: &&[u16]| {
        let words: Vec<String> = codes.iter().map(u16::to_string).collect();
        words.join(", ")
    };
    // Each list has a fellow with 7 at its end.
    let (with_7, without): (Vec<&[u16]>, Vec<&[u16]>) =
        CODES_TAKEN.iter().partition(|codes| codes.contains(&7));
    assert!(with_7
        .iter()
        .all(|codes| without.contains(&&codes[..codes.len() - 1])));
    assert_eq!(with_7.len(), without.len());
    let lists: Vec<String> = without.iter().map(list).collect();
    let (last, others) = lists.split_last().expect("there are lists");
    let sentence = format!(
        "So the codes are {}; or {last}; each of these lists also with 7 at its end.",
        others.join("; ")
    );
    assert!(FORMAT.contains(&sentence), "{sentence}");
    let code = |code: &Code| format!("\n| {} | the ", code.number());
    assert!(Code::ALL.iter().all(|it| FORMAT.contains(&code(it))));
}

#[test]
fn a_scheduled_sheet_is_as_long_as_the_text_says() {
    let lengths = ["32 + 27n bytes", "43 + 27n", "42 + 31n", "53 + 31n", "180"];
    assert!(lengths.iter().all(|length| FORMAT.contains(length)));
    for n in 0..=4 {
        let length = |sheet: &[u8]| schedule_to_vec(sheet).unwrap().len();
        let given = one_part(&P1[..n]);
        assert_eq!(length(&given), 32 + 27 * n);
        let named = with_part_4(&given, &[1]);
        assert_eq!(length(&named), 43 + 27 * n);
        let popups = &[0, 64, 65_536, 7][..n];
        assert_eq!(length(&with_popups(&given, popups)), 42 + 31 * n);
        assert_eq!(length(&with_popups(&named, popups)), 53 + 31 * n);
        let counted = Beyond::default().counted().bare(&P1[..n]);
        assert_eq!(length(&counted), 32 + 27 * n + 180);
        let all = with_part_4(&with_popups(&given, popups), &[2]);
        let all = rollmap::count_to_vec(&schedule_to_vec(&all).unwrap()).unwrap();
        assert_eq!(length(&all), 53 + 31 * n + 180);
        let shaped = with_part_7(&given, &[2]);
        assert_eq!(length(&shaped), 43 + 27 * n);
        let whole = with_part_7(&all, &[1]);
        assert_eq!(length(&whole), 64 + 31 * n + 180);
    }
}

#[test]
fn the_house_radii_are_those_of_the_table() {
    let cells = |line: &'static str| -> Option<(u8, u8, u16)> {
        let [kinds, _, radius] = line
            .trim_matches(['|', ' '])
            .split(" | ")
            .collect::<Vec<_>>()[..]
        else {
            return None;
        };
        let (first, last) = kinds.split_once(" to ")?;
        Some((
            first.parse().ok()?,
            last.parse().ok()?,
            radius.parse().ok()?,
        ))
    };
    let rows: Vec<(u8, u8, u16)> = FORMAT.lines().filter_map(cells).collect();
    assert_eq!(rows.len(), 5);
    for kind in 0..200 {
        let row = rows.iter().find(|row| (row.0..=row.1).contains(&kind));
        let radius = row.expect("each kind has a row").2;
        assert_eq!(house_radius(kind), Some(radius));
        // Two marks of the kind with radius 0, a map unit apart, as the library has them.
        let mark = |x| Mark {
            kind,
            ..Mark::plain(x, 0, 0, 0)
        };
        let sheet = schedule_to_vec(&one_part(&[mark(0), mark(1)])).unwrap();
        let gone = rollmap::Record::Removed {
            eliminator: 0,
            numerator: 1,
            denominator: (2 * u32::from(radius)).pow(2),
        };
        assert_eq!(rollmap::records(&sheet).unwrap().last(), Some(gone));
    }
}
