//! Tables of marks and of removals, read and written.

use std::fmt::{Display, Write};
use std::str::FromStr;

use rollmap::{assemble_to_vec, Code, Group, Mark, Record, Refusal, LARGEST_POPUP, NO_POPUP};

use crate::csv::{self, printable, wrong, Csv, Line};
use crate::hold::Listed;
use crate::rules::Removal;
use crate::trouble::Wrong;
use crate::words;

/// The columns of a table of marks that are always there.
pub const COLUMNS: [&str; 6] = ["x", "y", "radius", "priority", "kind", "tag"];

/// The column that is there where the marks have popups.
pub const POPUP: &str = "popup";

/// The columns of a table of removals: the mark's number, which may be left out, and its
/// removal value.
pub const MARK: &str = "mark";
/// See [`MARK`].
pub const REMOVAL: &str = "removal";

/// What stands for no removal.
const NEVER: &str = "never";

/// A table of marks.
#[derive(Clone, Debug, PartialEq, Eq)]
pub struct Table {
    /// The marks, in the order of the lines.
    pub marks: Vec<Listed>,
    /// Whether the table has a column for popups.
    pub has_popups: bool,
}

impl Table {
    /// Reads a table of marks. The library is asked of each line whether it takes the mark.
    ///
    /// # Errors
    ///
    /// What is wrong, and where.
    pub fn read(bytes: &[u8]) -> Result<Self, Wrong> {
        let table = csv::read(bytes)?;
        let places = places(&table, &COLUMNS, &[POPUP])?;
        let marks = table.rows.iter().map(|line| listed(line, &places));
        Ok(Self {
            marks: marks.collect::<Result<_, _>>()?,
            has_popups: places[COLUMNS.len()].is_some(),
        })
    }
}

/// The place of each column that is wanted, and then of each that may be there.
fn places(
    table: &Csv,
    wanted: &[&'static str],
    allowed: &[&'static str],
) -> Result<Vec<Option<usize>>, Wrong> {
    let names: Vec<&str> = wanted.iter().chain(allowed).copied().collect();
    let unknown = |column: &&String| !names.contains(&column.as_str());
    if let Some(column) = table.columns.iter().find(unknown) {
        let names = names.join(", ");
        let what = format!("there is no such column: those that are read are {names}");
        return Err(wrong(table.header, Some(column), &what));
    }
    let place = |name: &str| table.columns.iter().position(|column| column == name);
    if let Some(name) = wanted.iter().find(|name| place(name).is_none()) {
        return Err(wrong(table.header, Some(name), "this column is missing"));
    }
    Ok(names.into_iter().map(place).collect())
}

/// The mark of a line, which the library takes.
fn listed(line: &Line, places: &[Option<usize>]) -> Result<Listed, Wrong> {
    let cell = |at: usize| places[at].map_or("", |place| line.cells[place].as_str());
    let in_line = |column| move |what: String| wrong(line.number, Some(column), &what);
    let mark = Mark {
        x: x_or_y(cell(0)).map_err(in_line(COLUMNS[0]))?,
        y: x_or_y(cell(1)).map_err(in_line(COLUMNS[1]))?,
        radius: radius(cell(2)).map_err(in_line(COLUMNS[2]))?,
        priority: priority_or_tag(cell(3)).map_err(in_line(COLUMNS[3]))?,
        kind: kind(cell(4)).map_err(in_line(COLUMNS[4]))?,
        tag: priority_or_tag(cell(5)).map_err(in_line(COLUMNS[5]))?,
    };
    let popup = match places[COLUMNS.len()] {
        Some(_) => Some(popup(cell(6)).map_err(in_line(POPUP))?),
        None => None,
    };
    taken(mark, popup).map_err(|refusal| refused(line, refusal))?;
    Ok(Listed {
        line: line.number,
        mark,
        popup,
    })
}

/// Asks the library whether it takes a mark: questions 5, 6 and 21.
fn taken(mark: Mark, popup: Option<u32>) -> Result<(), Refusal> {
    let popup = popup.unwrap_or(NO_POPUP).to_le_bytes();
    assemble_to_vec(&[(Code::Marks, &mark.to_bytes()), (Code::Popups, &popup)])?;
    Ok(())
}

/// What the library refuses of a line's mark.
fn refused(line: &Line, refusal: Refusal) -> Wrong {
    let column = match refusal {
        Refusal::Kind => Some("kind"),
        Refusal::Radius => Some("radius"),
        Refusal::Popups => Some(POPUP),
        _ => None,
    };
    wrong(line.number, column, &refusal.to_string())
}

/// A whole number, of which a person is told the range.
fn whole<T: FromStr>(cell: &str, low: impl Display, high: impl Display) -> Result<T, String> {
    let not = match cell {
        "" => "nothing".to_owned(),
        _ => printable(cell),
    };
    let number = cell.parse();
    number.map_err(|_| format!("a whole number from {low} to {high} is wanted, and not {not}"))
}

/// Reads the x or the y of a mark.
///
/// # Errors
///
/// What is wanted, in words; so with the other fields.
pub fn x_or_y(cell: &str) -> Result<i16, String> {
    whole(cell, i16::MIN, i16::MAX)
}

/// Reads a radius.
///
/// # Errors
///
/// See [`x_or_y`].
pub fn radius(cell: &str) -> Result<u16, String> {
    whole(cell, 0, 16_383)
}

/// Reads a priority or a tag.
///
/// # Errors
///
/// See [`x_or_y`].
pub fn priority_or_tag(cell: &str) -> Result<u16, String> {
    whole(cell, 0, u16::MAX)
}

/// Reads a popup: 64 times the zoom from which the mark is there.
///
/// # Errors
///
/// See [`x_or_y`].
pub fn popup(cell: &str) -> Result<u32, String> {
    whole(cell, NO_POPUP, LARGEST_POPUP)
}

/// Reads a kind: a number, or the name of its group, which means the first kind of the group.
///
/// # Errors
///
/// See [`x_or_y`].
pub fn kind(cell: &str) -> Result<u8, String> {
    let name = cell.to_lowercase();
    let called = |group: &Group| {
        let full = words::group_name(*group);
        name == full || full.rsplit(' ').next() == Some(name.as_str())
    };
    match Group::ALL.iter().find(|group| called(group)) {
        Some(&group) => Ok(first_kind(group)),
        None => whole(cell, 0, 199).map_err(|what| {
            let names: Vec<&str> = Group::ALL.map(words::group_name).to_vec();
            format!("{what}; or a group: {}", names.join(", "))
        }),
    }
}

/// The first kind of a group.
fn first_kind(group: Group) -> u8 {
    let mut kinds = 0..=u8::MAX;
    let first = kinds.find(|&kind| Group::of(kind) == Some(group));
    first.expect("every group has kinds")
}

/// Writes a table of marks, with a column for popups where there are some.
pub fn write_marks(marks: &[Mark], popups: Option<&[u32]>) -> String {
    let mut text = COLUMNS.join(",");
    if popups.is_some() {
        text += &format!(",{POPUP}");
    }
    text += "\n";
    for (m, mark) in marks.iter().enumerate() {
        let Mark {
            x,
            y,
            radius,
            priority,
            kind,
            tag,
        } = mark;
        let popup = popups.map_or(String::new(), |popups| format!(",{}", popups[m]));
        let line = format_args!("{x},{y},{radius},{priority},{kind},{tag}{popup}\n");
        text.write_fmt(line).expect("text can grow");
    }
    text
}

/// Writes the table of removals of these records.
pub fn write_removals(records: &[Record]) -> String {
    let lines = records.iter().enumerate();
    let lines = lines.map(|(m, record)| format!("{m},{}\n", Removal::of(*record)));
    format!("{MARK},{REMOVAL}\n") + &lines.collect::<String>()
}

/// Reads a table of removals: one for each of `n` marks. Without the marks' numbers they
/// stand in their order.
///
/// # Errors
///
/// What is wrong, and where.
pub fn read_removals(bytes: &[u8], n: usize) -> Result<Vec<Removal>, Wrong> {
    let table = csv::read(bytes)?;
    let places = places(&table, &[REMOVAL], &[MARK])?;
    let mut removals = vec![None; n];
    let mut last = table.header;
    for (at, line) in table.rows.iter().enumerate() {
        last = line.number;
        let in_line = |column| move |what: String| wrong(line.number, Some(column), &what);
        let m = match places[1] {
            Some(place) => number(&line.cells[place], n).map_err(in_line(MARK))?,
            None => at,
        };
        let cell = &line.cells[places[0].unwrap_or_default()];
        let removal = removal(cell).map_err(in_line(REMOVAL))?;
        let slot = removals.get_mut(m).ok_or(wrong(last, None, &too_many(n)))?;
        if slot.replace(removal).is_some() {
            let what = format!("mark {m} is there twice");
            return Err(wrong(last, Some(MARK), &what));
        }
    }
    let missing = |m| wrong(last, None, &format!("mark {m} is missing behind this line"));
    let found = removals.into_iter().enumerate();
    found.map(|(m, it)| it.ok_or_else(|| missing(m))).collect()
}

/// What is said of a line that is one too many.
fn too_many(n: usize) -> String {
    format!("the sheet has {}, and this is one more", words::marks(n))
}

/// Reads the number of one of `n` marks.
fn number(cell: &str, n: usize) -> Result<usize, String> {
    let m: usize = whole(cell, 0, n.saturating_sub(1))?;
    if m < n {
        Ok(m)
    } else {
        Err(format!("the sheet has {}, from 0 on", words::marks(n)))
    }
}

/// Reads a removal: `never`, or a fraction of the squared zoom, `10000/400`.
fn removal(cell: &str) -> Result<Removal, String> {
    if cell.eq_ignore_ascii_case(NEVER) {
        return Ok(Removal::Never);
    }
    let (numerator, denominator) = cell.split_once('/').unwrap_or((cell, "1"));
    let [numerator, denominator] = [numerator, denominator].map(|it| it.trim().parse().ok());
    match (numerator, denominator) {
        (Some(numerator), Some(denominator)) if denominator > 0 => {
            let removal = Removal::At {
                numerator,
                denominator,
            };
            Ok(removal)
        }
        _ => Err(format!(
            "never is wanted, or the squared zoom as two whole numbers such as 10000/400, the \
             second above 0, and not {}",
            printable(cell)
        )),
    }
}

#[cfg(test)]
mod tests {
    use super::*;

    fn read(rows: &str) -> Result<Table, String> {
        let table = format!("x,y,radius,priority,kind,tag\n{rows}");
        Table::read(table.as_bytes()).map_err(|wrong| wrong.to_string())
    }

    const SPOT: Mark = Mark {
        x: -32_768,
        y: 32_767,
        radius: 16_383,
        priority: 65_535,
        kind: 49,
        tag: 65_535,
    };

    #[test]
    fn a_table_is_read_and_written_back() {
        let text = "x,y,radius,priority,kind,tag,popup\n-32768,32767,16383,65535,49,65535,65536\n";
        let table = Table::read(text.as_bytes()).unwrap();
        let listed = Listed {
            line: 2,
            mark: SPOT,
            popup: Some(65_536),
        };
        assert_eq!((table.has_popups, &table.marks[..]), (true, &[listed][..]));
        assert_eq!(write_marks(&[SPOT], Some(&[65_536])), text);
        let without = "x,y,radius,priority,kind,tag\n-32768,32767,16383,65535,49,65535\n";
        assert_eq!(write_marks(&[SPOT], None), without);
        let table = Table::read(without.as_bytes()).unwrap();
        assert_eq!((table.has_popups, table.marks[0].popup), (false, None));
    }

    #[test]
    fn columns_stand_in_any_order() {
        let text = "Tag;kind;priority;POPUP;radius;y;x\n6;spot;4;7;3;2;1\n";
        let Listed { mark, popup, .. } = Table::read(text.as_bytes()).unwrap().marks[0];
        let fields = [
            mark.x as u16,
            mark.y as u16,
            mark.radius,
            mark.priority,
            mark.tag,
        ];
        assert_eq!((fields, mark.kind, popup), ([1, 2, 3, 4, 6], 10, Some(7)));
    }

    #[test]
    fn a_kind_is_a_number_or_a_group() {
        let named = [("note", 0), ("Spot", 10), ("streak", 50), ("break", 150)];
        let patches = [("moisture patch", 100), ("PATCH", 100), ("199", 199)];
        for (cell, number) in named.into_iter().chain(patches) {
            assert_eq!(kind(cell), Ok(number));
        }
        for cell in ["moisture", "notes", "", "-1", "256", "1.0"] {
            let what = kind(cell).unwrap_err();
            assert!(what.ends_with("or a group: note, spot, streak, moisture patch, break"));
        }
    }

    #[test]
    fn a_wrong_cell_is_named_by_line_and_column() {
        let wrong = [
            ("0,0,1,1,0,0\n40000,0,1,1,0,0", "line 3, column x: a whole number from -32768 to 32767 is wanted, and not 40000"),
            ("0,,1,1,0,0", "line 2, column y: a whole number from -32768 to 32767 is wanted, and not nothing"),
            ("0,0,-1,1,0,0", "line 2, column radius: a whole number from 0 to 16383 is wanted, and not -1"),
            ("0,0,16384,1,0,0", "line 2, column radius: refused by question 6: is the radius of each mark at most 16,383?"),
            ("0,0,1,1,200,0", "line 2, column kind: refused by question 5: is the kind of each mark below 200?"),
            ("0,0,1,1e3,0,0", "line 2, column priority: a whole number from 0 to 65535 is wanted, and not 1e3"),
            ("0,0,1,1,0,65536", "line 2, column tag: a whole number from 0 to 65535 is wanted, and not 65536"),
            ("0,0,1,1,0", "line 2, column tag: the line ends before it"),
        ];
        for (rows, message) in wrong {
            assert_eq!(read(rows).unwrap_err(), message);
        }
    }

    #[test]
    fn the_limits_that_are_told_are_those_of_the_library() {
        let mark = Mark {
            radius: 16_383,
            kind: 199,
            ..SPOT
        };
        assert_eq!(taken(mark, Some(LARGEST_POPUP)), Ok(()));
        let wide = Mark {
            radius: 16_384,
            ..mark
        };
        assert_eq!(taken(wide, None), Err(Refusal::Radius));
        assert_eq!(taken(Mark { kind: 200, ..mark }, None), Err(Refusal::Kind));
        assert_eq!(taken(mark, Some(LARGEST_POPUP + 1)), Err(Refusal::Popups));
    }

    #[test]
    fn wrong_columns_are_named() {
        let message = |header: &str| {
            let table = Table::read(format!("{header}\n").as_bytes());
            table.unwrap_err().to_string()
        };
        assert_eq!(
            message("x,y,radius,priority,kind"),
            "line 1, column tag: this column is missing"
        );
        let unknown = "line 1, column popups: there is no such column: those that are read are \
                       x, y, radius, priority, kind, tag, popup";
        assert_eq!(message("x,y,radius,priority,kind,tag,popups"), unknown);
    }

    #[test]
    fn removals_are_read_by_number_or_in_order() {
        let at = |numerator, denominator| Removal::At {
            numerator,
            denominator,
        };
        let list = [Removal::Never, at(9, 225), at(25, 1)];
        for text in [
            "mark,removal\n2,25\n0,never\n1,9/225\n",
            "removal\nNEVER\n9 / 225\n25/1\n",
        ] {
            assert_eq!(read_removals(text.as_bytes(), 3), Ok(list.to_vec()));
        }
        let record = Record::Removed {
            eliminator: 0,
            numerator: 9,
            denominator: 225,
        };
        let written = write_removals(&[Record::Never, record]);
        assert_eq!(written, "mark,removal\n0,never\n1,9/225\n");
    }

    #[test]
    fn wrong_removals_are_named() {
        let message = |text: &str| read_removals(text.as_bytes(), 2).unwrap_err().to_string();
        assert_eq!(
            message("removal\nnever\n"),
            "line 2: mark 1 is missing behind this line"
        );
        assert_eq!(
            message("removal\n1\n2\n3\n"),
            "line 4: the sheet has 2 marks, and this is one more"
        );
        assert_eq!(
            message("mark,removal\n1,1\n1,1\n"),
            "line 3, column mark: mark 1 is there twice"
        );
        assert_eq!(
            message("mark,removal\n2,1\n"),
            "line 2, column mark: the sheet has 2 marks, from 0 on"
        );
        for cell in ["1/0", "x", "-1", "1/2/3", "", "0.5", "18446744073709551616"] {
            let message = message(&format!("removal\nnever\n\"{cell}\"\n"));
            assert!(
                message.starts_with("line 3, column removal: never is wanted"),
                "{message}"
            );
        }
    }
}
