//! Tables as text: a line of column names, and then a line for each row.

use crate::trouble::Wrong;

/// A table as text.
#[derive(Clone, Debug, PartialEq, Eq)]
pub struct Csv {
    /// The line of the column names, counted from 1.
    pub header: usize,
    /// The names of the columns, in small letters.
    pub columns: Vec<String>,
    /// The rows.
    pub rows: Vec<Line>,
}

/// A row of a table: as many cells as there are columns, without the spaces around them.
#[derive(Clone, Debug, PartialEq, Eq)]
pub struct Line {
    /// The line, counted from 1.
    pub number: usize,
    /// The cells.
    pub cells: Vec<String>,
}

/// What stands before the text of files that some programs write.
const BYTE_ORDER_MARK: &str = "\u{feff}";

/// What stands for a double quote inside a cell in quotes.
const TWO_QUOTES: &str = "\"\"";

/// Reads a table. Cells stand between commas, or between semicolons or tabs where the first
/// line has one of those; they may stand in double quotes. Lines without anything are passed
/// over.
///
/// # Errors
///
/// What is wrong, where it is no such table.
pub fn read(bytes: &[u8]) -> Result<Csv, Wrong> {
    let text = text(bytes)?;
    let lines = text.lines().enumerate().map(|(at, line)| (at + 1, line));
    let mut lines = lines.filter(|(_, line)| !line.trim().is_empty());
    let Some((header, names)) = lines.next() else {
        return Err(wrong(1, None, "a line with the columns' names is wanted"));
    };
    let separator = separator(names);
    let columns = column_names(header, names, separator)?;
    let row = |(number, line)| row(&columns, number, line, separator);
    let rows = lines.map(row).collect::<Result<_, _>>()?;
    Ok(Csv {
        header,
        columns,
        rows,
    })
}

/// The bytes as text.
fn text(bytes: &[u8]) -> Result<&str, Wrong> {
    let text = std::str::from_utf8(bytes).map_err(|error| {
        let before = &bytes[..error.valid_up_to()];
        let line = 1 + before.iter().filter(|&&byte| byte == b'\n').count();
        wrong(line, None, "a byte is no UTF-8 text")
    })?;
    Ok(text.strip_prefix(BYTE_ORDER_MARK).unwrap_or(text))
}

/// What stands between the cells of a table with this first line.
fn separator(names: &str) -> char {
    let found = [';', '\t'].into_iter().find(|&it| names.contains(it));
    found.unwrap_or(',')
}

/// The columns' names.
fn column_names(line: usize, names: &str, separator: char) -> Result<Vec<String>, Wrong> {
    let cells = cells(line, names, separator)?;
    let columns: Vec<String> = cells.iter().map(|name| name.to_lowercase()).collect();
    for (at, column) in columns.iter().enumerate() {
        if columns[..at].contains(column) {
            return Err(wrong(line, Some(column), "this column is there twice"));
        }
    }
    Ok(columns)
}

/// A row with a cell for each column.
fn row(columns: &[String], number: usize, line: &str, separator: char) -> Result<Line, Wrong> {
    let cells = cells(number, line, separator)?;
    if let Some(missing) = columns.get(cells.len()) {
        return Err(wrong(number, Some(missing), "the line ends before it"));
    }
    if cells.len() > columns.len() {
        let what = format!("{} cells, and {} columns", cells.len(), columns.len());
        return Err(wrong(number, None, &what));
    }
    Ok(Line { number, cells })
}

/// The cells of a line.
fn cells(number: usize, line: &str, separator: char) -> Result<Vec<String>, Wrong> {
    let mut quoted = false;
    let apart = line.split(|character| {
        quoted ^= character == '"';
        character == separator && !quoted
    });
    let cells: Vec<&str> = apart.collect();
    if quoted {
        return Err(wrong(number, None, "a double quote is not closed"));
    }
    let cell = |cell| unquoted(number, cell);
    cells.into_iter().map(cell).collect()
}

/// A cell without the quotes around it; two quotes inside them are one.
fn unquoted(number: usize, cell: &str) -> Result<String, Wrong> {
    let cell = cell.trim();
    let inside = cell.strip_prefix('"').and_then(|it| it.strip_suffix('"'));
    let (text, single) = match inside {
        Some(inside) => (
            inside.replace(TWO_QUOTES, "\""),
            inside.replace(TWO_QUOTES, ""),
        ),
        None => (cell.to_owned(), cell.to_owned()),
    };
    if single.contains('"') {
        let what = "a double quote stands neither around a cell nor twice";
        return Err(wrong(number, None, what));
    }
    Ok(text.trim().to_owned())
}

/// Text of a table as it stands in a message: what would move about on a screen is written
/// out.
pub fn printable(text: &str) -> String {
    text.escape_debug().to_string()
}

/// What is wrong in a line and, where it is one, in a column.
pub fn wrong(line: usize, column: Option<&str>, what: &str) -> Wrong {
    Wrong {
        line,
        column: column.map(printable),
        what: what.to_owned(),
    }
}

#[cfg(test)]
mod tests {
    use super::*;

    fn cells_of(text: &str) -> Vec<Vec<String>> {
        let rows = read(text.as_bytes()).unwrap().rows;
        rows.into_iter().map(|row| row.cells).collect()
    }

    fn message(bytes: &[u8]) -> String {
        read(bytes).unwrap_err().to_string()
    }

    #[test]
    fn cells_stand_between_commas_semicolons_or_tabs() {
        for text in [
            "x,y\n1,2\n",
            "X; Y\r\n1; 2",
            "x\ty\n1\t2",
            "\u{feff}x,y\n 1 , 2 ",
        ] {
            assert_eq!(cells_of(text), [["1", "2"]], "{text:?}");
        }
    }

    #[test]
    fn cells_may_stand_in_quotes() {
        assert_eq!(cells_of("a,b\n\"1,5\",\" x \"\n"), [["1,5", "x"]]);
        assert_eq!(cells_of("a\n\"say \"\"so\"\"\"\n"), [["say \"so\""]]);
    }

    #[test]
    fn what_a_message_shows_of_a_table_stays_in_its_line() {
        assert_eq!(printable("ten µ"), "ten µ");
        assert_eq!(printable("a\u{1b}[2Jb\r"), "a\\u{1b}[2Jb\\r");
    }

    #[test]
    fn empty_lines_are_passed_over_and_counted() {
        let table = read(b"\n\na,b\n\n1,2\n  \n3,4\n").unwrap();
        let numbers: Vec<usize> = table.rows.iter().map(|row| row.number).collect();
        assert_eq!((table.header, numbers), (3, vec![5, 7]));
    }

    #[test]
    fn a_wrong_line_is_named() {
        assert_eq!(
            message(b""),
            "line 1: a line with the columns' names is wanted"
        );
        assert_eq!(
            message(b"a,A\n"),
            "line 1, column a: this column is there twice"
        );
        assert_eq!(
            message(b"a,b\n1,2\n1\n"),
            "line 3, column b: the line ends before it"
        );
        assert_eq!(message(b"a,b\n1,2,3\n"), "line 2: 3 cells, and 2 columns");
        assert_eq!(message(b"a\n\"1\n"), "line 2: a double quote is not closed");
        assert_eq!(
            message(b"a\n1\"2\"\n"),
            "line 2: a double quote stands neither around a cell nor twice"
        );
        assert_eq!(message(b"a\n1\n\xff\n"), "line 3: a byte is no UTF-8 text");
    }
}
