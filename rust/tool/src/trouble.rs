//! What keeps a command from doing what it was asked for, and with which status it then ends.

use std::error::Error;
use std::fmt;
use std::io;

use rollmap::Refusal;

/// How a command went that ran to its end.
#[derive(Clone, Copy, Debug, PartialEq, Eq)]
pub enum Status {
    /// All right, and nothing is unexplained.
    Fine,
    /// Something is unexplained, or a list that was judged or held is not ours.
    Unexplained,
}

impl Status {
    /// The number that the command ends with.
    pub const fn number(self) -> u8 {
        match self {
            Self::Fine => 0,
            Self::Unexplained => 1,
        }
    }
}

/// Why a command did not run to its end. No file was replaced by a part of a new one.
#[derive(Debug)]
pub enum Trouble {
    /// The command was called wrongly.
    Usage(String),
    /// A file could not be read or written.
    File(io::Error),
    /// A table has something wrong.
    Table(Wrong),
    /// The library refused what it was handed.
    Refused(Refusal),
    /// Any of these, about the file of that name.
    About(String, Box<Trouble>),
}

/// What is wrong with a table, and where.
#[derive(Clone, Debug, PartialEq, Eq)]
pub struct Wrong {
    /// The line, counted from 1.
    pub line: usize,
    /// The column by its name, where it is one column that is wrong.
    pub column: Option<String>,
    /// What is wrong, in words.
    pub what: String,
}

impl Trouble {
    /// The number that the command ends with.
    pub fn status(&self) -> u8 {
        match self {
            Self::Usage(_) | Self::File(_) | Self::Table(_) => 2,
            Self::Refused(_) => 3,
            Self::About(_, trouble) => trouble.status(),
        }
    }

    /// Whether whoever read the answer has gone, which needs no message.
    pub fn is_closed_pipe(&self) -> bool {
        match self {
            Self::File(error) => error.kind() == io::ErrorKind::BrokenPipe,
            Self::About(_, trouble) => trouble.is_closed_pipe(),
            _ => false,
        }
    }

    /// The same trouble, which where it is wrong usage says where to read more.
    pub fn of_command(self, name: &str) -> Self {
        match self {
            Self::Usage(what) => Self::Usage(format!("{what} (see rollmap help {name})")),
            other => other,
        }
    }

    /// The same trouble, about that file.
    pub fn about(self, file: &str) -> Self {
        Self::About(file.to_owned(), Box::new(self))
    }
}

impl From<Refusal> for Trouble {
    fn from(refusal: Refusal) -> Self {
        Self::Refused(refusal)
    }
}

impl From<Wrong> for Trouble {
    fn from(wrong: Wrong) -> Self {
        Self::Table(wrong)
    }
}

impl fmt::Display for Trouble {
    fn fmt(&self, f: &mut fmt::Formatter<'_>) -> fmt::Result {
        match self {
            Self::Usage(what) => f.write_str(what),
            Self::File(error) => error.fmt(f),
            Self::Table(wrong) => wrong.fmt(f),
            Self::Refused(refusal) => refusal.fmt(f),
            Self::About(file, trouble) => write!(f, "{file}: {trouble}"),
        }
    }
}

impl fmt::Display for Wrong {
    fn fmt(&self, f: &mut fmt::Formatter<'_>) -> fmt::Result {
        write!(f, "line {}", self.line)?;
        if let Some(column) = &self.column {
            write!(f, ", column {column}")?;
        }
        write!(f, ": {}", self.what)
    }
}

impl Error for Trouble {}
