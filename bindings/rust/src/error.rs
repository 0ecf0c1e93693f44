//! How a call can end instead of with an answer.

use std::fmt;

use crate::csv_options::mark_of;
use crate::from_value::FromValueError;
use crate::pointing::fmt_pointed;

/// The result of a call.
pub type Result<T, E = Error> = std::result::Result<T, E>;

/// Why a call wasn't done. The tables are unchanged.
#[derive(Clone, Debug, PartialEq, Eq)]
#[non_exhaustive]
pub enum Error {
    /// The answer is `error NUMBER TEXT`. The number is also 90 if memory ran out for a call without
    /// a line, as where a database is opened.
    #[non_exhaustive]
    Refused {
        /// The number of the refusal.
        number: u32,
        /// The text after the number, with the number of a record if the refusal of a load has one.
        text: String,
        /// The line that was refused, with its parameters. It is empty if the call has no line.
        line: String,
        /// Why, in a line of words for people, which may change from version to version. There is none if
        /// memory ran out for them.
        reason: Option<String>,
        /// The line as it was written, with its places. The columns that the reason names are those of this line.
        written: String,
    },
    /// The limits of a database to open are out of range.
    OutOfRange,
    /// The line has another number of places than there are parameters.
    Places {
        /// How many places the line has.
        places: usize,
        /// How many parameters there are.
        parameters: usize,
    },
    /// No value is given for a place of the line.
    MissingParameter {
        /// The place as it is in the line, as `:id` or `?`.
        name: String,
    },
    /// A value is given for a name that is no place of the line.
    UnknownParameter {
        /// The name that was given.
        name: String,
    },
    /// A parameter is a text with a line feed, which can't be in a line. A statement takes it, and a load.
    LineFeed,
    /// A value is an integer that isn't one of `i64`.
    IntegerOutOfRange {
        /// The integer, in digits.
        integer: String,
    },
    /// The line has a line feed, or asks for a block of another length than the one given.
    NotOneRequest,
    /// The line is no insert, update, delete or select, and was to be prepared.
    NotAStatement,
    /// The line is no select, and was to be queried.
    NotASelect,
    /// The line is a `select`, a `dump` or `tables`, and was to be executed, which returns only a number.
    NotAChange,
    /// A row was to be read of a select without rows.
    NoRows,
    /// No column has this name.
    NoSuchColumn {
        /// The requested name.
        name: String,
    },
    /// Columns of several tables have this name: `table.column` says which is meant.
    AmbiguousColumn {
        /// The requested name.
        name: String,
    },
    /// There are not so many columns.
    NoSuchIndex {
        /// The requested index, from 0.
        index: usize,
        /// How many columns there are.
        columns: usize,
    },
    /// A value can't be read as the requested type.
    Unread {
        /// The name of the column.
        column: String,
        /// Why not.
        cause: FromValueError,
    },
    /// A row to load has another number of values than the table has columns.
    RowLength {
        /// The number of the row, counted from 1.
        row: usize,
        /// How many values it has.
        values: usize,
        /// How many columns the table has.
        columns: usize,
    },
    /// A value of a row to load is of another type than its column.
    WrongType {
        /// The number of the row, counted from 1.
        row: usize,
        /// The name of the column.
        column: String,
    },
    /// An empty text would be loaded into a reference that takes nulls, where a load would read null. An insert takes
    /// it.
    EmptyText {
        /// The number of the row, counted from 1.
        row: usize,
        /// The name of the column.
        column: String,
    },
    /// An empty field of an answer is null or the empty text, and nothing in the answer says which. No call returns this,
    /// since the rows of a select are cells, which say what they are.
    NullOrEmpty {
        /// The name of the column, with its table.
        column: String,
    },
    /// A field of a CSV that is loaded strictly has odd quote marks: it is read otherwise than it was meant.
    #[non_exhaustive]
    OddQuotes {
        /// The number of the record, counted from 1, or 0 for that of the names.
        record: usize,
        /// Whether no mark closes the field, so that it holds all that follows. Else text is behind the mark that does.
        is_open: bool,
    },
    /// The characters of [`CsvOptions`](crate::CsvOptions) can't be those of a CSV: one isn't of ASCII or is a line end or NUL, or
    /// they are the same.
    #[non_exhaustive]
    CsvMarks {
        /// What was to separate fields.
        separator: char,
        /// What was to enclose them.
        quote: Option<char>,
    },
    /// The CSV to load couldn't be read to its end.
    #[non_exhaustive]
    Io {
        /// Of which kind the error was.
        kind: std::io::ErrorKind,
        /// What it said.
        message: String,
    },
    /// What the program's own type says, in its [`ToValue`](crate::ToValue), or a closure of it.
    Other(String),
    /// The texts of the rows that a select gives are more than 4 GiB together, the database has 4294967296 statements, or there are
    /// 2^64 rows or more to count.
    TooLarge,
    /// Readers share the tables, so that nobody may change them: a reader was asked to, or one was forgotten and never dropped
    /// ([`std::mem::forget`]). Or [`Database::query_pages`](crate::Database::query_pages) is to read further rows of a join.
    Shared,
    /// A select was asked to end by an [`Interrupter`](crate::Interrupter). Nothing has changed.
    Interrupted,
    /// A table was changed between two pages of its rows, which [`Database::query_pages`](crate::Database::query_pages) read. It gives
    /// no row of the second.
    #[non_exhaustive]
    Changed {
        /// The name of the table.
        table: String,
    },
    /// A transaction was to be ended, and none is open.
    NoTransaction,
    /// A transaction is open, and no reader is made in one.
    InTransaction,
    /// A database couldn't be saved, since what it was written to failed.
    #[non_exhaustive]
    Unwritten {
        /// Of which kind the error was.
        kind: std::io::ErrorKind,
        /// What it said.
        message: String,
    },
    /// A database couldn't be saved, since no dump can hold one of its rows.
    #[non_exhaustive]
    Unsaved {
        /// The table of the row.
        table: String,
        /// Why not.
        message: String,
    },
    /// A dump couldn't be read to its end.
    #[non_exhaustive]
    UnreadDump {
        /// Of which kind the error was.
        kind: std::io::ErrorKind,
        /// What it said.
        message: String,
    },
    /// What was to be restored is no whole dump, is of a version that isn't known, or has a line that is refused.
    #[non_exhaustive]
    BadDump {
        /// The number of the line, counted from 1.
        line: usize,
        /// What is wrong with it.
        message: String,
    },
    /// The library answered with a status that has no place there.
    Status(u32),
}

impl Error {
    /// The number of the refusal, if it is one, as 41 of `error 41 key exists`.
    pub fn number(&self) -> Option<u32> {
        match self {
            Error::Refused { number, .. } => Some(*number),
            _ => None,
        }
    }

    /// The text of the refusal, if it is one, as `key exists`.
    pub fn text(&self) -> Option<&str> {
        match self {
            Error::Refused { text, .. } => Some(text),
            _ => None,
        }
    }

    /// The line that was refused, as it was sent: with its parameters. There is none if the call has no line.
    pub fn line(&self) -> Option<&str> {
        match self {
            Error::Refused { line, .. } if !line.is_empty() => Some(line),
            _ => None,
        }
    }

    /// The line that was refused, as it was written: with its places. The columns that [`reason`](Error::reason) names are
    /// those of this line. There is none if the call has no line.
    pub fn written(&self) -> Option<&str> {
        match self {
            Error::Refused { written, .. } if !written.is_empty() => Some(written),
            _ => None,
        }
    }

    /// Why it was refused, if it was, in a line of words for people, as `t has a row with the key 1`. If the value of a place
    /// is to blame, they begin with the column of that place, as `column 11: t has a row with the key 1`.
    pub fn reason(&self) -> Option<&str> {
        match self {
            Error::Refused { reason, .. } => reason.as_deref(),
            _ => None,
        }
    }
}

impl fmt::Display for Error {
    fn fmt(&self, to: &mut fmt::Formatter<'_>) -> fmt::Result {
        match self {
            Error::Refused {
                number,
                text,
                reason,
                written,
                ..
            } => match reason {
                Some(reason) => {
                    write!(to, "error {number} {text}: {reason}")?;
                    fmt_pointed(to, written, reason)
                }
                None => write!(to, "error {number} {text}"),
            },
            Error::OutOfRange => write!(
                to,
                "the limits of a database lie from 1 row to 16777216, and as many bytes"
            ),
            Error::Places { places, parameters } => {
                write!(to, "the line has {places} places for {parameters} parameters")
            }
            Error::MissingParameter { name } => write!(to, "the place {name} has no parameter"),
            Error::UnknownParameter { name } => write!(to, "the line has no place {name}"),
            Error::LineFeed => write!(
                to,
                "a text with a line feed cannot stand in a line; a statement takes it, and a load"
            ),
            Error::IntegerOutOfRange { integer } => write!(to, "the integer {integer} is no i64"),
            Error::NotOneRequest => {
                write!(to, "a line has no line feed, and a load has a block as long as it says")
            }
            Error::NotAStatement => write!(to, "the line to prepare is no insert, update, delete or select"),
            Error::NotASelect => write!(to, "the line to query is no select"),
            Error::NotAChange => write!(to, "the line to execute is a select, a dump or tables"),
            Error::CsvMarks { separator, quote } => fmt_of_marks(to, *separator, *quote),
            Error::Io { message, .. } => write!(to, "the CSV can't be read: {message}"),
            Error::Other(text) => to.write_str(text),
            Error::TooLarge => write!(
                to,
                "the texts of the rows are more than 4 GiB, or there are 4294967296 statements, or 2^64 rows to count"
            ),
            Error::Shared => write!(to, "readers share the tables, or a select of them is read page by page"),
            Error::Interrupted => write!(to, "the select was interrupted"),
            Error::Changed { table } => write!(to, "the table {table} was changed between two pages of its rows"),
            Error::NoTransaction => write!(to, "no transaction is open"),
            Error::InTransaction => write!(to, "this is not done in a transaction, and one is open"),
            Error::Status(status) => write!(to, "the library answers {status}"),
            other => other.fmt_of_values(to),
        }
    }
}

impl Error {
    /// A CSV that can't be read.
    pub(crate) fn unread(error: &std::io::Error) -> Error {
        Error::Io {
            kind: error.kind(),
            message: error.to_string(),
        }
    }

    /// A line for which memory was wanted and refused, which was written so.
    pub(crate) fn no_memory(line: String, written: String) -> Error {
        Error::Refused {
            number: 90,
            text: "no memory".to_string(),
            line,
            reason: None,
            written,
        }
    }

    /// Writes an error about values: of rows that are read, or are to be loaded.
    fn fmt_of_values(&self, to: &mut fmt::Formatter<'_>) -> fmt::Result {
        match self {
            Error::NoRows => write!(to, "the select gives no rows"),
            Error::NoSuchColumn { name } => write!(to, "there is no column {name}"),
            Error::AmbiguousColumn { name } => write!(to, "several tables have a column {name}"),
            Error::NoSuchIndex { index, columns } => write!(to, "there is no column {index} of {columns}"),
            Error::Unread { column, cause } => write!(to, "the column {column}: {cause}"),
            Error::RowLength { row, values, columns } => {
                write!(to, "row {row} has {values} values for {columns} columns")
            }
            Error::WrongType { row, column } => write!(to, "row {row} has a value of no type of the column {column}"),
            Error::EmptyText { row, column } => write!(
                to,
                "row {row} has an empty text in the column {column}, where a load would read null"
            ),
            Error::OddQuotes { record, is_open } => {
                match record {
                    0 => write!(to, "the record of names of the CSV has ")?,
                    _ => write!(to, "record {record} of the CSV has ")?,
                }
                to.write_str(match is_open {
                    true => "a field whose quote mark is never closed, and which holds all that follows",
                    false => "a field with text behind its closing quote mark, which is read as a part of it",
                })
            }
            Error::NullOrEmpty { column } => write!(
                to,
                "an empty field of {column} is null or the empty text: select where it is either, without it"
            ),
            other => other.fmt_of_dumps(to),
        }
    }

    /// Writes an error about a dump: one that is saved, or restored.
    fn fmt_of_dumps(&self, to: &mut fmt::Formatter<'_>) -> fmt::Result {
        match self {
            Error::Unwritten { message, .. } => write!(to, "the dump can't be written: {message}"),
            Error::Unsaved { table, message } => write!(to, "no dump can hold the rows of {table}: {message}"),
            Error::UnreadDump { message, .. } => write!(to, "the dump can't be read: {message}"),
            Error::BadDump { line, message } => write!(to, "line {line} of the dump: {message}"),
            _ => Ok(()),
        }
    }
}

/// Writes why these can't separate and enclose the fields of a CSV.
fn fmt_of_marks(to: &mut fmt::Formatter<'_>, separator: char, quote: Option<char>) -> fmt::Result {
    let marks = [("separator", Some(separator)), ("quote", quote)];
    for (what, mark) in marks.iter().filter_map(|(what, mark)| Some((what, (*mark)?))) {
        if mark_of(mark).is_none() {
            return write!(
                to,
                "the {what} of a CSV is a character of ASCII and no line end, not {mark:?}"
            );
        }
    }
    write!(
        to,
        "a CSV has different characters as its separator and its quote, not both {separator:?}"
    )
}

impl std::error::Error for Error {
    fn source(&self) -> Option<&(dyn std::error::Error + 'static)> {
        match self {
            Error::Unread { cause, .. } => Some(cause),
            _ => None,
        }
    }
}
