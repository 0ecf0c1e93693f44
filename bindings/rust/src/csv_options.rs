//! How a CSV is written, and what of it is loaded.

use crate::error::{Error, Result};

/// How a CSV is written and which of its columns are loaded, for [`Database::load_csv_with`](crate::Database::load_csv_with).
///
/// ```
/// use mmdb::{CsvOptions, Database};
///
/// let db = Database::open_in_memory()?;
/// db.execute("table city (id int, name text)", [])?;
/// let csv = "name;people;id\n'St. John''s';110525;1\nMadison;269840;2\n";
/// let options = CsvOptions::new().separator(';').quote('\'').columns(["id", "name"]);
/// assert_eq!(db.load_csv_with("city", csv.as_bytes(), &options)?, 2);
/// let name: String = db.query_row("select name from city where id = 1", [], |row| row.get(0))?;
/// assert_eq!(name, "St. John's");
/// # Ok::<(), mmdb::Error>(())
/// ```
#[derive(Clone, Debug, PartialEq, Eq)]
#[must_use = "options do nothing without a load"]
pub struct CsvOptions {
    columns: Option<Vec<String>>,
    separator: char,
    quote: Option<char>,
    is_strict: bool,
}

impl Default for CsvOptions {
    fn default() -> CsvOptions {
        CsvOptions {
            columns: None,
            separator: ',',
            quote: Some('"'),
            is_strict: false,
        }
    }
}

impl CsvOptions {
    /// Those of a CSV as the language has it: a comma separates fields, `"` encloses them, and the first record has the names of
    /// all columns, in their order.
    pub fn new() -> CsvOptions {
        CsvOptions::default()
    }

    /// Loads these columns of the table, by the first record, in which they may be in any order, and others beside them. The
    /// table's other columns get nulls.
    pub fn columns<N: Into<String>>(self, names: impl IntoIterator<Item = N>) -> CsvOptions {
        let columns = Some(names.into_iter().map(Into::into).collect());
        CsvOptions { columns, ..self }
    }

    /// The character between two fields, one of ASCII and no line end.
    pub fn separator(self, separator: char) -> CsvOptions {
        CsvOptions { separator, ..self }
    }

    /// The character that encloses fields, one of ASCII and no line end. With `None` no field is enclosed.
    pub fn quote(self, quote: impl Into<Option<char>>) -> CsvOptions {
        let quote = quote.into();
        CsvOptions { quote, ..self }
    }

    /// Whether odd quote marks are [`Error::OddQuotes`]. By default a field that none closes holds the rest of the CSV, and `"x"y`
    /// is read as `xy`.
    pub fn strict(self, is_strict: bool) -> CsvOptions {
        CsvOptions { is_strict, ..self }
    }

    /// The names of the columns to load, if not all are.
    pub(crate) fn named(&self) -> Option<&[String]> {
        self.columns.as_deref()
    }

    /// Whether odd quote marks are an error.
    pub(crate) fn is_strict(&self) -> bool {
        self.is_strict
    }

    /// The form of the CSV, if these characters can be that of one.
    pub(crate) fn form(&self) -> Result<Form> {
        let separator = mark_of(self.separator);
        let quote = self.quote.map(mark_of);
        match (separator, quote) {
            (Some(separator), Some(Some(quote))) if separator != quote => Ok(Form {
                separator,
                quote: Some(quote),
            }),
            (Some(separator), None) => Ok(Form { separator, quote: None }),
            _ => Err(Error::CsvMarks {
                separator: self.separator,
                quote: self.quote,
            }),
        }
    }
}

/// The byte of a character that separates fields or encloses one, if it can.
pub(crate) fn mark_of(mark: char) -> Option<u8> {
    let byte = u8::try_from(mark).ok().filter(u8::is_ascii)?;
    Some(byte).filter(|byte| !matches!(byte, b'\0' | b'\r' | b'\n'))
}

/// By which bytes a CSV is written.
#[derive(Clone, Copy, Debug, PartialEq, Eq)]
pub(crate) struct Form {
    pub(crate) separator: u8,
    pub(crate) quote: Option<u8>,
}

impl Form {
    /// That of a block.
    pub(crate) const BLOCK: Form = Form {
        separator: b',',
        quote: Some(b'"'),
    };

    /// Whether a byte encloses fields.
    pub(crate) fn is_quote(self, byte: u8) -> bool {
        self.quote == Some(byte)
    }
}
