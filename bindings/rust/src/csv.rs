//! Loads of a CSV that is read piece by piece.

use std::io::Read;

use crate::columns::{record_of, Column, Given};
use crate::csv_options::{CsvOptions, Form};
use crate::database::Database;
use crate::error::{Error, Result};
use crate::fields::Fields;
use crate::limits::MOST;
use crate::loading::{refused, too_long, Load};
use crate::records::{End, Odd, Records};

const BAD_HEADER: u32 = 61;
const BAD_RECORD: u32 = 62;

/// Loads of a CSV that is read piece by piece, as a file. It is never in memory as a whole, but a block at a time. [`Error::Io`] says
/// that it couldn't be read.
impl Database {
    /// Inserts the rows of a CSV that is read piece by piece, all of them or none, and returns their number.
    ///
    /// The first record has the names of all columns, in their order.
    ///
    /// ```no_run
    /// let db = mmdb::Database::open_in_memory()?;
    /// db.execute("table t (id int, s text)", [])?;
    /// db.load_csv_from("t", std::fs::File::open("t.csv")?)?;
    /// # Ok::<(), Box<dyn std::error::Error>>(())
    /// ```
    pub fn load_csv_from(&self, table: &str, from: impl Read) -> Result<usize> {
        self.load_csv_with(table, from, &CsvOptions::new())
    }

    /// The same, of a CSV whose quote marks are all read as they were meant. A field that none closes holds the rest of the
    /// CSV, and `"x"y` is read as `xy`; here each is [`Error::OddQuotes`], and no row is inserted.
    ///
    /// ```
    /// let db = mmdb::Database::open_in_memory()?;
    /// db.execute("table t (id int, s text)", [])?;
    /// let csv = "id,s\n1,a\n2,\"b\n3,c\n";
    /// let odd = db.load_csv_strict("t", csv.as_bytes()).unwrap_err();
    /// assert!(odd.to_string().starts_with("record 2 of the CSV has a field whose quote mark is never closed"));
    /// assert_eq!(db.load_csv_from("t", csv.as_bytes())?, 2);
    /// # Ok::<(), mmdb::Error>(())
    /// ```
    pub fn load_csv_strict(&self, table: &str, from: impl Read) -> Result<usize> {
        self.load_csv_with(table, from, &CsvOptions::new().strict(true))
    }

    /// The same, of a CSV whose columns are in another order. Its first record has these names, and they are those of all
    /// columns.
    ///
    /// ```
    /// let db = mmdb::Database::open_in_memory()?;
    /// db.execute("table t (id int, s text)", [])?;
    /// let csv = "s,id\na,1\n\"b,c\",2\n";
    /// assert_eq!(db.load_csv_columns("t", &["s", "id"], csv.as_bytes())?, 2);
    /// assert_eq!(db.load_csv_columns("t", &["id", "s"], csv.as_bytes()).unwrap_err().number(), Some(61));
    /// # Ok::<(), mmdb::Error>(())
    /// ```
    pub fn load_csv_columns(&self, table: &str, columns: &[&str], from: impl Read) -> Result<usize> {
        let tables = self.tables()?;
        let given = tables.get(table).and_then(|known| Given::named(known, columns));
        match given {
            Some(given) => Csv::of(self, table, from, Form::BLOCK).load(&Names::Just(&given)),
            None => self.load_block(table, record_of(columns.iter().copied()).as_bytes()),
        }
    }

    /// The same, of a CSV that is written as the options say, and of those of its columns that they name.
    ///
    /// Names that the table or the first record doesn't have, or has twice, are refused by 61. A record that hasn't a field for
    /// each name of the first is refused by 62. [`Error::CsvMarks`] says that no CSV is written so.
    ///
    /// ```
    /// use mmdb::{CsvOptions, Database};
    ///
    /// let db = Database::open_in_memory()?;
    /// db.execute("table t (id int, s text)", [])?;
    /// let (csv, named) = ("more,s,id\n0.5,a,1\n,\"b,c\",2\n", CsvOptions::new().columns(["id", "s"]));
    /// assert_eq!(db.load_csv_with("t", csv.as_bytes(), &named)?, 2);
    /// let refused = db.load_csv_with("t", "id,more\n3,x\n".as_bytes(), &named).unwrap_err();
    /// assert_eq!(refused.reason(), Some("the CSV has no column s: its first record is the names of its columns"));
    /// assert_eq!(db.load_csv_with("t", "id\ts\n3\t\"\n".as_bytes(), &CsvOptions::new().separator('\t').quote(None))?, 1);
    /// # Ok::<(), mmdb::Error>(())
    /// ```
    pub fn load_csv_with(&self, table: &str, from: impl Read, options: &CsvOptions) -> Result<usize> {
        self.load_csv_warned(table, from, options, |_| {})
    }

    /// The same, and a function is told of the first field with odd quote marks, which is loaded unless the options are strict. It is
    /// called with [`Error::OddQuotes`], at most once.
    ///
    /// ```
    /// use mmdb::{CsvOptions, Database};
    ///
    /// let db = Database::open_in_memory()?;
    /// db.execute("table t (id int, s text)", [])?;
    /// let (csv, mut told) = ("id,s\n1,a\n2,\"b\"c\n", String::new());
    /// assert_eq!(db.load_csv_warned("t", csv.as_bytes(), &CsvOptions::new(), |odd| told = odd.to_string())?, 2);
    /// assert!(told.starts_with("record 2 of the CSV has a field with text behind its closing quote mark"));
    /// # Ok::<(), mmdb::Error>(())
    /// ```
    pub fn load_csv_warned(
        &self,
        table: &str,
        from: impl Read,
        options: &CsvOptions,
        mut warn: impl FnMut(Error),
    ) -> Result<usize> {
        let mut csv = Csv::of(self, table, from, options.form()?);
        csv.is_strict = options.is_strict();
        csv.warn = Some(&mut warn);
        let names = match options.named() {
            Some(names) => names,
            None => return csv.load(&Names::OfTable),
        };
        match self.tables()?.get(table) {
            Some(columns) => {
                check_names(table, columns, names).map_err(|why| bad_header(table, why))?;
                csv.load(&Names::Among { columns, names })
            }
            // The library tells what is wrong.
            None => self.load_block(table, b""),
        }
    }
}

/// Which names the first record of a CSV has.
enum Names<'n> {
    /// Those of all columns of the table in their order, as the library says.
    OfTable,
    /// Those of all columns of the table, in the order in which they are given.
    Just(&'n Given<'n>),
    /// These names of columns of the table, and others, in any order.
    Among { columns: &'n [Column], names: &'n [String] },
}

/// Where the values of the columns of a table are in a record of so many fields. A column without a place gets null.
struct Picks {
    places: Vec<Option<usize>>,
    width: usize,
}

/// A CSV that is loaded.
struct Csv<'d, R> {
    database: &'d Database,
    table: &'d str,
    records: Records<R>,
    form: Form,
    /// Whether odd quote marks are an error, or else who is told of the first.
    is_strict: bool,
    warn: Option<&'d mut dyn FnMut(Error)>,
    /// Where the values of the columns are, if they aren't all fields in their order.
    picks: Option<Picks>,
    fields: Fields,
    /// The record that was read last, as a block has it, with the end of its line.
    record: Vec<u8>,
    /// What ended it.
    end: End,
}

impl<'d, R: Read> Csv<'d, R> {
    fn of(database: &'d Database, table: &'d str, from: R, form: Form) -> Csv<'d, R> {
        Csv {
            database,
            table,
            records: Records::of(from, form),
            form,
            is_strict: false,
            warn: None,
            picks: None,
            fields: Fields::default(),
            record: Vec::new(),
            end: End::File,
        }
    }

    /// Loads it, where its first record has such names.
    fn load(mut self, names: &Names<'_>) -> Result<usize> {
        // (a record as it is has no more bytes than a block, and one of which fields are taken may have more)
        let most = match (names, self.form) {
            (Names::OfTable | Names::Just(_), Form::BLOCK) => self.database.limits().block,
            _ => MOST,
        };
        let names = self.take_names(names, most)?;
        let mut load = Load::of(self.database, self.table, names);
        while self.end != End::File {
            self.next(most)?;
            let number = load.records() + 1;
            self.check_quotes(number)?;
            if self.end == End::TooLong {
                return Err(load.too_long(most));
            }
            if self.record.is_empty() {
                continue;
            }
            if let Some(why) = self.misfit() {
                load.send_before_more()?;
                return Err(refused(BAD_RECORD, &format!("bad record {number}"), self.table, why));
            }
            load.push(&self.record)?;
        }
        load.end()
    }

    /// Reads the record of names, finds the places of the columns in it, and returns that of a block.
    fn take_names(&mut self, names: &Names<'_>, most: u32) -> Result<Vec<u8>> {
        let mark = self.records.mark()?;
        self.next(most)?;
        if self.end == End::TooLong {
            return Err(too_long(self.table, "the record of names", most));
        }
        self.check_quotes(0)?;
        let found: Vec<Vec<u8>> = self.fields.said(self.form).collect();
        let (places, record) = match names {
            // (the library reads no second mark)
            Names::OfTable => return Ok([mark, &self.record].concat()),
            Names::Just(given) => (self.places_of(given, &found), given.names_of_table()),
            Names::Among { columns, names } => (
                places_among(columns, names, &found),
                record_of(columns.iter().map(|column| column.name.as_str())),
            ),
        };
        let (places, width) = (places.map_err(|why| bad_header(self.table, why))?, found.len());
        self.picks = Some(Picks { places, width });
        Ok((record + "\n").into_bytes())
    }

    /// The places of all columns, where the names that are found are as they are given.
    fn places_of(&self, given: &Given<'_>, found: &[Vec<u8>]) -> Result<Vec<Option<usize>>, String> {
        if found.iter().map(Vec::as_slice).eq(given.names().map(str::as_bytes)) {
            return Ok(given.places().collect());
        }
        let (names, record) = (record_of(given.names()), String::from_utf8_lossy(&self.record));
        let record = record.trim_end_matches(&['\r', '\n'][..]);
        Err(format!("the names are {names}, and the first record is {record}"))
    }

    /// Why the record that was read last can't be taken apart, if it can't.
    fn misfit(&self) -> Option<String> {
        let width = self.picks.as_ref()?.width;
        let count = self.fields.len();
        (count != width).then(|| format!("a record has a field for each name of the first one: {width}, not {count}"))
    }

    /// Fails where odd quote marks are an error, and the record of this number has some. Else it warns, if they are the first.
    fn check_quotes(&mut self, record: usize) -> Result<()> {
        let is_open = match self.records.odd() {
            Some(odd) => odd == Odd::Open,
            None => return Ok(()),
        };
        let odd = Error::OddQuotes { record, is_open };
        if self.is_strict {
            return Err(odd);
        }
        if let Some(warn) = self.warn.take() {
            warn(odd);
        }
        Ok(())
    }

    /// Reads the next record that isn't an empty line, of so many bytes at most. There are no bytes if there is none.
    fn next(&mut self, most: u32) -> Result<()> {
        self.end = self.records.next(most as usize, &mut self.fields)?;
        while self.fields.is_empty() && self.end != End::File {
            self.end = self.records.next(most as usize, &mut self.fields)?;
        }
        self.record.clear();
        if self.fields.is_empty() || self.end == End::TooLong {
            return Ok(());
        }
        let (fields, record, form) = (&self.fields, &mut self.record, self.form);
        match self.picks.as_ref().filter(|picks| picks.width == fields.len()) {
            Some(picks) => fields.write(picks.places.iter().copied(), form, record),
            None => fields.write((0..fields.len()).map(Some), form, record),
        }
        if let End::Line(byte) = self.end {
            self.record.push(byte);
        }
        Ok(())
    }
}

/// Fails where these names can't be those of the columns to load, and says why.
fn check_names(table: &str, columns: &[Column], names: &[String]) -> Result<(), String> {
    for (at, name) in names.iter().enumerate() {
        if columns.iter().all(|column| column.name != *name) {
            return Err(format!("{name} is no column of {table}"));
        }
        if names[..at].contains(name) {
            return Err(format!("the column {name} is named twice"));
        }
    }
    let is_missing = |column: &&Column| !column.takes_null && !names.contains(&column.name);
    match columns.iter().find(is_missing).map(|column| &column.name) {
        Some(name) => Err(format!(
            "{table} has no row without a value for {name}, which isn't named"
        )),
        None => Ok(()),
    }
}

/// The places of columns of which these are named, among the names that are found.
fn places_among(columns: &[Column], names: &[String], found: &[Vec<u8>]) -> Result<Vec<Option<usize>>, String> {
    if found.is_empty() {
        return Err("the CSV has no record of names".to_string());
    }
    let is = |name: &str, other: &[u8]| other == name.as_bytes();
    for name in names {
        let many = match found.iter().filter(|other| is(name, other)).count() {
            0 => "no column",
            1 => continue,
            _ => "several columns",
        };
        return Err(format!(
            "the CSV has {many} {name}: its first record is the names of its columns"
        ));
    }
    let place_of = |name: &String| found.iter().position(|other| is(name, other));
    let place_of = |name: &String| place_of(name).filter(|_| names.contains(name));
    Ok(columns.iter().map(|column| place_of(&column.name)).collect())
}

/// The refusal of names.
fn bad_header(table: &str, why: String) -> Error {
    refused(BAD_HEADER, "bad header", table, why)
}
