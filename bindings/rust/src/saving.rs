//! A whole database as a dump: lines and blocks of the language that make one like it.

use std::io::{self, Write};
use std::path::Path;

use crate::columns::{record_of, tables_of, Column, Kind};
use crate::database::Database;
use crate::error::{Error, Result};
use crate::fields::wants_marks;
use crate::files::written;
use crate::readers::Reader;
use crate::row::Row;
use crate::spelling::{push_integer, push_marked, push_value};
use crate::value::{Value, ValueRef};

/// The first line of a dump, with the version of its form, and how the last begins: comments of the language.
pub(crate) const FIRST: &str = "# mmdb dump 1";
pub(crate) const LAST: &str = "# end of the dump";

/// The last line of a dump of so many tables and rows.
pub(crate) fn last_line(tables: usize, rows: usize) -> String {
    format!("{LAST}: {tables} tables, {rows} rows")
}

/// How many rows are read at once of a table that is longer than a block.
const RANGE: usize = 10_000;

const DUMP_TOO_LONG: u32 = 64;

/// Saving.
impl Database {
    /// Writes all tables, their rows and their indexes, so that [`restore`](Database::restore) makes a database like this one
    /// of them. In a transaction its changes are written too.
    ///
    /// A block is in memory at once, and of a table that is longer than one the keys. [`Error::Unwritten`] says that the writer
    /// failed, and [`Error::Unsaved`] that no dump can hold a row.
    ///
    /// ```
    /// let db = mmdb::Database::open_in_memory()?;
    /// db.execute("table t (id int, s text)", [])?;
    /// db.execute("insert t (1, ?)", ["two\nlines"])?;
    ///
    /// let mut saved = Vec::new();
    /// db.save(&mut saved)?;
    /// let restored = mmdb::Database::restore(&saved[..])?;
    /// assert_eq!(restored.dump("t")?, db.dump("t")?);
    /// # Ok::<(), mmdb::Error>(())
    /// ```
    pub fn save(&self, to: &mut impl Write) -> Result<()> {
        Dump { database: self, to }.write()
    }

    /// The same, to a file. It takes the place of another at that path once it is whole; if it fails, that one is as it was. If
    /// the process is killed meanwhile, a part of the new file stays beside it, under a name that begins with a dot.
    pub fn save_file(&self, path: impl AsRef<Path>) -> Result<()> {
        written(path.as_ref(), |file| self.save(file))
    }
}

/// Saving.
impl Reader<'_> {
    /// Writes all tables, as [`Database::save`].
    pub fn save(&self, to: &mut impl Write) -> Result<()> {
        self.database().save(to)
    }

    /// The same, to a file, as [`Database::save_file`].
    pub fn save_file(&self, path: impl AsRef<Path>) -> Result<()> {
        self.database().save_file(path)
    }
}

impl Error {
    pub(crate) fn unwritten(error: &io::Error) -> Error {
        Error::Unwritten {
            kind: error.kind(),
            message: error.to_string(),
        }
    }
}

/// A table as it is declared, with the lines of its indexes.
struct Table {
    name: String,
    columns: Vec<Column>,
    line: String,
    indexes: Vec<String>,
}

impl Table {
    fn key(&self) -> &str {
        &self.columns[0].name
    }

    /// Why a row of it can't be saved.
    fn unsaved(&self, message: String) -> Error {
        let table = self.name.clone();
        Error::Unsaved { table, message }
    }
}

/// The tables of a listing in their order, in which each comes after those that it refers to.
fn listed(listing: &str) -> Vec<Table> {
    let mut columns = tables_of(listing);
    let mut tables: Vec<Table> = Vec::new();
    for line in listing.lines() {
        let mut words = line.split(' ');
        match (words.next(), words.next(), tables.last_mut()) {
            (Some("table"), Some(name), _) => tables.push(Table {
                name: name.to_string(),
                columns: columns.remove(name).unwrap_or_default(),
                line: line.to_string(),
                indexes: Vec::new(),
            }),
            (Some("index"), _, Some(table)) => table.indexes.push(line.to_string()),
            _ => {}
        }
    }
    tables
}

/// A dump that is written.
struct Dump<'d, W> {
    database: &'d Database,
    to: &'d mut W,
}

impl<W: Write> Dump<'_, W> {
    fn write(mut self) -> Result<()> {
        let tables = self.database.session().ask("tables", (), listed)?;
        self.line(FIRST)?;
        for table in &tables {
            self.line(&table.line)?;
        }
        let mut rows = 0;
        for table in &tables {
            rows += self.rows(table)?;
            self.empty_references(table)?;
            for index in &table.indexes {
                self.line(index)?;
            }
        }
        self.line(&last_line(tables.len(), rows))?;
        self.to.flush().map_err(|error| Error::unwritten(&error))
    }

    fn line(&mut self, line: &str) -> Result<()> {
        self.bytes(line.as_bytes())?;
        self.bytes(b"\n")
    }

    fn bytes(&mut self, bytes: &[u8]) -> Result<()> {
        self.to.write_all(bytes).map_err(|error| Error::unwritten(&error))
    }

    /// Writes the loads of all rows of a table, and returns how many they are.
    fn rows(&mut self, table: &Table) -> Result<usize> {
        let all = format!("select {} from {}", table.key(), table.name);
        let count = self.database.prepare(&all)?.count([])?;
        if count == 0 {
            return Ok(0);
        }
        let dump = format!("dump {}", table.name);
        // (it is copied, since the writer may use the database)
        match self.database.session().ask(&dump, (), str::to_string) {
            Ok(load) => self.bytes(load.as_bytes())?,
            Err(error) if error.number() == Some(DUMP_TOO_LONG) => self.ranges(table, &all)?,
            Err(error) => return Err(error),
        }
        Ok(count)
    }

    /// Writes the loads of a table that is longer than a block, whose keys this line selects.
    fn ranges(&mut self, table: &Table, all: &str) -> Result<()> {
        let firsts: Vec<Value> = {
            let mut keys = self.database.prepare(all)?;
            let rows = keys.query([])?;
            rows.iter().step_by(RANGE).map(|row| row.value(0).into()).collect()
        };
        let (name, key) = (&table.name, table.key());
        let mut range = self
            .database
            .prepare(&format!("select * from {name} where {key} >= ? and {key} < ?"))?;
        let mut rest = self
            .database
            .prepare(&format!("select * from {name} where {key} >= ?"))?;
        let mut block = Block::of(table, self.database.limits().block as usize);
        for (at, first) in firsts.iter().enumerate() {
            let rows = match firsts.get(at + 1) {
                Some(next) => range.query([first, next])?,
                None => rest.query([first])?,
            };
            for row in &rows {
                self.record(&mut block, &row)?;
            }
        }
        self.block(&mut block)
    }

    /// Puts a row into a block, which is written first if it has no room.
    fn record(&mut self, block: &mut Block<'_>, row: &Row<'_>) -> Result<()> {
        if !block.push(row) {
            self.block(block)?;
            if !block.push(row) {
                let most = block.most;
                return Err(block
                    .table
                    .unsaved(format!("a row has no room in a block of {most} bytes")));
            }
        }
        Ok(())
    }

    /// Writes a block, which has no records afterwards.
    fn block(&mut self, block: &mut Block<'_>) -> Result<()> {
        if block.text.len() > block.names {
            self.line(&format!("load {} {}", block.table.name, block.text.len()))?;
            self.bytes(block.text.as_bytes())?;
            block.text.truncate(block.names);
        }
        Ok(())
    }

    /// A load makes null of the empty text in a reference that takes nulls, so it is set behind the loads.
    fn empty_references(&mut self, table: &Table) -> Result<()> {
        let (name, key) = (&table.name, table.key());
        for column in table
            .columns
            .iter()
            .filter(|column| column.takes_null && column.kind == Kind::Text)
        {
            let set = &column.name;
            let mut found = self
                .database
                .prepare(&format!("select {key} from {name} where {set} = ''"))?;
            for row in &found.query([])? {
                if matches!(row.value(0), ValueRef::Text(text) if text.contains('\n')) {
                    let message = format!("a row has a key with a line feed, and in {set} the empty text");
                    return Err(table.unsaved(message));
                }
                let mut line = format!("update {name} set {set} = '' where {key} = ");
                push_value(&mut line, row.value(0));
                self.line(&line)?;
            }
        }
        Ok(())
    }
}

/// The block of a load that is made.
struct Block<'t> {
    table: &'t Table,
    /// How many bytes it may have.
    most: usize,
    /// The names of the columns, and records behind them.
    text: String,
    /// How many bytes the names have.
    names: usize,
}

impl<'t> Block<'t> {
    fn of(table: &'t Table, most: usize) -> Block<'t> {
        let text = record_of(table.columns.iter().map(|column| column.name.as_str())) + "\n";
        Block {
            table,
            most,
            names: text.len(),
            text,
        }
    }

    /// Adds the record of a row, if there is room for it.
    fn push(&mut self, row: &Row<'_>) -> bool {
        let before = self.text.len();
        for (at, value) in row.values().enumerate() {
            if at > 0 {
                self.text.push(',');
            }
            push_field(&mut self.text, value);
        }
        if self.text.len() == before {
            // (a line without a byte would be no record)
            self.text.push_str("\"\"");
        }
        self.text.push('\n');
        let fits = self.text.len() <= self.most;
        if !fits {
            self.text.truncate(before);
        }
        fits
    }
}

/// Writes a value as the library does.
fn push_field(to: &mut String, value: ValueRef<'_>) {
    match value {
        ValueRef::Null => {}
        ValueRef::Integer(integer) => push_integer(to, integer),
        ValueRef::Text(text) if wants_marks(text.as_bytes()) => push_marked(to, text, '"'),
        ValueRef::Text(text) => to.push_str(text),
    }
}
