//! Loads of any size: their records are sent in blocks, with a transaction around these.

use crate::columns::{record_of, Given};
use crate::csv_options::Form;
use crate::database::Database;
use crate::error::{Error, Result};
use crate::fields::Fields;
use crate::outcome::count_of;
use crate::params::Values;

const BLOCK_TOO_LONG: u32 = 12;
const KEY_EXISTS: u32 = 41;
const TABLE_FULL: u32 = 43;

/// Loads. Each inserts all of its rows or none, however many they are. What takes more than one block goes by several, in a
/// transaction of its own, which what makes the rows must not end. A refusal names the number of the record in the whole.
impl Database {
    /// Inserts rows into a table, all of them or none, and returns their number.
    ///
    /// Each row has a value for each column, in their order. A text may have line feeds here.
    pub fn load<V: Values>(&self, table: &str, rows: impl IntoIterator<Item = V>) -> Result<usize> {
        match self.tables()?.get(table) {
            Some(columns) => load_rows(self, table, &Given::in_order(columns), rows),
            // The library tells what is wrong.
            None => self.load_block(table, b""),
        }
    }

    /// The same, of rows whose values are in the order of these columns. All columns of the table are named.
    ///
    /// ```
    /// let db = mmdb::Database::open_in_memory()?;
    /// db.execute("table t (id int, s text)", [])?;
    /// assert_eq!(db.load_columns("t", &["s", "id"], [("a", 1), ("b", 2)])?, 2);
    /// assert_eq!(db.load_columns("t", &["s"], ["c"].map(|s| [s])).unwrap_err().number(), Some(61));
    /// # Ok::<(), mmdb::Error>(())
    /// ```
    pub fn load_columns<V>(&self, table: &str, columns: &[&str], rows: impl IntoIterator<Item = V>) -> Result<usize>
    where
        V: Values,
    {
        let tables = self.tables()?;
        let given = tables.get(table).and_then(|known| Given::named(known, columns));
        match given {
            Some(given) => load_rows(self, table, &given, rows),
            None => self.load_block(table, record_of(columns.iter().copied()).as_bytes()),
        }
    }

    /// Inserts the rows of a CSV into a table, all of them or none, and returns their number.
    ///
    /// The first record has the names of all columns, in their order.
    pub fn load_csv(&self, table: &str, block: impl AsRef<[u8]>) -> Result<usize> {
        let block = block.as_ref();
        match block.len() <= self.limits().block as usize {
            true => self.told(self.load_block(table, block)),
            false => self.load_csv_from(table, block),
        }
    }

    /// Loads one block.
    pub(crate) fn load_block(&self, table: &str, block: &[u8]) -> Result<usize> {
        let line = format!("load {table} {}", block.len());
        self.session()
            .send(&line, block, |answer| count_of(answer).unwrap_or(0))
    }
}

/// Loads rows whose values are given so.
fn load_rows<V: Values>(
    database: &Database,
    table: &str,
    given: &Given<'_>,
    rows: impl IntoIterator<Item = V>,
) -> Result<usize> {
    let mut load = Load::of(database, table, given.names_of_table().into_bytes());
    let (mut fields, mut record) = (Fields::default(), Vec::new());
    for (before, row) in rows.into_iter().enumerate() {
        given.read(&row, before + 1, &mut fields)?;
        record.clear();
        record.push(b'\n');
        fields.write(given.places(), Form::BLOCK, &mut record);
        load.push(&record)?;
    }
    load.end()
}

/// A load that isn't done yet. Where it ends before its end, none of its records is loaded.
pub(crate) struct Load<'d> {
    database: &'d Database,
    table: &'d str,
    /// The block that is made: the names, and records behind them.
    block: Vec<u8>,
    /// How many bytes the names have.
    names: usize,
    /// If there is a transaction around the blocks, how many were open before it.
    before: Option<usize>,
    /// How many records there were.
    records: usize,
    /// How many rows were loaded of blocks that were sent.
    sent: usize,
}

impl<'d> Load<'d> {
    pub(crate) fn of(database: &'d Database, table: &'d str, names: Vec<u8>) -> Load<'d> {
        Load {
            database,
            table,
            names: names.len(),
            block: names,
            before: None,
            records: 0,
            sent: 0,
        }
    }

    /// How many records there were.
    pub(crate) fn records(&self) -> usize {
        self.records
    }

    /// Adds a record, which has the end of a line before it or behind it.
    pub(crate) fn push(&mut self, record: &[u8]) -> Result<()> {
        let most = self.database.limits().block;
        if self.names + record.len() > most as usize {
            return Err(self.too_long(most));
        }
        if self.block.len() + record.len() > most as usize {
            self.send_before_more()?;
        }
        self.block.extend_from_slice(record);
        self.records += 1;
        Ok(())
    }

    /// Sends what is left, and keeps all. Returns the number of rows.
    pub(crate) fn end(mut self) -> Result<usize> {
        self.send()?;
        if let Some(before) = self.before {
            self.database.commit_to(before)?;
            self.before = None;
        }
        self.database.tell();
        Ok(self.sent)
    }

    /// Sends what there is, in a transaction, since what follows may be refused.
    pub(crate) fn send_before_more(&mut self) -> Result<()> {
        if self.before.is_none() {
            let before = self.database.transactions();
            self.database.begin()?;
            self.before = Some(before);
        }
        self.send()
    }

    fn send(&mut self) -> Result<()> {
        let sent = self.database.load_block(self.table, &self.block);
        self.sent += sent.map_err(|why| self.in_the_whole(why))?;
        self.block.truncate(self.names);
        Ok(())
    }

    /// Why the next record isn't loaded, which doesn't end in a block of so many bytes.
    pub(crate) fn too_long(&self, most: u32) -> Error {
        too_long(self.table, &format!("record {}", self.records + 1), most)
    }

    /// A refusal of a block, told of the whole.
    fn in_the_whole(&self, why: Error) -> Error {
        match why {
            Error::Refused {
                number,
                text,
                line,
                reason,
                written,
            } if self.sent > 0 => {
                let text = with_number(&text, self.sent).unwrap_or(text);
                Error::Refused {
                    number,
                    reason: reason.map(|reason| self.reason_in_the_whole(number, &text, reason)),
                    text,
                    line,
                    written,
                }
            }
            other => other,
        }
    }

    /// The reason of a refusal of a block, told of the whole.
    fn reason_in_the_whole(&self, number: u32, text: &str, reason: String) -> String {
        match number {
            KEY_EXISTS => self.other_record(&reason).unwrap_or(reason),
            TABLE_FULL => self.rows_before(text).unwrap_or(reason),
            _ => reason,
        }
    }

    /// Which record, or which row, has the key too.
    fn other_record(&self, reason: &str) -> Option<String> {
        let table = self.table;
        if let Some(key) = reason.strip_prefix(&format!("{table} has a row with the key ")) {
            return Some(format!("{table} or an earlier record has the key {key}"));
        }
        let (record, key) = reason.split_once(" has the key ")?;
        Some(format!("{} has the key {key}", with_number(record, self.sent)?))
    }

    /// How many rows there were before the load, and how many records of it came before the one of a refusal.
    fn rows_before(&self, text: &str) -> Option<String> {
        let (table, most) = (self.table, self.database.limits().rows as usize);
        let before = record_in(text)?.checked_sub(1)?;
        let held = most.checked_sub(before)?;
        Some(format!(
            "{table} has {held} rows, {before} records come before this one, and a table has at most {most} rows"
        ))
    }
}

impl Drop for Load<'_> {
    fn drop(&mut self) {
        if let Some(before) = self.before {
            // (where it was ended by what makes the rows there is nothing to undo)
            let _ = self.database.roll_back_to(before);
        }
    }
}

/// Why a record isn't loaded that doesn't end in a block of so many bytes.
pub(crate) fn too_long(table: &str, record: &str, most: u32) -> Error {
    let reason = format!("{record} doesn't end in a block of {most} bytes; is a quote mark left open?");
    refused(BLOCK_TOO_LONG, "block too long", table, reason)
}

/// The number of the record at the end of words: `record 3`, perhaps in brackets.
fn record_in(words: &str) -> Option<usize> {
    let (_, number) = words.rsplit_once("record ")?;
    number.trim_end_matches(')').parse().ok()
}

/// Such words, where so many records come before.
pub(crate) fn with_number(words: &str, before: usize) -> Option<String> {
    let number = record_in(words)?;
    let front = words
        .trim_end_matches(')')
        .trim_end_matches(|digit: char| digit.is_ascii_digit());
    let behind = if words.ends_with(')') { ")" } else { "" };
    Some(format!("{front}{}{behind}", before + number))
}

/// A refusal by this crate of a load into a table, as the library would say it of a block.
pub(crate) fn refused(number: u32, text: &str, table: &str, reason: String) -> Error {
    let line = format!("load {table}");
    Error::Refused {
        number,
        text: text.to_string(),
        written: line.clone(),
        line,
        reason: Some(reason),
    }
}
