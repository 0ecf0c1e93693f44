//! A database that is made of a dump.

use std::fs::File;
use std::io::{self, BufRead, BufReader, Read};
use std::path::Path;

use crate::database::Database;
use crate::error::{Error, Result};
use crate::limits::{Limits, Policy};
use crate::outcome::count_of;
use crate::saving::{last_line, FIRST, LAST};

/// How long a line may be, with its line feed.
const LONGEST: u64 = 8_192 + 1;

const NO_MEMORY: u32 = 90;

/// Restoring.
impl Database {
    /// Opens a database as [`open_in_memory`](Database::open_in_memory), with all that was [saved](Database::save), here, by the
    /// package for Python or by the shell.
    ///
    /// It is read in pieces, of which a block is the longest. [`Error::BadDump`] says that what is read is no dump, a part of
    /// one, of a version that isn't known, or has a line that is refused; [`Error::UnreadDump`] that it can't be read.
    pub fn restore(from: impl Read) -> Result<Database> {
        Database::restore_as(Policy::default(), Limits::default(), from)
    }

    /// The same, opened as [`open`](Database::open).
    pub fn restore_as(policy: Policy, limits: Limits, from: impl Read) -> Result<Database> {
        let mut dump = Dump {
            database: Database::open(policy, limits)?,
            from: BufReader::new(from),
            number: 0,
            tables: 0,
            rows: 0,
        };
        dump.read()?;
        dump.database.forget_columns();
        Ok(dump.database)
    }

    /// The same of a file.
    ///
    /// ```no_run
    /// let db = mmdb::Database::restore_file("all.mmdb")?;
    /// db.save_file("all.mmdb")?;
    /// # Ok::<(), mmdb::Error>(())
    /// ```
    pub fn restore_file(path: impl AsRef<Path>) -> Result<Database> {
        Database::restore(File::open(path).map_err(|error| Error::unread_dump(&error))?)
    }
}

impl Error {
    fn unread_dump(error: &io::Error) -> Error {
        Error::UnreadDump {
            kind: error.kind(),
            message: error.to_string(),
        }
    }
}

/// A dump that is read.
struct Dump<R> {
    database: Database,
    from: BufReader<R>,
    /// The number of the last line, and how many tables and rows there are.
    number: usize,
    tables: usize,
    rows: usize,
}

impl<R: Read> Dump<R> {
    fn read(&mut self) -> Result<()> {
        let first = self.line()?;
        if first != FIRST {
            return Err(self.bad(why_not_first(&first)));
        }
        let mut line = self.line()?;
        while !line.starts_with(LAST) {
            self.send(&line)?;
            line = self.line()?;
        }
        let last = last_line(self.tables, self.rows);
        if line != last {
            return Err(self.bad(format!("the last line is not {last}")));
        }
        let more = self.from.by_ref().take(1).read_to_end(&mut Vec::new());
        match more.map_err(|error| Error::unread_dump(&error))? {
            0 => Ok(()),
            _ => Err(self.bad("it goes on after the last line".to_string())),
        }
    }

    /// The next line, without its line feed.
    fn line(&mut self) -> Result<String> {
        let mut line = Vec::new();
        let read = self.from.by_ref().take(LONGEST).read_until(b'\n', &mut line);
        read.map_err(|error| Error::unread_dump(&error))?;
        self.number += 1;
        match line.pop() {
            Some(b'\n') => String::from_utf8(line).map_err(|_| self.bad("the line is not UTF-8".to_string())),
            _ if self.number == 1 => Err(self.bad(why_not_first(""))),
            _ if line.len() as u64 == LONGEST - 1 => Err(self.bad("the line is too long".to_string())),
            _ => Err(self.bad(format!("the dump is cut short: it doesn't end with a line {LAST}"))),
        }
    }

    /// Sends a line, with its block.
    fn send(&mut self, line: &str) -> Result<()> {
        if let Some(count) = block_length(line) {
            let number = self.number;
            let block = self.block(count)?;
            let loaded = self.database.session().send(line, &block, count_of);
            self.rows += loaded.map_err(|error| refused(number, error))?.unwrap_or(0);
            return Ok(());
        }
        let is_table = line.starts_with("table ");
        if !is_table && !line.starts_with("update ") && !line.starts_with("index ") {
            return Err(self.bad("this is no line of a dump".to_string()));
        }
        self.tables += usize::from(is_table);
        let told = self.database.session().tell(line);
        told.map_err(|error| refused(self.number, error))
    }

    /// The block of a load, of so many bytes.
    fn block(&mut self, count: u64) -> Result<Vec<u8>> {
        let most = self.database.limits().block;
        if count > u64::from(most) {
            let message = format!("a block of the database has at most {most} bytes, and the line asks for {count}");
            return Err(self.bad(message));
        }
        let mut block = Vec::with_capacity(count as usize);
        let read = self.from.by_ref().take(count).read_to_end(&mut block);
        let read = read.map_err(|error| Error::unread_dump(&error))?;
        if (read as u64) < count {
            return Err(self.bad(format!("the dump is cut short, {read} bytes into a block of {count}")));
        }
        self.number += block.iter().filter(|byte| **byte == b'\n').count();
        Ok(block)
    }

    fn bad(&self, message: String) -> Error {
        let line = self.number;
        Error::BadDump { line, message }
    }
}

/// Why this is not the first line of a dump.
fn why_not_first(line: &str) -> String {
    match line.strip_prefix("# mmdb dump ") {
        Some(version) if !version.is_empty() && version.bytes().all(|byte| byte.is_ascii_digit()) => {
            format!("this is a dump of version {version}, and only those of version 1 are read")
        }
        _ => format!("this is no dump: it doesn't begin with the line {FIRST}"),
    }
}

/// How many bytes follow a line as its block, if it is a load.
fn block_length(line: &str) -> Option<u64> {
    let (_, count) = line.strip_prefix("load ")?.split_once(' ')?;
    let is_count = !count.is_empty() && count.bytes().all(|byte| byte.is_ascii_digit());
    count.parse().ok().filter(|_| is_count)
}

/// What is said of a line of this number that is refused.
fn refused(line: usize, error: Error) -> Error {
    match error {
        Error::Refused {
            number, text, reason, ..
        } if number != NO_MEMORY => {
            let reason = reason.map(|reason| format!(": {reason}")).unwrap_or_default();
            let message = format!("error {number} {text}{reason}");
            Error::BadDump { line, message }
        }
        other => other,
    }
}
