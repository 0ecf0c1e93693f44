//! Readers: each reads the tables of one database in a thread of its own.

use std::fmt;
use std::marker::PhantomData;
use std::sync::{Mutex, PoisonError};

use crate::database::Database;
use crate::error::{Error, Result};
use crate::index::Index;
use crate::line::is_select;
use crate::outcome::Outcome;
use crate::pages::MappedPages;
use crate::params::Params;
use crate::row::Row;
use crate::rows::{MappedRows, Rows};
use crate::statement::Statement;

/// What makes the readers of a database, by [`Database::readers`]. The database is lent meanwhile, so that nobody changes it.
pub struct Readers<'db> {
    /// Readers are made one after another.
    database: Mutex<&'db mut Database>,
}

impl<'db> Readers<'db> {
    pub(crate) fn of(database: &'db mut Database) -> Readers<'db> {
        Readers {
            database: Mutex::new(database),
        }
    }

    /// A reader of the tables, for a thread of its own.
    ///
    /// It is refused with the number 90 when out of memory.
    pub fn reader(&self) -> Result<Reader<'_>> {
        let database = self.database.lock().unwrap_or_else(PoisonError::into_inner);
        Ok(Reader {
            database: database.reader()?,
            lent: PhantomData,
        })
    }
}

/// A reader of the tables of a database, with statements and rows of its own. It can be sent to another thread, and reads while
/// other readers do. Its calls are those of [`Database`] that change nothing. [`Error::NotASelect`] says that a line is another
/// command than a select where that is wanted, and [`Error::Shared`] that a line would change the tables.
pub struct Reader<'r> {
    database: Database,
    /// It ends before what made it.
    lent: PhantomData<&'r ()>,
}

impl Reader<'static> {
    /// Over a database of its own, which only reads.
    pub(crate) fn over(database: Database) -> Reader<'static> {
        Reader {
            database,
            lent: PhantomData,
        }
    }
}

impl Reader<'_> {
    pub(crate) fn database(&self) -> &Database {
        &self.database
    }

    /// Prepares a select, to be executed more than once.
    pub fn prepare(&self, line: &str) -> Result<Statement<'_>> {
        match is_select(line) {
            true => self.database.prepare(line),
            false => Err(Error::NotASelect),
        }
    }

    /// The rows of a select.
    pub fn query<P: Params>(&self, line: &str, params: P) -> Result<Rows> {
        self.database.query(line, params)
    }

    /// The first rows of a select, so many at most.
    pub fn first<P: Params>(&self, most: usize, line: &str, params: P) -> Result<Rows> {
        self.database.first(most, line, params)
    }

    /// What a function makes of each row of a select, in order.
    pub fn query_map<T, P, F>(&self, line: &str, params: P, map: F) -> Result<MappedRows<F>>
    where
        P: Params,
        F: FnMut(&Row<'_>) -> Result<T>,
    {
        self.database.query_map(line, params, map)
    }

    /// What a function makes of each row of a select, in order, of which so many are held at a time.
    pub fn query_pages<T, P, F>(&self, most: usize, line: &str, params: P, map: F) -> Result<MappedPages<'_, F>>
    where
        P: Params,
        F: FnMut(&Row<'_>) -> Result<T>,
    {
        self.database.query_pages(most, line, params, map)
    }

    /// What a function makes of the first row of a select. [`Error::NoRows`] says that there is none.
    pub fn query_row<T, P, F>(&self, line: &str, params: P, read: F) -> Result<T>
    where
        P: Params,
        F: FnOnce(&Row<'_>) -> Result<T>,
    {
        self.database.query_row(line, params, read)
    }

    /// Does a command that changes nothing, and gives what it answers.
    pub fn command<P: Params>(&self, line: &str, params: P) -> Result<Outcome> {
        self.database.command(line, params)
    }

    /// All rows of a table by rising keys, with the bare names of its columns.
    pub fn dump(&self, table: &str) -> Result<Rows> {
        self.database.dump(table)
    }

    /// How many rows a select shows, which are counted and not made.
    pub fn count<P: Params>(&self, line: &str, params: P) -> Result<usize> {
        self.database.count(line, params)
    }

    /// The plan of a select, a step in each line.
    pub fn plan<P: Params>(&self, line: &str, params: P) -> Result<Vec<String>> {
        self.database.plan(line, params)
    }

    /// A database of its own with a copy of the tables.
    pub fn try_clone(&self) -> Result<Database> {
        self.database.try_clone()
    }

    /// The number of the newest change of any table, which is that of the tables' owner.
    pub fn version(&self) -> Result<u64> {
        self.database.version()
    }

    /// The number of the newest change of a table's rows.
    pub fn table_version(&self, table: &str) -> Result<u64> {
        self.database.table_version(table)
    }

    /// The state of the indexes of a table.
    pub fn indexes(&self, table: &str) -> Result<Vec<Index>> {
        self.database.indexes(table)
    }
}

impl fmt::Debug for Readers<'_> {
    fn fmt(&self, to: &mut fmt::Formatter<'_>) -> fmt::Result {
        to.debug_struct("Readers").finish_non_exhaustive()
    }
}

impl fmt::Debug for Reader<'_> {
    fn fmt(&self, to: &mut fmt::Formatter<'_>) -> fmt::Result {
        to.debug_struct("Reader").finish_non_exhaustive()
    }
}
