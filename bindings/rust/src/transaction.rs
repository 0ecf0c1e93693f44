//! Transactions: what is done in one stays as a whole, or is undone as a whole.

use std::fmt;
use std::ops::{Deref, DerefMut};

use crate::database::Database;
use crate::error::{Error, Result};

/// A transaction, with the calls of its database. It is rolled back when it is dropped, unless it was committed.
///
/// ```
/// let mut db = mmdb::Database::open_in_memory()?;
/// db.execute("table t (id int, s text)", [])?;
///
/// let tx = db.transaction()?;
/// tx.load("t", [(1, "a"), (2, "b")])?;
/// tx.execute("insert t (3, 'c')", [])?;
/// tx.commit()?;
///
/// let tx = db.transaction()?;
/// tx.execute("insert t (4, 'd')", [])?;
/// tx.execute("delete t where id < 3", [])?;
/// let refused = tx.execute("insert t (3, 'again')", []).unwrap_err();
/// assert_eq!((refused.number(), tx.dump("t")?.len()), (Some(41), 2));
/// drop(tx);
/// assert_eq!(db.dump("t")?.len(), 3);
/// # Ok::<(), mmdb::Error>(())
/// ```
///
/// Every command is done in one and undone by a rollback, but no reader is made ([`Error::InTransaction`]). A refused line changes
/// nothing, and leaves the transaction open. Transactions that were begun in this one, and are open still, end as it does.
///
/// The database is lent to the transaction, so there is one at a time, and another only in it, as a
/// [`savepoint`](Transaction::savepoint):
///
/// ```compile_fail,E0499
/// # let mut db = mmdb::Database::open_in_memory()?;
/// let first = db.transaction()?;
/// let second = db.transaction()?;
/// first.commit()?;
/// # Ok::<(), mmdb::Error>(())
/// ```
///
/// Nor is there one of a database that is gone:
///
/// ```compile_fail,E0505
/// # let mut db = mmdb::Database::open_in_memory()?;
/// let tx = db.transaction()?;
/// drop(db);
/// tx.commit()?;
/// # Ok::<(), mmdb::Error>(())
/// ```
///
/// None is used once it has ended:
///
/// ```compile_fail,E0382
/// # let mut db = mmdb::Database::open_in_memory()?;
/// let tx = db.transaction()?;
/// tx.commit()?;
/// tx.execute("insert t (1)", [])?;
/// # Ok::<(), mmdb::Error>(())
/// ```
///
/// And none ends while a statement of it is there. One that shall stay is prepared before [`Database::begin`].
///
/// ```compile_fail,E0505
/// # let mut db = mmdb::Database::open_in_memory()?;
/// # db.execute("table t (id int)", [])?;
/// let tx = db.transaction()?;
/// let mut insert = tx.prepare("insert t (?)")?;
/// tx.commit()?;
/// insert.execute([1])?;
/// # Ok::<(), mmdb::Error>(())
/// ```
#[must_use = "a transaction is rolled back when it is dropped"]
pub struct Transaction<'db> {
    database: &'db mut Database,
    /// How many transactions were open before it.
    before: usize,
}

impl<'db> Transaction<'db> {
    fn begin(database: &'db mut Database) -> Result<Transaction<'db>> {
        let before = database.transactions();
        database.begin()?;
        Ok(Transaction { database, before })
    }

    /// Begins a transaction in this one, whose rollback leaves what was done before it.
    ///
    /// ```
    /// # let mut db = mmdb::Database::open_in_memory()?;
    /// # db.execute("table t (id int)", [])?;
    /// let mut tx = db.transaction()?;
    /// tx.execute("insert t (1)", [])?;
    /// let savepoint = tx.savepoint()?;
    /// savepoint.execute("insert t (2)", [])?;
    /// savepoint.rollback()?;
    /// tx.commit()?;
    /// assert_eq!(db.dump("t")?.len(), 1);
    /// # Ok::<(), mmdb::Error>(())
    /// ```
    ///
    /// The outer one is lent to it:
    ///
    /// ```compile_fail,E0505
    /// # let mut db = mmdb::Database::open_in_memory()?;
    /// let mut tx = db.transaction()?;
    /// let savepoint = tx.savepoint()?;
    /// tx.commit()?;
    /// savepoint.commit()?;
    /// # Ok::<(), mmdb::Error>(())
    /// ```
    pub fn savepoint(&mut self) -> Result<Transaction<'_>> {
        Transaction::begin(self.database)
    }

    /// Ends it, and keeps what was done in it. [`Error::NoTransaction`] says that it had ended already, by
    /// [`Database::commit`] or [`Database::rollback`].
    pub fn commit(self) -> Result<()> {
        self.database.commit_to(self.before)
    }

    /// Ends it, and undoes what was done in it, as a drop does. It needs no memory.
    pub fn rollback(self) -> Result<()> {
        self.database.roll_back_to(self.before)
    }
}

impl Deref for Transaction<'_> {
    type Target = Database;

    fn deref(&self) -> &Database {
        self.database
    }
}

impl DerefMut for Transaction<'_> {
    fn deref_mut(&mut self) -> &mut Database {
        self.database
    }
}

impl Drop for Transaction<'_> {
    fn drop(&mut self) {
        // (where it has ended there is nothing to undo)
        let _ = self.database.roll_back_to(self.before);
    }
}

impl fmt::Debug for Transaction<'_> {
    fn fmt(&self, to: &mut fmt::Formatter<'_>) -> fmt::Result {
        to.debug_struct("Transaction").finish_non_exhaustive()
    }
}

/// Transactions.
impl Database {
    /// Begins a transaction, which is rolled back when it is dropped.
    ///
    /// It is refused with the number 90 when out of memory.
    pub fn transaction(&mut self) -> Result<Transaction<'_>> {
        Transaction::begin(self)
    }

    /// Begins a transaction beside statements that stay: [`commit`](Database::commit) or [`rollback`](Database::rollback)
    /// ends it. A transaction that is begun in another is a savepoint. What is open where the database is dropped is undone
    /// with it.
    ///
    /// ```
    /// let db = mmdb::Database::open_in_memory()?;
    /// db.execute("table t (id int)", [])?;
    /// let mut insert = db.prepare("insert t (?)")?;
    /// for round in 0..3 {
    ///     db.begin()?;
    ///     insert.execute([round])?;
    ///     insert.execute([round + 10])?;
    ///     match round {
    ///         1 => db.commit()?,
    ///         _ => db.rollback()?,
    ///     }
    /// }
    /// assert_eq!((db.dump("t")?.len(), db.in_transaction()), (2, false));
    /// # Ok::<(), mmdb::Error>(())
    /// ```
    pub fn begin(&self) -> Result<()> {
        self.handle().begin()
    }

    /// Ends the innermost transaction, and keeps what was done in it. [`Error::NoTransaction`] says that none is open.
    pub fn commit(&self) -> Result<()> {
        self.handle().commit()
    }

    /// Ends the innermost transaction, and undoes what was done in it: the tables are those that it began with. It needs no
    /// memory. [`Error::NoTransaction`] says that none is open.
    pub fn rollback(&self) -> Result<()> {
        self.undo()?;
        self.tell();
        Ok(())
    }

    /// How many transactions are open, each in the one before it.
    pub fn transactions(&self) -> usize {
        self.handle().transactions()
    }

    /// Whether a transaction is open.
    pub fn in_transaction(&self) -> bool {
        self.transactions() > 0
    }
}

/// The end of the transactions that were begun after some others.
impl Database {
    /// Commits those behind the first `before`.
    pub(crate) fn commit_to(&self, before: usize) -> Result<()> {
        self.end_to(before, Database::commit)
    }

    /// Rolls back those behind the first `before`.
    pub(crate) fn roll_back_to(&self, before: usize) -> Result<()> {
        self.told(self.end_to(before, Database::undo))
    }

    /// Rolls the innermost one back.
    fn undo(&self) -> Result<()> {
        self.handle().roll_back()?;
        self.forget_columns();
        Ok(())
    }

    fn end_to(&self, before: usize, end: fn(&Database) -> Result<()>) -> Result<()> {
        if self.transactions() <= before {
            return Err(Error::NoTransaction);
        }
        while self.transactions() > before {
            end(self)?;
        }
        Ok(())
    }
}
