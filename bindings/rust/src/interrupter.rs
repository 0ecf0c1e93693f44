//! What asks selects to end while they are under way.

use std::fmt;
use std::sync::{Mutex, PoisonError};

use crate::database::Database;
use crate::error::Result;
use crate::library::Asker;
use crate::readers::Reader;

/// Asks the select of a database to end that is under way. [`Database::interrupter`] makes one, and [`Reader::interrupter`].
///
/// It is for another thread than that of the select, since a call lasts until the select has ended. A thread that looks out for
/// Ctrl-C may have it, or one that knows how long a select may take. It may outlive the database, and does nothing then.
pub struct Interrupter {
    asker: Mutex<Asker>,
}

impl Interrupter {
    /// Asks the select that is under way to end: its call returns [`Error::Interrupted`](crate::Error::Interrupted). One that begins
    /// later isn't asked. Changes, loads and what is answered as text go on to their end.
    ///
    /// Any thread may call it at any time, but for a signal handler, which might come within such a call.
    pub fn interrupt(&self) {
        self.asker.lock().unwrap_or_else(PoisonError::into_inner).ask();
    }
}

impl Database {
    /// What asks the select of this database to end that is under way, for another thread.
    ///
    /// ```
    /// use std::sync::atomic::{AtomicBool, Ordering};
    ///
    /// let db = mmdb::Database::open(mmdb::Policy::Scan, mmdb::Limits::default())?;
    /// db.execute("table t (id int, n int)", [])?;
    /// db.execute("table u (id int, n int)", [])?;
    /// db.load("t", (0..4000).map(|id| (id, 0)))?;
    /// db.load("u", (0..4000).map(|id| (id, 1)))?;
    ///
    /// let (interrupter, has_ended) = (db.interrupter()?, AtomicBool::new(false));
    /// let ended = std::thread::scope(|threads| {
    ///     threads.spawn(|| {
    ///         while !has_ended.load(Ordering::Relaxed) {
    ///             interrupter.interrupt();
    ///         }
    ///     });
    ///     let mut join = db.prepare("select t.id from t join u on t.n = u.n")?;
    ///     let ended = (0..100).find_map(|_| join.query([]).err());
    ///     has_ended.store(true, Ordering::Relaxed);
    ///     Ok::<_, mmdb::Error>(ended)
    /// });
    /// assert_eq!(ended, Ok(Some(mmdb::Error::Interrupted)));
    /// # Ok::<(), mmdb::Error>(())
    /// ```
    ///
    /// It is refused with the number 90 when out of memory.
    pub fn interrupter(&self) -> Result<Interrupter> {
        Ok(Interrupter {
            asker: Mutex::new(self.handle().asker()?),
        })
    }
}

impl Reader<'_> {
    /// What asks the select of this reader to end that is under way, for another thread.
    pub fn interrupter(&self) -> Result<Interrupter> {
        self.database().interrupter()
    }
}

impl fmt::Debug for Interrupter {
    fn fmt(&self, to: &mut fmt::Formatter<'_>) -> fmt::Result {
        to.debug_struct("Interrupter").finish_non_exhaustive()
    }
}
