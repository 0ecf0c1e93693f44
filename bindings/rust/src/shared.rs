//! Tables that threads share for as long as they live: many read at the same time, and one writes alone.

use std::fmt;
use std::ops::{Deref, DerefMut};
use std::sync::{Arc, Mutex, MutexGuard, PoisonError, RwLock, RwLockReadGuard, RwLockWriteGuard};

use crate::database::Database;
use crate::error::Result;
use crate::readers::Reader;

/// A database that threads share for as long as they live. Any number of threads read it at the same time, each by a
/// [`SharedReader`] of its own, and one [`write`](Shared::write)s it alone. A clone is the same database.
///
/// ```
/// use mmdb::{Database, Shared};
/// use std::thread;
///
/// let db = Database::open_in_memory()?;
/// db.execute("table route (net text, gate text)", [])?;
/// let routes = Shared::new(db);
/// let readers = (0..4).map(|_| {
///     let mut reader = routes.reader().unwrap();
///     thread::spawn(move || loop {
///         let tables = reader.read().unwrap();
///         let found = tables.query("select gate from route where net = ?", ["10.0.0.0/8"]).unwrap();
///         if let Some(row) = found.get(0) {
///             return row.get::<_, String>("gate").unwrap();
///         }
///     })
/// });
/// let readers: Vec<_> = readers.collect();
///
/// let mut tables = routes.write()?;
/// let tx = tables.transaction()?;
/// tx.execute("insert route ('10.0.0.0/8', 'north')", [])?;
/// tx.execute("insert route ('0.0.0.0/0', 'south')", [])?;
/// tx.commit()?;
/// drop(tables);
/// for reader in readers {
///     assert_eq!(reader.join().unwrap(), "north");
/// }
/// # Ok::<(), mmdb::Error>(())
/// ```
///
/// A thread that holds a guard waits for ever if it asks for another one that has to wait for it. So it has one at a time, and
/// that for as long as it reads or writes.
///
/// Inside is a lock for readers and a writer, [`RwLock`]. To write, every reader leaves the tables, and it shares them again when
/// it reads next. So what a write costs rises with the readers that have read since the last one.
#[derive(Clone)]
pub struct Shared {
    inside: Arc<Inside>,
}

// A lock is taken before those below it. What it guards is whole after each call, so that a panic does no harm to it.
struct Inside {
    /// Those who read hold it together, and one who writes alone.
    lock: RwLock<()>,
    /// The readers, each with its own lock. A reader holds it while it reads, and a writer while it has the reader leave.
    seats: Mutex<Vec<Arc<Mutex<Seat>>>>,
    /// Who writes holds it, or a reader that is about to share its tables.
    database: Mutex<Database>,
}

/// A reader of the tables.
struct Seat {
    /// There is none any more once its owner was dropped.
    reader: Option<Reader<'static>>,
    /// Whether it shares the tables.
    shares: bool,
}

fn locked<T>(lock: &Mutex<T>) -> MutexGuard<'_, T> {
    lock.lock().unwrap_or_else(PoisonError::into_inner)
}

impl Shared {
    /// Shares a database.
    pub fn new(database: Database) -> Shared {
        Shared {
            inside: Arc::new(Inside {
                lock: RwLock::new(()),
                seats: Mutex::default(),
                database: Mutex::new(database),
            }),
        }
    }

    /// A reader, for a thread of its own. It waits while somebody writes.
    ///
    /// It is refused with the number 90 when out of memory.
    pub fn reader(&self) -> Result<SharedReader> {
        let _lock = self.inside.read();
        let reader = Reader::over(locked(&self.inside.database).reader()?);
        let seat = Arc::new(Mutex::new(Seat {
            reader: Some(reader),
            shares: true,
        }));
        let mut seats = locked(&self.inside.seats);
        seats.retain(|seat| Arc::strong_count(seat) > 1);
        seats.push(Arc::clone(&seat));
        let inside = Arc::clone(&self.inside);
        Ok(SharedReader { inside, seat })
    }

    /// The database for a writer alone. It waits until nobody reads or writes, and until the guard is dropped nobody does.
    ///
    /// It is refused with the number 90 when out of memory, and [`Error::Shared`](crate::Error::Shared) comes from its calls as of
    /// a [`Database`].
    pub fn write(&self) -> Result<Writing<'_>> {
        let lock = self.inside.lock.write().unwrap_or_else(PoisonError::into_inner);
        let mut seats = locked(&self.inside.seats);
        seats.retain(|seat| Arc::strong_count(seat) > 1);
        seats.iter().try_for_each(|seat| locked(seat).leave())?;
        Ok(Writing {
            database: locked(&self.inside.database),
            _lock: lock,
        })
    }
}

impl Inside {
    fn read(&self) -> RwLockReadGuard<'_, ()> {
        self.lock.read().unwrap_or_else(PoisonError::into_inner)
    }
}

impl Seat {
    /// Leaves the tables.
    fn leave(&mut self) -> Result<()> {
        if let (Some(reader), true) = (&self.reader, self.shares) {
            reader.database().handle().leave()?;
            self.shares = false;
        }
        Ok(())
    }

    /// Shares the tables, if it doesn't.
    fn share(&mut self, database: &Mutex<Database>) -> Result<()> {
        if let (Some(reader), false) = (&self.reader, self.shares) {
            locked(database).share_with(reader.database())?;
            self.shares = true;
        }
        Ok(())
    }
}

/// A reader of a [`Shared`] database, for a thread of its own, which it may be sent to. It has statements of its own, and keeps
/// those of its lines from one [`read`](SharedReader::read) to the next.
///
/// It is one thread's at a time:
///
/// ```compile_fail,E0499
/// # let db = mmdb::Database::open_in_memory()?;
/// # db.execute("table t (id int)", [])?;
/// # let shared = mmdb::Shared::new(db);
/// let mut reader = shared.reader()?;
/// std::thread::scope(|threads| {
///     threads.spawn(|| reader.read().unwrap().query("select * from t", []));
///     threads.spawn(|| reader.read().unwrap().query("select * from t", []));
/// });
/// # Ok::<(), mmdb::Error>(())
/// ```
pub struct SharedReader {
    inside: Arc<Inside>,
    seat: Arc<Mutex<Seat>>,
}

impl SharedReader {
    /// The tables, to be read. It waits while somebody writes, and until the guard is dropped nobody does.
    ///
    /// It is refused with the number 90 when out of memory.
    pub fn read(&mut self) -> Result<Reading<'_>> {
        let lock = self.inside.read();
        let mut seat = locked(&self.seat);
        seat.share(&self.inside.database)?;
        Ok(Reading { seat, _lock: lock })
    }
}

impl Drop for SharedReader {
    fn drop(&mut self) {
        // (under its lock, so that a writer doesn't meet a reader that is about to end)
        locked(&self.seat).reader = None;
    }
}

/// The tables of a [`Shared`] database while they are read, with the calls of [`Reader`].
///
/// Nothing is changed by them:
///
/// ```compile_fail,E0599
/// # let shared = mmdb::Shared::new(mmdb::Database::open_in_memory()?);
/// # let mut reader = shared.reader()?;
/// let tables = reader.read()?;
/// tables.execute("table t (id int)", [])?;
/// # Ok::<(), mmdb::Error>(())
/// ```
///
/// Their statements, and the rows that these lend, end with them. Rows of one's own, as those of `query`, stay.
///
/// ```compile_fail,E0505
/// # let db = mmdb::Database::open_in_memory()?;
/// # db.execute("table t (id int)", [])?;
/// # let shared = mmdb::Shared::new(db);
/// # let mut reader = shared.reader()?;
/// let tables = reader.read()?;
/// let mut all = tables.prepare("select * from t")?;
/// drop(tables);
/// all.query([])?;
/// # Ok::<(), mmdb::Error>(())
/// ```
///
/// So do pages that are still to be read, which would keep a writer from writing:
///
/// ```compile_fail,E0505
/// # let shared = mmdb::Shared::new(mmdb::Database::open_in_memory()?);
/// # let mut reader = shared.reader()?;
/// let tables = reader.read()?;
/// let pages = tables.query_pages(10, "select distinct s from t", [], |row| row.get::<_, String>(0))?;
/// drop(tables);
/// # Ok::<(), mmdb::Error>(())
/// ```
///
/// A reader has one at a time:
///
/// ```compile_fail,E0499
/// # let shared = mmdb::Shared::new(mmdb::Database::open_in_memory()?);
/// # let mut reader = shared.reader()?;
/// let first = reader.read()?;
/// let second = reader.read()?;
/// first.indexes("t")?;
/// # Ok::<(), mmdb::Error>(())
/// ```
///
/// And they stay in their thread:
///
/// ```compile_fail,E0277
/// # let shared = mmdb::Shared::new(mmdb::Database::open_in_memory()?);
/// # let mut reader = shared.reader()?;
/// let tables = reader.read()?;
/// std::thread::scope(|threads| {
///     threads.spawn(move || tables.query("select * from t", []));
/// });
/// # Ok::<(), mmdb::Error>(())
/// ```
#[must_use = "nobody writes until it is dropped"]
pub struct Reading<'r> {
    seat: MutexGuard<'r, Seat>,
    _lock: RwLockReadGuard<'r, ()>,
}

impl Deref for Reading<'_> {
    type Target = Reader<'static>;

    fn deref(&self) -> &Reader<'static> {
        self.seat.reader.as_ref().expect("its owner isn't dropped")
    }
}

/// A [`Shared`] database while it is written, with the calls of [`Database`]. A transaction that was begun and not ended is rolled
/// back when it is dropped.
///
/// Nothing of it stays behind:
///
/// ```compile_fail,E0505
/// # let db = mmdb::Database::open_in_memory()?;
/// # db.execute("table t (id int)", [])?;
/// # let shared = mmdb::Shared::new(db);
/// let tables = shared.write()?;
/// let mut insert = tables.prepare("insert t (?)")?;
/// drop(tables);
/// insert.execute([1])?;
/// # Ok::<(), mmdb::Error>(())
/// ```
#[must_use = "nobody reads until it is dropped"]
pub struct Writing<'s> {
    database: MutexGuard<'s, Database>,
    _lock: RwLockWriteGuard<'s, ()>,
}

impl Deref for Writing<'_> {
    type Target = Database;

    fn deref(&self) -> &Database {
        &self.database
    }
}

impl DerefMut for Writing<'_> {
    fn deref_mut(&mut self) -> &mut Database {
        &mut self.database
    }
}

impl Drop for Writing<'_> {
    fn drop(&mut self) {
        // (where none is open there is nothing to undo)
        let _ = self.database.roll_back_to(0);
    }
}

impl fmt::Debug for Shared {
    fn fmt(&self, to: &mut fmt::Formatter<'_>) -> fmt::Result {
        to.debug_struct("Shared").finish_non_exhaustive()
    }
}

impl fmt::Debug for SharedReader {
    fn fmt(&self, to: &mut fmt::Formatter<'_>) -> fmt::Result {
        to.debug_struct("SharedReader").finish_non_exhaustive()
    }
}

impl fmt::Debug for Reading<'_> {
    fn fmt(&self, to: &mut fmt::Formatter<'_>) -> fmt::Result {
        to.debug_struct("Reading").finish_non_exhaustive()
    }
}

impl fmt::Debug for Writing<'_> {
    fn fmt(&self, to: &mut fmt::Formatter<'_>) -> fmt::Result {
        to.debug_struct("Writing").finish_non_exhaustive()
    }
}
