//! Functions that are told of changes, for what a program keeps beside the tables.

use std::cell::{Cell, RefCell};
use std::fmt;
use std::sync::{Arc, Mutex, PoisonError, Weak};

use crate::database::Database;
use crate::library::Handle;

/// A function that is told of changes, with the number of the newest.
type Function = Mutex<dyn FnMut(u64) + Send>;

/// Has a function told of changes until it is dropped. [`Database::watch`] and [`Database::watch_table`] make one.
#[must_use = "nothing is told once it is dropped"]
pub struct Watch {
    /// The database has it for as long as it is here.
    _function: Arc<Function>,
}

/// Functions that are told of changes, for caches and whatever else stands beside the tables.
///
/// After each call of the database, of a statement, a transaction or a load of it that raised the number, and before that returns, the
/// function is called with the newest number. That is so within a transaction too, and of a rollback, also by a drop. What is refused,
/// is about no row or selects tells nothing, nor does a commit.
///
/// The function has the number alone. It can't have the database, which is in a call, and another thread may be the one that calls. So it
/// notes that something is old, and whoever reads that next makes it anew. It must ask for no guard of a [`Shared`](crate::Shared) that it
/// watches, since the writer has one. If it panics the call does, and the change stands; who wasn't told yet is so after the next one.
impl Database {
    /// Has a function told of each change of any table, until what this returns is dropped.
    ///
    /// ```
    /// use std::sync::atomic::{AtomicBool, Ordering};
    /// use std::sync::Arc;
    ///
    /// let db = mmdb::Database::open_in_memory()?;
    /// db.execute("table t (id int)", [])?;
    ///
    /// let is_old = Arc::new(AtomicBool::new(false));
    /// let told = Arc::clone(&is_old);
    /// let watch = db.watch(move |_| told.store(true, Ordering::Relaxed));
    /// db.execute("insert t (1)", [])?;
    /// assert!(is_old.swap(false, Ordering::Relaxed));
    /// drop(watch);
    /// db.execute("insert t (2)", [])?;
    /// assert!(!is_old.load(Ordering::Relaxed));
    /// # Ok::<(), mmdb::Error>(())
    /// ```
    ///
    /// It doesn't use the database:
    ///
    /// ```compile_fail,E0277
    /// let db = std::rc::Rc::new(mmdb::Database::open_in_memory()?);
    /// let lent = std::rc::Rc::clone(&db);
    /// let watch = db.watch(move |_| drop(lent.execute("insert t (1)", [])));
    /// # Ok::<(), mmdb::Error>(())
    /// ```
    pub fn watch(&self, function: impl FnMut(u64) + Send + 'static) -> Watch {
        self.watches().begin(self.handle(), "", function)
    }

    /// Has a function told of each change of a table's rows, until what this returns is dropped.
    ///
    /// A table that is dropped, or that a rollback takes away, is told by the number of all. Nothing is told while there is no table of
    /// that name, and one that is declared is told.
    pub fn watch_table(&self, table: &str, function: impl FnMut(u64) + Send + 'static) -> Watch {
        match table {
            // An empty name would stand for all tables, and there is none of it.
            "" => Watch {
                _function: Arc::new(Mutex::new(function)),
            },
            _ => self.watches().begin(self.handle(), table, function),
        }
    }
}

impl fmt::Debug for Watch {
    fn fmt(&self, to: &mut fmt::Formatter<'_>) -> fmt::Result {
        to.debug_struct("Watch").finish_non_exhaustive()
    }
}

/// The watches of a database.
#[derive(Default)]
pub(crate) struct Watches {
    watched: RefCell<Vec<Watched>>,
    /// Whether there are any, so that nobody else pays for them.
    are_there: Cell<bool>,
    /// It is borrowed while they are told.
    telling: RefCell<()>,
}

/// What is watched, and who is told.
struct Watched {
    /// The name of the table, or the empty one for all.
    table: Box<str>,
    /// The number as it was told last.
    number: u64,
    /// It is gone where the watch was dropped.
    function: Weak<Function>,
}

impl Watches {
    #[inline]
    pub(crate) fn are_there(&self) -> bool {
        self.are_there.get()
    }

    fn begin(&self, handle: &Handle, table: &str, function: impl FnMut(u64) + Send + 'static) -> Watch {
        let function: Arc<Function> = Arc::new(Mutex::new(function));
        let mut watched = self.watched.borrow_mut();
        watched.retain(Watched::is_open);
        watched.push(Watched {
            table: table.into(),
            number: number_of(handle, table),
            function: Arc::downgrade(&function),
        });
        self.are_there.set(true);
        Watch { _function: function }
    }

    /// Tells all numbers that have risen, until none has.
    #[cold]
    pub(crate) fn tell(&self, handle: &Handle) {
        // (a function that gets at the database by a variable of its thread comes by here again; what it changed is told behind it)
        let _telling = match self.telling.try_borrow_mut() {
            Ok(telling) => telling,
            Err(_) => return,
        };
        while let Some((function, number)) = self.next(handle) {
            let mut function = function.lock().unwrap_or_else(PoisonError::into_inner);
            function(number);
        }
    }

    /// Whom to tell next, and what. Those are let go that were dropped.
    fn next(&self, handle: &Handle) -> Option<(Arc<Function>, u64)> {
        let mut watched = self.watched.borrow_mut();
        watched.retain(Watched::is_open);
        self.are_there.set(!watched.is_empty());
        watched.iter_mut().find_map(|watch| watch.risen(handle))
    }
}

impl Watched {
    fn is_open(&self) -> bool {
        self.function.strong_count() > 0
    }

    /// Who is told of a number that has risen since it was told last, and the number. That of a table that is gone is that of all.
    fn risen(&mut self, handle: &Handle) -> Option<(Arc<Function>, u64)> {
        let number = number_of(handle, &self.table);
        if number == self.number {
            return None;
        }
        self.number = number;
        let told = if number > 0 { number } else { number_of(handle, "") };
        self.function.upgrade().map(|function| (function, told))
    }
}

/// The number of the newest change of a table, or of all if its name is empty; 0 if there is no such table.
fn number_of(handle: &Handle, table: &str) -> u64 {
    match handle.version(table.as_bytes()) {
        Ok(0) if !table.is_empty() && !handle.with_answer(|answer| answer.starts_with(b"error 30 ")) => {
            // If memory runs out for a long name, each change counts as one of its table.
            number_of(handle, "")
        }
        number => number.unwrap_or(0),
    }
}
