//! What is known of the columns of tables, so that it isn't asked for again.

use std::cell::{Cell, RefCell};
use std::sync::atomic::{AtomicU64, Ordering};
use std::sync::Arc;

use crate::columns::{tables_of, Tables};
use crate::error::Result;
use crate::session::Session;

/// What is known of the columns. A table's columns change by a declaration or a drop alone, whose answer is `ok`, by a rollback,
/// and where other tables are shared.
#[derive(Debug)]
pub(crate) struct Known {
    tables: RefCell<Option<Arc<Tables>>>,
    /// The number of these declarations. No others have it, of this database or of another.
    declared: Cell<u64>,
}

/// How many declarations there were in all databases.
static DECLARED: AtomicU64 = AtomicU64::new(0);

fn next_number() -> u64 {
    DECLARED.fetch_add(1, Ordering::Relaxed)
}

impl Default for Known {
    fn default() -> Known {
        Known {
            tables: RefCell::default(),
            declared: Cell::new(next_number()),
        }
    }
}

impl Known {
    /// Forgets what is known, where an answer says that columns may have been declared or dropped.
    pub(crate) fn heed(&self, answer: &[u8]) {
        if answer == b"ok\n" {
            self.forget();
        }
    }

    /// Forgets what is known, where columns may be others.
    pub(crate) fn forget(&self) {
        self.tables.replace(None);
        self.declared.set(next_number());
    }

    /// Takes the declarations of another database, whose tables are shared now.
    pub(crate) fn follow(&self, other: &Known) {
        self.tables.replace(None);
        self.declared.set(other.declared.get());
    }

    /// The number of the declarations as they are.
    pub(crate) fn declared(&self) -> u64 {
        self.declared.get()
    }

    /// The columns of each table.
    pub(crate) fn tables(&self, session: &Session) -> Result<Arc<Tables>> {
        if let Some(tables) = &*self.tables.borrow() {
            return Ok(Arc::clone(tables));
        }
        let tables = Arc::new(session.ask("tables", (), tables_of)?);
        self.tables.replace(Some(Arc::clone(&tables)));
        Ok(tables)
    }
}
