//! Rows of values for one statement, all of which are done or none, however many they are.

use crate::cells::{Cells, GivenCells};
use crate::database::Database;
use crate::error::{Error, Result};
use crate::library::Handle;
use crate::loading::with_number;
use crate::value::ValueRef;

/// How many bytes of values are handed over at once.
const TOGETHER: usize = 1 << 20;

/// The rows that are gathered, and what was done of those before them. What takes more than one call goes by several, in a transaction of
/// its own, which what makes the rows must not end.
pub(crate) struct Many<'d> {
    database: &'d Database,
    pub(crate) given: GivenCells,
    /// If there is a transaction around the calls, how many were open before it.
    before: Option<usize>,
    /// How many rows of values were handed over, and how many rows they have changed.
    sent: usize,
    pub(crate) changed: usize,
}

impl<'d> Many<'d> {
    pub(crate) fn of(database: &'d Database) -> Many<'d> {
        Many {
            database,
            given: GivenCells::default(),
            before: None,
            sent: 0,
            changed: 0,
        }
    }

    pub(crate) fn handle(&self) -> &'d Handle {
        self.database.handle()
    }

    pub(crate) fn is_full(&self) -> bool {
        self.given.size() >= TOGETHER
    }

    pub(crate) fn push<'v>(&mut self, row: impl Iterator<Item = ValueRef<'v>>) {
        row.for_each(|value| self.given.push(value));
    }

    /// The rows that are gathered.
    pub(crate) fn rows(&self, places: usize) -> impl Iterator<Item = impl Iterator<Item = ValueRef<'_>>> {
        // SAFETY: the cells were made of texts, each of which stands where it is told, and none of it changes while it is lent.
        let cells = unsafe { Cells::new(&self.given.cells, self.given.texts.as_ptr()) };
        let count = cells.len() / places.max(1);
        (0..count).map(move |row| (row * places..(row + 1) * places).map(move |at| cells.value(at)))
    }

    /// Begins a transaction around what is done from now on, where there is none.
    pub(crate) fn begin(&mut self) -> Result<()> {
        if self.before.is_none() {
            let before = self.database.transactions();
            self.database.begin()?;
            self.before = Some(before);
        }
        Ok(())
    }

    /// Takes note that the rows were done, and lets them go.
    pub(crate) fn done(&mut self, changed: u64, places: usize) {
        self.sent += self.given.cells.len() / places.max(1);
        self.changed += changed as usize;
        self.given.clear();
    }

    /// Keeps all, and returns how many rows were changed.
    pub(crate) fn end(mut self) -> Result<usize> {
        if let Some(before) = self.before {
            self.database.commit_to(before)?;
            self.before = None;
        }
        Ok(self.changed)
    }

    /// A refusal of the rows that were handed over last, told of all.
    pub(crate) fn in_the_whole(&self, why: Error) -> Error {
        match why {
            Error::Refused {
                number,
                text,
                line,
                reason,
                written,
            } => Error::Refused {
                number,
                text: with_number(&text, self.sent).unwrap_or(text),
                line,
                reason,
                written,
            },
            other => other,
        }
    }
}

impl Drop for Many<'_> {
    fn drop(&mut self) {
        if let Some(before) = self.before {
            // (where it was ended by what makes the rows there is nothing to undo)
            let _ = self.database.roll_back_to(before);
        }
    }
}
