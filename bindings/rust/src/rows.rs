//! Rows, and how their values are read.

use std::fmt;
use std::sync::Arc;

use crate::cells::{CellRows, Cells, OwnCells};
use crate::error::{Error, Result};
use crate::row::{ColumnIndex, Row};
use crate::value::Value;

/// The rows of a select or a dump, with the names of their columns.
///
/// They are owned: the database can be used while they are read.
///
/// ```
/// let db = mmdb::Database::open_in_memory()?;
/// db.execute("table t (id int, s text)", [])?;
/// db.load("t", [(1, "a"), (2, "b")])?;
///
/// let rows = db.query("select * from t", [])?;
/// assert_eq!(rows.column_names(), ["t.id", "t.s"]);
/// for row in &rows {
///     let id: i64 = row.get("id")?;
///     db.execute("update t set s = 'c' where id = ?", [id])?;
/// }
/// # Ok::<(), mmdb::Error>(())
/// ```
#[derive(Clone, Default)]
pub struct Rows {
    names: Arc<Vec<String>>,
    /// Row by row, and in each by the order of the columns.
    cells: OwnCells,
    /// How many rows [`next`](Rows::next) has given.
    given: usize,
}

impl Rows {
    /// The columns' names, in order: each as `table.column` in a select, and as `column` in a dump.
    pub fn column_names(&self) -> &[String] {
        &self.names
    }

    /// The number of a column, counted from 0, by its name as for [`Row::get`].
    pub fn column_index<I: ColumnIndex>(&self, column: I) -> Result<usize> {
        column.place_in(&self.names)
    }

    /// The next row, or none behind the last. It never fails, and gives a `Result` as that of rusqlite does.
    ///
    /// ```
    /// # let db = mmdb::Database::open_in_memory()?;
    /// # db.execute("table t (id int)", [])?;
    /// # db.load("t", [[1], [2]])?;
    /// let (mut rows, mut sum) = (db.query("select * from t", [])?, 0);
    /// while let Some(row) = rows.next()? {
    ///     sum += row.get::<_, i64>("id")?;
    /// }
    /// assert_eq!(sum, 3);
    /// # Ok::<(), mmdb::Error>(())
    /// ```
    #[allow(clippy::should_implement_trait)]
    pub fn next(&mut self) -> Result<Option<Row<'_>>> {
        let at = self.given;
        self.given = self.len().min(at + 1);
        Ok(self.get(at))
    }

    /// How many rows there are.
    pub fn len(&self) -> usize {
        self.lent().len()
    }

    /// Whether there are none.
    pub fn is_empty(&self) -> bool {
        self.lent().is_empty()
    }

    /// A row, counted from 0.
    #[inline]
    pub fn get(&self, row: usize) -> Option<Row<'_>> {
        self.lent().get(row)
    }

    /// The rows, one after the other.
    pub fn iter(&self) -> RowsIter<'_> {
        self.lent().iter()
    }

    /// The values alone, each of its own.
    pub fn to_vec(&self) -> Vec<Vec<Value>> {
        self.lent().to_vec()
    }

    /// The same rows, with other names of their columns.
    pub(crate) fn with_names(self, names: Vec<String>) -> Rows {
        Rows {
            names: Arc::new(names),
            ..self
        }
    }

    #[inline]
    pub(crate) fn lent(&self) -> RowsRef<'_> {
        RowsRef::new(&self.names, self.cells.lent())
    }
}

/// The rows of a [`Statement`](crate::Statement), which lends them until it is executed again or asked for its first rows.
#[derive(Clone, Copy)]
pub struct RowsRef<'r> {
    names: &'r Arc<Vec<String>>,
    cells: Cells<'r>,
    /// How many rows [`next`](RowsRef::next) has given.
    given: usize,
}

impl<'r> RowsRef<'r> {
    #[inline]
    pub(crate) fn new(names: &'r Arc<Vec<String>>, cells: Cells<'r>) -> RowsRef<'r> {
        let given = 0;
        RowsRef { names, cells, given }
    }

    /// The number of a column, counted from 0, by its name as for [`Row::get`].
    pub fn column_index<I: ColumnIndex>(&self, column: I) -> Result<usize> {
        column.place_in(self.names)
    }

    /// The next row, or none behind the last. It never fails, and gives a `Result` as that of rusqlite does.
    #[allow(clippy::should_implement_trait)]
    pub fn next(&mut self) -> Result<Option<Row<'r>>> {
        let at = self.given;
        self.given = self.len().min(at + 1);
        Ok(self.get(at))
    }

    /// The columns' names, in order, each as `table.column`.
    pub fn column_names(&self) -> &'r [String] {
        self.names
    }

    /// How many rows there are.
    pub fn len(&self) -> usize {
        self.cells.len() / self.width()
    }

    /// Whether there are none.
    pub fn is_empty(&self) -> bool {
        self.cells.len() == 0
    }

    /// A row, counted from 0.
    #[inline]
    pub fn get(&self, row: usize) -> Option<Row<'r>> {
        let from = row.checked_mul(self.width())?;
        let cells = self.cells.part(from, self.width())?;
        Some(Row {
            names: self.names,
            cells,
        })
    }

    /// The rows, one after the other.
    pub fn iter(&self) -> RowsIter<'r> {
        RowsIter {
            names: self.names,
            rows: self.cells.in_rows(self.width()),
        }
    }

    /// The values alone, each of its own.
    pub fn to_vec(&self) -> Vec<Vec<Value>> {
        self.iter().map(|row| row.values().map(Value::from).collect()).collect()
    }

    /// The same rows as the program's own, for when the statement is executed again.
    pub fn to_rows(&self) -> Rows {
        Rows {
            names: Arc::clone(self.names),
            cells: self.cells.to_own(),
            given: 0,
        }
    }

    /// Whether they have more cells than one would keep room for.
    pub(crate) fn are_many(&self) -> bool {
        self.cells.len() > 65_536
    }

    /// What a function makes of the first row.
    pub(crate) fn first<T>(self, read: impl FnOnce(&Row<'_>) -> Result<T>) -> Result<T> {
        match self.get(0) {
            Some(row) => read(&row),
            None => Err(Error::NoRows),
        }
    }

    /// How many columns there are, and 1 where there are no rows at all.
    #[inline]
    fn width(&self) -> usize {
        self.names.len().max(1)
    }
}

impl fmt::Debug for RowsRef<'_> {
    fn fmt(&self, to: &mut fmt::Formatter<'_>) -> fmt::Result {
        to.debug_list().entries(*self).finish()
    }
}

impl<'r> IntoIterator for &RowsRef<'r> {
    type Item = Row<'r>;
    type IntoIter = RowsIter<'r>;

    fn into_iter(self) -> RowsIter<'r> {
        self.iter()
    }
}

impl<'r> IntoIterator for RowsRef<'r> {
    type Item = Row<'r>;
    type IntoIter = RowsIter<'r>;

    fn into_iter(self) -> RowsIter<'r> {
        self.iter()
    }
}

/// Rows are equal if the names of their columns and their values are.
impl PartialEq for Rows {
    fn eq(&self, other: &Rows) -> bool {
        self.names == other.names && self.iter().eq(other.iter())
    }
}

impl Eq for Rows {}

impl fmt::Debug for Rows {
    fn fmt(&self, to: &mut fmt::Formatter<'_>) -> fmt::Result {
        to.debug_list().entries(self).finish()
    }
}

impl<'rows> IntoIterator for &'rows Rows {
    type Item = Row<'rows>;
    type IntoIter = RowsIter<'rows>;

    fn into_iter(self) -> RowsIter<'rows> {
        self.iter()
    }
}

/// Gives rows, one after the other.
#[derive(Clone)]
#[must_use = "rows are read as they are asked for"]
pub struct RowsIter<'rows> {
    names: &'rows [String],
    rows: CellRows<'rows>,
}

impl<'rows> RowsIter<'rows> {
    #[inline]
    fn row(&self, cells: Cells<'rows>) -> Row<'rows> {
        Row {
            names: self.names,
            cells,
        }
    }
}

impl fmt::Debug for RowsIter<'_> {
    fn fmt(&self, to: &mut fmt::Formatter<'_>) -> fmt::Result {
        to.debug_list().entries(self.clone()).finish()
    }
}

impl<'rows> Iterator for RowsIter<'rows> {
    type Item = Row<'rows>;

    #[inline]
    fn next(&mut self) -> Option<Row<'rows>> {
        self.rows.next().map(|cells| self.row(cells))
    }

    #[inline]
    fn nth(&mut self, passed: usize) -> Option<Row<'rows>> {
        self.rows.nth(passed).map(|cells| self.row(cells))
    }

    fn size_hint(&self) -> (usize, Option<usize>) {
        self.rows.size_hint()
    }
}

impl DoubleEndedIterator for RowsIter<'_> {
    fn next_back(&mut self) -> Option<Self::Item> {
        self.rows.next_back().map(|cells| self.row(cells))
    }
}

impl ExactSizeIterator for RowsIter<'_> {}

/// What [`Database::query_map`](crate::Database::query_map) returns: what the function makes of each row.
#[derive(Clone)]
#[must_use = "the function is called as its results are asked for"]
pub struct MappedRows<F> {
    rows: Rows,
    next: usize,
    map: F,
}

impl<F> MappedRows<F> {
    pub(crate) fn new(rows: Rows, map: F) -> MappedRows<F> {
        MappedRows { rows, next: 0, map }
    }
}

impl<F> fmt::Debug for MappedRows<F> {
    fn fmt(&self, to: &mut fmt::Formatter<'_>) -> fmt::Result {
        to.debug_list().entries(self.rows.iter().skip(self.next)).finish()
    }
}

impl<T, E, F: FnMut(&Row<'_>) -> Result<T, E>> Iterator for MappedRows<F> {
    type Item = Result<T, E>;

    fn next(&mut self) -> Option<Result<T, E>> {
        let row = self.rows.get(self.next)?;
        self.next += 1;
        Some((self.map)(&row))
    }

    fn size_hint(&self) -> (usize, Option<usize>) {
        let left = self.rows.len() - self.next;
        (left, Some(left))
    }
}

impl<T, E, F: FnMut(&Row<'_>) -> Result<T, E>> ExactSizeIterator for MappedRows<F> {}

/// What [`Statement::query_map`](crate::Statement::query_map) returns: what the function makes of each row.
#[derive(Clone)]
#[must_use = "the function is called as its results are asked for"]
pub struct MappedRowsRef<'rows, F> {
    rows: RowsIter<'rows>,
    map: F,
}

impl<'rows, F> MappedRowsRef<'rows, F> {
    pub(crate) fn new(rows: RowsRef<'rows>, map: F) -> MappedRowsRef<'rows, F> {
        MappedRowsRef { rows: rows.iter(), map }
    }
}

impl<F> fmt::Debug for MappedRowsRef<'_, F> {
    fn fmt(&self, to: &mut fmt::Formatter<'_>) -> fmt::Result {
        self.rows.fmt(to)
    }
}

impl<T, E, F: FnMut(&Row<'_>) -> Result<T, E>> Iterator for MappedRowsRef<'_, F> {
    type Item = Result<T, E>;

    fn next(&mut self) -> Option<Result<T, E>> {
        self.rows.next().map(|row| (self.map)(&row))
    }

    fn size_hint(&self) -> (usize, Option<usize>) {
        self.rows.size_hint()
    }
}

impl<T, E, F: FnMut(&Row<'_>) -> Result<T, E>> ExactSizeIterator for MappedRowsRef<'_, F> {}
