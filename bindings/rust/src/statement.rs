//! A statement that a program keeps.

use std::fmt;

use crate::database::Database;
use crate::error::{Error, Result};
use crate::kept::Kept;
use crate::pages::MappedPages;
use crate::params::Params;
use crate::row::{ColumnIndex, Row};
use crate::rows::{MappedRowsRef, RowsRef};

/// An insert, an update, a delete or a select that was prepared, and is executed with other values each time.
///
/// It borrows its database, and is freed where it is dropped. As many may be there at once as are wanted, and the calls of
/// the database are made beside them.
///
/// ```
/// use mmdb::Database;
///
/// let db = Database::open_in_memory()?;
/// db.execute("table t (id int, s text)", [])?;
/// {
///     let mut insert = db.prepare("insert t (?, ?)")?;
///     let mut find = db.prepare("select s from t where id = ?")?;
///     for id in 0..100 {
///         assert_eq!(insert.execute((id, format!("row {id}")))?, 1);
///         assert!(find.query_row([id], |row| Ok(row.get::<_, &str>(0)?.len() > 4))?);
///     }
/// }
/// assert_eq!(db.execute("delete t", [])?, 100);
/// # Ok::<(), mmdb::Error>(())
/// ```
///
/// Rows can't be read once their statement is executed again:
///
/// ```compile_fail,E0499
/// # let db = mmdb::Database::open_in_memory()?;
/// # db.execute("table t (id int)", [])?;
/// let mut all = db.prepare("select * from t where id > ?")?;
/// let rows = all.query([1])?;
/// all.query([2])?;
/// assert!(rows.is_empty());
/// # Ok::<(), mmdb::Error>(())
/// ```
///
/// Nor can a statement be used once it was dropped, or dropped twice:
///
/// ```compile_fail,E0382
/// # let db = mmdb::Database::open_in_memory()?;
/// # db.execute("table t (id int)", [])?;
/// let all = db.prepare("select * from t")?;
/// drop(all);
/// drop(all);
/// # Ok::<(), mmdb::Error>(())
/// ```
///
/// What a statement means is asked of the tables as they are when it is executed. Rows that it lent stay what they are:
///
/// ```
/// # let db = mmdb::Database::open_in_memory()?;
/// # db.execute("table t (id int)", [])?;
/// # db.execute("insert t (7)", [])?;
/// let mut all = db.prepare("select * from t")?;
/// let rows = all.query([])?;
/// db.execute("drop table t", [])?;
/// assert_eq!(rows.get(0).expect("a row").get(0), Ok(7));
/// assert_eq!(all.query([]).unwrap_err().number(), Some(30));
/// # Ok::<(), mmdb::Error>(())
/// ```
///
/// A database isn't closed while there are statements:
///
/// ```compile_fail,E0505
/// # let db = mmdb::Database::open_in_memory()?;
/// # db.execute("table t (id int)", [])?;
/// let mut all = db.prepare("select * from t")?;
/// drop(db);
/// all.query([])?;
/// # Ok::<(), mmdb::Error>(())
/// ```
///
/// And it is of one thread at a time:
///
/// ```compile_fail,E0277
/// # let db = mmdb::Database::open_in_memory()?;
/// let lent = &db;
/// std::thread::scope(|threads| {
///     threads.spawn(move || lent.execute("table t (id int)", []));
/// });
/// # Ok::<(), mmdb::Error>(())
/// ```
pub struct Statement<'db> {
    db: &'db Database,
    kept: Kept,
}

impl<'db> Statement<'db> {
    pub(crate) fn new(db: &'db Database, kept: Kept) -> Statement<'db> {
        Statement { db, kept }
    }

    /// Executes the insert, the update or the delete, and returns the number of rows.
    /// [`Error::NotAChange`](crate::Error::NotAChange) says that it is a select.
    pub fn execute<P: Params>(&mut self, params: P) -> Result<usize> {
        self.db.told_change(&mut self.kept, params)
    }

    /// Executes the insert, the update or the delete with each of these rows of values, all of them or none, and returns the number of
    /// all rows. A refusal of a row that isn't done tells its number, counted from 1, as that of a record.
    /// [`Error::NotAChange`](crate::Error::NotAChange) says that the statement is a select.
    ///
    /// ```
    /// # let db = mmdb::Database::open_in_memory()?;
    /// # db.execute("table t (id int, s text)", [])?;
    /// let mut insert = db.prepare("insert t (?, ?)")?;
    /// assert_eq!(insert.execute_many((0..1000).map(|id| (id, format!("row {id}"))))?, 1000);
    /// assert_eq!(insert.execute_many([(1001, "a"), (7, "b")]).unwrap_err().number(), Some(41));
    /// assert_eq!(db.prepare("select * from t")?.count([])?, 1000);
    /// # Ok::<(), mmdb::Error>(())
    /// ```
    pub fn execute_many<P: Params>(&mut self, rows: impl IntoIterator<Item = P>) -> Result<usize> {
        self.db.told(self.kept.change_many(self.db, rows))
    }

    /// The rows of the select, which are lent until it is executed again or asked for its first rows.
    /// [`Error::NotASelect`](crate::Error::NotASelect) says that it is none.
    ///
    /// ```
    /// # let db = mmdb::Database::open_in_memory()?;
    /// # db.execute("table t (id int, s text)", [])?;
    /// # db.load("t", [(1, "a"), (2, "b")])?;
    /// let mut all = db.prepare("select * from t where id > ?")?;
    /// let mut long = 0;
    /// for row in all.query([0])? {
    ///     let (id, text): (i64, &str) = (row.get(0)?, row.get("s")?);
    ///     long += id * text.len() as i64;
    /// }
    /// assert_eq!(long, 3);
    /// # Ok::<(), mmdb::Error>(())
    /// ```
    pub fn query<P: Params>(&mut self, params: P) -> Result<RowsRef<'_>> {
        self.kept.rows(self.db.handle(), params, self.db.declared(), None)
    }

    /// The first rows of the select, so many at most, in the order in which [`query`](Statement::query) returns all of them. They
    /// are lent as those are, and found as those of [`Database::first`].
    ///
    /// ```
    /// # let db = mmdb::Database::open_in_memory()?;
    /// # db.execute("table t (id int)", [])?;
    /// # db.load("t", (1..=7).map(|id| [id]))?;
    /// let mut next = db.prepare("select id from t where id > ?")?;
    /// let (mut last, mut lasts) = (0, Vec::new());
    /// while let Some(row) = next.first(3, [last])?.iter().last() {
    ///     last = row.get(0)?;
    ///     lasts.push(last);
    /// }
    /// assert_eq!(lasts, [3, 6, 7]);
    /// # Ok::<(), mmdb::Error>(())
    /// ```
    pub fn first<P: Params>(&mut self, most: usize, params: P) -> Result<RowsRef<'_>> {
        self.kept.rows(self.db.handle(), params, self.db.declared(), Some(most))
    }

    /// What a function makes of each row of the select, in order.
    pub fn query_map<T, P, F>(&mut self, params: P, map: F) -> Result<MappedRowsRef<'_, F>>
    where
        P: Params,
        F: FnMut(&Row<'_>) -> Result<T>,
    {
        Ok(MappedRowsRef::new(self.query(params)?, map))
    }

    /// The same, by a function with errors of the program's own.
    pub fn query_and_then<T, E, P, F>(&mut self, params: P, map: F) -> Result<MappedRowsRef<'_, F>>
    where
        P: Params,
        E: From<Error>,
        F: FnMut(&Row<'_>) -> Result<T, E>,
    {
        Ok(MappedRowsRef::new(self.query(params)?, map))
    }

    /// What a function makes of each row of the select, in order, of which so many are held at a time. It works as
    /// [`Database::query_pages`], and goes on when the statement is executed again or dropped.
    pub fn query_pages<T, P, F>(&mut self, most: usize, params: P, map: F) -> Result<MappedPages<'db, F>>
    where
        P: Params,
        F: FnMut(&Row<'_>) -> Result<T>,
    {
        self.db.query_pages(most, self.kept.line(), params, map)
    }

    /// What a function makes of the first row of the select. Those behind it are passed over.
    /// [`Error::NoRows`](crate::Error::NoRows) says that there is none.
    pub fn query_row<T, P, F>(&mut self, params: P, read: F) -> Result<T>
    where
        P: Params,
        F: FnOnce(&Row<'_>) -> Result<T>,
    {
        self.query(params)?.first(read)
    }

    /// How many rows the select shows, which are counted and not made.
    /// [`Error::NotASelect`](crate::Error::NotASelect) says that it is none.
    ///
    /// ```
    /// # let db = mmdb::Database::open_in_memory()?;
    /// # db.execute("table t (id int, s text)", [])?;
    /// # db.load("t", [(1, "a"), (2, "b")])?;
    /// let mut after = db.prepare("select * from t where id > ?")?;
    /// assert_eq!((after.count([0])?, after.count([1])?), (2, 1));
    /// # Ok::<(), mmdb::Error>(())
    /// ```
    pub fn count<P: Params>(&mut self, params: P) -> Result<usize> {
        self.kept.count(self.db.handle(), params)
    }

    /// The number of a column of its rows, counted from 0, by its name as for [`Row::get`]. A program that reads many rows
    /// asks for it once.
    ///
    /// ```
    /// # let db = mmdb::Database::open_in_memory()?;
    /// # db.execute("table t (id int, s text)", [])?;
    /// # db.load("t", [(1, "a"), (2, "b")])?;
    /// let mut all = db.prepare("select * from t where id > ?")?;
    /// let text = all.column_index("s")?;
    /// for row in all.query([0])? {
    ///     assert_eq!(row.get::<_, &str>(text)?.len(), 1);
    /// }
    /// # Ok::<(), mmdb::Error>(())
    /// ```
    pub fn column_index<I: ColumnIndex>(&mut self, column: I) -> Result<usize> {
        column.place_in(self.column_names()?)
    }

    /// The names of the columns that the rows of the select have, each as `table.column`. There are none of a change.
    pub fn column_names(&mut self) -> Result<&[String]> {
        self.kept.names(self.db.handle(), self.db.declared())
    }
}

impl Drop for Statement<'_> {
    fn drop(&mut self) {
        self.kept.finalize(self.db.handle());
    }
}

impl fmt::Debug for Statement<'_> {
    fn fmt(&self, to: &mut fmt::Formatter<'_>) -> fmt::Result {
        to.debug_tuple("Statement").field(&self.kept.line()).finish()
    }
}
