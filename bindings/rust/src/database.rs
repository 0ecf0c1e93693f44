//! A database, and its calls.

use std::fmt;
use std::sync::Arc;

use crate::columns::Tables;
use crate::error::{Error, Result};
use crate::index::{indexes_of, Index};
use crate::kept::{why_not_kept, why_not_prepared, InUse, Kept, Lines};
use crate::known::Known;
use crate::library::{Cursor, Declined, Handle};
use crate::limits::{Limits, Policy};
use crate::line::{first_word, has_places, is_change, is_select};
use crate::outcome::{count_of, Outcome};
use crate::pages::MappedPages;
use crate::params::Params;
use crate::readers::Readers;
use crate::row::Row;
use crate::rows::{MappedRows, Rows, RowsRef};
use crate::session::{Session, ERROR};
use crate::statement::Statement;
use crate::watch::Watches;

/// A database in main memory, without tables at first, until it is dropped.
pub struct Database {
    session: Session,
    known: Known,
    limits: Limits,
    /// The statements of the lines that were executed and queried.
    lines: Lines,
    /// Who is told of changes.
    watches: Watches,
    /// The answer that is lent where somebody was told of a change behind it.
    lent: Vec<u8>,
}

impl Database {
    /// Opens a database under the widest limits, whose plans are chosen by what is there.
    ///
    /// It is refused with the number 90 when out of memory.
    pub fn open_in_memory() -> Result<Database> {
        Database::open(Policy::default(), Limits::default())
    }

    /// Opens a database.
    ///
    /// It is refused with the number 90 when out of memory, and by [`Error::OutOfRange`] if the limits are out of
    /// range.
    pub fn open(policy: Policy, limits: Limits) -> Result<Database> {
        let handle = Handle::open(policy as u32, limits.rows, limits.block)?;
        Ok(Database::over(handle, limits))
    }

    /// Lends the database to readers, each for a thread of its own. While it is lent a change of it doesn't compile.
    ///
    /// ```
    /// let mut db = mmdb::Database::open_in_memory()?;
    /// db.execute("table t (id int, s text)", [])?;
    /// db.execute("insert t (1, 'a')", [])?;
    /// let readers = db.readers();
    /// std::thread::scope(|threads| {
    ///     for _ in 0..4 {
    ///         threads.spawn(|| {
    ///             let reader = readers.reader().unwrap();
    ///             let mut find = reader.prepare("select s from t where id = ?").unwrap();
    ///             let text: String = find.query_row([1], |row| row.get(0)).unwrap();
    ///             assert_eq!(text, "a");
    ///         });
    ///     }
    /// });
    /// db.execute("insert t (2, 'b')", [])?;
    /// # Ok::<(), mmdb::Error>(())
    /// ```
    ///
    /// No change is made while there are readers:
    ///
    /// ```compile_fail,E0502
    /// let mut db = mmdb::Database::open_in_memory()?;
    /// let readers = db.readers();
    /// db.execute("table t (id int)", [])?;
    /// readers.reader()?;
    /// # Ok::<(), mmdb::Error>(())
    /// ```
    ///
    /// And no reader is there once they end:
    ///
    /// ```compile_fail,E0597
    /// let mut db = mmdb::Database::open_in_memory()?;
    /// let reader = {
    ///     let readers = db.readers();
    ///     readers.reader()?
    /// };
    /// reader.query("select * from t", [])?;
    /// # Ok::<(), mmdb::Error>(())
    /// ```
    pub fn readers(&mut self) -> Readers<'_> {
        Readers::of(self)
    }

    /// Prepares an insert, an update, a delete or a select, to be executed more than once. [`Error::NotAStatement`]
    /// says that the line is another command.
    ///
    /// Its places are as in [`execute`](Database::execute). What can't be done whatever the values are is refused here;
    /// the refusal has the line with nulls in its places.
    ///
    /// ```
    /// let db = mmdb::Database::open_in_memory()?;
    /// db.execute("table t (id int, s text)", [])?;
    /// let mut insert = db.prepare("insert t (?, ?)")?;
    /// for (id, text) in [(1, "a"), (2, "two\nlines")] {
    ///     assert_eq!(insert.execute((id, text))?, 1);
    /// }
    /// assert_eq!(db.prepare("select nothing from t").unwrap_err().number(), Some(32));
    /// # Ok::<(), mmdb::Error>(())
    /// ```
    pub fn prepare(&self, line: &str) -> Result<Statement<'_>> {
        if !is_change(line) && !is_select(line) {
            return Err(Error::NotAStatement);
        }
        match Kept::prepare(self.handle(), line) {
            Ok(kept) => Ok(Statement::new(self, kept)),
            Err(declined) => Err(why_not_prepared(self.handle(), line, declined)),
        }
    }

    /// Executes a command, and returns the number of rows of an `insert`, an `update` or a `delete`; 0 for any other.
    ///
    /// The statement of a line with places is kept, so that it isn't read again when the line comes again.
    ///
    /// Each place of the line outside of texts takes a parameter: each `?` in order, or each `:name` by its name. A
    /// parameter is one value, whatever it contains, and never a part of the command.
    ///
    /// ```
    /// use mmdb::{named_params, params};
    ///
    /// let db = mmdb::Database::open_in_memory()?;
    /// db.execute("table t (id int, s text)", [])?;
    /// assert_eq!(db.execute("insert t (?, ?)", params![1, "it's"])?, 1);
    /// assert_eq!(db.execute("insert t (?, ?)", (2, "or a tuple"))?, 1);
    /// assert_eq!(db.execute("update t set s = :s where id < :id", named_params! { ":id": 9, ":s": "?" })?, 2);
    /// # Ok::<(), mmdb::Error>(())
    /// ```
    ///
    /// [`Error::NotAChange`] says that the line is a `select`, a `dump` or `tables`: [`query`](Database::query),
    /// [`dump`](Database::dump) and [`command`](Database::command) give what these answer.
    pub fn execute<P: Params>(&self, line: &str, params: P) -> Result<usize> {
        if let Some(mut kept) = self.lines.find(self.handle(), line) {
            return self.told_change(&mut kept, params);
        }
        match first_word(line) {
            "select" | "dump" | "tables" => Err(Error::NotAChange),
            "insert" | "update" | "delete" => self.change_anew(line, params),
            _ => self.told(self.session.ask(line, params, |answer| {
                self.known.heed(answer.as_bytes());
                count_of(answer).unwrap_or(0)
            })),
        }
    }

    /// The rows of a select. [`Error::NotASelect`] says that the line is none, and then it isn't done.
    pub fn query<P: Params>(&self, line: &str, params: P) -> Result<Rows> {
        self.select(line, params, None, |rows| Ok(rows.to_rows()))
    }

    /// The first rows of a select, so many at most, in the order in which [`query`](Database::query) returns all of them.
    /// [`Error::NotASelect`] says that the line is none.
    ///
    /// Of one table no more rows are looked at than it takes, unless an index on another column finds them. With `distinct` and
    /// with joins all are found first. So a large table is read page by page, and may change between two pages:
    ///
    /// ```
    /// let db = mmdb::Database::open_in_memory()?;
    /// db.execute("table t (id int, s text)", [])?;
    /// db.load("t", (1..=1000).map(|id| (id, "a")))?;
    ///
    /// let page = db.first(100, "select * from t", [])?;
    /// let last: i64 = page.get(99).expect("a row").get("id")?;
    /// let next = db.first(100, "select * from t where id > ?", [last])?;
    /// assert_eq!((next.len(), next.get(0).expect("a row").get("id")), (100, Ok(101)));
    /// # Ok::<(), mmdb::Error>(())
    /// ```
    pub fn first<P: Params>(&self, most: usize, line: &str, params: P) -> Result<Rows> {
        self.select(line, params, Some(most), |rows| Ok(rows.to_rows()))
    }

    /// What a function makes of each row of a select, in order.
    ///
    /// ```
    /// let db = mmdb::Database::open_in_memory()?;
    /// db.execute("table t (id int, s text)", [])?;
    /// db.load("t", [(1, "a"), (2, "b")])?;
    ///
    /// let found = db.query_map("select * from t where id > ?", [0], |row| Ok((row.get("id")?, row.get("s")?)))?;
    /// let found: Vec<(i64, String)> = found.collect::<mmdb::Result<_>>()?;
    /// assert_eq!(found, [(1, "a".to_string()), (2, "b".to_string())]);
    /// # Ok::<(), mmdb::Error>(())
    /// ```
    pub fn query_map<T, P, F>(&self, line: &str, params: P, map: F) -> Result<MappedRows<F>>
    where
        P: Params,
        F: FnMut(&Row<'_>) -> Result<T>,
    {
        Ok(MappedRows::new(self.query(line, params)?, map))
    }

    /// The same as [`query_map`](Database::query_map), by a function with errors of the program's own.
    ///
    /// ```
    /// # #[derive(Debug)]
    /// enum Wrong {
    ///     Refused(mmdb::Error),
    ///     Short(String),
    /// }
    ///
    /// impl From<mmdb::Error> for Wrong {
    ///     fn from(error: mmdb::Error) -> Wrong {
    ///         Wrong::Refused(error)
    ///     }
    /// }
    ///
    /// # fn main() -> Result<(), Wrong> {
    /// let db = mmdb::Database::open_in_memory()?;
    /// db.execute("table t (id int, s text)", [])?;
    /// db.load("t", [(1, "a"), (2, "bcd")])?;
    /// let long = |row: &mmdb::Row<'_>| match row.get::<_, String>("s")? {
    ///     text if text.len() < 2 => Err(Wrong::Short(text)),
    ///     text => Ok(text),
    /// };
    /// let found: Vec<Result<String, Wrong>> = db.query_and_then("select * from t", [], long)?.collect();
    /// assert!(matches!(&found[..], [Err(Wrong::Short(_)), Ok(_)]));
    /// # Ok(())
    /// # }
    /// ```
    pub fn query_and_then<T, E, P, F>(&self, line: &str, params: P, map: F) -> Result<MappedRows<F>>
    where
        P: Params,
        E: From<Error>,
        F: FnMut(&Row<'_>) -> Result<T, E>,
    {
        Ok(MappedRows::new(self.query(line, params)?, map))
    }

    /// What a function makes of each row of a select, in order, of which so many are held at a time: a page, of 1 row at least.
    ///
    /// The first page is read here, and each further one when its first row is asked for, of one table by the last key.
    /// [`Error::Changed`] is given in the place of the first row of a page, and is the last, if the table was changed since the first
    /// page was read. [`Error::NotASelect`] says that the line is none.
    ///
    /// A select of several tables, a `distinct` one, and one that has as many items or conditions as may be are read by a cursor: their
    /// rows are found here, and held as references to those of the tables. Until the last page was read, or this is dropped, nobody
    /// changes the tables, by [`Error::Shared`]. In a transaction such a select is read whole here.
    ///
    /// ```
    /// let db = mmdb::Database::open_in_memory()?;
    /// db.execute("table t (id int, s text)", [])?;
    /// db.load("t", (0..1000).map(|id| (id, "a")))?;
    ///
    /// let mut sum = 0;
    /// for id in db.query_pages(100, "select id from t where s = ?", ["a"], |row| row.get::<_, i64>(0))? {
    ///     sum += id?;
    /// }
    /// assert_eq!(sum, 499_500);
    ///
    /// let mut ids = db.query_pages(2, "select id from t", [], |row| row.get::<_, i64>(0))?;
    /// db.execute("delete t where id = 1", [])?;
    /// assert_eq!((ids.next(), ids.next()), (Some(Ok(0)), Some(Ok(1))));
    /// assert!(matches!(ids.next(), Some(Err(mmdb::Error::Changed { .. }))) && ids.next().is_none());
    ///
    /// let mut texts = db.query_pages(1, "select distinct s from t", [], |row| row.get::<_, String>(0))?;
    /// assert_eq!((texts.next(), db.execute("delete t", [])), (Some(Ok("a".to_string())), Err(mmdb::Error::Shared)));
    /// drop(texts);
    /// assert_eq!(db.execute("delete t", [])?, 999);
    /// # Ok::<(), mmdb::Error>(())
    /// ```
    pub fn query_pages<T, P, F>(&self, most: usize, line: &str, params: P, map: F) -> Result<MappedPages<'_, F>>
    where
        P: Params,
        F: FnMut(&Row<'_>) -> Result<T>,
    {
        MappedPages::begin(self, most, line, params, map)
    }

    /// What a function makes of the first row of a select. Those behind it are passed over.
    ///
    /// [`Error::NoRows`] says that there is none, and [`optional`](crate::OptionalExtension::optional) makes `None` of
    /// that.
    ///
    /// ```
    /// use mmdb::OptionalExtension;
    ///
    /// let db = mmdb::Database::open_in_memory()?;
    /// db.execute("table t (id int, s text)", [])?;
    /// db.execute("insert t (1, 'a')", [])?;
    ///
    /// let text: String = db.query_row("select s from t where id = ?", [1], |row| row.get(0))?;
    /// assert_eq!(text, "a");
    /// let none = db.query_row("select s from t where id = ?", [2], |row| row.get::<_, String>(0)).optional()?;
    /// assert_eq!(none, None);
    /// # Ok::<(), mmdb::Error>(())
    /// ```
    pub fn query_row<T, P, F>(&self, line: &str, params: P, read: F) -> Result<T>
    where
        P: Params,
        F: FnOnce(&Row<'_>) -> Result<T>,
    {
        self.select(line, params, None, |rows| rows.first(read))
    }

    /// How many rows a select shows, which are counted and not made. [`Error::NotASelect`] says that the line is none.
    ///
    /// ```
    /// let db = mmdb::Database::open_in_memory()?;
    /// db.execute("table t (id int, s text)", [])?;
    /// db.load("t", [(1, "a"), (2, "b"), (3, "b")])?;
    ///
    /// assert_eq!(db.count("select * from t where s = ?", ["b"])?, 2);
    /// assert_eq!(db.count("select distinct s from t", [])?, 2);
    /// # Ok::<(), mmdb::Error>(())
    /// ```
    pub fn count<P: Params>(&self, line: &str, params: P) -> Result<usize> {
        let (mut kept, params) = self.kept_select(line, params)?;
        kept.count(self.handle(), params)
    }

    /// Does any command, and gives what it answers.
    pub fn command<P: Params>(&self, line: &str, params: P) -> Result<Outcome> {
        if is_select(line) {
            return self.query(line, params).map(Outcome::Rows);
        }
        if is_change(line) {
            return self.change(line, params).map(Outcome::Count);
        }
        self.told(self.session.ask(line, params, |answer| {
            self.known.heed(answer.as_bytes());
            Outcome::of(line, answer)
        }))
    }

    /// All rows of a table by rising keys, with the bare names of its columns. They are cells, and no block whose bytes
    /// are limited.
    pub fn dump(&self, table: &str) -> Result<Rows> {
        let names = match self.tables()?.get(table) {
            Some(columns) => columns.iter().map(|column| column.name.clone()).collect(),
            None => return Err(self.why_not(format!("dump {table}"))),
        };
        let mut all = self.prepare(&format!("select * from {table}"))?;
        Ok(all.query([])?.to_rows().with_names(names))
    }

    /// The state of the indexes of a table: that of its key, and then the declared ones in order.
    ///
    /// ```
    /// let db = mmdb::Database::open_in_memory()?;
    /// db.execute("table t (id int, s text)", [])?;
    /// db.execute("index t s hash", [])?;
    /// db.execute("insert t (1, 'a')", [])?;
    ///
    /// let indexes = db.indexes("t")?;
    /// assert_eq!(indexes.len(), 2);
    /// assert!(matches!(indexes[0].shape, mmdb::IndexShape::Tree { height: 1, nodes: 1, .. }));
    /// assert!(matches!(indexes[1].shape, mmdb::IndexShape::Hash { buckets: 4, longest: 1, .. }));
    /// # Ok::<(), mmdb::Error>(())
    /// ```
    pub fn indexes(&self, table: &str) -> Result<Vec<Index>> {
        self.session.indexes(table, indexes_of)
    }

    /// A database of its own with the same tables, rows and indexes, under the same limits. They are copied as they lie in memory.
    /// [`Error::InTransaction`] in a transaction.
    ///
    /// ```
    /// let db = mmdb::Database::open_in_memory()?;
    /// db.execute("table t (id int)", [])?;
    ///
    /// let copy = db.try_clone()?;
    /// copy.execute("insert t (1)", [])?;
    /// assert_eq!((copy.count("select * from t", [])?, db.count("select * from t", [])?), (1, 0));
    /// # Ok::<(), mmdb::Error>(())
    /// ```
    pub fn try_clone(&self) -> Result<Database> {
        Ok(Database::over(self.handle().try_clone()?, self.limits))
    }

    /// The number of the newest change of any table. Each command that changes rows raises it, so whoever keeps something beside
    /// the tables sees by it that this is old. What is refused doesn't raise it. [`watch`](Database::watch) tells of it.
    ///
    /// ```
    /// let db = mmdb::Database::open_in_memory()?;
    /// db.execute("table t (id int)", [])?;
    /// db.execute("table u (id int)", [])?;
    ///
    /// let (before, of_t, of_u) = (db.version()?, db.table_version("t")?, db.table_version("u")?);
    /// db.execute("insert t (1)", [])?;
    /// assert!(db.version()? > before && db.table_version("t")? > of_t);
    /// assert_eq!(db.table_version("u")?, of_u);
    /// # Ok::<(), mmdb::Error>(())
    /// ```
    pub fn version(&self) -> Result<u64> {
        self.session.version("")
    }

    /// The number of the newest change of a table's rows. A rollback raises that of every table.
    pub fn table_version(&self, table: &str) -> Result<u64> {
        match table {
            // An empty name would stand for all tables; it is refused as a dump of no table is.
            "" => Err(self.why_not("dump ".to_string())),
            _ => self.session.version(table),
        }
    }

    /// The plan of a select, in words for people: a step in each line. The select isn't done.
    ///
    /// ```
    /// let db = mmdb::Database::open_in_memory()?;
    /// db.execute("table t (id int, s text)", [])?;
    ///
    /// let plan = db.plan("select s from t where id = ?", [1])?;
    /// assert_eq!(plan, ["search of t by the key, 0 rows", "show the only row from where it lies"]);
    /// # Ok::<(), mmdb::Error>(())
    /// ```
    pub fn plan<P: Params>(&self, line: &str, params: P) -> Result<Vec<String>> {
        self.session
            .plan(line, params, |told| told.lines().map(str::to_string).collect())
    }

    /// The bytes that the library answers to a line, refusals too. They are none for comments and blank lines.
    pub fn answer(&mut self, line: &[u8]) -> Result<&[u8]> {
        self.session.handle().command(line)?;
        Ok(self.heeded())
    }

    /// The bytes that the library answers to the line of a load and its block, refusals too.
    pub fn answer_to_load(&mut self, line: &[u8], block: &[u8]) -> Result<&[u8]> {
        self.session.handle().load(line, block)?;
        Ok(self.heeded())
    }

    /// Why [`answer`](Database::answer) or [`answer_to_load`](Database::answer_to_load) returned a refusal of this
    /// line with its block, in a line of words for people.
    ///
    /// It is asked right behind that call. There is none where that was no refusal, and none where no memory is found
    /// for the words.
    pub fn reason(&self, line: &[u8], block: &[u8]) -> Option<String> {
        self.handle().reason(line, block)
    }
}

impl Database {
    /// The answer just given. By a declaration in it, what is known is forgotten.
    fn heeded(&mut self) -> &[u8] {
        let answer = self.session.handle().answer();
        self.known.heed(answer);
        // (what is refused has changed nothing, and its reason may be asked for next)
        if self.watches.are_there() && !answer.starts_with(ERROR.as_bytes()) {
            self.lent = answer.to_vec();
            self.tell();
            return &self.lent;
        }
        self.session.handle().answer()
    }

    /// Why a line isn't done that names no table: as the library says. It takes a name between blanks too, which the
    /// crate doesn't.
    fn why_not(&self, line: String) -> Error {
        let refused = self.session.send(&line, &[], |_| ()).err();
        refused.unwrap_or_else(|| Error::Refused {
            number: 30,
            text: "no such table".to_string(),
            written: line.clone(),
            line,
            reason: None,
        })
    }

    fn over(handle: Handle, limits: Limits) -> Database {
        Database {
            session: Session::over(handle),
            known: Known::default(),
            limits,
            lines: Lines::default(),
            watches: Watches::default(),
            lent: Vec::new(),
        }
    }

    /// Another database that shares the tables.
    pub(crate) fn reader(&self) -> Result<Database> {
        let reader = Database::over(self.handle().share()?, self.limits);
        reader.known.follow(&self.known);
        Ok(reader)
    }

    /// Has another database share the tables, in the place of its own.
    pub(crate) fn share_with(&self, reader: &Database) -> Result<()> {
        self.handle().share_with(reader.handle())?;
        reader.known.follow(&self.known);
        Ok(())
    }

    pub(crate) fn session(&self) -> &Session {
        &self.session
    }

    /// The columns of each table.
    pub(crate) fn tables(&self) -> Result<Arc<Tables>> {
        self.known.tables(&self.session)
    }

    pub(crate) fn limits(&self) -> Limits {
        self.limits
    }

    pub(crate) fn handle(&self) -> &Handle {
        &self.session.handle
    }

    pub(crate) fn watches(&self) -> &Watches {
        &self.watches
    }

    /// Tells those who watch what was changed.
    #[inline]
    pub(crate) fn tell(&self) {
        if self.watches.are_there() {
            self.watches.tell(self.handle());
        }
    }

    /// What a call made, once those who watch were told what it changed.
    #[inline]
    pub(crate) fn told<T>(&self, made: T) -> T {
        self.tell();
        made
    }

    /// Forgets what is known of the columns, once a rollback may have undone declarations.
    pub(crate) fn forget_columns(&self) {
        self.known.forget();
    }

    /// The number of the declarations as they are.
    pub(crate) fn declared(&self) -> u64 {
        self.known.declared()
    }

    /// Does a change by its statement, and tells those who watch. What is refused has changed nothing.
    #[inline]
    pub(crate) fn told_change<P: Params>(&self, kept: &mut Kept, params: P) -> Result<usize> {
        let changed = kept.change(self.handle(), params)?;
        self.tell();
        Ok(changed)
    }

    /// Does an insert, an update or a delete.
    fn change<P: Params>(&self, line: &str, params: P) -> Result<usize> {
        match self.lines.find(self.handle(), line) {
            Some(mut kept) => self.told_change(&mut kept, params),
            None => self.change_anew(line, params),
        }
    }

    /// The same, where its statement isn't kept. One without places is seldom done twice, so it stays so, and so does one
    /// for which no memory is found.
    fn change_anew<P: Params>(&self, line: &str, params: P) -> Result<usize> {
        let handle = self.handle();
        if has_places(line) {
            match self.lines.keep(handle, line) {
                Ok(mut kept) => return self.told_change(&mut kept, params),
                Err(Declined::Refused) => return Err(why_not_kept(handle, line, params, Declined::Refused)),
                Err(_) => {}
            }
        }
        self.told(self.session.ask(line, params, |answer| count_of(answer).unwrap_or(0)))
    }

    /// The statement of a select, which is kept by its line, and the parameters for it.
    fn kept_select<P: Params>(&self, line: &str, params: P) -> Result<(InUse<'_>, P)> {
        let handle = self.handle();
        match self.lines.find(handle, line) {
            Some(kept) => Ok((kept, params)),
            None if !is_select(line) => Err(Error::NotASelect),
            None => match self.lines.keep(handle, line) {
                Ok(kept) => Ok((kept, params)),
                Err(declined) => Err(why_not_kept(handle, line, params, declined)),
            },
        }
    }

    /// A cursor on the rows of a select, and the names of their columns.
    pub(crate) fn cursor<P: Params>(&self, line: &str, params: P) -> Result<(Cursor<'_>, Arc<Vec<String>>)> {
        let (mut kept, params) = self.kept_select(line, params)?;
        kept.cursor(self.handle(), params, self.known.declared())
    }

    /// What is made of the rows of a select, which its statement lends, or of the first of them. Where they are many, their room
    /// isn't kept.
    fn select<P, T>(
        &self,
        line: &str,
        params: P,
        most: Option<usize>,
        make: impl FnOnce(RowsRef<'_>) -> Result<T>,
    ) -> Result<T>
    where
        P: Params,
    {
        let handle = self.handle();
        let (mut kept, params) = self.kept_select(line, params)?;
        let rows = kept.rows(handle, params, self.known.declared(), most)?;
        let are_many = rows.are_many();
        let made = make(rows);
        if are_many {
            kept.let_go(handle);
        }
        made
    }
}

impl fmt::Debug for Database {
    fn fmt(&self, to: &mut fmt::Formatter<'_>) -> fmt::Result {
        to.debug_struct("Database").finish_non_exhaustive()
    }
}
