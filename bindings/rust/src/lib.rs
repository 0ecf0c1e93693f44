//! mmdb, a relational database in main memory, in this process.
//!
//! ```
//! use mmdb::{params, Database};
//!
//! # fn main() -> mmdb::Result<()> {
//! let db = Database::open_in_memory()?;
//! db.execute("table book (id int, title text)", [])?;
//! {
//!     let mut insert = db.prepare("insert book (?, ?)")?;
//!     assert_eq!(insert.execute(params![1, "It's ?"])?, 1);
//!     assert_eq!(insert.execute((2, "Two\nlines"))?, 1);
//! }
//!
//! let rows = db.query("select * from book where id < ?", [2])?;
//! for row in &rows {
//!     let (id, title): (i64, &str) = (row.get("id")?, row.get("title")?);
//!     assert_eq!((id, title), (1, "It's ?"));
//! }
//!
//! let refused = db.execute("insert book (1, 'again')", []).expect_err("the key is there");
//! assert_eq!((refused.number(), refused.reason()), (Some(41), Some("book has a row with the key 1")));
//! # Ok(())
//! # }
//! ```
//!
//! Lines with values are read once: [`Database::prepare`] returns a [`Statement`], and [`Database::execute`] and
//! [`Database::query`] keep those of their lines.
//!
//! [`Database::transaction`] begins a transaction, [`Database::load`] and [`Database::load_csv_from`] insert any number of rows or
//! none, and threads read a [`Shared`] database at the same time. [`Database::save`] writes a whole database, and
//! [`Database::restore`] makes one of that.
//!
//! The archive `libmmdb.a` is linked from the folder that the environment variable `MMDB_LIBRARY` names when the crate
//! is built, else from `release` of a clone, else from where pkg-config knows `mmdb`.

#![warn(missing_docs, missing_debug_implementations)]

/// Tests the program of the README.
#[cfg(doctest)]
#[doc = include_str!("../README.md")]
pub struct Readme;

mod bound;
mod cells;
mod columns;
mod csv;
mod csv_options;
mod database;
mod error;
mod fields;
mod files;
mod from_value;
mod index;
mod interrupter;
mod kept;
mod known;
mod library;
mod limits;
mod line;
mod loading;
mod many;
mod optional;
mod outcome;
mod pages;
mod params;
mod pointing;
mod readers;
mod records;
mod restoring;
mod row;
mod rows;
mod saving;
mod session;
mod shared;
mod spelling;
mod statement;
mod to_value;
mod transaction;
mod value;
mod watch;

pub use csv_options::CsvOptions;
pub use database::Database;
pub use error::{Error, Result};
pub use from_value::{FromValue, FromValueError};
pub use index::{Index, IndexShape};
pub use interrupter::Interrupter;
pub use limits::{Limits, Policy, MOST};
pub use optional::OptionalExtension;
pub use outcome::Outcome;
pub use pages::MappedPages;
pub use params::{params_from_iter, Params, ParamsFromIter, Take, Values};
pub use readers::{Reader, Readers};
pub use row::{ColumnIndex, Row};
pub use rows::{MappedRows, MappedRowsRef, Rows, RowsIter, RowsRef};
pub use shared::{Reading, Shared, SharedReader, Writing};
pub use statement::Statement;
pub use to_value::{ToValue, ToValueOutput};
pub use transaction::Transaction;
pub use value::{Value, ValueRef};
pub use watch::Watch;

/// Parameters of several types, for the places `?` of a line in their order: a slice of references.
///
/// ```
/// let db = mmdb::Database::open_in_memory()?;
/// db.execute("table t (id int, s text)", mmdb::params![])?;
/// assert_eq!(db.execute("insert t (?, ?)", mmdb::params![1, "a"])?, 1);
/// # Ok::<(), mmdb::Error>(())
/// ```
#[macro_export]
macro_rules! params {
    ($($value:expr),* $(,)?) => {
        &[$(&$value as &dyn $crate::ToValue),*] as &[&dyn $crate::ToValue]
    };
}

/// Parameters with names, for the places `:name` of a line: each name as it is there, with its colon.
///
/// ```
/// use mmdb::named_params;
///
/// let db = mmdb::Database::open_in_memory()?;
/// db.execute("table t (id int, s text)", [])?;
/// assert_eq!(db.execute("insert t (:id, :s)", named_params! { ":s": "a", ":id": 1 })?, 1);
/// # Ok::<(), mmdb::Error>(())
/// ```
#[macro_export]
macro_rules! named_params {
    ($($name:literal: $value:expr),* $(,)?) => {
        &[$(($name, &$value as &dyn $crate::ToValue)),*] as &[(&str, &dyn $crate::ToValue)]
    };
}
