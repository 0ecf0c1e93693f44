//! A row, and its columns by name or number.

use std::fmt;

use crate::cells::Cells;
use crate::error::{Error, Result};
use crate::from_value::{FromValue, FromValueError};
use crate::value::ValueRef;

/// A row of [`Rows`](crate::Rows) or of [`RowsRef`](crate::RowsRef), which lend it.
///
/// The values of its first columns are also had as a tuple, by `try_into`.
///
/// ```
/// let db = mmdb::Database::open_in_memory()?;
/// db.execute("table t (id int, s text)", [])?;
/// db.execute("insert t (1, 'a')", [])?;
///
/// let rows = db.query("select * from t", [])?;
/// let row = rows.get(0).expect("there is a row");
/// assert_eq!(row.get::<_, i64>("id")?, 1);
/// assert_eq!(row.get::<_, Option<&str>>(1)?, Some("a"));
/// assert!(row.get::<_, u8>("t.s").is_err());
/// let (id, text): (i64, &str) = row.try_into()?;
/// assert_eq!((id, text), (1, "a"));
/// # Ok::<(), mmdb::Error>(())
/// ```
#[derive(Clone, Copy)]
pub struct Row<'r> {
    pub(crate) names: &'r [String],
    pub(crate) cells: Cells<'r>,
}

impl<'r> Row<'r> {
    /// The value of a column, as the requested type.
    ///
    /// The column is named by its number, from 0, or by its name: as `table.column`, or as `column` alone if one
    /// column of the row has that name. [`Error::NoSuchIndex`], [`Error::NoSuchColumn`] and
    /// [`Error::AmbiguousColumn`] say that it isn't one of these; [`Error::Unread`] that its value isn't of that type.
    #[inline]
    pub fn get<I: ColumnIndex, T: FromValue<'r>>(&self, column: I) -> Result<T> {
        let at = column.place_in(self.names)?;
        T::from_value(self.value(at)).map_err(|cause| self.unread(at, cause))
    }

    /// The value of a column as it is. The column is named as for [`Row::get`].
    #[inline]
    pub fn get_ref<I: ColumnIndex>(&self, column: I) -> Result<ValueRef<'r>> {
        column.place_in(self.names).map(|at| self.value(at))
    }

    /// The names of the columns, in order.
    pub fn column_names(&self) -> &'r [String] {
        self.names
    }

    /// The values, in the order of the columns.
    pub fn values(&self) -> impl Iterator<Item = ValueRef<'r>> {
        self.cells.values()
    }

    /// The first so many of its columns.
    pub(crate) fn front(&self, width: usize) -> Row<'r> {
        Row {
            names: &self.names[..width],
            cells: self.cells.part(0, width).unwrap_or(self.cells),
        }
    }

    #[inline]
    pub(crate) fn value(&self, at: usize) -> ValueRef<'r> {
        self.cells.value(at)
    }

    /// That the value of a column isn't read, and why.
    #[cold]
    fn unread(&self, at: usize, cause: FromValueError) -> Error {
        let column = self.names[at].clone();
        Error::Unread { column, cause }
    }
}

/// A tuple of these types, and each shorter one, of the first columns of a row.
macro_rules! tuples {
    () => {};
    ($first:ident $($more:ident)*) => {
        /// The values of the first columns.
        impl<'r, $first: FromValue<'r>, $($more: FromValue<'r>),*> TryFrom<&Row<'r>> for ($first, $($more,)*) {
            type Error = Error;

            fn try_from(row: &Row<'r>) -> Result<Self> {
                let mut columns = 0..;
                let mut next = || columns.next().unwrap_or(usize::MAX);
                Ok((row.get::<_, $first>(next())?, $(row.get::<_, $more>(next())?,)*))
            }
        }

        /// The values of the first columns.
        impl<'r, $first: FromValue<'r>, $($more: FromValue<'r>),*> TryFrom<Row<'r>> for ($first, $($more,)*) {
            type Error = Error;

            fn try_from(row: Row<'r>) -> Result<Self> {
                (&row).try_into()
            }
        }

        tuples!($($more)*);
    };
}

tuples!(A B C D E F G H I J K L M N O P);

/// Rows are equal where their values are.
impl PartialEq for Row<'_> {
    fn eq(&self, other: &Row<'_>) -> bool {
        self.values().eq(other.values())
    }
}

impl Eq for Row<'_> {}

impl fmt::Debug for Row<'_> {
    fn fmt(&self, to: &mut fmt::Formatter<'_>) -> fmt::Result {
        to.debug_map().entries(self.names.iter().zip(self.values())).finish()
    }
}

/// What names a column of a row: its number, counted from 0, or its name.
pub trait ColumnIndex {
    /// The number of the column, by the names of all.
    fn place_in(&self, names: &[String]) -> Result<usize>;
}

impl ColumnIndex for usize {
    #[inline]
    fn place_in(&self, names: &[String]) -> Result<usize> {
        match (*self, names.len()) {
            (index, columns) if index < columns => Ok(index),
            (index, columns) => Err(Error::NoSuchIndex { index, columns }),
        }
    }
}

impl ColumnIndex for str {
    fn place_in(&self, names: &[String]) -> Result<usize> {
        let mut found = None;
        for (place, name) in names.iter().enumerate() {
            if name == self {
                return Ok(place);
            }
            if is_bare(self, name) && found.replace(place).is_some() {
                return Err(Error::AmbiguousColumn { name: self.to_string() });
            }
        }
        found.ok_or_else(|| Error::NoSuchColumn { name: self.to_string() })
    }
}

impl ColumnIndex for String {
    fn place_in(&self, names: &[String]) -> Result<usize> {
        self.as_str().place_in(names)
    }
}

impl<I: ColumnIndex + ?Sized> ColumnIndex for &I {
    #[inline]
    fn place_in(&self, names: &[String]) -> Result<usize> {
        (**self).place_in(names)
    }
}

/// Whether a name is another one without its table. The dot is looked at first, since most names fail there.
fn is_bare(bare: &str, name: &str) -> bool {
    let (bare, name) = (bare.as_bytes(), name.as_bytes());
    let dot = name.len().checked_sub(bare.len() + 1);
    dot.map_or(false, |dot| name[dot] == b'.' && name[dot + 1..] == *bare)
}
