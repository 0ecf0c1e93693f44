//! The parameters of lines, and rows of values.

use crate::error::Error;
use crate::line::Binding;
use crate::to_value::ToValue;
use crate::value::Value;

/// What takes the values of [`Values`].
pub type Take<'t> = dyn FnMut(&dyn ToValue) -> Result<(), Error> + 't;

/// Values in an order: the parameters of a line, or a row to load.
///
/// A slice, a `Vec`, an array of up to 32 or a tuple of up to 16 of what is [`ToValue`] has them, and so does a
/// reference to one of these; none are `[]` and `()`. Your own struct can be a row:
///
/// ```
/// use mmdb::{Error, Take, Values};
///
/// struct Person { id: u32, name: String }
///
/// impl Values for Person {
///     fn each(&self, take: &mut Take<'_>) -> Result<(), Error> {
///         take(&self.id)?;
///         take(&self.name)
///     }
/// }
///
/// let db = mmdb::Database::open_in_memory()?;
/// db.execute("table person (id int, name text)", [])?;
/// let people = [Person { id: 1, name: "Ann".to_string() }];
/// assert_eq!(db.load("person", &people)?, 1);
/// # Ok::<(), Error>(())
/// ```
pub trait Values {
    /// Passes on each value, in order, and ends if one of them isn't taken.
    fn each(&self, take: &mut Take<'_>) -> Result<(), Error>;
}

/// The parameters of a line: [`Values`] for its places `?`, or names with values for its places `:name`. Your own
/// type has them by [`Values`].
pub trait Params {
    /// Gives the values for their places.
    #[doc(hidden)]
    fn bind(self, line: &mut Binding<'_>) -> Result<(), Error>;
}

impl<V: Values> Params for V {
    fn bind(self, line: &mut Binding<'_>) -> Result<(), Error> {
        self.each(&mut |value| line.put(value))
    }
}

/// Each name has its colon, as in the line.
impl<T: ToValue> Params for &[(&str, T)] {
    fn bind(self, line: &mut Binding<'_>) -> Result<(), Error> {
        if let Some((name, _)) = self.iter().find(|(name, _)| !line.has_place(name)) {
            let name = name.to_string();
            return Err(Error::UnknownParameter { name });
        }
        line.put_named(|place| {
            let given = self.iter().find(|(name, _)| *name == place);
            given.map(|(_, value)| value as &dyn ToValue)
        })
    }
}

/// Values for the places of a line in their order, which may have names.
#[derive(Clone, Copy)]
pub(crate) struct InOrder<'v>(pub(crate) &'v [Value]);

impl Params for InOrder<'_> {
    fn bind(self, line: &mut Binding<'_>) -> Result<(), Error> {
        line.put_in_order(self.0);
        Ok(())
    }
}

/// What [`params_from_iter`] returns.
#[derive(Clone, Debug)]
pub struct ParamsFromIter<I>(I);

/// The values of an iterator as the parameters of a line.
///
/// ```
/// let db = mmdb::Database::open_in_memory()?;
/// db.execute("table t (a int, b int)", [])?;
/// assert_eq!(db.execute("insert t (?, ?)", mmdb::params_from_iter(1..3))?, 1);
/// # Ok::<(), mmdb::Error>(())
/// ```
pub fn params_from_iter<I>(values: I) -> ParamsFromIter<I>
where
    I: IntoIterator,
    I::Item: ToValue,
{
    ParamsFromIter(values)
}

impl<I> Params for ParamsFromIter<I>
where
    I: IntoIterator,
    I::Item: ToValue,
{
    fn bind(self, line: &mut Binding<'_>) -> Result<(), Error> {
        self.0.into_iter().try_for_each(|value| line.put(&value))
    }
}

impl<V: Values + ?Sized> Values for &V {
    fn each(&self, take: &mut Take<'_>) -> Result<(), Error> {
        (**self).each(take)
    }
}

impl<T: ToValue> Values for [T] {
    fn each(&self, take: &mut Take<'_>) -> Result<(), Error> {
        self.iter().try_for_each(|value| take(value))
    }
}

impl<T: ToValue> Values for Vec<T> {
    fn each(&self, take: &mut Take<'_>) -> Result<(), Error> {
        self.as_slice().each(take)
    }
}

/// No values. The element has one type, so that `[]` needs none.
impl Values for [&dyn ToValue; 0] {
    fn each(&self, _take: &mut Take<'_>) -> Result<(), Error> {
        Ok(())
    }
}

impl Values for () {
    fn each(&self, _take: &mut Take<'_>) -> Result<(), Error> {
        Ok(())
    }
}

macro_rules! arrays {
    ($($length:literal)*) => {
        $(impl<T: ToValue> Values for [T; $length] {
            fn each(&self, take: &mut Take<'_>) -> Result<(), Error> {
                self.as_slice().each(take)
            }
        })*
    };
}

arrays!(1 2 3 4 5 6 7 8 9 10 11 12 13 14 15 16 17 18 19 20 21 22 23 24 25 26 27 28 29 30 31 32);

/// A tuple of these types, and each shorter one.
macro_rules! tuples {
    () => {};
    ($first:ident $($more:ident)*) => {
        impl<$first: ToValue, $($more: ToValue),*> Values for ($first, $($more,)*) {
            #[allow(non_snake_case)]
            fn each(&self, take: &mut Take<'_>) -> Result<(), Error> {
                let ($first, $($more,)*) = self;
                take($first)?;
                $(take($more)?;)*
                Ok(())
            }
        }
        tuples!($($more)*);
    };
}

tuples!(A B C D E F G H I J K L M N O P);
