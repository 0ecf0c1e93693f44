//! What a value of a row is read as.

use std::fmt;

use crate::value::{Value, ValueRef};

/// What a value of a row can be read as. A text can be read as `&str`, which the rows lend.
///
/// A type of a program's own is read from one that is there:
///
/// ```
/// use mmdb::{FromValue, FromValueError, ValueRef};
///
/// #[derive(Debug, PartialEq)]
/// struct Percent(u8);
///
/// impl FromValue<'_> for Percent {
///     fn from_value(value: ValueRef<'_>) -> Result<Percent, FromValueError> {
///         match u8::from_value(value)? {
///             percent @ 0..=100 => Ok(Percent(percent)),
///             other => Err(FromValueError::Other(format!("{other} is past 100"))),
///         }
///     }
/// }
///
/// assert_eq!(Percent::from_value(ValueRef::Integer(7)), Ok(Percent(7)));
/// assert!(Percent::from_value(ValueRef::Integer(101)).is_err());
/// ```
pub trait FromValue<'r>: Sized {
    /// Reads the value.
    fn from_value(value: ValueRef<'r>) -> Result<Self, FromValueError>;
}

/// Why a value isn't read as the type that was asked for.
#[derive(Clone, Debug, PartialEq, Eq)]
#[non_exhaustive]
pub enum FromValueError {
    /// It is null, which an [`Option`] of the type takes.
    Null {
        /// The type that was asked for.
        wanted: &'static str,
    },
    /// It is an integer where a text was asked for, or a text where an integer was.
    WrongType {
        /// What it is: `integer` or `text`.
        found: &'static str,
        /// The type that was asked for.
        wanted: &'static str,
    },
    /// It is an integer that the type doesn't have.
    OutOfRange {
        /// The integer.
        integer: i64,
        /// The type that was asked for.
        wanted: &'static str,
    },
    /// What a type of the program's own says.
    Other(String),
}

impl FromValueError {
    #[cold]
    fn of(value: ValueRef<'_>, wanted: &'static str) -> FromValueError {
        match value {
            ValueRef::Null => FromValueError::Null { wanted },
            ValueRef::Integer(_) => FromValueError::WrongType {
                found: "integer",
                wanted,
            },
            ValueRef::Text(_) => FromValueError::WrongType { found: "text", wanted },
        }
    }
}

impl fmt::Display for FromValueError {
    fn fmt(&self, to: &mut fmt::Formatter<'_>) -> fmt::Result {
        match self {
            FromValueError::Null { wanted } => write!(to, "null is no {wanted}, but an Option of it takes null"),
            FromValueError::WrongType { found, wanted } => write!(to, "the {found} is no {wanted}"),
            FromValueError::OutOfRange { integer, wanted } => write!(to, "the integer {integer} is no {wanted}"),
            FromValueError::Other(text) => to.write_str(text),
        }
    }
}

impl std::error::Error for FromValueError {}

impl<'r> FromValue<'r> for ValueRef<'r> {
    #[inline]
    fn from_value(value: ValueRef<'r>) -> Result<Self, FromValueError> {
        Ok(value)
    }
}

impl FromValue<'_> for Value {
    #[inline]
    fn from_value(value: ValueRef<'_>) -> Result<Self, FromValueError> {
        Ok(value.into())
    }
}

impl<'r> FromValue<'r> for &'r str {
    #[inline]
    fn from_value(value: ValueRef<'r>) -> Result<Self, FromValueError> {
        match value {
            ValueRef::Text(text) => Ok(text),
            other => Err(FromValueError::of(other, "text")),
        }
    }
}

impl FromValue<'_> for String {
    #[inline]
    fn from_value(value: ValueRef<'_>) -> Result<Self, FromValueError> {
        <&str>::from_value(value).map(str::to_string)
    }
}

/// Null is `None`.
impl<'r, T: FromValue<'r>> FromValue<'r> for Option<T> {
    #[inline]
    fn from_value(value: ValueRef<'r>) -> Result<Self, FromValueError> {
        match value {
            ValueRef::Null => Ok(None),
            other => T::from_value(other).map(Some),
        }
    }
}

/// 0 is `false`, and 1 is `true`.
impl FromValue<'_> for bool {
    #[inline]
    fn from_value(value: ValueRef<'_>) -> Result<Self, FromValueError> {
        match value {
            ValueRef::Integer(0) => Ok(false),
            ValueRef::Integer(1) => Ok(true),
            ValueRef::Integer(integer) => Err(FromValueError::OutOfRange {
                integer,
                wanted: "bool",
            }),
            other => Err(FromValueError::of(other, "bool")),
        }
    }
}

macro_rules! integers {
    ($($integer:ty),*) => {
        $(impl FromValue<'_> for $integer {
            #[inline]
            fn from_value(value: ValueRef<'_>) -> Result<Self, FromValueError> {
                let wanted = stringify!($integer);
                match value {
                    ValueRef::Integer(integer) => {
                        <$integer>::try_from(integer).map_err(|_| FromValueError::OutOfRange { integer, wanted })
                    }
                    other => Err(FromValueError::of(other, wanted)),
                }
            }
        })*
    };
}

integers!(i8, i16, i32, i64, i128, isize, u8, u16, u32, u64, u128, usize);
