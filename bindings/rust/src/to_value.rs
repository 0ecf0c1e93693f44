//! What may be a parameter.

use std::borrow::Cow;
use std::rc::Rc;
use std::sync::Arc;

use crate::error::Error;
use crate::value::{Value, ValueRef};

/// What is a value of a database, as a parameter of a line or in a row that is loaded.
///
/// Your own type is one by lending its value, or by making it:
///
/// ```
/// use mmdb::{Error, ToValue, ToValueOutput, Value};
///
/// struct Day(u16, u8, u8);
///
/// impl ToValue for Day {
///     fn to_value(&self) -> Result<ToValueOutput<'_>, Error> {
///         Ok(Value::from(format!("{:04}-{:02}-{:02}", self.0, self.1, self.2)).into())
///     }
/// }
///
/// assert_eq!(Day(1986, 5, 28).to_value(), Ok(Value::from("1986-05-28").into()));
/// ```
pub trait ToValue {
    /// The value. [`Error::IntegerOutOfRange`] if it is an integer that isn't one of `i64`.
    fn to_value(&self) -> Result<ToValueOutput<'_>, Error>;
}

/// A value that is lent, or one of its own.
#[derive(Clone, Debug, PartialEq, Eq)]
pub enum ToValueOutput<'a> {
    /// It is lent.
    Borrowed(ValueRef<'a>),
    /// It was made.
    Owned(Value),
}

impl<'a> From<&'a ToValueOutput<'_>> for ValueRef<'a> {
    fn from(value: &'a ToValueOutput<'_>) -> ValueRef<'a> {
        match value {
            ToValueOutput::Borrowed(value) => *value,
            ToValueOutput::Owned(value) => value.into(),
        }
    }
}

impl<'a> From<ValueRef<'a>> for ToValueOutput<'a> {
    fn from(value: ValueRef<'a>) -> ToValueOutput<'a> {
        ToValueOutput::Borrowed(value)
    }
}

impl From<Value> for ToValueOutput<'_> {
    fn from(value: Value) -> Self {
        ToValueOutput::Owned(value)
    }
}

impl ToValue for Value {
    fn to_value(&self) -> Result<ToValueOutput<'_>, Error> {
        Ok(ValueRef::from(self).into())
    }
}

impl ToValue for ValueRef<'_> {
    fn to_value(&self) -> Result<ToValueOutput<'_>, Error> {
        Ok((*self).into())
    }
}

impl ToValue for str {
    fn to_value(&self) -> Result<ToValueOutput<'_>, Error> {
        Ok(ValueRef::Text(self).into())
    }
}

impl ToValue for String {
    fn to_value(&self) -> Result<ToValueOutput<'_>, Error> {
        self.as_str().to_value()
    }
}

/// `None` is null.
impl<T: ToValue> ToValue for Option<T> {
    fn to_value(&self) -> Result<ToValueOutput<'_>, Error> {
        self.as_ref().map_or(Ok(ValueRef::Null.into()), T::to_value)
    }
}

impl<T: ToValue + ToOwned + ?Sized> ToValue for Cow<'_, T> {
    fn to_value(&self) -> Result<ToValueOutput<'_>, Error> {
        self.as_ref().to_value()
    }
}

macro_rules! by_reference {
    ($($pointer:ty),*) => {
        $(impl<T: ToValue + ?Sized> ToValue for $pointer {
            fn to_value(&self) -> Result<ToValueOutput<'_>, Error> {
                (**self).to_value()
            }
        })*
    };
}

macro_rules! integers {
    ($($integer:ty),*) => {
        $(impl ToValue for $integer {
            fn to_value(&self) -> Result<ToValueOutput<'_>, Error> {
                Ok(ValueRef::Integer((*self).into()).into())
            }
        })*
    };
}

macro_rules! wide_integers {
    ($($integer:ty),*) => {
        $(impl ToValue for $integer {
            fn to_value(&self) -> Result<ToValueOutput<'_>, Error> {
                Value::try_from(*self).map(ToValueOutput::Owned)
            }
        })*
    };
}

/// 1 and 0.
impl ToValue for bool {
    fn to_value(&self) -> Result<ToValueOutput<'_>, Error> {
        Ok(ValueRef::Integer((*self).into()).into())
    }
}

by_reference!(&T, &mut T, Box<T>, Rc<T>, Arc<T>);
integers!(i8, i16, i32, i64, u8, u16, u32);
wide_integers!(isize, i128, u64, usize, u128);
