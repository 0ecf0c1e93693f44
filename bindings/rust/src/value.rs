//! The values of rows and of parameters.

use crate::error::Error;

/// A value of its own. The order is that of a distinct select: null, then integers, then texts by their bytes.
///
/// ```
/// use mmdb::Value;
///
/// assert_eq!(Value::from(7), Value::Integer(7));
/// assert_eq!(Value::from(None::<&str>), Value::Null);
/// assert!(Value::try_from(u64::MAX).is_err());
/// ```
#[derive(Clone, Debug, PartialEq, Eq, PartialOrd, Ord, Hash)]
pub enum Value {
    /// No value.
    Null,
    /// An integer.
    Integer(i64),
    /// A text.
    Text(String),
}

impl Value {
    /// The integer, if it is one.
    pub fn as_integer(&self) -> Option<i64> {
        match self {
            Value::Integer(integer) => Some(*integer),
            _ => None,
        }
    }

    /// The text, if it is one.
    pub fn as_text(&self) -> Option<&str> {
        match self {
            Value::Text(text) => Some(text),
            _ => None,
        }
    }

    /// Whether it is null.
    pub fn is_null(&self) -> bool {
        *self == Value::Null
    }
}

/// A value whose text is lent.
#[derive(Clone, Copy, Debug, PartialEq, Eq, PartialOrd, Ord, Hash)]
pub enum ValueRef<'a> {
    /// No value.
    Null,
    /// An integer.
    Integer(i64),
    /// A text.
    Text(&'a str),
}

impl<'a> From<&'a Value> for ValueRef<'a> {
    fn from(value: &'a Value) -> ValueRef<'a> {
        match value {
            Value::Null => ValueRef::Null,
            Value::Integer(integer) => ValueRef::Integer(*integer),
            Value::Text(text) => ValueRef::Text(text),
        }
    }
}

impl From<ValueRef<'_>> for Value {
    fn from(value: ValueRef<'_>) -> Value {
        match value {
            ValueRef::Null => Value::Null,
            ValueRef::Integer(integer) => Value::Integer(integer),
            ValueRef::Text(text) => Value::Text(text.to_string()),
        }
    }
}

impl From<&str> for Value {
    fn from(text: &str) -> Value {
        Value::Text(text.to_string())
    }
}

impl From<String> for Value {
    fn from(text: String) -> Value {
        Value::Text(text)
    }
}

impl From<&String> for Value {
    fn from(text: &String) -> Value {
        Value::Text(text.clone())
    }
}

/// `None` is null.
impl<T: Into<Value>> From<Option<T>> for Value {
    fn from(value: Option<T>) -> Value {
        value.map_or(Value::Null, Into::into)
    }
}

macro_rules! from_integers {
    ($($integer:ty),*) => {
        $(impl From<$integer> for Value {
            fn from(integer: $integer) -> Value {
                Value::Integer(integer.into())
            }
        })*
    };
}

macro_rules! try_from_integers {
    ($($integer:ty),*) => {
        $(
            /// Returns [`Error::IntegerOutOfRange`] for an integer that isn't one of `i64`.
            impl TryFrom<$integer> for Value {
                type Error = Error;

                fn try_from(integer: $integer) -> Result<Value, Error> {
                    let fitting = i64::try_from(integer).ok();
                    fitting.map(Value::Integer).ok_or_else(|| Error::IntegerOutOfRange {
                        integer: integer.to_string(),
                    })
                }
            }
        )*
    };
}

from_integers!(bool, i8, i16, i32, i64, u8, u16, u32);
try_from_integers!(isize, i128, u64, usize, u128);
