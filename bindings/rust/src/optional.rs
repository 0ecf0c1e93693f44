//! When no row is no error.

use crate::error::{Error, Result};

/// Makes `None` of [`Error::NoRows`].
pub trait OptionalExtension<T> {
    /// What was made of a row, or `None` if the select has none.
    fn optional(self) -> Result<Option<T>>;
}

impl<T> OptionalExtension<T> for Result<T> {
    fn optional(self) -> Result<Option<T>> {
        match self {
            Err(Error::NoRows) => Ok(None),
            other => other.map(Some),
        }
    }
}
