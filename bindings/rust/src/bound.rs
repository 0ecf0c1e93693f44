//! The values for the places of a line.

use crate::value::ValueRef;

/// Values in the order of the places, in room that is used again.
#[derive(Debug, Default)]
pub(crate) struct Bound {
    values: Vec<Given>,
    texts: String,
}

/// A value: a text by its place and length among the texts.
#[derive(Clone, Copy, Debug)]
enum Given {
    Null,
    Integer(i64),
    Text { at: usize, length: usize },
}

impl Bound {
    pub(crate) fn clear(&mut self) {
        self.values.clear();
        self.texts.clear();
    }

    pub(crate) fn push(&mut self, value: ValueRef<'_>) {
        self.values.push(match value {
            ValueRef::Null => Given::Null,
            ValueRef::Integer(integer) => Given::Integer(integer),
            ValueRef::Text(text) => {
                let at = self.texts.len();
                self.texts.push_str(text);
                Given::Text { at, length: text.len() }
            }
        });
    }

    pub(crate) fn len(&self) -> usize {
        self.values.len()
    }

    pub(crate) fn iter(&self) -> impl Iterator<Item = ValueRef<'_>> {
        self.values.iter().map(move |value| match *value {
            Given::Null => ValueRef::Null,
            Given::Integer(integer) => ValueRef::Integer(integer),
            Given::Text { at, length } => ValueRef::Text(&self.texts[at..at + length]),
        })
    }

    /// Whether a text has a line feed.
    pub(crate) fn has_line_feed(&self) -> bool {
        self.texts.contains('\n')
    }
}
