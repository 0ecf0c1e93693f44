//! How the indexes of a table stand.

/// An index of a table, and its state.
#[derive(Clone, Debug, PartialEq, Eq)]
#[non_exhaustive]
pub struct Index {
    /// The name of its column.
    pub column: String,
    /// How many rows it has: all of the table.
    pub rows: usize,
    /// What its kind has.
    pub shape: IndexShape,
}

/// The state of an index, by its kind.
#[derive(Clone, Copy, Debug, PartialEq, Eq)]
#[non_exhaustive]
pub enum IndexShape {
    /// A tree.
    #[non_exhaustive]
    Tree {
        /// How many nodes lie one below the other at most.
        height: usize,
        /// How many nodes there are, of at most 32 rows each.
        nodes: usize,
        /// How many rows a node has in the mean, rounded down.
        fill: usize,
    },
    /// A hash.
    #[non_exhaustive]
    Hash {
        /// How many buckets there are.
        buckets: usize,
        /// How many rows stand in the fullest bucket.
        longest: usize,
    },
}

impl Index {
    /// The index of a record.
    fn of(record: &str) -> Option<Index> {
        let mut fields = record.split(',');
        let column = fields.next()?.to_string();
        let kind = fields.next()?;
        let mut numbers = fields.filter_map(|field| field.parse().ok());
        let rows = numbers.next()?;
        let shape = if kind == "tree" {
            IndexShape::Tree {
                height: numbers.next()?,
                nodes: numbers.next()?,
                fill: numbers.next()?,
            }
        } else {
            IndexShape::Hash {
                buckets: numbers.next()?,
                longest: numbers.next()?,
            }
        };
        Some(Index { column, rows, shape })
    }
}

/// The indexes in an answer.
pub(crate) fn indexes_of(answer: &str) -> Vec<Index> {
    answer.lines().skip(2).filter_map(Index::of).collect()
}
