//! How a database is opened.

/// The greatest number of rows of a table, and of bytes of a block.
pub const MOST: u32 = 1 << 24;

/// How plans are chosen. No policy changes an answer.
#[derive(Clone, Copy, Debug, Default, PartialEq, Eq, Hash)]
pub enum Policy {
    /// By what is there.
    #[default]
    Auto = 0,
    /// Every row is looked at.
    Scan = 1,
    /// By hashes, where it can be.
    Hash = 2,
    /// By trees, where it can be.
    Tree = 3,
    /// By merging, where it can be.
    Merge = 4,
}

/// The limits of a database.
#[derive(Clone, Copy, Debug, PartialEq, Eq, Hash)]
pub struct Limits {
    /// The greatest number of rows of a table, 1 to [`MOST`].
    pub rows: u32,
    /// The greatest number of bytes of the block of a load, or of the line `dump`, up to [`MOST`].
    pub block: u32,
}

impl Default for Limits {
    /// The widest limits.
    fn default() -> Limits {
        Limits {
            rows: MOST,
            block: MOST,
        }
    }
}
