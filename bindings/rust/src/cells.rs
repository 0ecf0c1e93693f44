//! Cells of rows: as the library lends them, and as a program keeps them.

use std::marker::PhantomData;
use std::slice::ChunksExact;
use std::{slice, str};

use crate::value::ValueRef;

const INTEGER: u16 = 1;
const TEXT: u16 = 2;

/// The `mmdb_cell` of mmdb.h: a value, of a text where it begins among the texts, and how long it is.
#[derive(Clone, Copy, Debug)]
#[repr(C)]
pub(crate) struct Cell {
    integer: i64,
    at: u32,
    length: u16,
    kind: u16,
}

impl Cell {
    /// Where its text ends among the texts.
    fn end(&self) -> usize {
        match self.kind {
            TEXT => self.at as usize + self.length as usize,
            _ => 0,
        }
    }
}

impl Cell {
    const NULL: Cell = Cell {
        integer: 0,
        at: 0,
        length: 0,
        kind: 0,
    };
}

/// Rows of values that a program hands in, as cells.
#[derive(Default)]
pub(crate) struct GivenCells {
    pub(crate) cells: Vec<Cell>,
    pub(crate) texts: Vec<u8>,
}

impl GivenCells {
    pub(crate) fn clear(&mut self) {
        self.cells.clear();
        self.texts.clear();
    }

    /// How many bytes they take.
    pub(crate) fn size(&self) -> usize {
        self.cells.len() * std::mem::size_of::<Cell>() + self.texts.len()
    }

    /// Puts a value behind the others. Of a text that has more bytes than a cell can tell, a front is put there: no table has texts that
    /// long, so that it stands in the same order to each of them, and is as much too long to be stored.
    pub(crate) fn push(&mut self, value: ValueRef<'_>) {
        self.cells.push(match value {
            ValueRef::Null => Cell::NULL,
            ValueRef::Integer(integer) => Cell {
                integer,
                kind: INTEGER,
                ..Cell::NULL
            },
            ValueRef::Text(text) => {
                let front = front_of(text);
                let at = self.texts.len() as u32;
                self.texts.extend_from_slice(front.as_bytes());
                Cell {
                    at,
                    length: front.len() as u16,
                    kind: TEXT,
                    ..Cell::NULL
                }
            }
        });
    }
}

/// As much of a text as a cell can tell the length of.
fn front_of(text: &str) -> &str {
    let mut end = text.len().min(u16::MAX as usize);
    while !text.is_char_boundary(end) {
        end -= 1;
    }
    &text[..end]
}

/// Cells that are lent, with their texts.
#[derive(Clone, Copy)]
pub(crate) struct Cells<'c> {
    cells: &'c [Cell],
    /// Where the texts of these cells begin.
    texts: *const u8,
    lent: PhantomData<&'c [u8]>,
}

// SAFETY: the texts are only read, and are lent as the cells are, so that this is a pair of shared slices.
unsafe impl Send for Cells<'_> {}
// SAFETY: as above.
unsafe impl Sync for Cells<'_> {}

impl<'c> Cells<'c> {
    /// Cells, and where the texts begin that they tell of.
    ///
    /// # Safety
    ///
    /// As long as they are lent, nothing writes to the cells or to their texts, of which each is UTF-8 and stands, by
    /// its place and its length, in one block that begins there.
    #[inline]
    pub(crate) unsafe fn new(cells: &'c [Cell], texts: *const u8) -> Cells<'c> {
        Cells {
            cells,
            texts,
            lent: PhantomData,
        }
    }

    pub(crate) fn len(self) -> usize {
        self.cells.len()
    }

    /// The value of a cell. It panics past the last, as a slice does.
    #[inline]
    pub(crate) fn value(self, at: usize) -> ValueRef<'c> {
        self.value_of(&self.cells[at])
    }

    pub(crate) fn values(self) -> impl Iterator<Item = ValueRef<'c>> {
        self.cells.iter().map(move |cell| self.value_of(cell))
    }

    /// So many of the cells, from one on, if they are there.
    #[inline]
    pub(crate) fn part(self, from: usize, count: usize) -> Option<Cells<'c>> {
        let cells = self.cells.get(from..from.checked_add(count)?)?;
        Some(Cells { cells, ..self })
    }

    /// The cells in rows of a width, which isn't 0.
    pub(crate) fn in_rows(self, width: usize) -> CellRows<'c> {
        CellRows {
            rows: self.cells.chunks_exact(width),
            all: self,
        }
    }

    pub(crate) fn to_own(self) -> OwnCells {
        let end = self.cells.iter().map(Cell::end).max().unwrap_or(0);
        // SAFETY: the texts stand in one block that begins there, and the last of them ends here.
        let texts = unsafe { slice::from_raw_parts(self.texts, end) };
        OwnCells {
            cells: self.cells.to_vec(),
            texts: texts.to_vec(),
        }
    }

    /// The value of one of these cells.
    #[inline]
    fn value_of(self, cell: &Cell) -> ValueRef<'c> {
        match cell.kind {
            INTEGER => ValueRef::Integer(cell.integer),
            // SAFETY: the cell is one of those that these are the texts of, which are UTF-8 and lent.
            TEXT => ValueRef::Text(unsafe {
                let bytes = slice::from_raw_parts(self.texts.add(cell.at as usize), cell.length as usize);
                str::from_utf8_unchecked(bytes)
            }),
            _ => ValueRef::Null,
        }
    }
}

/// The cells of each row, one row after the other.
#[derive(Clone)]
pub(crate) struct CellRows<'c> {
    rows: ChunksExact<'c, Cell>,
    /// All cells, also those of the rows that were given.
    all: Cells<'c>,
}

impl<'c> CellRows<'c> {
    #[inline]
    fn of(&self, cells: &'c [Cell]) -> Cells<'c> {
        Cells { cells, ..self.all }
    }
}

impl<'c> Iterator for CellRows<'c> {
    type Item = Cells<'c>;

    #[inline]
    fn next(&mut self) -> Option<Cells<'c>> {
        self.rows.next().map(|cells| self.of(cells))
    }

    #[inline]
    fn nth(&mut self, passed: usize) -> Option<Cells<'c>> {
        self.rows.nth(passed).map(|cells| self.of(cells))
    }

    fn size_hint(&self) -> (usize, Option<usize>) {
        self.rows.size_hint()
    }
}

impl DoubleEndedIterator for CellRows<'_> {
    fn next_back(&mut self) -> Option<Self::Item> {
        self.rows.next_back().map(|cells| self.of(cells))
    }
}

impl ExactSizeIterator for CellRows<'_> {}

/// Cells of a program's own.
#[derive(Clone, Debug, Default)]
pub(crate) struct OwnCells {
    cells: Vec<Cell>,
    /// The texts that they tell of, each UTF-8.
    texts: Vec<u8>,
}

impl OwnCells {
    #[inline]
    pub(crate) fn lent(&self) -> Cells<'_> {
        // SAFETY: both are lent, and each cell of a text was made by the library with the bytes of a text.
        unsafe { Cells::new(&self.cells, self.texts.as_ptr()) }
    }
}
