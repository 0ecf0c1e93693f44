//! The calls of the library, and a handle of it.

use std::cell::{Cell as Changing, UnsafeCell};
use std::ffi::c_void;
use std::marker::PhantomData;
use std::{mem, ptr, slice, str};

use crate::cells::{Cell, Cells, GivenCells};
use crate::error::Error;
use crate::value::ValueRef;

const IS_DONE: u32 = 0;
const LIMIT_OUT_OF_RANGE: u32 = 4;
const NO_LINE: u32 = 5;
const NOT_ONE_REQUEST: u32 = 6;
const NO_MEMORY: u32 = 7;
const REFUSED: u32 = 12;
const TOO_LARGE: u32 = 13;
const SHARED: u32 = 14;
const NO_TRANSACTION: u32 = 15;
const IN_TRANSACTION: u32 = 16;
const INTERRUPTED: u32 = 18;

/// The `mmdb` of mmdb.h.
#[repr(C)]
struct Inside {
    inside: *mut c_void,
}

/// The `mmdb_statement` of mmdb.h.
#[repr(C)]
#[derive(Default)]
struct Numbered {
    number: u32,
    places: u32,
}

/// The `mmdb_rows` of mmdb.h.
#[repr(C)]
struct Found {
    cells: *const Cell,
    texts: *const u8,
    rows: usize,
    columns: usize,
    changed: u64,
}

impl Found {
    const NOTHING: Found = Found {
        cells: ptr::null(),
        texts: ptr::null(),
        rows: 0,
        columns: 0,
        changed: 0,
    };

    /// The cells.
    ///
    /// # Safety
    ///
    /// It is what the library told of a statement, whose rows are good as long as they are lent.
    unsafe fn cells<'c>(&self) -> Cells<'c> {
        if self.rows == 0 || self.columns == 0 {
            return Cells::new(&[], [].as_ptr());
        }
        Cells::new(slice::from_raw_parts(self.cells, self.rows * self.columns), self.texts)
    }
}

/// The `mmdb_bytes` of mmdb.h: bytes that the library keeps for a handle until the next call on it.
#[repr(C)]
#[derive(Clone, Copy)]
struct Told {
    at: *const u8,
    length: usize,
}

impl Told {
    const NOTHING: Told = Told {
        at: ptr::null(),
        length: 0,
    };

    /// The bytes.
    ///
    /// # Safety
    ///
    /// They are good as long as they are lent.
    unsafe fn bytes<'b>(&self) -> &'b [u8] {
        if self.length == 0 {
            return &[];
        }
        slice::from_raw_parts(self.at, self.length)
    }
}

extern "C" {
    fn mmdb_open(db: *mut Inside, policy: u32, rows: u32, block: u32) -> u32;
    fn mmdb_command(db: *mut Inside, line: *const u8, length: usize, answer: *mut Told) -> u32;
    fn mmdb_load(
        db: *mut Inside,
        line: *const u8,
        length: usize,
        block: *const u8,
        block_length: usize,
        answer: *mut Told,
    ) -> u32;
    fn mmdb_prepare(db: *mut Inside, line: *const u8, length: usize, statement: *mut Numbered) -> u32;
    fn mmdb_bind_integer(db: *mut Inside, statement: u32, place: u32, value: i64) -> u32;
    fn mmdb_bind_text(db: *mut Inside, statement: u32, place: u32, text: *const u8, length: usize) -> u32;
    fn mmdb_bind_null(db: *mut Inside, statement: u32, place: u32) -> u32;
    fn mmdb_execute(db: *mut Inside, statement: u32, rows: *mut Found) -> u32;
    fn mmdb_execute_many(
        db: *mut Inside,
        statement: u32,
        cells: *const Cell,
        count: usize,
        texts: *const u8,
        texts_length: usize,
        changed: *mut u64,
    ) -> u32;
    fn mmdb_columns(db: *mut Inside, statement: u32, columns: *mut Found) -> u32;
    fn mmdb_count(db: *mut Inside, statement: u32, count: *mut u64) -> u32;
    fn mmdb_first(db: *mut Inside, statement: u32, most: usize, rows: *mut Found) -> u32;
    fn mmdb_cursor_open(db: *mut Inside, statement: u32, cursor: *mut CursorInside) -> u32;
    fn mmdb_cursor_fetch(cursor: *mut CursorInside, most: usize, rows: *mut Found) -> u32;
    fn mmdb_cursor_close(cursor: *mut CursorInside);
    fn mmdb_finalize(db: *mut Inside, statement: u32) -> u32;
    fn mmdb_indexes(db: *mut Inside, table: *const u8, length: usize, answer: *mut Told) -> u32;
    fn mmdb_version(db: *mut Inside, table: *const u8, length: usize, version: *mut u64) -> u32;
    fn mmdb_plan(db: *mut Inside, line: *const u8, length: usize, answer: *mut Told) -> u32;
    fn mmdb_answer(db: *mut Inside, answer: *mut Told) -> u32;
    fn mmdb_reason(
        db: *mut Inside,
        line: *const u8,
        length: usize,
        block: *const u8,
        block_length: usize,
        reason: *mut Told,
    ) -> u32;
    fn mmdb_prepare_reason(db: *mut Inside, line: *const u8, length: usize, reason: *mut Told) -> u32;
    fn mmdb_statement_reason(db: *mut Inside, statement: u32, reason: *mut Told) -> u32;
    fn mmdb_begin(db: *mut Inside) -> u32;
    fn mmdb_commit(db: *mut Inside) -> u32;
    fn mmdb_rollback(db: *mut Inside) -> u32;
    fn mmdb_transactions(db: *mut Inside) -> usize;
    fn mmdb_share(db: *mut Inside, reader: *mut Inside) -> u32;
    fn mmdb_clone(db: *mut Inside, copy: *mut Inside) -> u32;
    fn mmdb_leave(reader: *mut Inside) -> u32;
    fn mmdb_close(db: *mut Inside);
    fn mmdb_interrupter_open(db: *mut Inside, interrupter: *mut Asker) -> u32;
    fn mmdb_interrupt(interrupter: *mut Asker);
    fn mmdb_interrupter_close(interrupter: *mut Asker);
}

/// The `mmdb_interrupter` of mmdb.h, which is open until it is dropped, and may outlive its handle.
#[repr(C)]
pub(crate) struct Asker {
    inside: *mut c_void,
}

// SAFETY: the library takes these calls from any thread, also while the handle is in a call, and asks only that they come one
// after another for each. They do, as each has it as `&mut`.
unsafe impl Send for Asker {}

impl Asker {
    /// Asks the select to end that is under way.
    pub(crate) fn ask(&mut self) {
        // SAFETY: it is open.
        unsafe { mmdb_interrupt(self) }
    }
}

impl Drop for Asker {
    fn drop(&mut self) {
        if !self.inside.is_null() {
            // SAFETY: it is open, and is used no more.
            unsafe { mmdb_interrupter_close(self) }
        }
    }
}

/// The `mmdb_cursor` of mmdb.h.
#[repr(C)]
struct CursorInside {
    inside: *mut c_void,
}

/// A cursor of a handle, which is open until it is dropped, and the page that it has read last. While it is open nobody changes the
/// tables, so it ends before the handle is lent no longer.
pub(crate) struct Cursor<'h> {
    opened: CursorInside,
    page: Found,
    handle: PhantomData<&'h Handle>,
}

// SAFETY: what the pointers lead to belongs to this cursor alone, but for the tables, which nobody changes while it is open. The
// library takes these calls from any thread, and asks only that they come one after another for each. They do, as each has it as
// `&mut`.
unsafe impl Send for Cursor<'_> {}

impl Cursor<'_> {
    /// Reads the next rows, so many at most, in the place of those that it has read. Behind the last there are none.
    pub(crate) fn fetch(&mut self, most: usize) -> Result<(), Declined> {
        self.page = Found::NOTHING;
        let mut found = Found::NOTHING;
        // SAFETY: it is open.
        done(unsafe { mmdb_cursor_fetch(&mut self.opened, most, &mut found) })?;
        self.page = found;
        Ok(())
    }

    /// The rows that it has read last.
    pub(crate) fn page(&self) -> Cells<'_> {
        // SAFETY: the rows are good until the next call on the cursor, which has it as `&mut`. The library has UTF-8 texts alone.
        unsafe { self.page.cells() }
    }
}

impl Drop for Cursor<'_> {
    fn drop(&mut self) {
        // SAFETY: it is open, and is used no more.
        unsafe { mmdb_cursor_close(&mut self.opened) }
    }
}

/// A statement of a handle, by its number.
pub(crate) struct Prepared(u32);

impl Prepared {
    pub(crate) fn number(&self) -> u32 {
        self.0
    }
}

/// The result of a statement that isn't refused: its cells, and the number of rows.
pub(crate) struct Executed<'s> {
    pub(crate) cells: Cells<'s>,
    pub(crate) changed: u64,
}

/// Why a call on a statement wasn't done.
#[derive(Clone, Copy, Debug)]
pub(crate) enum Declined {
    /// It was refused, as the handle's answer says.
    Refused,
    /// There is no memory.
    NoMemory,
    /// The texts of its rows are more than 4 GiB, its rows are too many to be counted, or there are too many statements.
    TooLarge,
    /// It is a change, and a reader shares the tables.
    Shared,
    /// It was asked to end.
    Interrupted,
    /// The library gave another status.
    Status(u32),
}

/// A database that is open, until it is dropped.
pub(crate) struct Handle {
    inside: UnsafeCell<Inside>,
    /// What the last call has told that answers bytes.
    told: Changing<Told>,
}

// SAFETY: what the pointers lead to belongs to this handle alone, but for tables that handles share, which none of them changes
// then. The library lets a handle go to another thread (docs/threads.md says what of that is proved), and asks only that the
// calls on one handle come one after another. They do, as the handle isn't `Sync`, and no call is made out of another.
unsafe impl Send for Handle {}

impl Handle {
    pub(crate) fn open(policy: u32, rows: u32, block: u32) -> Result<Handle, Error> {
        let mut inside = Inside {
            inside: ptr::null_mut(),
        };
        // SAFETY: the handle is closed, as null says.
        match unsafe { mmdb_open(&mut inside, policy, rows, block) } {
            LIMIT_OUT_OF_RANGE => Err(Error::OutOfRange),
            status => without_line(status).map(|()| Handle::over(inside)),
        }
    }

    /// Another handle that shares the tables.
    pub(crate) fn share(&self) -> Result<Handle, Error> {
        let mut reader = Inside {
            inside: ptr::null_mut(),
        };
        // SAFETY: this handle is open, and the other, which is another, is closed, as null says.
        without_line(unsafe { mmdb_share(self.inside.get(), &mut reader) }).map(|()| Handle::over(reader))
    }

    /// Another handle with a copy of the tables.
    pub(crate) fn try_clone(&self) -> Result<Handle, Error> {
        let mut copy = Inside {
            inside: ptr::null_mut(),
        };
        // SAFETY: as of `share`.
        without_line(unsafe { mmdb_clone(self.inside.get(), &mut copy) }).map(|()| Handle::over(copy))
    }

    /// Has another open handle share the tables, in the place of its own.
    pub(crate) fn share_with(&self, reader: &Handle) -> Result<(), Error> {
        if ptr::eq(self, reader) {
            return Ok(());
        }
        // SAFETY: both handles are open, and one isn't the other. What the reader has lent stays as it is.
        without_line(unsafe { mmdb_share(self.inside.get(), reader.inside.get()) })
    }

    /// Leaves the tables: it has none then.
    pub(crate) fn leave(&self) -> Result<(), Error> {
        // SAFETY: the handle is open. What it has lent stays as it is.
        without_line(unsafe { mmdb_leave(self.inside.get()) })
    }

    /// What asks the selects of this handle to end.
    pub(crate) fn asker(&self) -> Result<Asker, Error> {
        let mut asker = Asker {
            inside: ptr::null_mut(),
        };
        // SAFETY: the handle is open, and what asks is closed, as null says.
        without_line(unsafe { mmdb_interrupter_open(self.inside.get(), &mut asker) }).map(|()| asker)
    }

    fn over(inside: Inside) -> Handle {
        Handle {
            inside: UnsafeCell::new(inside),
            told: Changing::new(Told::NOTHING),
        }
    }

    /// Has a line answered.
    pub(crate) fn command(&self, line: &[u8]) -> Result<(), Error> {
        let db = self.inside.get();
        // SAFETY: the pointer and the length are those of a slice, which isn't null; the handle is open.
        self.answered(|told| unsafe { mmdb_command(db, line.as_ptr(), line.len(), told) })
    }

    /// Has a line with its block answered.
    pub(crate) fn load(&self, line: &[u8], block: &[u8]) -> Result<(), Error> {
        let db = self.inside.get();
        // SAFETY: as of `command`.
        self.answered(|told| unsafe { mmdb_load(db, line.as_ptr(), line.len(), block.as_ptr(), block.len(), told) })
    }

    /// Has it told how the indexes of a table stand.
    pub(crate) fn indexes(&self, table: &[u8]) -> Result<(), Error> {
        let db = self.inside.get();
        // SAFETY: as of `command`.
        self.answered(|told| unsafe { mmdb_indexes(db, table.as_ptr(), table.len(), told) })
    }

    /// The number of the newest change of a table, or of all if its name is empty. A refusal is the answer, which else has no bytes.
    pub(crate) fn version(&self, table: &[u8]) -> Result<u64, Error> {
        let db = self.inside.get();
        let mut version = 0;
        self.answered(|told| {
            // SAFETY: as of `command`.
            match unsafe { mmdb_version(db, table.as_ptr(), table.len(), &mut version) } {
                // SAFETY: the handle is open.
                IS_DONE | REFUSED => unsafe { mmdb_answer(db, told) },
                status => status,
            }
        })?;
        Ok(version)
    }

    /// Asks for the plan of the select in a line. A refusal is an answer too.
    pub(crate) fn plan(&self, line: &[u8]) -> Result<(), Error> {
        let db = self.inside.get();
        self.answered(|told| {
            // SAFETY: as of `command`.
            match unsafe { mmdb_plan(db, line.as_ptr(), line.len(), told) } {
                REFUSED => IS_DONE,
                status => status,
            }
        })
    }

    /// Makes a call that answers bytes, and keeps where these are.
    fn answered(&self, call: impl FnOnce(&mut Told) -> u32) -> Result<(), Error> {
        let mut told = Told::NOTHING;
        let status = call(&mut told);
        self.told.set(told);
        answered(status)
    }

    /// Why the line was refused that was just answered, with its block. There is none of another answer, and none where
    /// no memory is found for the words.
    pub(crate) fn reason(&self, line: &[u8], block: &[u8]) -> Option<String> {
        let db = self.inside.get();
        let (line, length, block, block_length) = (line.as_ptr(), line.len(), block.as_ptr(), block.len());
        // SAFETY: as of `command`.
        words(|told| unsafe { mmdb_reason(db, line, length, block, block_length, told) })
    }

    /// What the last call has told.
    pub(crate) fn answer(&mut self) -> &[u8] {
        // SAFETY: the library keeps these bytes for the handle until the next call on it. Who reads them has the handle as
        // `&mut`, and so nobody calls it.
        unsafe { self.told.get().bytes() }
    }

    /// What a function of this crate makes of that. It must make no call on the handle but `reason`, and keep nothing of the
    /// bytes, which its type sees to.
    pub(crate) fn with_answer<T>(&self, read: impl FnOnce(&[u8]) -> T) -> T {
        // SAFETY: the bytes are good until the next call but those that tell a reason, and no other is made while they are
        // read: the handle isn't `Sync`, and the functions are those of `session.rs`, `database.rs` and `watch.rs`.
        read(unsafe { self.told.get().bytes() })
    }
}

/// The calls on statements. Each takes the handle as `&`, as all others do, since rows are good whatever is done by other
/// statements, and by lines.
impl Handle {
    /// Has a line kept as a statement.
    pub(crate) fn prepare(&self, line: &[u8]) -> Result<Prepared, Declined> {
        let mut made = Numbered::default();
        // SAFETY: the pointer and the length are those of a slice; the handle is open.
        let status = unsafe { mmdb_prepare(self.inside.get(), line.as_ptr(), line.len(), &mut made) };
        done(status).map(|()| Prepared(made.number))
    }

    /// Puts a value into a place of a statement.
    pub(crate) fn bind(&self, statement: &mut Prepared, place: u32, value: ValueRef<'_>) -> Result<(), Declined> {
        let (db, number) = (self.inside.get(), statement.0);
        // SAFETY: as of `prepare`.
        done(unsafe {
            match value {
                ValueRef::Null => mmdb_bind_null(db, number, place),
                ValueRef::Integer(integer) => mmdb_bind_integer(db, number, place, integer),
                ValueRef::Text(text) => mmdb_bind_text(db, number, place, text.as_ptr(), text.len()),
            }
        })
    }

    /// Does what a statement of this handle says.
    pub(crate) fn execute<'s>(&'s self, statement: &'s mut Prepared) -> Result<Executed<'s>, Declined> {
        let mut found = Found::NOTHING;
        // SAFETY: the handle is open.
        done(unsafe { mmdb_execute(self.inside.get(), statement.0, &mut found) })?;
        Ok(Executed {
            // SAFETY: the rows are good until the statement is executed again, asked for its first rows or finalised, or the
            // handle is closed. Both are lent as long as the rows are. The library has UTF-8 texts alone.
            cells: unsafe { found.cells() },
            changed: found.changed,
        })
    }

    /// The first rows that a statement of this handle shows, so many at most, in the place of those that it has shown.
    pub(crate) fn first<'s>(&'s self, statement: &'s mut Prepared, most: usize) -> Result<Cells<'s>, Declined> {
        let mut found = Found::NOTHING;
        // SAFETY: as of `execute`.
        done(unsafe { mmdb_first(self.inside.get(), statement.0, most, &mut found) })?;
        // SAFETY: the rows are good as long as those of `execute`.
        Ok(unsafe { found.cells() })
    }

    /// A cursor on the rows that a statement of this handle shows. What it has shown stays.
    pub(crate) fn open_cursor(&self, statement: &mut Prepared) -> Result<Cursor<'_>, Declined> {
        let mut opened = CursorInside {
            inside: ptr::null_mut(),
        };
        // SAFETY: the handle is open, and the cursor is closed, as null says.
        done(unsafe { mmdb_cursor_open(self.inside.get(), statement.0, &mut opened) })?;
        Ok(Cursor {
            opened,
            page: Found::NOTHING,
            handle: PhantomData,
        })
    }

    /// Does what a statement of this handle says with rows of values, all of them or none, and returns how many rows were changed.
    pub(crate) fn execute_many(&self, statement: &mut Prepared, given: &GivenCells) -> Result<u64, Declined> {
        let (db, cells, texts) = (self.inside.get(), &given.cells, &given.texts);
        let mut changed = 0;
        // SAFETY: as of `prepare`.
        done(unsafe {
            let (cells, count, texts, length) = (cells.as_ptr(), cells.len(), texts.as_ptr(), texts.len());
            mmdb_execute_many(db, statement.0, cells, count, texts, length, &mut changed)
        })?;
        Ok(changed)
    }

    /// The names of the columns that the rows of a statement of this handle have.
    pub(crate) fn columns(&self, statement: &mut Prepared) -> Result<Vec<String>, Declined> {
        let mut found = Found::NOTHING;
        // SAFETY: as of `execute`.
        done(unsafe { mmdb_columns(self.inside.get(), statement.0, &mut found) })?;
        // SAFETY: the columns are good until the next call on the handle, and there is none here.
        let cells = unsafe { found.cells() };
        let texts = cells.values().filter_map(|value| match value {
            ValueRef::Text(name) => Some(name.to_string()),
            _ => None,
        });
        Ok(texts.collect())
    }

    /// How many rows a statement of this handle shows. What it has shown stays.
    pub(crate) fn count(&self, statement: &mut Prepared) -> Result<u64, Declined> {
        let mut count = 0;
        // SAFETY: as of `execute`.
        done(unsafe { mmdb_count(self.inside.get(), statement.0, &mut count) })?;
        Ok(count)
    }

    /// Frees a statement, which is none of the handle's then.
    pub(crate) fn finalize(&self, statement: &mut Prepared) {
        let number = mem::replace(&mut statement.0, u32::MAX);
        // SAFETY: the handle is open. As the statement is taken as `&mut`, its rows aren't lent.
        unsafe { mmdb_finalize(self.inside.get(), number) };
    }

    /// Why this line was just refused, when it was to be kept as a statement, where memory is found for the words.
    pub(crate) fn prepare_reason(&self, line: &[u8]) -> Option<String> {
        let (db, line, length) = (self.inside.get(), line.as_ptr(), line.len());
        // SAFETY: as of `prepare`.
        words(|told| unsafe { mmdb_prepare_reason(db, line, length, told) })
    }

    /// Why the statement of a number was just refused with its values, where memory is found for the words.
    pub(crate) fn statement_reason(&self, number: u32) -> Option<String> {
        let db = self.inside.get();
        // SAFETY: as of `execute`. A number that names no statement has no words.
        words(|told| unsafe { mmdb_statement_reason(db, number, told) })
    }

    /// The refusal by which a call on a statement was just declined, as it is answered.
    pub(crate) fn refusal(&self) -> String {
        let mut told = Told::NOTHING;
        // SAFETY: the handle is open, and the answer is good until the next call.
        let answer = unsafe {
            mmdb_answer(self.inside.get(), &mut told);
            told.bytes()
        };
        String::from_utf8_lossy(answer).into_owned()
    }
}

/// Transactions. Statements, lent rows and answers stay as they are where one begins or ends.
impl Handle {
    pub(crate) fn begin(&self) -> Result<(), Error> {
        // SAFETY: the handle is open.
        without_line(unsafe { mmdb_begin(self.inside.get()) })
    }

    /// Ends the innermost one, and keeps what was done in it.
    pub(crate) fn commit(&self) -> Result<(), Error> {
        // SAFETY: the handle is open.
        without_line(unsafe { mmdb_commit(self.inside.get()) })
    }

    /// Ends the innermost one, and undoes what was done in it.
    pub(crate) fn roll_back(&self) -> Result<(), Error> {
        // SAFETY: the handle is open.
        without_line(unsafe { mmdb_rollback(self.inside.get()) })
    }

    /// How many are open.
    pub(crate) fn transactions(&self) -> usize {
        // SAFETY: the handle is open.
        unsafe { mmdb_transactions(self.inside.get()) }
    }
}

/// The words that a call returns, if it is done and has any.
fn words(call: impl FnOnce(&mut Told) -> u32) -> Option<String> {
    let mut told = Told::NOTHING;
    let status = call(&mut told);
    // SAFETY: the words are good until the next call, and there is none here.
    let words = str::from_utf8(unsafe { told.bytes() }).ok()?;
    (status == IS_DONE && !words.is_empty()).then(|| words.to_string())
}

/// Whether a call on a statement was done, by its status.
fn done(status: u32) -> Result<(), Declined> {
    match status {
        IS_DONE => Ok(()),
        NO_MEMORY => Err(Declined::NoMemory),
        REFUSED => Err(Declined::Refused),
        TOO_LARGE => Err(Declined::TooLarge),
        SHARED => Err(Declined::Shared),
        INTERRUPTED => Err(Declined::Interrupted),
        status => Err(Declined::Status(status)),
    }
}

/// Whether a call was done that takes no line, by its status.
fn without_line(status: u32) -> Result<(), Error> {
    match status {
        IS_DONE => Ok(()),
        NO_MEMORY => Err(Error::no_memory(String::new(), String::new())),
        SHARED => Err(Error::Shared),
        NO_TRANSACTION => Err(Error::NoTransaction),
        IN_TRANSACTION => Err(Error::InTransaction),
        status => Err(Error::Status(status)),
    }
}

/// Whether a line was answered, by the status of the call.
fn answered(status: u32) -> Result<(), Error> {
    match status {
        IS_DONE | NO_LINE => Ok(()),
        NOT_ONE_REQUEST => Err(Error::NotOneRequest),
        SHARED => Err(Error::Shared),
        status => Err(Error::Status(status)),
    }
}

impl Drop for Handle {
    fn drop(&mut self) {
        // SAFETY: the handle is open, and is used no more.
        unsafe { mmdb_close(self.inside.get()) }
    }
}
