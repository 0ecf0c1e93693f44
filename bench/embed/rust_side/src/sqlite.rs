//! The calls of SQLite that are wanted here, over `:memory:`, and the processor's time.

use std::ffi::{c_char, c_int, c_void, CString};
use std::{ptr, slice};

const DONE: c_int = 101;
const ROW: c_int = 100;
const PROCESS_CPUTIME: c_int = 2;

#[link(name = "sqlite3")]
extern "C" {
    fn sqlite3_open(name: *const c_char, db: *mut *mut c_void) -> c_int;
    fn sqlite3_exec(db: *mut c_void, text: *const c_char, call: usize, with: usize, told: usize) -> c_int;
    fn sqlite3_prepare_v2(
        db: *mut c_void,
        text: *const c_char,
        length: c_int,
        statement: *mut *mut c_void,
        rest: usize,
    ) -> c_int;
    fn sqlite3_bind_int64(statement: *mut c_void, place: c_int, value: i64) -> c_int;
    fn sqlite3_bind_text(
        statement: *mut c_void,
        place: c_int,
        text: *const u8,
        length: c_int,
        destructor: isize,
    ) -> c_int;
    fn sqlite3_step(statement: *mut c_void) -> c_int;
    fn sqlite3_reset(statement: *mut c_void) -> c_int;
    fn sqlite3_column_int64(statement: *mut c_void, column: c_int) -> i64;
    fn sqlite3_column_text(statement: *mut c_void, column: c_int) -> *const u8;
    fn sqlite3_column_bytes(statement: *mut c_void, column: c_int) -> c_int;
    fn sqlite3_finalize(statement: *mut c_void) -> c_int;
    fn sqlite3_close(db: *mut c_void) -> c_int;
}

#[repr(C)]
struct Time {
    seconds: i64,
    nanoseconds: i64,
}

extern "C" {
    fn clock_gettime(clock: c_int, time: *mut Time) -> c_int;
}

/// The processor's time of this process, in seconds.
pub fn processor_seconds() -> f64 {
    let mut now = Time {
        seconds: 0,
        nanoseconds: 0,
    };
    // SAFETY: it is told to where `now` stands.
    unsafe { clock_gettime(PROCESS_CPUTIME, &mut now) };
    now.seconds as f64 + now.nanoseconds as f64 / 1e9
}

/// A database, and its statements in the order in which they were prepared.
pub struct Sqlite {
    db: *mut c_void,
    statements: Vec<Prepared>,
}

/// A statement of it.
pub struct Prepared(*mut c_void);

impl Sqlite {
    pub fn open() -> Sqlite {
        let name = CString::new(":memory:").expect("there is no NUL in it");
        let mut db = ptr::null_mut();
        // SAFETY: the name ends in a NUL.
        assert_eq!(unsafe { sqlite3_open(name.as_ptr(), &mut db) }, 0);
        Sqlite {
            db,
            statements: Vec::new(),
        }
    }

    /// Executes a text of statements. Their rows are not read.
    pub fn run(&mut self, text: impl Into<Vec<u8>>) {
        let text = CString::new(text).expect("there is no NUL in it");
        // SAFETY: the database is open, and the text ends in a NUL.
        assert_eq!(unsafe { sqlite3_exec(self.db, text.as_ptr(), 0, 0, 0) }, 0, "{text:?}");
    }

    /// Prepares a statement, and returns its number.
    pub fn prepare(&mut self, text: &str) -> usize {
        let text = CString::new(text).expect("there is no NUL in it");
        let mut made = ptr::null_mut();
        // SAFETY: as above.
        let status = unsafe { sqlite3_prepare_v2(self.db, text.as_ptr(), -1, &mut made, 0) };
        assert_eq!(status, 0, "{text:?}");
        self.statements.push(Prepared(made));
        self.statements.len() - 1
    }

    pub fn statement(&mut self, number: usize) -> &mut Prepared {
        &mut self.statements[number]
    }
}

impl Drop for Sqlite {
    fn drop(&mut self) {
        for statement in &self.statements {
            // SAFETY: it is of this database, and is used no more.
            unsafe { sqlite3_finalize(statement.0) };
        }
        // SAFETY: the database is open, and is used no more.
        unsafe { sqlite3_close(self.db) };
    }
}

// In each of these the statement is of a database that is open, as it is lent by that.
impl Prepared {
    pub fn bind(&mut self, place: c_int, value: i64) {
        // SAFETY: as above.
        unsafe { sqlite3_bind_int64(self.0, place, value) };
    }

    /// Binds a text, which SQLite copies.
    pub fn bind_text(&mut self, place: c_int, text: &[u8]) {
        // SAFETY: as above; -1 says that the text is copied.
        unsafe { sqlite3_bind_text(self.0, place, text.as_ptr(), text.len() as c_int, -1) };
    }

    /// Whether there is a further row.
    pub fn step(&mut self) -> bool {
        // SAFETY: as above.
        let status = unsafe { sqlite3_step(self.0) };
        assert!(status == ROW || status == DONE, "a step of sqlite3 gives {status}");
        status == ROW
    }

    pub fn integer(&mut self, column: c_int) -> i64 {
        // SAFETY: as above.
        unsafe { sqlite3_column_int64(self.0, column) }
    }

    pub fn text(&mut self, column: c_int) -> &[u8] {
        // SAFETY: as above; the text is good until the next call on the statement, which it borrows.
        unsafe {
            let text = sqlite3_column_text(self.0, column);
            slice::from_raw_parts(text, sqlite3_column_bytes(self.0, column) as usize)
        }
    }

    pub fn reset(&mut self) {
        // SAFETY: as above.
        unsafe { sqlite3_reset(self.0) };
    }
}
