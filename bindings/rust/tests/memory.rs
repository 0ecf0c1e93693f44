//! What is done again and again takes no block of memory but for what it hands out, and a load no more than for its blocks.

use std::alloc::{GlobalAlloc, Layout, System};
use std::cell::Cell;
use std::io::Read;

use mmdb::{named_params, params, CsvOptions, Database, Limits, Policy, Row};

/// Counts the blocks that a thread takes by Rust's allocator, and their bytes. The library's own aren't counted.
struct Counting;

thread_local! {
    static TAKEN: Cell<usize> = const { Cell::new(0) };
    static HELD: Cell<isize> = const { Cell::new(0) };
    static MOST_HELD: Cell<isize> = const { Cell::new(0) };
}

fn count(bytes: isize) {
    let _ = HELD.try_with(|held| {
        held.set(held.get() + bytes);
        let _ = MOST_HELD.try_with(|most| most.set(most.get().max(held.get())));
    });
}

// SAFETY: the allocator is the system's.
unsafe impl GlobalAlloc for Counting {
    unsafe fn alloc(&self, layout: Layout) -> *mut u8 {
        let _ = TAKEN.try_with(|taken| taken.set(taken.get() + 1));
        count(layout.size() as isize);
        System.alloc(layout)
    }

    unsafe fn dealloc(&self, block: *mut u8, layout: Layout) {
        count(-(layout.size() as isize));
        System.dealloc(block, layout)
    }
}

#[global_allocator]
static COUNTING: Counting = Counting;

/// How many blocks are taken where something is done a hundred times, after it was done once.
fn taken_by(mut what: impl FnMut()) -> usize {
    what();
    let before = TAKEN.with(Cell::get);
    (0..100).for_each(|_| what());
    TAKEN.with(Cell::get) - before
}

fn filled() -> Database {
    let db = Database::open_in_memory().unwrap();
    db.execute("table t (id int, s text)", []).unwrap();
    db.load("t", (0..100).map(|id| (id, "a text"))).unwrap();
    db
}

#[test]
fn a_kept_line_takes_none() {
    let db = filled();
    let line = "select id, s from t where id = ?";
    let is_it = |row: &Row<'_>| Ok(row.get::<_, &str>("s")? == "a text");
    assert_eq!(taken_by(|| assert_eq!(db.query_row(line, [7], is_it), Ok(true))), 0);
    let line = "update t set s = :s where id = :id";
    assert_eq!(
        taken_by(|| assert_eq!(db.execute(line, named_params! { ":id": 7, ":s": "a text" }), Ok(1))),
        0
    );
    let mut id = 1_000;
    assert_eq!(
        taken_by(|| {
            assert_eq!(db.execute("insert t (?, ?)", params![id, "another"]), Ok(1));
            id += 1;
        }),
        0
    );
}

#[test]
fn a_statement_takes_none() {
    let db = filled();
    let mut select = db.prepare("select * from t where id >= ?").unwrap();
    let taken = taken_by(|| {
        let texts = select.query([0]).unwrap().into_iter().map(|row| row.get::<_, &str>(1));
        assert_eq!(texts.filter(|text| *text == Ok("a text")).count(), 100);
    });
    assert_eq!(taken, 0);
}

#[test]
fn rows_of_ones_own_take_two() {
    let db = filled();
    let taken = taken_by(|| assert_eq!(db.query("select * from t where id >= ?", [0]).unwrap().len(), 100));
    assert_eq!(taken, 200);
}

/// Rows of a CSV, each made as it is read.
struct Endless {
    id: usize,
    row: Vec<u8>,
}

impl Read for Endless {
    fn read(&mut self, to: &mut [u8]) -> std::io::Result<usize> {
        let count = self.row.len().min(to.len());
        to[..count].copy_from_slice(&self.row[..count]);
        self.row.drain(..count);
        if self.row.is_empty() {
            self.row.extend_from_slice(format!("{},a text\n", self.id).as_bytes());
            self.id += 1;
        }
        Ok(count)
    }
}

/// A CSV of 4 MB is loaded in some blocks of 64 KiB.
#[test]
fn a_load_takes_as_much_as_its_blocks() {
    let limits = Limits {
        block: 65_536,
        ..Limits::default()
    };
    let db = Database::open(Policy::Auto, limits).unwrap();
    db.execute("table t (id int, s text)", []).unwrap();
    let csv = || Endless {
        id: 0,
        row: b"id,s\n".to_vec(),
    };
    let before = HELD.with(Cell::get);
    MOST_HELD.with(|most| most.set(before));
    let refused = db.load_csv_from("t", csv().take(4_000_000)).unwrap_err();
    assert_eq!(refused.text(), Some("bad record 293651"));
    let named = CsvOptions::new().columns(["s", "id"]).quote('\'').strict(true);
    let refused = db.load_csv_with("t", csv().take(4_000_000), &named).unwrap_err();
    assert_eq!(refused.text(), Some("bad record 293651"));
    assert_eq!(db.load("t", (0..200_000).map(|id| (id, "a text"))), Ok(200_000));
    let most = MOST_HELD.with(Cell::get) - before;
    assert!(most < 400_000, "{most} bytes");
}

/// A table of 20,000 rows, and another that refers to each of them.
fn with_many_rows() -> Database {
    let db = filled();
    db.execute("delete t", []).unwrap();
    db.load("t", (0..20_000).map(|id| (id, "a text"))).unwrap();
    db.execute("table u (id int, t ref t)", []).unwrap();
    db.load("u", (0..20_000).map(|id| (id, id))).unwrap();
    db
}

/// How many bytes are held at most where the rows of a select are read by pages of so many.
fn held_by(db: &Database, most: usize, line: &str) -> isize {
    let before = HELD.with(Cell::get);
    MOST_HELD.with(|held| held.set(before));
    let texts = db.query_pages(most, line, [0], |row| Ok(row.get::<_, &str>("s")?.len()));
    assert_eq!(texts.unwrap().sum::<mmdb::Result<usize>>(), Ok(20_000 * "a text".len()));
    MOST_HELD.with(Cell::get) - before
}

/// Rows that are read by pages take as much as a page of them.
#[test]
fn pages_take_as_much_as_one() {
    let db = with_many_rows();
    for line in ["select * from t where id >= ?", "select s from t where id >= ?"] {
        let (page, all) = (held_by(&db, 200, line), held_by(&db, 20_000, line));
        assert!(page < 50_000 && 10 * page < all, "{page} bytes of {all}");
    }
}

/// Pages that a cursor lends aren't copied, however many rows they have.
#[test]
fn lent_pages_take_none() {
    let db = with_many_rows();
    for line in [
        "select distinct id, s from t where id >= ?",
        "select u.id, t.s from u join t on u.t = t.id where u.id >= ?",
    ] {
        for most in [200, 20_000] {
            let held = held_by(&db, most, line);
            assert!(held < 4_000, "{held} bytes by pages of {most}");
        }
    }
}
