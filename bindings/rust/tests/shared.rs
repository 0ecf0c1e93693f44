//! Threads that live long: many read the same tables, and one writes them.

mod common;

use std::panic::{catch_unwind, AssertUnwindSafe};
use std::sync::atomic::{AtomicUsize, Ordering};
use std::thread;

use common::{number, open, row, with_rows};
use mmdb::{Error, Reader, Reading, Result, Shared, SharedReader, Writing};

const BATCH: usize = 10;
const WRITES: usize = 30;

fn is_send<T: Send + 'static>() {}

fn is_sync<T: Sync>() {}

#[test]
fn readers_cross_threads() {
    is_send::<Shared>();
    is_sync::<Shared>();
    is_send::<SharedReader>();
    is_send::<Reader<'static>>();
}

fn text(id: usize) -> String {
    format!("the row with the number {id}")
}

/// The rows of one who reads: whole batches, in which each row has its text. Returns how many there are.
fn checked(tables: &Reading<'_>) -> usize {
    let mut all = tables.prepare("select * from t where id >= ?").unwrap();
    let rows = all.query([0]).unwrap();
    assert_eq!(rows.len() % BATCH, 0);
    for (id, row) in rows.iter().enumerate() {
        assert_eq!((row.get("id"), row.get("s")), (Ok(id), Ok(text(id))));
    }
    rows.len()
}

/// A table whose columns change has a value for each of its names.
fn check_shape(tables: &Reading<'_>) {
    let shape = tables.query("select * from shape", []).unwrap();
    let values = shape.get(0).unwrap();
    let names: Vec<&str> = shape
        .column_names()
        .iter()
        .map(|name| &name["shape.c".len()..])
        .collect();
    for (at, name) in names.iter().enumerate() {
        assert_eq!(values.get(at), Ok(name.to_string()));
    }
}

/// Reads until all is written. What was written before it read is there.
fn read_all(mut reader: SharedReader, written: &AtomicUsize) {
    let mut seen = 0;
    while seen < WRITES * BATCH {
        let least = written.load(Ordering::SeqCst);
        let tables = reader.read().unwrap();
        let count = checked(&tables);
        check_shape(&tables);
        assert!(count >= least && count >= seen);
        seen = count;
        if let Some(last) = count.checked_sub(1) {
            let found = tables.query_row("select s from t where id = ?", [last], |row| row.get::<_, String>(0));
            assert_eq!(found, Ok(text(last)));
        }
    }
}

/// Inserts a batch, declares another table under the same name, and undoes what it doesn't end.
fn write_one(tables: &mut Writing<'_>, turn: usize) -> Result<()> {
    tables.execute("drop table shape", [])?;
    let names: Vec<String> = (0..=turn % 5).map(|at| format!("c{}", turn * 10 + at)).collect();
    tables.execute(&format!("table shape ({} text)", names.join(" text, ")), [])?;
    let values: Vec<String> = names.iter().map(|name| format!("'{}'", &name[1..])).collect();
    tables.execute(&format!("insert shape ({})", values.join(", ")), [])?;
    let first = turn * BATCH;
    let tx = tables.transaction()?;
    tx.load("t", (first..first + BATCH).map(|id| (id, text(id))))?;
    tx.commit()?;
    tables.begin()?;
    tables.execute("insert t (-1, 'undone at the end')", [])?;
    Ok(())
}

fn read_and_write(threads: usize) {
    let db = open();
    db.execute("table t (id int, s text)", []).unwrap();
    db.execute("table shape (c1 text)", []).unwrap();
    db.execute("insert shape ('1')", []).unwrap();
    let (shared, written) = (Shared::new(db), AtomicUsize::new(0));
    thread::scope(|scope| {
        for _ in 0..threads {
            let reader = shared.reader().unwrap();
            scope.spawn(|| read_all(reader, &written));
        }
        for turn in 0..WRITES {
            write_one(&mut shared.write().unwrap(), turn).unwrap();
            written.store((turn + 1) * BATCH, Ordering::SeqCst);
            thread::yield_now();
        }
    });
    let count = checked(&shared.reader().unwrap().read().unwrap());
    assert_eq!(count, WRITES * BATCH);
}

#[test]
fn four_threads_read_what_one_writes() {
    read_and_write(4);
}

#[test]
fn sixty_four_threads_read_what_one_writes() {
    read_and_write(64);
}

/// Threads that aren't scoped own their readers, and outlive what made them.
#[test]
fn readers_outlive_what_made_them() {
    let shared = Shared::new(with_rows());
    let other = shared.clone();
    let mut threads = Vec::new();
    for _ in 0..4 {
        let mut reader = shared.reader().unwrap();
        threads.push(thread::spawn(move || {
            reader.read().unwrap().query("select * from t", []).unwrap()
        }));
    }
    drop(shared);
    other.write().unwrap().execute("insert t (3, 'c')", []).unwrap();
    for thread in threads {
        let rows = thread.join().unwrap().to_vec();
        assert_eq!(rows[..2], [row(1, "a"), row(2, "b")]);
    }
}

#[test]
fn a_reader_has_the_calls_of_selects() {
    let shared = Shared::new(with_rows());
    let mut reader = shared.reader().unwrap();
    let rows = {
        let tables = reader.read().unwrap();
        for line in ["insert t (3, 'c')", "delete t", "tables", "drop table t"] {
            assert_eq!(tables.query(line, []).unwrap_err(), Error::NotASelect, "{line}");
            assert_eq!(tables.prepare(line).unwrap_err(), Error::NotASelect, "{line}");
        }
        assert_eq!(tables.indexes("t").unwrap().len(), 1);
        assert_eq!(number(tables.query("select x from t", [])), Some(32));
        tables.query("select * from t", []).unwrap()
    };
    shared.write().unwrap().execute("delete t", []).unwrap();
    assert_eq!(rows.to_vec(), [row(1, "a"), row(2, "b")]);
    assert!(reader.read().unwrap().query("select * from t", []).unwrap().is_empty());
}

/// Pages of a join are all of one state, and keep no writer from writing once they are read.
#[test]
fn pages_of_a_join() {
    let db = open();
    db.execute("table t (id int, n int)", []).unwrap();
    db.execute("table u (id int, t ref t)", []).unwrap();
    db.load("t", (0..30).map(|id| (id, 0))).unwrap();
    db.load("u", (0..90).map(|id| (id, id % 30))).unwrap();
    let shared = Shared::new(db);
    let read = |tables: &Reading<'_>, most| {
        let line = "select t.n, u.id from u join t on u.t = t.id";
        let pages = tables.query_pages(most, line, [], |row| row.get(0)).unwrap();
        let numbers: Vec<usize> = pages.collect::<Result<_>>().unwrap();
        assert!(numbers.len() == 90 && numbers.iter().all(|number| *number == numbers[0]));
        numbers[0]
    };
    thread::scope(|scope| {
        for most in [1, 7, 30, 1_000] {
            let mut reader = shared.reader().unwrap();
            scope.spawn(move || while read(&reader.read().unwrap(), most) < WRITES {});
        }
        for turn in 1..=WRITES {
            let changed = shared.write().unwrap().execute("update t set n = ?", [turn]);
            assert_eq!(changed, Ok(30));
            thread::yield_now();
        }
    });
}

/// Readers come and go, before and after they have read, and none keeps a writer from writing.
#[test]
fn readers_come_and_go() {
    let shared = Shared::new(with_rows());
    for id in 3..40 {
        let mut readers: Vec<SharedReader> = (0..3).map(|_| shared.reader().unwrap()).collect();
        assert_eq!(
            readers[0].read().unwrap().query("select * from t", []).unwrap().len(),
            id - 1
        );
        readers.remove(id % 3);
        let tables = shared.write().unwrap();
        readers.remove(id % 2);
        assert_eq!(tables.execute("insert t (?, 'more')", [id]), Ok(1));
        drop(tables);
        assert_eq!(
            readers[0].read().unwrap().query("select * from t", []).unwrap().len(),
            id
        );
    }
}

/// A panic of a writer or a reader leaves the tables whole, and others go on.
#[test]
fn a_panic_stops_nobody_else() {
    let shared = Shared::new(with_rows());
    let mut reader = shared.reader().unwrap();
    let written = catch_unwind(AssertUnwindSafe(|| {
        let tables = shared.write().unwrap();
        tables.begin().unwrap();
        tables.execute("insert t (3, 'c')", []).unwrap();
        assert_eq!(tables.transactions(), 0, "to end here");
    }));
    let read = catch_unwind(AssertUnwindSafe(|| {
        let tables = reader.read().unwrap();
        let panics = |_: &mmdb::Row<'_>| -> Result<i64> { panic!("to end here") };
        tables.query_row("select id from t", [], panics)
    }));
    assert!(written.is_err() && read.is_err());
    assert_eq!(shared.write().unwrap().execute("insert t (?, ?)", (4, "d")), Ok(1));
    let rows = reader.read().unwrap().query("select id from t", []).unwrap();
    assert_eq!(rows.to_vec(), [[1.into()], [2.into()], [4.into()]]);
}

/// A writer may put another database in the place of the one that is there.
#[test]
fn other_tables_in_their_place() {
    let shared = Shared::new(with_rows());
    let mut reader = shared.reader().unwrap();
    let names = |reader: &mut SharedReader| {
        let rows = reader.read().unwrap().query("select * from t", []).unwrap();
        (rows.column_names().join(" "), rows.len())
    };
    assert_eq!(names(&mut reader), ("t.id t.s".to_string(), 2));
    let other = open();
    other.execute("table t (a int, b int, c int)", []).unwrap();
    other.execute("insert t (1, 2, 3)", []).unwrap();
    let first = std::mem::replace(&mut *shared.write().unwrap(), other);
    assert_eq!(names(&mut reader), ("t.a t.b t.c".to_string(), 1));
    assert_eq!(first.execute("insert t (3, 'c')", []), Ok(1));
}
