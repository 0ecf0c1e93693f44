//! Functions that are told of changes: of which calls they are told, and of which they aren't.

mod common;

use std::cell::RefCell;
use std::panic::{catch_unwind, AssertUnwindSafe};
use std::rc::{Rc, Weak};
use std::sync::{Arc, Mutex};
use std::thread;

use common::{number, open, row, selected, with_rows};
use mmdb::{CsvOptions, Database, Error, Limits, Outcome, Policy, Shared, Watch};

/// What a function was told.
#[derive(Clone, Default)]
struct Told(Arc<Mutex<Vec<u64>>>);

impl Told {
    fn of(db: &Database) -> (Told, Watch) {
        let told = Told::default();
        let watch = db.watch(told.function());
        (told, watch)
    }

    fn of_table(db: &Database, table: &str) -> (Told, Watch) {
        let told = Told::default();
        let watch = db.watch_table(table, told.function());
        (told, watch)
    }

    fn function(&self) -> impl FnMut(u64) + Send {
        let told = self.clone();
        move |number| told.0.lock().unwrap().push(number)
    }

    /// What was told since this was asked last.
    fn take(&self) -> Vec<u64> {
        std::mem::take(&mut self.0.lock().unwrap())
    }
}

fn is_send<T: Send>() {}

fn is_sync<T: Sync>() {}

/// A database with a table `t` of two rows and a table `u (id int)`, and blocks of few bytes.
fn with_small_blocks() -> Database {
    let limits = Limits {
        block: 100,
        ..Limits::default()
    };
    let db = Database::open(Policy::Auto, limits).unwrap();
    db.execute("table t (id int, s text)", []).unwrap();
    db.execute("table u (id int)", []).unwrap();
    db.load("t", [(1, "a"), (2, "b")]).unwrap();
    db
}

#[test]
fn watches_cross_threads() {
    is_send::<Watch>();
    is_sync::<Watch>();
    is_send::<Database>();
}

/// Each call that changes rows is told once, with the number that it leaves.
#[test]
fn each_change_is_told_once() {
    let csv = (10..50).map(|id| format!("{id},text\n")).collect::<String>();
    let long = format!("id,s\n{csv}");
    let ways: [&dyn Fn(&mut Database); 17] = [
        &|db| assert_eq!(db.execute("insert t (3, 'c')", []), Ok(1)),
        &|db| assert_eq!(db.execute("insert t (?, ?)", (3, "c")), Ok(1)),
        &|db| assert_eq!(db.prepare("insert t (?, ?)").unwrap().execute((3, "c")), Ok(1)),
        &|db| assert_eq!(db.prepare("insert u (?)").unwrap().execute_many([[1], [2]]), Ok(2)),
        &|db| {
            assert_eq!(
                db.prepare("delete t where id < 3").unwrap().execute_many([(), ()]),
                Ok(2)
            )
        },
        &|db| assert_eq!(db.command("update t set s = 'c'", []), Ok(Outcome::Count(2))),
        &|db| assert_eq!(db.command("delete t where id = ?", [1]), Ok(Outcome::Count(1))),
        &|db| assert_eq!(db.command("drop table t", []), Ok(Outcome::Done)),
        &|db| assert_eq!(db.execute("table v (id int)", []), Ok(0)),
        &|db| assert_eq!(db.answer(b"insert t (3, 'c')"), Ok(&b"ok 1\n"[..])),
        &|db| assert_eq!(db.answer_to_load(b"load t 9", b"id,s\n3,c\n"), Ok(&b"ok 1\n"[..])),
        &|db| assert_eq!(db.load("t", [(3, "c"), (4, "d")]), Ok(2)),
        &|db| assert_eq!(db.load("t", (10..100).map(|id| (id, "text"))), Ok(90)),
        &|db| assert_eq!(db.load_columns("t", &["s", "id"], [("c", 3)]), Ok(1)),
        &|db| assert_eq!(db.load_csv("t", "id,s\n3,c\n"), Ok(1)),
        &|db| assert_eq!(db.load_csv("t", &long), Ok(40)),
        &|db| {
            assert_eq!(
                db.load_csv_with("t", long.as_bytes(), &CsvOptions::new().columns(["s", "id"])),
                Ok(40)
            )
        },
    ];
    for (at, way) in ways.iter().enumerate() {
        let mut db = with_small_blocks();
        let (told, _watch) = Told::of(&db);
        let before = db.version().unwrap();
        way(&mut db);
        assert_eq!(told.take(), [db.version().unwrap()], "way {at}");
        assert!(db.version().unwrap() > before, "way {at}");
    }
}

/// The same statement is told each time, whether it is kept by its line or by the program.
#[test]
fn statements_that_stay_are_told_each_time() {
    let db = with_rows();
    let mut insert = db.prepare("insert t (?, ?)").unwrap();
    assert_eq!(insert.execute((3, "before")), Ok(1));
    let (told, _watch) = Told::of_table(&db, "t");
    for id in 4..7 {
        assert_eq!(insert.execute((id, "c")), Ok(1));
        assert_eq!(told.take(), [db.table_version("t").unwrap()]);
        assert_eq!(db.execute("insert t (?, 'd')", [id + 10]), Ok(1));
        assert_eq!(told.take(), [db.table_version("t").unwrap()]);
        assert_eq!(db.command("insert t (?, 'd')", [id + 20]), Ok(Outcome::Count(1)));
        assert_eq!(told.take(), [db.table_version("t").unwrap()]);
    }
}

#[test]
fn what_changes_nothing_is_not_told() {
    let mut db = with_small_blocks();
    db.prepare("insert u (?)").unwrap().execute_many([[1], [2]]).unwrap();
    let (told, _watch) = Told::of(&db);
    let again = (10..100).chain([1]).map(|id| (id, "text"));
    assert_eq!(number(db.execute("insert t (1, 'again')", [])), Some(41));
    assert_eq!(number(db.execute("insert t (?, ?)", (1, "again"))), Some(41));
    assert_eq!(number(db.prepare("insert u (?)").unwrap().execute(["x"])), Some(35));
    assert_eq!(number(db.load("t", [(3, "c"), (1, "again")])), Some(41));
    assert_eq!(number(db.load("v", [(3, "c")])), Some(30));
    assert_eq!(db.answer(b"insert u (1)"), Ok(&b"error 41 key exists\n"[..]));
    assert_eq!(db.execute("delete t where id > ?", [7]), Ok(0));
    assert_eq!(db.execute("index t s hash", []), Ok(0));
    assert_eq!(db.query("select * from t", []).unwrap().len(), 2);
    assert_eq!(
        (db.count("select * from t", []), db.dump("u").unwrap().len()),
        (Ok(2), 2)
    );
    assert_eq!(db.plan("select * from t", []).unwrap().len(), 2);
    assert!(matches!(db.command("tables", []), Ok(Outcome::Text(_))));
    assert_eq!(db.try_clone().unwrap().execute("delete t", []), Ok(2));
    assert_eq!(db.readers().reader().unwrap().count("select * from t", []), Ok(2));
    assert_eq!(
        (db.begin(), db.commit(), db.rollback()),
        (Ok(()), Ok(()), Err(Error::NoTransaction))
    );
    assert_eq!(told.take(), []);
    assert_eq!(number(db.load("t", again)), Some(41));
    assert_eq!(told.take(), [db.version().unwrap()], "the blocks of a load were undone");
}

/// What is changed in a transaction is told at once, and its rollback too, but no commit.
#[test]
fn transactions_are_told_of_when_they_are_undone() {
    let mut db = with_small_blocks();
    let ((told, _watch), (of_u, _watch_of_u)) = (Told::of(&db), Told::of_table(&db, "u"));
    let mut tx = db.transaction().unwrap();
    tx.execute("insert t (3, 'c')", []).unwrap();
    assert_eq!(told.take(), [tx.version().unwrap()]);
    tx.savepoint().unwrap().rollback().unwrap();
    assert_eq!(told.take(), [tx.version().unwrap()]);
    let savepoint = tx.savepoint().unwrap();
    savepoint.load("t", [(4, "d")]).unwrap();
    savepoint.commit().unwrap();
    tx.commit().unwrap();
    assert_eq!(told.take(), [db.version().unwrap()]);
    of_u.take();
    let tx = db.transaction().unwrap();
    tx.begin().unwrap();
    tx.execute("delete t", []).unwrap();
    told.take();
    drop(tx);
    assert_eq!(
        (told.take(), of_u.take()),
        (vec![db.version().unwrap()], vec![db.table_version("u").unwrap()])
    );
    db.begin().unwrap();
    db.rollback().unwrap();
    assert_eq!(
        (
            told.take().len(),
            selected(&db, "select * from t where id > 2", []).len()
        ),
        (1, 2)
    );
}

#[test]
fn rows_that_are_refused_together_are_told_of_as_they_rise() {
    let db = with_small_blocks();
    let mut insert = db.prepare("insert u (?)").unwrap();
    insert.execute([5]).unwrap();
    let (told, _watch) = Told::of(&db);
    let before = db.version().unwrap();
    assert_eq!(number(insert.execute_many((0..10).rev().map(|id| [id]))), Some(41));
    let expected = Vec::from_iter(Some(db.version().unwrap()).filter(|now| *now > before));
    assert_eq!((told.take(), db.dump("u").unwrap().len()), (expected, 1));
    assert_eq!(
        number(insert.execute_many((6..200_000).chain([5]).map(|id| [id]))),
        Some(41)
    );
    assert_eq!(
        (told.take(), db.dump("u").unwrap().len()),
        (vec![db.version().unwrap()], 1)
    );
}

#[test]
fn a_table_comes_and_goes() {
    let mut db = with_small_blocks();
    let (told, _watch) = Told::of_table(&db, "t");
    db.execute("insert u (1)", []).unwrap();
    assert_eq!(told.take(), []);
    db.execute("drop table t", []).unwrap();
    assert_eq!(told.take(), [db.version().unwrap()]);
    db.execute("insert u (2)", []).unwrap();
    assert_eq!(told.take(), []);
    let tx = db.transaction().unwrap();
    tx.execute("table t (id int)", []).unwrap();
    assert_eq!(told.take(), [tx.table_version("t").unwrap()]);
    tx.rollback().unwrap();
    assert_eq!(told.take(), [db.version().unwrap()]);
    db.execute("table t (id int)", []).unwrap();
    assert_eq!(told.take(), [db.table_version("t").unwrap()]);
    let (of_none, _watch_of_none) = Told::of_table(&db, "");
    db.execute("insert t (1)", []).unwrap();
    assert_eq!(
        (told.take(), of_none.take()),
        (vec![db.table_version("t").unwrap()], vec![])
    );
}

/// A watch ends where it is dropped, whether the database is there or not, and its function with it.
#[test]
fn watches_end() {
    let db = with_rows();
    let ((first, watch), (second, other)) = (Told::of(&db), Told::of(&db));
    db.execute("insert t (3, 'c')", []).unwrap();
    assert_eq!((first.take().len(), second.take().len()), (1, 1));
    drop(watch);
    assert_eq!(Arc::strong_count(&first.0), 1);
    db.execute("insert t (4, 'd')", []).unwrap();
    assert_eq!((first.take().len(), second.take().len()), (0, 1));
    drop(db);
    assert_eq!(format!("{other:?}"), "Watch { .. }");
    drop(other);
    assert_eq!(Arc::strong_count(&second.0), 1);
}

/// A function may end its own watch, and those of others that aren't told yet.
#[test]
fn a_function_ends_watches() {
    let db = with_rows();
    let watches = Arc::new(Mutex::new(Vec::new()));
    let (told, mine) = (Told::default(), Arc::clone(&watches));
    let mut tell = told.function();
    let first = db.watch(move |number| {
        tell(number);
        mine.lock().unwrap().clear();
    });
    let second = db.watch(told.function());
    watches.lock().unwrap().extend([first, second]);
    db.execute("insert t (3, 'c')", []).unwrap();
    assert_eq!(told.take(), [db.version().unwrap()]);
    db.execute("insert t (4, 'd')", []).unwrap();
    assert_eq!((told.take(), Arc::strong_count(&told.0)), (vec![], 1));
}

/// A panic is that of the call, whose change stands. The function is called again, and the others are told behind the next change.
#[test]
fn functions_panic() {
    let db = with_rows();
    let (told, mut left) = (Told::default(), 1);
    let mut tell = told.function();
    let _watch = db.watch(move |number| {
        tell(number);
        left -= 1;
        assert!(left < 0, "once");
    });
    let (other, _other) = Told::of(&db);
    let insert = || db.execute("insert t (3, 'c')", []);
    assert!(catch_unwind(AssertUnwindSafe(insert)).is_err());
    assert_eq!(selected(&db, "select * from t where id = 3", []), [row(3, "c")]);
    db.execute("insert t (4, 'd')", []).unwrap();
    assert_eq!((told.take().len(), other.take()), (2, vec![db.version().unwrap()]));
}

/// What is lent by a call that was told is its answer, and the reason of a refusal is there behind it.
#[test]
fn answers_stay() {
    let mut db = with_rows();
    let (told, _watch) = Told::of(&db);
    assert_eq!(db.answer(b"select s from t where id = 1"), Ok(&b"rows 1\nt.s\na\n"[..]));
    assert_eq!(db.answer(b"insert t (1, 'b')"), Ok(&b"error 41 key exists\n"[..]));
    assert_eq!(
        db.reason(b"insert t (1, 'b')", b"").as_deref(),
        Some("t has a row with the key 1")
    );
    assert_eq!(db.answer(b"update t set s = 'c'"), Ok(&b"ok 2\n"[..]));
    assert_eq!(db.answer(b" "), Ok(&b""[..]));
    assert_eq!(told.take().len(), 1);
}

/// A function that gets at the database by a variable of its thread is told behind its own change.
#[test]
fn a_function_changes_the_database() {
    thread_local!(static DATABASE: RefCell<Weak<Database>> = RefCell::default());
    let db = Rc::new(open());
    db.execute("table t (id int)", []).unwrap();
    DATABASE.with(|held| *held.borrow_mut() = Rc::downgrade(&db));
    let told = Told::default();
    let (mut tell, mut later) = (told.function(), Vec::new());
    let _watch = db.watch(move |number| {
        let db = DATABASE.with(|held| held.borrow().upgrade()).unwrap();
        let count = db.count("select * from t", []).unwrap();
        if count < 3 {
            db.execute("insert t (?)", [10 + count as i64]).unwrap();
            later.push(db.watch(|_| ()));
        }
        tell(number);
    });
    db.execute("insert t (?)", [1]).unwrap();
    assert_eq!(told.take(), [2, 3, 4]);
    assert_eq!(db.version(), Ok(4));
}

/// The writers of a shared database tell what they change, each in its own thread.
#[test]
fn writers_are_told_of() {
    let shared = Shared::new(with_rows());
    let threads = Arc::new(Mutex::new(Vec::new()));
    let seen = Arc::clone(&threads);
    let watch = shared
        .write()
        .unwrap()
        .watch_table("t", move |_| seen.lock().unwrap().push(thread::current().id()));
    let writers = (10..14).map(|id| {
        let shared = shared.clone();
        thread::spawn(move || {
            shared.write().unwrap().execute("insert t (?, 'c')", [id]).unwrap();
            thread::current().id()
        })
    });
    let mut written: Vec<_> = writers.map(|writer| writer.join().unwrap()).collect();
    let tables = shared.write().unwrap();
    tables.begin().unwrap();
    drop(tables);
    written.push(thread::current().id());
    drop(watch);
    shared.write().unwrap().execute("delete t", []).unwrap();
    assert_eq!(*threads.lock().unwrap(), written);
}
