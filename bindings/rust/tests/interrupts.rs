//! Selects that are asked to end while they are under way.

mod common;

use std::sync::atomic::{AtomicBool, Ordering};
use std::thread;
use std::time::{Duration, Instant};

use common::{row, selected};
use mmdb::{Database, Error, Interrupter, Limits, Policy, Reader, Result, Shared};

/// By a scan the join looks at each pair of rows, and gives none.
const ROWS: i64 = 4_000;
const JOIN: &str = "select a.id, b.id from a join b on a.n = b.n where a.id >= ?";
/// Of these it would take a minute or more.
const MANY: i64 = 200_000;

fn filled(rows: i64) -> Database {
    let db = Database::open(Policy::Scan, Limits::default()).unwrap();
    db.execute("table a (id int, n int)", []).unwrap();
    db.execute("table b (id int, n int)", []).unwrap();
    db.load("a", (0..rows).map(|id| (id, id % 7))).unwrap();
    db.load("b", (0..rows).map(|id| (id, id % 7 + 7))).unwrap();
    db
}

/// Says that something is over, also where it ends by a panic.
struct Over<'o>(&'o AtomicBool);

impl Drop for Over<'_> {
    fn drop(&mut self) {
        self.0.store(true, Ordering::Relaxed);
    }
}

/// What is made while a thread asks again and again.
fn asked<T>(interrupter: &Interrupter, make: impl FnOnce() -> T) -> T {
    let is_over = AtomicBool::new(false);
    thread::scope(|threads| {
        threads.spawn(|| {
            while !is_over.load(Ordering::Relaxed) {
                interrupter.interrupt();
                thread::sleep(Duration::from_micros(200));
            }
        });
        let _over = Over(&is_over);
        make()
    })
}

/// The error that a call gives sooner or later.
fn error_of<T>(mut call: impl FnMut() -> Result<T>) -> Option<Error> {
    (0..100).find_map(|_| call().err())
}

fn is_send_and_sync<T: Send + Sync + 'static>() {}

#[test]
fn interrupters_cross_threads() {
    is_send_and_sync::<Interrupter>();
}

#[test]
fn each_call_of_a_database() {
    let db = filled(ROWS);
    let (interrupter, version) = (db.interrupter().unwrap(), db.version().unwrap());
    let calls: [&dyn Fn() -> Result<usize>; 6] = [
        &|| db.query(JOIN, [0]).map(|rows| rows.len()),
        &|| db.first(1, JOIN, [0]).map(|rows| rows.len()),
        &|| db.count(JOIN, [0]),
        &|| db.query_map(JOIN, [0], |row| row.get::<_, i64>(0)).map(Iterator::count),
        &|| {
            db.query_pages(5, JOIN, [0], |row| row.get::<_, i64>(0))
                .map(Iterator::count)
        },
        &|| db.command(JOIN, [0]).map(|outcome| outcome.into_rows().unwrap().len()),
    ];
    for call in calls {
        assert_eq!(asked(&interrupter, || error_of(call)), Some(Error::Interrupted));
        assert_eq!(call(), Ok(0));
    }
    let ended = asked(&interrupter, || error_of(|| db.query_row(JOIN, [0], |_| Ok(()))));
    assert!(matches!(ended, Some(Error::Interrupted | Error::NoRows)));
    assert_eq!(selected(&db, "select id from a where id < ?", [1]), [[0.into()]]);
    assert_eq!(db.version().unwrap(), version);
    assert_eq!(Error::Interrupted.to_string(), "the select was interrupted");
}

#[test]
fn each_call_of_a_statement() {
    let db = filled(ROWS);
    let interrupter = db.interrupter().unwrap();
    let mut join = db.prepare(JOIN).unwrap();
    for _ in 0..3 {
        let ended = asked(&interrupter, || error_of(|| join.query([0]).map(|rows| rows.len())));
        assert_eq!((ended, join.query([0]).unwrap().len()), (Some(Error::Interrupted), 0));
        let ended = asked(&interrupter, || error_of(|| join.first(3, [0]).map(|rows| rows.len())));
        assert_eq!((ended, join.count([0])), (Some(Error::Interrupted), Ok(0)));
        let ended = asked(&interrupter, || error_of(|| join.count([0])));
        assert_eq!(ended, Some(Error::Interrupted));
        let ended = asked(&interrupter, || {
            error_of(|| join.query_pages(1, [0], |_| Ok(())).map(Iterator::count))
        });
        assert_eq!(
            (ended, db.execute("delete b where id < 0", [])),
            (Some(Error::Interrupted), Ok(0))
        );
    }
    assert_eq!(db.count("select * from a", []), Ok(ROWS as usize));
}

#[test]
fn it_ends_at_once() {
    let db = filled(MANY);
    let (interrupter, began) = (db.interrupter().unwrap(), Instant::now());
    let ended = asked(&interrupter, || db.count(JOIN, [0]));
    assert_eq!(ended, Err(Error::Interrupted));
    assert!(began.elapsed() < Duration::from_secs(20));
}

#[test]
fn what_was_asked_before_is_forgotten() {
    let db = filled(ROWS);
    let interrupters = [db.interrupter().unwrap(), db.interrupter().unwrap()];
    for interrupter in &interrupters {
        interrupter.interrupt();
        assert_eq!(db.count(JOIN, [0]), Ok(0));
    }
    drop(interrupters);
    assert_eq!(db.count(JOIN, [0]), Ok(0));
}

#[test]
fn many_threads_and_many_interrupters() {
    let db = filled(ROWS);
    let (one, other) = (db.interrupter().unwrap(), db.interrupter().unwrap());
    let ended = asked(&one, || {
        asked(&one, || asked(&other, || error_of(|| db.count(JOIN, [0]))))
    });
    assert_eq!(ended, Some(Error::Interrupted));
}

#[test]
fn changes_are_not_cut() {
    let mut db = filled(ROWS);
    let interrupter = db.interrupter().unwrap();
    asked(&interrupter, || {
        for _ in 0..20 {
            assert_eq!(db.load("a", (ROWS..2 * ROWS).map(|id| (id, 0))), Ok(ROWS as usize));
            assert_eq!(
                db.execute("update a set n = 1 where id >= ?", [ROWS]),
                Ok(ROWS as usize)
            );
            let tx = db.transaction().unwrap();
            assert_eq!(tx.execute("delete a", []), Ok(2 * ROWS as usize));
            drop(tx);
            assert_eq!(db.execute("delete a where id >= 4000", []), Ok(ROWS as usize));
        }
        let join = JOIN.replace('?', "0");
        assert_eq!(db.answer(join.as_bytes()), Ok(&b"rows 0\na.id,b.id\n"[..]));
    });
    assert_eq!(db.count("select * from a", []), Ok(ROWS as usize));
}

/// Once the rows are found each page is read to its end.
#[test]
fn pages_are_not_cut() {
    let db = filled(ROWS);
    let interrupter = db.interrupter().unwrap();
    for most in [1, 3, 100] {
        let pages = db.query_pages(most, "select distinct n, id from a", [], |row| row.get::<_, i64>(1));
        let ids = asked(&interrupter, || pages.unwrap().map(Result::unwrap).sum::<i64>());
        assert_eq!(ids, ROWS * (ROWS - 1) / 2);
    }
}

/// What asks one handle doesn't ask another that shares its tables, or has copies of them.
#[test]
fn handles_of_their_own() {
    let mut db = filled(ROWS);
    let (copy, of_db) = (db.try_clone().unwrap(), db.interrupter().unwrap());
    assert_eq!(asked(&of_db, || copy.count(JOIN, [0])), Ok(0));
    let of_copy = copy.interrupter().unwrap();
    assert_eq!(asked(&of_copy, || db.count(JOIN, [0])), Ok(0));
    assert_eq!(
        asked(&of_copy, || error_of(|| copy.count(JOIN, [0]))),
        Some(Error::Interrupted)
    );
    let readers = db.readers();
    thread::scope(|threads| {
        for _ in 0..2 {
            threads.spawn(|| {
                let reader: Reader<'_> = readers.reader().unwrap();
                let interrupter = reader.interrupter().unwrap();
                let ended = asked(&interrupter, || error_of(|| reader.count(JOIN, [0])));
                assert_eq!((ended, reader.count(JOIN, [0])), (Some(Error::Interrupted), Ok(0)));
                assert_eq!(asked(&of_db, || reader.count(JOIN, [0])), Ok(0));
            });
        }
    });
}

#[test]
fn a_reader_that_comes_back() {
    let shared = Shared::new(filled(ROWS));
    let mut reader = shared.reader().unwrap();
    let interrupter = reader.read().unwrap().interrupter().unwrap();
    for round in 1..4 {
        shared.write().unwrap().execute("insert a (?, 0)", [-round]).unwrap();
        interrupter.interrupt();
        let tables = reader.read().unwrap();
        let ended = asked(&interrupter, || error_of(|| tables.count(JOIN, [0])));
        assert_eq!(ended, Some(Error::Interrupted));
        assert_eq!(tables.count("select * from a", []), Ok((ROWS + round) as usize));
    }
}

#[test]
fn it_outlives_the_database() {
    for _ in 0..100 {
        let db = common::with_rows();
        let interrupter = db.interrupter().unwrap();
        let asking = thread::spawn(move || {
            (0..100).for_each(|_| interrupter.interrupt());
            interrupter
        });
        match db.query("select * from t where id < 2", []) {
            Ok(rows) => assert_eq!(rows.to_vec(), [row(1, "a")]),
            ended => assert_eq!(ended, Err(Error::Interrupted)),
        }
        drop(db);
        asking.join().unwrap().interrupt();
    }
}
