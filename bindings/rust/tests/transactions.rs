//! Transactions: what stays, what is undone, and what isn't done in one.

mod common;

use std::panic::{catch_unwind, AssertUnwindSafe};

use common::{number, open, row, selected, with_rows, with_table};
use mmdb::{Database, Error, Outcome};

const ALL: &str = "select * from t";

fn ids(db: &Database) -> Vec<i64> {
    let ids = db.query_map(ALL, [], |row| row.get("id")).expect("a select");
    ids.collect::<Result<_, _>>().expect("integers")
}

#[test]
fn one_that_is_dropped_is_rolled_back() {
    let mut db = with_rows();
    let tx = db.transaction().unwrap();
    assert!(tx.in_transaction());
    assert_eq!(tx.execute("insert t (3, 'c')", []), Ok(1));
    assert_eq!(ids(&tx), [1, 2, 3]);
    drop(tx);
    assert_eq!((ids(&db), db.transactions()), (vec![1, 2], 0));
    db.transaction().unwrap().rollback().unwrap();
    let tx = db.transaction().unwrap();
    assert_eq!(tx.load("t", [(3, "c"), (4, "d")]), Ok(2));
    assert_eq!(tx.commit(), Ok(()));
    assert_eq!((ids(&db), db.in_transaction()), (vec![1, 2, 3, 4], false));
}

#[test]
fn each_way_to_insert_is_undone() {
    let ways: [fn(&mut Database); 7] = [
        |db| assert_eq!(db.execute("insert t (3, 'c')", []), Ok(1)),
        |db| assert_eq!(db.execute("insert t (?, ?)", (3, "two\nlines")), Ok(1)),
        |db| assert_eq!(db.prepare("insert t (?, ?)").unwrap().execute((3, "c")), Ok(1)),
        |db| assert_eq!(db.command("insert t (3, 'c')", []), Ok(Outcome::Count(1))),
        |db| assert_eq!(db.answer(b"insert t (3, 'c')"), Ok(&b"ok 1\n"[..])),
        |db| assert_eq!(db.load("t", [(3, "c")]), Ok(1)),
        |db| assert_eq!(db.load_csv("t", "id,s\n3,c\n"), Ok(1)),
    ];
    let mut db = with_rows();
    for way in ways {
        let mut tx = db.transaction().unwrap();
        way(&mut tx);
        assert_eq!(ids(&tx), [1, 2, 3]);
        drop(tx);
        assert_eq!(selected(&db, ALL, []), [row(1, "a"), row(2, "b")]);
    }
}

#[test]
fn a_savepoint_is_undone_alone() {
    let mut db = with_rows();
    let mut tx = db.transaction().unwrap();
    tx.execute("insert t (3, 'c')", []).unwrap();
    let mut savepoint = tx.savepoint().unwrap();
    savepoint.execute("insert t (4, 'd')", []).unwrap();
    let inner = savepoint.savepoint().unwrap();
    assert_eq!(inner.transactions(), 3);
    inner.execute("insert t (5, 'e')", []).unwrap();
    inner.commit().unwrap();
    assert_eq!(ids(&savepoint), [1, 2, 3, 4, 5]);
    savepoint.rollback().unwrap();
    assert_eq!((ids(&tx), tx.transactions()), (vec![1, 2, 3], 1));
    let savepoint = tx.savepoint().unwrap();
    savepoint.execute("insert t (6, 'f')", []).unwrap();
    savepoint.commit().unwrap();
    tx.commit().unwrap();
    assert_eq!(ids(&db), [1, 2, 3, 6]);
}

/// A guard ends those that were begun in it and not ended.
#[test]
fn the_end_of_one_is_that_of_all_in_it() {
    let mut db = with_rows();
    let tx = db.transaction().unwrap();
    tx.begin().unwrap();
    tx.execute("insert t (3, 'c')", []).unwrap();
    tx.begin().unwrap();
    tx.commit().unwrap();
    assert_eq!((ids(&db), db.transactions()), (vec![1, 2, 3], 0));
    let mut tx = db.transaction().unwrap();
    std::mem::forget(tx.savepoint().unwrap());
    tx.execute("insert t (4, 'd')", []).unwrap();
    drop(tx);
    assert_eq!((ids(&db), db.transactions()), (vec![1, 2, 3], 0));
}

/// A guard whose transaction was ended by the calls of the database ends no other.
#[test]
fn one_that_has_ended_ends_no_other() {
    let mut db = with_rows();
    db.begin().unwrap();
    let tx = db.transaction().unwrap();
    tx.execute("insert t (3, 'c')", []).unwrap();
    Database::commit(&tx).unwrap();
    assert_eq!(tx.commit(), Err(Error::NoTransaction));
    let tx = db.transaction().unwrap();
    Database::rollback(&tx).unwrap();
    assert_eq!(tx.rollback(), Err(Error::NoTransaction));
    let tx = db.transaction().unwrap();
    Database::commit(&tx).unwrap();
    drop(tx);
    assert_eq!((ids(&db), db.transactions()), (vec![1, 2, 3], 1));
    db.rollback().unwrap();
    assert_eq!((ids(&db), db.transactions()), (vec![1, 2], 0));
}

#[test]
fn there_is_none_to_end() {
    let db = with_rows();
    assert_eq!(db.commit(), Err(Error::NoTransaction));
    assert_eq!(db.rollback(), Err(Error::NoTransaction));
    assert_eq!(db.rollback().unwrap_err().to_string(), "no transaction is open");
}

#[test]
fn statements_and_rows_stay() {
    let db = with_rows();
    let mut insert = db.prepare("insert t (?, ?)").unwrap();
    let mut all = db.prepare(ALL).unwrap();
    db.begin().unwrap();
    assert_eq!(insert.execute((3, "c")), Ok(1));
    let rows = all.query([]).unwrap();
    db.rollback().unwrap();
    assert_eq!(rows.get(2).expect("a row").get("s"), Ok("c"));
    assert_eq!(all.query([]).unwrap().len(), 2);
    for (commits, expected) in [(false, 2), (true, 3), (false, 3)] {
        db.begin().unwrap();
        let inserted = insert.execute((3, "c"));
        let ended = if commits { db.commit() } else { db.rollback() };
        assert_eq!((inserted.is_ok(), ended), (expected == 2 || commits, Ok(())));
        assert_eq!(all.query([]).unwrap().len(), expected);
    }
}

#[test]
fn a_refusal_leaves_it_open() {
    let mut db = with_rows();
    let tx = db.transaction().unwrap();
    tx.execute("insert t (3, 'c')", []).unwrap();
    assert_eq!(number(tx.execute("insert t (?, ?)", (1, "again"))), Some(41));
    assert_eq!(number(tx.load("t", [(4, "d"), (1, "again")])), Some(41));
    assert_eq!(number(tx.prepare("select nothing from t")), Some(32));
    assert_eq!((ids(&tx), tx.transactions()), (vec![1, 2, 3], 1));
    tx.commit().unwrap();
    assert_eq!(ids(&db), [1, 2, 3]);
}

#[test]
fn tables_are_not_shared_in_one() {
    let mut db = with_rows();
    let mut tx = db.transaction().unwrap();
    assert_eq!(tx.readers().reader().unwrap_err(), Error::InTransaction);
    tx.commit().unwrap();
    std::mem::forget(db.readers().reader().unwrap());
    assert_eq!(db.begin(), Err(Error::Shared));
    assert_eq!(db.transaction().unwrap_err(), Error::Shared);
    assert_eq!(
        (db.commit(), db.rollback()),
        (Err(Error::NoTransaction), Err(Error::NoTransaction))
    );
}

#[test]
fn a_panic_rolls_back() {
    let mut db = with_rows();
    let ended = catch_unwind(AssertUnwindSafe(|| {
        let tx = db.transaction().unwrap();
        tx.execute("insert t (3, 'c')", []).unwrap();
        assert!(ids(&tx).is_empty(), "to end here");
    }));
    assert!(ended.is_err());
    assert_eq!((ids(&db), db.transactions()), (vec![1, 2], 0));
}

#[test]
fn many_are_begun_and_ended() {
    let mut db = with_table();
    for round in 0..200 {
        let tx = db.transaction().unwrap();
        assert_eq!(tx.load("t", (0..50).map(|id| (round * 50 + id, "s"))), Ok(50));
        if round % 2 == 0 {
            tx.commit().unwrap();
        }
    }
    assert_eq!(ids(&db).len(), 5_000);
    let deep = open();
    for depth in 0..100 {
        assert_eq!((deep.transactions(), deep.begin()), (depth, Ok(())));
    }
    for depth in (0..100).rev() {
        assert_eq!((deep.rollback(), deep.transactions()), (Ok(()), depth));
    }
}
