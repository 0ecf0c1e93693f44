//! Statements that are executed with many rows of values.

use mmdb::{Database, Error};

const ROWS: i64 = 60_000;

fn opened() -> Database {
    let db = Database::open_in_memory().unwrap();
    db.execute("table t (id int, s text)", []).unwrap();
    db
}

fn rows_of(db: &Database) -> usize {
    db.prepare("select * from t").unwrap().count([]).unwrap()
}

fn text_of(why: &Error) -> &str {
    match why {
        Error::Refused { text, .. } => text,
        other => panic!("{other}"),
    }
}

/// Rows that take several calls are one transaction, and a refusal has the number of its row among all.
#[test]
fn more_than_one_call_takes_are_all_done_or_none() {
    let db = opened();
    let mut insert = db.prepare("insert t (?, ?)").unwrap();
    let twice = (0..ROWS).map(|id| (if id == ROWS - 10 { 5 } else { id }, format!("row {id}")));
    let why = insert.execute_many(twice).unwrap_err();
    assert_eq!((why.number(), text_of(&why)), (Some(41), "key exists (record 59991)"));
    assert_eq!((rows_of(&db), db.transactions()), (0, 0));
    assert_eq!(insert.execute_many((0..ROWS).rev().map(|id| (id, "text"))), Ok(ROWS as usize));
    assert_eq!((rows_of(&db), db.transactions()), (ROWS as usize, 0));
}

/// A refusal is explained by the values of its row.
#[test]
fn a_refusal_has_its_line_and_its_reason() {
    let db = opened();
    let mut insert = db.prepare("insert t (?, ?)").unwrap();
    assert_eq!(insert.execute_many([(1, "a"), (2, "b")]), Ok(2));
    let why = insert.execute_many([(3, "c"), (2, "d")]).unwrap_err();
    assert_eq!((why.number(), why.line()), (Some(41), Some("insert t (2, 'd')")));
    assert_eq!(why.reason(), Some("column 11: t has a row with the key 2"));
    let long = "x".repeat(70_000);
    let why = insert.execute_many([(3, "c"), (4, long.as_str())]).unwrap_err();
    assert_eq!((why.number(), rows_of(&db)), (Some(46), 2));
}

/// Updates and deletes tell the sum of their rows, and a statement without places is done once for each row of none.
#[test]
fn other_changes_are_done_in_turn() {
    let db = opened();
    db.prepare("insert t (?, ?)").unwrap().execute_many((0..10).map(|id| (id, "a"))).unwrap();
    let mut update = db.prepare("update t set s = ? where id >= ?").unwrap();
    assert_eq!(update.execute_many([("b", 5), ("c", 9)]), Ok(6));
    let mut delete = db.prepare("delete t where s = :s").unwrap();
    assert_eq!(delete.execute_many([&[(":s", "b")][..], &[(":s", "c")][..]]), Ok(5));
    let mut rest = db.prepare("delete t where id < 3").unwrap();
    assert_eq!(rest.execute_many([(), ()]), Ok(3));
    assert_eq!(db.prepare("select * from t").unwrap().execute_many([()]), Err(Error::NotAChange));
    assert_eq!(update.execute_many([("b",)]).unwrap_err().number(), None);
    assert_eq!(rows_of(&db), 2);
}
