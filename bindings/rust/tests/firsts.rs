//! The first rows of selects.

mod common;

use common::draw::Draw;
use common::{number, row, selected, with_rows, with_table};
use mmdb::{named_params, Database, Error, Value};

const ROWS: i64 = 1_000;

/// Tables with a hash, a tree, and texts that are short and long.
fn filled() -> Database {
    let db = with_table();
    db.execute("table u (id int, t ref t, n int)", []).unwrap();
    db.execute("index u n tree", []).unwrap();
    db.execute("index t s hash", []).unwrap();
    db.load("t", (0..ROWS).map(|id| (id, "x".repeat(id as usize % 40))))
        .unwrap();
    db.load("u", (0..ROWS).map(|id| (id, ROWS - 1 - id, id % 7))).unwrap();
    db
}

/// Whether the first rows of a select are the front of all its rows, by its line and by a statement.
fn are_a_front(db: &Database, line: &str, most: usize, param: i64) {
    let all = selected(db, line, [param]);
    let front = &all[..most.min(all.len())];
    let rows = db.first(most, line, [param]).unwrap();
    assert_eq!(rows.to_vec(), front, "{line}, {most}, {param}");
    let mut statement = db.prepare(line).unwrap();
    assert_eq!(statement.first(most, [param]).unwrap().to_vec(), front);
    assert_eq!(statement.query([param]).unwrap().to_vec(), all);
    assert_eq!(rows.column_names(), statement.column_names().unwrap());
}

#[test]
fn first_rows_are_the_front_of_all() {
    let (db, mut draw) = (filled(), Draw(2026));
    let params: Vec<i64> = (0..8).chain([ROWS / 2, ROWS - 1, ROWS]).collect();
    let lines = [
        "select * from t where id > ?",
        "select s from t where id >= ? and id < 900",
        "select id from t where id <> ? and s = 'xxx'",
        "select id from u where n = ?",
        "select * from u where n <> ? and t > 10",
        "select distinct n from u where id > ?",
        "select u.id, t.s from u join t on u.t = t.id where u.id > ?",
    ];
    for line in lines {
        for most in [0, 1, 7, ROWS as usize, usize::MAX] {
            (0..2).for_each(|_| are_a_front(&db, line, most, draw.of(&params)));
        }
    }
}

/// The last key of a page finds the next page, also while rows come and go.
#[test]
fn pages_follow_each_other_while_rows_change() {
    let db = filled();
    let mut next = db.prepare("select id from t where id > :last").unwrap();
    let (mut last, mut seen) = (-1, Vec::new());
    loop {
        let page = next.first(64, named_params! { ":last": last }).unwrap();
        let ids: Vec<i64> = page.iter().map(|row| row.get(0).unwrap()).collect();
        last = match ids.last() {
            Some(id) => *id,
            None => break,
        };
        seen.extend(ids);
        if last < ROWS {
            db.execute("insert t (?, 'more')", [ROWS + last]).unwrap();
            db.execute("delete u where t = ?", [last]).unwrap();
            db.execute("delete t where id = ?", [last]).unwrap();
        }
    }
    assert_eq!(seen[..ROWS as usize], (0..ROWS).collect::<Vec<_>>());
    assert!(seen.len() > ROWS as usize && seen.windows(2).all(|ids| ids[0] < ids[1]));
}

#[test]
fn what_has_no_first_rows() {
    let db = with_rows();
    for line in [
        "insert t (3, 'c')",
        "update t set s = 'c'",
        "delete t",
        "tables",
        "# t",
        "",
    ] {
        assert_eq!(db.first(1, line, []).unwrap_err(), Error::NotASelect, "{line}");
    }
    let mut delete = db.prepare("delete t where id = ?").unwrap();
    assert_eq!(delete.first(1, [1]).unwrap_err(), Error::NotASelect);
    assert_eq!(number(db.first(1, "select * from none", [])), Some(30));
    let why = db.first(1, "select * from t where id > ?", ["a"]).unwrap_err();
    assert_eq!(
        (why.number(), why.line()),
        (Some(35), Some("select * from t where id > 'a' "))
    );
    assert!(why.reason().unwrap().starts_with("column 28: "));
    let lacking = db.first(1, "select * from t where id > ?", []).unwrap_err();
    assert!(matches!(lacking, Error::Places { places: 1, .. }));
    assert_eq!(selected(&db, "select * from t", []), [row(1, "a"), row(2, "b")]);
}

/// They are of the tables as they are, in a transaction and after it.
#[test]
fn first_rows_in_a_transaction() {
    let mut db = with_rows();
    let tx = db.transaction().unwrap();
    tx.execute("insert t (0, 'before')", []).unwrap();
    assert_eq!(tx.first(1, "select * from t", []).unwrap().to_vec(), [row(0, "before")]);
    tx.rollback().unwrap();
    assert_eq!(db.first(1, "select * from t", []).unwrap().to_vec(), [row(1, "a")]);
}

/// Nulls are among them, and rows that are copied stay.
#[test]
fn first_rows_that_are_copied_stay() {
    let db = with_rows();
    db.execute("table u (id int, t ref t null)", []).unwrap();
    db.execute("insert u (1, null)", []).unwrap();
    let rows = db.first(5, "select * from u", []).unwrap();
    db.execute("drop table u", []).unwrap();
    assert_eq!(rows.to_vec(), [[Value::Integer(1), Value::Null]]);
    assert_eq!(number(db.first(5, "select * from u", [])), Some(30));
}
