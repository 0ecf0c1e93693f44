//! Readers of one database, in threads of their own.

mod common;

use std::thread;

use common::{row, selected, with_rows};
use mmdb::{Error, IndexShape, Outcome, Reader, Readers};

fn is_send<T: Send>() {}

fn is_sync<T: Sync>() {}

#[test]
fn readers_cross_threads() {
    is_send::<Reader<'_>>();
    is_send::<Readers<'_>>();
    is_sync::<Readers<'_>>();
}

#[test]
fn each_reads_what_is_there() {
    let mut db = with_rows();
    for round in 0..20 {
        let readers = db.readers();
        thread::scope(|threads| {
            for _ in 0..4 {
                threads.spawn(|| {
                    let reader = readers.reader().unwrap();
                    let mut find = reader.prepare("select s from t where id = ?").unwrap();
                    for (id, text) in [(1, "a"), (2, "b")].iter().cycle().take(1_000) {
                        assert_eq!(find.query_row([*id], |row| row.get(0)), Ok(text.to_string()));
                    }
                    let count = reader.query("select id from t", []).unwrap().len();
                    assert_eq!(count, 2 + round as usize);
                });
            }
        });
        assert_eq!(db.execute("insert t (?, ?)", (3 + round, "more")), Ok(1));
    }
}

#[test]
fn a_reader_has_the_calls_of_selects() {
    let mut db = with_rows();
    let readers = db.readers();
    let (reader, other) = (readers.reader().unwrap(), readers.reader().unwrap());
    let ids = reader
        .query_map("select id from t", [], |row| row.get::<_, i64>(0))
        .unwrap();
    assert_eq!(ids.collect::<Result<Vec<_>, _>>(), Ok(vec![1, 2]));
    assert_eq!(
        other.query_row("select s from t where id = 2", [], |row| row.get(0)),
        Ok("b".to_string())
    );
    assert!(matches!(
        reader.indexes("t").unwrap()[0].shape,
        IndexShape::Tree { height: 1, .. }
    ));
    assert_eq!(
        reader.plan("select s from t where id = ?", [1]).unwrap()[0],
        "search of t by the key, 2 rows"
    );
    assert_eq!(reader.count("select s from t where id > ?", [1]), Ok(1));
    assert_eq!(reader.count("delete t", []), Err(Error::NotASelect));
    assert_eq!(reader.first(1, "select * from t", []).unwrap().to_vec(), [row(1, "a")]);
    assert_eq!(reader.first(1, "delete t", []).unwrap_err(), Error::NotASelect);
    assert_eq!(reader.prepare("select nothing from t").unwrap_err().number(), Some(32));
    for line in [
        "insert t (3, 'c')",
        "delete t",
        "update t set s = 'c'",
        "tables",
        "drop table t",
    ] {
        assert_eq!(reader.prepare(line).unwrap_err(), Error::NotASelect, "{line}");
        assert_eq!(reader.query(line, []).unwrap_err(), Error::NotASelect, "{line}");
    }
    drop((reader, other));
    assert_eq!(db.execute("delete t where id = 1", []), Ok(1));
    assert_eq!(selected(&db, "select * from t", []), [row(2, "b")]);
}

#[test]
fn a_reader_does_commands_that_change_nothing() {
    let mut db = with_rows();
    let readers = db.readers();
    let (reader, _other) = (readers.reader().unwrap(), readers.reader().unwrap());
    let text = |line| match reader.command(line, []) {
        Ok(Outcome::Text(text)) => text,
        other => panic!("{line}: {other:?}"),
    };
    assert_eq!(text("tables"), "table t (id int, s text)\n");
    assert_eq!(text("dump t"), "load t 13\nid,s\n1,a\n2,b\n");
    assert_eq!(reader.command("# of t", []), Ok(Outcome::Done));
    let rows = reader.command("select s from t where id > ?", [1]).unwrap().into_rows();
    assert_eq!(rows.unwrap().len(), 1);
    assert_eq!(reader.dump("t").unwrap().len(), 2);
    assert_eq!(reader.command("drop table u", []).unwrap_err().number(), Some(30));
    assert_eq!(reader.command("delete u", []).unwrap_err().number(), Some(30));
    for line in [
        "insert t (3, 'c')",
        "delete t",
        "table u (id int)",
        "index t s hash",
        "drop table t",
    ] {
        assert_eq!(reader.command(line, []).unwrap_err(), Error::Shared, "{line}");
    }
}

/// What is forgotten is never dropped, and so the tables stay shared.
#[test]
fn a_forgotten_reader_keeps_the_tables_from_changing() {
    let mut db = with_rows();
    std::mem::forget(db.readers().reader().unwrap());
    assert_eq!(db.execute("insert t (?, ?)", (3, "c")), Err(Error::Shared));
    assert_eq!(db.execute("insert t (3, 'c')", []), Err(Error::Shared));
    assert_eq!(db.execute("drop table t", []), Err(Error::Shared));
    assert_eq!(db.load("t", [(3, "c")]), Err(Error::Shared));
    assert_eq!(selected(&db, "select * from t", []), [row(1, "a"), row(2, "b")]);
}
