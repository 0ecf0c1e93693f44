//! How a database is opened, and what goes to it and from it as bytes.

mod common;

use common::{number, row, with_rows, with_table};
use mmdb::{named_params, params, params_from_iter, Database, Error, Limits, Policy, MOST};

#[test]
fn limits() {
    let mut db = Database::open(Policy::Tree, Limits { rows: 2, block: 6 }).unwrap();
    db.execute("table t (id int)", []).unwrap();
    assert_eq!(db.load("t", [[1]]), Ok(1));
    assert_eq!(db.execute("insert t (2)", []), Ok(1));
    assert_eq!(number(db.execute("insert t (3)", [])), Some(43));
    assert_eq!(number(db.command("dump t", [])), Some(64));
    assert_eq!(db.dump("t").unwrap().len(), 2);
    assert_eq!(number(db.load("t", [[3], [4], [5]])), Some(43));
    assert_eq!(number(db.load("t", [[1234]])), Some(12));
    assert_eq!(
        db.answer_to_load(b"load t 7", b"id\n1234"),
        Ok(&b"error 12 block too long\n"[..])
    );
    for (rows, block) in [(0, 1), (MOST + 1, 1), (1, MOST + 1)] {
        let opened = Database::open(Policy::Auto, Limits { rows, block });
        assert_eq!(opened.err(), Some(Error::OutOfRange));
    }
}

#[test]
fn a_database_goes_to_another_thread() {
    let db = with_table();
    db.execute("insert t (1, 'a')", []).unwrap();
    let (db, rows) = std::thread::spawn(move || {
        db.execute("insert t (2, 'b')", []).unwrap();
        let rows = db.query("select * from t", []).unwrap();
        (db, rows)
    })
    .join()
    .unwrap();
    assert_eq!(rows.to_vec(), [row(1, "a"), row(2, "b")]);
    assert_eq!(db.dump("t").unwrap().to_vec(), rows.to_vec());
}

#[test]
fn lines_are_one_request() {
    let mut db = with_table();
    for line in ["insert t (1, 'a')\ndelete t", "insert t (1, 'a')\n", "\n", "load t 9"] {
        assert_eq!(db.execute(line, []), Err(Error::NotOneRequest), "{line}");
        assert_eq!(db.command(line, []), Err(Error::NotOneRequest), "{line}");
    }
    assert_eq!(db.query("select * from t\ndelete t", []), Err(Error::NotOneRequest));
    assert_eq!(db.answer_to_load(b"load t 3", b"ab"), Err(Error::NotOneRequest));
    for name in ["t\n", "t 9", "t 9\n"] {
        assert_eq!(db.load_csv(name, "id,s\n1,a"), Err(Error::NotOneRequest), "{name:?}");
    }
    assert_eq!(db.answer_to_load(b"load t 8", b"id,s\n1,a"), Ok(&b"ok 1\n"[..]));
    assert_eq!(db.answer(b"select s from t"), Ok(&b"rows 1\nt.s\na\n"[..]));
    assert_eq!(db.answer(b""), Ok(&b""[..]));
    assert_eq!(db.answer(b"\xff"), Ok(&b"error 11 not UTF-8\n"[..]));
}

#[test]
fn all_can_be_shown() {
    let db = with_rows();
    let rows = db.query("select * from t where id = 1", []).unwrap();
    let shown = r#"{"t.id": Integer(1), "t.s": Text("a")}"#;
    assert_eq!(format!("{:?}", rows.get(0).unwrap()), shown);
    assert_eq!(format!("{rows:?}"), format!("[{shown}]"));
    assert!(format!("{:?}", rows.iter()).contains(shown));
    assert_eq!(format!("{db:?}"), "Database { .. }");
    assert_eq!(format!("{:?}", params_from_iter(1..3)), "ParamsFromIter(1..3)");
    let refused = db.execute("insert t (1, 'a')", []).unwrap_err();
    let shown = r#"Refused { number: 41, text: "key exists", line: "insert t (1, 'a')", reason: Some("t has a row with the key 1"), written: "insert t (1, 'a')" }"#;
    assert_eq!(format!("{refused:?}"), shown);
}

#[test]
#[allow(clippy::needless_borrows_for_generic_args)]
fn no_parameters() {
    let db = with_rows();
    let line = "delete t where id = 3";
    assert_eq!(db.execute(line, []), Ok(0));
    assert_eq!(db.execute(line, &[]), Ok(0));
    assert_eq!(db.execute(line, ()), Ok(0));
    assert_eq!(db.execute(line, params![]), Ok(0));
    assert_eq!(db.execute(line, named_params! {}), Ok(0));
    assert_eq!(db.execute(line, Vec::<i64>::new()), Ok(0));
}
