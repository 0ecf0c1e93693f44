//! Tables and indexes that are declared or dropped in a transaction: each is undone by a rollback, and none by a commit.

mod common;

use common::{number, open, row, selected, with_rows};
use mmdb::{Database, Outcome, Value};

const BY_TEXT: &str = "select id from t where s = ?";
const LONG: &str = "a text that no cell holds";

/// What is declared.
fn declared(db: &Database) -> Outcome {
    db.command("tables", []).expect("a listing")
}

#[test]
fn each_way_to_declare_and_to_drop_is_undone() {
    let ways: [fn(&mut Database, &str); 3] = [
        |db, line| assert_eq!(db.execute(line, []), Ok(0)),
        |db, line| assert_eq!(db.command(line, []), Ok(Outcome::Done)),
        |db, line| assert_eq!(db.answer(line.as_bytes()), Ok(&b"ok\n"[..])),
    ];
    let lines = [
        "table u (id int, t ref t)",
        "index t s hash",
        "index t s tree",
        "drop table v",
        "drop index t id hash",
    ];
    for way in ways {
        for line in lines {
            let mut db = with_rows();
            db.execute("index t id hash", []).unwrap();
            db.execute("table v (id int, t ref t)", []).unwrap();
            let before = declared(&db);
            let mut tx = db.transaction().unwrap();
            way(&mut tx, line);
            assert_ne!(declared(&tx), before);
            drop(tx);
            assert_eq!(declared(&db), before);
            let mut tx = db.transaction().unwrap();
            way(&mut tx, line);
            let after = declared(&tx);
            tx.commit().unwrap();
            assert_eq!(declared(&db), after);
        }
    }
}

#[test]
fn a_table_goes_with_its_rows() {
    let mut db = with_rows();
    for _ in 0..3 {
        let mut tx = db.transaction().unwrap();
        tx.execute("table u (id int, t ref t)", []).unwrap();
        assert_eq!(tx.load("u", [(1, 1), (2, 2)]), Ok(2));
        tx.execute("index u t hash", []).unwrap();
        assert_eq!(number(tx.execute("delete t", [])), Some(44));
        let savepoint = tx.savepoint().unwrap();
        savepoint.execute("table v (k text, u ref u)", []).unwrap();
        assert_eq!(savepoint.load("v", [(LONG, 2)]), Ok(1));
        assert_eq!(number(savepoint.execute("delete u where t = 2", [])), Some(44));
        savepoint.rollback().unwrap();
        assert_eq!(number(tx.load("v", [(LONG, 2)])), Some(30));
        assert_eq!(tx.execute("delete u where t = 2", []), Ok(1));
        drop(tx);
        assert_eq!(number(db.query("select * from u", [])), Some(30));
        assert_eq!(number(db.dump("u")), Some(30));
        assert_eq!(number(db.indexes("u")), Some(30));
        let tx = db.transaction().unwrap();
        assert_eq!(tx.execute("delete t", []), Ok(2));
    }
    db.execute("table u (k text, n int)", []).unwrap();
    assert_eq!(db.load("u", [("a", 1)]), Ok(1));
    assert_eq!(selected(&db, "select * from u", []), [[Value::from("a"), 1.into()]]);
}

#[test]
fn an_index_finds_what_there_is() {
    for kind in ["tree", "hash"] {
        let mut db = with_rows();
        let tx = db.transaction().unwrap();
        tx.execute("delete t where id = 1", []).unwrap();
        tx.execute("update t set s = ? where id = 2", [LONG]).unwrap();
        tx.execute(&format!("index t s {kind}"), []).unwrap();
        assert!(selected(&tx, BY_TEXT, ["a"]).is_empty());
        assert_eq!(selected(&tx, BY_TEXT, [LONG]), [[Value::from(2)]]);
        tx.execute("insert t (1, 'c')", []).unwrap();
        assert_eq!(selected(&tx, BY_TEXT, ["c"]), [[Value::from(1)]]);
        assert_eq!(tx.indexes("t").unwrap().len(), 2);
        drop(tx);
        assert_eq!(db.indexes("t").unwrap().len(), 1);
        assert_eq!(selected(&db, BY_TEXT, ["a"]), [[Value::from(1)]]);
        assert_eq!(selected(&db, BY_TEXT, ["b"]), [[Value::from(2)]]);
        assert!(selected(&db, BY_TEXT, [LONG]).is_empty());
        db.execute(&format!("index t s {kind}"), []).unwrap();
        assert_eq!(selected(&db, BY_TEXT, ["b"]), [[Value::from(2)]]);
    }
}

#[test]
fn a_dropped_table_comes_back_with_its_rows() {
    let mut db = with_rows();
    db.execute("table u (id int, t ref t, s text)", []).unwrap();
    db.load("u", [(1, 1, LONG), (2, 2, "b")]).unwrap();
    db.execute("index u s hash", []).unwrap();
    let before = declared(&db);
    for _ in 0..3 {
        let mut tx = db.transaction().unwrap();
        assert_eq!(number(tx.execute("drop table t", [])), Some(40));
        tx.execute("delete u where id = 2", []).unwrap();
        tx.execute("drop table u", []).unwrap();
        assert_eq!(number(tx.query("select * from u", [])), Some(30));
        assert_eq!(number(tx.indexes("u")), Some(30));
        let savepoint = tx.savepoint().unwrap();
        savepoint.execute("drop table t", []).unwrap();
        savepoint.execute("table u (k text)", []).unwrap();
        assert_eq!(savepoint.load("u", [["k"]]), Ok(1));
        savepoint.rollback().unwrap();
        assert_eq!(tx.execute("delete t where id = 1", []), Ok(1));
        assert_eq!(number(tx.load("u", [["k"]])), Some(30));
        drop(tx);
        assert_eq!(declared(&db), before);
        assert_eq!(selected(&db, "select id from u where s = ?", [LONG]), [[Value::from(1)]]);
        assert_eq!(db.dump("u").unwrap().len(), 2);
        assert_eq!(number(db.execute("delete t where id = 1", [])), Some(44));
    }
    let tx = db.transaction().unwrap();
    tx.execute("drop table u", []).unwrap();
    tx.execute("drop table t", []).unwrap();
    tx.commit().unwrap();
    assert_eq!(declared(&db), Outcome::Text(String::new()));
}

#[test]
fn a_dropped_index_finds_what_there_is() {
    for kind in ["tree", "hash"] {
        let mut db = with_rows();
        db.execute(&format!("index t s {kind}"), []).unwrap();
        let before = declared(&db);
        for _ in 0..3 {
            let tx = db.transaction().unwrap();
            tx.execute("insert t (3, 'c')", []).unwrap();
            tx.execute(&format!("drop index t s {kind}"), []).unwrap();
            assert_eq!(number(tx.execute(&format!("drop index t s {kind}"), [])), Some(38));
            tx.execute("delete t where id = 1", []).unwrap();
            tx.execute("update t set s = ? where id = 2", [LONG]).unwrap();
            assert_eq!(selected(&tx, BY_TEXT, [LONG]), [[Value::from(2)]]);
            assert_eq!(tx.indexes("t").unwrap().len(), 1);
            drop(tx);
            assert_eq!(declared(&db), before);
            assert_eq!(db.indexes("t").unwrap().len(), 2);
            assert_eq!(selected(&db, BY_TEXT, ["a"]), [[Value::from(1)]]);
            assert_eq!(selected(&db, BY_TEXT, ["b"]), [[Value::from(2)]]);
            assert!(selected(&db, BY_TEXT, ["c"]).is_empty());
            assert!(selected(&db, BY_TEXT, [LONG]).is_empty());
        }
    }
}

/// What the crate knows of a table is that of the tables as they are.
#[test]
fn a_statement_is_of_the_tables_as_they_are() {
    let db = open();
    db.begin().unwrap();
    db.execute("table u (id int, s text)", []).unwrap();
    let mut insert = db.prepare("insert u (?, ?)").unwrap();
    let mut all = db.prepare("select * from u").unwrap();
    assert_eq!(insert.execute((1, "a")), Ok(1));
    assert_eq!(all.query([]).unwrap().to_vec(), [row(1, "a")]);
    assert_eq!(all.column_names().unwrap(), ["u.id", "u.s"]);
    db.rollback().unwrap();
    assert_eq!(number(insert.execute((1, "a"))), Some(30));
    assert_eq!(number(all.query([]).map(|rows| rows.len())), Some(30));
    assert_eq!(number(all.column_names()), Some(30));
    db.begin().unwrap();
    db.execute("table u (s text, id int, more text)", []).unwrap();
    assert_eq!(all.column_names().unwrap(), ["u.s", "u.id", "u.more"]);
    assert_eq!(db.load("u", [("a", 1, "b")]), Ok(1));
    db.rollback().unwrap();
    db.execute("table u (s text, id int)", []).unwrap();
    assert_eq!(number(insert.execute((1, "a"))), Some(35));
    assert_eq!(insert.execute(("a", 1)), Ok(1));
    assert_eq!(db.load("u", [("b", 2)]), Ok(1));
    let rows = all.query([]).unwrap();
    assert_eq!(rows.column_names(), ["u.s", "u.id"]);
    assert_eq!(rows.to_vec(), [[Value::from("a"), 1.into()], ["b".into(), 2.into()]]);
}

#[test]
fn what_is_refused_declares_nothing() {
    let mut db = with_rows();
    let tx = db.transaction().unwrap();
    for (line, refusal) in [
        ("table t (id int)", 31),
        ("table u (id int, v ref v)", 30),
        ("index t id tree", 39),
        ("index t nothing hash", 32),
        ("tablex u (id int)", 20),
    ] {
        assert_eq!(number(tx.execute(line, [])), Some(refusal), "{line}");
    }
    tx.execute("table u (id int)", []).unwrap();
    tx.commit().unwrap();
    let expected = "table t (id int, s text)\ntable u (id int)\n".to_string();
    assert_eq!(declared(&db), Outcome::Text(expected));
}
