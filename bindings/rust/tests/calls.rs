//! What each call gives, and what it is refused by.

mod common;

use std::error::Error as _;

use common::{number, open, row, selected, with_rows, with_table};
use mmdb::{named_params, Database, Error, IndexShape, OptionalExtension, Outcome, Row};

#[test]
fn outcomes_of_commands() {
    let db = open();
    let listing = "table t (id int, s text)\nindex t s hash\n".to_string();
    for (line, outcome) in [
        ("tables", Outcome::Text(String::new())),
        ("table t (id int, s text)", Outcome::Done),
        ("index t s hash", Outcome::Done),
        ("tables", Outcome::Text(listing)),
        ("insert t (1, 'a')", Outcome::Count(1)),
        ("update t set s = 'b' where id > 1", Outcome::Count(0)),
        ("# a comment, is it?", Outcome::Done),
        (" \t", Outcome::Done),
        ("", Outcome::Done),
        ("dump t", Outcome::Text("load t 9\nid,s\n1,a\n".to_string())),
        ("delete t", Outcome::Count(1)),
        ("drop table t", Outcome::Done),
    ] {
        assert_eq!(db.command(line, []), Ok(outcome), "{line}");
    }
}

#[test]
fn changes_raise_the_numbers_of_tables() {
    let mut db = with_table();
    db.execute("table u (id int)", []).unwrap();
    let versions = |db: &Database| {
        (
            db.version().unwrap(),
            db.table_version("t").unwrap(),
            db.table_version("u").unwrap(),
        )
    };
    let before = versions(&db);
    db.execute("insert t (1, 'a')", []).unwrap();
    assert_eq!(number(db.execute("insert t (1, 'b')", [])), Some(41));
    let after = versions(&db);
    assert!(after.0 > before.0 && after.1 > before.1 && after.2 == before.2);
    let readers = db.readers();
    assert_eq!(readers.reader().unwrap().table_version("t"), Ok(after.1));
    for (name, why) in [("v", 30), ("a_name_that_takes_memory", 30), ("", 20)] {
        assert_eq!(number(db.table_version(name)), Some(why), "{name}");
    }
}

#[test]
fn how_indexes_stand() {
    let db = open();
    db.execute("table t (id int, n int)", []).unwrap();
    db.execute("index t n hash", []).unwrap();
    db.load("t", (0..100).map(|id| (id, 7))).unwrap();
    let indexes = db.indexes("t").unwrap();
    let told: Vec<_> = indexes.iter().map(|index| (&*index.column, index.rows)).collect();
    assert_eq!(told, [("id", 100), ("n", 100)]);
    assert!(matches!(
        indexes[0].shape,
        IndexShape::Tree {
            height: 2..,
            nodes: 4..,
            fill: 1..=32,
            ..
        }
    ));
    assert!(matches!(
        indexes[1].shape,
        IndexShape::Hash {
            buckets: 50,
            longest: 100,
            ..
        }
    ));
    let refused = db.indexes("u").unwrap_err();
    let told = (refused.number(), refused.line(), refused.reason());
    assert_eq!(told, (Some(30), Some("u"), Some("u is no table")));
}

#[test]
fn the_plan_of_a_select() {
    let db = with_rows();
    let plan = ["search of t by the key, 2 rows", "show the only row from where it lies"];
    assert_eq!(db.plan("select s from t where id = 1", []).unwrap(), plan);
    assert_eq!(db.plan("select s from t where id = ?", [3]).unwrap(), plan);
    assert_eq!(number(db.plan("delete t", [])), Some(20));
    assert_eq!(db.dump("t").unwrap().len(), 2);
    let refused = db.plan("select * from u", []).unwrap_err();
    let told = (refused.number(), refused.line(), refused.reason());
    assert_eq!(told, (Some(30), Some("select * from u"), Some("u is no table")));
}

#[test]
fn an_outcome_has_rows_or_a_count() {
    let db = with_rows();
    let selected = db.command("select * from t", []).unwrap();
    assert_eq!(selected.count(), None);
    assert_eq!(selected.into_rows().unwrap().to_vec(), [row(1, "a"), row(2, "b")]);
    let deleted = db.command("delete t", []).unwrap();
    assert_eq!(deleted.count(), Some(2));
    assert_eq!(deleted.into_rows(), None);
}

#[test]
fn execute_counts_rows() {
    let db = open();
    for (line, count) in [
        ("table t (id int, s text)", 0),
        ("insert t (1, 'a')", 1),
        ("insert t (2, 'b')", 1),
        ("update t set s = 'c'", 2),
        ("delete t where id > 5", 0),
        ("index t s tree", 0),
        ("drop index t s tree", 0),
        ("# a comment", 0),
        ("", 0),
        ("delete t", 2),
        ("drop table t", 0),
    ] {
        assert_eq!(db.execute(line, []), Ok(count), "{line}");
    }
}

#[test]
fn a_line_goes_to_its_call() {
    let db = with_rows();
    for line in ["select * from t", " \tselect", "dump t", "tables", "tables "] {
        assert_eq!(db.execute(line, []), Err(Error::NotAChange), "{line}");
    }
    for line in [
        "insert t (3, 'c')",
        "delete t",
        "dump t",
        "selects * from t",
        "#select",
        "",
    ] {
        assert_eq!(db.query(line, []), Err(Error::NotASelect), "{line}");
        assert_eq!(db.query_row(line, [], |_| Ok(())), Err(Error::NotASelect), "{line}");
        assert_eq!(
            db.query_map(line, [], |_| Ok(())).err(),
            Some(Error::NotASelect),
            "{line}"
        );
    }
    assert_eq!(selected(&db, "select * from t", []), [row(1, "a"), row(2, "b")]);
}

#[test]
fn rows_are_gone_through() {
    let db = with_rows();
    let rows = db.query("select s, id from t", []).unwrap();
    assert_eq!(rows.column_names(), ["t.s", "t.id"]);
    assert_eq!((rows.len(), rows.is_empty()), (2, false));
    let mut iter = rows.iter();
    assert_eq!(iter.len(), 2);
    assert_eq!(iter.next_back(), rows.get(1));
    assert_eq!(iter.next(), rows.get(0));
    assert_eq!(iter.next(), None);
    assert_eq!((rows.get(2), rows.get(usize::MAX)), (None, None));
    assert_eq!(rows.get(0).unwrap().column_names(), rows.column_names());
    assert_eq!(rows.to_vec(), [["a".into(), 1.into()], ["b".into(), 2.into()]]);
    assert_eq!(db.query("select s, id from t", []).unwrap(), rows);
    assert_ne!(db.query("select s, id from t where id = 1", []).unwrap(), rows);
    let none = db.query("select * from t where id = 3", []).unwrap();
    assert_eq!((none.len(), none.is_empty(), none.iter().len()), (0, true, 0));
}

#[test]
fn rows_are_mapped() {
    let db = with_rows();
    let pair = |row: &Row<'_>| Ok((row.get("id")?, row.get("s")?));
    let mut mapped = db.query_map("select * from t where id > ?", [0], pair).unwrap();
    assert_eq!(mapped.len(), 2);
    assert_eq!(
        format!("{mapped:?}"),
        r#"[{"t.id": Integer(1), "t.s": Text("a")}, {"t.id": Integer(2), "t.s": Text("b")}]"#
    );
    assert_eq!(mapped.next(), Some(Ok((1, "a".to_string()))));
    assert_eq!(mapped.len(), 1);
    assert_eq!(mapped.next(), Some(Ok((2, "b".to_string()))));
    assert_eq!(mapped.next(), None);
    let failing = db
        .query_map("select * from t", [], |row| row.get::<_, i64>("s"))
        .unwrap();
    assert_eq!(failing.filter(Result::is_err).count(), 2);
}

#[test]
fn one_row_is_read() {
    let db = with_rows();
    for (id, text) in [(1, "a"), (2, "b"), (1, "a")] {
        let read = db.query_row("select s from t where id = ?", [id], |row| row.get::<_, String>(0));
        assert_eq!(read, Ok(text.to_string()));
    }
    assert_eq!(db.query_row("select id from t", [], |row| row.get(0)), Ok(1));
    let absent = |db: &Database| db.query_row("select id from t where id = 3", [], |row| row.get::<_, i64>(0));
    assert_eq!(absent(&db), Err(Error::NoRows));
    assert_eq!(absent(&db).optional(), Ok(None));
    assert_eq!(
        db.query_row("select id from t", [], |row| row.get(0)).optional(),
        Ok(Some(1))
    );
    let refused = db
        .query_row("select id from u", [], |row| row.get::<_, i64>(0))
        .optional();
    assert_eq!(number(refused), Some(30));
    let failing = db.query_row("select * from t", [], |_| Err::<(), _>(Error::Other("no".to_string())));
    assert_eq!(failing.unwrap_err().to_string(), "no");
}

#[test]
fn dumps_have_bare_names() {
    let db = with_rows();
    let dumped = db.dump("t").unwrap();
    assert_eq!(dumped.column_names(), ["id", "s"]);
    assert_eq!(dumped.to_vec(), [row(1, "a"), row(2, "b")]);
    assert_eq!(dumped.get(1).unwrap().get("s"), Ok("b"));
    let selected = db.query("select * from t", []).unwrap();
    assert!(selected.iter().eq(&dumped));
    assert_ne!(selected, dumped);
}

#[test]
fn refusals() {
    let db = with_table();
    assert_eq!(number(db.execute("insert t (1", [])), Some(20));
    assert_eq!(number(db.query("select * from u", [])), Some(30));
    assert_eq!(number(db.command("dump u", [])), Some(30));
    assert_eq!(number(db.load("u", [(1, "a")])), Some(30));
    assert_eq!(number(db.dump("u")), Some(30));
    assert_eq!(number(db.dump("t u")), Some(20));
    assert_eq!(number(db.dump(" t")), Some(30));
    assert_eq!(db.dump("t\n"), Err(Error::NotOneRequest));
    assert_eq!(number(db.load_csv("u", "id\n")), Some(30));
    assert_eq!(number(db.load_csv("t", "")), Some(61));
    assert!(db.dump("t").unwrap().is_empty());
}

#[test]
fn a_refusal_tells_what_was_sent() {
    let db = with_rows();
    let refused = db.execute("insert t (?, ?)", (1, "it's")).unwrap_err();
    assert_eq!((refused.number(), refused.text()), (Some(41), Some("key exists")));
    assert_eq!(refused.line(), Some("insert t (1, 'it''s')"));
    assert_eq!(refused.written(), Some("insert t (?, ?)"));
    assert_eq!(refused.reason(), Some("column 11: t has a row with the key 1"));
    assert_eq!(
        refused.to_string(),
        "error 41 key exists: column 11: t has a row with the key 1\n  insert t (?, ?)\n            ^"
    );
    assert!(refused.source().is_none());
    let twice = db.load("t", [(3, "a"), (3, "b")]).unwrap_err();
    assert_eq!(
        (twice.text(), twice.line()),
        (Some("key exists (record 2)"), Some("load t 12"))
    );
    assert_eq!(db.dump("u").unwrap_err().line(), Some("dump u"));
    assert_eq!(
        db.query("select u from t", []).unwrap_err().line(),
        Some("select u from t")
    );
    let other = db.execute("insert t (?, ?)", [1]).unwrap_err();
    assert_eq!(
        (other.number(), other.text(), other.line(), other.reason()),
        (None, None, None, None)
    );
}

#[test]
fn a_refusal_tells_why() {
    let mut db = with_rows();
    let reason = |refused: Error| refused.reason().expect("a reason").to_string();
    for (refused, why) in [
        (db.execute("insert t (1, ?)", ["x"]).err(), "t has a row with the key 1"),
        (
            db.command("selct * from t", []).err(),
            "column 1: selct is no command: is select meant?",
        ),
        (db.query("select u from t", []).err(), "u is no column of t"),
        (
            db.query_row("select s from t where id = ?", ["1"], |_| Ok(())).err(),
            "column 28: column id of t has integers, and '1' is a text",
        ),
        (db.load("t", [(3, "a"), (2, "b")]).err(), "t has a row with the key 2"),
        (
            db.load_csv("t", "id,s\nx,a").err(),
            "the field of id is x, and that is no integer of 64 bits",
        ),
        (db.load("u", [(1, "a")]).err(), "u is no table"),
        (db.dump("u").err(), "u is no table"),
    ] {
        assert_eq!(refused.map(reason).as_deref(), Some(why));
    }
    assert_eq!(db.answer(b"drop table u"), Ok(&b"error 30 no such table\n"[..]));
    assert_eq!(db.reason(b"drop table u", b"").as_deref(), Some("u is no table"));
    let (line, block) = (b"load t 4", b"s,id");
    assert_eq!(db.answer_to_load(line, block), Ok(&b"error 61 bad header\n"[..]));
    assert_eq!(
        db.reason(line, block).as_deref(),
        Some("field 1 of the header is s, and column 1 is id")
    );
    assert_eq!(db.answer(b""), Ok(&b""[..]));
    assert_eq!(db.reason(b"", b""), None);
    assert_eq!(db.command("tables", []).map(|_| db.reason(b"tables", b"")), Ok(None));
}

#[test]
fn a_database_is_used_on_after_a_refusal() {
    let db = with_rows();
    assert_eq!(number(db.execute("insert t (1, 'c')", [])), Some(41));
    assert_eq!(
        db.execute("insert t (?, ?)", [3]),
        Err(Error::Places {
            places: 2,
            parameters: 1
        })
    );
    assert_eq!(db.execute("drop table ?", ["\n"]), Err(Error::LineFeed));
    assert_eq!(
        db.query_row("select * from t where id = 3", [], |_| Ok(())),
        Err(Error::NoRows)
    );
    assert_eq!(number(db.query_row("select u from t", [], |_| Ok(()))), Some(32));
    assert_eq!(db.execute("insert t (3, 'c')", []), Ok(1));
    assert_eq!(
        db.query_row("select s from t where id = 3", [], |row| row.get(0)),
        Ok("c".to_string())
    );
    assert_eq!(db.dump("t").unwrap().len(), 3);
}

#[test]
fn a_refusal_shows_its_line() {
    let db = with_rows();
    for (refused, line, caret) in [
        (db.execute("selct * from t", []), "selct * from t", "^"),
        (
            db.execute("insert t (?, ?)", (1, "a")),
            "insert t (?, ?)",
            "          ^",
        ),
        (
            db.execute("update t set s = 'é日' where id = :id", named_params! { ":id": "x" }),
            "update t set s = 'é日' where id = :id",
            "                                  ^",
        ),
        (
            db.execute("delete\tt where id == 1", []),
            "delete t where id == 1",
            "                   ^",
        ),
    ] {
        let shown = refused.unwrap_err().to_string();
        let lines: Vec<&str> = shown.lines().collect();
        assert_eq!(
            lines[1..],
            [&format!("  {line}")[..], &format!("  {caret}")[..]],
            "{shown}"
        );
    }
    let long = format!("select {}? from t", "name, ".repeat(40));
    let shown = db.query(&long, [1]).unwrap_err().to_string();
    let front = &"name, ".repeat(40)[6 * 40 - 48..];
    assert!(
        shown.ends_with(&format!("\n  …{front}? from t\n  {:49}^", "")),
        "{shown}"
    );
    let shown = db
        .query(&format!("select ? {}", "x".repeat(90)), [1])
        .unwrap_err()
        .to_string();
    assert!(
        shown.ends_with(&format!("\n  select ? {}…\n         ^", "x".repeat(28))),
        "{shown}"
    );
    for line in ["select * from nowhere", "insert t (1, 'a')"] {
        assert_eq!(db.command(line, []).unwrap_err().to_string().lines().count(), 1);
    }
}
