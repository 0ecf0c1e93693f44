//! Statements that a program prepares, and those that are kept by their lines.

mod common;

use common::draw::Draw;
use common::{number, open, row, selected, with_rows, with_table};
use mmdb::{named_params, params, params_from_iter, Database, Error, OptionalExtension, Outcome, Row, Value, ValueRef};

#[test]
fn a_statement_is_executed_with_other_values() {
    let db = with_table();
    {
        let mut insert = db.prepare("insert t (?, ?)").unwrap();
        assert_eq!(insert.execute((1, "a")), Ok(1));
        assert_eq!(insert.execute(params![2, "it's ?"]), Ok(1));
        assert_eq!(insert.execute(row(3, "")), Ok(1));
        assert_eq!(insert.execute(params_from_iter(row(4, "d"))), Ok(1));
        assert_eq!(number(insert.execute((4, "e"))), Some(41));
        let mut update = db.prepare("update t set s = :s where id >= :id").unwrap();
        assert_eq!(update.execute(named_params! { ":id": 3, ":s": "z" }), Ok(2));
        assert_eq!(update.execute(named_params! { ":id": 9, ":s": "y" }), Ok(0));
        assert_eq!(db.prepare("delete t where id = 1").unwrap().execute([]), Ok(1));
    }
    let rows = [row(2, "it's ?"), row(3, "z"), row(4, "z")];
    assert_eq!(selected(&db, "select * from t", []), rows);
}

#[test]
fn statements_are_there_at_once() {
    let db = with_rows();
    let mut all = db.prepare("select * from t").unwrap();
    let mut find = db.prepare("select s from t where id = ?").unwrap();
    let mut insert = db.prepare("insert t (?, ?)").unwrap();
    let rows = all.query([]).unwrap();
    for (id, given) in rows.iter().map(|row| (row.get::<_, i64>(0).unwrap(), row)) {
        let text = find.query([id]).unwrap();
        assert_eq!(text.get(0).unwrap().get_ref(0), given.get_ref("s"));
        assert_eq!(
            insert.execute((id + 10, text.get(0).unwrap().get::<_, &str>(0).unwrap())),
            Ok(1)
        );
    }
    assert_eq!(rows.to_vec(), [row(1, "a"), row(2, "b")]);
    assert_eq!(all.query([]).unwrap().len(), 4);
}

#[test]
fn rows_are_counted() {
    let db = with_rows();
    assert_eq!(db.count("select * from t", []), Ok(2));
    assert_eq!(db.count("select id from t where id > ?", [1]), Ok(1));
    assert_eq!(
        db.count("select id from t where id > :id", named_params! { ":id": 2 }),
        Ok(0)
    );
    let mut select = db.prepare("select distinct s from t where id < ?").unwrap();
    assert_eq!(select.count([2]), Ok(1));
    assert_eq!(db.execute("insert t (3, 'b')", []), Ok(1));
    assert_eq!((select.count([9]), db.count("select * from t", [])), (Ok(2), Ok(3)));
    assert_eq!(select.query([9]).unwrap().len(), 2);
}

#[test]
fn counts_that_are_refused() {
    let db = with_rows();
    let mut insert = db.prepare("insert t (?, 'c')").unwrap();
    assert_eq!(insert.count([3]), Err(Error::NotASelect));
    assert_eq!(db.count("delete t", []), Err(Error::NotASelect));
    assert_eq!(db.count("select * from none", []).unwrap_err().number(), Some(30));
    let refused = db.count("select * from t where id = ?", ["a"]).unwrap_err();
    assert_eq!(
        (refused.number(), refused.line()),
        (Some(35), Some("select * from t where id = 'a' "))
    );
    assert!(refused.reason().unwrap().starts_with("column 28: "));
    assert_eq!(db.count("select * from t", []), Ok(2));
}

#[test]
fn rows_are_lent() {
    let db = with_rows();
    let mut select = db.prepare("select s, id from t where id < ?").unwrap();
    let rows = select.query([9]).unwrap();
    assert_eq!(rows.column_names(), ["t.s", "t.id"]);
    assert_eq!((rows.len(), rows.is_empty(), rows.iter().len()), (2, false, 2));
    assert_eq!(rows.get(1).unwrap().get(0), Ok("b"));
    assert_eq!((rows.get(2), rows.get(usize::MAX)), (None, None));
    assert_eq!(rows.iter().nth(1), rows.get(1));
    assert_eq!(rows.iter().next_back(), rows.get(1));
    assert_eq!(rows.into_iter().count(), 2);
    let shown = r#"[{"t.s": Text("a"), "t.id": Integer(1)}, {"t.s": Text("b"), "t.id": Integer(2)}]"#;
    assert_eq!(
        (format!("{rows:?}"), format!("{:?}", rows.iter())),
        (shown.into(), shown.into())
    );
    let own = rows.to_rows();
    let none = select.query([0]).unwrap();
    assert_eq!((none.len(), none.is_empty(), none.column_names().len()), (0, true, 2));
    assert!(none.to_rows().is_empty());
    assert_eq!(own.to_vec(), [["a".into(), Value::from(1)], ["b".into(), 2.into()]]);
    assert_eq!(
        format!("{select:?}"),
        r#"Statement("select s, id from t where id < ?")"#
    );
}

#[test]
fn rows_are_mapped_and_read_alone() {
    let db = with_rows();
    let mut select = db.prepare("select * from t where id > ?").unwrap();
    let pair = |row: &Row<'_>| Ok((row.get("id")?, row.get::<_, String>("s")?));
    let mut mapped = select.query_map([0], pair).unwrap();
    assert_eq!((mapped.len(), mapped.next()), (2, Some(Ok((1, "a".to_string())))));
    assert_eq!(format!("{mapped:?}"), r#"[{"t.id": Integer(2), "t.s": Text("b")}]"#);
    assert_eq!((mapped.next(), mapped.next()), (Some(Ok((2, "b".to_string()))), None));
    assert_eq!(select.query_row([1], pair), Ok((2, "b".to_string())));
    assert_eq!(select.query_row([2], pair), Err(Error::NoRows));
    assert_eq!(select.query_row([2], pair).optional(), Ok(None));
    let failing = select.query_row([1], |row| row.get::<_, i64>("s"));
    assert_eq!(failing.unwrap_err().to_string(), "the column t.s: the text is no i64");
    let text = select.query_row([0], |row| Ok(row.get::<_, &str>("s")?.len()));
    assert_eq!(text, Ok(1));
}

#[test]
fn a_statement_goes_to_its_call() {
    let db = with_rows();
    let mut select = db.prepare("select * from t").unwrap();
    assert_eq!(select.execute([]), Err(Error::NotAChange));
    let mut delete = db.prepare("delete t").unwrap();
    assert_eq!(delete.query([]).unwrap_err(), Error::NotASelect);
    assert_eq!(delete.query_row([], |_| Ok(())), Err(Error::NotASelect));
    assert_eq!(delete.query_map([], |_| Ok(())).err(), Some(Error::NotASelect));
    assert_eq!(select.query([]).unwrap().len(), 2);
}

#[test]
fn what_is_not_prepared() {
    let db = with_rows();
    for line in [
        "",
        " ",
        "# insert",
        "tables",
        "dump t",
        "load t 5",
        "drop table t",
        "inserts t (1)",
        "?",
    ] {
        assert_eq!(db.prepare(line).err(), Some(Error::NotAStatement), "{line}");
    }
    for (line, number, told, reason) in [
        (
            "select * form t where id = ? and id > 1",
            20,
            "select * form t where id = null and id > 1",
            Some("column 10: wanted from, found form: is from meant?"),
        ),
        ("select * from u", 30, "select * from u", Some("u is no table")),
        (
            "select u from t where id = ? and s = :s and id > 1",
            32,
            "select u from t where id = null and s = null and id > 1",
            Some("u is no column of t"),
        ),
        (
            "insert t ('a', ?)",
            35,
            "insert t ('a', null)",
            Some("column id of t has integers, and 'a' is a text"),
        ),
        (
            "insert t (:id, :s, x)",
            20,
            "insert t (null, null, x)",
            Some("column 20: x is no value: a text stands between quote marks"),
        ),
        (
            "delete t where id = 'a'",
            35,
            "delete t where id = 'a'",
            Some("column id of t has integers, and 'a' is a text"),
        ),
        (
            "insert t (?)",
            45,
            "insert t (null)",
            Some("a row of t has a value for each column: 2, not 1"),
        ),
    ] {
        let refused = db.prepare(line).expect_err(line);
        let tells = (refused.number(), refused.line(), refused.reason());
        assert_eq!(tells, (Some(number), Some(told), reason));
        assert_eq!(refused.written(), Some(line));
    }
}

#[test]
fn names_of_columns() {
    let db = with_rows();
    db.execute("table u (wheres text, t ref t null)", []).unwrap();
    let mut all = db
        .prepare("select * from u join t on u.t = t.id where wheres = ? and id < ?")
        .unwrap();
    assert_eq!(all.column_names().unwrap(), ["u.wheres", "u.t", "t.id", "t.s"]);
    assert_eq!(all.query(("a", 1)).unwrap().column_names().len(), 4);
    let mut few = db.prepare("select distinct s, id from t where id = :id").unwrap();
    assert_eq!(
        few.query([1]).unwrap_err(),
        Error::MissingParameter {
            name: ":id".to_string()
        }
    );
    assert_eq!(
        few.query(named_params! { ":id": 1 }).unwrap().column_names(),
        ["t.s", "t.id"]
    );
    assert_eq!(few.column_names().unwrap(), ["t.s", "t.id"]);
    let no_names: [&str; 0] = [];
    assert_eq!(
        db.prepare("delete t where s = 'where'")
            .unwrap()
            .column_names()
            .unwrap(),
        no_names
    );
}

#[test]
fn a_refusal_of_a_statement_tells_what_a_line_tells() {
    let db = with_rows();
    let refused = db.prepare("insert t (?, ?)").unwrap().execute((1, "it's")).unwrap_err();
    assert_eq!((refused.number(), refused.text()), (Some(41), Some("key exists")));
    assert_eq!(refused.line(), Some("insert t (1, 'it''s')"));
    assert_eq!(refused.written(), Some("insert t (?, ?)"));
    assert_eq!(refused.reason(), Some("column 11: t has a row with the key 1"));
    let wrong = db
        .prepare("select * from t where id=:id and s = 'a'")
        .unwrap()
        .query(named_params! { ":id": "1" })
        .unwrap_err();
    assert_eq!(wrong.line(), Some("select * from t where id='1' and s = 'a'"));
    let why = Some("column 26: column id of t has integers, and '1' is a text");
    assert_eq!(wrong.reason(), why);
    let line = |line: &str, id: Value| db.query(line, [id]).unwrap_err();
    let other = line("select * from t where id=? and s = 'a'", "1".into());
    assert_eq!((other.line(), other.reason()), (wrong.line(), why));
    assert_eq!(line("select * from t where id=?", Value::Null).number(), Some(35));
}

/// The columns are those of the line as it was written.
#[test]
fn a_refusal_of_a_value_tells_where_its_place_stands() {
    let db = with_rows();
    db.execute("table u (id int, t ref t null, s text)", []).unwrap();
    db.execute("insert u (1, 1, 'a')", []).unwrap();
    let long = "é".repeat(513);
    let (one, text, null): (Value, Value, Value) = (1.into(), "a".into(), Value::Null);
    for (line, given, number, why) in [
        (
            "insert u (?, ?, 'b')",
            vec![one.clone(), null.clone()],
            41,
            "column 11: u has a row with the key 1",
        ),
        (
            "insert u (7, ?, ?)",
            vec![9.into(), text.clone()],
            42,
            "column 14: t has no row with the key 9, which column t names",
        ),
        (
            "update u set s='é', t=? where id=?",
            vec![9.into(), one.clone()],
            42,
            "column 23: t has no row with the key 9, which column t names",
        ),
        (
            "insert u (7, null,?)",
            vec![one.clone()],
            35,
            "column 19: column s of u has texts, and 1 is an integer",
        ),
        (
            "insert u (7, null, ?)",
            vec![null],
            35,
            "column 20: column s of u takes no null",
        ),
        (
            "insert u (7, null, ?)",
            vec![long.into()],
            46,
            "column 20: the text for column s has 1026 bytes, and 1024 are allowed",
        ),
        (
            "select s from u where nothing = ?",
            vec![text],
            32,
            "nothing is no column of u",
        ),
    ] {
        let refused = if line.starts_with("select") {
            db.query(line, &given).unwrap_err()
        } else {
            db.execute(line, &given).unwrap_err()
        };
        let tells = (refused.number(), refused.written(), refused.reason());
        assert_eq!(tells, (Some(number), Some(line), Some(why)));
    }
    let line = "update u set s=:text, t=:t where id=:id and s<>:text";
    let given = named_params! { ":text": "x\ny", ":t": 9, ":id": 1 };
    let refused = db.execute(line, given).unwrap_err();
    let why = "column 25: t has no row with the key 9, which column t names";
    assert_eq!((refused.written(), refused.reason()), (Some(line), Some(why)));
}

#[test]
fn as_many_parameters_as_places() {
    let db = with_rows();
    let mut insert = db.prepare("insert t (?, ?)").unwrap();
    for parameters in [0, 1, 3] {
        let given = vec![Value::Integer(1); parameters];
        assert_eq!(insert.execute(given), Err(Error::Places { places: 2, parameters }));
    }
    let mut named = db
        .prepare("select * from t where id >= :id and id <= :id and s <> ':id'")
        .unwrap();
    assert_eq!(named.query(named_params! { ":id": 2 }).unwrap().to_vec(), [row(2, "b")]);
    let unknown = Error::UnknownParameter { name: ":s".to_string() };
    assert_eq!(named.query(named_params! { ":id": 2, ":s": 1 }).unwrap_err(), unknown);
    let missing = Error::MissingParameter {
        name: ":id".to_string(),
    };
    assert_eq!(named.query(named_params! {}).unwrap_err(), missing);
}

/// The values of a call are its own, and none of those of a call before it.
#[test]
fn a_parameter_that_fails_binds_nothing() {
    let db = with_rows();
    let line = "select id from t where id = ? and s = ?";
    assert_eq!(selected(&db, line, (1, "a")), [[Value::from(1)]]);
    assert!(db.query(line, (u64::MAX, "b")).is_err());
    assert!(db.query(line, [2]).is_err());
    assert_eq!(selected(&db, line, (2, "b")), [[Value::from(2)]]);
}

#[test]
fn a_dropped_statement_is_none() {
    let db = with_rows();
    for id in 0..10_000 {
        let mut find = db.prepare("select s from t where id = ?").unwrap();
        assert_eq!(find.query([id]).unwrap().len(), usize::from(id == 1 || id == 2));
    }
}

/// Half of them go, and numbers that they had are given to others.
#[test]
fn many_statements_are_there_at_once() {
    let db = with_rows();
    let prepared = |_| db.prepare("select id from t where s = ?").unwrap();
    let mut kept: Vec<_> = (0..10_000).map(prepared).collect();
    let mut is_even = false;
    kept.retain_mut(|find| {
        is_even = !is_even;
        is_even && find.query(["a"]).unwrap().len() == 1
    });
    assert_eq!(kept.len(), 5_000);
    let mut insert = db.prepare("insert t (?, 'a')").unwrap();
    assert_eq!(insert.execute([3]), Ok(1));
    kept.retain_mut(|find| find.query(["a"]).unwrap().len() == 2);
    assert_eq!(kept.len(), 5_000);
}

#[test]
fn a_value_of_another_type_is_refused() {
    let db = with_rows();
    let (null, one, a): (Value, Value, Value) = (Value::Null, 1.into(), "a".into());
    for (line, wrong) in [
        ("insert t (?, 'c')", vec![&null, &a]),
        ("insert t (3, ?)", vec![&null, &one]),
        ("update t set s = ? where id = 1", vec![&null, &one]),
        ("update t set s = 'c' where id >= ?", vec![&null, &a]),
        ("delete t where s <> ?", vec![&null, &one]),
    ] {
        let mut change = db.prepare(line).unwrap();
        for value in wrong {
            assert_eq!(number(change.execute([value])), Some(35), "{line}, {value:?}");
        }
    }
    let mut select = db.prepare("select * from t where id > ? and s <> ?").unwrap();
    for wrong in [[&null, &a], [&a, &a], [&one, &null], [&one, &one]] {
        assert_eq!(number(select.query(wrong)), Some(35), "{wrong:?}");
    }
    drop(select);
    assert_eq!(selected(&db, "select * from t", []), [row(1, "a"), row(2, "b")]);
}

/// What no line can hold, and what no row can.
#[test]
fn a_text_may_hold_anything_and_not_be_too_long() {
    let db = with_table();
    let texts = ["", "\0", "a\0b", "\n", "\r\n", "?", "'); delete t", "\u{10ffff}"];
    let longest = "é".repeat(512);
    {
        let mut insert = db.prepare("insert t (?, ?)").unwrap();
        let mut find = db.prepare("select * from t where s = ?").unwrap();
        for (id, text) in (0..).zip(texts.into_iter().chain([longest.as_str()])) {
            assert_eq!(insert.execute((id, text)), Ok(1), "{text:?}");
            assert_eq!(find.query([text]).unwrap().to_vec(), [row(id, text)]);
        }
        for length in [1_025, 8_193, 100_000] {
            let long = "x".repeat(length);
            assert_eq!(number(insert.execute((100, &long))), Some(46));
            assert!(find.query([&long]).unwrap().is_empty());
        }
    }
    assert_eq!(db.dump("t").unwrap().len(), texts.len() + 1);
}

/// More lines than are kept, drawn so that some come again at once and some late.
#[test]
fn lines_are_kept_and_go() {
    let (db, mut draw) = (open(), Draw(1981));
    db.execute("table t (id int, n int)", []).unwrap();
    db.load("t", (0..1_000).map(|id| (id, id * id))).unwrap();
    let ids: Vec<i64> = (0..1_000).collect();
    for _ in 0..5_000 {
        let id = draw.of(&ids) % [10, 200, 500, 1_000][draw.of(&[0, 1, 2, 3])];
        let read = |row: &Row<'_>| row.get::<_, i64>(0);
        let line = format!("select n from t where id = ? and id <> -1{id}");
        assert_eq!(db.query_row(&line, [id], read), Ok(id * id));
        let line = format!("update t set n = :n where id = :id and id < {}", id + 1);
        assert_eq!(db.execute(&line, named_params! { ":id": id, ":n": id * id }), Ok(1));
    }
}

/// So many cells that their room isn't kept.
#[test]
fn many_rows_are_read_by_a_kept_line() {
    let db = open();
    db.execute("table t (id int, n int)", []).unwrap();
    db.load("t", (0..40_000).map(|id| (id, -id))).unwrap();
    let line = "select * from t where id >= ? and n <= ?";
    for from in [0, 39_990, 5_000, 0] {
        let rows = db.query(line, [from, -from]).unwrap();
        assert_eq!(rows.len() as i64, 40_000 - from);
        assert!(rows.iter().map(|row| row.get::<_, i64>(0).unwrap()).eq(from..40_000));
        let first = db.query_row(line, [from, -from], |row| row.get::<_, i64>("n"));
        assert_eq!(first, Ok(-from));
    }
}

/// Each way of declaring is heeded: what a line means is asked anew.
#[test]
fn a_line_outlives_its_table() {
    let declares: [fn(&mut Database, &str); 3] = [
        |db, line| assert_eq!(db.execute(line, []), Ok(0)),
        |db, line| assert_eq!(db.command(line, []), Ok(Outcome::Done)),
        |db, line| assert_eq!(db.answer(line.as_bytes()), Ok(&b"ok\n"[..])),
    ];
    for declare in declares {
        let mut db = with_rows();
        let (line, insert) = ("select * from t where id = ?", "insert t (?, ?)");
        assert_eq!(db.query(line, [1]).unwrap().column_names(), ["t.id", "t.s"]);
        assert_eq!(db.execute(insert, (3, "c")), Ok(1));
        declare(&mut db, "drop table t");
        assert_eq!(number(db.query(line, [1])), Some(30));
        assert_eq!(number(db.execute(insert, (3, "c"))), Some(30));
        declare(&mut db, "table t (name text, id int)");
        assert_eq!(number(db.execute(insert, (3, "c"))), Some(35));
        assert_eq!(db.execute(insert, ("c", 3)), Ok(1));
        let rows = db.query(line, [3]).unwrap();
        assert_eq!(
            (rows.column_names().join(" "), rows.to_vec()),
            ("t.name t.id".to_string(), vec![vec!["c".into(), 3.into()]])
        );
        declare(&mut db, "drop table t");
        declare(&mut db, "table t (other int)");
        assert_eq!(number(db.query(line, [1])), Some(32));
        assert_eq!(number(db.execute(insert, ("c", 3))), Some(45));
    }
}

#[test]
fn a_line_is_the_same_whoever_does_it() {
    let db = with_rows();
    for way in 0..3 {
        let (id, insert) = (10 + way, "insert t (?, ?)");
        match way {
            0 => assert_eq!(db.execute(insert, (id, "x")), Ok(1)),
            1 => assert_eq!(db.command(insert, (id, "x")), Ok(Outcome::Count(1))),
            _ => assert_eq!(db.prepare(insert).unwrap().execute((id, "x")), Ok(1)),
        }
        let select = "select s from t where id = ?";
        assert_eq!(db.query_row(select, [id], |row| row.get(0)), Ok("x".to_string()));
        let rows = db.command(select, [id]).unwrap().into_rows();
        assert_eq!(rows, Some(db.query(select, [id]).unwrap()));
        assert_eq!(
            db.prepare(select).unwrap().query([id]).unwrap().to_rows(),
            rows.unwrap()
        );
        assert_eq!(db.query(insert, (1, "y")), Err(Error::NotASelect));
        assert_eq!(db.execute(select, [id]), Err(Error::NotAChange));
    }
    assert_eq!(db.dump("t").unwrap().len(), 5);
}

#[test]
fn texts_of_any_length_come_back() {
    let (db, mut draw) = (with_table(), Draw(7));
    let mut insert = db.prepare("insert t (?, ?)").unwrap();
    let mut all = db.prepare("select s, id from t where id >= ?").unwrap();
    let mut texts = Vec::new();
    for id in 0..1_024 {
        let mut text: String = std::iter::repeat_with(|| draw.text()).take(20).collect();
        text.truncate(
            (0..=id as usize)
                .rev()
                .find(|at| text.is_char_boundary(*at))
                .unwrap_or(0),
        );
        assert_eq!(insert.execute((id, &text)), Ok(1));
        texts.push(text);
    }
    let rows = all.query([0]).unwrap();
    assert!(rows.iter().map(|row| row.get::<_, &str>(0).unwrap()).eq(&texts));
    let own = rows.to_rows();
    assert_eq!(
        all.query([1_023]).unwrap().get(0).unwrap().get_ref(0),
        Ok(ValueRef::Text(&texts[1_023]))
    );
    assert!(own.iter().map(|row| row.get::<_, &str>(0).unwrap()).eq(&texts));
}

#[test]
fn calls_are_made_beside_statements() {
    let db = with_rows();
    let mut all = db.prepare("select * from t where id > ?").unwrap();
    let mut insert = db.prepare("insert t (?, ?)").unwrap();
    let rows = all.query([0]).unwrap();
    assert_eq!(db.execute("insert t (3, 'c')", []), Ok(1));
    assert_eq!(db.execute("update t set s = ? where id = ?", ("z", 1)), Ok(1));
    assert_eq!(db.execute("index t s hash", []), Ok(0));
    assert_eq!(db.load("t", [(4, "d")]), Ok(1));
    assert_eq!((db.dump("t").unwrap().len(), db.indexes("t").unwrap().len()), (4, 2));
    assert_eq!(insert.execute((5, "e")), Ok(1));
    assert_eq!(
        db.query_row("select s from t where id = ?", [5], |row| row.get(0)),
        Ok("e".to_string())
    );
    assert_eq!(db.command("tables", []).unwrap().count(), None);
    assert_eq!(db.execute("delete t where id > 1", []), Ok(4));
    assert_eq!(rows.to_vec(), [row(1, "a"), row(2, "b")]);
    assert_eq!(all.query([0]).unwrap().to_vec(), [row(1, "z")]);
}

#[test]
fn a_statement_meets_the_tables_as_they_are() {
    let db = with_rows();
    let mut all = db.prepare("select * from t").unwrap();
    let rows = all.query([]).unwrap();
    db.execute("drop table t", []).unwrap();
    db.execute("table t (s text)", []).unwrap();
    assert_eq!(db.execute("insert t ('x')", []), Ok(1));
    assert_eq!(
        (rows.column_names().len(), rows.to_vec()),
        (2, vec![row(1, "a"), row(2, "b")])
    );
    let rows = all.query([]).unwrap();
    assert_eq!(
        (rows.column_names(), rows.to_vec()),
        (&["t.s".to_string()][..], vec![vec!["x".into()]])
    );
}

/// A value that asks the database for itself.
struct Asked<'d>(&'d Database, &'static str);

impl mmdb::ToValue for Asked<'_> {
    fn to_value(&self) -> Result<mmdb::ToValueOutput<'_>, Error> {
        let id: i64 = self.0.query_row(self.1, [1], |row| row.get(0))?;
        Ok(Value::from(id).into())
    }
}

#[test]
fn values_and_functions_may_use_the_database() {
    let db = with_rows();
    let line = "select id from t where id = ?";
    for line_of_value in [line, "select id from t where id <= ?"] {
        let found: i64 = db
            .query_row(line, [Asked(&db, line_of_value)], |row| row.get(0))
            .unwrap();
        assert_eq!(found, 1);
    }
    assert_eq!(db.load("t", [(Value::from(7), Value::from("g"))]), Ok(1));
    assert_eq!(
        db.execute("update t set s = 'h' where id = ?", [Asked(&db, line)]),
        Ok(1)
    );
    let mut seen = Vec::new();
    let depth = 5;
    nested(&db, line, depth, &mut seen);
    assert_eq!(seen, [1, 1, 1, 1, 1]);
    assert_eq!(db.query_row(line, [2], |row| row.get(0)), Ok(2));
}

/// Reads a row by a line while rows of the same line are lent.
fn nested(db: &Database, line: &str, depth: usize, seen: &mut Vec<i64>) {
    if depth == 0 {
        return;
    }
    let read = |row: &Row<'_>| {
        nested(db, line, depth - 1, seen);
        let id: i64 = row.get(0)?;
        Ok(id)
    };
    let id = db.query_row(line, [1], read).unwrap();
    seen.push(id);
}

#[test]
fn a_line_that_is_used_while_its_place_goes_to_another() {
    let db = with_rows();
    let line = "select s from t where id = ?";
    for _ in 0..3 {
        let text = db.query_row(line, [1], |row| {
            for number in 0..600 {
                let other = format!("select id from t where id = ? and id <> {}", number + 10);
                assert_eq!(db.query_row(&other, [2], |row| row.get(0)), Ok(2));
            }
            row.get::<_, String>(0)
        });
        assert_eq!(text, Ok("a".to_string()));
    }
}

#[test]
fn a_function_that_panics_leaves_the_line() {
    let db = with_rows();
    let line = "select s from t where id = ?";
    let panics =
        std::panic::AssertUnwindSafe(|| db.query_row(line, [1], |_| -> Result<(), Error> { panic!("of the test") }));
    assert!(std::panic::catch_unwind(panics).is_err());
    assert_eq!(db.query_row(line, [2], |row| row.get(0)), Ok("b".to_string()));
}
