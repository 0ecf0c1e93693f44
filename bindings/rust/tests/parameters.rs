//! A parameter is one value, whatever it holds and however it is given, and comes back as it went in.

mod common;

use std::borrow::Cow;
use std::rc::Rc;
use std::sync::Arc;

use common::draw::Draw;
use common::{number, open, row, selected, with_rows, with_table};
use mmdb::{named_params, params, params_from_iter, Database, Error, Outcome, ToValue, ToValueOutput, Value, ValueRef};

#[test]
fn random_texts_stay_in_their_places() {
    let (db, mut draw, mut rows) = (with_table(), Draw(20_260_901), Vec::new());
    for id in 0..2_000 {
        let text = draw.text();
        assert_eq!(db.execute("insert t (?,?)", (id, &text)), Ok(1), "{text:?}");
        let line = "select * from t where id = ?and s = ? and s <> '?'";
        let found = selected(&db, line, params![id, text]);
        let line = "select * from t where id = :id and s = :s and s <> ':s'";
        assert_eq!(
            selected(&db, line, named_params! { ":s": text, ":id": id }).len(),
            usize::from(text != ":s")
        );
        assert_eq!(found.len(), usize::from(text != "?"), "{text:?}");
        assert!(found.iter().all(|found| *found == row(id, &text)), "{text:?}");
        rows.push(row(id, &text));
    }
    assert_eq!(db.dump("t").unwrap().to_vec(), rows);
    let listing = "table t (id int, s text)\n".to_string();
    assert_eq!(db.command("tables", []), Ok(Outcome::Text(listing)));
}

#[test]
fn a_text_with_a_line_feed_is_a_value_too() {
    let db = with_table();
    let texts = ["\n", "a\n", "'\ndelete t\n", "\r\n"];
    for (id, text) in (0..).zip(texts) {
        assert_eq!(db.execute("insert t (?, ?)", (id, text)), Ok(1), "{text:?}");
    }
    for (id, text) in (0..).zip(texts) {
        let found = selected(&db, "select id from t where s = ?", [text]);
        assert_eq!(found, [[Value::from(id)]], "{text:?}");
        let named = named_params! { ":s": text, ":id": id };
        let line = "update t set s = :s where id = :id and s = :s";
        assert_eq!(db.execute(line, named), Ok(1), "{text:?}");
    }
    assert_eq!(db.execute("delete t where s <> ?", ["\n"]), Ok(3));
    assert_eq!(selected(&db, "select s from t", []), [["\n".into()]]);
}

#[test]
fn a_text_with_a_line_feed_stands_in_no_line() {
    let db = with_table();
    for line in ["drop table ?", "dump ?", "load ? 3", "index t ? hash"] {
        assert_eq!(db.command(line, ["t\n"]), Err(Error::LineFeed), "{line}");
    }
    assert_eq!(db.load("t", [(2, "'\r\n\n")]), Ok(1));
    assert_eq!(selected(&db, "select s from t", []), [["'\r\n\n".into()]]);
}

#[test]
fn a_refusal_of_a_text_with_a_line_feed_has_its_line() {
    let db = with_rows();
    let refused = db.execute("insert t (?, ?)", (1, "two\nlines")).unwrap_err();
    assert_eq!(refused.number(), Some(41));
    assert_eq!(refused.line(), Some("insert t (1, 'two\nlines')"));
    assert_eq!(refused.reason(), Some("column 11: t has a row with the key 1"));
}

#[test]
fn a_parameter_runs_into_nothing_beside_it() {
    let db = with_table();
    let (one, two): (Value, Value) = (1.into(), 2.into());
    let (text, other): (Value, Value) = ("a".into(), "b".into());
    for (line, given) in [
        ("insert t (1, 'a'?)", vec![other.clone()]),
        ("insert t (1, ?'a')", vec![other.clone()]),
        ("insert t (1, ??)", vec![text, other]),
        ("insert t (1?, 'a')", vec![two.clone()]),
        ("insert t (?1, 'a')", vec![two.clone()]),
        ("insert t (??, 'a')", vec![one.clone(), two.clone()]),
        ("insert t (-?, 'a')", vec![two]),
        ("select s? from t", vec![one.clone()]),
        ("select * from t?", vec![Value::Null]),
        ("? t", vec![Value::Null]),
        ("drop table ?", vec!["t".into()]),
        ("insert t (?, 'open", vec![one]),
        ("insert t (1 : 2)", vec![]),
    ] {
        assert_eq!(number(db.command(line, &given)), Some(20), "{line}");
    }
    let beside = named_params! { ":a": 1, ":b": "b" };
    assert_eq!(number(db.execute("insert t (:a:b, 'a')", beside)), Some(20));
    assert!(db.dump("t").unwrap().is_empty());
}

#[test]
fn places_are_as_many_as_parameters() {
    let db = with_table();
    for (line, places, parameters) in [
        ("insert t (?, 'a')", 1, 0),
        ("insert t (1, 'a')", 0, 1),
        ("insert t (?, '?')", 1, 2),
        ("insert t (?, 'it''s ?')", 1, 2),
        ("insert t (?, ?)", 2, 1),
        ("insert t (?, ?)", 2, 3),
        ("# ?", 0, 1),
        (" \t# :a", 0, 1),
        ("", 0, 1),
    ] {
        let given = vec![Value::Integer(1); parameters];
        assert_eq!(
            db.execute(line, given),
            Err(Error::Places { places, parameters }),
            "{line}"
        );
    }
    assert_eq!(db.execute("insert t (?, 'it''s ?')", [1]), Ok(1));
    assert_eq!(selected(&db, "select s from t", []), [["it's ?".into()]]);
}

#[test]
fn names_are_those_of_the_line() {
    let db = with_rows();
    let missing = |name: &str| Err(Error::MissingParameter { name: name.to_string() });
    let unknown = |name: &str| Err(Error::UnknownParameter { name: name.to_string() });
    let given = named_params! { ":id": 3, ":s": ":id" };
    assert_eq!(db.execute("insert t (:id, :s)", given), Ok(1));
    assert_eq!(
        selected(&db, "select * from t where id=:id and s=:s and id<>4", given),
        [row(3, ":id")]
    );
    let twice = "select id from t where id >= :id and id <= :id";
    assert_eq!(selected(&db, twice, named_params! { ":id": 2 }), [[2.into()]]);
    assert_eq!(db.execute("insert t (:id, :t)", given), unknown(":s"));
    assert_eq!(db.execute("insert t (:id, ':s')", given), unknown(":s"));
    assert_eq!(db.execute("# :id :s", given), unknown(":id"));
    assert_eq!(
        db.execute("insert t (:id, 'a')", named_params! { "id": 4 }),
        unknown("id")
    );
    assert_eq!(
        db.execute("insert t (:i, 'a')", named_params! { ":id": 4 }),
        unknown(":id")
    );
    assert_eq!(
        db.execute("insert t (:id, :s)", named_params! { ":id": 4 }),
        missing(":s")
    );
    assert_eq!(
        db.execute("insert t (:id, ?)", named_params! { ":id": 4 }),
        missing("?")
    );
    assert_eq!(db.execute("insert t (:id, :s)", (4, "a")), missing(":id"));
    assert_eq!(db.execute("insert t (?, :s)", [4]), missing(":s"));
    assert_eq!(db.execute("insert t (:id, :s)", []), missing(":id"));
    assert_eq!(db.dump("t").unwrap().len(), 3);
}

/// What is inserted as a number and a text in a reference that takes nulls.
fn inserted(number: impl ToValue, text: impl ToValue) -> Vec<Value> {
    let db: Database = open();
    db.execute("table k (s text)", []).unwrap();
    db.execute("table t (n int, s ref k null)", []).unwrap();
    db.load("k", [["a"], ["b"]]).unwrap();
    assert_eq!(db.execute("insert t (?, ?)", (number, text)), Ok(1));
    selected(&db, "select * from t", []).concat()
}

#[test]
#[allow(clippy::needless_borrows_for_generic_args)]
fn what_is_a_value() {
    let one_and_a = row(1, "a");
    assert_eq!(inserted(1_i8, "a"), one_and_a);
    assert_eq!(inserted(1_i16, "a".to_string()), one_and_a);
    assert_eq!(inserted(1_i32, &"a".to_string()), one_and_a);
    assert_eq!(inserted(1_i64, Some("a")), one_and_a);
    assert_eq!(inserted(1_u8, Some("a".to_string())), one_and_a);
    assert_eq!(inserted(1_u16, &Some("a")), one_and_a);
    assert_eq!(inserted(1_u32, Value::from("a")), one_and_a);
    assert_eq!(inserted(1_u64, &Value::from("a")), one_and_a);
    assert_eq!(inserted(1_usize, ValueRef::Text("a")), one_and_a);
    assert_eq!(inserted(1_isize, Cow::Borrowed("a")), one_and_a);
    assert_eq!(inserted(1_i128, Box::new("a")), one_and_a);
    assert_eq!(inserted(1_u128, Rc::new("a".to_string())), one_and_a);
    assert_eq!(inserted(&&1, Arc::<str>::from("a")), one_and_a);
    assert_eq!(inserted(&mut 1, &"a" as &dyn ToValue), one_and_a);
    for null in [
        None::<&str>.to_value(),
        Value::Null.to_value(),
        Some(None::<i64>).to_value(),
    ] {
        assert_eq!(ValueRef::from(&null.unwrap()), ValueRef::Null);
    }
    assert_eq!(inserted(i64::MAX, None::<String>), [i64::MAX.into(), Value::Null]);
    assert_eq!(inserted(i64::MIN as i128, Value::Null), [i64::MIN.into(), Value::Null]);
}

#[test]
fn integers_past_those_of_a_column() {
    let db = with_rows();
    let past = |digits: &str| Error::IntegerOutOfRange {
        integer: digits.to_string(),
    };
    let line = "delete t where id = ?";
    assert_eq!(db.execute(line, [u64::MAX]), Err(past("18446744073709551615")));
    assert_eq!(db.execute(line, [1_u64 << 63]), Err(past("9223372036854775808")));
    assert_eq!(db.execute(line, params![usize::MAX]), Err(past("18446744073709551615")));
    assert_eq!(
        db.execute(line, (Some(-(1_i128 << 63) - 1),)),
        Err(past("-9223372036854775809"))
    );
    assert_eq!(
        db.execute(line, named_params! { ":i": u64::MAX }),
        Err(Error::UnknownParameter { name: ":i".to_string() })
    );
    assert_eq!(db.load("t", [(u64::MAX, "a")]), Err(past("18446744073709551615")));
    assert_eq!(
        Value::try_from(u128::MAX),
        Err(past("340282366920938463463374607431768211455"))
    );
    assert_eq!(past("1").to_string(), "the integer 1 is no i64");
    assert_eq!(db.dump("t").unwrap().len(), 2);
}

#[test]
#[allow(clippy::needless_borrows_for_generic_args)]
fn how_values_are_given() {
    let db = with_table();
    let line = "insert t (?, ?)";
    let text = "it's".to_string();
    assert_eq!(db.execute(line, (1, "a")), Ok(1));
    assert_eq!(db.execute(line, &(2, &text)), Ok(1));
    assert_eq!(db.execute(line, params![3, text,]), Ok(1));
    assert_eq!(db.execute(line, [Value::from(4), text.as_str().into()]), Ok(1));
    assert_eq!(db.execute(line, &[Value::from(5), "a".into()]), Ok(1));
    assert_eq!(db.execute(line, row(6, "a")), Ok(1));
    assert_eq!(db.execute(line, &row(7, "a")), Ok(1));
    assert_eq!(db.execute(line, row(8, "a").as_slice()), Ok(1));
    assert_eq!(db.execute(line, [&9 as &dyn ToValue, &text]), Ok(1));
    assert_eq!(db.execute(line, params_from_iter(row(10, "a"))), Ok(1));
    let names = vec![(":n", Value::from(11)), (":s", "a".into())];
    assert_eq!(db.execute("insert t (:n, :s)", names.as_slice()), Ok(1));
    let ids: Vec<Vec<Value>> = (1..12).map(|id| vec![Value::from(id)]).collect();
    assert_eq!(selected(&db, "select id from t", []), ids);
}

#[test]
fn texts_that_are_too_long() {
    let db = with_rows();
    for length in [1_025, 8_192, 100_000] {
        let refused = db.execute("insert t (3, ?)", ["x".repeat(length)]).unwrap_err();
        assert_eq!(refused.number(), Some(46));
        assert!(refused.line().unwrap().len() > length);
    }
    assert_eq!(db.execute("insert t (3, ?)", ["'".repeat(1_024)]), Ok(1));
    assert_eq!(
        selected(&db, "select s from t where id = 3", []),
        [["'".repeat(1_024).into()]]
    );
}

struct Even(i64);

impl ToValue for Even {
    fn to_value(&self) -> Result<ToValueOutput<'_>, Error> {
        match self.0 % 2 {
            0 => Ok(Value::from(format!("even {}", self.0)).into()),
            _ => Err(Error::Other(format!("{} is odd", self.0))),
        }
    }
}

#[test]
fn a_type_of_ones_own() {
    let db = with_table();
    assert_eq!(db.execute("insert t (?, ?)", (1, Even(2))), Ok(1));
    let odd = db.execute("insert t (?, ?)", (2, Even(3))).unwrap_err();
    assert_eq!(odd.to_string(), "3 is odd");
    assert_eq!(selected(&db, "select * from t", []), [row(1, "even 2")]);
}
