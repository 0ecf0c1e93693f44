//! What values are read as, and why they aren't.

mod common;

use std::error::Error as _;
use std::fmt::Debug;

use common::{number, open, with_rows};
use mmdb::{Database, Error, FromValue, FromValueError, Row, Rows, Value, ValueRef};

/// One row of a greatest and a least integer, 300, a null, and a text that looks like an integer.
fn row() -> Rows {
    let db = open();
    db.execute("table k (id int)", []).unwrap();
    db.execute("table v (most int, least int, n int, none ref k null, word text)", [])
        .unwrap();
    db.execute("insert v (?, ?, ?, ?, ?)", (i64::MAX, i64::MIN, 300, None::<i64>, "12"))
        .unwrap();
    db.query("select * from v", []).unwrap()
}

fn got<'r, T: FromValue<'r>>(rows: &'r Rows, column: &str) -> Result<T, Error> {
    rows.get(0).unwrap().get(column)
}

#[test]
fn values_of_each_type() {
    let rows = row();
    assert_eq!(got(&rows, "most"), Ok(i64::MAX));
    assert_eq!(got(&rows, "most"), Ok(i64::MAX as u64));
    assert_eq!(got(&rows, "most"), Ok(i64::MAX as usize));
    assert_eq!(got(&rows, "least"), Ok(i64::MIN));
    assert_eq!(got(&rows, "least"), Ok(i64::MIN as isize));
    assert_eq!(got(&rows, "least"), Ok(i128::from(i64::MIN)));
    assert_eq!(got(&rows, "n"), Ok(300_i16));
    assert_eq!(got(&rows, "n"), Ok(300_i32));
    assert_eq!(got(&rows, "n"), Ok(300_u16));
    assert_eq!(got(&rows, "n"), Ok(300_u32));
    assert_eq!(got(&rows, "n"), Ok(300_u128));
    assert_eq!(got(&rows, "n"), Ok(Some(300_i64)));
    assert_eq!(got(&rows, "n"), Ok(Value::Integer(300)));
    assert_eq!(got(&rows, "none"), Ok(None::<i8>));
    assert_eq!(got(&rows, "none"), Ok(None::<&str>));
    assert_eq!(got(&rows, "none"), Ok(Value::Null));
    assert_eq!(got(&rows, "word"), Ok("12"));
    assert_eq!(got(&rows, "word"), Ok("12".to_string()));
    assert_eq!(got(&rows, "word"), Ok(Some("12")));
    assert_eq!(got(&rows, "word"), Ok(ValueRef::Text("12")));
}

#[test]
fn a_text_is_lent_by_the_rows() {
    let db = with_rows();
    let rows = db.query("select s from t", []).unwrap();
    let texts: Result<Vec<&str>, Error> = rows.iter().map(|row| row.get(0)).collect();
    db.execute("delete t", []).unwrap();
    assert_eq!(texts.unwrap(), ["a", "b"]);
}

fn check_unread<'r, T: FromValue<'r> + Debug>(rows: &'r Rows, column: &str, text: &str) {
    let unread = got::<T>(rows, column).unwrap_err();
    assert_eq!(unread.to_string(), format!("the column v.{column}: {text}"));
    assert_eq!(unread.source().unwrap().to_string(), text);
}

#[test]
fn integers_out_of_range() {
    let rows = row();
    check_unread::<i8>(&rows, "n", "the integer 300 is no i8");
    check_unread::<u8>(&rows, "n", "the integer 300 is no u8");
    check_unread::<Option<u8>>(&rows, "n", "the integer 300 is no u8");
    check_unread::<i16>(&rows, "most", "the integer 9223372036854775807 is no i16");
    check_unread::<i32>(&rows, "most", "the integer 9223372036854775807 is no i32");
    check_unread::<u16>(&rows, "least", "the integer -9223372036854775808 is no u16");
    check_unread::<u32>(&rows, "least", "the integer -9223372036854775808 is no u32");
    check_unread::<u64>(&rows, "least", "the integer -9223372036854775808 is no u64");
    check_unread::<usize>(&rows, "least", "the integer -9223372036854775808 is no usize");
    check_unread::<u128>(&rows, "least", "the integer -9223372036854775808 is no u128");
}

#[test]
fn wrong_types_and_nulls() {
    let rows = row();
    check_unread::<i64>(&rows, "word", "the text is no i64");
    check_unread::<Option<usize>>(&rows, "word", "the text is no usize");
    check_unread::<&str>(&rows, "n", "the integer is no text");
    check_unread::<String>(&rows, "n", "the integer is no text");
    check_unread::<i64>(&rows, "none", "null is no i64, but an Option of it takes null");
    check_unread::<String>(&rows, "none", "null is no text, but an Option of it takes null");
}

#[test]
#[allow(clippy::needless_borrows_for_generic_args)]
fn columns_by_name_and_number() {
    let rows = row();
    let row = rows.get(0).unwrap();
    for name in ["n", "v.n"] {
        assert_eq!(row.get(name), Ok(300));
        assert_eq!(row.get(&name.to_string()), Ok(300));
        assert_eq!(row.get(name.to_string()), Ok(300));
    }
    assert_eq!(row.get(2), Ok(300));
    assert_eq!(row.get_ref("word"), Ok(ValueRef::Text("12")));
    assert_eq!(row.values().nth(3), Some(ValueRef::Null));
    for name in ["", ".", "N", "u.n", "v.", ".n", "v.v.n", "n ", "*"] {
        let wanted = Error::NoSuchColumn { name: name.to_string() };
        assert_eq!(row.get::<_, i64>(name), Err(wanted.clone()));
        assert_eq!(wanted.to_string(), format!("there is no column {name}"));
    }
    for index in [5, usize::MAX] {
        let wanted = Error::NoSuchIndex { index, columns: 5 };
        assert_eq!(row.get_ref(index), Err(wanted.clone()));
        assert_eq!(wanted.to_string(), format!("there is no column {index} of 5"));
    }
}

#[test]
fn a_bare_name_is_of_one_table() {
    let db = with_rows();
    db.execute("table u (id int, t ref t)", []).unwrap();
    db.execute("insert u (7, 2)", []).unwrap();
    let read = |row: &Row<'_>| {
        let ambiguous = Error::AmbiguousColumn { name: "id".to_string() };
        assert_eq!(ambiguous.to_string(), "several tables have a column id");
        assert_eq!(row.get::<_, i64>("id"), Err(ambiguous));
        Ok((row.get("u.id")?, row.get("t.id")?, row.get("t")?, row.get("s")?))
    };
    let found: Result<(i64, i64, i64, String), Error> = db.query_row("select * from u join t on u.t = t.id", [], read);
    assert_eq!(found, Ok((7, 2, 2, "b".to_string())));
}

#[derive(Debug, PartialEq)]
struct Even(i64);

impl FromValue<'_> for Even {
    fn from_value(value: ValueRef<'_>) -> Result<Even, FromValueError> {
        match i64::from_value(value)? {
            integer if integer % 2 == 0 => Ok(Even(integer)),
            integer => Err(FromValueError::Other(format!("{integer} is odd"))),
        }
    }
}

#[test]
fn a_type_of_ones_own() {
    let rows = row();
    assert_eq!(got(&rows, "n"), Ok(Even(300)));
    assert_eq!(got(&rows, "none"), Ok(None::<Even>));
    check_unread::<Even>(&rows, "most", "9223372036854775807 is odd");
    check_unread::<Even>(&rows, "word", "the text is no i64");
}

#[test]
fn values_are_made_and_asked() {
    assert_eq!(Value::from(7_u32).as_integer(), Some(7));
    assert_eq!(Value::from(&"a".to_string()).as_text(), Some("a"));
    assert_eq!(Value::from(Some("a")).as_integer(), None);
    assert_eq!(Value::from(7).as_text(), None);
    assert!(Value::from(None::<i64>).is_null());
    assert!(!Value::from("").is_null());
    assert_eq!(Value::try_from(7_usize), Ok(Value::Integer(7)));
    assert_eq!(Value::from(ValueRef::from(&Value::from("a"))), Value::from("a"));
    let mut values = [
        Value::from("B"),
        Value::from("a"),
        Value::from(7),
        Value::Null,
        Value::from(""),
    ];
    values.sort();
    assert_eq!(values, [Value::Null, 7.into(), "".into(), "B".into(), "a".into()]);
}

#[test]
fn quoted_fields() {
    let db: Database = with_rows();
    let texts = [
        "\"",
        "\"\"",
        "a\"b",
        "\"\"a\"\"",
        ",",
        "\r",
        "a,\"",
        "x\n\"\ny",
        "\n",
        "é\"€,😀",
    ];
    db.execute("delete t", []).unwrap();
    assert_eq!(db.load("t", (0..).zip(texts)), Ok(texts.len()));
    let rows = db.query("select s, id, s from t where id >= 0", []);
    assert_eq!(rows.unwrap_err().number(), Some(33));
    let rows = db.query("select s, id from t", []).unwrap();
    assert!(rows.iter().map(|row| row.get::<_, &str>("s").unwrap()).eq(texts));
    assert!(rows
        .iter()
        .map(|row| row.get::<_, usize>("id").unwrap())
        .eq(0..texts.len()));
}

#[test]
fn rows_as_tuples() {
    let db = with_rows();
    let rows = db.query("select * from t", []).unwrap();
    let pairs: Vec<(i64, String)> = rows.iter().map(|row| row.try_into().unwrap()).collect();
    assert_eq!(pairs, [(1, "a".to_string()), (2, "b".to_string())]);
    let row = rows.get(0).unwrap();
    let (id, text): (u8, &str) = (&row).try_into().unwrap();
    assert_eq!((id, text), (1, "a"));
    assert_eq!(<(i64,)>::try_from(row), Ok((1,)));
    assert_eq!(<(Option<i64>, Value)>::try_from(&row), Ok((Some(1), "a".into())));
    let wrong = <(i64, i64)>::try_from(&row).unwrap_err();
    assert_eq!(wrong.to_string(), "the column t.s: the text is no i64");
    let wrong = <(i64, &str, i64)>::try_from(&row).unwrap_err();
    assert_eq!(wrong, Error::NoSuchIndex { index: 2, columns: 2 });
    let mut select = db.prepare("select s, id from t where id > ?").unwrap();
    let all = select.query_map([0], |row| row.try_into()).unwrap();
    let all: Vec<(String, i64)> = all.collect::<Result<_, _>>().unwrap();
    assert_eq!(all, [("a".to_string(), 1), ("b".to_string(), 2)]);
    let one: (String, i64) = db
        .query_row("select s, id from t where id = ?", [2], |row| row.try_into())
        .unwrap();
    assert_eq!(one, ("b".to_string(), 2));
}

#[test]
fn rows_one_by_one() {
    let db = with_rows();
    let mut own = db.query("select id from t", []).unwrap();
    let before = own.clone();
    let mut ids = Vec::new();
    while let Some(row) = own.next().unwrap() {
        ids.push(row.get::<_, i64>(0).unwrap());
        assert_eq!(
            db.execute("update t set s = 'z' where id = ?", [ids[ids.len() - 1]]),
            Ok(1)
        );
    }
    assert_eq!((ids, own.next().unwrap().is_none(), own.len()), (vec![1, 2], true, 2));
    assert_eq!((&own, own.iter().count()), (&before, 2));
    let mut select = db.prepare("select id, s from t where id > ?").unwrap();
    let mut rows = select.query([1]).unwrap();
    let first = rows.next().unwrap().unwrap();
    assert!(rows.next().unwrap().is_none() && rows.next().unwrap().is_none());
    assert_eq!((first.get(0), rows.len(), rows.iter().count()), (Ok(2), 1, 1));
    assert!(select.query([9]).unwrap().next().unwrap().is_none());
}

#[test]
fn the_place_of_a_column() {
    let db = with_rows();
    let mut select = db.prepare("select s, id from t").unwrap();
    assert_eq!(
        (
            select.column_index("id"),
            select.column_index("t.s"),
            select.column_index(1)
        ),
        (Ok(1), Ok(0), Ok(1))
    );
    let missing = || Err(Error::NoSuchColumn { name: "x".to_string() });
    assert_eq!(select.column_index("x"), missing());
    let rows = select.query([]).unwrap();
    assert_eq!(
        (rows.column_index("s"), rows.to_rows().column_index("id")),
        (Ok(0), Ok(1))
    );
    assert_eq!(
        (rows.column_index("x"), rows.to_rows().column_index("x")),
        (missing(), missing())
    );
    let at = rows.column_index("id").unwrap();
    assert_eq!(rows.iter().map(|row| row.get::<_, i64>(at).unwrap()).sum::<i64>(), 3);
    let mut change = db.prepare("delete t where id > ?").unwrap();
    assert_eq!(
        change.column_index("id"),
        Err(Error::NoSuchColumn { name: "id".to_string() })
    );
    db.execute("drop table t", []).unwrap();
    assert_eq!(number(select.column_index("id")), Some(30));
}

#[test]
fn functions_with_errors_of_their_own() {
    #[derive(Debug, PartialEq)]
    enum Wrong {
        Read(Error),
        Odd(i64),
    }
    impl From<Error> for Wrong {
        fn from(error: Error) -> Wrong {
            Wrong::Read(error)
        }
    }
    let even = |row: &Row<'_>| match row.get(0)? {
        id if id % 2 == 0 => Ok(id),
        id => Err(Wrong::Odd(id)),
    };
    let db = with_rows();
    let found: Vec<Result<i64, Wrong>> = db.query_and_then("select * from t", [], even).unwrap().collect();
    assert_eq!(found, [Err(Wrong::Odd(1)), Ok(2)]);
    let mut select = db.prepare("select s from t where id > ?").unwrap();
    let mut found = select.query_and_then([1], even).unwrap();
    assert!(matches!(
        (found.len(), found.next()),
        (1, Some(Err(Wrong::Read(Error::Unread { .. }))))
    ));
    assert_eq!(number(db.query_and_then("select x from t", [], even)), Some(32));
}

#[test]
fn truth() {
    let db = open();
    db.execute("table t (id int, is_new int)", []).unwrap();
    assert_eq!(db.execute("insert t (?, ?)", (1, true)), Ok(1));
    assert_eq!(db.load("t", [(2, false), (3, true)]), Ok(2));
    let found = db.query("select is_new from t", []).unwrap();
    let read: Vec<bool> = found.iter().map(|row| row.get(0).unwrap()).collect();
    assert_eq!((read, Value::from(true)), (vec![true, false, true], Value::Integer(1)));
    assert_eq!(
        db.query_row("select id from t where is_new = ?", [false], |row| row.get(0)),
        Ok(2)
    );
    db.execute("update t set is_new = 2 where id = 2", []).unwrap();
    let wrong = db.query_row("select is_new from t where id = 2", [], |row| row.get::<_, bool>(0));
    assert_eq!(
        wrong.unwrap_err().to_string(),
        "the column t.is_new: the integer 2 is no bool"
    );
    assert_eq!(
        db.query_row("select is_new from t where id = 1", [], |row| row.get(0)),
        Ok(Some(true))
    );
}
