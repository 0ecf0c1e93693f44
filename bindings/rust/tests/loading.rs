//! Rows that are loaded come back as they went in, and what they are is told by the columns.

mod common;

use std::io::Read;

use common::draw::Draw;
use common::{open, row, selected, with_table, OneByOne};
use mmdb::{params, Database, Error, Outcome, Take, Value, Values};

#[test]
fn a_load_takes_values_of_the_columns_types() {
    let db = with_table();
    let wrong = |row: usize, column: &str| {
        let column = column.to_string();
        Err(Error::WrongType { row, column })
    };
    assert_eq!(db.load("t", [("1", "a")]), wrong(1, "id"));
    assert_eq!(db.load("t", [params![1, "a"], params![2, 3]]), wrong(2, "s"));
    assert_eq!(db.load("t", [(1, Value::Null)]), wrong(1, "s"));
    assert_eq!(db.load("t", [(None::<i64>, "a")]), wrong(1, "id"));
    assert!(db.dump("t").unwrap().is_empty());
    assert_eq!(db.load("t", [(i64::MIN, ""), (i64::MAX, "")]), Ok(2));
    assert_eq!(
        selected(&db, "select id from t", []),
        [[i64::MIN.into()], [i64::MAX.into()]]
    );
}

#[test]
fn a_load_takes_as_many_values_as_columns() {
    let db = with_table();
    let length = |row: usize, values: usize| {
        let columns = 2;
        Err(Error::RowLength { row, values, columns })
    };
    assert_eq!(db.load("t", [()]), length(1, 0));
    assert_eq!(db.load("t", [[1]]), length(1, 1));
    assert_eq!(db.load("t", [(1, "a", 3)]), length(1, 3));
    assert_eq!(db.load("t", [row(1, "a"), vec![Value::from(2)]]), length(2, 1));
    assert_eq!(db.load("t", Vec::<(i64, &str)>::new()), Ok(0));
    assert!(db.dump("t").unwrap().is_empty());
}

struct Person {
    id: u32,
    name: String,
}

impl Values for Person {
    fn each(&self, take: &mut Take<'_>) -> Result<(), Error> {
        take(&self.id)?;
        take(&self.name)
    }
}

#[test]
#[allow(clippy::needless_borrows_for_generic_args)]
fn rows_are_given_in_any_way() {
    let db = with_table();
    let name = "a".to_string();
    assert_eq!(db.load("t", &[(1, "a"), (2, "a")]), Ok(2));
    assert_eq!(db.load("t", vec![(3, &name)]), Ok(1));
    assert_eq!(db.load("t", [&row(4, "a"), &row(5, "a")]), Ok(2));
    assert_eq!(db.load("t", (6..8).map(|id| (id, "a"))), Ok(2));
    assert_eq!(db.load("t", [params![8, name]]), Ok(1));
    assert_eq!(db.load("t", [Person { id: 9, name }]), Ok(1));
    let person = Person {
        id: 10,
        name: "a".to_string(),
    };
    assert_eq!(db.execute("insert t (?, ?)", &person), Ok(1));
    let rows: Vec<Vec<Value>> = (1..11).map(|id| row(id, "a")).collect();
    assert_eq!(selected(&db, "select * from t", []), rows);
    assert_eq!(db.load_csv("t", "id,s\n11,a\n12,\"b,c\""), Ok(2));
    assert_eq!(selected(&db, "select * from t where id > 11", []), [row(12, "b,c")]);
}

#[test]
fn texts_that_look_like_others() {
    let db = with_table();
    db.execute("drop table t", []).unwrap();
    db.execute("table t (s text)", []).unwrap();
    let mut texts = [
        "",
        "0",
        "-0",
        "007",
        "12",
        "-7",
        "9223372036854775808",
        "null",
        " ",
        "''",
        "\"\"",
        "1,2",
    ];
    texts.sort_unstable();
    let rows: Vec<Vec<Value>> = texts.iter().map(|text| vec![Value::from(*text)]).collect();
    assert_eq!(db.load("t", &rows), Ok(rows.len()));
    assert_eq!(selected(&db, "select * from t", []), rows);
    assert_eq!(db.dump("t").unwrap().to_vec(), rows);
}

/// Fills a table with references, and gives its rows.
fn fill(db: &Database, draw: &mut Draw, keys: &[&str]) -> Vec<Vec<Value>> {
    db.execute("table u (k text)", []).unwrap();
    db.execute("table v (k int)", []).unwrap();
    db.execute("table e (id int, s text, u ref u null, v ref v null, w ref u)", [])
        .unwrap();
    db.load("u", keys.iter().map(|key| [key])).unwrap();
    db.load("v", (-3..4).map(|key| [key])).unwrap();
    let (texts, integers): (Vec<Value>, Vec<Value>) = (
        keys.iter().map(|key| Value::from(*key)).collect(),
        (-3..4).map(Value::from).collect(),
    );
    let mut rows = Vec::new();
    for id in 0..60 {
        let (text, integer, other) = (draw.of(&texts), draw.of(&integers), draw.of(&texts));
        let (text, integer) = (draw.of(&[text, Value::Null]), draw.of(&[integer, Value::Null]));
        let row = vec![Value::Integer(id), Value::Text(draw.text()), text, integer, other];
        assert_eq!(db.execute("insert e (?, ?, ?, ?, ?)", &row), Ok(1));
        rows.push(row);
    }
    rows
}

#[test]
fn nulls_integers_and_texts() {
    let (db, mut draw) = (with_table(), Draw(1980));
    let rows = fill(&db, &mut draw, &["a", "0", "null", "x,y", "\"", "'"]);
    assert_eq!(selected(&db, "select * from e", []), rows);
    for (place, name) in ["id", "s", "u", "v", "w"].into_iter().enumerate() {
        let column: Vec<Vec<Value>> = rows.iter().map(|row| vec![row[place].clone()]).collect();
        assert_eq!(selected(&db, &format!("select {name} from e"), []), column);
    }
    assert_eq!(db.dump("e").unwrap().to_vec(), rows);
    let null = db.query_row("select u from e where u = null", [], |row| {
        row.get::<_, Option<String>>("u")
    });
    assert_eq!(null, Ok(None));
    db.execute("delete e", []).unwrap();
    assert_eq!(db.load("e", &rows), Ok(60));
    assert_eq!(selected(&db, "select * from e", []), rows);
}

#[test]
fn null_and_the_empty_text_are_told_apart() {
    let (db, mut draw) = (with_table(), Draw(1986));
    let rows = fill(&db, &mut draw, &["", "a"]);
    assert_eq!(db.dump("e").unwrap().to_vec(), rows);
    assert_eq!(selected(&db, "select * from e", []), rows);
    let one = db.query_row("select * from e where u = ''", [], |row| row.get::<_, String>("u"));
    assert_eq!(one, Ok(String::new()));
    let null = db.query_row("select * from e where u = null", [], |row| {
        row.get::<_, Option<String>>("u")
    });
    assert_eq!(null, Ok(None));
    for value in [Value::Null, "".into()] {
        let sign = if value.is_null() { "null" } else { "''" };
        let found = selected(&db, &format!("select id, w from e where u = {sign}"), []);
        let wanted = rows
            .iter()
            .filter(|row| row[2] == value)
            .map(|row| vec![row[0].clone(), row[4].clone()]);
        assert_eq!(found, wanted.collect::<Vec<_>>());
    }
    let refused = db.load("e", [(100, "", "", Value::Null, "")]);
    assert_eq!(
        refused,
        Err(Error::EmptyText {
            row: 1,
            column: "u".to_string()
        })
    );
    assert_eq!(db.dump("e").unwrap().to_vec(), rows);
}

#[test]
fn columns_are_known_anew_after_each_declaration() {
    let ways: [fn(&mut Database, &str); 4] = [
        |db, line| assert_eq!(db.execute(line, []), Ok(0)),
        |db, line| assert_eq!(db.command(line, []), Ok(Outcome::Done)),
        |db, line| assert_eq!(db.answer(line.as_bytes()), Ok(&b"ok\n"[..])),
        |db, line| assert_eq!(db.answer_to_load(line.as_bytes(), b""), Ok(&b"ok\n"[..])),
    ];
    for way in ways {
        let mut db = open();
        for (kind, value) in [("int", Value::from(1)), ("text", "1".into()), ("int", 1.into())] {
            way(&mut db, &format!("table x (id int, v {kind})"));
            assert_eq!(db.load("x", [(1, &value)]), Ok(1));
            assert_eq!(selected(&db, "select v from x", []), [[value]]);
            way(&mut db, "drop table x");
        }
    }
}

/// The first record with odd quote marks, and whether a field of it is open, byte by byte as the language reads a block.
fn first_odd(csv: &str) -> Option<(usize, bool)> {
    let (mut record, mut state) = (0, "record");
    for byte in csv.bytes() {
        state = match (state, byte) {
            ("quoted", b'"') => "behind",
            ("quoted", _) | ("behind", b'"') => "quoted",
            (_, b'\r' | b'\n') => {
                record += usize::from(state != "record");
                "record"
            }
            (_, b',') => "field",
            ("behind", _) => return Some((record, false)),
            ("record" | "field", b'"') => "quoted",
            _ => "plain",
        };
    }
    Some((record, true)).filter(|_| state == "quoted")
}

#[test]
fn a_strict_load_refuses_odd_quote_marks() {
    let db = with_table();
    for (csv, odd) in [
        ("id,s\n1,\"x\"y\n2,z\n", Some((1, false))),
        ("id,s\n1,a\n\r\n2,\"x\n3,y\n", Some((2, true))),
        ("id,\"s\"\n1,\"a\nb\"\n2,\"\"\"\n", Some((2, true))),
        ("id,\"s\"x\n1,a\n", Some((0, false))),
        ("id,\"s\n1,a\n", Some((0, true))),
        ("\u{feff}\"id\",s\r\n1,5\"\r2,\"a \"\"b\"\", c\"", None),
    ] {
        let wanted = match odd {
            Some((record, is_open)) => {
                let words = match is_open {
                    true => "a field whose quote mark is never closed, and which holds all that follows",
                    false => "a field with text behind its closing quote mark, which is read as a part of it",
                };
                let record = match record {
                    0 => "the record of names".to_string(),
                    _ => format!("record {record}"),
                };
                Err(format!("{record} of the CSV has {words}"))
            }
            None => Ok(2),
        };
        for from in [&mut csv.as_bytes() as &mut dyn Read, &mut OneByOne(csv.as_bytes())] {
            let told = db.load_csv_strict("t", from).map_err(|odd| odd.to_string());
            assert_eq!(told, wanted, "{csv:?}");
            assert_eq!(db.execute("delete t", []), Ok(wanted.clone().unwrap_or(0)));
        }
    }
    assert_eq!(db.load_csv_strict("u", &b"id\n"[..]).unwrap_err().number(), Some(30));
}

#[test]
fn odd_quote_marks_of_random_blocks_are_found() {
    let (db, mut draw, mut odd) = (with_table(), Draw(2026), 0);
    for _ in 0..20_000 {
        let (marks, length) = (['"', '"', ',', '\n', '\r', 'a', 'b'], draw.of(&[1, 2, 5, 10, 20]));
        let letters: String = (0..length).map(|_| draw.of(&marks)).collect();
        let wanted = first_odd(&letters);
        let found = match db.load_csv_strict("t", OneByOne(letters.as_bytes())) {
            Err(Error::OddQuotes { record, is_open, .. }) => Some((record, is_open)),
            other => {
                assert!(other.is_err(), "{letters:?}");
                None
            }
        };
        odd += usize::from(found.is_some());
        assert_eq!(found, wanted, "{letters:?}");
    }
    assert!(odd > 2_000, "{odd}");
}
