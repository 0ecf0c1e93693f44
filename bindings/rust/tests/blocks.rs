//! Loads that take more than one block: all of their records or none, with the numbers of the whole.

mod common;

use std::io::{Error as IoError, ErrorKind, Read};

use common::draw::Draw;
use common::{number, open, selected};
use mmdb::{Database, Error, Limits, Policy, Result, Value};

/// A database with an empty table `t (id int, s text)`, and small blocks.
fn with_blocks_of(block: u32) -> Database {
    let limits = Limits {
        block,
        ..Limits::default()
    };
    let db = Database::open(Policy::Auto, limits).expect("memory is there");
    db.execute("table t (id int, s text)", []).expect("a table");
    db
}

fn rows_of(db: &Database) -> Vec<Vec<Value>> {
    selected(db, "select * from t", [])
}

/// What a refusal is: its number, its words and its reason.
fn refused(loaded: Result<usize>) -> (u32, String, String) {
    let why = loaded.expect_err("it is refused");
    let (number, text, reason) = (why.number(), why.text(), why.reason());
    let words = |words: Option<&str>| words.expect("a refusal").to_string();
    (number.expect("a number"), words(text), words(reason))
}

fn csv(ids: impl Iterator<Item = i64>) -> String {
    let mut csv = "id,s\n".to_string();
    ids.for_each(|id| csv += &format!("{id},the text of {id}\n"));
    csv
}

/// Gives a few bytes at a time, and is interrupted before each.
struct Slow<'s> {
    bytes: &'s [u8],
    is_interrupted: bool,
}

impl Read for Slow<'_> {
    fn read(&mut self, to: &mut [u8]) -> Result<usize, IoError> {
        self.is_interrupted = !self.is_interrupted;
        if self.is_interrupted {
            return Err(ErrorKind::Interrupted.into());
        }
        let most = to.len().min(3);
        self.bytes.read(&mut to[..most])
    }
}

fn slow(bytes: &[u8]) -> Slow<'_> {
    Slow {
        bytes,
        is_interrupted: false,
    }
}

#[test]
fn all_rows_of_many_blocks() {
    let db = with_blocks_of(200);
    let text = |id: i64| format!("the text of {id}");
    assert_eq!(db.load("t", (0..1_000).map(|id| (id, text(id)))), Ok(1_000));
    assert_eq!(db.load_csv("t", csv(1_000..2_000)), Ok(1_000));
    assert_eq!(db.load_csv_from("t", slow(csv(2_000..3_000).as_bytes())), Ok(1_000));
    let named = (3_000..4_000).map(|id| (text(id), id));
    assert_eq!(db.load_columns("t", &["s", "id"], named), Ok(1_000));
    let other = csv(4_000..5_000)
        .replace("id,s", "s,id")
        .replace(",the text of ", " texts,");
    assert_eq!(db.load_csv_columns("t", &["s", "id"], other.as_bytes()), Ok(1_000));
    let rows = rows_of(&db);
    assert_eq!((rows.len(), db.transactions()), (5_000, 0));
    for (id, row) in (0..).zip(&rows[..4_000]) {
        assert_eq!(row[..], [id.into(), text(id).into()]);
    }
    assert_eq!(rows[4_000], [4_000.into(), "4000 texts".into()]);
}

#[test]
fn a_refusal_names_the_record_in_the_whole() {
    let db = with_blocks_of(200);
    db.load("t", [(5_000, "a")]).unwrap();
    let loads: [fn(&Database, String) -> Result<usize>; 3] = [
        |db, csv| db.load_csv("t", csv),
        |db, csv| db.load_csv_from("t", csv.as_bytes()),
        |db, csv| db.load_csv_columns("t", &["id", "s"], csv.as_bytes()),
    ];
    for load in loads {
        let again = refused(load(&db, csv((0..700).chain([3]))));
        let reason = "t or an earlier record has the key 3".to_string();
        assert_eq!(again, (41, "key exists (record 701)".to_string(), reason));
        let twice = refused(load(&db, csv((0..700).chain([699]))));
        assert_eq!((twice.0, twice.1.as_str()), (41, "key exists (record 701)"));
        let held = refused(load(&db, csv(4_500..5_500)));
        assert_eq!((held.0, held.1.as_str()), (41, "key exists (record 501)"));
        let bad = refused(load(&db, csv(0..700) + "700\n"));
        assert_eq!((bad.0, bad.1.as_str()), (62, "bad record 701"));
        assert_eq!(bad.2, refused(load(&db, "id,s\n700\n".to_string())).2);
        let quoted = "record 3 has the key 4,a\n";
        let bad = refused(load(&db, csv(0..700) + quoted));
        assert_eq!((bad.0, bad.2), (62, refused(load(&db, format!("id,s\n{quoted}"))).2));
        assert_eq!(number(load(&db, csv(0..700).replacen("id", "di", 1))), Some(61));
        assert_eq!((rows_of(&db).len(), db.transactions()), (1, 0));
    }
}

/// A record of a block that has the key of one before it in the same block.
#[test]
fn a_reason_names_the_other_record_in_the_whole() {
    let db = with_blocks_of(40);
    let rows = [
        (1, "12345678901234567890"),
        (2, "1234567890"),
        (3, "a"),
        (4, "b"),
        (3, "c"),
    ];
    let (number, text, reason) = refused(db.load("t", rows));
    assert_eq!((number, text.as_str()), (41, "key exists (record 5)"));
    assert_eq!(reason, "record 3 has the key 3 too");
    assert!(rows_of(&db).is_empty());
}

#[test]
fn a_full_table() {
    let limits = Limits { rows: 7, block: 30 };
    let db = Database::open(Policy::Auto, limits).unwrap();
    db.execute("table t (id int, s text)", []).unwrap();
    db.load("t", [(100, "a")]).unwrap();
    let (number, text, reason) = refused(db.load("t", (0..20).map(|id| (id, "text"))));
    assert_eq!((number, text.as_str()), (43, "table full (record 7)"));
    assert_eq!(
        reason,
        "t has 1 rows, 6 records come before this one, and a table has at most 7 rows"
    );
    assert_eq!(
        (rows_of(&db).len(), db.load("t", (0..6).map(|id| (id, "text")))),
        (1, Ok(6))
    );
}

#[test]
fn what_makes_the_rows_ends_it() {
    let db = with_blocks_of(100);
    let row = |id: i64| match id {
        900 => vec![Value::from(id)],
        901 => vec!["b".into(), "b".into()],
        _ => vec![id.into(), "b".into()],
    };
    let (row_no, values, columns) = (901, 1, 2);
    let length = Error::RowLength {
        row: row_no,
        values,
        columns,
    };
    assert_eq!(db.load("t", (0..1_000).map(row)), Err(length));
    let column = "id".to_string();
    assert_eq!(
        db.load("t", (0..1_000).filter(|id| *id != 900).map(row)),
        Err(Error::WrongType { row: 901, column })
    );
    let ended = std::panic::catch_unwind(std::panic::AssertUnwindSafe(|| {
        db.load(
            "t",
            (0..1_000).map(|id| (id, if id < 900 { "a" } else { panic!("to end here") })),
        )
    }));
    assert!(ended.is_err());
    assert_eq!((rows_of(&db).len(), db.transactions()), (0, 0));
}

/// A file that can't be read to its end, and isn't loaded.
#[test]
fn what_cannot_be_read_is_not_loaded() {
    struct Torn;
    impl Read for Torn {
        fn read(&mut self, _to: &mut [u8]) -> Result<usize, IoError> {
            Err(IoError::new(ErrorKind::BrokenPipe, "the pipe is torn"))
        }
    }
    let db = with_blocks_of(100);
    for rows in [0, 1, 1_000] {
        let csv = csv(0..rows);
        let torn = db.load_csv_from("t", csv.as_bytes().chain(Torn)).unwrap_err();
        assert!(
            matches!(
                &torn,
                Error::Io {
                    kind: ErrorKind::BrokenPipe,
                    ..
                }
            ),
            "{torn:?}"
        );
        assert_eq!(torn.to_string(), "the CSV can't be read: the pipe is torn");
        assert_eq!((rows_of(&db).len(), db.transactions()), (0, 0));
    }
}

#[test]
fn in_a_transaction_it_is_a_savepoint() {
    let mut db = with_blocks_of(100);
    let tx = db.transaction().unwrap();
    tx.execute("insert t (-1, 'first')", []).unwrap();
    assert_eq!(number(tx.load_csv("t", csv((0..500).chain([7])))), Some(41));
    assert_eq!((rows_of(&tx).len(), tx.transactions()), (1, 1));
    assert_eq!(tx.load_csv("t", csv(0..500)), Ok(500));
    assert_eq!((rows_of(&tx).len(), tx.transactions()), (501, 1));
    drop(tx);
    assert!(rows_of(&db).is_empty());
    let tx = db.transaction().unwrap();
    assert_eq!(tx.load_csv("t", csv(0..500)), Ok(500));
    tx.commit().unwrap();
    assert_eq!(rows_of(&db).len(), 500);
}

/// What makes the rows may use the database, in the transaction too, but it can't end that.
#[test]
fn rows_that_are_made_by_the_database() {
    let db = with_blocks_of(100);
    db.execute("table u (id int)", []).unwrap();
    db.load("t", [(-2, "a"), (-1, "b")]).unwrap();
    let other = |id: i64| {
        db.execute("insert u (?)", [id]).unwrap();
        let text = db.query_row("select s from t where id = -1", [], |row| row.get::<_, String>(0));
        (id, text.unwrap())
    };
    assert_eq!(db.load("t", (0..100).map(other)), Ok(100));
    assert_eq!((rows_of(&db).len(), db.dump("u").unwrap().len()), (102, 100));
    let ending = |id: i64| {
        if id == 190 {
            db.commit().unwrap();
        }
        (id, "c")
    };
    assert_eq!(db.load("t", (100..200).map(ending)), Err(Error::NoTransaction));
    assert_eq!(db.transactions(), 0);
}

#[test]
fn records_that_no_block_has_room_for() {
    let db = with_blocks_of(60);
    let reason = |record: &str| format!("{record} doesn't end in a block of 60 bytes; is a quote mark left open?");
    let open = csv(0..100) + "100,\"left open\n" + &csv(101..200);
    let wanted = (12, "block too long".to_string(), reason("record 101"));
    assert_eq!(refused(db.load_csv_from("t", open.as_bytes())), wanted);
    assert_eq!(refused(db.load_csv("t", &open)), wanted);
    let long = |id: i64| (id, "x".repeat(if id < 50 { 3 } else { 60 }));
    let wanted = (12, "block too long".to_string(), reason("record 51"));
    assert_eq!(refused(db.load("t", (0..100).map(long))), wanted);
    let names = "\"".to_string() + &csv(0..100);
    let wanted = (12, "block too long".to_string(), reason("the record of names"));
    assert_eq!(refused(db.load_csv_from("t", names.as_bytes())), wanted);
    assert!(rows_of(&db).is_empty());
    assert_eq!(number(with_blocks_of(3).load("t", [(1, "a")])), Some(12));
    assert_eq!(number(with_blocks_of(3).load_csv_from("t", &b"id,s\n"[..])), Some(12));
}

/// Each CSV is loaded alike in one block and in many, however it is cut.
#[test]
fn many_blocks_load_what_one_does() {
    let texts = [
        "",
        "\"\"",
        "a",
        "\"a\"",
        "\"a,b\"",
        "\"a\nb\"",
        "\"a\r\nb\"",
        "\"a\"\"b\"",
        "5\"",
        "\"x\"y",
        "\"x\"\"y\"z\"",
    ];
    let ends = ["\n", "\r", "\r\n", "\n\n", "\n\r\r\n"];
    let mut draw = Draw(1980);
    for _ in 0..200 {
        let front = draw.of(&["", "\u{feff}", "\n", "\u{feff}\r\n", "\n\r\n"]);
        let names = draw.of(&["id,s", "\"id\",s", "id,\"s\""]);
        let mut csv = format!("{front}{names}{}", draw.of(&ends));
        for id in 0..40 {
            csv += &format!("{id},{}{}", draw.of(&texts), draw.of(&ends));
        }
        csv += draw.of(&["", "40,a", "40,\"left open\n,b", "40,\"a\"\n"]);
        let whole = open();
        whole.execute("table t (id int, s text)", []).unwrap();
        let expected = (whole.load_csv("t", &csv), rows_of(&whole));
        assert!(expected.0.is_ok(), "{csv}");
        let (cut, named) = (with_blocks_of(90), with_blocks_of(90));
        assert_eq!(
            (cut.load_csv_from("t", slow(csv.as_bytes())), rows_of(&cut)),
            expected,
            "{csv}"
        );
        let loaded = named.load_csv_columns("t", &["id", "s"], csv.as_bytes());
        assert_eq!((loaded, rows_of(&named)), expected, "{csv}");
    }
}

#[test]
fn columns_are_named_in_any_order() {
    let db = open();
    db.execute("table u (k text)", []).unwrap();
    db.execute("table t (id int, s text, u ref u null)", []).unwrap();
    db.load("u", [["k"]]).unwrap();
    let named = ["u", "id", "s"];
    let rows = [(Some("k"), 1, "a,b"), (None, 2, "")];
    assert_eq!(db.load_columns("t", &named, rows), Ok(2));
    let csv = "\u{feff}u,\"id\",s\nk,3,\"a,\"\"b\"\n,4,\n\"k\",5,\"left open\n";
    assert_eq!(db.load_csv_columns("t", &named, csv.as_bytes()), Ok(3));
    let row = |id: i64, text: &str, key: Option<&str>| vec![id.into(), text.into(), key.into()];
    let all = [
        row(1, "a,b", Some("k")),
        row(2, "", None),
        row(3, "a,\"b", Some("k")),
        row(4, "", None),
        row(5, "left open\n", Some("k")),
    ];
    assert_eq!(rows_of(&db), all);
    for names in [
        &["id", "s"][..],
        &["id", "s", "s"],
        &["id", "s", "v"],
        &["id,s,u"],
        &[],
        &[""],
        &["id,s", "u"],
    ] {
        assert_eq!(number(db.load_columns("t", names, [[6]])), Some(61), "{names:?}");
        assert_eq!(
            number(db.load_csv_columns("t", names, &b"id,s,u\n"[..])),
            Some(61),
            "{names:?}"
        );
    }
    for csv in ["id,s,u\n6,a,k\n", "u,id\nk,6\n", "", "u,id,s,\n", "\"u,id,s\"\n"] {
        assert_eq!(
            number(db.load_csv_columns("t", &named, csv.as_bytes())),
            Some(61),
            "{csv}"
        );
    }
    let why = db.load_csv_columns("t", &named, &b"id,s,u\n"[..]).unwrap_err();
    assert_eq!(
        why.reason(),
        Some("the names are u,id,s, and the first record is id,s,u")
    );
    for record in ["k,6", "k,6,a,b", "k,a,6"] {
        let csv = format!("u,id,s\n{record}\n");
        assert_eq!(
            number(db.load_csv_columns("t", &named, csv.as_bytes())),
            Some(62),
            "{csv}"
        );
    }
    assert_eq!(number(db.load_columns("none", &named, [[6]])), Some(30));
    assert_eq!(number(db.load_csv_columns("none", &named, &b"u\n"[..])), Some(30));
    assert_eq!(number(db.load_csv_from("none", &b"u\n"[..])), Some(30));
    assert_eq!(rows_of(&db), all);
}

/// A file of more than a block under the widest limits.
#[test]
fn more_than_the_longest_block() {
    let db = open();
    db.execute("table t (id int, s text)", []).unwrap();
    let text = "x".repeat(1_000);
    let rows = 20_000;
    let mut csv = "id,s\n".to_string();
    (0..rows).for_each(|id| csv += &format!("{id},{text}\n"));
    assert!(csv.len() > mmdb::MOST as usize);
    assert_eq!(
        number(db.load_csv_from("t", (csv.clone() + "7,a\n").as_bytes())),
        Some(41)
    );
    assert_eq!(db.dump("t").unwrap().len(), 0);
    assert_eq!(db.load_csv("t", csv), Ok(rows));
    assert_eq!(db.load("t", (rows..2 * rows).map(|id| (id, &text))), Ok(rows));
    assert_eq!(db.dump("t").unwrap().len(), 2 * rows);
}
