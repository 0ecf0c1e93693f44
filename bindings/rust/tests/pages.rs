//! Selects that are read page by page.

mod common;

use common::draw::Draw;
use common::{number, row, selected, with_rows, with_table};
use mmdb::{named_params, Database, Error, MappedPages, Params, Row, Value};

const ROWS: i64 = 300;

/// Selects that are read by keys, each with one parameter.
const BY_KEY: [&str; 8] = [
    "select * from t where id > ?",
    "select*from t where id>?",
    "select s from t where id >= ? and id < 250",
    "select s,n from t where n<>?and s<>'x and y' and s<>''''",
    "\tselect n ,  t . id\t, s from  t\twhere id<> ? \r",
    "select n from t where n = ?",
    "select t.s from t where s <> 'from u join t where distinct ? :a ' and n < ?",
    "select * from t where t.n > ?",
];
/// And others, which are read by a cursor.
const BY_CURSOR: [&str; 4] = [
    "select distinct s from t where id > ?",
    "select\tdistinct n, id from t where id > ?",
    "select u.id, t.s from u join t on u.t = t.id where u.id > ?",
    "select t.id from t join u on u.t = t.id where t.id > ?",
];

fn filled() -> Database {
    let db = with_table();
    db.execute("drop table t", []).unwrap();
    db.execute("table t (id int, s text, n int)", []).unwrap();
    db.execute("table u (id int, t ref t null)", []).unwrap();
    db.execute("index t n tree", []).unwrap();
    db.execute("index t s hash", []).unwrap();
    let text = |id: i64| format!("text {}{}", id % 7, "'-".repeat(id as usize % 3));
    db.load("t", (0..ROWS).map(|id| (id, text(id), (ROWS - id) % 50)))
        .unwrap();
    let target = |id: i64| (id % 5 > 0).then(|| id * 3 % ROWS);
    db.load("u", (0..ROWS).map(|id| (id, target(id)))).unwrap();
    db
}

fn values(row: &Row<'_>) -> Result<Vec<Value>, Error> {
    Ok(row.values().map(Value::from).collect())
}

fn all<P: Params>(db: &Database, most: usize, line: &str, params: P) -> Vec<Vec<Value>> {
    let rows = db.query_pages(most, line, params, values).expect(line);
    rows.collect::<Result<_, _>>().expect(line)
}

#[test]
fn they_are_all_rows() {
    let (mut db, mut draw) = (filled(), Draw(2026));
    let params: Vec<i64> = vec![-1, 0, 5, ROWS / 2, ROWS - 2, ROWS];
    for line in BY_KEY.iter().chain(&BY_CURSOR) {
        for most in [0, 1, 2, 3, 7, ROWS as usize - 1, ROWS as usize, 10_000, usize::MAX] {
            let param = draw.of(&params);
            let rows = selected(&db, line, [param]);
            assert_eq!(all(&db, most, line, [param]), rows, "{line}, {most}, {param}");
            let readers = db.readers();
            let reader = readers.reader().unwrap();
            let read = reader.query_pages(most, line, [param], values).unwrap();
            assert_eq!(
                read.collect::<Result<Vec<_>, _>>(),
                Ok(rows.clone()),
                "{line}, {most}, {param}"
            );
            let mut statement = reader.prepare(line).unwrap();
            let read = statement.query_pages(most, [param], values).unwrap();
            drop(statement);
            assert_eq!(read.collect::<Result<Vec<_>, _>>(), Ok(rows), "{line}, {most}, {param}");
        }
    }
}

#[test]
fn places_with_names() {
    let db = filled();
    let named = named_params! { ":least": 7, ":most": 60 };
    for shown in ["*", "s"] {
        let line = format!("select {shown} from t where id >= :least and id < :most and n <> :least");
        let rows = selected(&db, &line, named);
        assert_eq!((all(&db, 5, &line, named), rows.len()), (rows.clone(), 52));
        let mut statement = db.prepare(&line).unwrap();
        let read = statement.query_pages(5, named, values).unwrap();
        assert_eq!(read.collect::<Result<Vec<_>, _>>(), Ok(rows));
    }
}

/// How a select is read.
#[derive(Debug, PartialEq)]
enum Way {
    /// By the last key of each page, so that a change between two is seen.
    Keys,
    /// By a cursor, so that there is no change.
    Cursor,
    Whole,
}

/// How a select of two rows or more is read, by pages of one row.
fn way_of<F>(db: &Database, mut pages: MappedPages<'_, F>) -> Way
where
    F: FnMut(&Row<'_>) -> Result<Vec<Value>, Error>,
{
    pages.next().expect("a row").expect("a row that is read");
    let changed = db.execute("update t set s = 'other' where id = 0", []);
    let next = pages.next().expect("another one, or why there is none");
    match (changed, next) {
        (Ok(1), Ok(_)) => Way::Whole,
        (Err(Error::Shared), Ok(_)) => Way::Cursor,
        (Ok(1), Err(Error::Changed { table, .. })) => {
            assert_eq!((table.as_str(), pages.next().is_none()), ("t", true));
            Way::Keys
        }
        other => panic!("{other:?}"),
    }
}

#[test]
fn what_is_read_by_pages() {
    let db = filled();
    let check = |lines: &[&str], way| {
        for line in lines {
            let pages = db.query_pages(1, line, [5], values).unwrap();
            assert_eq!(way_of(&db, pages), way, "{line}");
            let pages = db.prepare(line).unwrap().query_pages(1, [5], values).unwrap();
            assert_eq!(way_of(&db, pages), way, "{line}");
        }
    };
    check(&BY_KEY, Way::Keys);
    check(&BY_CURSOR, Way::Cursor);
    db.begin().unwrap();
    check(&BY_KEY, Way::Keys);
    check(&BY_CURSOR, Way::Whole);
    db.rollback().unwrap();
    check(&BY_CURSOR, Way::Cursor);
}

#[test]
fn as_many_items_and_conditions_as_may_be() {
    let db = filled();
    let names: Vec<String> = (0..16).map(|number| format!("c{number}")).collect();
    let columns: Vec<String> = names.iter().map(|name| format!("{name} int")).collect();
    db.execute(&format!("table w ({})", columns.join(", ")), []).unwrap();
    let row = |id: i64| (id..id + 16).collect::<Vec<i64>>();
    db.load("w", (0..5).map(row)).unwrap();
    let conditions = (0..7)
        .map(|number| format!("c{number} >= 0"))
        .collect::<Vec<_>>()
        .join(" and ");
    let backwards: Vec<String> = names.iter().rev().cloned().collect();
    for line in [
        "select * from w".to_string(),
        format!("select {} from w", names.join(", ")),
        format!("select {} from w", backwards.join(", ")),
        format!("select {} from w", names[1..].join(", ")),
        format!("select {} from w where {conditions}", names[2..].join(", ")),
        format!("select * from w where {conditions} and c15 >= 0"),
        format!("select c5 from w where {conditions} and c15 >= 0"),
    ] {
        assert_eq!(all(&db, 2, &line, []), selected(&db, &line, []), "{line}");
    }
    let long = format!("select * from w where {conditions} and c7 = 0 and c8 = 0");
    assert_eq!(number(db.query_pages(2, &long, [], values)), Some(37));
}

#[test]
fn lines_that_are_as_long_as_may_be() {
    let db = filled();
    let mut seen = Vec::new();
    for item in ["id", "n"] {
        let line = format!("select {item} from t where s <> ''");
        for length in 8165..=8192 {
            let filling = length - line.len();
            let text = format!("'{}'", "x".repeat(filling));
            for long in [format!("{line}{}", " ".repeat(filling)), line.replace("''", &text)] {
                assert_eq!(all(&db, 70, &long, []), selected(&db, &long, []), "{item}, {length}");
                let pages = db.query_pages(1, &long, [], values).unwrap();
                seen.push(way_of(&db, pages));
            }
        }
        let longer = format!("{line}{}", " ".repeat(8193 - line.len()));
        assert_eq!(number(db.query_pages(7, &longer, [], values)), Some(10));
    }
    seen.dedup();
    assert!(seen.contains(&Way::Keys) && seen.contains(&Way::Cursor) && !seen.contains(&Way::Whole));
}

#[test]
fn names_that_are_nearly_words() {
    let db = common::open();
    let names = [
        "wherever",
        "fromage",
        "_from",
        "and_",
        "distinct1",
        "selects",
        "from_",
        "Where",
    ];
    let (long, longer) = ("t".repeat(32), "k".repeat(32));
    for table in ["selects", "fromage", "distinct_", "AND", &long] {
        for key in ["id", "wherever", &longer] {
            let columns: Vec<&str> = names.iter().copied().filter(|name| *name != key).collect();
            db.execute(
                &format!("table {table} ({key} int, {} int)", columns.join(" int, ")),
                [],
            )
            .unwrap();
            db.load(table, (0..5).map(|id| vec![id; columns.len() + 1])).unwrap();
            let full = format!("{table}.{key}");
            for shown in ["*", key, &full, "distinct1, and_", "_from", "from_,fromage"] {
                let line = format!("select {shown} from {table} where and_ >= 0");
                assert_eq!(all(&db, 2, &line, []), selected(&db, &line, []), "{line}");
            }
            db.execute(&format!("drop table {table}"), []).unwrap();
        }
    }
}

#[test]
fn keys_that_are_texts() {
    let db = common::open();
    db.execute("table k (k text, n int)", []).unwrap();
    let mut draw = Draw(7);
    let mut texts: Vec<String> = (0..60)
        .map(|_| draw.text())
        .chain(["\n".to_string(), "x".repeat(1024)])
        .collect();
    texts.sort();
    texts.dedup();
    db.load("k", (0..).zip(&texts).map(|(n, text): (i64, _)| (text, n)))
        .unwrap();
    for line in ["select * from k", "select n from k", "select n from k where k <> 'a'"] {
        for most in [1, 3] {
            assert_eq!(all(&db, most, line, []), selected(&db, line, []), "{line}");
        }
    }
}

#[test]
fn refusals_come_at_the_call() {
    let db = filled();
    for line in [
        "select * from none",
        "select none from t",
        "select s, s from t",
        "select s from t where id = 'a'",
        "select s from t where id = 1 or id = 2",
        "select s from t where id > 5 'x",
        "select s from",
        "select",
        "select distinct none from t",
        "select * from t join none on t.id = none.id",
        "select * from u join t on u.t = t.s",
    ] {
        let why = db.query_pages(5, line, [], values).unwrap_err();
        assert_eq!(why, db.query(line, []).unwrap_err(), "{line}");
    }
    let line = "select s from t where n > 3 and id = :id";
    let why = db
        .query_pages(5, line, named_params! { ":id": "a" }, values)
        .unwrap_err();
    assert_eq!(why, db.query(line, named_params! { ":id": "a" }).unwrap_err());
    assert_eq!((why.number(), why.written()), (Some(35), Some(line)));
    for line in ["delete t", "tables", "# t", "", "dump t"] {
        let why = db.query_pages(5, line, [], values).unwrap_err();
        assert_eq!(why, Error::NotASelect, "{line}");
    }
    let mut delete = db.prepare("delete t").unwrap();
    assert_eq!(delete.query_pages(5, [], values).unwrap_err(), Error::NotASelect);
    let lacking = db.query_pages(5, "select s from t where id = ?", [], values);
    assert!(matches!(lacking.unwrap_err(), Error::Places { places: 1, .. }));
    let unknown = db.query_pages(5, "select s from t", named_params! { ":a": 1 }, values);
    assert!(matches!(unknown.unwrap_err(), Error::UnknownParameter { .. }));
}

type Change = fn(&Database) -> Result<usize, Error>;

/// Each change of the table is seen, and none of another.
#[test]
fn changes_between_pages() {
    let mut db = with_rows();
    db.execute("table u (id int)", []).unwrap();
    db.load("t", [(3, "c")]).unwrap();
    let changes: [Change; 6] = [
        |db| db.execute("insert t (9, 'more')", []),
        |db| db.execute("update t set s = 'd' where id = 3", []),
        |db| db.execute("delete t where id = 3", []),
        |db| db.load("t", [(8, "e")]),
        |db| {
            db.begin()?;
            db.execute("delete t", [])?;
            db.rollback().map(|()| 1)
        },
        |db| db.execute("drop table t", []),
    ];
    for change in changes {
        for line in ["select * from t", "select s from t"] {
            db.execute("drop table t", []).unwrap();
            db.execute("table t (id int, s text)", []).unwrap();
            db.load("t", [(1, "a"), (2, "b"), (3, "c")]).unwrap();
            let mut rows = db.query_pages(2, line, [], values).unwrap();
            db.execute("insert u (1)", []).unwrap();
            db.execute("delete u", []).unwrap();
            assert!(matches!(rows.next(), Some(Ok(_))));
            change(&db).unwrap();
            assert!(matches!(rows.next(), Some(Ok(_))));
            let why = rows.next().unwrap().unwrap_err();
            assert_eq!(why.to_string(), "the table t was changed between two pages of its rows");
            assert!(rows.next().is_none());
            if db.query("select * from t", []).is_err() {
                db.execute("table t (id int, s text)", []).unwrap();
            }
        }
    }
    db.execute("delete t", []).unwrap();
    let tx = db.transaction().unwrap();
    tx.load("t", [(1, "a"), (2, "b"), (3, "c")]).unwrap();
    assert_eq!(all(&tx, 2, "select s from t", []).len(), 3);
    drop(tx);
    assert_eq!(all(&db, 2, "select s from t", []).len(), 0);
}

/// What a function says of a row is given for it, and the next row comes.
#[test]
fn functions_that_fail_and_change() {
    let db = with_rows();
    let ids = db
        .query_pages(1, "select s from t", [], |row| row.get::<_, i64>("s"))
        .unwrap();
    assert_eq!(ids.filter(|id| matches!(id, Err(Error::Unread { .. }))).count(), 2);
    let mut rows = db.query_pages(1, "select id from t", [], |row| {
        db.execute("insert t (?, 'more')", [row.get::<_, i64>(0)? + 100])
    });
    let rows = rows.as_mut().unwrap();
    assert_eq!(rows.next(), Some(Ok(1)));
    assert!(matches!(rows.next(), Some(Err(Error::Changed { .. }))) && rows.next().is_none());
    assert_eq!(
        selected(&db, "select * from t where id < 100", []),
        [row(1, "a"), row(2, "b")]
    );
}

/// A row has the names and the columns that the select shows, and no key that was asked for besides.
#[test]
fn rows_have_what_is_shown() {
    let db = with_rows();
    let names = |row: &Row<'_>| Ok(row.column_names().to_vec());
    let shown = |line: &str| db.query_pages(1, line, [], names).unwrap().next().unwrap().unwrap();
    assert_eq!(shown("select s from t"), ["t.s"]);
    assert_eq!(shown("select * from t"), ["t.id", "t.s"]);
    assert_eq!(shown("select s, id from t"), ["t.s", "t.id"]);
    let hidden = db
        .query_pages(1, "select s from t", [], |row| row.get::<_, i64>("id"))
        .unwrap();
    assert!(hidden
        .into_iter()
        .all(|id| matches!(id, Err(Error::NoSuchColumn { .. }))));
    let rest = db.query_pages(5, "select s from t", [], values).unwrap();
    assert_eq!(format!("{rest:?}"), r#"[{"t.s": Text("a")}, {"t.s": Text("b")}]"#);
}
