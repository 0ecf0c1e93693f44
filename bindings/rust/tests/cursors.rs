//! Joins and distinct selects, which are read page by page by a cursor.

mod common;

use common::{number, selected, with_table};
use mmdb::{Database, Error, Result, Row, Value};

/// More than the rows of the largest page.
const MANY: i64 = 12_000;
const LINES: [&str; 5] = [
    "select distinct s from t where id >= ?",
    "select distinct n, s from t where id >= ?",
    "select * from u join t on u.t = t.id where u.id >= ?",
    "select t.s, u.id from t join u on u.t = t.id where t.id >= ? and t.n <> 3",
    "select distinct t.s, t.n, v.id from u join t on u.t = t.id join v on v.n = t.n where u.id >= ?",
];
const DISTINCT: &str = "select distinct n from t where id >= ?";

/// Tables of which the select `DISTINCT` gives five rows, and a key that another refers to.
fn filled(rows: i64) -> Database {
    let db = with_table();
    db.execute("drop table t", []).unwrap();
    db.execute("table t (id int, s text, n int)", []).unwrap();
    db.execute("table u (id int, t ref t null)", []).unwrap();
    db.execute("table v (id int, n int)", []).unwrap();
    let text = |id: i64| "'é\n".repeat(id as usize % 11) + &(id / 3).to_string();
    db.load("t", (0..rows).map(|id| (id, text(id), id % 5))).unwrap();
    let target = |id: i64| (id % 9 > 0).then(|| id * 7 % rows);
    db.load("u", (0..rows).map(|id| (id, target(id)))).unwrap();
    db.load("v", (0..3).map(|id| (id, id))).unwrap();
    db
}

fn values(row: &Row<'_>) -> Result<Vec<Value>> {
    Ok(row.values().map(Value::from).collect())
}

fn change(db: &Database) -> Result<usize> {
    db.execute("update t set s = 'other' where id = 1", [])
}

/// Pages of so many have the rows of a select, of a database, a reader and a statement. Returns how many rows these are.
fn check_pages(db: &mut Database, line: &str, param: i64, most: usize) -> usize {
    let rows = selected(db, line, [param]);
    let read: Result<Vec<_>> = db.query_pages(most, line, [param], values).unwrap().collect();
    assert!(read.unwrap() == rows, "{line}, {most}");
    let readers = db.readers();
    let reader = readers.reader().unwrap();
    let read: Result<Vec<_>> = reader.query_pages(most, line, [param], values).unwrap().collect();
    assert!(read.unwrap() == rows, "{line}, {most}");
    let mut select = reader.prepare(line).unwrap();
    let read: Result<Vec<_>> = select.query_pages(most, [param], values).unwrap().collect();
    assert!(read.unwrap() == rows, "{line}, {most}");
    rows.len()
}

#[test]
fn pages_of_each_size() {
    let mut db = filled(MANY);
    for line in LINES {
        for most in [1, 3, 10_000] {
            assert!(check_pages(&mut db, line, MANY - 40, most) < 10_000);
        }
    }
    for line in &LINES[1..3] {
        assert!(check_pages(&mut db, line, 0, 10_000) > 10_000);
    }
    assert_eq!(change(&db), Ok(1));
}

type Change = fn(&Database) -> Result<usize>;

const CHANGES: [Change; 13] = [
    |db| db.execute("insert t (100, 'more', 1)", []),
    |db| db.execute("insert t (?, ?, ?)", (100, "more", 1)),
    |db| db.execute("delete u where id = ?", [1]),
    |db| db.load("t", [(100, "more", 1)]),
    |db| db.load_csv("v", "id,n\n100,1\n"),
    |db| db.prepare("update t set s = ? where id = 1")?.execute(["other"]),
    |db| db.prepare("insert v (?, ?)")?.execute_many([(100, 1)]),
    |db| db.command("update t set n = 7 where id = 1", []).map(|_| 1),
    |db| db.execute("table w (id int)", []).map(|_| 1),
    |db| db.execute("drop table v", []).map(|_| 1),
    |db| db.execute("index t s hash", []).map(|_| 1),
    |db| db.begin().map(|()| 1),
    change,
];

/// What reads goes on meanwhile, and so do other pages.
fn check_reads(db: &Database) {
    assert_eq!(db.count("select * from t where n = ?", [1]), Ok(4));
    assert_eq!(db.first(2, "select id from t", []).unwrap().len(), 2);
    assert_eq!(db.dump("u").unwrap().len(), 20);
    assert_eq!(
        db.query_row("select n from t where id = 7", [], |row| row.get(0)),
        Ok(2)
    );
    assert_eq!(db.plan("select s from t where id = ?", [1]).unwrap().len(), 2);
    assert!(db.save(&mut Vec::new()).is_ok());
    assert_eq!(change(&db.try_clone().unwrap()), Ok(1));
    assert_eq!(number(db.execute("delete none", [])), Some(30));
    for line in ["select id from t where id >= ?", LINES[1]] {
        let read: Result<Vec<_>> = db.query_pages(3, line, [0], values).unwrap().collect();
        assert_eq!(read.unwrap().len(), 20);
    }
}

#[test]
fn nothing_is_changed_while_one_is_open() {
    for what in CHANGES {
        let db = filled(20);
        let (rows, version) = (selected(&db, DISTINCT, [0]), db.version().unwrap());
        let mut pages = db.query_pages(2, DISTINCT, [0], values).unwrap();
        for row in &rows[..4] {
            assert_eq!(what(&db), Err(Error::Shared));
            assert_eq!(pages.next(), Some(Ok(row.clone())));
            check_reads(&db);
        }
        assert_eq!(
            (what(&db), db.version(), db.transactions()),
            (Err(Error::Shared), Ok(version), 0)
        );
        drop(pages);
        assert_eq!(what(&db), Ok(1));
    }
}

/// By pages of so many rows, how many of the five have been given when the last change is refused.
#[test]
fn until_the_last_page_is_read() {
    for (most, refused) in [(1, 5), (2, 4), (3, 3), (4, 4), (5, 5)] {
        let db = filled(20);
        let rows = selected(&db, DISTINCT, [0]);
        let mut pages = db.query_pages(most, DISTINCT, [0], values).unwrap();
        for given in 0..=5 {
            match given <= refused {
                true => assert_eq!(change(&db), Err(Error::Shared), "{most}, {given}"),
                false => assert_eq!(db.execute("update t set n = ?", [given]), Ok(20), "{most}, {given}"),
            }
            assert_eq!(pages.next(), rows.get(given).cloned().map(Ok), "{most}, {given}");
        }
        assert_eq!((change(&db), pages.next()), (Ok(1), None));
    }
    let db = filled(20);
    for most in [6, 10_000, usize::MAX] {
        let pages = db.query_pages(most, DISTINCT, [0], values).unwrap();
        assert_eq!((change(&db), pages.count()), (Ok(1), 5));
    }
    let none = db.query_pages(1, DISTINCT, [20], values).unwrap();
    assert_eq!((change(&db), none.count()), (Ok(1), 0));
}

#[test]
fn several_at_once() {
    let db = filled(20);
    let rows: Vec<_> = LINES.iter().map(|line| selected(&db, line, [0])).collect();
    let mut open: Vec<_> = LINES
        .iter()
        .map(|line| db.query_pages(1, line, [0], values).unwrap())
        .collect();
    for at in 0..3 {
        for (pages, rows) in open.iter_mut().zip(&rows) {
            assert_eq!(pages.next(), Some(Ok(rows[at].clone())));
        }
    }
    while let Some(pages) = open.pop() {
        assert_eq!(change(&db), Err(Error::Shared));
        let left: Result<Vec<_>> = pages.collect();
        assert_eq!(left.unwrap(), rows[open.len()][3..]);
    }
    assert_eq!(change(&db), Ok(1));
}

/// What is forgotten is never dropped, and so the tables stay as they are.
#[test]
fn one_that_is_forgotten() {
    let db = filled(20);
    std::mem::forget(db.query_pages(1, DISTINCT, [0], values).unwrap());
    assert_eq!(change(&db), Err(Error::Shared));
    assert_eq!(db.query_pages(1, DISTINCT, [0], values).unwrap().count(), 5);
    assert_eq!(change(&db.try_clone().unwrap()), Ok(1));
    assert_eq!(change(&db), Err(Error::Shared));
    assert_eq!(
        Error::Shared.to_string(),
        "readers share the tables, or a select of them is read page by page"
    );
}

/// The rows are those of the transaction, which goes on and ends while they are read.
#[test]
fn in_a_transaction_they_are_read_whole() {
    let db = filled(20);
    db.begin().unwrap();
    assert_eq!(db.execute("update t set n = 77 where n = 3", []), Ok(4));
    for line in LINES {
        let rows = selected(&db, line, [0]);
        let read = db.query_pages(2, line, [0], |row| change(&db).and_then(|_| values(row)));
        assert_eq!(read.unwrap().collect::<Result<Vec<_>>>().unwrap(), rows);
    }
    let mut pages = db.query_pages(1, DISTINCT, [0], values).unwrap();
    assert_eq!(pages.next(), Some(Ok(vec![0.into()])));
    db.begin().unwrap();
    assert_eq!(db.execute("update t set n = 0", []), Ok(20));
    assert_eq!(pages.next(), Some(Ok(vec![1.into()])));
    db.rollback().unwrap();
    db.commit().unwrap();
    assert_eq!(pages.last(), Some(Ok(vec![77.into()])));
    assert_eq!(db.count(DISTINCT, [0]), Ok(5));
}

/// What a function says of a row is given for it, and the next row comes.
#[test]
fn functions_that_fail_and_read() {
    let db = filled(20);
    let refused = db.query_pages(2, DISTINCT, [0], |_| change(&db)).unwrap();
    assert_eq!(refused.filter(|changed| *changed == Err(Error::Shared)).count(), 4);
    let texts = db.query_pages(2, DISTINCT, [0], |row| row.get::<_, String>("t.n"));
    assert_eq!(
        texts
            .unwrap()
            .filter(|text| matches!(text, Err(Error::Unread { .. })))
            .count(),
        5
    );
    let sums = db.query_pages(2, DISTINCT, [0], |row| {
        let inner = db.query_pages(1, DISTINCT, [row.get::<_, i64>(0)? + 15], |row| row.get::<_, i64>(0))?;
        inner.sum::<Result<i64>>()
    });
    assert_eq!(sums.unwrap().collect::<Result<Vec<_>>>(), Ok(vec![10, 10, 9, 7, 4]));
}

/// An iterator goes on when its statement is executed again or dropped, and when its line isn't kept any more.
#[test]
fn statements_that_go() {
    let db = filled(20);
    let rows = selected(&db, LINES[2], [3]);
    let mut select = db.prepare(LINES[2]).unwrap();
    let mut pages = select.query_pages(2, [3], values).unwrap();
    assert_eq!(pages.next(), Some(Ok(rows[0].clone())));
    assert_eq!((select.query([18]).unwrap().len(), select.count([20])), (1, Ok(0)));
    assert_eq!(db.query(LINES[2], [19]).unwrap().len(), 1);
    drop(select);
    assert_eq!(pages.next(), Some(Ok(rows[1].clone())));
    for number in 0..600 {
        db.query(&format!("select n from t where id = ? and n <> {number}"), [1])
            .unwrap();
    }
    assert_eq!(pages.collect::<Result<Vec<_>>>().unwrap(), rows[2..]);
    assert_eq!(change(&db), Ok(1));
}

/// Where the call is refused none is left open.
#[test]
fn refused_calls() {
    let db = filled(20);
    for line in [
        "select distinct none from t where id >= ?",
        "select * from u join t on u.t = t.s where u.id >= ?",
        "select distinct n from t where s = ?",
    ] {
        let why = db.query_pages(1, line, [0], values).unwrap_err();
        assert_eq!(why, db.query(line, [0]).unwrap_err(), "{line}");
        let mut named = line.replace('?', ":least");
        named.push(' ');
        let given = mmdb::named_params! { ":least": 0 };
        let why = db.query_pages(1, &named, given, values).unwrap_err();
        assert_eq!(why, db.query(&named, given).unwrap_err(), "{named}");
        assert_eq!((why.written(), change(&db)), (Some(&*named), Ok(1)));
    }
    let lacking = db.query_pages(1, DISTINCT, [], values).unwrap_err();
    assert!(matches!(
        lacking,
        Error::Places {
            places: 1,
            parameters: 0
        }
    ));
    assert_eq!(change(&db), Ok(1));
}

#[test]
fn what_is_left_of_a_page_is_shown() {
    let db = filled(20);
    let mut pages = db
        .query_pages(3, "select distinct t.n, u.id from u join t on u.t = t.id", [], values)
        .unwrap();
    assert!(pages.next().is_some());
    assert_eq!(
        format!("{pages:?}")
            .matches(r#"{"t.n": Integer(0), "u.id": Integer("#)
            .count(),
        2
    );
    assert_eq!(pages.by_ref().count(), 16);
    assert_eq!(format!("{pages:?}"), "[]");
}
