//! Deletes and updates in a transaction: each is undone by a rollback, and none by a commit.

mod common;

use common::draw::Draw;
use common::{number, open, row, selected, with_rows};
use mmdb::{Database, Outcome, Value};

const ALL: &str = "select * from t";
const LONG: &str = "a text that no cell holds";

#[test]
fn each_way_to_change_rows_is_undone() {
    let ways: [fn(&mut Database); 12] = [
        |db| assert_eq!(db.execute("delete t", []), Ok(2)),
        |db| assert_eq!(db.execute("delete t where id = ?", [2]), Ok(1)),
        |db| assert_eq!(db.execute("delete t where s = ?", ["b"]), Ok(1)),
        |db| assert_eq!(db.prepare("delete t where id < ?").unwrap().execute([3]), Ok(2)),
        |db| assert_eq!(db.command("delete t where s = 'a'", []), Ok(Outcome::Count(1))),
        |db| assert_eq!(db.answer(b"delete t"), Ok(&b"ok 2\n"[..])),
        |db| assert_eq!(db.execute("update t set s = ''", []), Ok(2)),
        |db| assert_eq!(db.execute("update t set s = ? where id = ?", (LONG, 1)), Ok(1)),
        |db| assert_eq!(db.execute("update t set s = ? where s = ?", ("two\nlines", "b")), Ok(1)),
        |db| assert_eq!(db.prepare("update t set s = ?").unwrap().execute([LONG]), Ok(2)),
        |db| assert_eq!(db.command("update t set s = 'c'", []), Ok(Outcome::Count(2))),
        |db| assert_eq!(db.answer(b"update t set s = 'c'"), Ok(&b"ok 2\n"[..])),
    ];
    let before = [row(1, "a"), row(2, "b")];
    for way in ways {
        let mut db = with_rows();
        let mut tx = db.transaction().unwrap();
        way(&mut tx);
        assert_ne!(selected(&tx, ALL, []), before);
        drop(tx);
        assert_eq!(selected(&db, ALL, []), before);
        let mut tx = db.transaction().unwrap();
        way(&mut tx);
        let changed = selected(&tx, ALL, []);
        tx.commit().unwrap();
        assert_eq!(selected(&db, ALL, []), changed);
    }
}

#[test]
fn what_is_refused_changes_nothing() {
    let mut db = with_rows();
    let mut tx = db.transaction().unwrap();
    tx.execute("update t set s = 'c' where id = 2", []).unwrap();
    assert_eq!(number(tx.execute("update t set nothing = ?", ["d"])), Some(32));
    assert_eq!(number(tx.execute("update t set s = ?", [1])), Some(35));
    assert_eq!(number(tx.execute("update t set id = ?", [1])), Some(36));
    assert_eq!(tx.answer(b"update t st s = 'd'"), Ok(&b"error 20 not a command\n"[..]));
    assert_eq!(selected(&tx, ALL, []), [row(1, "a"), row(2, "c")]);
    tx.commit().unwrap();
    assert_eq!(selected(&db, ALL, []), [row(1, "a"), row(2, "c")]);
}

#[test]
fn a_savepoint_leaves_what_was_changed_before_it() {
    let mut db = with_rows();
    let mut tx = db.transaction().unwrap();
    tx.execute("delete t where id = 1", []).unwrap();
    tx.execute("update t set s = ?", [LONG]).unwrap();
    let savepoint = tx.savepoint().unwrap();
    savepoint.execute("insert t (1, 'd')", []).unwrap();
    savepoint.execute("update t set s = 'e'", []).unwrap();
    savepoint.execute("update t set s = 'f' where id = 2", []).unwrap();
    savepoint.execute("delete t where s = 'f'", []).unwrap();
    savepoint.execute("delete t", []).unwrap();
    savepoint.rollback().unwrap();
    assert_eq!(selected(&tx, ALL, []), [row(2, LONG)]);
    tx.execute("insert t (1, 'c')", []).unwrap();
    tx.commit().unwrap();
    assert_eq!(selected(&db, ALL, []), [row(1, "c"), row(2, LONG)]);
}

#[test]
fn references_hold_in_one() {
    let mut db = open();
    db.execute("table u (k int)", []).unwrap();
    db.execute("table t (id int, u ref u null)", []).unwrap();
    db.load("u", [[1], [2]]).unwrap();
    db.load("t", [(1, Some(1)), (2, None)]).unwrap();
    let tx = db.transaction().unwrap();
    assert_eq!(number(tx.execute("delete u where k = 1", [])), Some(44));
    assert_eq!(tx.execute("delete t where id = 1", []), Ok(1));
    assert_eq!(tx.execute("delete u where k = 1", []), Ok(1));
    assert_eq!(number(tx.execute("insert t (3, 1)", [])), Some(42));
    assert_eq!(number(tx.execute("update t set u = ?", [1])), Some(42));
    assert_eq!(tx.execute("update t set u = ?", [2]), Ok(1));
    assert_eq!(number(tx.execute("delete u where k = 2", [])), Some(44));
    drop(tx);
    let tx = db.transaction().unwrap();
    assert_eq!(tx.execute("update t set u = null", []), Ok(2));
    assert_eq!(tx.execute("delete u where k = 1", []), Ok(1));
    drop(tx);
    assert_eq!(number(db.execute("delete u where k = 1", [])), Some(44));
    assert_eq!(db.execute("delete u where k = 2", []), Ok(1));
    assert_eq!(selected(&db, "select id from t where u = 1", []), [[Value::from(1)]]);
}

fn key(draw: &mut Draw) -> i64 {
    draw.of(&[0, 1, 2, 3, 4, 5, 6, 7, 8, 9, 10, 11])
}

/// Does something, which may be refused.
fn change(db: &Database, draw: &mut Draw) {
    let (id, text) = (key(draw), draw.of(&["a", "b", LONG]));
    let changed = match draw.of(&[0, 0, 0, 1, 2, 3, 4, 5, 6, 7]) {
        0 => db.execute("insert t (?, ?, ?)", (id, text, id % 3)),
        1 => db.execute("delete t where id = ?", [id]),
        2 => db.execute("delete t where s = ? and id > ?", (text, id)),
        3 => db.execute("delete t where n = ?", [id % 3]),
        4 => db.execute("update t set s = ?, n = ? where id >= ?", (text, id, id)),
        5 => db.execute("update t set n = ? where s = ?", (id, text)),
        6 => db.execute("update t set s = ? where n = ?", (text, id % 3)),
        _ => db.load("t", (0..3).map(|more| (20 + id + more, text, id))),
    };
    assert!(changed.map_or_else(|why| why.number().is_some(), |_| true));
}

/// What is found by each index, and by none.
fn found(db: &Database) -> Vec<Vec<Vec<Value>>> {
    let mut found = vec![selected(db, ALL, [])];
    for text in ["a", "b", LONG] {
        found.push(selected(db, "select * from t where s = ?", [text]));
    }
    for n in 0..12 {
        found.push(selected(db, "select * from t where n = ?", [n]));
    }
    found
}

/// Inserts, updates and deletes in transactions, one in the other. Each rollback puts back what there was at its begin, under each index.
#[test]
fn changes_at_random() {
    let db = open();
    db.execute("table t (id int, s text, n int)", []).unwrap();
    db.execute("index t s hash", []).unwrap();
    db.execute("index t n tree", []).unwrap();
    let (mut draw, mut begun) = (Draw(1986), Vec::new());
    for _ in 0..3_000 {
        match draw.of(&[0, 1, 2, 3, 3, 3, 3, 3, 3]) {
            0 if begun.len() < 4 => {
                begun.push(found(&db));
                db.begin().unwrap();
            }
            1 if !begun.is_empty() => {
                db.rollback().unwrap();
                assert_eq!(Some(found(&db)), begun.pop());
            }
            2 if !begun.is_empty() => {
                let before = found(&db);
                db.commit().unwrap();
                begun.pop();
                assert_eq!(found(&db), before);
            }
            _ => change(&db, &mut draw),
        }
        assert_eq!(db.transactions(), begun.len());
    }
}
