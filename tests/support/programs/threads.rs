//! Threads with a database each, at the same time: the words are how many, and how many rows each has. Each has its own tables
//! and is given its own answers. Then each gives its database to the next thread, which asks it once more.

use mmdb::{params, Database, Limits, Policy, Result};
use std::thread;

const POLICIES: [Policy; 5] = [Policy::Auto, Policy::Scan, Policy::Hash, Policy::Tree, Policy::Merge];

fn text(row: i64, number: usize) -> String {
    format!("row {row} of {number}")
}

/// Inserts a row, which is refused again, and finds it by a statement and by a line.
fn put(db: &mut Database, row: i64, number: usize) -> Result<()> {
    assert_eq!(db.execute("insert t (?, ?)", params![row, text(row, number)])?, 1);
    let again = db.execute("insert t (?, ?)", params![row, text(row, number)]);
    assert_eq!(again.unwrap_err().number(), Some(41));
    let found: i64 = db.query_row("select id from t where s = ?", [text(row, number)], |row| row.get(0))?;
    assert_eq!(found, row);
    let line = format!("select s from t where id = {row}");
    assert_eq!(
        db.answer(line.as_bytes())?,
        format!("rows 1\nt.s\n{}\n", text(row, number)).as_bytes()
    );
    Ok(())
}

fn work(number: usize, rows: i64) -> Result<Database> {
    let mut db = Database::open(POLICIES[number % POLICIES.len()], Limits::default())?;
    db.execute("table t (id int, s text)", [])?;
    db.execute("index t s hash", [])?;
    for row in 0..rows {
        put(&mut db, row, number)?;
    }
    let kept = number as i64 % rows;
    assert_eq!(db.execute("delete t where id >= ?", [kept])? as i64, rows - kept);
    Ok(db)
}

/// What a database has is asked by a thread that didn't make it.
fn ask(mut db: Database, number: usize, rows: i64) -> Result<()> {
    let listed: Vec<String> = db
        .query_map("select s from t", [], |row| row.get(0))?
        .collect::<Result<_>>()?;
    let expected: Vec<String> = (0..number as i64 % rows).map(|row| text(row, number)).collect();
    assert_eq!(listed, expected);
    Ok(())
}

fn main() {
    let words: Vec<usize> = std::env::args().skip(1).map(|word| word.parse().unwrap()).collect();
    let (threads, rows) = (words[0], words[1] as i64);
    let made: Vec<_> = (0..threads)
        .map(|number| thread::spawn(move || work(number, rows)))
        .collect();
    let databases: Vec<Database> = made.into_iter().map(|thread| thread.join().unwrap().unwrap()).collect();
    let asked: Vec<_> = databases
        .into_iter()
        .enumerate()
        .map(|(number, db)| thread::spawn(move || ask(db, number, rows)))
        .collect();
    for thread in asked {
        thread.join().unwrap().unwrap();
    }
}
