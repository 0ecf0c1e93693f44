//! What the tests share.
#![allow(dead_code)]

pub mod draw;

use std::io::{self, Read};

use mmdb::{Database, Error, Params, Value};

pub fn open() -> Database {
    Database::open_in_memory().expect("memory is there")
}

/// A database with an empty table `t (id int, s text)`.
pub fn with_table() -> Database {
    let db = open();
    db.execute("table t (id int, s text)", []).expect("a table");
    db
}

/// A database with a table `t (id int, s text)` of the rows 1, `a` and 2, `b`.
pub fn with_rows() -> Database {
    let db = with_table();
    db.load("t", [(1, "a"), (2, "b")]).expect("two rows");
    db
}

pub fn row(id: i64, text: &str) -> Vec<Value> {
    vec![id.into(), text.into()]
}

pub fn selected(db: &Database, line: &str, params: impl Params) -> Vec<Vec<Value>> {
    db.query(line, params).expect("a select").to_vec()
}

pub fn number<T: std::fmt::Debug>(answered: Result<T, Error>) -> Option<u32> {
    answered.expect_err("it is refused").number()
}

/// Bytes that are read one by one.
pub struct OneByOne<'b>(pub &'b [u8]);

impl Read for OneByOne<'_> {
    fn read(&mut self, room: &mut [u8]) -> io::Result<usize> {
        let most = room.len().min(1);
        self.0.read(&mut room[..most])
    }
}
