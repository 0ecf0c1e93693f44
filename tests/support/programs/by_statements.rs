//! Makes the calls of standard input, as by_statements.c reads them, and writes their answers. A statement that is kept goes by
//! its line, and one that is prepared by `prepare`; their answers are put together from their rows. A select is read by pages as well.

use std::io::{self, Read, Write};

use mmdb::{Database, Error, Limits, Outcome, Policy, Row, RowsIter, Value, ValueRef};

const POLICIES: [Policy; 5] = [Policy::Auto, Policy::Scan, Policy::Hash, Policy::Tree, Policy::Merge];

/// A call: its name, and its parts.
struct Call<'i> {
    name: &'i str,
    parts: Vec<&'i [u8]>,
}

/// Reads the calls, one after the other.
struct Calls<'i>(&'i [u8]);

impl<'i> Calls<'i> {
    fn take(&mut self, length: usize) -> &'i [u8] {
        let (taken, rest) = self.0.split_at(length);
        self.0 = rest;
        taken
    }
}

impl<'i> Iterator for Calls<'i> {
    type Item = Call<'i>;

    fn next(&mut self) -> Option<Call<'i>> {
        let end = self.0.iter().position(|byte| *byte == b'\n')?;
        let mut words = text(self.take(end)).split(' ');
        let name = words.next()?;
        self.take(1);
        let parts = words
            .map(|length| self.take(length.parse().expect("a length")))
            .collect();
        Some(Call { name, parts })
    }
}

/// A statement as it is told: its line, and the values of its places.
#[derive(Default)]
struct Told<'i> {
    is_kept: bool,
    line: &'i str,
    values: Vec<Value>,
}

fn text(bytes: &[u8]) -> &str {
    std::str::from_utf8(bytes).expect("UTF-8")
}

fn open(policy: Policy) -> Database {
    Database::open(policy, Limits::default()).expect("memory is there")
}

fn push_field(answer: &mut String, value: ValueRef<'_>, is_alone: bool) {
    match value {
        ValueRef::Integer(integer) => answer.push_str(&integer.to_string()),
        ValueRef::Text(text) if text.contains([',', '"', '\r', '\n']) => {
            answer.push_str(&format!("\"{}\"", text.replace('"', "\"\"")));
        }
        ValueRef::Text(text) if !text.is_empty() => answer.push_str(text),
        _ if is_alone => answer.push_str("\"\""),
        _ => {}
    }
}

/// The answer that these rows would be.
fn answer_of_rows(names: &[String], rows: RowsIter<'_>) -> String {
    let mut answer = format!("rows {}\n{}\n", rows.len(), names.join(","));
    for row in rows {
        for (column, value) in row.values().enumerate() {
            answer.push_str(if column > 0 { "," } else { "" });
            push_field(&mut answer, value, names.len() == 1);
        }
        answer.push('\n');
    }
    answer
}

/// A select has the same rows if it is read by pages of some.
fn check_pages(db: &Database, told: &Told<'_>, rows: &[Vec<Value>]) -> Result<(), Error> {
    let values = |row: &Row<'_>| Ok(row.values().map(Value::from).collect());
    let pages = db.query_pages(1 + rows.len() / 3, told.line, &told.values, values)?;
    assert_eq!(pages.collect::<Result<Vec<Vec<Value>>, _>>()?, rows, "{}", told.line);
    Ok(())
}

/// The answer to a statement by a call of the database, which keeps it by its line.
fn kept(db: &Database, told: &Told<'_>) -> Result<String, Error> {
    Ok(match db.command(told.line, &told.values)? {
        Outcome::Rows(rows) => {
            check_pages(db, told, &rows.to_vec())?;
            answer_of_rows(rows.column_names(), rows.iter())
        }
        Outcome::Count(count) => format!("ok {count}\n"),
        other => panic!("{other:?} is no answer to {}", told.line),
    })
}

/// The answer to a statement that is prepared for it.
fn prepared(db: &Database, told: &Told<'_>) -> Result<String, Error> {
    let mut statement = db.prepare(told.line)?;
    match statement.execute(&told.values) {
        Err(Error::NotAChange) => {
            let rows = statement.query(&told.values)?;
            check_pages(db, told, &rows.to_vec())?;
            Ok(answer_of_rows(rows.column_names(), rows.iter()))
        }
        changed => Ok(format!("ok {}\n", changed?)),
    }
}

fn does(db: &Database, told: &Told<'_>) -> String {
    let done = if told.is_kept {
        kept(db, told)
    } else {
        prepared(db, told)
    };
    done.unwrap_or_else(|why| match (why.number(), why.text()) {
        (Some(number), Some(text)) => format!("error {number} {text}\n"),
        _ => panic!("{why}: {}", told.line),
    })
}

fn main() -> io::Result<()> {
    let mut input = Vec::new();
    io::stdin().read_to_end(&mut input)?;
    let (mut db, mut told, mut out) = (open(Policy::Auto), Told::default(), io::stdout().lock());
    for Call { name, parts } in Calls(&input) {
        match name {
            "open" => db = open(POLICIES[text(parts[0]).parse::<usize>().expect("a policy")]),
            "command" => out.write_all(db.answer(parts[0]).expect("an answer"))?,
            "load" => out.write_all(db.answer_to_load(parts[0], parts[1]).expect("an answer"))?,
            "kept" | "prepared" => {
                told = Told {
                    is_kept: name == "kept",
                    line: text(parts[0]),
                    values: Vec::new(),
                }
            }
            "null" => told.values.push(Value::Null),
            "integer" => told
                .values
                .push(Value::Integer(text(parts[0]).parse().expect("an integer"))),
            "text" => told.values.push(text(parts[0]).into()),
            "execute" => out.write_all(does(&db, &told).as_bytes())?,
            other => panic!("{other} is no call"),
        }
    }
    Ok(())
}
