//! The columns of tables, as a listing declares them, and how a row of values is written for a load.

use std::collections::HashMap;

use crate::error::{Error, Result};
use crate::fields::{wants_marks, Fields};
use crate::params::Values;
use crate::spelling::{push_integer, push_marked};
use crate::value::ValueRef;

/// What the values of a column are: for a reference what the keys of its table are.
#[derive(Clone, Copy, Debug, PartialEq, Eq)]
pub(crate) enum Kind {
    Integer,
    Text,
}

/// A column as it is declared.
#[derive(Clone, Debug)]
pub(crate) struct Column {
    pub(crate) name: String,
    pub(crate) kind: Kind,
    pub(crate) takes_null: bool,
}

/// The columns of each table, by the table's name.
pub(crate) type Tables = HashMap<String, Vec<Column>>;

/// The columns of each table of a listing. A table comes after those that it refers to.
pub(crate) fn tables_of(listing: &str) -> Tables {
    let mut tables = Tables::new();
    for declared in listing.lines().filter_map(|line| line.strip_prefix("table ")) {
        let (name, columns) = declared.split_once(' ').unwrap_or((declared, ""));
        let columns = columns.trim_start_matches('(').trim_end_matches(')').split(", ");
        let columns = columns.map(|column| column_of(column, &tables)).collect();
        tables.insert(name.to_string(), columns);
    }
    tables
}

fn column_of(declared: &str, before: &Tables) -> Column {
    let words: Vec<&str> = declared.split(' ').collect();
    let kind = match words.get(2) {
        Some(table) => before[*table][0].kind,
        None if words[1] == "int" => Kind::Integer,
        None => Kind::Text,
    };
    Column {
        name: words[0].to_string(),
        kind,
        takes_null: words.len() == 4,
    }
}

/// The columns of a table in the order in which the values of a row are given.
pub(crate) struct Given<'t> {
    columns: Vec<&'t Column>,
    /// Where the value of each column of the table is.
    places: Vec<usize>,
}

impl<'t> Given<'t> {
    /// All columns, in their own order.
    pub(crate) fn in_order(columns: &'t [Column]) -> Given<'t> {
        Given {
            columns: columns.iter().collect(),
            places: (0..columns.len()).collect(),
        }
    }

    /// The columns in the order of these names, if each is named once.
    pub(crate) fn named(columns: &'t [Column], names: &[&str]) -> Option<Given<'t>> {
        if columns.len() != names.len() {
            return None;
        }
        let place_of = |column: &Column| names.iter().position(|name| *name == column.name);
        let places = columns.iter().map(place_of).collect::<Option<Vec<usize>>>()?;
        let column_of = |name: &&str| columns.iter().find(|column| column.name == *name);
        let columns = names.iter().map(column_of).collect::<Option<Vec<&Column>>>()?;
        Some(Given { columns, places })
    }

    /// The names of the columns, in the order in which they are given.
    pub(crate) fn names(&self) -> impl Iterator<Item = &str> + '_ {
        self.columns.iter().map(|column| column.name.as_str())
    }

    /// The first record of a block.
    pub(crate) fn names_of_table(&self) -> String {
        record_of(self.places.iter().map(|place| self.columns[*place].name.as_str()))
    }

    /// Where the value of each column of the table is.
    pub(crate) fn places(&self) -> impl Iterator<Item = Option<usize>> + '_ {
        self.places.iter().copied().map(Some)
    }

    /// The fields of a row of a number, in the order in which its values are given.
    pub(crate) fn read<V: Values>(&self, values: &V, row: usize, fields: &mut Fields) -> Result<()> {
        fields.clear();
        let mut count = 0;
        values.each(&mut |value| {
            if let Some(column) = self.columns.get(count) {
                push_field(fields, (&value.to_value()?).into(), column, row)?;
                fields.end();
            }
            count += 1;
            Ok(())
        })?;
        if count != self.columns.len() {
            return Err(Error::RowLength {
                row,
                values: count,
                columns: self.columns.len(),
            });
        }
        Ok(())
    }
}

/// The names of columns as the first record of a CSV.
pub(crate) fn record_of<'n>(names: impl Iterator<Item = &'n str>) -> String {
    let mut record = String::new();
    for (at, name) in names.enumerate() {
        if at > 0 {
            record.push(',');
        }
        match wants_marks(name.as_bytes()) {
            true => push_marked(&mut record, name, '"'),
            false => record.push_str(name),
        }
    }
    record
}

fn push_field(fields: &mut Fields, value: ValueRef<'_>, column: &Column, row: usize) -> Result<()> {
    let named = || column.name.clone();
    match (value, column.kind) {
        (ValueRef::Null, _) if column.takes_null => {}
        (ValueRef::Integer(integer), Kind::Integer) => fields.push_spelled(|to| push_integer(to, integer)),
        (ValueRef::Text(""), Kind::Text) if column.takes_null => return Err(Error::EmptyText { row, column: named() }),
        (ValueRef::Text(text), Kind::Text) if wants_marks(text.as_bytes()) => {
            fields.push_spelled(|to| push_marked(to, text, '"'))
        }
        (ValueRef::Text(text), Kind::Text) => fields.push(text.as_bytes()),
        _ => return Err(Error::WrongType { row, column: named() }),
    }
    Ok(())
}
