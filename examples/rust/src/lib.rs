//! A lending library over mmdb: the code that the tests are about, and the fixture that they share.

pub mod fixture;

use mmdb::{Database, Error, OptionalExtension, Row};

const KEY_EXISTS: Option<u32> = Some(41);
const NO_REFERENCED_ROW: Option<u32> = Some(42);

/// Why a book isn't lent.
#[derive(Debug, PartialEq, Eq)]
pub enum Refusal {
    /// Somebody has it.
    IsOut,
    /// There is no such book, or nobody of that name.
    Unknown,
}

/// A book that is out past its day.
#[derive(Debug, PartialEq, Eq)]
pub struct Overdue {
    pub title: String,
    pub mail: String,
    pub due: u32,
}

impl Overdue {
    fn of(row: &Row<'_>) -> Result<Overdue, Error> {
        Ok(Overdue {
            title: row.get("title")?,
            mail: row.get("mail")?,
            due: row.get("due")?,
        })
    }
}

/// Lends a book until a day.
pub fn lend(db: &Database, book: i64, person: &str, due: u32) -> Result<Result<(), Refusal>, Error> {
    let title = db.query_row("select title from book where id = ?", [book], |row| {
        row.get::<_, String>(0)
    });
    if title.optional()?.is_none() {
        return Ok(Err(Refusal::Unknown));
    }
    match db.execute("insert loan (?, ?, ?)", (book, person, due)) {
        Ok(_) => Ok(Ok(())),
        Err(refused) if refused.number() == KEY_EXISTS => Ok(Err(Refusal::IsOut)),
        Err(refused) if refused.number() == NO_REFERENCED_ROW => Ok(Err(Refusal::Unknown)),
        Err(other) => Err(other),
    }
}

/// Takes a book back. Says whether it was out.
pub fn give_back(db: &Database, book: i64) -> Result<bool, Error> {
    Ok(db.execute("delete loan where book = ?", [book])? == 1)
}

/// Takes many books back, by one statement. Says how many of them were out.
pub fn give_back_all(db: &Database, books: &[i64]) -> Result<usize, Error> {
    let mut give_back = db.prepare("delete loan where book = ?")?;
    books.iter().map(|book| give_back.execute([book])).sum()
}

/// The books that are out past a day, each with the mail of who has it.
pub fn overdue(db: &Database, day: u32) -> Result<Vec<Overdue>, Error> {
    let line = "select book.title, person.mail, loan.due from loan join book on loan.book = book.id \
                join person on loan.person = person.name where due < ?";
    db.query_map(line, [day], Overdue::of)?.collect()
}
