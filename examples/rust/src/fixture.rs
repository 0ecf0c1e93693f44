//! A small library with some books out, from the CSV files in `fixtures`. Each test opens one of its own, in well under
//! a millisecond, so none sees what another does.

use mmdb::{Database, Error};

const TABLES: [(&str, &str, &str); 3] = [
    (
        "person",
        "table person (name text, mail text)",
        include_str!("../fixtures/person.csv"),
    ),
    (
        "book",
        "table book (id int, title text)",
        include_str!("../fixtures/book.csv"),
    ),
    (
        "loan",
        "table loan (book int, person ref person, due int)",
        include_str!("../fixtures/loan.csv"),
    ),
];

/// The library, with three people, four books, and three of these out.
pub fn library() -> Result<Database, Error> {
    let db = Database::open_in_memory()?;
    for (name, declaration, csv) in TABLES {
        db.execute(declaration, [])?;
        db.load_csv(name, csv)?;
    }
    Ok(db)
}
