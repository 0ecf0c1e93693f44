//! Shows the fixture, and what the code makes of it.

use lending::{fixture, give_back, give_back_all, lend, overdue};
use mmdb::{Database, Error};

fn print_overdue(db: &Database, day: u32) -> Result<(), Error> {
    println!("overdue on day {day}:");
    for book in overdue(db, day)? {
        println!("  {}, due on day {}: {}", book.title, book.due, book.mail);
    }
    Ok(())
}

fn main() -> Result<(), Error> {
    let db = fixture::library()?;
    for table in ["person", "book", "loan"] {
        let rows = db.dump(table)?;
        println!("{table}: {}, {} rows", rows.column_names().join(" "), rows.len());
    }
    print_overdue(&db, 120)?;
    println!("book 4 is given back: {}", give_back(&db, 4)?);
    println!("book 4 is given back: {}", give_back(&db, 4)?);
    println!("book 4 to Bo O'Hara: {:?}", lend(&db, 4, "Bo O'Hara", 150)?);
    println!("book 1 to Bo O'Hara: {:?}", lend(&db, 1, "Bo O'Hara", 150)?);
    println!("book 3 to a stranger: {:?}", lend(&db, 3, "' or name <> '", 150)?);
    print_overdue(&db, 160)?;
    println!(
        "books 1 to 4 are given back: {} of them",
        give_back_all(&db, &[1, 2, 3, 4])?
    );
    Ok(())
}
