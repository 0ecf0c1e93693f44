//! Fixtures that are loaded once, from two files, and tests that each begin with them: a test runs in a transaction, which is
//! rolled back behind it. `fixtures 50000 1000` has 50,000 rows and 1,000 tests.

use std::error::Error;
use std::fs::{self, File};
use std::io::{BufWriter, Write};
use std::path::{Path, PathBuf};

use mmdb::{params, Database};

/// How many rows and tests there are where no words say it.
const ROWS: usize = 500;
const TESTS: usize = 20;
const INSERTS: usize = 20;
const TABLES: [(&str, &str); 2] = [
    ("person", "table person (id int, name text)"),
    ("loan", "table loan (book int, person ref person, due int)"),
];

/// A folder of this process, which is gone at the end.
struct Folder(PathBuf);

impl Folder {
    fn new() -> Result<Folder, Box<dyn Error>> {
        let folder = std::env::temp_dir().join(format!("mmdb-fixtures-{}", std::process::id()));
        fs::create_dir_all(&folder)?;
        Ok(Folder(folder))
    }
}

impl Drop for Folder {
    fn drop(&mut self) {
        let _ = fs::remove_dir_all(&self.0);
    }
}

fn file_of(folder: &Path, table: &str) -> PathBuf {
    folder.join(table).with_extension("csv")
}

/// Writes the files: a tenth of the rows are people, and the others what they have borrowed.
fn write_files(folder: &Path, rows: usize) -> Result<(), Box<dyn Error>> {
    let people = rows / 10 + 1;
    let mut file = BufWriter::new(File::create(file_of(folder, "person"))?);
    writeln!(file, "id,name")?;
    for id in 0..people {
        writeln!(file, "{id},\"Person, the {id}th\"")?;
    }
    file.flush()?;
    let mut file = BufWriter::new(File::create(file_of(folder, "loan"))?);
    writeln!(file, "book,person,due")?;
    for book in people..rows {
        writeln!(file, "{book},{},{}", book % people, book % 365)?;
    }
    Ok(file.flush()?)
}

/// The fixtures: each file is read piece by piece, and loaded as a whole or not at all.
fn load_files(folder: &Path) -> Result<Database, Box<dyn Error>> {
    let db = Database::open_in_memory()?;
    for (table, declaration) in TABLES {
        db.execute(declaration, [])?;
        db.load_csv_from(table, File::open(file_of(folder, table))?)?;
    }
    db.execute("index loan person hash", [])?;
    Ok(db)
}

/// One test: somebody new borrows some books, and the first person gives all back and leaves.
fn test(db: &Database, number: usize) -> mmdb::Result<()> {
    let reader = 1_000_000 + number;
    assert_eq!(db.execute("insert person (?, ?)", params![reader, "somebody new"])?, 1);
    let mut borrow = db.prepare("insert loan (?, ?, ?)")?;
    for book in 0..INSERTS {
        assert_eq!(borrow.execute((2_000_000 + book, reader, 14))?, 1);
    }
    assert_eq!(borrow.execute((2_000_000, 0, 14)).unwrap_err().number(), Some(41));
    let borrowed = db.query("select book from loan where person = ?", [reader])?;
    assert_eq!(borrowed.len(), INSERTS);
    db.execute("delete loan where person = ?", [0])?;
    assert_eq!(db.execute("delete person where id = ?", [0])?, 1);
    Ok(())
}

fn print_sizes(db: &Database) -> mmdb::Result<()> {
    for (table, _) in TABLES {
        println!("{table}: {} rows", db.indexes(table)?[0].rows);
    }
    Ok(())
}

fn main() -> Result<(), Box<dyn Error>> {
    let mut words = std::env::args().skip(1);
    let rows = words.next().map_or(Ok(ROWS), |word| word.parse())?;
    let tests = words.next().map_or(Ok(TESTS), |word| word.parse())?;
    let folder = Folder::new()?;
    write_files(&folder.0, rows)?;
    let mut db = load_files(&folder.0)?;
    print_sizes(&db)?;
    for number in 0..tests {
        let tx = db.transaction()?;
        test(&tx, number)?;
        tx.rollback()?;
    }
    println!("{tests} tests of {INSERTS} loans each");
    print_sizes(&db)?;
    Ok(())
}
