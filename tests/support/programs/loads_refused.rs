//! Refuses each of the library's calls for memory in turn that a transaction makes, a load of many blocks, a dump, or a reader of
//! shared tables, and tells of each of these how many they are.

mod refusing;

use mmdb::{CsvOptions, Database, Limits, Policy, Result, Shared, SharedReader, Value, MOST};
use refusing::{is_refused, refused_calls, Step};

const LONG: &str = "a text that is longer than a slot of few bytes";

const LIMITS: Limits = Limits {
    rows: MOST,
    block: 120,
};

/// A shared database with small blocks, and one who reads it.
struct Both {
    shared: Shared,
    reader: SharedReader,
}

impl Both {
    fn of() -> Result<Both> {
        let db = Database::open(Policy::Auto, LIMITS)?;
        db.execute("table t (id int, s text)", [])?;
        db.execute("index t s hash", [])?;
        db.load("t", [(1, "a"), (2, LONG)])?;
        let shared = Shared::new(db);
        let reader = shared.reader()?;
        Ok(Both { shared, reader })
    }

    /// What is declared, the rows, and how many transactions are open.
    fn state(&mut self) -> Result<(Vec<u8>, Vec<Vec<Value>>, usize)> {
        let mut tables = self.shared.write()?;
        let declared = tables.answer(b"tables")?.to_vec();
        let rows = tables.query("select * from t", [])?.to_vec();
        Ok((declared, rows, tables.transactions()))
    }

    fn commit(&mut self) -> Result<usize> {
        let mut tables = self.shared.write()?;
        let mut tx = tables.transaction()?;
        tx.execute("insert t (?, ?)", (3, LONG))?;
        let savepoint = tx.savepoint()?;
        savepoint.execute("insert t (?, ?)", (4, LONG))?;
        savepoint.execute("update t set s = ? where id > ?", (LONG, 1))?;
        savepoint.execute("table u (id int, t ref t)", [])?;
        savepoint.execute("insert u (1, 4)", [])?;
        savepoint.commit()?;
        tx.execute("index u t hash", [])?;
        tx.execute("update t set s = ? where s = ?", ("short", LONG))?;
        tx.execute("delete t where id < ?", [3])?;
        tx.commit()?;
        Ok(2)
    }

    fn roll_back(&mut self) -> Result<usize> {
        let mut tables = self.shared.write()?;
        let mut tx = tables.transaction()?;
        tx.execute("insert t (?, ?)", (3, LONG))?;
        let savepoint = tx.savepoint()?;
        savepoint.load("t", (10..20).map(|id| (id, LONG)))?;
        savepoint.execute("update t set s = ? where id < ?", (LONG, 12))?;
        savepoint.execute("index t s tree", [])?;
        savepoint.execute("table u (id int, t ref t)", [])?;
        savepoint.execute("delete t where s = ?", [LONG])?;
        savepoint.rollback()?;
        Ok(1)
    }

    fn load(&mut self) -> Result<usize> {
        self.shared.write()?.load("t", (10..30).map(|id| (id, LONG)))
    }

    fn load_csv(&mut self) -> Result<usize> {
        let mut csv = "s,id\n".to_string();
        (10..30).for_each(|id| csv += &format!("{LONG},{id}\n"));
        self.shared.write()?.load_csv_columns("t", &["s", "id"], csv.as_bytes())
    }

    fn load_csv_with(&mut self) -> Result<usize> {
        let mut csv = "more;s;id\n".to_string();
        (10..30).for_each(|id| csv += &format!("{id};'{LONG}, {id}';{id}\n"));
        let options = CsvOptions::new().columns(["id", "s"]).separator(';').quote('\'');
        self.shared.write()?.load_csv_with("t", csv.as_bytes(), &options)
    }

    fn read(&mut self) -> Result<usize> {
        let rows = self.reader.read()?.query("select * from t where id > ?", [1])?;
        Ok(rows.len())
    }

    fn write_and_read(&mut self) -> Result<usize> {
        drop(self.shared.write()?);
        self.read()
    }

    /// What is saved of a database that was restored from what a reader saved, with rows of more than a block.
    fn restored(&mut self) -> Result<usize> {
        let (mut first, mut second, mut third) = (Vec::new(), Vec::new(), Vec::new());
        self.reader.read()?.save(&mut first)?;
        let db = Database::restore_as(Policy::Auto, LIMITS, &first[..])?;
        db.load("t", (10..30).map(|id| (id, LONG)))?;
        db.save(&mut second)?;
        Database::restore_as(Policy::Auto, LIMITS, &second[..])?.save(&mut third)?;
        assert_eq!(second, third);
        Ok(third.len())
    }

    fn another_reader(&mut self) -> Result<usize> {
        self.reader = self.shared.reader()?;
        self.read()
    }
}

const STEPS: [Step<Both, usize>; 9] = [
    Both::commit,
    Both::roll_back,
    Both::load,
    Both::load_csv,
    Both::load_csv_with,
    Both::restored,
    Both::read,
    Both::write_and_read,
    Both::another_reader,
];

fn main() -> Result<()> {
    for step in STEPS {
        let calls = refused_calls(|met| is_refused(step, Both::state, (&mut Both::of()?, &mut Both::of()?), met))?;
        println!("{calls}");
    }
    Ok(())
}
