//! Refuses each of the library's calls for memory in turn that a call on a statement makes, and tells of each call how many they are.

mod refusing;

use mmdb::{Database, Result, Row, RowsRef, Statement, Value};
use refusing::{is_refused, refused_calls};

const LONG: &str = "a text that is longer than a slot of few bytes, and than some more of them";
const KEY: &str = "a key of some length";
const MANY: usize = 20;

/// The rows that a step gives, and how many it changed.
type Given = Result<(Vec<Vec<Value>>, usize)>;

/// The statements of a database.
struct Kept<'db> {
    db: &'db Database,
    insert: Statement<'db>,
    update: Statement<'db>,
    delete: Statement<'db>,
    select: Statement<'db>,
    join: Statement<'db>,
    more: Vec<Statement<'db>>,
}

fn filled() -> Result<Database> {
    let db = Database::open_in_memory()?;
    db.execute("table u (k text)", [])?;
    db.execute("table t (id int, s text, c ref u null)", [])?;
    db.execute("index t s hash", [])?;
    db.execute("insert u (?)", [KEY])?;
    for (id, text, key) in [(1, "a", None), (2, "another text", Some(KEY)), (3, "c\n", None)] {
        db.execute("insert t (?, ?, ?)", (id, text, key))?;
    }
    Ok(db)
}

fn rows(rows: RowsRef<'_>) -> Given {
    Ok((rows.to_vec(), 0))
}

fn count(count: usize) -> Given {
    Ok((Vec::new(), count))
}

fn values(row: &Row<'_>) -> Result<Vec<Value>> {
    Ok(row.values().map(Value::from).collect())
}

impl<'db> Kept<'db> {
    fn of(db: &'db Database) -> Result<Kept<'db>> {
        Ok(Kept {
            db,
            insert: db.prepare("insert t (?, ?, null)")?,
            update: db.prepare("update t set s = ? where id > ?")?,
            delete: db.prepare("delete t where s <> ?")?,
            select: db.prepare("select * from t where id >= ?")?,
            join: db.prepare("select distinct t.s, u.k from t join u on t.c = u.k where t.s <> ?")?,
            more: Vec::new(),
        })
    }

    fn state(&mut self) -> Given {
        rows(self.select.query([2])?)
    }

    /// Reads pages of a row by a cursor, and then changes the tables, which can be done as none is left open.
    fn pages(&mut self, line: &str) -> Given {
        let rows: Result<Vec<_>> = self.db.query_pages(1, line, [LONG], values)?.collect();
        Ok((rows?, self.delete.execute(["a"])?))
    }

    fn prepare(&mut self) -> Given {
        for _ in 0..MANY {
            let line = "select s, c from t where s = ? and id < ? and c <> 'a text that is given'";
            self.more.push(self.db.prepare(line)?);
        }
        count(0)
    }
}

const STEPS: [fn(&mut Kept<'_>) -> Given; 9] = [
    |of| of.prepare(),
    |of| count(of.insert.execute((4, LONG))?),
    |of| count(of.update.execute((LONG, 1))?),
    |of| count(of.delete.execute(["a"])?),
    |of| rows(of.select.query([1])?),
    |of| rows(of.join.query([LONG])?),
    |of| of.pages("select distinct s, id from t where s <> ?"),
    |of| of.pages("select u.k, t.s from t join u on t.c = u.k where t.s <> ?"),
    |of| count(of.select.column_names()?.len()),
];

fn main() -> Result<()> {
    for step in STEPS {
        let calls = refused_calls(|met| {
            let (db, other) = (filled()?, filled()?);
            let (mut one, mut twin) = (Kept::of(&db)?, Kept::of(&other)?);
            is_refused(step, Kept::state, (&mut one, &mut twin), met)
        })?;
        println!("{calls}");
    }
    Ok(())
}
