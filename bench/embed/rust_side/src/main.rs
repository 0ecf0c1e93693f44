//! Times the crate mmdb beside SQLite's prepared statements over `:memory:`, both in this process, on the same
//! statements over a table of so many rows, or by the word `inserts` on inserts into an empty one. Each figure is a
//! line: what was done, the way of mmdb, the microseconds of mmdb and those of SQLite. mmdb is asked by a statement
//! that the program prepares, and by a line whose statement the crate keeps. The rows of a select are read. At last the
//! whole database is saved and restored, where the microseconds are those of a row.

mod sqlite;
mod whole;

use mmdb::{Database, Result, Row, Statement};
use sqlite::Sqlite;

const ROUNDS: usize = 7;
const STATEMENTS: usize = 10_000;
const SELECTS: usize = 100;
const MOST_NEW: usize = 2_000;
const ROWS_OF_A_SELECT: usize = 1_000;
const ROWS_OF_A_BLOCK: usize = 100_000;
const INSERTS: usize = 100_000;
const THEIR_TABLE: &str = "create table t (id integer primary key, n integer, s text)";

#[derive(Clone, Copy, Debug, PartialEq, Eq)]
enum Kind {
    Select,
    Insert,
    Update,
    Delete,
    Range,
}

const KINDS: [Kind; 5] = [Kind::Select, Kind::Insert, Kind::Update, Kind::Delete, Kind::Range];

impl Kind {
    fn name(self) -> &'static str {
        [
            "select by key",
            "insert by key",
            "update by key",
            "delete by key",
            "select of 1,000",
        ][self as usize]
    }

    fn ours(self) -> &'static str {
        [
            "select * from t where id = ?",
            "insert t (?, ?, ?)",
            "update t set n = ?, s = ? where id = ?",
            "delete t where id = ?",
            "select * from t where id >= ? and id < ?",
        ][self as usize]
    }

    fn theirs(self) -> &'static str {
        [
            "select * from t where id = ?",
            "insert into t values (?, ?, ?)",
            "update t set n = ?, s = ? where id = ?",
            "delete from t where id = ?",
            "select * from t where id >= ? and id < ?",
        ][self as usize]
    }
}

/// How both are asked.
#[derive(Clone, Copy, Debug, PartialEq, Eq)]
enum Way {
    Statement,
    KeptLine,
    Theirs,
}

const WAYS: [Way; 3] = [Way::Statement, Way::KeptLine, Way::Theirs];

/// A text of eight letters.
fn letters(key: i64) -> [u8; 8] {
    let mut text = [0; 8];
    for (at, letter) in text.iter_mut().enumerate() {
        *letter = b'a' + ((key >> (3 * at)) & 7) as u8;
    }
    text
}

fn text_of(letters: &[u8; 8]) -> &str {
    std::str::from_utf8(letters).expect("letters are ASCII")
}

fn end_of_range(key: i64) -> i64 {
    key + 2 * ROWS_OF_A_SELECT as i64
}

/// What a row adds to the sum of all that is read, so that nothing is left out.
fn read(row: &Row<'_>) -> Result<u64> {
    let (id, n, s): (i64, i64, &str) = (row.get(0)?, row.get(1)?, row.get(2)?);
    Ok(id as u64 + n as u64 + u64::from(s.as_bytes()[0]))
}

/// Numbers drawn by shifts.
struct Draw(u64);

impl Draw {
    fn below(&mut self, end: usize) -> usize {
        self.0 ^= self.0 << 13;
        self.0 ^= self.0 >> 7;
        self.0 ^= self.0 << 17;
        (self.0 % end as u64) as usize
    }

    /// The numbers from 0 below `count`, times a factor and a number more, in an order that is drawn.
    fn shuffled(&mut self, count: usize, factor: i64, more: i64) -> Vec<i64> {
        let mut keys: Vec<i64> = (0..count as i64).map(|key| factor * key + more).collect();
        for at in 1..count {
            keys.swap(at, self.below(at + 1));
        }
        keys
    }

    /// The keys of some statements. The keys in the table are even, and new ones are odd.
    fn keys(&mut self, kind: Kind, rows: usize) -> Vec<i64> {
        let (count, rows) = match kind {
            Kind::Insert | Kind::Delete => {
                let most = rows.min(MOST_NEW);
                return self.shuffled(most, (rows / most * 2) as i64, 1);
            }
            Kind::Range => (SELECTS, rows + 1 - ROWS_OF_A_SELECT),
            _ => (STATEMENTS, rows),
        };
        (0..count).map(|_| 2 * self.below(rows) as i64).collect()
    }
}

fn do_statement(statement: &mut Statement<'_>, kind: Kind, key: i64) -> Result<u64> {
    let letters = letters(key);
    match kind {
        Kind::Select => statement.query_row([key], read),
        Kind::Insert => statement
            .execute((key, key / 2, text_of(&letters)))
            .map(|count| count as u64),
        Kind::Update => statement
            .execute((key / 2, text_of(&letters), key))
            .map(|count| count as u64),
        Kind::Delete => statement.execute([key]).map(|count| count as u64),
        Kind::Range => statement.query_map([key, end_of_range(key)], read)?.sum(),
    }
}

fn do_line(db: &mut Database, kind: Kind, key: i64) -> Result<u64> {
    let (line, letters) = (kind.ours(), letters(key));
    match kind {
        Kind::Select => db.query_row(line, [key], read),
        Kind::Insert => db
            .execute(line, (key, key / 2, text_of(&letters)))
            .map(|count| count as u64),
        Kind::Update => db
            .execute(line, (key / 2, text_of(&letters), key))
            .map(|count| count as u64),
        Kind::Delete => db.execute(line, [key]).map(|count| count as u64),
        Kind::Range => db.query_map(line, [key, end_of_range(key)], read)?.sum(),
    }
}

fn do_theirs(theirs: &mut Sqlite, kind: Kind, key: i64) -> u64 {
    let letters = letters(key);
    let statement = theirs.statement(kind as usize);
    match kind {
        Kind::Select | Kind::Delete => statement.bind(1, key),
        Kind::Insert => {
            statement.bind(1, key);
            statement.bind(2, key / 2);
            statement.bind_text(3, &letters);
        }
        Kind::Update => {
            statement.bind(1, key / 2);
            statement.bind_text(2, &letters);
            statement.bind(3, key);
        }
        Kind::Range => {
            statement.bind(1, key);
            statement.bind(2, end_of_range(key));
        }
    }
    let mut sum = 0;
    while statement.step() {
        sum += statement.integer(0) as u64 + statement.integer(1) as u64 + u64::from(statement.text(2)[0]);
    }
    statement.reset();
    sum
}

/// Both databases, over tables of the same rows.
struct Both {
    ours: Database,
    theirs: Sqlite,
    draw: Draw,
    sum: u64,
}

impl Both {
    fn open() -> Result<Both> {
        let ours = Database::open_in_memory()?;
        ours.execute("table t (id int, n int, s text)", [])?;
        let mut theirs = Sqlite::open();
        theirs.run(THEIR_TABLE);
        for kind in KINDS {
            theirs.prepare(kind.theirs());
        }
        let draw = Draw(88_172_645_463_325_252);
        Ok(Both {
            ours,
            theirs,
            draw,
            sum: 0,
        })
    }

    /// Puts so many rows into both, in an order that is drawn.
    fn fill(&mut self, rows: usize) -> Result<()> {
        let keys = self.draw.shuffled(rows, 2, 0);
        self.theirs.run("begin");
        self.batch(Way::Theirs, Kind::Insert, &keys)?;
        self.theirs.run("commit");
        for keys in keys.chunks(ROWS_OF_A_BLOCK) {
            let texts = keys.iter().map(|key| letters(*key));
            let rows = keys
                .iter()
                .zip(texts)
                .map(|(key, text)| (*key, *key / 2, text_of(&text).to_string()));
            self.ours.load("t", rows)?;
        }
        Ok(())
    }

    /// The seconds that statements with these keys take.
    fn batch(&mut self, way: Way, kind: Kind, keys: &[i64]) -> Result<f64> {
        let before = sqlite::processor_seconds();
        match way {
            Way::Statement => {
                let mut statement = self.ours.prepare(kind.ours())?;
                for key in keys {
                    self.sum += do_statement(&mut statement, kind, *key)?;
                }
            }
            Way::KeptLine => {
                for key in keys {
                    self.sum += do_line(&mut self.ours, kind, *key)?;
                }
            }
            Way::Theirs => {
                for key in keys {
                    self.sum += do_theirs(&mut self.theirs, kind, *key);
                }
            }
        }
        Ok(sqlite::processor_seconds() - before)
    }

    /// The seconds of a statement, of some thousands. What is inserted is taken out again, in batches that make the
    /// table at most twice as large.
    fn statement(&mut self, way: Way, kind: Kind, rows: usize) -> Result<f64> {
        let keys = self.draw.keys(kind, rows);
        let batches = if kind == Kind::Range {
            1
        } else {
            STATEMENTS / keys.len()
        };
        let mut took = 0.0;
        for _ in 0..batches {
            if kind == Kind::Delete {
                self.batch(way, Kind::Insert, &keys)?;
            }
            took += self.batch(way, kind, &keys)?;
            if kind == Kind::Insert {
                self.batch(way, Kind::Delete, &keys)?;
            }
        }
        Ok(took / (batches * keys.len()) as f64)
    }

    fn compare(&mut self, kind: Kind, rows: usize) -> Result<()> {
        let mut best = [f64::MAX; WAYS.len()];
        for _ in 0..ROUNDS {
            for way in WAYS {
                best[way as usize] = best[way as usize].min(self.statement(way, kind, rows)?);
            }
        }
        tell(kind.name(), best);
        Ok(())
    }

    /// Rows that one statement inserts into an empty table, in SQLite in one transaction.
    fn compare_inserts(&mut self) -> Result<()> {
        let keys = self.draw.shuffled(INSERTS, 2, 0);
        let mut best = [f64::MAX; WAYS.len()];
        for _ in 0..ROUNDS {
            for way in WAYS {
                self.theirs.run("begin");
                let took = self.batch(way, Kind::Insert, &keys)? / INSERTS as f64;
                self.theirs.run("commit");
                best[way as usize] = best[way as usize].min(took);
                self.theirs.run("delete from t");
                self.ours.execute("delete t", [])?;
            }
        }
        tell("100,000 inserts", best);
        Ok(())
    }
}

fn tell(what: &str, best: [f64; WAYS.len()]) {
    for (name, way) in [("statement", Way::Statement), ("kept line", Way::KeptLine)] {
        let theirs = best[Way::Theirs as usize] * 1e6;
        println!("{what}\t{name}\t{:.6}\t{theirs:.6}", best[way as usize] * 1e6);
    }
}

fn main() -> Result<()> {
    let word = std::env::args().nth(1).unwrap_or_default();
    let mut both = Both::open()?;
    if word == "inserts" {
        return both.compare_inserts();
    }
    let rows = word.parse().expect("rust_side ROWS, or rust_side inserts");
    both.fill(rows)?;
    for kind in KINDS {
        if kind != Kind::Range || rows >= ROWS_OF_A_SELECT {
            both.compare(kind, rows)?;
        }
    }
    assert_ne!(both.sum, 0);
    if rows >= ROWS_OF_A_SELECT {
        whole::compare(&both.ours, &mut both.theirs, rows)?;
    }
    Ok(())
}
