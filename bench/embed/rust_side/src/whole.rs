//! Times a save of the whole database to a file, and a restore from it. SQLite's C library has no call that writes SQL, so
//! the rows of a select are written as `insert` lines. A restore executes all of that file in a new database.

use std::fs::{self, File};
use std::io::{self, BufWriter, Write};
use std::path::{Path, PathBuf};
use std::{env, process};

use mmdb::{Database, Result};

use crate::sqlite::{processor_seconds, Sqlite};
use crate::{ROUNDS, THEIR_TABLE};

/// A folder of this process, which is removed at the end.
struct Folder(PathBuf);

impl Folder {
    fn create() -> io::Result<Folder> {
        let path = env::temp_dir().join(format!("mmdb-rust-side-{}", process::id()));
        fs::create_dir(&path)?;
        Ok(Folder(path))
    }
}

impl Drop for Folder {
    fn drop(&mut self) {
        // (a folder that stays spoils no figure)
        let _ = fs::remove_dir_all(&self.0);
    }
}

/// Saves and restores both, which have so many rows.
pub fn compare(ours: &Database, theirs: &mut Sqlite, rows: usize) -> Result<()> {
    let folder = Folder::create().expect("the temporary folder takes another");
    let (dump, script) = (folder.0.join("all.mmdb"), folder.0.join("all.sql"));
    let all = theirs.prepare("select * from t");
    tell("save", rows, || save(ours, &dump, theirs, all, &script))?;
    tell("restore", rows, || restore(&dump, &script, rows))
}

/// Tells the best of some rounds, of which each gives the seconds of mmdb and of SQLite.
fn tell(what: &str, rows: usize, mut round: impl FnMut() -> Result<[f64; 2]>) -> Result<()> {
    let mut best = [f64::MAX; 2];
    for _ in 0..ROUNDS {
        for (best, took) in best.iter_mut().zip(round()?) {
            *best = best.min(took);
        }
    }
    let [ours, theirs] = best.map(|seconds| seconds * 1e6 / rows as f64);
    println!("{what}\ta row\t{ours:.6}\t{theirs:.6}");
    Ok(())
}

fn save(ours: &Database, dump: &Path, theirs: &mut Sqlite, all: usize, script: &Path) -> Result<[f64; 2]> {
    let before = processor_seconds();
    ours.save_file(dump)?;
    let between = processor_seconds();
    write_script(theirs, all, script).expect("the script can be written");
    Ok([between - before, processor_seconds() - between])
}

/// Restores both, and sees that all rows are there.
fn restore(dump: &Path, script: &Path, rows: usize) -> Result<[f64; 2]> {
    let before = processor_seconds();
    let ours = Database::restore_file(dump)?;
    let between = processor_seconds();
    let mut theirs = Sqlite::open();
    theirs.run(fs::read(script).expect("the script can be read"));
    let took = [between - before, processor_seconds() - between];

    let count = theirs.prepare("select count(*) from t");
    assert!(theirs.statement(count).step());
    let counts = [
        ours.count("select id from t", [])?,
        theirs.statement(count).integer(0) as usize,
    ];
    assert_eq!(counts, [rows; 2]);
    Ok(took)
}

/// Writes the lines that make SQLite's table, whose rows a statement selects.
fn write_script(theirs: &mut Sqlite, all: usize, path: &Path) -> io::Result<()> {
    let mut file = BufWriter::new(File::create(path)?);
    write!(file, "begin;\n{THEIR_TABLE};\n")?;
    let statement = theirs.statement(all);
    while statement.step() {
        let (id, n) = (statement.integer(0), statement.integer(1));
        write!(file, "insert into t values ({id},{n},'")?;
        write_marked(&mut file, statement.text(2))?;
        file.write_all(b"');\n")?;
    }
    statement.reset();
    file.write_all(b"commit;\n")?;
    file.flush()
}

/// Writes a text with its quote marks doubled.
fn write_marked(file: &mut impl Write, text: &[u8]) -> io::Result<()> {
    for (at, piece) in text.split(|byte| *byte == b'\'').enumerate() {
        if at > 0 {
            file.write_all(b"''")?;
        }
        file.write_all(piece)?;
    }
    Ok(())
}
