//! Databases that are saved and restored.

mod common;

use std::fs;
use std::io::{self, ErrorKind, Read, Write};
use std::path::PathBuf;
use std::{env, process};

use common::draw::Draw;
use common::{number, open, row, selected, with_rows};
use mmdb::{Database, Error, Limits, Policy, Shared, Value};

const COMPANY: [&str; 7] = [
    "table dept (name text)",
    "table emp (id int, name text, dept ref dept null, boss int)",
    "index emp dept hash",
    "index emp boss tree",
    "index dept name hash",
    "table part (id int, of ref emp, made ref emp null)",
    "table none (id int)",
];

const SAVED: &str = "# mmdb dump 1
table dept (name text)
table emp (id int, name text, dept ref dept null, boss int)
table part (id int, of ref emp, made ref emp null)
table none (id int)
load dept 22
name
\"\"
shoes
\"to
ys\"
index dept name hash
load emp 93
id,name,dept,boss
1,\"a \"\"b\"\", 'c'\nd\r\",shoes,-1
2,\"\n\",\"to\nys\",1
3,null,,2
4,\"it's :one, ?\",,0
update emp set dept = '' where id = 3
index emp dept hash
index emp boss tree
load part 22
id,of,made
7,1,
8,3,2
# end of the dump: 4 tables, 9 rows
";

fn limited(block: u32) -> Limits {
    let rows = mmdb::MOST;
    Limits { rows, block }
}

fn company(block: u32) -> Database {
    let db = Database::open(Policy::Auto, limited(block)).expect("memory is there");
    for line in COMPANY {
        db.execute(line, []).expect("a declaration");
    }
    db.load("dept", [["shoes"], ["to\nys"], [""]]).unwrap();
    let mut insert = db.prepare("insert emp (?, ?, ?, ?)").unwrap();
    let rows = [
        (3, "null", Some(""), 2),
        (1, "a \"b\", 'c'\nd\r", Some("shoes"), -1),
        (2, "\n", Some("to\nys"), 1),
        (4, "it's :one, ?", None, 0),
    ];
    for row in rows {
        insert.execute(row).unwrap();
    }
    drop(insert);
    db.load("part", [(7, 1, None), (8, 3, Some(2))]).unwrap();
    db
}

fn saved(db: &Database) -> String {
    let mut to = Vec::new();
    db.save(&mut to).expect("a room takes all");
    String::from_utf8(to).expect("a dump is UTF-8")
}

fn rows(db: &Database) -> Vec<Vec<Vec<Value>>> {
    let tables = ["dept", "emp", "part", "none"];
    tables.iter().map(|table| db.dump(table).unwrap().to_vec()).collect()
}

/// A folder of a test's own, which goes with it.
struct Room(PathBuf);

impl Room {
    fn of(name: &str) -> Room {
        let path = env::temp_dir().join(format!("mmdb-tests-{}-{name}", process::id()));
        fs::create_dir(&path).expect("a folder");
        Room(path)
    }

    fn names(&self) -> Vec<String> {
        let entries = fs::read_dir(&self.0).unwrap();
        let mut names: Vec<String> = entries
            .map(|entry| entry.unwrap().file_name().into_string().unwrap())
            .collect();
        names.sort();
        names
    }
}

impl Drop for Room {
    fn drop(&mut self) {
        let _ = fs::remove_dir_all(&self.0);
    }
}

#[test]
fn a_copy_goes_its_own_way() {
    let mut db = company(mmdb::MOST);
    let copy = db.try_clone().unwrap();
    assert_eq!((saved(&copy), rows(&copy)), (saved(&db), rows(&db)));
    copy.execute("drop table part", []).unwrap();
    copy.execute("insert none (1)", []).unwrap();
    assert_eq!(saved(&db), SAVED);
    let of_reader = db.readers().reader().unwrap().try_clone().unwrap();
    assert_eq!(saved(&of_reader), SAVED);
    let transaction = db.transaction().unwrap();
    assert_eq!(transaction.try_clone().err(), Some(Error::InTransaction));
}

#[test]
fn a_company_is_saved_and_restored() {
    let db = company(mmdb::MOST);
    assert_eq!(saved(&db), SAVED);
    let again = Database::restore(SAVED.as_bytes()).unwrap();
    assert_eq!(rows(&again), rows(&db));
    assert_eq!(again.indexes("emp").unwrap(), db.indexes("emp").unwrap());
    assert_eq!(saved(&again), SAVED);
    assert_eq!(again.execute("insert part (9, 1, null)", []), Ok(1));
    assert_eq!(number(again.execute("insert part (10, 99, null)", [])), Some(42));
    assert_eq!(saved(&open()), "# mmdb dump 1\n# end of the dump: 0 tables, 0 rows\n");
}

#[test]
fn drawn_rows_come_back_in_blocks_of_any_size() {
    let mut draw = Draw(20_261_129);
    for block in [120, 1 << 9, 1 << 12, mmdb::MOST] {
        let db = company(block);
        for id in 5..300 {
            let text = draw.text();
            let dept = draw.of(&[Some(""), Some("shoes"), Some("to\nys"), None]);
            db.execute("insert emp (?, ?, ?, ?)", (id, text, dept, 7)).unwrap();
        }
        let dump = saved(&db);
        assert_eq!(dump.matches("\nload emp ").count() > 1, block < 1 << 13, "{block}");
        let again = Database::restore_as(Policy::Merge, limited(block), dump.as_bytes()).unwrap();
        assert_eq!(rows(&again), rows(&db));
        assert_eq!(saved(&again), dump);
    }
}

#[test]
fn a_table_of_several_ranges_comes_back() {
    let db = Database::open(Policy::Auto, limited(1 << 13)).unwrap();
    db.execute("table t (id int, s text)", []).unwrap();
    db.execute("table u (k text, n int)", []).unwrap();
    db.load("t", (0..25_000).map(|id| (id - 7, "x".repeat(id as usize % 30))))
        .unwrap();
    let key = |at: i64| format!("{at:06}\"{}", if at % 3 > 0 { "\n" } else { "" });
    db.load("u", (0..20_000).map(|at| (key(at), at))).unwrap();
    let dump = saved(&db);
    assert!(dump.ends_with("\n# end of the dump: 2 tables, 45000 rows\n"));
    let again = Database::restore(dump.as_bytes()).unwrap();
    for table in ["t", "u"] {
        assert_eq!(again.dump(table).unwrap(), db.dump(table).unwrap());
    }
    let again = Database::restore_as(Policy::Auto, limited(1 << 13), dump.as_bytes()).unwrap();
    assert_eq!(saved(&again), dump);
}

#[test]
fn what_no_dump_can_hold_is_refused() {
    let db = company(mmdb::MOST);
    db.execute("table u (k text, d ref dept null)", []).unwrap();
    db.execute("insert u (?, ?)", ("a\nb", "")).unwrap();
    let why = db.save(&mut io::sink()).unwrap_err();
    let told = "no dump can hold the rows of u: a row has a key with a line feed, and in d the empty text";
    assert!(matches!(&why, Error::Unsaved { table, .. } if table == "u"));
    assert_eq!(why.to_string(), told);
    let db = Database::open(Policy::Auto, limited(40)).unwrap();
    db.execute("table t (id int, s text)", []).unwrap();
    db.execute("insert t (1, ?)", ["x".repeat(32)]).unwrap();
    assert!(saved(&db).contains("load t 40\n"));
    db.execute("update t set s = ?", ["x".repeat(33)]).unwrap();
    let told = "no dump can hold the rows of t: a row has no room in a block of 40 bytes";
    assert_eq!(db.save(&mut io::sink()).unwrap_err().to_string(), told);
}

#[test]
fn a_transaction_and_readers_are_saved() {
    let mut db = company(mmdb::MOST);
    let tx = db.transaction().unwrap();
    tx.execute("delete part", []).unwrap();
    let content = saved(&tx);
    assert_eq!(tx.rollback(), Ok(()));
    assert!(!content.contains("load part") && content.contains("load emp"));
    let mut by_reader = Vec::new();
    db.readers().reader().unwrap().save(&mut by_reader).unwrap();
    assert_eq!(by_reader, SAVED.as_bytes());
    let room = Room::of("readers");
    let shared = Shared::new(db);
    let path = room.0.join("all.mmdb");
    shared.reader().unwrap().read().unwrap().save_file(&path).unwrap();
    assert_eq!(fs::read_to_string(&path).unwrap(), SAVED);
    assert_eq!(saved(&shared.write().unwrap()), SAVED);
}

/// A room that takes so many bytes and no further one.
struct Full(usize);

impl Write for Full {
    fn write(&mut self, bytes: &[u8]) -> io::Result<usize> {
        let taken = bytes.len().min(self.0);
        self.0 -= taken;
        match taken {
            0 if !bytes.is_empty() => Err(io::Error::new(ErrorKind::Other, "it is full")),
            _ => Ok(taken),
        }
    }

    fn flush(&mut self) -> io::Result<()> {
        Ok(())
    }
}

#[test]
fn a_writer_fails_at_each_byte() {
    let db = company(mmdb::MOST);
    for most in 0..SAVED.len() {
        let why = db.save(&mut Full(most)).unwrap_err();
        assert!(matches!(
            why,
            Error::Unwritten {
                kind: ErrorKind::Other,
                ..
            }
        ));
        assert_eq!(why.to_string(), "the dump can't be written: it is full");
    }
    assert_eq!(db.save(&mut Full(SAVED.len())), Ok(()));
}

#[test]
fn a_file_is_whole_or_as_it_was() {
    let room = Room::of("files");
    let (path, there) = (room.0.join("all.mmdb"), room.0.join("there"));
    let db = company(mmdb::MOST);
    db.save_file(&path).unwrap();
    assert_eq!(fs::read_to_string(&path).unwrap(), SAVED);
    fs::write(&there, "old").unwrap();
    let mut rights = fs::metadata(&there).unwrap().permissions();
    std::os::unix::fs::PermissionsExt::set_mode(&mut rights, 0o640);
    fs::set_permissions(&there, rights).unwrap();
    let rights = fs::metadata(&there).unwrap().permissions();
    db.execute("table u (k text, d ref dept null)", []).unwrap();
    db.execute("insert u (?, ?)", ("a\nb", "")).unwrap();
    assert!(matches!(db.save_file(&there), Err(Error::Unsaved { .. })));
    assert_eq!(fs::read_to_string(&there).unwrap(), "old");
    db.execute("drop table u", []).unwrap();
    std::os::unix::fs::symlink("there", room.0.join("link")).unwrap();
    db.save_file(room.0.join("link")).unwrap();
    assert_eq!(fs::read_to_string(&there).unwrap(), SAVED);
    assert_eq!(fs::metadata(&there).unwrap().permissions(), rights);
    assert!(matches!(db.save_file(&room.0), Err(Error::Unwritten { .. })));
    assert!(matches!(
        db.save_file(room.0.join("no/file")),
        Err(Error::Unwritten { .. })
    ));
    db.save_file("/dev/null").unwrap();
    assert_eq!(room.names(), ["all.mmdb", "link", "there"]);
    assert_eq!(rows(&Database::restore_file(&path).unwrap()), rows(&db));
    let none = Database::restore_file(room.0.join("none"));
    assert!(matches!(
        none,
        Err(Error::UnreadDump {
            kind: ErrorKind::NotFound,
            ..
        })
    ));
}

#[test]
fn a_dump_is_refused_that_is_cut_at_any_byte() {
    for end in 0..SAVED.len() {
        let cut = Database::restore(&SAVED.as_bytes()[..end]);
        assert!(matches!(cut, Err(Error::BadDump { .. })), "{end}");
    }
}

#[test]
fn a_dump_is_refused_whose_first_or_last_line_has_another_byte() {
    let first = SAVED.find('\n').unwrap() + 1;
    let last = SAVED.trim_end().rfind('\n').unwrap() + 1;
    for at in (0..first).chain(last..SAVED.len()) {
        for byte in [0, 10, 13, 32, 48, 49, 57, 120, 255] {
            let mut bytes = SAVED.as_bytes().to_vec();
            if bytes[at] != byte {
                bytes[at] = byte;
                let other = Database::restore(&bytes[..]);
                assert!(matches!(other, Err(Error::BadDump { .. })), "{at} {byte}");
            }
        }
    }
}

#[test]
fn what_is_wrong_is_told_with_its_line() {
    let whole = "# mmdb dump 1\ntable t (id int)\nload t 7\nid\n1\n2\n";
    let end = "# end of the dump: 1 tables, 2 rows\n";
    let no_dump = "this is no dump: it doesn't begin with the line # mmdb dump 1";
    let cases = [
        (String::new(), 1, no_dump),
        ("# mmdb dump\n".to_string(), 1, no_dump),
        ("# mmdb dump 1".to_string(), 1, no_dump),
        (
            format!("# mmdb dump 2\n{end}"),
            1,
            "this is a dump of version 2, and only those of version 1 are read",
        ),
        (
            whole.to_string(),
            7,
            "the dump is cut short: it doesn't end with a line # end of the dump",
        ),
        (
            format!("{whole}# end of the dump: 1 tables, 1 rows\n"),
            7,
            "the last line is not # end of the dump: 1 tables, 2 rows",
        ),
        (format!("{whole}{end}\n"), 7, "it goes on after the last line"),
        (
            whole[..whole.len() - 3].to_string(),
            3,
            "the dump is cut short, 4 bytes into a block of 7",
        ),
        (format!("{whole}drop table t\n{end}"), 7, "this is no line of a dump"),
        (format!("{whole}load t +5\n{end}"), 7, "this is no line of a dump"),
        (
            format!("{whole}update {}", "x".repeat(9_000)),
            7,
            "the line is too long",
        ),
        (
            format!("{whole}index t s tree\n{end}"),
            7,
            "error 32 no such column: s is no column of t",
        ),
        (
            format!("{whole}load t 5\nid\n1\n{end}"),
            7,
            "error 41 key exists (record 1): t has a row with the key 1",
        ),
        (
            format!("{whole}load t 16777217\n{end}"),
            7,
            "a block of the database has at most 16777216 bytes, and the line asks for 16777217",
        ),
    ];
    for (dump, line, told) in cases {
        let why = Database::restore(dump.as_bytes()).unwrap_err();
        assert_eq!(why.to_string(), format!("line {line} of the dump: {told}"));
        assert!(matches!(why, Error::BadDump { line: at, .. } if at == line));
    }
    assert_eq!(
        Database::restore_as(Policy::Auto, limited(mmdb::MOST + 1), SAVED.as_bytes()).unwrap_err(),
        Error::OutOfRange
    );
}

/// A dump, a byte at a time, with interrupts in between, and a failure at the end.
struct Torn<'d>(&'d [u8], bool);

impl Read for Torn<'_> {
    fn read(&mut self, to: &mut [u8]) -> io::Result<usize> {
        self.1 = !self.1;
        match self.0 {
            _ if self.1 => Err(io::Error::new(ErrorKind::Interrupted, "a signal")),
            [] => Err(io::Error::new(ErrorKind::Other, "the pipe is torn")),
            [first, rest @ ..] => {
                to[0] = *first;
                self.0 = rest;
                Ok(1)
            }
        }
    }
}

#[test]
fn a_reader_may_fail() {
    let torn = Database::restore(Torn(SAVED.as_bytes(), false)).unwrap_err();
    assert_eq!(torn.to_string(), "the dump can't be read: the pipe is torn");
    let torn = Database::restore(Torn(&SAVED.as_bytes()[..100], false)).unwrap_err();
    assert!(matches!(
        torn,
        Error::UnreadDump {
            kind: ErrorKind::Other,
            ..
        }
    ));
    let mut more = SAVED.as_bytes().chain(io::empty());
    assert_eq!(rows(&Database::restore(&mut more).unwrap()), rows(&company(mmdb::MOST)));
}

#[test]
fn what_is_restored_is_used_as_any_other() {
    let db = Database::restore(saved(&with_rows()).as_bytes()).unwrap();
    assert_eq!(db.load("t", [(3, "c")]), Ok(1));
    assert_eq!(
        selected(&db, "select * from t where id > ?", [1]),
        [row(2, "b"), row(3, "c")]
    );
}
