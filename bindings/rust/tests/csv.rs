//! A CSV that is written otherwise than a block, or of which some columns are taken, is loaded as a block of the same rows is.

mod common;

use common::draw::Draw;
use common::{number, open, row, selected, with_table, OneByOne};
use mmdb::{CsvOptions, Database, Error, Limits, Policy, Result, Shared, Value};

/// A database with tables `u (k int)` of the key 7 and `t (id int, s text, u ref u null)`, and blocks of so many bytes.
fn with_blocks_of(block: u32) -> Database {
    let limits = Limits {
        block,
        ..Limits::default()
    };
    let db = Database::open(Policy::Auto, limits).expect("memory is there");
    db.execute("table u (k int)", []).expect("a table");
    db.execute("table t (id int, s text, u ref u null)", [])
        .expect("a table");
    db.load("u", [[7]]).expect("a row");
    db
}

fn rows_of(db: &Database) -> Vec<Vec<Value>> {
    selected(db, "select * from t", [])
}

fn named(names: &[&str]) -> CsvOptions {
    CsvOptions::new().columns(names.iter().copied())
}

/// The number, the words and the reason of a refusal.
fn refused(loaded: Result<usize>) -> (u32, String, String) {
    let why = loaded.expect_err("it is refused");
    let words = |words: Option<&str>| words.expect("a refusal").to_string();
    (why.number().expect("a number"), words(why.text()), words(why.reason()))
}

/// Loads a CSV as a whole and byte by byte, of two rows with these texts, of which the first names the key 7.
fn check_loaded(options: &CsvOptions, csv: &str, texts: [&str; 2]) {
    let wanted = [
        vec![1.into(), texts[0].into(), 7.into()],
        vec![2.into(), texts[1].into(), Value::Null],
    ];
    let db = with_blocks_of(mmdb::MOST);
    assert_eq!(db.load_csv_with("t", csv.as_bytes(), options), Ok(2), "{csv:?}");
    assert_eq!(rows_of(&db), wanted, "{csv:?}");
    db.execute("delete t", []).unwrap();
    assert_eq!(db.load_csv_with("t", OneByOne(csv.as_bytes()), options), Ok(2));
    assert_eq!(rows_of(&db), wanted, "{csv:?}");
}

#[test]
fn separators_and_quotes() {
    let semicolons = CsvOptions::new().separator(';');
    check_loaded(&semicolons, "id;s;u\n1;a,b;7\n2;\"c;\"\"\";\n", ["a,b", "c;\""]);
    let tabs = CsvOptions::new().separator('\t').quote(None);
    check_loaded(&tabs, "id\ts\tu\n1\t\"a\t7\n2\tb\"\"\t\n", ["\"a", "b\"\""]);
    let single = CsvOptions::new().quote('\'');
    check_loaded(
        &single,
        "'id',s,u\n1,'it''s, \"a\"\n',7\n2,b,''\n",
        ["it's, \"a\"\n", "b"],
    );
    check_loaded(&single, "id,s,u\r\n\r\n1,'x'y'',7\r\n2,5',", ["xy''", "5'"]);
    check_loaded(&single, "id,s,u\n1,a,7\n2,'',''\n", ["a", ""]);
    let marks = CsvOptions::new().quote('\'').separator('"');
    check_loaded(&marks, "id\"s\"u\r1\"'\"'\"7\r\r2\",\"\r", ["\"", ","]);
    let unquoted = CsvOptions::new().quote(None);
    check_loaded(
        &unquoted,
        "\u{feff}id,s,u\n1,é'\"\u{feff},7\n2,\0,\n",
        ["é'\"\u{feff}", "\0"],
    );
}

#[test]
fn columns_of_many_in_any_order() {
    let csv = "u,x,id,s\n7,,1,a\n,\"\n\",2,\"it's, \"\"b\"\"\"\n";
    check_loaded(&named(&["id", "s", "u"]), csv, ["a", "it's, \"b\""]);
    check_loaded(&named(&["u", "s", "id"]), csv, ["a", "it's, \"b\""]);
    let csv = "\u{feff}\"id\",\"more, and \"\"more\"\"\",s,u,\r1,,,7,\r\r2,\"\n\",\"\",,2.5";
    check_loaded(&named(&["s", "id", "u"]), csv, ["", ""]);
    let bars = named(&["s", "u", "id"]).separator('|');
    check_loaded(&bars, "s|id|id2|u\n\"a|b\"|1||7\n|2|,|\n", ["a|b", ""]);
}

#[test]
fn columns_that_are_not_named_get_nulls() {
    let db = with_blocks_of(mmdb::MOST);
    let csv = "s,u,id\na,8,1\n\"b\",no key,2";
    assert_eq!(db.load_csv_with("t", csv.as_bytes(), &named(&["id", "s"])), Ok(2));
    let found = [("a", 1), ("b", 2)].map(|(text, id)| vec![Value::from(id), text.into(), Value::Null]);
    assert_eq!(rows_of(&db), found);
}

/// A row of one column whose text is empty is no empty line.
#[test]
fn one_column_of_many() {
    let db = open();
    db.execute("table t (s text)", []).unwrap();
    let texts = |options: &CsvOptions, csv: &str| {
        let loaded = db.load_csv_with("t", csv.as_bytes(), options);
        let found = selected(&db, "select * from t", []);
        db.execute("delete t", []).unwrap();
        loaded.map(|count| (count, found))
    };
    let found = Ok((2, vec![vec![Value::from("")], vec!["a".into()]]));
    assert_eq!(texts(&named(&["s"]), "id,s\n1,\n2,a\n"), found);
    assert_eq!(texts(&named(&["s"]), "s\n\n\"\"\na\n"), found);
    assert_eq!(texts(&CsvOptions::new().quote('\''), "s\n\n''\n'a'\n\n"), found);
}

#[test]
fn names_that_do_not_fit_the_table() {
    let db = with_blocks_of(mmdb::MOST);
    let why = "t has no row without a value for";
    for (names, reason) in [
        (&["id", "s", "x"][..], "x is no column of t".to_string()),
        (&["id", "s", "id"], "the column id is named twice".to_string()),
        (&["s", "u"], format!("{why} id, which isn't named")),
        (&["id"], format!("{why} s, which isn't named")),
        (&[], format!("{why} id, which isn't named")),
        (&["id,s"], "id,s is no column of t".to_string()),
    ] {
        let found = refused(db.load_csv_with("t", &b"id,s,u\n1,a,7\n"[..], &named(names)));
        assert_eq!(found, (61, "bad header".to_string(), reason));
    }
    for options in [named(&["id"]), named(&["x"]), CsvOptions::new().separator(';')] {
        assert_eq!(number(db.load_csv_with("none", &b"id\n"[..], &options)), Some(30));
    }
    assert!(rows_of(&db).is_empty());
}

#[test]
fn what_a_csv_does_not_have() {
    let db = with_blocks_of(mmdb::MOST);
    let whose = "its first record is the names of its columns";
    let width = "a record has a field for each name of the first one: 2, not";
    for (csv, number, text, reason) in [
        (
            "id,u\n1,\n",
            61,
            "bad header",
            format!("the CSV has no column s: {whose}"),
        ),
        (
            "id,s,s\n1,a,b\n",
            61,
            "bad header",
            format!("the CSV has several columns s: {whose}"),
        ),
        ("id,S\n", 61, "bad header", format!("the CSV has no column s: {whose}")),
        ("\n\r\n", 61, "bad header", "the CSV has no record of names".to_string()),
        ("id,s\n1,a\n2\n", 62, "bad record 2", format!("{width} 1")),
        ("id,s\n1,a\n2,b,c\n3", 62, "bad record 2", format!("{width} 3")),
        ("s,id\na,x\nb\n", 62, "bad record 1", String::new()),
        (
            "s,id\na,1\nb,1\nb\n",
            41,
            "key exists (record 2)",
            "record 1 has the key 1 too".to_string(),
        ),
    ] {
        let found = refused(db.load_csv_with("t", csv.as_bytes(), &named(&["id", "s"])));
        assert_eq!((found.0, found.1.as_str()), (number, text), "{csv:?}");
        assert!(found.2 == reason || reason.is_empty(), "{csv:?}: {}", found.2);
        assert_eq!((rows_of(&db).len(), db.transactions()), (0, 0));
    }
    let bytes = &b"s;id\na;1\n\xff;2\n"[..];
    let options = named(&["id", "s"]).separator(';');
    assert_eq!(refused(db.load_csv_with("t", bytes, &options)).1, "bad record 2");
    for csv in ["", "id;u;s\n1;7;a\n", "id,s,u\n", "\u{feff}\u{feff}id;s;u\n"] {
        let loaded = db.load_csv_with("t", csv.as_bytes(), &CsvOptions::new().separator(';'));
        assert_eq!(number(loaded), Some(61), "{csv:?}");
    }
    assert!(rows_of(&db).is_empty());
}

#[test]
fn characters_that_no_csv_is_written_by() {
    let db = with_table();
    let (separator, quote) = ("the separator of a CSV", "the quote of a CSV");
    let what = "is a character of ASCII and no line end, not";
    for (options, told) in [
        (CsvOptions::new().separator('§'), format!("{separator} {what} '§'")),
        (CsvOptions::new().separator('\n'), format!("{separator} {what} '\\n'")),
        (CsvOptions::new().quote('\r'), format!("{quote} {what} '\\r'")),
        (CsvOptions::new().quote('\0'), format!("{quote} {what} '\\0'")),
        (
            CsvOptions::new().quote('\u{80}').separator('|'),
            format!("{quote} {what} '\\u{{80}}'"),
        ),
        (
            CsvOptions::new().separator('"'),
            "a CSV has different characters as its separator and its quote, not both '\"'".to_string(),
        ),
    ] {
        for table in ["t", "none"] {
            let why = db.load_csv_with(table, &b"id,s\n1,a\n"[..], &options).unwrap_err();
            assert!(matches!(why, Error::CsvMarks { .. }), "{why:?}");
            assert_eq!(why.to_string(), told);
        }
    }
    assert!(db.dump("t").unwrap().is_empty());
}

/// The texts of a CSV that is loaded into `t (a text, b text)`, a tab behind each, or else what is odd about its quote marks.
fn texts_of(db: &Database, csv: &str, options: &CsvOptions) -> Result<String, Option<(usize, bool)>> {
    let loaded = db.load_csv_with("t", OneByOne(csv.as_bytes()), options);
    let mut texts = String::new();
    for row in &db.dump("t").unwrap() {
        texts += &format!(
            "{}\t{}\t",
            row.get::<_, &str>(0).unwrap(),
            row.get::<_, &str>(1).unwrap()
        );
    }
    db.execute("delete t", []).unwrap();
    match loaded {
        Err(Error::OddQuotes { record, is_open, .. }) => Err(Some((record, is_open))),
        other => other.map(|_| texts).map_err(|_| None),
    }
}

/// A CSV that is drawn at random is loaded as it is, by the names of its columns and by other characters alike.
#[test]
fn random_csvs_are_read_as_a_block() {
    let (db, mut draw, mut loaded, mut odd) = (open(), Draw(1982), 0, 0);
    db.execute("table t (a text, b text)", []).unwrap();
    let turned = |text: &str| text.replace(',', ";").replace('"', "'");
    for _ in 0..20_000 {
        let (marks, length) = (['"', '"', ',', ',', '\n', '\r', 'a', 'b'], draw.of(&[1, 5, 10, 20]));
        let csv: String = (0..length).map(|_| draw.of(&marks)).collect();
        let csv = format!("a,b\n{csv}");
        for is_strict in [false, true] {
            let expected = texts_of(&db, &csv, &CsvOptions::new().strict(is_strict));
            let swapped = texts_of(&db, &csv, &named(&["b", "a"]).strict(is_strict));
            loaded += usize::from(swapped.is_ok());
            odd += usize::from(matches!(swapped, Err(Some(_))));
            match swapped {
                // (an earlier record may have too many fields)
                Err(None) => assert!(expected.is_err(), "{csv:?}"),
                _ => assert_eq!(swapped, expected, "{csv:?}"),
            }
            let other = CsvOptions::new().separator(';').quote('\'').strict(is_strict);
            let expected = expected.map(|texts| turned(&texts));
            assert_eq!(texts_of(&db, &turned(&csv), &other), expected, "{csv:?}");
        }
    }
    assert!(loaded > 1_000 && odd > 1_000, "{loaded} loaded, {odd} odd");
}

/// A CSV of such rows, whose columns are in another order among others, by other characters.
fn other_csv(ids: impl Iterator<Item = i64>) -> String {
    let mut csv = "x;s;u;id\n".to_string();
    ids.for_each(|id| csv += &format!("'{id};';the text of {id}, and more;7;{id}\r\n"));
    csv
}

#[test]
fn all_rows_of_many_blocks() {
    let mut db = with_blocks_of(200);
    let options = named(&["id", "s", "u"]).separator(';').quote('\'').strict(true);
    let count = |db: &Database| (db.count("select * from t", []).unwrap(), db.transactions());
    assert_eq!(
        db.load_csv_with("t", other_csv(0..1_000).as_bytes(), &options),
        Ok(1_000)
    );
    let text = |id: i64| format!("the text of {id}, and more");
    let wanted: Vec<Vec<Value>> = (0..1_000)
        .map(|id| vec![id.into(), text(id).into(), 7.into()])
        .collect();
    assert_eq!(rows_of(&db), wanted);
    let twice = refused(db.load_csv_with("t", other_csv((1_000..1_700).chain([3])).as_bytes(), &options));
    assert_eq!((twice.0, twice.1.as_str()), (41, "key exists (record 701)"));
    assert_eq!(twice.2, "t or an earlier record has the key 3");
    let short = other_csv(1_000..1_700) + "x;a;7\n";
    let short = refused(db.load_csv_with("t", short.as_bytes(), &options));
    assert_eq!((short.0, short.1.as_str()), (62, "bad record 701"));
    let odd = other_csv(1_000..1_700) + "'x'y;a;7;1\n";
    let odd = db.load_csv_with("t", odd.as_bytes(), &options);
    assert!(
        matches!(
            odd,
            Err(Error::OddQuotes {
                record: 701,
                is_open: false,
                ..
            })
        ),
        "{odd:?}"
    );
    assert_eq!(count(&db), (1_000, 0));
    let tx = db.transaction().unwrap();
    assert_eq!(
        number(tx.load_csv_with("t", other_csv((1_000..1_700).chain([3])).as_bytes(), &options)),
        Some(41)
    );
    assert_eq!(
        tx.load_csv_with("t", other_csv(1_000..1_700).as_bytes(), &options),
        Ok(700)
    );
    assert_eq!(count(&tx), (1_700, 1));
    drop(tx);
    assert_eq!(count(&db), (1_000, 0));
    let shared = Shared::new(db);
    let writing = shared.write().unwrap();
    assert_eq!(
        writing.load_csv_with("t", other_csv(1_000..1_700).as_bytes(), &options),
        Ok(700)
    );
    assert_eq!(count(&writing), (1_700, 0));
}

#[test]
fn the_first_odd_quote_marks_are_told() {
    let behind = "a field with text behind its closing quote mark, which is read as a part of it";
    let held = "a field whose quote mark is never closed, and which holds all that follows";
    for (csv, told, rows) in [
        (other_csv(0..20), None, 20),
        (
            other_csv(0..20) + "x;'a'b;7;20\nx;'c'd;7;21",
            Some(format!("record 21 of the CSV has {behind}")),
            22,
        ),
        (
            other_csv(0..20) + "x;a;7;20\n;b;;21\n'y';'",
            Some(format!("record 23 of the CSV has {held}")),
            0,
        ),
        (
            other_csv(0..20).replacen('x', "''x", 1),
            Some(format!("the record of names of the CSV has {behind}")),
            20,
        ),
    ] {
        let (db, mut warnings) = (with_blocks_of(200), Vec::new());
        let options = named(&["s", "u", "id"]).separator(';').quote('\'');
        let warn = |odd: Error| warnings.push(odd);
        let loaded = db.load_csv_warned("t", OneByOne(csv.as_bytes()), &options, warn);
        assert_eq!(
            (loaded.clone().unwrap_or(0), rows_of(&db).len()),
            (rows, rows),
            "{loaded:?}"
        );
        let words: Vec<String> = warnings.iter().map(Error::to_string).collect();
        assert_eq!(words, Vec::from_iter(told));
        db.execute("delete t", []).unwrap();
        let (strict, mut again) = (options.strict(true), Vec::new());
        let loaded = db.load_csv_warned("t", csv.as_bytes(), &strict, |odd| again.push(odd));
        assert_eq!((loaded, again.len()), (warnings.pop().map_or(Ok(rows), Err), 0));
    }
}

/// A record may be longer than a block, if what is taken of it isn't.
#[test]
fn records_that_no_block_has_room_for() {
    let db = with_blocks_of(60);
    let long = "x".repeat(100);
    let csv = format!("id,{long},s\n1,{long},a\n2,\"{long}\",b\n");
    assert_eq!(db.load_csv_with("t", csv.as_bytes(), &named(&["id", "s"])), Ok(2));
    let (number, text, reason) =
        refused(db.load_csv_with("t", format!("id,s\n3,a\n4,{long}\n").as_bytes(), &named(&["id", "s"])));
    assert_eq!((number, text.as_str()), (12, "block too long"));
    assert_eq!(
        reason,
        "record 2 doesn't end in a block of 60 bytes; is a quote mark left open?"
    );
    let endless = "\n5,b".repeat(5_000_000);
    for (options, front) in [
        (named(&["id", "s"]), "id,s\n3,a\n4,\""),
        (CsvOptions::new().separator('|'), "id|s|u\n3|a|\n\""),
    ] {
        let (number, _, reason) = refused(db.load_csv_with("t", (front.to_string() + &endless).as_bytes(), &options));
        assert_eq!(number, 12);
        assert_eq!(
            reason,
            "record 2 doesn't end in a block of 16777216 bytes; is a quote mark left open?"
        );
    }
    assert_eq!(rows_of(&db).len(), 2);
}

/// The calls with words of their own are those with options.
#[test]
fn the_other_loads_are_by_options() {
    let db = with_table();
    let csv = "id,s\n1,\"x\"y\n2,b\n".as_bytes();
    let strict = CsvOptions::new().strict(true);
    assert_eq!(db.load_csv_with("t", csv, &strict), db.load_csv_strict("t", csv));
    assert_eq!(db.load_csv_with("t", csv, &CsvOptions::default()), Ok(2));
    assert_eq!(selected(&db, "select * from t", []), [row(1, "xy"), row(2, "b")]);
    assert_eq!(
        db.load_csv_with("t", csv, &CsvOptions::new()),
        db.load_csv_from("t", csv)
    );
    assert_eq!(strict.clone().strict(false), CsvOptions::new());
}
