//! A select whose texts are more than 4 GiB together, of which fewer rows can be read. It takes some seven gigabytes.

use mmdb::{Database, Error, Result, Row};

const LINE: &str = "select a.s from a join b on a.k = b.k";

fn main() -> Result<()> {
    let db = Database::open_in_memory()?;
    db.execute("table a (id int, k int, s text)", [])?;
    db.execute("table b (id int, k int)", [])?;
    let text = "x".repeat(1024);
    db.load("a", (0..1100i64).map(|id| (id, 1i64, text.clone())))?;
    db.load("b", (0..4096i64).map(|id| (id, 1i64)))?;
    assert!(matches!(db.query(LINE, []), Err(Error::TooLarge)));
    let length = |row: &Row<'_>| row.get::<_, String>(0).map(|text| text.len());
    assert!(matches!(
        db.query_pages(5_000_000, LINE, [], length),
        Err(Error::TooLarge)
    ));
    let pages = db.query_pages(1_000, LINE, [], length)?;
    assert_eq!(pages.take(20_000).filter(|length| *length == Ok(1024)).count(), 20_000);
    db.execute("delete b where id < 4000", [])?;
    Ok(())
}
