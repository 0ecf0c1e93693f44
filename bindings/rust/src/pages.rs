//! Selects that are read page by page. Of one table the last key of a page finds the next, so that nothing is held between the two.
//! Of others a cursor holds where their rows are.

use std::sync::Arc;
use std::{fmt, mem};

use crate::bound::Bound;
use crate::columns::Tables;
use crate::database::Database;
use crate::error::{Error, Result};
use crate::kept::why_not_read;
use crate::library::Cursor;
use crate::line::{bind, find_places, is_select, with_marks, word_at, BLANKS};
use crate::params::{InOrder, Params};
use crate::row::Row;
use crate::rows::{Rows, RowsRef};
use crate::value::Value;

/// How many items and conditions a select has at most, and how many bytes a line.
const MOST_ITEMS: usize = 16;
const MOST_CONDITIONS: usize = 8;
const LONGEST: usize = 8192;

/// What a line may end in that says nothing.
const BEHIND: &[char] = &[' ', '\t', '\r'];

/// How a select is read page by page.
struct Paged {
    table: String,
    /// The line of the first page if the key has to be asked for besides, as the last value of a row. Else it is that of the
    /// select.
    first: Option<String>,
    /// The line of each further page, with one place more at its end, for the last key.
    further: String,
    /// Where the key is in a row.
    key: usize,
}

/// A page, and how those behind it are read.
#[derive(Default)]
struct Page<'db> {
    /// Its rows, unless a cursor lends them.
    rows: Rows,
    /// There is nothing ahead of the last page, or where all rows were read at once.
    ahead: Option<Ahead<'db>>,
}

/// How the pages behind one are read.
enum Ahead<'db> {
    Keys(Keys),
    Cursor(Lending<'db>),
}

/// By the last key of each page.
struct Keys {
    paged: Paged,
    /// The values of the select, and behind them the last key of the page before.
    values: Vec<Value>,
    /// The number of the newest change of the table.
    version: u64,
}

/// By a cursor, which lends a page. Nobody changes the tables meanwhile.
struct Lending<'db> {
    cursor: Cursor<'db>,
    names: Arc<Vec<String>>,
    line: String,
    values: Vec<Value>,
}

/// What [`Database::query_pages`] returns: what the function makes of each row.
#[must_use = "the function is called as its results are asked for"]
pub struct MappedPages<'db, F> {
    database: &'db Database,
    page: Page<'db>,
    /// How many rows a page has.
    most: usize,
    /// The number of the next row of the page.
    next: usize,
    /// How many of its columns are shown.
    width: usize,
    map: F,
}

impl<'db, F> MappedPages<'db, F> {
    /// Reads the first page of a select. In a transaction all of its rows are read, if it can't be by keys.
    pub(crate) fn begin<P: Params>(
        database: &'db Database,
        most: usize,
        line: &str,
        params: P,
        map: F,
    ) -> Result<MappedPages<'db, F>> {
        let (most, (marked, values)) = (most.max(1), marked_and_bound(line, params)?);
        let paged = Paged::of(&marked, &*database.tables()?);
        let hidden = usize::from(paged.as_ref().map_or(false, |paged| paged.first.is_some()));
        let page = match paged {
            Some(paged) => Keys::begin(database, most, line, paged, values)?,
            None if database.in_transaction() => Page {
                rows: database.query(line, InOrder(&values))?,
                ahead: None,
            },
            None => Lending::open(database, line, values)?.read_on(database, most)?,
        };
        Ok(MappedPages {
            database,
            most,
            next: 0,
            width: page.lent().column_names().len() - hidden,
            page,
            map,
        })
    }

    /// Reads the next page, unless this one is the last. It goes before the next comes.
    fn read_on(&mut self) -> Result<()> {
        let Page { rows, ahead } = mem::take(&mut self.page);
        self.next = 0;
        self.page = match ahead {
            None => Page::default(),
            Some(Ahead::Keys(keys)) => keys.read_on(self.database, self.most, rows)?,
            Some(Ahead::Cursor(lending)) => lending.read_on(self.database, self.most)?,
        };
        Ok(())
    }
}

impl Page<'_> {
    #[inline]
    fn lent(&self) -> RowsRef<'_> {
        match &self.ahead {
            Some(Ahead::Cursor(lending)) => lending.page(),
            _ => self.rows.lent(),
        }
    }
}

impl Keys {
    /// Reads the first page. The key of its rows is asked for besides, where it isn't shown.
    fn begin<'db>(
        database: &'db Database,
        most: usize,
        line: &str,
        paged: Paged,
        values: Vec<Value>,
    ) -> Result<Page<'db>> {
        let (given, version) = (InOrder(&values), version_of(database, &paged.table)?);
        let rows = match &paged.first {
            None => database.first(most, line, given)?,
            // (what is refused is so by its own line)
            Some(first) => database
                .first(0, line, given)
                .and_then(|_| database.first(most, first, &values))?,
        };
        let keys = Keys { paged, values, version };
        Ok(keys.before(most, rows))
    }

    /// Reads the page behind one, which goes before.
    fn read_on(mut self, database: &Database, most: usize, before: Rows) -> Result<Page<'_>> {
        let last = before.get(most - 1).map(|row| row.value(self.paged.key).into());
        drop(before);
        if version_of(database, &self.paged.table)? != self.version {
            return Err(Error::Changed {
                table: self.paged.table,
            });
        }
        self.values.extend(last);
        let rows = database.first(most, &self.paged.further, &self.values)?;
        self.values.pop();
        Ok(self.before(most, rows))
    }

    /// A page of these rows, which is the last where there are fewer than a page has.
    fn before<'db>(self, most: usize, rows: Rows) -> Page<'db> {
        let ahead = (rows.len() == most).then_some(Ahead::Keys(self));
        Page { rows, ahead }
    }
}

impl<'db> Lending<'db> {
    /// Finds the rows of a select. None was read then.
    fn open(database: &'db Database, line: &str, values: Vec<Value>) -> Result<Lending<'db>> {
        let (cursor, names) = database.cursor(line, InOrder(&values))?;
        Ok(Lending {
            cursor,
            names,
            line: line.to_string(),
            values,
        })
    }

    /// Reads the next page. Of the last one the rows are kept, and the tables may change.
    fn read_on(mut self, database: &Database, most: usize) -> Result<Page<'db>> {
        if let Err(declined) = self.cursor.fetch(most) {
            return Err(why_not_read(database.handle(), &self.line, &self.values, declined));
        }
        if self.page().len() < most {
            return Ok(Page {
                rows: self.page().to_rows(),
                ahead: None,
            });
        }
        Ok(Page {
            rows: Rows::default(),
            ahead: Some(Ahead::Cursor(self)),
        })
    }

    #[inline]
    fn page(&self) -> RowsRef<'_> {
        RowsRef::new(&self.names, self.cursor.page())
    }
}

impl<T, E: From<Error>, F: FnMut(&Row<'_>) -> Result<T, E>> Iterator for MappedPages<'_, F> {
    type Item = Result<T, E>;

    fn next(&mut self) -> Option<Result<T, E>> {
        if self.next == self.page.lent().len() {
            if let Err(why) = self.read_on() {
                return Some(Err(why.into()));
            }
        }
        let row = self.page.lent().get(self.next)?.front(self.width);
        self.next += 1;
        Some((self.map)(&row))
    }
}

impl<F> fmt::Debug for MappedPages<'_, F> {
    fn fmt(&self, to: &mut fmt::Formatter<'_>) -> fmt::Result {
        let left = self.page.lent().iter().skip(self.next);
        to.debug_list().entries(left.map(|row| row.front(self.width))).finish()
    }
}

/// The line of a select with a `?` at each place, and the values for these. [`Error::NotASelect`] says that it is another.
fn marked_and_bound<P: Params>(line: &str, params: P) -> Result<(String, Vec<Value>)> {
    if !is_select(line) {
        return Err(Error::NotASelect);
    }
    let (mut places, mut bound) = (Vec::new(), Bound::default());
    find_places(line, &mut places);
    bind(line, &places, params, &mut bound)?;
    let marked = with_marks(line, &places).unwrap_or_else(|| line.to_string());
    Ok((marked, bound.iter().map(Value::from).collect()))
}

/// The number of the newest change of a table. It is 0 where there is none of that name.
fn version_of(database: &Database, table: &str) -> Result<u64> {
    match database.table_version(table) {
        Err(why) if why.number() == Some(30) => Ok(0),
        version => version,
    }
}

impl Paged {
    /// How a select is read by pages, if it can be: it is of one table, not `distinct`, and there is room for one condition more.
    fn of(line: &str, tables: &Tables) -> Option<Paged> {
        let line = line.trim_end_matches(BEHIND);
        let tokens: Vec<(usize, &str)> = tokens_of(line).collect();
        let from = tokens.iter().position(|(_, token)| *token == "from")?;
        let (before, table) = (tokens[from].0, tokens.get(from + 1)?.1);
        let joins = match tokens.get(from + 2) {
            None => "where",
            Some((_, "where")) => "and",
            Some(_) => return None,
        };
        let conditions = tokens.iter().filter(|(_, token)| *token == "and").count() + usize::from(joins == "and");
        let items = items_of(tokens.get(1..from)?);
        if tokens[1].1 == "distinct" || conditions >= MOST_CONDITIONS {
            return None;
        }
        let name = &tables.get(table)?.first()?.name;
        let key = format!("{table}.{name}");
        let is_key = |item: &String| item == "*" || item == name || *item == key;
        let place = items.iter().position(is_key).unwrap_or(items.len());
        let first = (place == items.len()).then(|| format!("{}, {key} {}", &line[..before], &line[before..]));
        let further = format!("{} {joins} {key} > ?", first.as_deref().unwrap_or(line));
        (place < MOST_ITEMS && further.len() <= LONGEST).then(|| Paged {
            table: table.to_string(),
            first,
            further,
            key: place,
        })
    }
}

/// The items between these tokens, without blanks in them.
fn items_of(tokens: &[(usize, &str)]) -> Vec<String> {
    let items = tokens.split(|(_, token)| *token == ",");
    items
        .map(|item| item.iter().map(|(_, token)| *token).collect())
        .collect()
}

/// The tokens of a line, each with its place: words, texts, and of all others each character.
fn tokens_of(line: &str) -> impl Iterator<Item = (usize, &str)> + '_ {
    let mut at = 0;
    std::iter::from_fn(move || {
        let rest = line[at..].trim_start_matches(BLANKS);
        let begin = line.len() - rest.len();
        let length = match rest.chars().next()? {
            '\'' => rest[1..].find('\'').map_or(rest.len(), |end| end + 2),
            mark => word_at(line, begin).len().max(mark.len_utf8()),
        };
        at = begin + length;
        Some((begin, &rest[..length]))
    })
}
