//! Statements that the library keeps, and those of them that are found by their lines.

use std::cell::RefCell;
use std::collections::HashMap;
use std::hash::{BuildHasherDefault, Hasher};
use std::ops::{Deref, DerefMut};
use std::sync::Arc;

use crate::bound::Bound;
use crate::database::Database;
use crate::error::{Error, Result};
use crate::library::{Cursor, Declined, Handle, Prepared};
use crate::line::{bind, fill, find_places, is_select, pointed, with_marks, with_nulls, Place};
use crate::many::Many;
use crate::params::Params;
use crate::rows::RowsRef;
use crate::session::refused;
use crate::value::Value;

/// A statement, and what has to be known to put values into its places and to read its rows.
pub(crate) struct Kept {
    prepared: Prepared,
    is_select: bool,
    written: Written,
    /// The names of the columns that its rows have.
    names: Arc<Vec<String>>,
    /// The number of the declarations when the names were asked for.
    named_at: Option<u64>,
}

/// A line, its places, and the values that were bound last.
struct Written {
    line: Arc<str>,
    places: Vec<Place>,
    bound: Bound,
}

impl Kept {
    /// Has a line kept, which is an insert, an update, a delete or a select.
    pub(crate) fn prepare(handle: &Handle, line: &str) -> Result<Kept, Declined> {
        let mut places = Vec::new();
        find_places(line, &mut places);
        let written = Written {
            line: line.into(),
            places,
            bound: Bound::default(),
        };
        Ok(Kept {
            prepared: written.prepare(handle)?,
            is_select: is_select(line),
            written,
            names: Arc::default(),
            named_at: None,
        })
    }

    /// Gives back the room of the rows that it has shown, where it can be prepared anew.
    pub(crate) fn let_go(&mut self, handle: &Handle) {
        if let Ok(anew) = self.written.prepare(handle) {
            handle.finalize(&mut self.prepared);
            self.prepared = anew;
        }
    }

    /// Does a change, and returns the number of rows.
    pub(crate) fn change<P: Params>(&mut self, handle: &Handle, params: P) -> Result<usize> {
        if self.is_select {
            return Err(Error::NotAChange);
        }
        self.bind(handle, params)?;
        let number = self.prepared.number();
        match handle.execute(&mut self.prepared) {
            Ok(executed) => Ok(executed.changed as usize),
            Err(declined) => Err(self.written.why(handle, number, declined)),
        }
    }

    /// Does a change with each of these rows of values, all of them or none, and returns the number of rows.
    pub(crate) fn change_many<P: Params>(
        &mut self,
        database: &Database,
        rows: impl IntoIterator<Item = P>,
    ) -> Result<usize> {
        if self.is_select {
            return Err(Error::NotAChange);
        }
        let mut many = Many::of(database);
        for params in rows {
            if many.is_full() {
                many.begin()?;
                self.send(&mut many)?;
            }
            if self.written.places.is_empty() {
                many.begin()?;
                many.changed += self.change(database.handle(), params)?;
            } else {
                let written = &mut self.written;
                bind(&written.line, &written.places, params, &mut written.bound)?;
                many.push(written.bound.iter());
            }
        }
        self.send(&mut many)?;
        many.end()
    }

    /// Has the rows done that are gathered.
    fn send(&mut self, many: &mut Many<'_>) -> Result<()> {
        let (handle, places) = (many.handle(), self.written.places.len());
        match handle.execute_many(&mut self.prepared, &many.given) {
            Ok(changed) => many.done(changed, places),
            Err(declined) => return Err(self.why_of(many, handle, places, declined)),
        }
        Ok(())
    }

    /// Why rows were declined, by the first of them of which the library tells why.
    #[cold]
    fn why_of(&mut self, many: &Many<'_>, handle: &Handle, places: usize, declined: Declined) -> Error {
        let number = self.prepared.number();
        for row in many.rows(places) {
            self.written.bound.clear();
            row.for_each(|value| self.written.bound.push(value));
            for (place, value) in (0..).zip(self.written.bound.iter()) {
                if handle.bind(&mut self.prepared, place, value).is_err() {
                    return many.in_the_whole(self.written.why(handle, number, declined));
                }
            }
            if handle.statement_reason(number).is_some() {
                break;
            }
        }
        many.in_the_whole(self.written.why(handle, number, declined))
    }

    /// The rows of a select, which are lent: all of them, or only the first, so many at most.
    pub(crate) fn rows<'k, P: Params>(
        &'k mut self,
        handle: &'k Handle,
        params: P,
        declared: u64,
        most: Option<usize>,
    ) -> Result<RowsRef<'k>> {
        self.bind_and_name(handle, params, declared)?;
        let number = self.prepared.number();
        let found = match most {
            None => handle.execute(&mut self.prepared).map(|executed| executed.cells),
            Some(most) => handle.first(&mut self.prepared, most),
        };
        match found {
            Ok(cells) => Ok(RowsRef::new(&self.names, cells)),
            Err(declined) => Err(self.written.why(handle, number, declined)),
        }
    }

    /// A cursor on the rows of a select, and the names of their columns.
    pub(crate) fn cursor<'d, P: Params>(
        &mut self,
        handle: &'d Handle,
        params: P,
        declared: u64,
    ) -> Result<(Cursor<'d>, Arc<Vec<String>>)> {
        self.bind_and_name(handle, params, declared)?;
        let number = self.prepared.number();
        match handle.open_cursor(&mut self.prepared) {
            Ok(cursor) => Ok((cursor, Arc::clone(&self.names))),
            Err(declined) => Err(self.written.why(handle, number, declined)),
        }
    }

    /// How many rows a select shows.
    pub(crate) fn count<P: Params>(&mut self, handle: &Handle, params: P) -> Result<usize> {
        if !self.is_select {
            return Err(Error::NotASelect);
        }
        self.bind(handle, params)?;
        let number = self.prepared.number();
        match handle.count(&mut self.prepared) {
            Ok(count) => usize::try_from(count).or(Err(Error::TooLarge)),
            Err(declined) => Err(self.written.why(handle, number, declined)),
        }
    }

    /// The names of the columns that its rows have, whatever its values are. There are none of a change.
    pub(crate) fn names(&mut self, handle: &Handle, declared: u64) -> Result<&[String]> {
        if self.is_select && self.named_at != Some(declared) {
            let names = handle.columns(&mut self.prepared);
            let number = self.prepared.number();
            self.names = Arc::new(names.map_err(|declined| self.written.why_ever(handle, number, declined))?);
            self.named_at = Some(declared);
        }
        Ok(&self.names)
    }

    /// The line, as it was given.
    pub(crate) fn line(&self) -> &str {
        &self.written.line
    }

    /// Frees it.
    pub(crate) fn finalize(&mut self, handle: &Handle) {
        handle.finalize(&mut self.prepared);
    }

    /// Binds values to a select. The names of its columns are asked for where the declarations are others.
    fn bind_and_name<P: Params>(&mut self, handle: &Handle, params: P, declared: u64) -> Result<()> {
        if !self.is_select {
            return Err(Error::NotASelect);
        }
        self.bind(handle, params)?;
        if self.named_at != Some(declared) {
            let names = handle.columns(&mut self.prepared);
            let number = self.prepared.number();
            self.names = Arc::new(names.map_err(|declined| self.written.why(handle, number, declined))?);
            self.named_at = Some(declared);
        }
        Ok(())
    }

    fn bind<P: Params>(&mut self, handle: &Handle, params: P) -> Result<()> {
        let written = &mut self.written;
        bind(&written.line, &written.places, params, &mut written.bound)?;
        for (place, value) in (0..).zip(written.bound.iter()) {
            if let Err(declined) = handle.bind(&mut self.prepared, place, value) {
                return Err(written.why(handle, self.prepared.number(), declined));
            }
        }
        Ok(())
    }
}

impl Written {
    fn prepare(&self, handle: &Handle) -> Result<Prepared, Declined> {
        let marked = with_marks(&self.line, &self.places);
        handle.prepare(marked.as_deref().unwrap_or(&self.line).as_bytes())
    }

    /// Why a call with these values was declined, of the statement of a number.
    #[cold]
    fn why(&self, handle: &Handle, number: u32, declined: Declined) -> Error {
        let mut filled = String::new();
        fill(&self.line, &self.places, self.bound.iter(), &mut filled);
        let reason = || handle.statement_reason(number);
        refusal_of(handle, declined, &self.line, &self.places, filled, reason)
    }

    /// Why it was declined whatever its values are. It is told with nulls in its places.
    #[cold]
    fn why_ever(&self, handle: &Handle, number: u32, declined: Declined) -> Error {
        let filled = with_nulls(&self.line, &self.places);
        let reason = || handle.statement_reason(number);
        refusal_of(handle, declined, &self.line, &self.places, filled, reason)
    }
}

/// Why a line wasn't kept as a statement. It is told with nulls in its places.
#[cold]
pub(crate) fn why_not_prepared(handle: &Handle, line: &str, declined: Declined) -> Error {
    let mut places = Vec::new();
    find_places(line, &mut places);
    let filled = with_nulls(line, &places);
    not_prepared(handle, declined, line, &places, filled)
}

/// Why a line wasn't kept as a statement. It is told with these parameters in its places.
#[cold]
pub(crate) fn why_not_kept<P: Params>(handle: &Handle, line: &str, params: P, declined: Declined) -> Error {
    let (mut places, mut bound, mut filled) = (Vec::new(), Bound::default(), String::new());
    find_places(line, &mut places);
    if let Err(why) = bind(line, &places, params, &mut bound) {
        return why;
    }
    if line.contains('\n') {
        return Error::NotOneRequest;
    }
    fill(line, &places, bound.iter(), &mut filled);
    not_prepared(handle, declined, line, &places, filled)
}

/// Why no further rows were read of the select of a line, which has these values in its places.
#[cold]
pub(crate) fn why_not_read(handle: &Handle, line: &str, values: &[Value], declined: Declined) -> Error {
    let (mut places, mut filled) = (Vec::new(), String::new());
    find_places(line, &mut places);
    fill(line, &places, values.iter().map(Into::into), &mut filled);
    refusal_of(handle, declined, line, &places, filled, || None)
}

/// Why a line with these places, which are filled so, wasn't kept as a statement.
fn not_prepared(handle: &Handle, declined: Declined, line: &str, places: &[Place], filled: String) -> Error {
    let marked = with_marks(line, places);
    let reason = || handle.prepare_reason(marked.as_deref().unwrap_or(line).as_bytes());
    refusal_of(handle, declined, line, places, filled, reason)
}

/// Why a call was declined on a line with these places, which are filled so, by the reason that a function asks for.
fn refusal_of(
    handle: &Handle,
    declined: Declined,
    line: &str,
    places: &[Place],
    filled: String,
    reason: impl FnOnce() -> Option<String>,
) -> Error {
    match declined {
        Declined::Refused => {
            let answer = handle.refusal();
            let reason = reason().map(|words| pointed(line, places, words));
            refused(&answer, filled, line.to_string(), reason)
        }
        Declined::NoMemory => Error::no_memory(filled, line.to_string()),
        Declined::TooLarge => Error::TooLarge,
        Declined::Shared => Error::Shared,
        Declined::Interrupted => Error::Interrupted,
        Declined::Status(status) => Error::Status(status),
    }
}

/// How many statements are kept by their lines.
const MOST_LINES: usize = 256;

/// The statements that are found by their lines. Where there are many, the one goes that wasn't used for longest.
///
/// A statement is taken out while it is used, since values, and functions that read rows, are the program's own, and may use
/// the database too. So no statement is executed again while its rows are lent.
#[derive(Default)]
pub(crate) struct Lines(RefCell<Slots>);

#[derive(Default)]
struct Slots {
    slots: Vec<Slot>,
    /// Where the statement of a line is.
    places: HashMap<Arc<str>, usize, BuildHasherDefault<LineHasher>>,
    /// Where the last one was found, which mostly is the next one too.
    last: usize,
    /// How many uses there were.
    uses: u64,
}

struct Slot {
    line: Arc<str>,
    /// The statement, or none while it is used.
    kept: Option<Box<Kept>>,
    /// Which use was its last.
    used: u64,
}

/// A statement that is used, and put back at the end. One whose place is another's by then is freed.
pub(crate) struct InUse<'d> {
    lines: &'d Lines,
    handle: &'d Handle,
    at: usize,
    /// (there is one until the end)
    kept: Option<Box<Kept>>,
}

impl Lines {
    /// The statement of a line, if it is kept, and isn't used already.
    pub(crate) fn find<'d>(&'d self, handle: &'d Handle, line: &str) -> Option<InUse<'d>> {
        let slots = &mut *self.0.borrow_mut();
        let at = slots.place_of(line)?;
        slots.last = at;
        let slot = &mut slots.slots[at];
        let kept = Some(slot.kept.take()?);
        slots.uses += 1;
        slot.used = slots.uses;
        Some(InUse {
            lines: self,
            handle,
            at,
            kept,
        })
    }

    /// Has a statement of a line prepared, which is kept where there is none of the line yet.
    pub(crate) fn keep<'d>(&'d self, handle: &'d Handle, line: &str) -> Result<InUse<'d>, Declined> {
        let kept = Kept::prepare(handle, line)?;
        let at = self.0.borrow_mut().place_for(handle, &kept.written.line);
        Ok(InUse {
            lines: self,
            handle,
            at,
            kept: Some(Box::new(kept)),
        })
    }
}

impl Slots {
    /// Where the statement of a line is, if there is one.
    #[inline]
    fn place_of(&self, line: &str) -> Option<usize> {
        match self.slots.get(self.last) {
            Some(slot) if *slot.line == *line => Some(self.last),
            _ => self.places.get(line).copied(),
        }
    }

    /// A place for the statement of a line. There is none, and so a number past all places, where another statement of the line
    /// has one.
    fn place_for(&mut self, handle: &Handle, line: &Arc<str>) -> usize {
        if self.places.contains_key(line) {
            return usize::MAX;
        }
        self.uses += 1;
        let slot = Slot {
            line: Arc::clone(line),
            kept: None,
            used: self.uses,
        };
        let at = if self.slots.len() < MOST_LINES {
            self.slots.push(slot);
            self.slots.len() - 1
        } else {
            let at = self.longest_unused();
            let gone = std::mem::replace(&mut self.slots[at], slot);
            if let Some(mut kept) = gone.kept {
                kept.finalize(handle);
            }
            self.places.remove(&gone.line);
            at
        };
        self.places.insert(Arc::clone(line), at);
        at
    }

    fn longest_unused(&self) -> usize {
        let uses = self.slots.iter().map(|slot| slot.used).enumerate();
        uses.min_by_key(|(_, used)| *used).map_or(0, |(at, _)| at)
    }
}

impl Deref for InUse<'_> {
    type Target = Kept;

    #[inline]
    fn deref(&self) -> &Kept {
        self.kept.as_ref().expect("it is put back at the end alone")
    }
}

impl DerefMut for InUse<'_> {
    #[inline]
    fn deref_mut(&mut self) -> &mut Kept {
        self.kept.as_mut().expect("it is put back at the end alone")
    }
}

impl Drop for InUse<'_> {
    #[inline]
    fn drop(&mut self) {
        let mut kept = match self.kept.take() {
            Some(kept) => kept,
            None => return,
        };
        match self.lines.0.borrow_mut().slots.get_mut(self.at) {
            Some(slot) if Arc::ptr_eq(&slot.line, &kept.written.line) => slot.kept = Some(kept),
            _ => kept.finalize(self.handle),
        }
    }
}

/// Hashes lines by eight bytes at a time. They are the program's own, so that nobody picks them to be alike.
#[derive(Default)]
struct LineHasher(u64);

impl LineHasher {
    #[inline]
    fn mix(&mut self, word: [u8; 8]) {
        let mixed = self.0.rotate_left(5) ^ u64::from_le_bytes(word);
        self.0 = mixed.wrapping_mul(0x517c_c1b7_2722_0a95);
    }
}

impl Hasher for LineHasher {
    #[inline]
    fn write(&mut self, bytes: &[u8]) {
        let mut words = bytes.chunks_exact(8);
        for word in &mut words {
            self.mix(word.try_into().unwrap_or_default());
        }
        // (the last eight bytes, of which some were mixed already, so that none has to be copied)
        match bytes.len().checked_sub(8) {
            Some(from) => self.mix(bytes[from..].try_into().unwrap_or_default()),
            None => words.remainder().iter().for_each(|byte| self.mix([*byte; 8])),
        }
    }

    #[inline]
    fn write_u8(&mut self, byte: u8) {
        self.0 ^= u64::from(byte);
    }

    #[inline]
    fn finish(&self) -> u64 {
        self.0 ^ (self.0 >> 32)
    }
}
