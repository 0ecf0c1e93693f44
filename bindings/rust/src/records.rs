//! The records of a CSV that is read piece by piece.

use std::io::{ErrorKind, Read};
use std::ops::Range;

use crate::csv_options::Form;
use crate::error::{Error, Result};
use crate::fields::Fields;

/// How many bytes are asked for at once.
const PIECE: usize = 1 << 16;
/// What a file of UTF-8 may begin with.
const MARK: &[u8] = b"\xef\xbb\xbf";

/// The records of a CSV. A quote mark opens a quoted field only at its front, and a record ends at a line feed or a carriage
/// return. So an empty line is a record of one empty field here, which a load skips.
pub(crate) struct Records<R> {
    from: R,
    form: Form,
    piece: Box<[u8]>,
    /// What of the piece wasn't taken yet.
    left: Range<usize>,
    /// The first field of the records so far whose quote marks are odd.
    odd: Option<Odd>,
}

/// What is odd about the quote marks of a field, which is read otherwise than it was meant.
#[derive(Clone, Copy, Debug, PartialEq, Eq)]
pub(crate) enum Odd {
    /// None closes it, so that it holds all that follows.
    Open,
    /// Text is behind the one that closes it, and is read as a part of it.
    Behind,
}

/// Where in a field a byte is.
#[derive(Clone, Copy, PartialEq, Eq)]
enum Within {
    Front,
    Plain,
    Quoted,
    /// Behind a quote mark that closes the field, or is the first of two.
    Closed,
}

/// What ended a record.
#[derive(Clone, Copy, Debug, PartialEq, Eq)]
pub(crate) enum End {
    /// The end of its line.
    Line(u8),
    /// That of the file. Where there are no fields, there was no record.
    File,
    /// The record is longer than it may be, and isn't ended.
    TooLong,
}

impl<R: Read> Records<R> {
    pub(crate) fn of(from: R, form: Form) -> Records<R> {
        Records {
            from,
            form,
            piece: vec![0; PIECE].into_boxed_slice(),
            left: 0..0,
            odd: None,
        }
    }

    /// What is odd about the first field so far with odd quote marks.
    pub(crate) fn odd(&self) -> Option<Odd> {
        self.odd
    }

    /// The mark that the file begins with, or nothing. It is no part of the first record.
    pub(crate) fn mark(&mut self) -> Result<&'static [u8]> {
        let mut end = 0;
        while end < MARK.len() {
            match self.read(end)? {
                0 => break,
                more => end += more,
            }
        }
        let is_marked = self.piece[..end].starts_with(MARK);
        let mark = if is_marked { MARK } else { &[] };
        self.left = mark.len()..end;
        Ok(mark)
    }

    /// Reads the next record into fields, of so many bytes at most.
    pub(crate) fn next(&mut self, most: usize, fields: &mut Fields) -> Result<End> {
        fields.clear();
        let mut within = Within::Front;
        while self.has_more()? {
            let left = &self.piece[self.left.clone()];
            let run = within.run(left, self.form);
            fields.push(&left[..run]);
            let next = left.get(run).copied();
            self.left.start += run + usize::from(next.is_some());
            if run > 0 && within != Within::Quoted {
                self.note(Odd::Behind, within == Within::Closed);
                within = Within::Plain;
            }
            if fields.size() + fields.len() > most {
                return Ok(End::TooLong);
            }
            match next {
                Some(mark) if self.form.is_quote(mark) => {
                    fields.push(&[mark]);
                    within = within.behind_mark();
                }
                Some(mark) if mark == self.form.separator => {
                    fields.end();
                    within = Within::Front;
                }
                Some(end) => {
                    fields.end();
                    return Ok(End::Line(end));
                }
                None => {}
            }
        }
        self.note(Odd::Open, within == Within::Quoted);
        within.end_file(fields, self.form);
        Ok(End::File)
    }

    /// Keeps what is odd about a field, if it is, and no field before was.
    fn note(&mut self, odd: Odd, is_odd: bool) {
        self.odd = self.odd.or(Some(odd).filter(|_| is_odd));
    }

    /// Whether a byte is left, which is asked for if the piece has none.
    fn has_more(&mut self) -> Result<bool> {
        if self.left.is_empty() {
            self.left = 0..self.read(0)?;
        }
        Ok(!self.left.is_empty())
    }

    /// Reads into the piece from a place on, and returns how many bytes that were.
    fn read(&mut self, at: usize) -> Result<usize> {
        loop {
            match self.from.read(&mut self.piece[at..]) {
                Err(error) if error.kind() == ErrorKind::Interrupted => {}
                read => return read.map_err(|error| Error::unread(&error)),
            }
        }
    }
}

impl Within {
    /// How many of the bytes are simply the next ones of the field. A quote mark is at the front of a field, or in a quoted one,
    /// more than that.
    fn run(self, bytes: &[u8], form: Form) -> usize {
        let ends = |byte: &u8| match self {
            Within::Quoted => form.is_quote(*byte),
            _ => *byte == form.separator || matches!(*byte, b'\r' | b'\n'),
        };
        let is_plain = matches!(self, Within::Plain | Within::Quoted);
        match bytes.first() {
            Some(first) if !is_plain && form.is_quote(*first) => 0,
            _ => bytes.iter().position(ends).unwrap_or(bytes.len()),
        }
    }

    /// Ends the last record, if there is one, and the quoted field that isn't closed.
    fn end_file(self, fields: &mut Fields, form: Form) {
        if let (Within::Quoted, Some(mark)) = (self, form.quote) {
            fields.push(&[mark]);
        }
        if fields.size() + fields.len() > 0 {
            fields.end();
        }
    }

    /// Where the byte is behind a quote mark that ended a run.
    fn behind_mark(self) -> Within {
        match self {
            Within::Quoted => Within::Closed,
            _ => Within::Quoted,
        }
    }
}
