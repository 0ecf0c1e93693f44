//! Lines with parameters, and what the library answers to them.

use std::cell::RefCell;

use crate::bound::Bound;
use crate::error::{Error, Result};
use crate::library::Handle;
use crate::line::{bind, fill, find_places, Place};
use crate::params::Params;

/// A handle, and the room in which lines are made for it.
pub(crate) struct Session {
    pub(crate) handle: Handle,
    room: RefCell<Room>,
}

/// Room that is used again. It is taken out while it is used, since values of a program's own may use the database too.
#[derive(Default)]
struct Room {
    line: String,
    places: Vec<Place>,
    bound: Bound,
}

/// A call of the handle that answers a line.
type Call = fn(&Handle, &[u8]) -> Result<()>;

impl Session {
    pub(crate) fn over(handle: Handle) -> Session {
        Session {
            handle,
            room: RefCell::default(),
        }
    }

    /// What a function makes of the answer to a line with parameters, where it is no refusal.
    pub(crate) fn ask<P: Params, T>(&self, line: &str, params: P, read: impl FnOnce(&str) -> T) -> Result<T> {
        self.ask_by(Handle::command, line, params, read)
    }

    /// What a function makes of the plan of a select with parameters, where the line isn't refused.
    pub(crate) fn plan<P: Params, T>(&self, line: &str, params: P, read: impl FnOnce(&str) -> T) -> Result<T> {
        self.ask_by(Handle::plan, line, params, read)
    }

    fn ask_by<P, T>(&self, call: Call, line: &str, params: P, read: impl FnOnce(&str) -> T) -> Result<T>
    where
        P: Params,
    {
        let mut room = self.room.take();
        let answered = self.ask_in(&mut room, call, line, params, read);
        self.room.replace(room);
        answered
    }

    fn ask_in<P, T>(
        &self,
        room: &mut Room,
        call: Call,
        line: &str,
        params: P,
        read: impl FnOnce(&str) -> T,
    ) -> Result<T>
    where
        P: Params,
    {
        find_places(line, &mut room.places);
        bind(line, &room.places, params, &mut room.bound)?;
        if room.bound.has_line_feed() {
            return Err(Error::LineFeed);
        }
        fill(line, &room.places, room.bound.iter(), &mut room.line);
        call(&self.handle, room.line.as_bytes())?;
        self.accepted(&room.line, &room.line, &[], read)
    }

    /// What a function makes of the answer to a line with its block, where it is no refusal. It has no places for parameters.
    pub(crate) fn send<T>(&self, line: &str, block: &[u8], read: impl FnOnce(&str) -> T) -> Result<T> {
        self.handle.load(line.as_bytes(), block)?;
        self.accepted(line, line, block, read)
    }

    /// Does a line without a block, in which nothing is a place for a parameter.
    pub(crate) fn tell(&self, line: &str) -> Result<()> {
        self.handle.command(line.as_bytes())?;
        self.accepted(line, line, &[], |_| ())
    }

    /// What a function makes of what is told of the indexes of a table, where it is there.
    pub(crate) fn indexes<T>(&self, table: &str, read: impl FnOnce(&str) -> T) -> Result<T> {
        self.handle.indexes(table.as_bytes())?;
        // A dump is refused for the same reason.
        let dump = format!("dump {table}");
        self.accepted(table, &dump, &[], read)
    }

    /// The number of the newest change of a table, where it is there, or of all if its name is empty.
    pub(crate) fn version(&self, table: &str) -> Result<u64> {
        let version = self.handle.version(table.as_bytes())?;
        // A dump is refused for the same reason.
        let dump = format!("dump {table}");
        self.accepted(table, &dump, &[], |_| version)
    }

    pub(crate) fn handle(&mut self) -> &mut Handle {
        &mut self.handle
    }

    /// What a function makes of the answer just given to a line, where it is no refusal. The reason of one is that of another
    /// line, with its block.
    fn accepted<T>(&self, line: &str, asked: &str, block: &[u8], read: impl FnOnce(&str) -> T) -> Result<T> {
        self.handle.with_answer(|answer| {
            if answer.starts_with(ERROR.as_bytes()) {
                let answer = String::from_utf8_lossy(answer).into_owned();
                let reason = self.handle.reason(asked.as_bytes(), block);
                return Err(refused(&answer, line.to_string(), line.to_string(), reason));
            }
            Ok(read(std::str::from_utf8(answer).expect("an answer is UTF-8")))
        })
    }
}

/// What the answer begins with that is a refusal.
pub(crate) const ERROR: &str = "error ";

/// The refusal in an answer to a line, which was written so with its places, and the reason.
pub(crate) fn refused(answer: &str, line: String, written: String, reason: Option<String>) -> Error {
    let told = answer.strip_prefix(ERROR).unwrap_or_default().trim_end_matches('\n');
    let (number, text) = told.split_once(' ').unwrap_or((told, ""));
    let (number, text) = (number.parse().unwrap_or_default(), text.to_string());
    Error::Refused {
        number,
        text,
        line,
        reason,
        written,
    }
}
