"""The transactions of a shell's database: those that `.begin` has opened, and those of the last changes, of which `.undo` takes one
back.

What must hold: the change that was kept last has the innermost transaction, and each one before it the next outer one. Around them
are those that `.begin` has opened.
"""

from __future__ import annotations

from functools import cached_property
from typing import Any, Callable, List, Optional, Tuple, TypeVar

import mmdb

from .moving import answer
from .showing import visible
from .trouble import Trouble

Result = TypeVar("Result")

# The refusals of what is no line, or no command; and that of what finds no memory.
_NO_COMMAND, _NO_MEMORY = (b"error 10 ", b"error 11 ", b"error 20 "), 90
# The lines that change nothing, beside selects.
_READING = (b"dump", b"tables")
# How many changes are kept at most, and with how many rows before the last. (The library holds four bytes for each row, each row
# that is deleted or dropped, and each value that an update replaces.)
_MOST_CHANGES, _MOST_ROWS = 64, 1_000_000
#: Of a file or a pipe so many lines are kept, so that a long one takes no more time for it.
MOST_LINES = 10_000
# Of a change so much is told.
_MOST_TOLD = 60
_ONE_ROW = b"ok 1\n"
_NOT_KEPT = f"of a file or a pipe only the first {MOST_LINES:,} lines can be undone"
_NO_MORE = "the last change can't be undone any more"

# A change that can be taken back: its line, and how many rows it is about. (There is one for each line, so it is a plain tuple.)
_Change = Tuple[bytes, int]


class Transactions:
    """The transactions of a database."""

    def __init__(self, db: mmdb.Database) -> None:
        self._db = db
        #: How many `.begin` has opened, each inside the one before it.
        self.count = 0
        #: The last changes, and how many rows they have. They are several, so that one that is refused takes none away: the
        #: transaction of the one before it could only be ended before the next is tried.
        self._kept: List[_Change] = []
        self._rows = 0
        #: Whether changes by lines are kept.
        self.keeps = True
        #: Why there is nothing to undo where none is kept.
        self._nothing = "no change was done yet"

    # ---- those that are begun

    def begin(self) -> None:
        self._forget("no change was done since .begin")
        self._db.begin()
        self.count += 1

    def commit(self) -> None:
        self._check_open()
        self._forget("no change was done since .commit")
        self._db.commit()
        self.count -= 1

    def rollback(self) -> None:
        self._check_open()
        self._forget("no change was done since .rollback")
        self._db.rollback()
        self.count -= 1

    def _check_open(self) -> None:
        if not self.count:
            raise Trouble("no transaction is open; .begin opens one")

    def check_none(self) -> None:
        """Raises Trouble where one is open."""
        if self.count:
            raise Trouble("a transaction is open: end it by .commit or .rollback first")

    # ---- changes

    def answer(self, line: bytes, block: Optional[bytes] = None) -> bytes:
        """The answer to a line that is no select, with its block."""
        if _word(line) in _READING:
            return answer(self._db, line, block)
        return self.change(line, answer, self._db, line, block)

    def change(self, line: bytes, do: Callable[..., Result], *given: Any) -> Result:
        """Does a line that changes something, and keeps it. Where it is refused, those before it stay kept."""
        if not (self.keeps or self.count):
            self._forget(_NOT_KEPT)
            return do(*given)
        dropped = self._rows_dropped(line) if line.lstrip(b" \t").startswith(b"drop") else 0
        try:
            if len(self._kept) >= _MOST_CHANGES or self._rows > _MOST_ROWS:
                self._tried(do, *given)
            result = self._done(do, *given)
        except mmdb.Refused as why:
            if why.number != _NO_MEMORY:
                raise
            return self._done_unkept(line, do, *given)
        rows = 1 if result == _ONE_ROW else _rows_of(result) + dropped
        self._kept.append((line, rows))
        self._rows += rows
        return result

    def whole(self, line: str, do: Callable[[], int]) -> int:
        """Does several changes, all of them or none, and keeps them as one. They are called by a line."""
        if len(self._kept) >= _MOST_CHANGES or self._rows > _MOST_ROWS:
            self._forget(_NO_MORE)
        rows = self._done(do)
        self._kept.append((line.encode("utf-8", "surrogateescape"), rows))
        self._rows += rows
        return rows

    def undo(self) -> str:
        """Takes the last change back, and tells which it was."""
        if not self._kept:
            raise Trouble(self._nothing)
        line, _ = self._kept.pop()
        self._db.rollback()
        self._forget("nothing more can be undone")
        return _told(line)

    def _done(self, do: Callable[..., Result], *given: Any) -> Result:
        """Does a change in a transaction of its own, which stays open."""
        self._db.begin()
        try:
            return do(*given)
        except BaseException:
            self._db.rollback()
            raise

    def _done_unkept(self, line: bytes, do: Callable[..., Result], *given: Any) -> Result:
        """Does a change for whose transaction no memory was found."""
        self._forget(f"no memory was found to undo {_told(line)}")
        return do(*given)

    def _tried(self, do: Callable[..., Result], *given: Any) -> None:
        """Does a change that is taken back again. Where it isn't refused, those before it are no longer kept."""
        self._done(do, *given)
        self._db.rollback()
        self._forget(_NO_MORE)

    def _rows_dropped(self, line: bytes) -> int:
        """How many rows the table has that a line drops."""
        words = line.decode("utf-8", "replace").split()
        if words[:2] != ["drop", "table"] or len(words) != 3:
            return 0
        try:
            return self._db.indexes(words[2])[0].rows
        except mmdb.Error:
            return 0

    def _forget(self, nothing: str) -> None:
        """Ends the transactions of the changes that are kept."""
        for _ in self._kept:
            self._db.commit()
        self._kept.clear()
        self._rows, self._nothing = 0, nothing

    # ---- what is no command

    @cached_property
    def speller(self) -> mmdb.Database:
        """A database without rows. What is no command it refuses as any other does."""
        return mmdb.Database()

    def check_spelling(self, line: bytes) -> None:
        """Raises the refusal of what is no line, or no command."""
        if self.speller.answer(line).startswith(_NO_COMMAND):
            answer(self.speller, line)


def _word(line: bytes) -> bytes:
    """The first word of a line."""
    return (line.split(None, 1) or [b""])[0]


def _rows_of(result: object) -> int:
    """How many rows a change was about, by its answer or the number itself."""
    told = result.encode() if isinstance(result, str) else result
    if isinstance(told, bytes):
        return int(told[len("ok ") :]) if told.startswith(b"ok ") else 0
    return told if isinstance(told, int) else 0


def _told(line: bytes) -> str:
    """A line, or its front."""
    told = visible(line.decode("utf-8", "replace").strip())
    return told if len(told) <= _MOST_TOLD else told[: _MOST_TOLD - 3] + "..."
