"""The exceptions: the tree of PEP 249, with a place for each refusal of the library and each wrong use of a call."""

from __future__ import annotations

from typing import Dict, Optional, Type

from .pointing import pointed


class Warning(Exception):  # pylint: disable=redefined-builtin
    """What a call warns of that it does. PEP 249 has it."""


class CsvWarning(Warning, UserWarning):
    """A CSV is loaded that has a field with odd quote marks. It is a warning, and raised only by those who ask for that."""

    def __init__(self, told: str, record: int = 0) -> None:
        super().__init__(told)
        #: The number of the record, counted from 1; 0 for that of the names.
        self.record = record


class Error(Exception):
    """The root of all others."""


class InterfaceError(Error):
    """Never raised; PEP 249 has it."""


class DatabaseError(Error):
    """What has to do with the database."""


class DataError(DatabaseError):
    """A value that is too long, or doesn't fit its column."""


class OperationalError(DatabaseError):
    """A limit was met, of memory, of rows or of a block."""


class IntegrityError(DatabaseError):
    """A rule of keys or references would have been broken."""


class InternalError(DatabaseError):
    """Never raised; PEP 249 has it."""


class ProgrammingError(DatabaseError):
    """A line, or a call, that is wrong in itself."""


class NotSupportedError(DatabaseError):
    """What mmdb doesn't have."""


class Refused(DatabaseError):
    """An answer `error NUMBER TEXT`. The tables are unchanged.

    It is of one of the classes above too, by its number.
    """

    def __init__(
        self,
        number: int,
        text: str,
        line: Optional[str] = None,
        reason: Optional[str] = None,
        written: Optional[str] = None,
    ) -> None:
        super().__init__(number, text)
        #: The number of the refusal.
        self.number = number
        #: The text after the number, with the number of a record if the refusal of a load has one.
        self.text = text
        #: The line as it was sent, with its parameters in their places; None if memory ran out when a database was opened.
        self.line = line
        #: Why, in a line of words for people; None if memory ran out for them.
        self.reason = reason
        #: The line as it was written, with its places. The columns that the reason names are those of this line.
        self.written = line if written is None else written

    def __str__(self) -> str:
        told = f"error {self.number} {self.text}" + (f": {self.reason}" if self.reason else "")
        return told + pointed(self.written, self.reason)

    def __repr__(self) -> str:
        return f"{type(self).__name__}({self.number}, {self.text!r}, {self.line!r}, {self.reason!r})"


class DataRefused(Refused, DataError):
    """The refusals 46, 61 and 62."""


class LimitRefused(Refused, OperationalError):
    """The refusals 12, 43 and 64."""


class IntegrityRefused(Refused, IntegrityError):
    """The refusals 40, 41, 42 and 44."""


class LineRefused(Refused, ProgrammingError):
    """The refusals 10, 11, 20, 30 to 39, and 45."""


class NoMemory(Refused, OperationalError, MemoryError):
    """The refusal 90. Memory ran out, for opening a database or for a request."""


class Shared(OperationalError):
    """Readers share the tables, or an iterator that isn't closed, so that nobody changes them. Nothing has changed."""


class Interrupted(OperationalError):
    """A select was asked to end while it was under way, by `interrupt`. Nothing has changed."""


class Changed(OperationalError):
    """A table was changed between two pages of its rows, which `iterate` read. It gives no row of the second."""


class NoTransaction(ProgrammingError):
    """No transaction is open that could be committed or rolled back. Nothing has changed."""


class InTransaction(NotSupportedError):
    """A transaction is open, and no reader is made in one. Nothing has changed, and the transaction stays open."""


class WrongUse(ProgrammingError, ValueError):
    """Parameters that don't fit the line, a line that is none, a closed database."""


class WrongType(ProgrammingError, TypeError):
    """A value of another type, or a line of another kind, than the call takes."""


class WrongValue(DataError, ValueError):
    """A value of the right type that can't be sent, or can't be told from another."""


class WrongFile(WrongValue):
    """A file that is no whole dump. Where a line of it was refused, the reason for that is told behind it."""

    def __init__(self, told: str, reason: Optional[str] = None) -> None:
        super().__init__(f"mmdb: {told}" + (f": {reason}" if reason else ""))
        self.told = told
        self.reason = reason


_CLASSES: Dict[int, Type[Refused]] = {
    **dict.fromkeys((46, 61, 62), DataRefused),
    **dict.fromkeys((12, 43, 64), LimitRefused),
    **dict.fromkeys((40, 41, 42, 44), IntegrityRefused),
    **dict.fromkeys((10, 11, 20, *range(30, 40), 45), LineRefused),
    90: NoMemory,
}


def refusal_of(answer: bytes, line: bytes, reason: Optional[str], written: Optional[str] = None) -> Refused:
    """The refusal that an answer is, to this line and for this reason. The line was written so, where it has places."""
    number, text = answer[6:-1].decode().split(" ", 1)
    return _CLASSES.get(int(number), Refused)(int(number), text, line.decode(), reason, written)
