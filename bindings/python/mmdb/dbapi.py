"""PEP 249 over a database. A change begins a transaction, unless the connection commits each by itself."""

from __future__ import annotations

import datetime
import functools
from typing import Any, Callable, Iterable, List, Mapping, NoReturn, Optional, Sequence, Tuple, Type, TypeVar

from . import errors
from .database import MOST, Database, Parameters
from .errors import NotSupportedError, Refused, WrongType, WrongUse
from .lines import one_line, placed
from .rows import Row, Rows, row_type, short_names

apilevel = "2.0"

#: Threads may share the module and connections, and no cursors.
threadsafety = 2

#: `?`, and `:name` too, where the parameters are a mapping.
paramstyle = "qmark"

#: The types of columns, as `Cursor.description` has them. There are no others.
STRING, NUMBER = str, int


Result = TypeVar("Result")


class TypeObject:
    """A type object of PEP 249: it is equal to each of some types."""

    def __init__(self, *types: type) -> None:
        self._types = frozenset(types)

    def __eq__(self, other: object) -> bool:
        return self is other or isinstance(other, type) and other in self._types

    def __hash__(self) -> int:
        return hash(self._types)


#: Those of no column: dates and times are stored as texts, and bytes and row numbers not at all.
DATETIME = TypeObject(datetime.date, datetime.time, datetime.datetime)
BINARY, ROWID = TypeObject(bytes, bytearray, memoryview), TypeObject()

#: The constructors of PEP 249. What they make are parameters, but for `Binary`.
Date, Time, Timestamp, Binary = datetime.date, datetime.time, datetime.datetime, bytes


def DateFromTicks(ticks: float) -> datetime.date:  # pylint: disable=invalid-name
    """The day of a time, in seconds since the epoch."""
    return datetime.date.fromtimestamp(ticks)


def TimeFromTicks(ticks: float) -> datetime.time:  # pylint: disable=invalid-name
    """The time of the day of a time, in seconds since the epoch."""
    return datetime.datetime.fromtimestamp(ticks).time()


def TimestampFromTicks(ticks: float) -> datetime.datetime:  # pylint: disable=invalid-name
    """A time, in seconds since the epoch."""
    return datetime.datetime.fromtimestamp(ticks)


#: What `Cursor.description` has for a column.
Description = Tuple[str, type, None, None, None, None, None]


def connect(policy: str = "auto", rows: int = MOST, block: int = MOST, *, autocommit: bool = False) -> Connection:
    """A connection to a new database, which has no tables yet. The first three arguments are those of `Database`.

    With `autocommit` each change is final, and nothing can be rolled back.
    """
    return Connection(Database(policy, rows, block), autocommit)


class Connection:
    """A connection to a database.

    Without `autocommit` the first insert, update or delete of its cursors begins a transaction, which `commit` or `rollback`
    ends. What declares and drops tables and indexes begins none, and is part of an open one.

    Used as a context manager, it commits at the end, or rolls back at an exception. It isn't closed then. Each call of a
    closed one but `close` raises ProgrammingError.
    """

    # (the exceptions of PEP 249, for programs that have connections of several modules)
    Warning = errors.Warning
    Error = errors.Error
    InterfaceError = errors.InterfaceError
    DatabaseError = errors.DatabaseError
    DataError = errors.DataError
    OperationalError = errors.OperationalError
    IntegrityError = errors.IntegrityError
    InternalError = errors.InternalError
    ProgrammingError = errors.ProgrammingError
    NotSupportedError = errors.NotSupportedError

    def __init__(self, database: Database, autocommit: bool = False) -> None:
        #: The database, for what PEP 249 has no call for, as `load` and `dump`. Its calls begin no transaction by themselves.
        self.database = database
        self._autocommit = autocommit

    @property
    def autocommit(self) -> bool:
        """Whether each change is final."""
        return self._autocommit

    def cursor(self) -> Cursor:
        self._check()
        return Cursor(self)

    def commit(self) -> None:
        """Keeps what was changed since the last commit or rollback. Does nothing if nothing was, and with `autocommit`."""
        self._check()
        if not self._autocommit:
            self._end_all(self.database.commit)

    def rollback(self) -> None:
        """Undoes what was changed since the last commit or rollback. Does nothing if nothing was.

        Raises NotSupportedError with `autocommit`.
        """
        self._check()
        if self._autocommit:
            raise NotSupportedError("mmdb: each change is final by autocommit, so nothing can be rolled back")
        self._end_all(self.database.rollback)

    def close(self) -> None:
        """Closes the database, which frees all its memory, without a commit. A second call does nothing."""
        self.database.close()

    def __enter__(self) -> Connection:
        return self

    def __exit__(self, kind: Optional[Type[BaseException]], *_: object) -> None:
        if self._autocommit or self.database.closed:
            return
        if kind is None:
            self.commit()
        else:
            self.rollback()

    def _begins(self, operation: Any) -> bool:
        """Whether an operation is an insert, an update or a delete, and these are done in transactions."""
        if self._autocommit or not isinstance(operation, str):
            return False
        at = placed(operation)
        return at.is_statement and not at.is_select

    def _changed(self, change: Callable[[], Result], *leaving: Type[BaseException]) -> Result:
        """Does a change in a transaction, which begins if none is open. It ends again if the change raises, but for errors that
        leave some rows changed. Other threads wait meanwhile, so that none ends it before."""
        database = self.database
        database._keep()
        try:
            if database.in_transaction:
                return change()
            database.begin()
            try:
                return change()
            except leaving:
                raise
            except BaseException:
                database.rollback()
                raise
        finally:
            database._end_keeping()
            if database._watches:
                database._tell()

    def _end_all(self, end: Callable[[], None]) -> None:
        """Ends all transactions that are open, as savepoints may be."""
        with self.database._alone():
            while self.database.in_transaction:
                end()

    def _check(self) -> None:
        """Raises ProgrammingError where the connection is closed."""
        if self.database.closed:
            raise WrongUse("mmdb: the connection is closed")


class Cursor:
    """Does commands, and hands out the rows of the last select.

    What `tables` and `dump` answer is one row of one column, a text.
    """

    def __init__(self, connection: Connection) -> None:
        self.connection = connection
        #: How many rows `fetchmany` returns by default.
        self.arraysize = 1
        #: How many rows the last command was about, or selected; -1 where it was about none.
        self.rowcount = -1
        #: For each column of the last select its name, its type, and five times None; None where nothing was selected.
        self.description: Optional[List[Description]] = None
        self._rows: Optional[Rows] = None
        self._at = 0
        self._is_closed = False

    def execute(self, operation: str, parameters: Parameters = ()) -> Cursor:
        """Executes a command, with a sequence of parameters for `?`, or a mapping for `:name`, and returns this cursor.

        Raises one of the errors of PEP 249.
        """
        self._forget()
        if isinstance(parameters, (str, bytes)) or not isinstance(parameters, (Sequence, Mapping)):
            raise WrongType(f"mmdb: parameters are a sequence or a mapping, not a {type(parameters).__name__}")
        given = (parameters,) if isinstance(parameters, Mapping) else tuple(parameters)
        do = functools.partial(self.connection.database.execute, operation, *given)
        self._take(operation, self.connection._changed(do) if self.connection._begins(operation) else do())
        return self

    def executemany(self, operation: str, seq_of_parameters: Iterable[Parameters]) -> Cursor:
        """Executes an insert, an update or a delete with each of these, and returns this cursor.

        `rowcount` is the sum of all. Raises what `Database.executemany` raises. If one is refused, those before it are done,
        unless the transaction is rolled back.
        """
        self._forget()
        rows = list(seq_of_parameters)
        do = functools.partial(self.connection.database.executemany, operation, rows)
        self.rowcount = self.connection._changed(do, Refused) if self.connection._begins(operation) else do()
        return self

    def fetchone(self) -> Optional[Row]:
        """The next row, or None where there is none left. Raises ProgrammingError where nothing was selected."""
        rows = self.fetchmany(1)
        return rows[0] if rows else None

    def fetchmany(self, size: Optional[int] = None) -> List[Row]:
        """The next so many rows, fewer where fewer are left. Raises ProgrammingError where nothing was selected."""
        rows = self._selected()
        begin = self._at
        self._at = min(begin + max(self.arraysize if size is None else size, 0), len(rows))
        return rows[begin : self._at]

    def fetchall(self) -> List[Row]:
        """All rows that are left. Raises ProgrammingError where nothing was selected."""
        return self.fetchmany(len(self._selected()))

    @property
    def rownumber(self) -> Optional[int]:
        """How many rows of the last select were fetched, which is the number of the next one. None where there are none."""
        return None if self._rows is None else self._at

    @property
    def lastrowid(self) -> None:
        """None, since rows have no numbers beside their keys."""
        return None

    def scroll(self, value: int, mode: str = "relative") -> None:
        """Goes on or back by so many rows, or to the row of that number by the mode `absolute`.

        Raises IndexError where that is before the first row or past the last, and then nothing has changed.
        """
        rows = self._selected()
        if mode not in ("relative", "absolute"):
            raise WrongUse(f"mmdb: the mode of a scroll is relative or absolute, not {mode!r}")
        to = value + (self._at if mode == "relative" else 0)
        if not 0 <= to <= len(rows):
            raise IndexError(f"mmdb: there is no row {to} of {len(rows)}")
        self._at = to

    def callproc(self, procname: str, parameters: Sequence[Any] = ()) -> NoReturn:
        """Raises NotSupportedError, since there are no stored procedures."""
        raise NotSupportedError("mmdb: there are no stored procedures")

    def nextset(self) -> None:
        """Gives None, since a command has one set of rows at most."""
        self._check()
        self._rows = self.description = None

    def __enter__(self) -> Cursor:
        return self

    def __exit__(self, *_: object) -> None:
        self.close()

    def __iter__(self) -> Cursor:
        return self

    def __next__(self) -> Row:
        row = self.fetchone()
        if row is None:
            raise StopIteration
        return row

    def setinputsizes(self, sizes: Any) -> None:
        """Does nothing."""

    def setoutputsize(self, size: int, column: Optional[int] = None) -> None:
        """Does nothing."""

    def close(self) -> None:
        """Lets its rows go. Each further call but this raises ProgrammingError."""
        self._is_closed = True
        self._rows = self.description = None

    def _check(self) -> None:
        self.connection._check()
        if self._is_closed:
            raise WrongUse("mmdb: the cursor is closed")

    def _forget(self) -> None:
        """Forgets what the last command gave."""
        self._check()
        self._rows, self.description, self.rowcount, self._at = None, None, -1, 0

    def _take(self, operation: str, found: Any) -> None:
        """Keeps what a command gave."""
        if isinstance(found, str):
            found = _one_text(one_line(operation).split()[0], found)
        if isinstance(found, Rows):
            names = short_names(found.names)
            self.description = [(name, kind, None, None, None, None, None) for name, kind in zip(names, found.types)]
            self._rows, self.rowcount = found, len(found)
        elif found is not None:
            self.rowcount = found

    def _selected(self) -> Rows:
        self._check()
        if self._rows is None:
            raise WrongUse("mmdb: there are no rows to fetch: the last command of this cursor selected nothing")
        return self._rows


def _one_text(name: str, text: str) -> Rows:
    """A text as the one row of one column of that name."""
    rows = Rows((row_type((name,))((text,)),))
    rows.names, rows.types = (name,), (str,)
    return rows
