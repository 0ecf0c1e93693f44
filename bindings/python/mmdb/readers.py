"""Readers, which share the tables of a database with others that read."""

from __future__ import annotations

from typing import Any, Callable, NoReturn

from .database import Database
from .errors import WrongUse
from .lines import CHANGING

# The statuses of mmdb.h for a call that isn't done.
_NOT_OPEN, _SHARED = 1, 14


class Reader(Database):
    """A handle that shares the tables of a database, to read them in another thread at the same time.

    `Database.reader` makes one. It has the calls of a database, but changes nothing: these raise `Shared`, also for a line
    that begins as one that declares, drops or loads. It reads columns as that database did when it was made. Used as a
    context manager, it is closed at the end.
    """

    def __init__(self, database: Database) -> None:
        super().__init__()
        self._block = database._block
        if database._converters:
            self._read_by(database._converters)
        try:
            database.share(self)
        except BaseException:
            self.close()
            raise

    def __enter__(self) -> Reader:
        return self

    def leave(self) -> None:
        """Leaves the tables, so that they can be changed once all readers have. It has none until it shares some again.

        Its rows and its statements stay. A call of it that is under way is waited for.
        """
        with self._turn:
            self._leave()
            self._forget_columns()

    @classmethod
    def restore(cls, *_: Any, **__: Any) -> NoReturn:
        """Raises ValueError: a database is restored."""
        raise WrongUse("mmdb: a file is restored by mmdb.Database")

    def reader(self) -> NoReturn:
        """Raises ValueError: readers are made by the database."""
        raise WrongUse("mmdb: a reader has no readers: its database has")

    def watch(self, function: Callable[[int], object], table: str = "") -> NoReturn:
        """Raises ValueError: changes are the database's."""
        raise WrongUse("mmdb: a reader changes nothing: its database is watched")

    def share(self, reader: Reader) -> NoReturn:
        """Raises ValueError: readers share the tables of a database."""
        raise WrongUse("mmdb: a reader has no readers: its database has")

    def _command(self, line: bytes) -> bytes:
        # (it would be done where nobody else shares the tables)
        if CHANGING.match(line):
            self._failed(_NOT_OPEN if self.closed else _SHARED)
        return super()._command(line)

    def _load(self, line: bytes, block: bytes) -> bytes:
        self._failed(_NOT_OPEN if self.closed else _SHARED)
