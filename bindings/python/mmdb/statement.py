"""Statements that are prepared once and executed many times."""

from __future__ import annotations

from typing import TYPE_CHECKING, Any, Generator, Iterable, Mapping, Tuple

from .errors import WrongUse
from .handles import Prepared
from .lines import CHANGES, STATEMENTS, check_kind, placed
from .pages import PAGE
from .rows import Row, Rows, most_rows

if TYPE_CHECKING:
    from .database import Database, Parameters


class Statement(Prepared):
    """An insert, an update, a delete or a select that is prepared once, to be executed many times.

    `Database.prepare` returns one. Used as a context manager, it is closed at the end, and also with its database.
    Each call of a closed one but `close` raises ValueError.
    """

    def __init__(self, database: Database, line: str) -> None:
        check_kind("prepare", line, *STATEMENTS)
        #: Its line.
        self.line = line
        self._placed = placed(line)
        self._database = database
        super().__init__(database, self._placed)

    if TYPE_CHECKING:
        # (this is that of the handle, so that what goes well doesn't come by here)

        def execute(self, /, *parameters: Any, **named: Any) -> Any:
            """Does it with these parameters, and gives its rows, or how many rows it was about.

            Raises what `Database.execute` raises.
            """

    def count(self, /, *parameters: Any, **named: Any) -> int:
        """How many rows the select shows with these parameters: they are counted, and none is made.

        Raises what `Database.count` raises.
        """
        check_kind("count", self.line, "select")
        self._check()
        count: int = self._count(self._placed.fitting(parameters, named))
        return count

    def first(self, most: int, /, *parameters: Any, **named: Any) -> Rows:
        """The first rows that the select shows with these parameters, so many at most.

        It works as `Database.first`.
        """
        check_kind("first", self.line, "select")
        count = most_rows(most)
        self._check()
        rows: Rows = self._first((count, *self._placed.fitting(parameters, named)))
        return rows

    def iterate(self, /, *parameters: Any, page: int = PAGE, **named: Any) -> Generator[Row, None, None]:
        """The rows of the select one after the other, of which so many are held at a time. It works as `Database.iterate`, and goes on
        when the statement is executed again or closed.
        """
        check_kind("iterate", self.line, "select")
        self._check()
        return self._database.iterate(self.line, *parameters, page=page, **named)

    def executemany(self, rows: Iterable[Parameters]) -> int:
        """Executes an insert, an update or a delete with each row of parameters, and returns the number of all rows.

        It works as `Database.executemany`.
        """
        check_kind("executemany", self.line, *CHANGES)
        self._check()
        given = self._placed.fitting_rows(rows)
        return self._database._execute_each(self._placed, given, self._done_many)

    @property
    def names(self) -> Tuple[str, ...]:
        """The names of the columns of a select, as `table.column`. Another statement has none.

        Raises `Refused` if it is refused whatever its parameters are.
        """
        self._check()
        return self._names() if self._placed.is_select else ()

    def __enter__(self) -> Statement:
        return self

    def __exit__(self, *_: object) -> None:
        self.close()

    def __reduce__(self) -> Any:
        raise TypeError("mmdb: a Statement has no copies")

    def _perform(self, parameters: Tuple[Any, ...], named: Mapping[str, Any]) -> Any:
        """Does it with parameters that have to be put in order, or don't fit."""
        self._check()
        return self._done(self._placed.fitting(parameters, named))

    def _check(self) -> None:
        """Raises WrongUse if it is closed."""
        if self.closed:
            raise WrongUse("mmdb: the statement is closed")
