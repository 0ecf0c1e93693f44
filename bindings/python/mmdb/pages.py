"""Selects that are read page by page. Of one table the last key of a page finds the next, so that nothing is held between the two. Others
are read by a cursor, which holds the rows as references, and the tables."""

from __future__ import annotations

import itertools
import operator
import re
import sys
from typing import TYPE_CHECKING, Any, Generator, List, NamedTuple, Optional, Tuple

from .errors import Changed, Refused, WrongUse
from .lines import LONGEST, Placed, placed
from .rows import Row, Rows, Shape

if TYPE_CHECKING:
    from .database import Database
    from .handles import Cursor

#: How many rows a page has if nothing else is said.
PAGE = 10_000

# A select of one table: what it shows, the name of the table, and the word before its conditions. (The library refuses what is none
# in another way.)
_OF_ONE_TABLE = re.compile(r"[ \t]*select\b([^']*?)\bfrom[ \t]+(\w+)(?:[ \t]+(where)\b.*)?", re.ASCII)
_DISTINCT = re.compile(r"[ \t]*distinct\b", re.ASCII)
_TEXT = re.compile("'[^']*'")
_AND = re.compile(r"\band\b", re.ASCII)

# How many items and conditions a select has at most.
_MOST_ITEMS, _MOST_CONDITIONS = 16, 8


class Paged(NamedTuple):
    """How a select is read page by page by its key."""

    table: str
    #: The line of the first page if the key has to be asked for besides, as the last value of a row. Else it is that of the select.
    first: Optional[str]
    #: The line of each further page, with one place more at its end, for the last key.
    further: str
    #: Where the key is in a row.
    key: int


def page_size(page: Any) -> int:
    """How many rows a page has. Raises WrongUse where there are none."""
    size = operator.index(page)
    if size < 1:
        raise WrongUse(f"mmdb: a page has 1 row or more, not {size}")
    return min(size, sys.maxsize)


def rows_by_page(database: Database, line: str, at: Placed, values: Tuple[Any, ...], page: int) -> Generator[Row, None, None]:
    """The rows of a select with these stored values, of which a page is held at a time. The first is read at once."""
    with database._alone():
        paged = _paged(database, at)
        if paged is None:
            return _all_by_cursor(database, line, at, values, page)
        state = _state(database, paged)
        if paged.first is not None:
            # (what is refused is so by its own line)
            database._first(line, at, (0, *values))
            line, at = paged.first, placed(paged.first)
        return _each_by_page(database, paged, state, values, page, database._page(line, at, (page, *values)))


def _all_by_cursor(database: Database, line: str, at: Placed, values: Tuple[Any, ...], page: int) -> Generator[Row, None, None]:
    """The same of a select that can't be read by its key. In a transaction, where no cursor is opened, all rows are read at once."""
    cursor = database._cursor(line, at, values)
    if cursor is None:
        return _each(database._done(line, at, values))
    each = _each_by_cursor(database, cursor, page)
    # (from here on it closes the cursor, whatever ends it)
    next(each)
    return each


def _each(rows: Rows) -> Generator[Row, None, None]:
    yield from rows


def _each_by_cursor(database: Database, cursor: Cursor, page: int) -> Generator[Any, None, None]:
    """None once the first page is read, and then the rows of all. The cursor is closed as soon as the last was read."""
    try:
        rows = _next_page(database, cursor, page)
        yield None
        yield from rows
        while not cursor.closed:
            # (they go before the next come)
            del rows
            rows = _next_page(database, cursor, page)
            yield from rows
    finally:
        cursor.close()


def _next_page(database: Database, cursor: Cursor, page: int) -> Rows:
    """The next rows of a cursor, as their columns are read. It is closed if they are the last."""
    rows = cursor.fetch(page)
    if len(rows) < page:
        cursor.close()
    shape = _shape_of(database, rows, len(rows.names))
    return rows if shape.converters is None else shape.converted(rows)


def _each_by_page(
    database: Database, paged: Paged, state: Tuple[object, int], values: Tuple[Any, ...], page: int, rows: Rows
) -> Generator[Row, None, None]:
    """The rows of the first page, and of those behind it."""
    at = placed(paged.further)
    while True:
        last = rows[-1][paged.key] if len(rows) == page else None
        rows = _shown(database, paged, rows)
        yield from rows
        if last is None:
            return
        # (it goes before the next comes)
        del rows
        with database._alone():
            if _state(database, paged) != state:
                raise Changed(f"mmdb: the table {paged.table} was changed between two pages of its rows")
            rows = database._page(paged.further, at, (page, *values, last))


def _state(database: Database, paged: Paged) -> Tuple[object, int]:
    """What differs once a table was changed: whose it is, and the number of its newest change. That is 0 if there is no such table."""
    try:
        return database._source, database.version(paged.table)
    except Refused as why:
        if why.number != 30:
            raise
        return database._source, 0


def _shown(database: Database, paged: Paged, rows: Rows) -> Rows:
    """Rows of stored values as the select shows them: without a key that was asked for besides, and as their columns are read."""
    width = len(rows.names) if paged.first is None else paged.key
    shape = _shape_of(database, rows, width)
    if shape.converters is not None:
        return shape.converted(rows)
    return rows if paged.first is None else shape.rows(itertools.islice(zip(*rows), width))


def _shape_of(database: Database, rows: Rows, width: int) -> Shape:
    """What the first columns of rows of stored values are read as, so many."""
    return database._shaped(rows.names[:width], tuple(2 if kind is str else 1 for kind in rows.types[:width]))


def _paged(database: Database, at: Placed) -> Optional[Paged]:
    """How a select is read by its key. None if it can't be: it is of several tables, `distinct`, or as long as a line may be."""
    line = at.prepared.decode().rstrip(" \t\r")
    found = _OF_ONE_TABLE.fullmatch(line)
    if found is None or _DISTINCT.match(found[1]):
        return None
    columns = database._known(found[2])
    conditions = len(_AND.findall(_TEXT.sub("''", line))) + 1 if found[3] else 0
    if not columns or conditions >= _MOST_CONDITIONS:
        return None
    return _by_key(line, found, columns[0].name)


def _by_key(line: str, found: re.Match[str], name: str) -> Optional[Paged]:
    """How a select of one table is read by its key of this name."""
    key = f"{found[2]}.{name}"
    place, count = _place_of(found[1], name, key)
    first = f"{line[: found.end(1)]}, {key} {line[found.end(1) :]}" if place == count else None
    further = f"{first or line} {'and' if found[3] else 'where'} {key} > ?"
    if place == _MOST_ITEMS or len(further.encode()) > LONGEST:
        return None
    return Paged(found[2], first, further, place)


def _place_of(shown: str, *names: str) -> Tuple[int, int]:
    """Where a column with one of these names is among the items that are shown, behind them if it isn't, and how many they are."""
    items: List[str] = re.sub("[ \t]", "", shown).split(",")
    places = [place for place, item in enumerate(items) if item == "*" or item in names]
    return (places[0] if places else len(items)), len(items)
