"""How rows are shown: as a table, a list, CSV, JSON, Markdown, HTML or lines of the language.

A null differs from each text in every mode. In tables and lists it is an empty cell, and the empty text is `''`. In CSV it is an
empty field, and the empty text is `""`. With tabs it is `\\N`, and elsewhere `null`.
"""

from __future__ import annotations

import re
from itertools import chain, islice
from typing import Callable, Dict, Iterable, Iterator, List, Sequence, Union

import mmdb
from mmdb.values import spelled

from . import boxes
from .boxes import Cells, Look
from .selecting import RowsAsRecords, RowsByRange
from .showing import Names, Rows, cell

#: A mode gives names and rows in pieces of text, the last of which ends a line.
Mode = Callable[[Names, Rows, Look], Iterator[str]]

# Of rows without types so many are looked at for numbers, and so many are written at once.
_LOOKED_AT = _AT_ONCE = 1000

_NEEDS_QUOTES = re.compile('[",\r\n]').search
_IN_MARKDOWN = re.compile(r"[\\`*_{}\[\]<>#|~&]")
_IN_TABS = {"\\": "\\\\", "\t": "\\t", "\n": "\\n", "\r": "\\r"}
_IN_HTML = {"&": "&amp;", "<": "&lt;", ">": "&gt;", '"': "&quot;"}


def _cells_of(names: Names, rows: Rows) -> Cells:
    """What stands in the cells of a table, and which columns have numbers."""
    types = getattr(rows, "types", None)
    if types is None:
        first = list(islice(rows, _LOOKED_AT))
        numbers = [any(isinstance(row[at], int) for row in first) for at in range(len(names))]
    else:
        numbers = [kind is int for kind in types]
    last: Sequence[Sequence[mmdb.Value]] = rows.last() if isinstance(rows, RowsByRange) else ()
    return Cells(names, map(_cells, rows), numbers, list(map(_cells, last)))


def _cells(row: Sequence[mmdb.Value]) -> List[str]:
    return list(map(cell, row))


def _box(names: Names, rows: Rows, look: Look) -> Iterator[str]:
    return boxes.box(_cells_of(names, rows), look)


def _column(names: Names, rows: Rows, look: Look) -> Iterator[str]:
    return boxes.columns(_cells_of(names, rows), look)


def _line(names: Names, rows: Rows, _look: Look) -> Iterator[str]:
    """Each value on a line of its own, behind the name of its column, and an empty line between rows."""
    places = max(map(len, names))
    before = ""
    for row in rows:
        lines = (f"{name:>{places}} = {cell(value)}".rstrip(" ") + "\n" for name, value in zip(names, row))
        yield before + "".join(lines)
        before = "\n"


def _csv(names: Names, rows: Rows, _look: Look) -> Iterator[str]:
    yield ",".join(names) + "\n"
    parts: Iterable[Union[str, Rows]] = rows.parts() if isinstance(rows, (RowsAsRecords, RowsByRange)) else [rows]
    for part in parts:
        if isinstance(part, str):
            yield part
        else:
            yield from _records(part)


def _records(rows: Rows) -> Iterator[str]:
    """Rows as records of a CSV."""
    rest = iter(rows)
    for several in iter(lambda: list(islice(rest, _AT_ONCE)), []):
        records = map(",".join, zip(*map(_fields, zip(*several))))
        yield "".join((record or '""') + "\n" for record in records)


def _fields(values: Sequence[mmdb.Value]) -> Iterable[str]:
    """The values of a column as fields. Most columns have nothing that needs quote marks."""
    kinds = set(map(type, values))
    if kinds == {int}:
        return map(str, values)
    if kinds == {str} and all(values) and not _NEEDS_QUOTES("".join(map(str, values))):
        return map(str, values)
    return map(_field, values)


def _field(value: mmdb.Value) -> str:
    if not isinstance(value, str):
        return "" if value is None else str(value)
    return '"' + value.replace('"', '""') + '"' if not value or _NEEDS_QUOTES(value) else value


def _tabs(names: Names, rows: Rows, _look: Look) -> Iterator[str]:
    """What PostgreSQL reads by COPY."""
    escapes = str.maketrans(_IN_TABS)

    def field(value: mmdb.Value) -> str:
        return "\\N" if value is None else str(value).translate(escapes)

    for row in chain([names], rows):
        yield "\t".join(map(field, row)) + "\n"


def _json(names: Names, rows: Rows, _look: Look) -> Iterator[str]:
    """A list of objects, one a line."""
    from json import JSONEncoder

    text = JSONEncoder(ensure_ascii=False).encode

    def shown(value: mmdb.Value) -> str:
        return text(value) if isinstance(value, str) else "null" if value is None else str(value)

    fronts = [f"{text(name)}: " for name in names]
    before = "["
    for row in rows:
        yield before + "{" + ", ".join(map(str.__add__, fronts, map(shown, row))) + "}"
        before = ",\n "
    yield "[]\n" if before == "[" else "]\n"


def _markdown(names: Names, rows: Rows, _look: Look) -> Iterator[str]:
    cells = _cells_of(names, rows)
    yield _row_of_markdown(cells.names)
    yield "|" + "|".join("---:" if is_number else "---" for is_number in cells.numbers) + "|\n"
    for row in cells.rows:
        yield _row_of_markdown(row)


def _row_of_markdown(row: Iterable[str]) -> str:
    return "|" + "|".join(f" {_IN_MARKDOWN.sub(_escaped, shown)} " for shown in row) + "|\n"


def _escaped(mark: "re.Match[str]") -> str:
    return "\\" + mark[0]


def _html(names: Names, rows: Rows, _look: Look) -> Iterator[str]:
    """The rows of a table of HTML, without the table around them."""
    escapes = str.maketrans(_IN_HTML)
    yield "<tr>" + "".join(f"<th>{name.translate(escapes)}</th>" for name in names) + "</tr>\n"
    for row in rows:
        yield "<tr>" + "".join(f"<td>{cell(value).translate(escapes)}</td>" for value in row) + "</tr>\n"


def _insert(names: Names, rows: Rows, look: Look) -> Iterator[str]:
    """Lines of the language that put the rows into a table: the one that was named, or that of all columns."""
    tables: List[str] = list({name.rpartition(".")[0] for name in names})
    table = look.table or (len(tables) == 1 and tables[0]) or "rows"
    for row in rows:
        values = ", ".join("null" if value is None else spelled(value) for value in row)
        yield f"insert {table} ({values})\n"


#: The modes by name.
MODES: Dict[str, Mode] = {
    "box": _box,
    "column": _column,
    "csv": _csv,
    "html": _html,
    "insert": _insert,
    "json": _json,
    "line": _line,
    "markdown": _markdown,
    "tabs": _tabs,
}


def lines_of_row(mode: str, names: Names) -> int:
    """How many lines a row has at least, with the empty one between two."""
    return len(names) + 1 if mode == "line" else 1


#: The modes in which the rows are counted at a terminal.
COUNTED = frozenset(("box", "column", "line"))
