"""The rows of selects, before they are shown: those of a whole table come range by range, so that the first are shown while the
others aren't read yet. As CSV they are what the library writes, and no value is read one by one."""

from __future__ import annotations

import re
from functools import cached_property
from typing import Dict, Iterator, Optional, Sequence, Tuple, Union

import mmdb
from mmdb.ranges import count_in, ranges_in, record_behind, records_at

from . import moving
from .moving import all_keys, answer
from .schema import Column, Table, tables_of

#: Some rows of a select: the records of a CSV, or rows whose values are still to be written.
Part = Union[str, mmdb.Rows]

# A select without conditions, joins or texts, of a table.
_WHOLE = re.compile(rb"[ \t]*select[ \t]+(?!distinct\b)[^']*[ \t]from[ \t]+([A-Za-z_]\w*)[ \t]*\r?")
#: A table with fewer rows is read at once.
LEAST = 20_000
# How an empty field looks at the front of a record, inside of it, and at its end.
_EMPTY_FIELDS = (b"\n,", b",,", b",\n")


def count_of(db: mmdb.Database, name: str) -> int:
    """How many rows a table has, which the tree of its key tells."""
    return db.indexes(name)[0].rows


class _Records:
    """The records of selects, as the library writes them. It writes the empty text as it writes null, as an empty field, and
    the shell writes it as `""`. So rows of columns that have both are read as values."""

    def __init__(self, db: mmdb.Database, names: Sequence[str]) -> None:
        self._db = db
        self._names = names

    def parts(self, line: str, told: bytes) -> Iterator[Part]:
        """The rows of a line, to which this was answered."""
        at = records_at(told)
        are_texts = False
        if any(told.find(field, at - 1) >= 0 for field in _EMPTY_FIELDS):
            if self._has_nulls and self._has_empty_texts:
                yield self._db.select(line)
                return
            are_texts = not self._has_nulls
        while at < len(told):
            end = record_behind(told, at, at + moving.PIECE)
            records = told[at:end].decode()
            yield _with_empty_texts(records) if are_texts else records
            at = end

    @cached_property
    def _has_nulls(self) -> bool:
        return any(column.takes_null and self._has(table, f"{column.name} = null") for table, column in self._columns())

    @cached_property
    def _has_empty_texts(self) -> bool:
        return any(column.kind == "text" and self._has(table, f"{column.name} = ''") for table, column in self._columns())

    def _columns(self) -> Iterator[Tuple[Table, Column]]:
        columns = _columns(self._db)
        return (columns[name] for name in self._names)

    def _has(self, table: Table, condition: str) -> bool:
        return count_in(answer(self._db, f"{all_keys(table)} where {condition}")) > 0


def _with_empty_texts(records: str) -> str:
    """Records each of whose empty fields is the empty text."""
    # (what stands between an odd quote mark and the next is inside of a field)
    pieces = f"\n{records}".split('"')
    pieces[::2] = map(_filled, pieces[::2])
    return '"'.join(pieces)[1:]


def _filled(piece: str) -> str:
    """Whole fields, and the front and the end of others, with the empty text in each field that is empty."""
    # (twice, since the end of an empty field is the front of the next)
    piece = piece.replace(",,", ',"",').replace(",,", ',"",')
    return piece.replace("\n,", '\n"",').replace(",\n", ',""\n')


class RowsByRange:
    """The rows of a select of a whole table, in their order. A range of them is read once it is asked for."""

    def __init__(self, db: mmdb.Database, line: str, table: Table) -> None:
        self._db = db
        statement = db.prepare(line)
        #: The names and the types of the columns.
        self.names = statement.names
        statement.close()
        columns = _columns(db)
        self.types = tuple(int if columns[name][1].kind == "int" else str for name in self.names)
        keys = answer(db, all_keys(table))
        self._count = count_in(keys)
        #: The line of each range.
        self._lines = [line + where for where in ranges_in(keys, table.key.name, table.key.kind == "int")]

    def __len__(self) -> int:
        return self._count

    def __iter__(self) -> Iterator[Sequence[mmdb.Value]]:
        for line in self._lines:
            yield from self._db.select(line)

    def last(self) -> mmdb.Rows:
        """The rows of the last range."""
        return self._db.select(self._lines[-1])

    def parts(self) -> Iterator[Part]:
        """The rows as records of a CSV."""
        records = _Records(self._db, self.names)
        for line in self._lines:
            yield from records.parts(line, answer(self._db, line))


class RowsAsRecords:
    """The rows of a select as records of a CSV, which the library has answered. Raises the refusal that its answer is."""

    def __init__(self, db: mmdb.Database, line: bytes) -> None:
        self._db = db
        self._told = answer(db, line)
        self._line = line.decode()
        #: The names of the columns.
        self.names = tuple(self._told[: records_at(self._told) - 1].decode().split("\n")[1].split(","))

    def __len__(self) -> int:
        return count_in(self._told)

    def __iter__(self) -> Iterator[Sequence[mmdb.Value]]:
        return iter(self._db.select(self._line))

    def parts(self) -> Iterator[Part]:
        """The rows as records of a CSV."""
        return _Records(self._db, self.names).parts(self._line, self._told)


def _columns(db: mmdb.Database) -> Dict[str, Tuple[Table, Column]]:
    """All columns by their full names, each with its table."""
    return {f"{table.name}.{column.name}": (table, column) for table in tables_of(db).values() for column in table.columns}


def by_range(db: mmdb.Database, line: bytes) -> Optional[RowsByRange]:
    """The rows of a line, where it selects a whole table of many rows. Raises the refusal that it is."""
    found = _WHOLE.fullmatch(line)
    table = tables_of(db).get(found[1].decode()) if found else None
    if table is None or count_of(db, table.name) < LEAST:
        return None
    return RowsByRange(db, line.decode().rstrip("\r"), table)
