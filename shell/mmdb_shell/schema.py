"""What tables and indexes are declared, read from the answer to `tables`."""

from __future__ import annotations

import re
from typing import Dict, List, NamedTuple, Optional, Tuple

import mmdb

_DECLARATION = re.compile(r"table (\w+) \((.*)\)", re.ASCII)


class Column(NamedTuple):
    """A column. Its kind, `int` or `text`, is that of its values: for a reference that of the keys it names."""

    name: str
    kind: str
    takes_null: bool
    refers_to: Optional[str] = None


class Table(NamedTuple):
    """A table: the line that declares it, its columns, and its indexes, each a column and a kind."""

    name: str
    line: str
    columns: List[Column]
    indexes: List[Tuple[str, str]]

    @property
    def key(self) -> Column:
        return self.columns[0]

    @property
    def header(self) -> bytes:
        """The first record of a block of its rows."""
        return ",".join(column.name for column in self.columns).encode() + b"\n"

    @property
    def lines(self) -> List[str]:
        """All lines that declare it with its indexes."""
        return [self.line, *(f"index {self.name} {column} {kind}" for column, kind in self.indexes)]


def tables_of(db: mmdb.Database) -> Dict[str, Table]:
    """The tables by name, in the order of their declaration, so that each stands behind those it refers to."""
    tables: Dict[str, Table] = {}
    for line in db.execute("tables").splitlines():
        declared = _DECLARATION.fullmatch(line)
        if declared:
            columns = [_column(tables, spelled) for spelled in declared[2].split(", ")]
            tables[declared[1]] = Table(declared[1], line, columns, [])
        else:
            _, table, column, kind = line.split(" ")
            tables[table].indexes.append((column, kind))
    return tables


def table_of(db: mmdb.Database, name: str) -> Table:
    """The table of that name. Raises the refusal 30 where there is none."""
    table = tables_of(db).get(name)
    if table is None:
        raise mmdb.Refused(30, "no such table", None, f"{name} is no table")
    return table


def _column(tables: Dict[str, Table], spelled: str) -> Column:
    """A column as it is declared, behind the tables that it can refer to."""
    name, kind, *more = spelled.split(" ")
    refers_to: Optional[str] = more[0] if more else None
    return Column(name, tables[refers_to].key.kind if refers_to else kind, len(more) == 2, refers_to)
