"""A whole database as SQL that PostgreSQL and SQLite take as it stands."""

from __future__ import annotations

from typing import Dict, Iterator, List, Sequence

import mmdb

from .bars import Written
from .moving import ranges
from .schema import Table, tables_of
from .trouble import Trouble

# How many rows stand in one insert.
_ROWS = 500
# The longest name that PostgreSQL keeps whole.
_LONGEST_NAME = 63
_TYPES = {"int": "bigint", "text": "text"}


def write(db: mmdb.Database, file: Written) -> None:
    """Writes the tables, their rows and their indexes, in one transaction."""
    tables = tables_of(db)
    _check_names(tables)
    file.write(b"begin;\n")
    for table in tables.values():
        file.write(_declaration(table).encode())
        for piece in _inserts(db, table):
            file.write(piece.encode())
    for line in _indexes(tables):
        file.write(line.encode())
    file.write(b"commit;\n")


def _check_names(tables: Dict[str, Table]) -> None:
    """Raises Trouble where names differ by their case alone, which is one name to SQLite."""
    for names in (list(tables), *([column.name for column in table.columns] for table in tables.values())):
        seen: Dict[str, str] = {}
        for name in names:
            other = seen.setdefault(name.lower(), name)
            if other != name:
                raise Trouble(f"SQL can't tell {other} from {name}: they differ by small and capital letters alone")


def _declaration(table: Table) -> str:
    columns = []
    for column in table.columns:
        declared = f"{_quoted(column.name)} {_TYPES[column.kind]}"
        declared += "" if column.takes_null else " not null"
        declared += " primary key" if column == table.key else ""
        if column.refers_to is not None:
            declared += f" references {_quoted(column.refers_to)}"
        columns.append(declared)
    return f"create table {_quoted(table.name)} ({', '.join(columns)});\n"


def _inserts(db: mmdb.Database, table: Table) -> Iterator[str]:
    """The rows, several in one insert."""
    front = f"insert into {_quoted(table.name)} values\n"
    for rows in ranges(db, table):
        for at in range(0, len(rows), _ROWS):
            yield front + ",\n".join(map(_row, rows[at : at + _ROWS])) + ";\n"


def _row(row: Sequence[mmdb.Value]) -> str:
    return "(" + ", ".join(map(_value, row)) + ")"


def _value(value: mmdb.Value) -> str:
    if value is None:
        return "null"
    if isinstance(value, int):
        return str(value)
    if "\0" in value:
        raise Trouble(f"SQL has no text with the character 0, as in {value[:40]!r}")
    return "'" + value.replace("'", "''") + "'"


def _indexes(tables: Dict[str, Table]) -> Iterator[str]:
    """The declared indexes. SQL has one kind of them, and one on each key by itself."""
    names: List[str] = [name.lower() for name in tables]
    for table in tables.values():
        for column in dict.fromkeys(column for column, _ in table.indexes if column != table.key.name):
            name = f"{table.name}_{column}"
            number = 0
            while name.lower() in names or len(name) > _LONGEST_NAME:
                number += 1
                name = f"index_{number}"
            names.append(name.lower())
            yield f"create index {_quoted(name)} on {_quoted(table.name)} ({_quoted(column)});\n"


def _quoted(name: str) -> str:
    return f'"{name}"'
