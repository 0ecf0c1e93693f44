"""Commands that show what there is: help, tables, indexes, and rows of a table."""

from __future__ import annotations

from itertools import islice
from typing import TYPE_CHECKING, List

import mmdb
from mmdb.ranges import count_in, keys_in

from . import helping
from .dotted import dotted
from .moving import all_keys, answer
from .schema import Table, table_of, tables_of
from .selecting import count_of
from .trouble import Trouble

if TYPE_CHECKING:
    from .shell import Shell

# How many rows .head shows where it isn't said.
_FEW = "10"


@dotted(".help [WORD]", "explains a word of the language or the shell, or an error number")
def _help(shell: Shell, word: str = "") -> None:
    lines = list(helping.help_for(word) if word else helping.overview())
    if not lines:
        raise Trouble(f"there is no help for {word}; .help lists what there is")
    shell.say("\n".join(lines) + "\n")


@dotted(".tables", "lists the tables")
def _tables(shell: Shell) -> None:
    shell.say("".join(f"{name}\n" for name in tables_of(shell.db)))


@dotted(".schema [TABLE]", "shows the declarations of tables and indexes")
def _schema(shell: Shell, name: str = "") -> None:
    tables = [table_of(shell.db, name)] if name else list(tables_of(shell.db).values())
    shell.say("".join(f"{line}\n" for table in tables for line in table.lines))


@dotted(".indexes [TABLE]", "shows the state of the indexes")
def _indexes(shell: Shell, name: str = "") -> None:
    rows: List[List[mmdb.Value]] = []
    for table in [table_of(shell.db, name)] if name else tables_of(shell.db).values():
        for place, index in enumerate(shell.db.indexes(table.name)):
            declared = "by index" if place else "with the table"
            rows.append([table.name, index.column, index.kind, declared, *index[2:]])
    shell.show(("table", "column", "kind", "declared", *mmdb.Index._fields[2:]), rows)


@dotted(
    ".count [TABLE|SELECT]",
    "counts the rows of each table, one table, or a select",
    ".count emp\n.count select * from emp where dept = 10",
    is_open=True,
)
def _count(shell: Shell, what: str = "") -> None:
    if not what:
        shell.show(("table", "rows"), [[name, count_of(shell.db, name)] for name in tables_of(shell.db)])
        return
    shell.say(f"{_selected(shell, what) if _is_select(what) else count_of(shell.db, what)}\n")


def _selected(shell: Shell, line: str) -> int:
    """How many rows a select has."""
    bound, values = shell.parameters.bind(line.encode())
    try:
        return shell.db.count(bound.decode(), *values)
    except ValueError:
        # (what isn't UTF-8, or has a place for a parameter, is refused as such)
        return count_in(answer(shell.db, bound))


@dotted(
    ".head [N] TABLE|SELECT",
    "shows the first 10 rows, or N, of a table or a select",
    ".head emp\n.head 3 select * from emp where dept = 10",
    is_open=True,
)
def _head(shell: Shell, word: str, rest: str = "") -> None:
    number, what = (word, rest) if word.isdecimal() else (_FEW, f"{word} {rest}".rstrip(" "))
    if not what:
        raise Trouble("it is written .head [N] TABLE|SELECT")
    most = int(number[:9])
    if _is_select(what):
        line, values = shell.parameters.bind(what.encode())
        rows = shell.db.first(most, line.decode(), *values)
    else:
        rows = _first_rows(shell.db, table_of(shell.db, what), most)
    shell.show(rows.names, rows[:most])


def _first_rows(db: mmdb.Database, table: Table, most: int) -> mmdb.Rows:
    """The first rows of a table, without a look at the others: those up to the last of the first keys."""
    line = f"select * from {table.name}"
    if most and count_of(db, table.name) > most:
        keys = keys_in(answer(db, all_keys(table)), table.key.kind == "int")
        return db.select(f"{line} where {table.key.name} <= ?", next(islice(keys, most - 1, None)))
    return db.select(line)


def _is_select(what: str) -> bool:
    return what.startswith("select ")
