"""Commands about files: rows, lines and whole databases."""

from __future__ import annotations

from contextlib import contextmanager
from typing import TYPE_CHECKING, Callable, Iterator, List, Optional

import mmdb

from . import dumping, moving
from .bars import Read, Written
from .dotted import dotted
from .files import opened, size_of, written
from .reading import Stream
from .schema import table_of, tables_of
from .selecting import count_of
from .trouble import Trouble, told_of

if TYPE_CHECKING:
    from .bars import Bar
    from .shell import Settings, Shell


@dotted(".load TABLE FILE", "loads a CSV file, all rows or none")
def _load(shell: Shell, name: str, path: str) -> None:
    table = table_of(shell.db, name)
    load = moving.Load(shell.db, table, shell.interrupts, shell.bails)
    try:
        with opened(path, shell.interrupts) as file, told_of(path), shell.bar(size_of(file), "bytes") as bar:
            source = Read(file, bar)
            count = shell.transactions.whole(f".load {name} {path}", lambda: load.run(source, shell.settings.block))
    except mmdb.Refused as why:
        wanted = f"; its first record has to be {table.header.decode().strip()}" if why.number == 61 else ""
        raise Trouble(f"{moving.numbered(why)}{wanted}; no row of {path} went in", why.reason) from why
    finally:
        _warn(shell, load.odd)
    shell.note(f"{count} rows of {path} are in {name}")


def _warn(shell: Shell, odd: List[str]) -> None:
    """Tells what is odd in a file that is loaded nevertheless."""
    for told in odd:
        shell.tell(f"warning: {told}")


@dotted(".save TABLE FILE", "writes a table to a CSV file")
def _save(shell: Shell, name: str, path: str) -> None:
    table = table_of(shell.db, name)
    with _new_file(shell, path, count_of(shell.db, name)) as file:
        file.write(table.header)
        for piece in moving.records(shell.db, table):
            file.write(piece)
    shell.note(f"{name} is in {path}")


@dotted(
    ".import FILE TABLE [OPTION..]",
    "imports a CSV file by column names; creates the table if needed",
    "--separator S      the separator of the fields, such as ';' or tab; default: a comma\n"
    "--columns A,B,..   the names of the file's columns if it has no header; - leaves a column out\n"
    "--skip N           skips the first N records\n"
    "--key A            the key of a new table; default: its first column\n"
    "A new column is int if all of its fields are integers, otherwise text.",
)
def _import(shell: Shell, path: str, name: str, *options: str) -> None:
    # (it loads the module csv, which most runs need none of)
    from . import importing

    work = importing.Import(shell, name, importing.options_of(options))
    try:
        with opened(path, shell.interrupts) as file, told_of(path), shell.bar(size_of(file), "bytes") as bar:
            count, left_out = work.run(file, path, bar)
    finally:
        _warn(shell, work.odd)
    shell.note(f"{count} rows of {path} are in {name}")
    if left_out:
        shell.note(f"{name} has no column for {', '.join(left_out)}")


@dotted(".export sql FILE", "writes the database as SQL for PostgreSQL and SQLite")
def _export(shell: Shell, form: str, path: str) -> None:
    from . import exporting

    if form != "sql":
        raise Trouble("it is written .export sql FILE")
    with _new_file(shell, path, _all_rows(shell)) as file:
        exporting.write(shell.db, file)
    shell.note(f"the database is in {path}")


@dotted(".read FILE", "runs the lines of a file")
def _read(shell: Shell, path: str) -> None:
    done, refused = shell.done, shell.refused
    with opened(path, shell.interrupts) as file:
        shell.run_file(Stream(file, path, skips_mark=True))
    refused = shell.refused - refused
    shell.note(f"{path} is read: {shell.done - done} lines done, {refused} refused")


@dotted(".dump FILE", "writes the whole database to a file")
def _dump(shell: Shell, path: str) -> None:
    with _new_file(shell, path, _all_rows(shell)) as file:
        dumping.write(shell.db, file)
    shell.note(f"the database is in {path}")


@dotted(".restore FILE", "reads a dump into an empty database")
def restore(shell: Shell, path: str) -> None:
    if tables_of(shell.db):
        raise Trouble("the database has tables, and only an empty one is restored into")
    _open_dump(shell, path)


@dotted(".open [FILE]", "starts an empty database, or opens a dump")
def _open(shell: Shell, path: str = "") -> None:
    if path:
        _open_dump(shell, path)
        return
    _move(shell, shell.settings, lambda db, bar: None)
    shell.note("the database is empty")


def _open_dump(shell: Shell, path: str) -> None:
    with opened(path, shell.interrupts) as file:

        def fill(db: mmdb.Database, bar: Bar) -> None:
            dumping.restore(Read(file, bar), path, db)

        _move(shell, shell.settings, fill, size_of(file))
    shell.note(f"the database is that of {path}")


@dotted(".policy [NAME]", "shows or changes how plans are chosen")
def _policy(shell: Shell, name: str = "") -> None:
    if not name:
        shell.say(f"{shell.settings.policy}\n")
        return
    if name not in mmdb.POLICIES:
        raise Trouble(f"a policy is one of {', '.join(mmdb.POLICIES)}")
    settings = shell.settings._replace(policy=name)
    _move(shell, settings, lambda db, bar: dumping.copy(shell.db, db, bar), _all_rows(shell))
    shell.note(f"the tables are in a new database, whose policy is {name}")


@contextmanager
def _new_file(shell: Shell, path: str, rows: int) -> Iterator[Written]:
    """A file for so many rows, with a bar. Ctrl-C ends it, and what was there stays."""
    with shell.bar(rows, "rows") as bar, written(path, shell.interrupts) as file:
        with shell.interrupts.allowed():
            yield Written(file, bar)


def _all_rows(shell: Shell) -> int:
    return sum(count_of(shell.db, name) for name in tables_of(shell.db))


def _move(
    shell: Shell, settings: Settings, fill: Callable[[mmdb.Database, Bar], None], total: Optional[int] = None
) -> None:
    """Takes a new database once it is filled. Until then the one that is there stays."""
    shell.transactions.check_none()
    new = settings.opened()
    try:
        with shell.bar(total, "") as bar, shell.interrupts.allowed():
            fill(new, bar)
    except BaseException:
        new.close()
        raise
    shell.take(new, settings)
