"""A whole database as lines and blocks of the language: into a file and back. docs/language.md has the form."""

from __future__ import annotations

import re
from typing import TYPE_CHECKING, Iterator, List, NamedTuple, NoReturn, Optional, Protocol

from .errors import NoMemory, Refused, WrongFile, WrongValue
from .ranges import can_stand_in_a_line, chunks, keys_in, records
from .values import Column, columns_of, spelled

if TYPE_CHECKING:
    from .database import Database

#: The first line of a dump, with the version of its form, and how the last begins: comments of the language.
FIRST, LAST = b"# mmdb dump 1", b"# end of the dump"

# The first line of a dump of any version.
_OF_ANOTHER_VERSION = re.compile(rb"# mmdb dump ([0-9]{1,9})\n")
# How the lines between begin, and a load.
_OF_A_DUMP = re.compile(rb"(?:table|index|update) ")
_LOAD = re.compile(rb"load \w+ ([0-9]{1,19})", re.ASCII)
# How long a line may be, with its line feed.
_LONGEST = 8192 + 1


class Writable(Protocol):
    """What a dump is written to: a file, or what writes as one."""

    def write(self, content: bytes, /) -> object:
        """Takes all of these bytes."""


class Readable(Protocol):
    """What a dump is read from: a file, or what reads as one."""

    def read(self, count: int, /) -> bytes:
        """The next so many bytes, fewer only at the end."""

    def readline(self, count: int, /) -> bytes:
        """The next line, or at most so many bytes of it."""


class Request(NamedTuple):
    """A line, and the block of a load."""

    line: bytes
    block: Optional[bytes] = None


class Table(NamedTuple):
    """A table: its name, its columns, the line that declares it, and those of its indexes."""

    name: str
    columns: List[Column]
    line: str
    indexes: List[str]

    @property
    def header(self) -> bytes:
        """The first record of a block of its rows."""
        return ",".join(column.name for column in self.columns).encode() + b"\n"


# ---- writing


def write(db: Database, file: Writable) -> None:
    """Writes a dump, which `restore` reads, and the program mmdb too. Other threads wait meanwhile with their calls."""
    with db._alone():
        tables = _tables_of(db)
        file.write(FIRST + b"\n")
        for request in _requests_of(db, tables):
            file.write(request.line + b"\n")
            if request.block is not None:
                file.write(request.block)
        file.write(_last(len(tables), sum(_count_of(db, table) for table in tables)) + b"\n")


def _last(tables: int, rows: int) -> bytes:
    """The last line of a dump of so many tables and rows."""
    return b"%b: %d tables, %d rows" % (LAST, tables, rows)


def _count_of(db: Database, table: Table) -> int:
    """How many rows a table has."""
    return db.count(f"select {table.columns[0].name} from {table.name}")


def requests_of(db: Database) -> Iterator[Request]:
    """The requests that make an empty database like this one: the declarations of tables, then the rows of each table behind
    those of the tables that it refers to, and its indexes, which are made in less time of rows that are there."""
    return _requests_of(db, _tables_of(db))


def _requests_of(db: Database, tables: List[Table]) -> Iterator[Request]:
    """The same, of tables that are listed already."""
    for table in tables:
        yield Request(table.line.encode())
    for table in tables:
        yield from _loads_of(db, table)
        yield from _empty_references_of(db, table)
        yield from (Request(line.encode()) for line in table.indexes)


def _tables_of(db: Database) -> List[Table]:
    """The tables in the order of their declaration, so that each comes after those that it refers to."""
    listing = db._asked("tables").decode()
    tables: List[Table] = []
    columns = columns_of(listing)
    for line in listing.splitlines():
        word, name = line.split(" ", 2)[:2]
        if word == "table":
            tables.append(Table(name, columns[name], line, []))
        elif word == "index":
            tables[-1].indexes.append(line)
    return tables


def _loads_of(db: Database, table: Table) -> Iterator[Request]:
    """The rows of a table, in blocks that have room for them."""
    key, header, limit = table.columns[0], table.header, db._block
    room = limit - len(header)
    for chunk in chunks(records(db._asked, table.name, key.name, key.kind is int), max(room, 0)):
        if len(chunk) > room:
            raise WrongValue(f"mmdb: a row of {table.name} has no room in a block of {limit} bytes")
        yield Request(b"load %b %d" % (table.name.encode(), len(header) + len(chunk)), header + chunk)


def _empty_references_of(db: Database, table: Table) -> Iterator[Request]:
    """A load makes null of the empty text in a reference that takes nulls, so it is set behind the loads."""
    key = table.columns[0]
    for column in table.columns:
        if not (column.takes_null and column.kind is str):
            continue
        selected = db._asked(f"select {key.name} from {table.name} where {column.name} = ''")
        for at in keys_in(selected, key.kind is int):
            if not can_stand_in_a_line(at):
                raise WrongValue(
                    f"mmdb: no dump can hold a row of {table.name} whose key has a line feed and whose {column.name} is the "
                    "empty text: set it to null first"
                )
            yield Request(f"update {table.name} set {column.name} = '' where {key.name} = {spelled(at)}".encode())


# ---- reading


def restore(db: Database, file: Readable, name: str) -> None:
    """Does a dump in an empty database. If it raises, that one may have anything in it."""
    _Restored(db, file, name).do()


class _Restored:
    """A dump that is being read, into an empty database."""

    def __init__(self, db: Database, file: Readable, name: str) -> None:
        self._db, self._file, self._name = db, file, name
        # The number of the last line, and how many tables and rows there are.
        self._number = self._tables = self._rows = 0

    def do(self) -> None:
        """Does all of it."""
        self._check_first(self._line())
        while True:
            line = self._line()
            if line.startswith(LAST):
                break
            self._do(line)
        last = _last(self._tables, self._rows)
        if line != last + b"\n":
            self._fail(f"its last line is not {last.decode()}")
        if self._file.read(1):
            raise WrongFile(f"{self._name} goes on after the end of the dump")

    def _check_first(self, line: bytes) -> None:
        if line == FIRST + b"\n":
            return
        other = _OF_ANOTHER_VERSION.fullmatch(line)
        if other:
            raise WrongFile(f"{self._name} is a dump of version {other[1].decode()}, and only those of version 1 are read")
        raise WrongFile(f"{self._name} is no dump: it doesn't begin with the line {FIRST.decode()}")

    def _line(self) -> bytes:
        """The next line. The end of the file is a line without a line feed, of no bytes."""
        line = self._file.readline(_LONGEST)
        number, self._number = self._number, self._number + 1
        if not line.endswith(b"\n") and number:
            if len(line) == _LONGEST:
                self._fail("the line is too long for a dump")
            raise WrongFile(f"{self._name} is a part of a dump: it doesn't end with a line {LAST.decode()}")
        return line

    def _do(self, line: bytes) -> None:
        """Does a line, with its block."""
        line = line[:-1]
        load = _LOAD.fullmatch(line)
        if load is None and not _OF_A_DUMP.match(line):
            self._fail("this is no line of a dump")
        block = self._block(int(load[1])) if load else None
        try:
            answer = self._db._asked(line, block)
        except NoMemory:
            raise
        except Refused as why:
            told = f"{self._name}, line {self._number}: error {why.number} {why.text}"
            raise WrongFile(told, why.reason) from why
        self._tables += line.startswith(b"table ")
        if block is not None:
            self._rows += int(answer[3:])
            self._number += block.count(b"\n")

    def _block(self, count: int) -> bytes:
        """The block of a load."""
        if count > self._db._block:
            self._fail(f"a block of the database has at most {self._db._block} bytes, and the line asks for {count}")
        block = self._file.read(count)
        if len(block) < count:
            self._fail(f"the file is cut short, {len(block)} bytes into a block of {count}")
        return block

    def _fail(self, why: str) -> NoReturn:
        raise WrongFile(f"{self._name}, line {self._number}: {why}")
