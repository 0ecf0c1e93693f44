"""Rows by the file: loads that are whole or not at all, and records of a table of any size."""

from __future__ import annotations

import warnings
from typing import Iterator, List, Optional, Protocol, Union

import mmdb
from mmdb.loads import in_whole
from mmdb.ranges import ranges_in
from mmdb.ranges import records as records_of

from .cutting import Endless, blocks, without_mark
from .interrupts import Interrupts
from .schema import Table
from .trouble import Trouble


class Readable(Protocol):
    """What a load reads from: a file, or what reads as one."""

    def read(self, count: int, /) -> bytes:
        """At most so many bytes, and none at the end."""


PIECE = 1 << 20


def answer(db: mmdb.Database, line: Union[str, bytes], block: Optional[bytes] = None) -> bytes:
    """The answer to a line with its block. Raises the refusal that it is."""
    told = db.answer(line, block)
    if told.startswith(b"error "):
        number, text = told[len(b"error ") : -1].decode().split(" ", 1)
        raise mmdb.Refused(int(number), text, None, db.reason(line, block))
    return told


def numbered(why: mmdb.Refused) -> str:
    """What is answered of a refusal, without its reason."""
    return f"error {why.number} {why.text}"


def all_keys(table: Table) -> str:
    """The line that selects all keys of a table."""
    return f"select {table.key.name} from {table.name}"


# ---- loads


class Load:
    """A load of a CSV of any size into a table, block by block. A transaction around it makes it whole or none."""

    def __init__(self, db: mmdb.Database, table: Table, interrupts: Interrupts, is_strict: bool) -> None:
        self._db = db
        self._table = table
        self._interrupts = interrupts
        self._is_strict = is_strict
        #: How many rows have gone in.
        self.count = 0
        #: What is odd in the file, each in a sentence. If the load is strict, the first is a refusal.
        self.odd: List[str] = []

    def run(self, file: Readable, limit: int) -> int:
        """Puts in the rows of a file, and gives how many they are."""
        try:
            for block in blocks(without_mark(self._pieces(file, limit)), limit, b"", self._table.header):
                self._interrupts.check()
                self._put(block)
        except Endless as why:
            place = f"behind record {self.count} " if self.count else ""
            raise Trouble(f"{place}{why} (no row of the file went in)") from why
        return self.count

    def _pieces(self, file: Readable, limit: int) -> Iterator[bytes]:
        """The file piece by piece. Ctrl-C ends the wait for one."""
        piece = b"-"
        while piece:
            with self._interrupts.allowed():
                piece = file.read(min(PIECE, limit + 1))
            yield piece

    def _put(self, block: bytes) -> None:
        try:
            with warnings.catch_warnings(record=True) as caught:
                warnings.simplefilter("always", mmdb.CsvWarning)
                count = self._db.load_csv(self._table.name, block)
        except mmdb.Refused as why:
            if not self.count:
                raise
            raise in_whole(why, self.count) from why
        finally:
            self.odd.extend(_in_file(each.message, self.count) for each in caught)
        self.count += count
        refuse_odd(self.odd, self._is_strict)


def _in_file(warning: Union[str, Warning], before: int) -> str:
    """A warning of a block, told of the file in which so many records stand before it."""
    told = str(warning)
    if isinstance(warning, mmdb.CsvWarning) and warning.record:
        told = told.replace(f"record {warning.record} ", f"record {warning.record + before} ", 1)
    return unnamed(told)


def unnamed(told: str) -> str:
    """What the module says, without its name."""
    return told.replace("mmdb: ", "", 1)


def refuse_odd(odd: List[str], is_strict: bool) -> None:
    """Makes a refusal of the first thing that is odd in a file, if the load is strict."""
    if is_strict and odd:
        first = odd[0]
        odd.clear()
        raise Trouble(f"{first} (no row of the file went in)")


# ---- records


def records(db: mmdb.Database, table: Table) -> Iterator[bytes]:
    """The records of all rows of a table by rising keys, in pieces."""
    return records_of(lambda line: answer(db, line), table.name, table.key.name, table.key.kind == "int")


def ranges(db: mmdb.Database, table: Table) -> Iterator[mmdb.Rows]:
    """All rows of a table by rising keys, in ranges of many rows."""
    for where in ranges_in(answer(db, all_keys(table)), table.key.name, table.key.kind == "int"):
        yield db.select(f"select * from {table.name}{where}")
