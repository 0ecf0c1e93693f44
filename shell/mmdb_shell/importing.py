"""The import of a CSV file by the names of its columns, into a table that is there or is made for it."""

from __future__ import annotations

import csv
import io
import re
from contextlib import contextmanager
from io import BufferedReader
from itertools import chain, islice
from typing import TYPE_CHECKING, Dict, Iterable, Iterator, List, NamedTuple, Optional, Sequence, TextIO, Tuple

import mmdb
from mmdb.quotes import BEHIND, OPEN, Odd

from .bars import Bar, Read
from .cutting import MARK
from .moving import Load, Readable, answer, numbered, refuse_odd, unnamed
from .schema import Table, table_of, tables_of
from .trouble import Trouble
from .words import RESERVED

if TYPE_CHECKING:
    from .shell import Shell

# Up to how many bytes a field of the file has. (A text of a table has 1,024.)
_LONGEST_FIELD = 1 << 24
_LONGEST_NAME = 32
_INTEGER = re.compile(r"0|-?[1-9][0-9]{0,18}").fullmatch
# Integers of fewer characters have at most 64 bits.
_SURELY_SHORT = 19
_LEAST, _GREATEST = -(1 << 63), (1 << 63) - 1
# How many records are written into one piece of a load, and about how many characters are read at once.
_RECORDS, _PIECE = 4096, 1 << 16
_LEFT_OUT = "-"


class Options(NamedTuple):
    """How the file is written, and which column is the key of a new table."""

    separator: str = ","
    #: The names of the columns, where the file has none.
    columns: Sequence[str] = ()
    skip: int = 0
    key: str = ""


def options_of(words: Sequence[str]) -> Options:
    """The options that words spell."""
    options = Options()
    if len(words) % 2:
        raise Trouble(f"a value is missing behind {words[-1]}")
    for word, value in zip(words[::2], words[1::2]):
        if word == "--separator":
            options = options._replace(separator=_separator(value))
        elif word == "--columns":
            options = options._replace(columns=[name.strip() for name in value.split(",")])
        elif word == "--skip" and value.isdecimal():
            options = options._replace(skip=int(value))
        elif word == "--key":
            options = options._replace(key=value)
        else:
            raise Trouble(f"there is no option {word} {value}; .help import lists them")
    return options


def _separator(spelled: str) -> str:
    separator = {"tab": "\t", "\\t": "\t"}.get(spelled, spelled)
    if len(separator) != 1 or separator in '"\r\n':
        raise Trouble("a separator is one character, but no quote mark and no end of a line; tab is spelled tab")
    return separator


class Import:
    """One import of a file."""

    def __init__(self, shell: Shell, name: str, options: Options) -> None:
        self._shell = shell
        self._name = name
        self._options = options
        #: The columns of the file that the table has no place for.
        self._left: List[str] = []
        #: What is odd in the file, each in a sentence.
        self.odd: List[str] = []

    def run(self, file: BufferedReader, path: str, bar: Bar) -> Tuple[int, List[str]]:
        """Puts in the rows, and gives how many they are, and the columns of the file that the table has no place for.
        If it raises, no row is in, and no table was made."""
        csv.field_size_limit(_LONGEST_FIELD)
        count = self._shell.transactions.whole(f".import {path} {self._name}", lambda: self._done(file, path, bar))
        return count, self._left

    def _done(self, file: BufferedReader, path: str, bar: Bar) -> int:
        table = tables_of(self._shell.db).get(self._name) or self._made(file, bar)
        if self._options == Options() and _is_of(table, file):
            return self._put(table, Read(file, bar), path)
        names, parsed = self._parsed(file, bar, is_looked_at=True)
        order = [_place(column.name, names) for column in table.columns]
        missing = [column.name for column, at in zip(table.columns, order) if at is None and not column.takes_null]
        if missing:
            raise Trouble(f"{path} has no column for {', '.join(missing)} of {table.name}; it has {', '.join(names)}")
        try:
            count = self._put(table, _Pieces(table.header, parsed.records, len(names), order), path)
        finally:
            self.odd.extend(unnamed(odd.told()) for odd in parsed.odd[:1])
        refuse_odd(self.odd, self._shell.bails)
        self._left = [name for at, name in enumerate(names) if at not in order and name != _LEFT_OUT]
        return count

    def _put(self, table: Table, file: Readable, path: str) -> int:
        """Loads what is in the form of a load."""
        load = Load(self._shell.db, table, self._shell.interrupts, self._shell.bails)
        try:
            return load.run(file, self._shell.settings.block)
        except mmdb.Refused as why:
            raise Trouble(f"{numbered(why)}; no row of {path} went in", why.reason) from why
        finally:
            self.odd.extend(load.odd)

    def _parsed(self, file: BufferedReader, bar: Bar, is_looked_at: bool) -> Tuple[List[str], _Parsed]:
        """The names of the file's columns, and its records behind them."""
        text = io.TextIOWrapper(io.BufferedReader(_Raw(Read(file, bar))), "utf-8-sig", "surrogateescape", newline="")
        parsed = _Parsed(text, self._options.separator, is_looked_at)
        for _ in range(self._options.skip):
            next(parsed.records, None)
        parsed.start(1 if self._options.columns else 0)
        given = list(self._options.columns) or [name.strip() for name in next(parsed.records, [])]
        if not given:
            raise Trouble("the file is empty: its first record has the names of its columns")
        return _names_of(given), parsed

    def _made(self, file: BufferedReader, bar: Bar) -> Table:
        """The table that is made for the file, after a look at all its fields."""
        if not file.seekable():
            raise Trouble(f"{self._name} is no table, and to make it the file is read twice, which a pipe can't be")
        names, parsed = self._parsed(file, bar, is_looked_at=False)
        kinds = _kinds(names, parsed.records, self._shell)
        file.seek(0)
        bar.again()
        key = self._options.key or next(name for name in names if name != _LEFT_OUT)
        if key not in kinds:
            raise Trouble(f"the file has no column {key}; it has {', '.join(kinds)}")
        order = [key, *(name for name in kinds if name != key)]
        declared = ", ".join(f"{name} {kinds[name]}" for name in order)
        answer(self._shell.db, f"table {self._name} ({declared})")
        return table_of(self._shell.db, self._name)


def _is_of(table: Table, file: BufferedReader) -> bool:
    """Whether a file begins as a load of the table does, so that it is one as it is."""
    front = file.peek(len(MARK) + len(table.header) + 1)
    front = front[len(MARK) :] if front.startswith(MARK) else front
    return front.startswith((table.header, table.header[:-1] + b"\r\n"))


class _Parsed:
    """The records of a CSV, without empty lines, and if it is looked for them, the fields whose quote marks are odd."""

    def __init__(self, text: TextIO, separator: str, is_looked_at: bool) -> None:
        self._text = text
        self._separator = separator
        self._is_looked_at = is_looked_at
        #: The number of the record that comes next, and that of the last line.
        self._next = self._line = 0
        self._is_at_end = False
        #: The fields with odd quote marks.
        self.odd: List[Odd] = []
        self.records = self._all()

    def start(self, number: int) -> None:
        """Says which number the record has that comes next; 0 is that of the names."""
        self._next = number
        self.odd.clear()

    def _all(self) -> Iterator[List[str]]:
        for lines in iter(lambda: self._text.readlines(_PIECE), []):
            if '"' in "".join(lines):
                rest = chain(lines, self._text)
                yield from self._looked_at(rest) if self._is_looked_at else self._read(rest)
                return
            yield from self._read(lines)

    def _read(self, lines: Iterable[str]) -> Iterator[List[str]]:
        """The records of lines."""
        with self._reader(lines) as reader:
            for record in filter(None, reader):
                self._next += 1
                yield record

    def _looked_at(self, lines: Iterator[str]) -> Iterator[List[str]]:
        """The records of lines that have quote marks. One with an odd field is read once more, as a load reads it."""
        held: List[str] = []
        while not self._is_at_end:
            strict = csv.reader(self._held(lines, held), delimiter=self._separator, strict=True)
            try:
                for record in strict:
                    held.clear()
                    if record:
                        self._next += 1
                        yield record
            except csv.Error:
                self.odd.append(Odd(self._next, OPEN if self._is_at_end else BEHIND))
                self._line += strict.line_num - len(held)
                with self._reader(chain(held, lines)) as reader:
                    record = next(reader)
                held.clear()
                self._next += 1
                yield record

    def _held(self, lines: Iterator[str], held: List[str]) -> Iterator[str]:
        """Lines, which are held too."""
        for line in lines:
            held.append(line)
            yield line
        self._is_at_end = True

    @contextmanager
    def _reader(self, lines: Iterable[str]) -> Iterator[Iterator[List[str]]]:
        """What reads the next lines, whatever quote marks they have."""
        reader = csv.reader(lines, delimiter=self._separator)
        try:
            yield reader
        except csv.Error as why:
            raise Trouble(f"line {self._line + reader.line_num} of the file is no CSV: {why}") from why
        self._line += reader.line_num


def _place(name: str, names: List[str]) -> Optional[int]:
    """Where the file has a column of that name, else of one that differs by small and capital letters alone."""
    if name in names:
        return names.index(name)
    alike = [at for at, other in enumerate(names) if other.lower() == name.lower()]
    return alike[0] if len(alike) == 1 else None


def _kinds(names: List[str], records: Iterator[List[str]], shell: Shell) -> Dict[str, str]:
    """The types of the columns: integers, where each field is one that an integer is written as, and else texts."""
    numbers = set(range(len(names)))
    is_empty = True
    with shell.interrupts.allowed():
        for several in _in_pieces(records):
            is_empty = False
            # (a record of another length is refused where it is put in)
            columns = list(zip(*several))
            numbers = {at for at in numbers if at < len(columns) and all(map(_is_integer, columns[at]))}
    found = enumerate(names)
    return {name: "int" if at in numbers and not is_empty else "text" for at, name in found if name != _LEFT_OUT}


def _in_pieces(records: Iterator[List[str]]) -> Iterator[List[List[str]]]:
    """The records, several at a time."""
    return iter(lambda: list(islice(records, _RECORDS)), [])


def _is_integer(field: str) -> bool:
    """Whether a field is an integer that comes back as it was. (007 doesn't, so it is a text.)"""
    if not _INTEGER(field):
        return False
    return len(field) < _SURELY_SHORT or _LEAST <= int(field) <= _GREATEST


def _names_of(given: Sequence[str]) -> List[str]:
    """Names of the language for those of a file, each once."""
    names: List[str] = []
    for spelled in given:
        if spelled == _LEFT_OUT:
            names.append(spelled)
            continue
        name = re.sub(r"[^A-Za-z0-9_]+", "_", spelled).strip("_") or "column"
        if name[0].isdigit() or name in RESERVED:
            name = f"_{name}"
        names.append(_unused(name[:_LONGEST_NAME], names))
    return names


def _unused(name: str, names: Sequence[str]) -> str:
    number, unused = 1, name
    while unused in names:
        number += 1
        unused = f"{name[: _LONGEST_NAME - len(str(number)) - 1]}_{number}"
    return unused


class _Raw(io.RawIOBase):
    """What reads as a file, for a reader of texts."""

    def __init__(self, file: Read) -> None:
        super().__init__()
        self._file = file

    def readable(self) -> bool:
        return True

    def readinto(self, room: bytearray) -> int:  # type: ignore[override]
        content = self._file.read(len(room))
        room[: len(content)] = content
        return len(content)


class _Pieces:
    """The records of a file, with their fields in the order of a table's columns, as a load reads them."""

    def __init__(self, header: bytes, records: Iterator[List[str]], fields: int, order: Sequence[Optional[int]]) -> None:
        self._records = records
        #: How many fields a record has, and where those of the table are.
        self._fields = fields
        self._order = order
        self._number = 0
        self._written = io.StringIO(newline="")
        self._writer = csv.writer(self._written, lineterminator="\n")
        self._held = header
        self._is_at_end = False

    def read(self, count: int, /) -> bytes:
        """At most so many bytes, and none at the end."""
        while not self._is_at_end and len(self._held) < count:
            self._held += self._more()
        piece, self._held = self._held[:count], self._held[count:]
        return piece

    def _more(self) -> bytes:
        """The next records."""
        records = list(islice(self._records, _RECORDS))
        if not records:
            self._is_at_end = True
            return b""
        if set(map(len, records)) - {self._fields}:
            self._refuse(records)
        # (a column that the file lacks has null in all rows)
        columns = [*zip(*records), ("",) * len(records)]
        self._writer.writerows(zip(*(columns[-1 if at is None else at] for at in self._order)))
        self._number += len(records)
        text = self._written.getvalue()
        self._written.seek(0)
        self._written.truncate()
        return text.encode("utf-8", "surrogateescape")

    def _refuse(self, records: List[List[str]]) -> None:
        """Tells of the first record that has too few fields, or too many."""
        for number, record in enumerate(records, self._number + 1):
            if len(record) != self._fields:
                raise Trouble(f"record {number} has {_counted(len(record))}, and the file {_counted(self._fields)}")


def _counted(fields: int) -> str:
    return "1 field" if fields == 1 else f"{fields} fields"
