"""Loads of any size: their rows in the order of the columns, cut into blocks, and what is told of a refused one."""

from __future__ import annotations

import collections.abc
import contextlib
import itertools
import operator
import re
from typing import Any, Callable, Iterable, Iterator, List, Mapping, NamedTuple, Optional, Sequence, Tuple

from .chosen import extension
from .errors import Refused, WrongType, WrongUse, WrongValue
from .values import PLAIN, Column, encoded, letters_of, plain_records, records_of, rows_of

#: Puts given rows, before which there are some others, into the order of a table's columns.
Arrange = Callable[[List[Any], int], List[Tuple[Any, ...]]]

#: How many rows are put into records at once.
CHUNK = 1_000

#: So many inserts by one call are made as loads, and so many rows are in each of these.
MANY = 200
_ROWS_OF_A_LOAD = 1 << 16

# Where the words of a refusal tell of a record, and its reason of another one.
_OF_A_RECORD = re.compile(r"record \d+\)?\Z")
_OF_ANOTHER_RECORD = re.compile(r"\Arecord \d+ ")
_KEY_IN_TABLE = re.compile(r"\A(\w+) has a row with the key ")
_TABLE_FULL = re.compile(r"\A(\w+) has (\d+) rows, (?:and there can be no more|(\d+) records come before this one, .*)\Z")
_DIGITS = re.compile(r"\d+")


# ---- columns that are named


def kept_names(names: Any) -> Any:
    """The names of columns that a caller gives, in a form in which they can be taken several times."""
    return list(names) if isinstance(names, collections.abc.Iterator) else names


def checked_names(table: str, columns: List[Column], names: Any, takes_none: bool = False) -> List[Optional[str]]:
    """The names of columns that a caller gives. Raises WrongType and WrongUse where they don't fit those of the table."""
    if isinstance(names, (str, bytes)) or not isinstance(names, collections.abc.Iterable):
        raise WrongType(f"mmdb: columns are named by a list or tuple of names, not by {type(names).__name__}")
    given = list(names)
    for name in given:
        if not isinstance(name, str) and not (takes_none and name is None):
            raise WrongType(f"mmdb: the name of a column is a str, not {type(name).__name__}")
    known = [column.name for column in columns]
    named = [name for name in given if name is not None]
    for name in named:
        if name not in known:
            raise WrongUse(f"mmdb: {name} is no column of {table}")
        if named.count(name) > 1:
            raise WrongUse(f"mmdb: the column {name} is named twice")
    for column in columns:
        if column.name not in named and not column.takes_null:
            raise WrongUse(f"mmdb: {table} has no row without a value for {column.name}, which isn't named")
    return given


def by_order(table: str, columns: List[Column], names: Optional[Sequence[Optional[str]]]) -> Arrange:
    """How rows are arranged whose values are in the order of these names, or of the columns."""
    if names is None or not columns:
        return rows_of
    given = checked_names(table, columns, names, takes_none=True)
    # (a value that isn't given is the null behind the row)
    places = [given.index(column.name) if column.name in given else len(given) for column in columns]
    arranged = operator.itemgetter(*places, 0)

    def arrange(rows: List[Any], before: int) -> List[Tuple[Any, ...]]:
        taken = rows_of(rows, before)
        for number, row in enumerate(taken, before + 1):
            if len(row) != len(given):
                raise WrongUse(f"mmdb: row {number} has {len(row)} values for {len(given)} columns")
        return [arranged((*row, None))[:-1] for row in taken]

    return arrange


def by_name(table: str, columns: List[Column], names: Optional[Sequence[str]]) -> Arrange:
    """How dicts are arranged, of which these names are taken, or those of all columns, which are all that they have."""
    if not columns:
        return rows_of
    known = [column.name for column in columns]
    wanted: List[Optional[str]] = [*known] if names is None else checked_names(table, columns, names)
    nulls, all_names, values = dict.fromkeys(known), set(known), _values_of(known)

    def has_them(given: Mapping[str, Any]) -> bool:
        return given.keys() == all_names if names is None else all(name in given for name in wanted)

    def may_have_just_them(dicts: List[Any]) -> bool:
        return names is None and set(map(type, dicts)) <= {dict} and set(map(len, dicts)) <= {len(known)}

    def arrange(dicts: List[Any], before: int) -> List[Tuple[Any, ...]]:
        if may_have_just_them(dicts):
            with contextlib.suppress(KeyError):
                return list(map(values, dicts))
        rows: List[Tuple[Any, ...]] = []
        for number, given in enumerate(dicts, before + 1):
            if type(given) is not dict and not isinstance(given, collections.abc.Mapping):
                raise WrongType(f"mmdb: a row is a dict, not {type(given).__name__} (row {number}); load takes others")
            if not has_them(given):
                raise WrongUse(f"mmdb: {_misfit(wanted, given)} of {table} (row {number})")
            if len(wanted) < len(known):
                given = {**nulls, **{name: given[name] for name in wanted}}
            rows.append(values(given))
        return rows

    return arrange


def _values_of(names: Sequence[str]) -> Callable[[Mapping[str, Any]], Tuple[Any, ...]]:
    """What takes the values of these names."""
    if len(names) == 1:
        return lambda given: (given[names[0]],)
    return operator.itemgetter(*names)


def _misfit(names: Sequence[Any], given: Mapping[str, Any]) -> str:
    """Why a dict is no row of these columns."""
    lacking = [name for name in names if name not in given]
    if lacking:
        return f"a row lacks the column {', '.join(lacking)}"
    return f"a row has {', '.join(str(name) for name in given if name not in names)}, which is no column"


# ---- blocks


class Records(NamedTuple):
    """Some records: their bytes, with line feeds between them, and what gives those of each."""

    content: bytes
    parts: Callable[[], Iterable[bytes]]


def written(records: List[str], encode: Callable[[str], bytes]) -> Records:
    """Records as bytes."""
    return Records(encode("\n".join(records)), lambda: map(encode, records))


def header_of(columns: Iterable[Column]) -> str:
    """The names of columns, as the first record of a block has them."""
    return ",".join(column.name for column in columns)


def blocks_of_rows(columns: List[Column], arrange: Arrange, chunks: Iterable[List[Any]], limit: int) -> Iterator[bytes]:
    """The blocks of a load of these rows, each of at most so many bytes. Without columns there is no table, as the library
    says of an empty one."""
    if not columns:
        return iter([b""])

    letters = letters_of(columns)

    def records() -> Iterator[Records]:
        before = 0
        for rows in chunks:
            yield _records(columns, letters, arrange(rows, before), before)
            before += len(rows)

    return blocks(encoded(header_of(columns)), records(), limit)


def plain_blocks(columns: List[Column], rows: List[Tuple[Any, ...]], limit: int) -> List[Tuple[bytes, int]]:
    """The blocks of loads of these rows, each with the number of its rows. None if a value isn't stored as it is, or a block would have
    more bytes than so many."""
    header, letters = encoded(header_of(columns)) + b"\n", letters_of(columns)
    made = []
    for first in range(0, len(rows), _ROWS_OF_A_LOAD):
        some = rows[first : first + _ROWS_OF_A_LOAD]
        content = plain_records(letters, some) if extension else _plain_by_python(columns, some)
        if content is None or len(header) + len(content) > limit:
            return []
        made.append((header + content, len(some)))
    return made


def _plain_by_python(columns: List[Column], rows: List[Tuple[Any, ...]]) -> Optional[bytes]:
    """The records of these rows. None if a value isn't stored as it is."""
    if not all(type(value) in PLAIN for row in rows for value in row):
        return None
    try:
        return encoded("\n".join(records_of(columns, rows, 0)))
    except (WrongType, WrongUse, WrongValue):
        return None


def _records(columns: List[Column], letters: bytes, rows: List[Tuple[Any, ...]], before: int) -> Records:
    """The records of these rows, before which there are some others."""
    content = plain_records(letters, rows)
    if content is None:
        return written(records_of(columns, rows, before), encoded)
    return Records(content, lambda: map(encoded, records_of(columns, rows, before)))


def chunked(given: List[Any], rows: Iterator[Any]) -> Iterator[List[Any]]:
    """Some rows, and all further ones, in lists."""
    while given:
        yield given
        given = list(itertools.islice(rows, CHUNK))


def blocks(header: bytes, chunks: Iterable[Records], limit: int) -> Iterator[bytes]:
    """These records in blocks of at most so many bytes. One that has no room in any has a block of its own."""
    pieces, size = [header], len(header)
    for records in chunks:
        # (mostly a chunk has room, and is one piece; without records it is none)
        has_room = not records.content or size + 1 + len(records.content) <= limit
        parts: Iterable[bytes] = filter(None, [records.content]) if has_room else records.parts()
        for piece in parts:
            if size + 1 + len(piece) > limit and len(pieces) > 1:
                yield b"\n".join(pieces)
                pieces, size = [header], len(header)
            pieces.append(piece)
            size += 1 + len(piece)
    yield b"\n".join(pieces)


def in_whole(why: Refused, before: int) -> Refused:
    """A refusal of a block, told of a load in which so many records are before it."""
    if not before:
        return why

    def moved(found: re.Match[str]) -> str:
        return _DIGITS.sub(lambda number: str(before + int(number[0])), found[0])

    def without_them(found: re.Match[str]) -> str:
        rows, records = int(found[2]), int(found[3] or 0)
        most = f"and a table has at most {rows + records} rows"
        return f"{found[1]} has {rows - before} rows, {before + records} records come before this one, {most}"

    reason = why.reason
    if reason:
        reason = _TABLE_FULL.sub(without_them, _KEY_IN_TABLE.sub(r"\1 or an earlier record has the key ", reason))
        reason = _OF_ANOTHER_RECORD.sub(moved, reason)
    return type(why)(why.number, _OF_A_RECORD.sub(moved, why.text), why.line, reason, why.written)
