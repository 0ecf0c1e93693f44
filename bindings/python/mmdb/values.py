"""Values: how they are spelled in a line and in the block of a load, and their columns."""

from __future__ import annotations

import collections.abc
import operator
import re
from typing import TYPE_CHECKING, Any, Dict, Iterable, List, Mapping, NamedTuple, Optional, Sequence, Tuple, Union

from .chosen import extension
from .conversions import adapted, has_adapter
from .errors import WrongType, WrongUse, WrongValue

#: A value of a row: an integer of 64 bits, a text, or None, which is null.
Value = Union[int, str, None]

#: The types of values that are stored as they are.
PLAIN = frozenset((int, str, type(None)))

_LEAST, _GREATEST = -(1 << 63), (1 << 63) - 1
_IS_QUOTED = re.compile('[",\r\n]').search
_DECLARATION = re.compile(r"table (\w+) \((.*)\)", re.ASCII)

# What is no row, though values can be taken of it one by one.
_NO_ROWS = (str, bytes, bytearray, memoryview, collections.abc.Mapping, collections.abc.Set)


class Column(NamedTuple):
    """A column as it is declared. Its kind is that of its values: for a reference that of the keys."""

    name: str
    kind: type
    takes_null: bool
    refers_to: Optional[str]


def columns_of(listing: str) -> Dict[str, List[Column]]:
    """The columns of each table of a listing, by the table's name. A table comes after those that it refers to."""
    tables: Dict[str, List[Column]] = {}
    for name, columns in _DECLARATION.findall(listing):
        tables[name] = []
        for declaration in columns.split(", "):
            column, kind, *more = declaration.split(" ")
            to = more[0] if more else None
            of_values = tables[to][0].kind if to else {"int": int, "text": str}[kind]
            tables[name].append(Column(column, of_values, len(more) == 2, to))
    return tables


def _check_size(value: int) -> None:
    """Raises WrongValue where an integer has more than 64 bits."""
    if not _LEAST <= value <= _GREATEST:
        raise WrongValue("mmdb: an integer has at most 64 bits")


def _digits(value: int) -> str:
    """An integer as the language spells it."""
    _check_size(value)
    return int.__repr__(value)


def spelled(value: Any) -> str:
    """A value as it is spelled in a line. (A text with a line feed can't be.)"""
    if value is None:
        return "null"
    if isinstance(value, str):
        doubled = str.replace(value, "'", "''")
        return f"'{doubled}'"
    if isinstance(value, int) and not isinstance(value, bool):
        return _digits(value)
    return spelled(adapted(value))


def stored_values(values: Iterable[Any]) -> Tuple[Value, ...]:
    """Values as columns store them. Raises WrongType where one of them has no adapter, and WrongValue where it can't be
    sent."""
    return tuple([_stored(value) for value in values])


def stored_rows(rows: Iterable[Iterable[Any]]) -> List[Tuple[Value, ...]]:
    """The same of several rows, counted from 1."""
    taken = []
    for number, row in enumerate(rows, 1):
        try:
            taken.append(stored_values(row))
        except (WrongType, WrongValue) as why:
            raise type(why)(f"{why} (row {number})") from None
    return taken


def _stored(value: Any) -> Value:
    plain: Value = value if type(value) in PLAIN else adapted(value)
    if isinstance(plain, str):
        encoded(plain)
    elif plain is not None:
        _check_size(plain)
    return plain


def encoded(text: str) -> bytes:
    """The bytes of a line or a block."""
    try:
        return text.encode()
    except UnicodeEncodeError as why:
        raise WrongValue(f"mmdb: a text has a lone surrogate, {text[why.start]!r}") from why


def as_bytes(given: Any) -> bytes:
    """The bytes of a line or a block that is given as text or bytes."""
    if isinstance(given, str):
        return encoded(given)
    if isinstance(given, (bytes, bytearray, memoryview)):
        return bytes(given)
    raise WrongType(f"mmdb: bytes or a str are wanted, not {type(given).__name__}")


def quoted_field(text: str) -> str:
    """A text as a field of CSV."""
    doubled = str.replace(text, '"', '""')
    return f'"{doubled}"' if _IS_QUOTED(doubled) else doubled


def _field(value: Any, column: Column) -> str:
    """A value as it is spelled in the block of a load, in that column."""
    if value is None and column.takes_null:
        return ""
    if column.kind is int and isinstance(value, int) and not isinstance(value, bool):
        return _digits(value)
    if column.kind is str and isinstance(value, str):
        if column.takes_null and not value:
            raise WrongValue(f"mmdb: in the column {column.name} a load would read the empty text as null")
        return quoted_field(value)
    if type(value) not in PLAIN and has_adapter(value):
        return _field(adapted(value), column)
    taken = column.kind.__name__ + (" or None" if column.takes_null else "")
    raise WrongType(f"mmdb: the column {column.name} takes {taken}, not {type(value).__name__}")


def quoted_fields(texts: Sequence[str]) -> Sequence[str]:
    """Texts as fields of CSV."""
    together, is_quoted = "".join(texts), _IS_QUOTED
    if not any(mark in together for mark in '",\r\n'):
        return texts
    doubled = [text.replace('"', '""') for text in texts] if '"' in together else texts
    return [f'"{text}"' if is_quoted(text) else text for text in doubled]


def _fields(values: List[Any], column: Column, before: int) -> Sequence[str]:
    """The values of a column as they are spelled in the block of a load, of rows before which there are some others."""
    kinds = set(map(type, values))
    if kinds == {int} and column.kind is int and _LEAST <= min(values) and max(values) <= _GREATEST:
        return list(map(str, values))
    if kinds == {str} and column.kind is str and not column.takes_null:
        return quoted_fields(values)
    fields = []
    for number, value in enumerate(values, before + 1):
        try:
            fields.append(_field(value, column))
        except (WrongType, WrongValue) as why:
            raise type(why)(f"{why} (row {number})") from None
    return fields


def records_of(columns: List[Column], rows: Sequence[Tuple[Any, ...]], before: int) -> List[str]:
    """The records of a load that has these rows, before which there are some others."""
    for number, row in enumerate(rows, before + 1):
        if len(row) != len(columns):
            raise WrongUse(f"mmdb: row {number} has {len(row)} values for {len(columns)} columns")
    fields = [_fields(list(map(operator.itemgetter(at), rows)), column, before) for at, column in enumerate(columns)]
    return joined_records(fields)


def letters_of(columns: Iterable[Column]) -> bytes:
    """What columns take, a letter for each: `i` for integers, `t` for texts, and large ones where nulls are taken too."""
    letters = (("i" if column.kind is int else "t", column.takes_null) for column in columns)
    return "".join(letter.upper() if takes_null else letter for letter, takes_null in letters).encode()


def _no_records(columns: bytes, rows: List[Tuple[Any, ...]]) -> Optional[bytes]:
    """The records of a load with these rows, with line feeds between them, where all values are stored as they are in columns
    with these letters. Gives None where they aren't. (Only the extension has them.)"""
    return None


if TYPE_CHECKING or extension is None:
    plain_records = _no_records
else:
    plain_records = extension.plain_records


def joined_records(fields: Sequence[Sequence[str]]) -> List[str]:
    """The records that have these fields in their columns."""
    records = map(",".join, zip(*fields))
    # (an empty line would be no record)
    return [record or '""' for record in records] if len(fields) == 1 else list(records)


def rows_of(rows: List[Any], before: int) -> List[Tuple[Any, ...]]:
    """Rows whose values have an order, each as a tuple. Before them there are some others."""
    return rows if set(map(type, rows)) <= {tuple} else [row_of(row, number) for number, row in enumerate(rows, before + 1)]


def row_of(row: Any, number: int) -> Tuple[Any, ...]:
    """A row whose values have an order, as a tuple. Raises WrongType if it is none."""
    if type(row) in (tuple, list):
        return tuple(row)
    if isinstance(row, _NO_ROWS) or not isinstance(row, collections.abc.Iterable):
        more = "; load_dicts takes dicts" if isinstance(row, collections.abc.Mapping) else ""
        raise WrongType(f"mmdb: a row is a list or tuple of values, not {type(row).__name__} (row {number}){more}")
    return tuple(row)
