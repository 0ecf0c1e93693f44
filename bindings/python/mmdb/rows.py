"""Rows, and the names of their values."""

from __future__ import annotations

import collections
import functools
import operator
import sys
from typing import TYPE_CHECKING, Any, Callable, ClassVar, Dict, Iterable, List, NamedTuple, Optional, Sequence, Tuple, Type

from .chosen import extension
from .conversions import Converter
from .errors import WrongType, WrongUse, WrongValue

if TYPE_CHECKING:
    _Values = Tuple[Any, ...]
    _ListOfRows = List["Row"]
else:
    _Values = tuple
    _ListOfRows = list

_item: Callable[[Tuple[Any, ...], Any], Any] = tuple.__getitem__
_equal: Callable[[Tuple[Any, ...], object], bool] = tuple.__eq__
_unequal: Callable[[Tuple[Any, ...], object], bool] = tuple.__ne__


class _Named(_Values):
    """A tuple with names for its values. (The extension has the same class.)"""

    __slots__ = ()

    _places: ClassVar[Dict[str, int]] = {}

    def __getitem__(self, key: Any) -> Any:
        if key.__class__ is not str:
            try:
                return _item(self, key)
            except TypeError:
                if not isinstance(key, str):
                    raise
        place = self._places.get(key)
        return self._missing(key) if place is None else _item(self, place)

    def __eq__(self, other: object) -> bool:
        return _equal(self, tuple(other) if isinstance(other, list) else other)

    def __ne__(self, other: object) -> bool:
        return _unequal(self, tuple(other) if isinstance(other, list) else other)

    __hash__ = tuple.__hash__

    def _missing(self, name: str) -> Any:
        raise KeyError(name)


if not TYPE_CHECKING and extension is not None:
    _Named = extension.Named


class Row(_Named):
    """A row: the tuple of its values, which can also be read by the names of their columns.

    `row["emp.id"]` is the value of a column by its full name. `row["id"]` and `row.id` are that of the one column with
    that name. If a tuple has an attribute of the same name, such as `count`, or the name begins and ends with two
    underscores, only `row["count"]` reads the column.

    A row is equal to a tuple of its values and has the hash of that tuple. It is also equal to a list of its values.
    """

    __slots__ = ()

    _names: ClassVar[Tuple[str, ...]] = ()
    _places: ClassVar[Dict[str, int]] = {}

    def __getattr__(self, name: str) -> Any:
        # (each column that can be had so is a property, so there is none)
        raise AttributeError(why_not(self._names, name))

    def __reduce__(self) -> Any:
        return _remade, (self._names, tuple(self))

    def _missing(self, name: str) -> Any:
        raise KeyError(why_not(self._names, name))


def why_not(names: Sequence[str], name: str) -> str:
    """Why there is no column of this name among the columns of a row."""
    having = [full for full in names if full.endswith(f".{name}")]
    if len(having) > 1:
        return f"mmdb: several columns of the row are called {name}: {', '.join(having)}"
    return f"mmdb: the row has no column {name!r}; its columns are {', '.join(names)}"


def _remade(names: Tuple[str, ...], values: Iterable[Any]) -> Row:
    return row_type(names)(values)


_ROWS_OWN = frozenset(dir(Row))


def _is_property(name: str) -> bool:
    """Whether a column of that name is an attribute."""
    return name not in _ROWS_OWN and not (name.startswith("__") and name.endswith("__"))


def short_names(names: Sequence[str]) -> List[str]:
    """The names without their tables, unless several would be alike."""
    bare = [name.rpartition(".")[2] for name in names]
    counts = collections.Counter(bare)
    return [short if counts[short] == 1 else name for short, name in zip(bare, names)]


def _value_at(place: int) -> Any:
    """What reads the value at a place, as an attribute."""
    try:
        # (it takes a fifth of the time of a property)
        return collections._tuplegetter(place, None)  # type: ignore[attr-defined]
    except AttributeError:
        return property(operator.itemgetter(place))


@functools.lru_cache(maxsize=512)
def row_type(names: Tuple[str, ...]) -> Type[Row]:
    """The type of rows whose columns have these full names."""
    places = {name: place for place, name in enumerate(names)}
    places.update((name, place) for place, name in enumerate(short_names(names)))
    members: Dict[str, Any] = {name: _value_at(place) for name, place in places.items() if _is_property(name)}
    return type("Row", (Row,), {**members, "__slots__": (), "_names": names, "_places": places})


class Rows(_ListOfRows):
    """A list of rows, with the names of their columns.

    It is equal to each list that has the same rows.
    """

    __slots__ = ("names", "types")

    #: The columns' names, in order: each as `table.column` in a select, and as `column` in a dump.
    names: Tuple[str, ...]

    #: For each column `int` or `str`.
    types: Tuple[type, ...]

    def dicts(self) -> List[Dict[str, Any]]:
        """Each row as a dict, by the columns' names alone, or by their full names if several are alike."""
        keys = short_names(self.names)
        return [dict(zip(keys, row)) for row in self]

    def column(self, name: str) -> List[Any]:
        """The values of a column, by its full name or the name alone."""
        return list(map(operator.itemgetter(self._place(name)), self))

    def sort(self, *columns: str, key: Optional[Callable[[Row], Any]] = None, reverse: bool = False) -> None:
        """Sorts the rows in place by one or more columns, or as a list is sorted.

        Nulls come before all values. Rows that are alike in these columns stay in their order.
        """
        if columns and key is not None:
            raise WrongType("mmdb: rows are sorted by columns or by a key, not by both")
        places = [self._place(column) for column in columns]

        def values(row: Row) -> Any:
            return [(row[place] is not None, row[place]) for place in places]

        list.sort(self, key=values if columns else key, reverse=reverse)

    def group(self, *columns: str) -> Dict[Any, Rows]:
        """The rows by their values in one or more columns.

        The keys are these values, in the order in which they first come, and tuples of them for several columns.
        """
        if not columns:
            raise WrongType("mmdb: rows are grouped by one or more columns")
        key = operator.itemgetter(*(self._place(column) for column in columns))
        groups: Dict[Any, List[Row]] = {}
        for row in self:
            groups.setdefault(key(row), []).append(row)
        return {value: self._with(rows) for value, rows in groups.items()}

    def sum(self, column: str) -> Any:
        """The sum of the values of a column, nulls left out. It is 0 where there are none."""
        try:
            return sum(value for value in self.column(column) if value is not None)
        except TypeError as why:
            raise WrongType(f"mmdb: the column {column} has values that have no sum: {why}") from why

    def to_pandas(self) -> Any:
        """The rows as a DataFrame of pandas, with the columns' names alone, or their full names where several are alike.

        A column of integers is of the type `int64`, or `Int64` if it has nulls. Raises ImportError without pandas.
        """
        from .frames import frame_of

        return frame_of(short_names(self.names), self.types, self._columns())

    def __arrow_c_stream__(self, requested_schema: Any = None) -> Any:
        """The rows as a stream of Arrow, in a PyCapsule: `pyarrow.table(rows)` and `polars.DataFrame(rows)` read it.

        A column is of the type `int64` or `utf8`. Values that were read as other types are exported as they are stored.
        """
        from .arrow import stream_of

        return stream_of(short_names(self.names), self.types, self._columns())

    def _columns(self) -> List[List[Any]]:
        """The values of each column."""
        return [list(map(operator.itemgetter(at), self)) for at in range(len(self.names))]

    def _with(self, rows: Iterable[Row]) -> Rows:
        """Other rows with the same columns."""
        made = type(self)(rows)
        made.names, made.types = self.names, self.types
        return made

    def _place(self, name: str) -> int:
        """The place of a column. Raises KeyError where there is none, or several of that name."""
        kind = row_type(self.names)
        place = kind._places.get(name)
        if place is None:
            raise KeyError(why_not(self.names, name))
        return place


class Shape(NamedTuple):
    """What rows with some columns are made of. (The extension reads its fields by their order.)"""

    all: Type[Rows]
    names: Tuple[str, ...]
    types: Tuple[type, ...]
    row: Type[Row]
    #: For each column what its values are read by, or None. It is None if all are read as they are stored.
    converters: Optional[Tuple[Optional[Converter], ...]] = None

    def converted(self, rows: Rows) -> Rows:
        """Rows of stored values, with the values of other types that their columns are read as."""
        columns = [
            column if converter is None else _converted(name, converter, column)
            for name, converter, column in zip(self.names, self.converters or (), zip(*rows))
        ]
        return self.rows(columns)

    def rows(self, columns: Iterable[Iterable[Any]]) -> Rows:
        """Rows that have these values in their columns."""
        rows = self.all(map(self.row, zip(*columns)))
        rows.names, rows.types = self.names, self.types
        return rows


def _converted(name: str, converter: Converter, values: Iterable[Any]) -> List[Any]:
    """The values of a column as they are read. Raises WrongValue where one of them can't be."""
    read = []
    for value in values:
        try:
            read.append(None if value is None else converter(value))
        except (ValueError, TypeError, ArithmeticError) as why:
            raise WrongValue(f"mmdb: the column {name} has {value!r}: {why}") from why
    return read


@functools.lru_cache(maxsize=512)
def shape_of(names: Tuple[str, ...], kinds: Tuple[int, ...]) -> Shape:
    """The shape of columns that have these names, and kinds by the numbers of mmdb.h: 1 of integers, 2 of texts."""
    return Shape(Rows, names, tuple(str if kind == 2 else int for kind in kinds), row_type(names))


def most_rows(most: int) -> int:
    """How many rows are wanted at most, as the library takes it. Raises WrongUse where it is less than 0."""
    count = operator.index(most)
    if count < 0:
        raise WrongUse(f"mmdb: the first rows are 0 or more, not {count}")
    return min(count, sys.maxsize)
