"""Values of other types: how they are stored as integers and texts, and how columns are read as them."""

from __future__ import annotations

import datetime
import enum
import functools
from typing import TYPE_CHECKING, Any, Callable, Dict, Optional, Type, Union

from .errors import WrongType

if TYPE_CHECKING:
    from .values import Value

#: Makes of a value of another type one that a column stores.
Adapter = Callable[[Any], "Value"]

#: Makes of a value of a column, which isn't null, one of another type.
Converter = Callable[[Any], Any]

# What to do with values of some types that no column stores.
_HINTS = {
    float: "round it to an int, or pass a Decimal or a str, which are stored exactly",
    tuple: "pass *values",
    list: "pass *values",
}


def register_adapter(kind: type, adapter: Adapter) -> None:
    """Has values of a type, and of those made of it, stored as what a function makes of them: an int, a str or None.

    It holds for parameters and for the rows of loads, in all databases of the process. What was registered for the type
    before is replaced. An int and a str are stored as they are, whatever is registered for types made of these.
    """
    if not isinstance(kind, type) or not callable(adapter):
        raise WrongType("mmdb: register_adapter takes a type and a function")
    if kind in (int, str, type(None)):
        raise WrongType(f"mmdb: {kind.__name__} is stored as it is, and takes no adapter")
    _ADAPTERS[kind] = adapter
    _adapter_of.cache_clear()


def register_converter(kind: type, converter: Converter) -> None:
    """Has columns that `Database.convert` reads as a type read by a function, which takes an int or a str.

    What was registered for the type before is replaced, for columns that are named from then on.
    """
    if not isinstance(kind, type) or not callable(converter):
        raise WrongType("mmdb: register_converter takes a type and a function")
    _CONVERTERS[kind] = converter


def converter_of(kind: Union[type, Converter]) -> Converter:
    """What reads a column as a type: what is registered for it, or else the type itself, as of an Enum. A function reads it
    itself."""
    if not callable(kind):
        raise WrongType(f"mmdb: a column is read as a type or by a function, not by {kind!r}")
    if not isinstance(kind, type):
        return kind
    return _CONVERTERS.get(kind, kind)


def adapted(value: Any) -> Value:
    """A value as a column stores it: an int, a str or None. Raises WrongType where its type has no adapter."""
    if value is None or isinstance(value, (int, str)) and type(value) is not bool:
        return value
    kind: Any = type(value)
    adapter = _adapter_of(kind)
    if adapter is None:
        raise WrongType(_why_not(kind))
    stored = adapter(value)
    if stored is None or isinstance(stored, (int, str)):
        return int(stored) if type(stored) is bool else stored
    told = f"{kind.__name__} gave a value of {type(stored).__name__}, which is no int, str or None"
    raise WrongType(f"mmdb: the adapter of {told}")


def has_adapter(value: Any) -> bool:
    """Whether a value is of a type with an adapter."""
    kind: Any = type(value)
    return _adapter_of(kind) is not None


@functools.lru_cache(maxsize=256)
def _adapter_of(kind: Type[Any]) -> Optional[Adapter]:
    """The adapter of the type that is the nearest of those that it is made of."""
    for base in kind.__mro__:
        adapter = _ADAPTERS.get(base) or (str if (base.__module__, base.__name__) in _BY_STR else None)
        if adapter is not None:
            return adapter
    return None


# Types that are stored by str(). (Their modules take longer to import than this package, so that they are named alone.)
_BY_STR = frozenset((("decimal", "Decimal"), ("uuid", "UUID")))


def _why_not(kind: type) -> str:
    hint = _HINTS.get(kind, "register an adapter")
    return f"mmdb: a value is an int, a str or None, not {kind.__name__}; {hint}"


def _value_of_enum(member: enum.Enum) -> Value:
    return adapted(member.value)


def _as_bool(value: Any) -> bool:
    """0 and 1 as False and True."""
    if value in (0, 1):
        return bool(value)
    raise ValueError("a bool is stored as 0 or 1")


_ADAPTERS: Dict[type, Adapter] = {
    bool: int,
    datetime.datetime: datetime.datetime.isoformat,
    datetime.date: datetime.date.isoformat,
    datetime.time: datetime.time.isoformat,
    enum.Enum: _value_of_enum,
}
_CONVERTERS: Dict[type, Converter] = {
    bool: _as_bool,
    datetime.datetime: datetime.datetime.fromisoformat,
    datetime.date: datetime.date.fromisoformat,
    datetime.time: datetime.time.fromisoformat,
}
