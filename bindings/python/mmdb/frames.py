"""Rows as a DataFrame of pandas, where that is there."""

from __future__ import annotations

import importlib
from typing import Any, List, Optional, Sequence


def frame_of(names: Sequence[str], types: Sequence[type], columns: Sequence[List[Any]]) -> Any:
    """A DataFrame with these columns."""
    try:
        pandas = importlib.import_module("pandas")
    except ImportError as why:
        raise ImportError("mmdb: to_pandas needs the package pandas, which is not installed") from why
    series = [pandas.Series(values, dtype=_type_of(kind, values)) for kind, values in zip(types, columns)]
    return pandas.DataFrame(dict(zip(names, series)))


def _type_of(kind: type, values: Sequence[Any]) -> Optional[str]:
    """The type of a column of integers, by whether it has nulls. What pandas makes of other values is its own matter."""
    if not values and kind is str:
        return "object"
    if kind is not int or not {int, type(None)}.issuperset(map(type, values)):
        return None
    return "Int64" if None in values else "int64"
