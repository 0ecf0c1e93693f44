"""Values for the places of a line: those that `.parameter` sets, and texts with line feeds, which no line can hold."""

from __future__ import annotations

import re
from typing import Dict, List, NamedTuple, Optional, Tuple

import mmdb

from .lines import is_comment, is_refused_anyway
from .trouble import Trouble

_TEXT_OR_PLACE = re.compile(r"'(?:[^']|'')*(?:'|\Z)|\?|:[^\W\d]\w*")
_NAME = re.compile(r"\?[1-9]\d{0,3}|:[^\W\d]\w*")
_NUMBER = re.compile(r"-?\d+")
_TEXT = re.compile(r"'(?:[^']|'')*'")
_LEAST, _GREATEST = -(1 << 63), (1 << 63) - 1


class Bound(NamedTuple):
    """A line with a `?` for each value. Without values it is the line as it was typed."""

    line: bytes
    values: Tuple[mmdb.Value, ...]


class Parameters:
    """The values that are set, by the names of their places: `?1`, `?2` and so on, or `:name`."""

    def __init__(self) -> None:
        self._values: Dict[str, mmdb.Value] = {}

    def set(self, name: str, spelled: str) -> None:
        """Sets a value, spelled as in a line. What is no number, no text in quotes and no null is a text as it is."""
        self._values[_place(name)] = _value(spelled)

    def unset(self, name: str) -> None:
        if _place(name) not in self._values:
            raise Trouble(f"no value is set for {_place(name)}")
        del self._values[_place(name)]

    def clear(self) -> None:
        self._values.clear()

    def rows(self) -> List[List[mmdb.Value]]:
        """The names and the values."""
        return [[name, value] for name, value in sorted(self._values.items(), key=lambda item: (len(item[0]), item))]

    def bind(self, line: bytes) -> Bound:
        """Puts the values into the places of a line. Raises Trouble where a place has none."""
        if not self._values and b"\n" not in line:
            return Bound(line, ())
        has_places = bool(self._values) and (b"?" in line or b":" in line)
        if not (has_places or b"\n" in line) or is_comment(line) or is_refused_anyway(line):
            return Bound(line, ())
        binding = _Binding(self._values if has_places else None)
        bound = _TEXT_OR_PLACE.sub(binding.put, line.decode())
        return Bound(bound.encode(), tuple(binding.values))


class _Binding:
    """One pass over a line. Without `given` its places stay as they are."""

    def __init__(self, given: Optional[Dict[str, mmdb.Value]]) -> None:
        self._given = given
        self._count = 0
        self.values: List[mmdb.Value] = []

    def put(self, found: "re.Match[str]") -> str:
        """What stands in the bound line for a text or a place."""
        spelled = found[0]
        if spelled.startswith("'"):
            return self._put_text(spelled)
        if self._given is None:
            return spelled
        name = spelled
        if spelled == "?":
            self._count += 1
            name = f"?{self._count}"
        if name not in self._given:
            raise Trouble(f"no value is set for {name}: .parameter set {name} VALUE sets one")
        self.values.append(self._given[name])
        return "?"

    def _put_text(self, spelled: str) -> str:
        if "\n" not in spelled:
            return spelled
        if not _TEXT.fullmatch(spelled):
            # The text is open, so the line is refused, and only its columns count.
            return spelled.replace("\n", " ")
        self.values.append(spelled[1:-1].replace("''", "'"))
        return "?"


def _place(name: str) -> str:
    """The name of a place. A number alone is that of a `?`."""
    full = f"?{name}" if name.isdecimal() else name
    if not _NAME.fullmatch(full):
        raise Trouble(f"{name} is no place: places are ?1, ?2 and so on, or :name")
    return full


def _value(spelled: str) -> mmdb.Value:
    if spelled == "null":
        return None
    if _TEXT.fullmatch(spelled):
        return spelled[1:-1].replace("''", "'")
    if _NUMBER.fullmatch(spelled) and _LEAST <= int(spelled) <= _GREATEST:
        return int(spelled)
    return spelled
