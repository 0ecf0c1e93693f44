"""Lines: what kind of command one is, and where its parameters are."""

from __future__ import annotations

import functools
import itertools
import re
from typing import Any, Iterable, List, Mapping, NamedTuple, Optional, Tuple

from .errors import WrongType, WrongUse
from .values import encoded, row_of, spelled

# A text, which has no places; or a place, with its name where it has one.
_TEXT_OR_PLACE = re.compile(r"'[^']*(?:'|\Z)|\?|:([^\W\d]\w*)")

# Where nothing is needed between a place and what is before it, or after it, to keep the two apart.
_APART_BEFORE = frozenset(" \t(,=<>")
_APART_BEHIND = frozenset(" \t),")

# How a reason begins that names a column.
_COLUMN = re.compile(r"column (\d+): ")

# How a line begins: with a word, as a comment, or, where it is blank, with its end.
_BEGINNING = re.compile(r"[ \t]*(?:([A-Za-z_]\w*)|(#|\r?\Z))", re.ASCII)
_COMMANDS = frozenset(("table", "drop", "index", "insert", "update", "delete", "select", "load", "dump", "tables"))

# An insert whose values all have places.
_FILLED_INSERT = re.compile(rb"[ \t]*insert[ \t]+([a-z_]\w*)[ \t]*\([ \t]*\?(?:[ \t]*,[ \t]*\?)*[ \t]*\)[ \t]*", re.ASCII)

#: How many bytes a line has at most, without the return that it may end in. Longer ones are refused, and not kept.
LONGEST = 8192

#: The commands that change rows, and all that can be prepared.
CHANGES = ("insert", "update", "delete")
STATEMENTS = (*CHANGES, "select")

#: How a line begins that would change tables.
CHANGING = re.compile(rb"[ \t]*(?:table|drop|index|insert|update|delete|load)\b")


class Placed(NamedTuple):
    """A line, and where its parameters are. (The extension reads its fields by their order.)"""

    #: The bytes of the line with a `?` at each place, which can be prepared.
    prepared: bytes
    #: The line with its values still to be filled in, by the operator %.
    text: str
    #: How many places it has.
    places: int
    #: The names of its places in their order; none where they are marked by `?`.
    names: Tuple[str, ...]
    #: How many values it needs, each name counted once.
    wanted: int
    is_select: bool
    #: Whether it is an insert, an update, a delete or a select, by its first word, and not too long.
    is_statement: bool
    #: The line as it was given, which may be written over several lines.
    given: str

    def filled(self, values: Iterable[Any]) -> str:
        """The line with values in its places, as literals."""
        return self.text % tuple(map(spelled, values))

    def pointed(self, reason: str) -> str:
        """A reason, whose column is one of the prepared line, with that of the line as it was given."""
        found = _COLUMN.match(reason) if self.names else None
        if found is None:
            return reason
        column, names = int(found[1]), iter(self.names)
        moved = column
        for place in _TEXT_OR_PLACE.finditer(self.prepared.decode()):
            at = place.start() + 1
            if at > column:
                break
            if place[0] != "?":
                continue
            name = next(names)
            if at < column:
                moved += len(name)
            else:
                reason = reason.replace("found ?", f"found :{name}", 1)
        return f"column {moved}: {reason[found.end() :]}"

    def fitting(self, parameters: Tuple[Any, ...], named: Mapping[str, Any]) -> Tuple[Any, ...]:
        """The parameters in the order of the places: those of `named`, or of a mapping that is the one parameter, by
        name. Raises WrongUse if they don't fit the places, and WrongType if a list is passed for its values."""
        if not named and not self.names and len(parameters) == self.places:
            return parameters
        only = parameters[0] if len(parameters) == 1 else None
        if isinstance(only, Mapping) and not named:
            parameters, named = (), only
        if parameters and (self.names or named):
            raise WrongUse("mmdb: a place ? takes a parameter by its order, and a place :name one by its name")
        if isinstance(only, (tuple, list)):
            raise WrongType(f"mmdb: parameters are passed one by one: pass *values, not a {type(only).__name__}")
        unknown = [name for name in named if name not in self.names]
        if unknown:
            raise WrongUse(f"mmdb: the line has no place {_listed(unknown)}")
        missing = [name for name in dict.fromkeys(self.names) if name not in named]
        if missing:
            raise WrongUse(f"mmdb: no parameter is given for {_listed(missing)}")
        if not self.names and len(parameters) != self.places:
            raise WrongUse(f"mmdb: the line has {self.places} places for {len(parameters)} parameters")
        return tuple([named[name] for name in self.names]) if self.names else parameters

    def fitting_rows(self, rows: Iterable[Any]) -> List[Tuple[Any, ...]]:
        """Several rows of parameters, each in the order of the places."""
        taken = list(rows)
        if not self.names and set(map(type, taken)) == {tuple} and set(map(len, taken)) == {self.places}:
            return taken
        return [self._fitting_row(row, number) for number, row in enumerate(taken, 1)]

    def _fitting_row(self, row: Any, number: int) -> Tuple[Any, ...]:
        named = row if isinstance(row, Mapping) else {}
        parameters = () if isinstance(row, Mapping) else row_of(row, number)
        try:
            return self.fitting(parameters, named)
        except (WrongType, WrongUse) as why:
            raise type(why)(f"{why} (row {number})") from None


@functools.lru_cache(maxsize=512)
def placed(line: str) -> Placed:
    """A line, and where its parameters stand. Raises WrongUse where a text in it has a line feed, or it has places of both
    kinds."""
    given, line = line, one_line(line)
    pieces: List[str] = [line]
    marks: List[Optional[str]] = []
    if "?" in line or ":" in line:
        pieces, marks = _cut(line)
    names = tuple([name for name in marks if name is not None])
    if names and len(names) < len(marks):
        raise WrongUse("mmdb: the line has places of both kinds, ? and :name")
    marked = encoded("?".join(pieces))
    found = _BEGINNING.match(line)
    word = found[1] if found else None
    return Placed(
        marked,
        _joined(pieces),
        len(marks),
        names,
        len(set(names)) if names else len(marks),
        word == "select",
        word in STATEMENTS and len(marked) <= LONGEST + 1,
        given,
    )


def filled_table(at: Placed) -> Optional[str]:
    """The table of an insert whose values all have places. None for another line."""
    found = _FILLED_INSERT.fullmatch(at.prepared)
    return found[1].decode() if found else None


def one_line(line: str) -> str:
    """A command that is written over several lines, as one: with a blank for each line feed, and blanks for each line that is
    a comment. So each character of it stays in its place. Raises WrongUse where a text in it has a line feed."""
    if "\n" not in line:
        return line
    pieces = [_without_comment(piece) for piece in line.split("\n")]
    if _has_open_text(pieces[:-1]):
        raise WrongUse("mmdb: a text in a line has no line feed; one that is passed as a parameter may have some")
    return " ".join(pieces).rstrip(" ")


def _without_comment(piece: str) -> str:
    """One of several lines, as blanks where it is a comment."""
    if piece.lstrip(" \t").startswith("#"):
        return " " * len(piece)
    return f"{piece[:-1]} " if piece.endswith("\r") else piece


def _has_open_text(pieces: List[str]) -> bool:
    """Whether a text that begins in one of these lines goes on behind its end."""
    return any(count % 2 for count in itertools.accumulate(piece.count("'") for piece in pieces))


def _cut(line: str) -> Tuple[List[str], List[Optional[str]]]:
    """The text before, between and after the places of a line, and their names, which places by `?` don't have."""
    pieces: List[str] = [""]
    names: List[Optional[str]] = []
    at = 0
    for found in _texts_and_places(line):
        pieces[-1] += line[at : found.start()]
        at = found.end()
        if found[0].startswith("'"):
            pieces[-1] += found[0]
        else:
            pieces.append("")
            names.append(found[1])
    pieces[-1] += line[at:]
    return pieces, names


def _texts_and_places(line: str) -> Iterable[re.Match[str]]:
    """What may be a place, and the texts, in which none is. A comment has neither."""
    return () if line.lstrip(" \t").startswith("#") else _TEXT_OR_PLACE.finditer(line)


def _joined(pieces: List[str]) -> str:
    """The pieces, with a place between each two, which runs into neither."""
    pieces = [piece.replace("%", "%%") for piece in pieces]
    template = pieces[0]
    for before, behind in zip(pieces, pieces[1:]):
        template += "%s" if before[-1:] in _APART_BEFORE else " %s"
        template += behind if not behind or behind[0] in _APART_BEHIND else f" {behind}"
    return template


def _listed(names: Iterable[str]) -> str:
    return ", ".join(f":{name}" for name in names)


def check_line(line: Any) -> None:
    """Raises WrongType if a line is no text."""
    if not isinstance(line, str):
        raise WrongType(f"mmdb: a line is a str, not {type(line).__name__}")


def check_kind(call: str, line: str, *commands: str) -> None:
    """Raises WrongType if a line is another command than these by its first word, or none."""
    check_line(line)
    found = _BEGINNING.match(one_line(line))
    if found is None or found[1] in commands:
        return
    if found[2] is not None or found[1] in _COMMANDS:
        what = f"this begins with {found[1]}" if found[1] else "this is a comment or blank"
        raise WrongType(f"mmdb: {call} takes a line that begins with {', '.join(commands)}, and {what}")
