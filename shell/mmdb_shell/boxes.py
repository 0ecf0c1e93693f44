"""Tables of cells, in boxes and in columns, whose wide cells are folded to the width of a terminal."""

from __future__ import annotations

import unicodedata
from functools import lru_cache
from itertools import chain, islice, zip_longest
from typing import Iterable, Iterator, List, NamedTuple, Optional, Sequence

from . import terminals

# How many of very many rows are looked at before the first is drawn. Wider cells below them are folded.
_LOOKED_AT = 1000
# A column is made no narrower than this, even where the terminal is.
_NARROWEST = 3


class Cells(NamedTuple):
    """What stands in a table: its names, its rows, and which columns have numbers."""

    names: Sequence[str]
    rows: Iterable[List[str]]
    numbers: Sequence[bool]
    #: The last rows, where they are so many that not all of them are looked at before the first is drawn.
    last: Sequence[List[str]] = ()


class Marks(NamedTuple):
    """The marks of a box: its three lines, each from left to right, and what stands between cells."""

    top: str
    middle: str
    bottom: str
    beside: str


class Look(NamedTuple):
    """How rows are shown: with which marks, whether folded to the width of a terminal, and as rows of which table,
    where one was named."""

    marks: Marks
    is_folded: bool
    table: str = ""


LINES = Marks("┌─┬┐", "├─┼┤", "└─┴┘", "│")
PLAIN = Marks("+-++", "+-++", "+-++", "|")


def look(encoding: Optional[str], is_folded: bool = False) -> Look:
    """How tables are drawn in an encoding."""
    try:
        "".join(LINES).encode(encoding or "ascii")
    except (UnicodeEncodeError, LookupError):
        return Look(PLAIN, is_folded)
    return Look(LINES, is_folded)


@lru_cache(maxsize=4096)
def _width_of(character: str) -> int:
    if unicodedata.category(character) in ("Mn", "Me", "Cf"):
        return 0
    return 2 if unicodedata.east_asian_width(character) in "WF" else 1


def width(text: str) -> int:
    """How many places a text takes in a line of a terminal."""
    return len(text) if text.isascii() else sum(map(_width_of, text))


def folded(text: str, places: int) -> Iterator[str]:
    """A text in pieces of at most so many places. It is cut at a blank where there is one in the latter half."""
    while width(text) > places:
        at = _fitting(text, places)
        blank = text.rfind(" ", at // 2, at + 1)
        if blank > 0:
            yield text[:blank]
            text = text[blank + 1 :]
        else:
            yield text[:at]
            text = text[at:]
        if not text:
            return
    yield text


def _fitting(text: str, places: int) -> int:
    """How many characters of a text have room, at least one."""
    taken = 0
    for at, character in enumerate(text):
        taken += _width_of(character)
        if taken > places:
            return max(at, 1)
    return len(text)


def box(cells: Cells, drawn: Look) -> Iterator[str]:
    """A table in a box."""
    marks = drawn.marks
    layout = _Layout(cells, drawn.is_folded, len(cells.names) * 3 + 1)

    def line(left: str, along: str, between: str, right: str) -> str:
        return left + between.join(along * (places + 2) for places in layout.widths) + right + "\n"

    left, between, right = f"{marks.beside} ", f" {marks.beside} ", f" {marks.beside}\n"

    def record(row: Sequence[str]) -> str:
        return "".join([left + between.join(padded) + right for padded in layout.padded(row)])

    yield line(*marks.top)
    yield record(cells.names)
    yield line(*marks.middle)
    yield from map(record, layout.rows)
    yield line(*marks.bottom)


def columns(cells: Cells, drawn: Look) -> Iterator[str]:
    """A table without a box: a line of dashes stands below the names."""
    layout = _Layout(cells, drawn.is_folded, len(cells.names) * 2 - 2)

    def record(row: Sequence[str]) -> str:
        return "".join("  ".join(padded).rstrip(" ") + "\n" for padded in layout.padded(row))

    yield record(cells.names)
    yield "  ".join("-" * places for places in layout.widths) + "\n"
    yield from map(record, layout.rows)


class _Layout:
    """How wide the columns of a table are, and its rows."""

    def __init__(self, cells: Cells, is_folded: bool, beside: int) -> None:
        rows = iter(cells.rows)
        first = list(islice(rows, _LOOKED_AT) if is_folded and cells.last else rows)
        self.widths = list(map(width, cells.names))
        for at in range(0, len(first), _LOOKED_AT):
            self._widen(first[at : at + _LOOKED_AT])
        self._widen(cells.last)
        self.rows = chain(first, rows)
        self._numbers = cells.numbers
        self._is_folded = is_folded
        if is_folded:
            self.widths = _narrowed(self.widths, terminals.size()[0] - beside)

    def _widen(self, rows: Sequence[List[str]]) -> None:
        """Makes the columns wide enough for these rows."""
        if rows:
            self.widths = [max(places, *map(width, column)) for places, column in zip(self.widths, zip(*rows))]

    def padded(self, row: Sequence[str]) -> Iterator[Sequence[str]]:
        """The lines of a row: in each, what stands in its columns, with blanks up to their width."""
        if not self._is_folded or all(map(_fits, row, self.widths)):
            yield list(map(_padded, row, self.widths, self._numbers))
            return
        pieces = [folded(text, places) for text, places in zip(row, self.widths)]
        for line in zip_longest(*pieces, fillvalue=""):
            yield list(map(_padded, line, self.widths, self._numbers))


def _fits(text: str, places: int) -> bool:
    # (a character takes two places at most)
    return 2 * len(text) <= places or width(text) <= places


def _narrowed(widths: List[int], room: int) -> List[int]:
    """The widths of columns that have so much room beside each other: the widest are made narrower, all to one width."""
    if sum(widths) <= room:
        return widths
    most = max(widths)
    while most > _NARROWEST and sum(min(places, most) for places in widths) > room:
        most -= 1
    return [min(places, most) for places in widths]


def _padded(text: str, places: int, to_the_right: bool) -> str:
    if text.isascii():
        return text.rjust(places) if to_the_right else text.ljust(places)
    room = " " * (places - width(text))
    return room + text if to_the_right else text + room
