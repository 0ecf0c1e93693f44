"""What is shown of values, of lines and of refusals."""

from __future__ import annotations

import re
from typing import Iterator, Protocol, Sequence

import mmdb

from . import terminals
from .boxes import width
from .lines import column_of
from .moving import numbered
from .trouble import Trouble


class Rows(Protocol):
    """The rows of a table: a list of them, or what gives them one after another."""

    def __len__(self) -> int:
        """How many they are."""

    def __iter__(self) -> Iterator[Sequence[mmdb.Value]]:
        """Each in its turn."""


#: The names of the columns of a table.
Names = Sequence[str]

# A text of ASCII that stands in a cell as it is.
_IS_PLAIN = re.compile(r"[!-&(-~](?:[ -~]*[!-~])?").fullmatch
_IS_ODD = re.compile(r"\A(?:'|\s|\Z)|\s\Z").search
# What moves a terminal's place or changes the line: controls, and marks of lines and of direction.
_CONTROLS = re.compile("[\0-\x1f\x7f-\x9f\u061c\u200e\u200f\u2028-\u202e\u2066-\u2069]")
# Words that are no commands of the language, and may be meant for the shell.
_FOR_THE_SHELL = [[word] for word in b"help quit exit schema read mode begin commit rollback undo".split()]


def _picture(control: "re.Match[str]") -> str:
    """What stands for a character that would not stay in its cell."""
    code = ord(control[0])
    if code < 0x20:
        return chr(0x2400 + code)
    return "\u2421" if code == 0x7F else f"<U+{code:04X}>"


def visible(text: str) -> str:
    """A text in which nothing moves a terminal's place."""
    return _CONTROLS.sub(_picture, text)


def cell(value: mmdb.Value) -> str:
    """A value as it stands in a cell: a text that is empty, or has blanks at an end, between quote marks."""
    if value is None:
        return ""
    if isinstance(value, int):
        return str(value)
    if _IS_PLAIN(value):
        return value
    shown = visible(value)
    return f"'{shown}'" if _IS_ODD(value) or not width(shown) else shown


def count(rows: Rows) -> str:
    """How many rows there are, in words."""
    return "1 row" if len(rows) == 1 else f"{len(rows)} rows"


def pointed_at(line: str, column: int) -> str:
    """A line with a caret under one of its columns, or as much of it around the caret as the terminal is wide."""
    room = max(terminals.size()[0] - 2, 8)
    front, behind = visible(line[: column - 1]), visible(line[column - 1 :])
    if width(front) + width(behind) > room:
        # (a character takes two places at most)
        front, behind = front[-(room // 4) :], behind[: room // 4]
    return f"  {front}{behind}\n  {' ' * width(front)}^\n"


def refusal(line: bytes, why: Exception, place: str, is_explained: bool, is_pointed_at: bool) -> str:
    """What is said where a line isn't done, with its reason, and with a caret under the place in the line."""
    what = numbered(why) if isinstance(why, mmdb.Refused) else str(why) or "no memory was found for it"
    reason = _reason_of(line, why) if is_explained else ""
    if not reason:
        return place + what
    column = column_of(why) if isinstance(why, mmdb.Refused) and reason == why.reason else None
    pointed = pointed_at(line.decode(), column) if is_pointed_at and column else ""
    return f"{pointed}{place}{what}: {visible(reason)}"


def _reason_of(line: bytes, why: Exception) -> str:
    """Why a line isn't done, beyond what is told of that anyhow."""
    is_no_command = isinstance(why, mmdb.Refused) and why.number == 20
    if is_no_command and line.split()[:1] in _FOR_THE_SHELL:
        return "what is for the shell has a dot in front; .help lists it"
    return why.reason or "" if isinstance(why, (mmdb.Refused, Trouble)) else ""
