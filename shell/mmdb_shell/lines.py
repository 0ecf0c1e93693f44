"""Lines as people type them: several on one line with semicolons, or one over several lines."""

from __future__ import annotations

import re
from typing import NamedTuple, Optional

import mmdb

LONGEST_LINE = 8192

_TEXT_OR_SEMICOLON = re.compile(rb"'[^']*(?:'|\Z)|;")
# How a reason begins that names a place in the line.
_COLUMN = re.compile(r"column (\d+): ")


class Cut(NamedTuple):
    """A line up to its first semicolon outside of a text."""

    front: bytes
    has_semicolon: bool
    rest: bytes


def cut(line: bytes) -> Cut:
    """Cuts a line after its first command. A comment, a command of the shell and a line that the language refuses
    whatever it says stay whole."""
    whole = Cut(line, False, b"")
    if b";" not in line or line.lstrip(b" \t").startswith((b"#", b".")) or is_refused_anyway(line):
        return whole
    for found in _TEXT_OR_SEMICOLON.finditer(line):
        if found[0] == b";":
            return Cut(line[: found.start()], True, line[found.end() :])
    return whole


def is_refused_anyway(line: bytes) -> bool:
    """Whether a line is too long, or isn't UTF-8."""
    if len(line) - line.endswith(b"\r") > LONGEST_LINE:
        return True
    try:
        line.decode()
    except UnicodeDecodeError:
        return True
    return False


def is_blank(line: bytes) -> bool:
    """Whether a line has blanks alone."""
    return not line.strip(b" \t\r")


def is_comment(line: bytes) -> bool:
    return line.lstrip(b" \t").startswith(b"#")


def has_open_text(line: bytes) -> bool:
    """Whether a line ends inside a text. (A quote mark in a text is doubled.)"""
    return line.count(b"'") % 2 == 1


def joined(front: bytes, line: bytes) -> bytes:
    """A command and its next line. In a text the line feed stays, elsewhere it is a blank."""
    if has_open_text(front):
        return front + b"\n" + line
    return without_return(front) + b" " + line


def without_return(line: bytes) -> bytes:
    return line[:-1] if line.endswith(b"\r") else line


def column_of(why: mmdb.Refused) -> Optional[int]:
    """The column that the reason of a refusal names, where it is no command."""
    found = _COLUMN.match(why.reason or "") if why.number == 20 else None
    return int(found[1]) if found else None


def wants_more(line: bytes, why: mmdb.Refused) -> bool:
    """Whether a line was refused because it ends too early: all of it could be the front of a command."""
    column = column_of(why)
    if column is None:
        return False
    characters = without_return(line).decode()
    if has_open_text(line):
        # (the place is that of the text that is open, unless something before it is wrong)
        return characters[column - 1 : column] == "'" and not has_open_text(characters[: column - 1].encode())
    return column > len(characters)
