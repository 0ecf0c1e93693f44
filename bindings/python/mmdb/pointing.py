"""Where in a line something is wrong: the line with a caret below one of its columns."""

from __future__ import annotations

import re
from typing import Optional

# How a reason begins that names a column of the line.
_COLUMN = re.compile(r"column (\d+): ")

# How many characters of a long line are shown before the caret, and from there on.
_BEFORE, _BEHIND = 48, 30

# What a terminal would not show as one character: controls, and what breaks a line.
_CONTROLS = re.compile("[\x00-\x1f\x7f-\x9f\u2028\u2029]")


def pointed(line: Optional[str], reason: Optional[str]) -> str:
    """The line with a caret below the column that its reason begins with, each in a line of its own. It is empty if the
    reason names no column. Of several lines it is the one that has the column."""
    found = _COLUMN.match(reason) if line and reason else None
    if found is None or line is None:
        return ""
    at = int(found[1]) - 1
    start, end = line.rfind("\n", 0, at) + 1, line.find("\n", at)
    front, behind = line[start:at], line[at : len(line) if end < 0 else end]
    if len(front) > _BEFORE:
        front = "…" + front[-_BEFORE:]
    if len(behind) > _BEHIND:
        behind = behind[:_BEHIND] + "…"
    front, behind = _CONTROLS.sub(" ", front), _CONTROLS.sub(" ", behind)
    return f"\n  {front}{behind}\n  {' ' * _width(front)}^"


def _width(text: str) -> int:
    """How many places of a terminal a text takes."""
    if text.isascii():
        return len(text)
    import unicodedata

    wide = sum(unicodedata.east_asian_width(character) in "WF" for character in text)
    return len(text) + wide - sum(unicodedata.combining(character) > 0 for character in text)
