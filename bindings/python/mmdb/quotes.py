"""Quote marks of a CSV that are read otherwise than they were meant: of a field that is never closed, or has text behind."""

from __future__ import annotations

import functools
import re
from typing import TYPE_CHECKING, Any, NamedTuple, Optional, Pattern, Tuple

from .chosen import extension
from .errors import WrongType, WrongUse

_ENDS = re.compile(rb"[\r\n]+")

#: What marks a text as UTF-8, in front of it.
MARK = b"\xef\xbb\xbf"


class Form(NamedTuple):
    """How a CSV is written: the byte that separates fields, and that which encloses some, or none."""

    separator: bytes = b","
    quote: bytes = b'"'

    @property
    def opening(self) -> Pattern[bytes]:
        """The marks that open a quoted field."""
        return _patterns(self).opening

    @property
    def many(self) -> Pattern[bytes]:
        """Quoted fields that are whole, with what is before each."""
        return _patterns(self).many


class _Patterns(NamedTuple):
    """What quote marks are searched by."""

    opening: Pattern[bytes]
    to_its_end: Pattern[bytes]
    whole: Pattern[bytes]
    many: Pattern[bytes]


@functools.lru_cache(maxsize=16)
def _patterns(form: Form) -> _Patterns:
    mark, separator = re.escape(form.quote), re.escape(form.separator)
    # A quote mark opens a quoted field only where a field begins. Elsewhere in a field without quotes it is a character.
    before, behind = rb"(?<![^%b\r\n])" % separator, rb"(?![^%b\r\n])" % separator
    field = rb"%b[^%b]*(?:%b%b[^%b]*)*%b" % ((mark,) * 6)
    # Many fields that are whole, with what stands before each. (One by one they would take several times as long.)
    many = rb"(?:[^%b]*%b%b%b){1,500}" % (mark, before, field, behind)
    # (a pattern that begins with a character is found sooner)
    opening = rb"%b(?<![^%b\r\n]%b)" % (mark, separator, mark)
    patterns = opening, field + rb"(?!%b)" % mark, before + field + behind, many
    return _Patterns(*(re.compile(pattern) for pattern in patterns))


def form_of(separator: Any, quote: Any) -> Form:
    """The form of a CSV. Raises WrongType and WrongUse where these are no marks of one."""
    for what, mark in (("separator", separator), ("quote", quote)):
        if what == "quote" and mark is None:
            continue
        if not isinstance(mark, str):
            raise WrongType(f"mmdb: the {what} of a CSV is a str, not {type(mark).__name__}")
        if len(mark) != 1 or not mark.isascii() or mark in "\r\n\0":
            raise WrongUse(f"mmdb: the {what} of a CSV is one character of ASCII and no line end, not {mark!r}")
    if separator == quote:
        raise WrongUse("mmdb: a CSV has different characters as its separator and its quote")
    return Form(separator.encode(), b"" if quote is None else quote.encode())


OPEN = "a field whose quote mark is never closed, and which holds all that follows"
BEHIND = "a field with text behind its closing quote mark, which is read as a part of it"


class Odd(NamedTuple):
    """A field whose quote marks are odd: the number of its record, which is 0 for the names, and what is odd."""

    record: int
    what: str

    def told(self) -> str:
        """It in words."""
        record = f"record {self.record}" if self.record else "the record of names"
        return f"mmdb: {record} of the CSV has {self.what}"


def first_odd(block: bytes, form: Form = Form(), number: int = 0) -> Optional[Odd]:
    """The first field of a CSV whose quote marks are odd. None where there is none. Its first record has this number."""
    if not form.quote or form.quote not in block:
        return None
    content = block[len(MARK) :] if number == 0 and block.startswith(MARK) else block
    found = odd_field(content) if form == Form() else _odd_field(content, form)
    return None if found is None else Odd(number + _records_in(content, found[0], form), OPEN if found[1] else BEHIND)


def _odd_field(content: bytes, form: Form = Form()) -> Optional[Tuple[int, bool]]:
    """Where the first field begins whose quote marks are odd, and whether it is open. (The extension has the same.)"""
    at, patterns, ends = 0, _patterns(form), (b"", form.separator, b"\r", b"\n")
    while True:
        many = patterns.many.match(content, at)
        opening = patterns.opening.search(content, many.end() if many else at)
        if opening is None:
            return None
        field = patterns.to_its_end.match(content, opening.start())
        if field is None:
            return opening.start(), True
        at = field.end()
        if content[at : at + 1] not in ends:
            return opening.start(), False


if TYPE_CHECKING or extension is None:
    odd_field = _odd_field
else:
    odd_field = extension.odd_field


def _records_in(content: bytes, at: int, form: Form) -> int:
    """How many records end before a place, before which no field is odd."""
    *before, _ = _ENDS.split(_patterns(form).whole.sub(b"-", content[:at]))
    return sum(map(bool, before))
