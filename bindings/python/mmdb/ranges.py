"""All rows of a table, however many: records that the library writes, in ranges of the keys, of which each fits into memory."""

from __future__ import annotations

import io
import re
from typing import Callable, Iterable, Iterator, List, Optional, Tuple, Union

from .errors import Refused
from .values import spelled

Key = Union[int, str]

#: Gives what the library answers to a line, and raises the refusal that it is.
Ask = Callable[[str], bytes]

# About how many rows a select of a range has.
_RANGE = 10_000

_TEXT_KEY = re.compile(rb'(?:"((?:[^"]|"")*)"|([^"\n]*))\n')


def can_stand_in_a_line(key: Optional[Key]) -> bool:
    """Whether there is a spelling of the key: of a text with a line feed there is none."""
    return not (isinstance(key, str) and "\n" in key)


def count_in(selected: bytes) -> int:
    """How many rows a select has answered."""
    return int(selected[len(b"rows ") : selected.index(b"\n")])


def records_at(told: bytes) -> int:
    """Where the records of an answer begin, below the line that counts and that of the names."""
    return told.index(b"\n", told.index(b"\n") + 1) + 1


def records(ask: Ask, table: str, key: str, is_int: bool) -> Iterator[bytes]:
    """The records of all rows of a table by rising keys, in pieces: of a dump, or where that is too long of selects, by the
    name and the kind of its key."""
    try:
        yield _records_of(ask(f"dump {table}"))
    except Refused as why:
        if why.number != 64:
            raise
        for where in ranges_in(ask(f"select {key} from {table}"), key, is_int):
            yield _records_of(ask(f"select * from {table}{where}"))


def _records_of(told: bytes) -> bytes:
    return told[records_at(told) :]


def chunks(pieces: Iterable[bytes], most: int) -> Iterator[bytes]:
    """Records that come in pieces, in chunks of at most so many bytes, each with as many as have room. A chunk is longer
    if its first record is."""
    held: List[bytes] = []
    size = 0
    for piece in pieces:
        held.append(piece)
        size += len(piece)
        if size <= most:
            continue
        text, at = b"".join(held), 0
        while len(text) - at > most:
            end = _record_before(text, at, at + most)
            yield text[at : end or len(text)]
            at = end or len(text)
        held, size = [text[at:]], len(text) - at
    if size:
        yield b"".join(held)


def _record_before(text: bytes, record: int, at: int) -> int:
    """Where the last record ends before a place, behind one that begins at `record`; 0 where none does."""
    end = text.rfind(b"\n", record, at) + 1
    quotes = text.count(b'"', record, end)
    # (a line feed inside a field stands between quote marks)
    while quotes % 2:
        before = text.rfind(b"\n", record, end - 1) + 1
        quotes -= text.count(b'"', before, end) if before else quotes
        end = before
    return end


def keys_in(selected: bytes, is_int: bool, start: int = 0) -> Iterator[Key]:
    """The keys that a select of them alone has answered, one after the other; those from a record on, if it is said where
    that starts."""
    start = start or records_at(selected)
    if is_int:
        lines = io.BytesIO(selected)
        lines.seek(start)
        yield from map(int, lines)
        return
    for found in _TEXT_KEY.finditer(selected, start):
        quoted, plain = found.groups(b"")
        yield (quoted.replace(b'""', b'"') or plain).decode()


def ranges_in(selected: bytes, key: str, is_int: bool) -> List[str]:
    """Ranges of many rows, into which the keys that were selected are cut: the conditions of each, by rising keys."""
    cuts: List[Optional[Key]] = [None, *_cuts(selected, is_int), None]
    return [_between(key, (">=", low), ("<", high)) for low, high in zip(cuts, cuts[1:])]


def _between(key: str, low: Tuple[str, Optional[Key]], high: Tuple[str, Optional[Key]]) -> str:
    """The conditions that a key lies between two bounds, each a sign and a key, or None where it is open."""
    bounds = [f"{key} {sign} {spelled(at)}" for sign, at in (low, high) if at is not None]
    return " where " + " and ".join(bounds) if bounds else ""


def _cuts(selected: bytes, is_int: bool) -> Iterator[Key]:
    """Each key with which a range begins, but for the first. A key that can't stand in a line is none."""
    at = records_at(selected)
    step = ahead = (len(selected) - at) * _RANGE // max(count_in(selected), 1)
    while True:
        at = record_behind(selected, at, at + ahead)
        if at == len(selected):
            return
        key, ahead = next(keys_in(selected, is_int, at)), 0
        if can_stand_in_a_line(key):
            ahead = step
            yield key


def record_behind(text: bytes, record: int, at: int) -> int:
    """Where the first record begins behind a place, before which one begins at `record`."""
    quotes = 0
    while True:
        end = text.find(b"\n", at) + 1 or len(text)
        quotes += text.count(b'"', record, end)
        # (a line feed inside a field stands between quote marks)
        if quotes % 2 == 0 or end == len(text):
            return end
        record = at = end
