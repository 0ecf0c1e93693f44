"""A CSV of any size is cut into blocks, each a whole number of records."""

from __future__ import annotations

from typing import Iterable, Iterator

from mmdb.csvs import records_end

from .trouble import Trouble

MARK = b"\xef\xbb\xbf"


class Endless(Trouble):
    """A record doesn't end within the limit of a block."""


def blocks(pieces: Iterable[bytes], limit: int, front: bytes, header: bytes) -> Iterator[bytes]:
    """The records of the pieces, in blocks of at most `limit` bytes. The first has `front` before its records, each
    further one `header`. Raises `Endless` where a record has no end within a block."""
    left = b""
    for piece in pieces:
        left += piece
        while len(front) + len(left) > limit:
            end = records_end(left, max(limit - len(front), 0))
            if not end:
                raise Endless(f"no record ends within a block of {limit} bytes; is a quote mark left open?")
            yield front + left[:end]
            left, front = left[end:], header
    yield front + left


def without_mark(pieces: Iterable[bytes]) -> Iterator[bytes]:
    """The pieces of a file without the mark of UTF-8 at its front."""
    front = b""
    rest = iter(pieces)
    for piece in rest:
        front += piece
        if len(front) >= len(MARK):
            break
    yield front[len(MARK) :] if front.startswith(MARK) else front
    yield from rest
