"""A bar for what takes long: loads, dumps and restores."""

from __future__ import annotations

import time
from typing import Any, BinaryIO, Callable, Optional

#: After how many seconds the bar is shown, and how often it is drawn anew.
AFTER, EACH = 1.0, 0.1
_PLACES = 30


class Bar:
    """How far a work is. It is shown once that takes over a second, where there is a terminal to show it."""

    def __init__(self, write: Optional[Callable[[str], None]], total: Optional[int], unit: str) -> None:
        self._write = write
        #: How much there is to do, where that is known, and what it is, as `rows`.
        self._total = total
        self._unit = unit
        self._done = 0
        self._next = time.monotonic() + AFTER
        self._shown = ""

    def add(self, count: int) -> None:
        """Notes that so much more is done."""
        self._done += count
        if self._write is not None and time.monotonic() >= self._next:
            self._next = time.monotonic() + EACH
            self._draw(self._line())

    def again(self) -> None:
        """Notes that as much again is to be done."""
        self._total = self._total and 2 * self._total

    def end(self) -> None:
        """Takes the bar away."""
        if self._shown and self._write is not None:
            self._draw("")
            self._write("\r")

    def _line(self) -> str:
        if not self._total:
            return f"{self._done:,} {self._unit}".rstrip()
        part = min(self._done / self._total, 1.0)
        full = int(part * _PLACES)
        return f"[{'#' * full}{'-' * (_PLACES - full)}] {int(part * 100)} %"

    def _draw(self, line: str) -> None:
        assert self._write is not None
        self._write("\r" + line.ljust(len(self._shown)))
        self._shown = line


class Read:
    """A file to be read, whose bytes a bar counts."""

    def __init__(self, file: BinaryIO, bar: Bar) -> None:
        self._file = file
        self._bar = bar

    def read(self, count: int = -1) -> bytes:
        return self._counted(self._file.read(count))

    def readline(self, count: int = -1) -> bytes:
        return self._counted(self._file.readline(count))

    def _counted(self, content: bytes) -> bytes:
        self._bar.add(len(content))
        return content


class Written:
    """A file to be written, of which a bar counts the lines."""

    def __init__(self, file: BinaryIO, bar: Bar) -> None:
        self._file = file
        self._bar = bar

    def write(self, content: bytes) -> Any:
        self._bar.add(content.count(b"\n"))
        return self._file.write(content)
