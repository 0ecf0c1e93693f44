"""The requests of a source: its lines, cut at semicolons, and put together where one goes on in the next."""

from __future__ import annotations

from typing import NamedTuple, Optional

import mmdb

from .lines import cut, has_open_text, is_blank, is_comment, joined, wants_more
from .reading import Source


class Request(NamedTuple):
    """A command as it was typed, the number of the line where it begins, and whether a semicolon ends it."""

    line: bytes
    number: int
    is_ended: bool


class Attempt(NamedTuple):
    """A request that was refused as no command, with the line that was fed for it."""

    request: Request
    line: bytes
    why: mmdb.Refused

    @property
    def ends_too_early(self) -> bool:
        """Whether all of it could be the front of a command."""
        return wants_more(self.line, self.why)

    @property
    def goes_on(self) -> bool:
        """Whether the next line may belong to it."""
        return self.ends_too_early and not self.request.is_ended

    @property
    def has_open_text(self) -> bool:
        return has_open_text(self.request.line)


class Requests:
    """The requests of a source one after another."""

    def __init__(self, source: Source) -> None:
        self.source = source
        #: What stands after a semicolon, and isn't done yet.
        self._rest = b""

    def next(self) -> Optional[Request]:
        """The next request, or None at the end of the source."""
        line: Optional[bytes] = self._rest
        if not line or is_blank(line):
            line = self.source.line()
        if line is None:
            return None
        if b";" not in line:
            self._rest = b""
            return Request(line, self.source.number, False)
        front, is_ended, self._rest = cut(line)
        return Request(front, self.source.number, is_ended)

    def continued(self, request: Request) -> Optional[Request]:
        """A request with the next line of the source. None where there is no line that it could go on in: at the end,
        and at a terminal behind an empty line, which says that the command ends here."""
        while True:
            line = self.source.line(is_more=True)
            if line is None:
                return None
            if not has_open_text(request.line):
                if is_blank(line) and self.source.is_typed:
                    return None
                if is_blank(line) or is_comment(line):
                    continue
            front, is_ended, self._rest = cut(joined(request.line, line))
            return Request(front, request.number, is_ended)

    def back(self) -> None:
        """Goes back to the place that was marked in the source."""
        self._rest = b""
        self.source.back()

    def forget(self) -> None:
        """Forgets what was typed and isn't done yet."""
        self._rest = b""
        self.source.forget()
