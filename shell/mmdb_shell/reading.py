"""Where lines come from: a stream of bytes, or a terminal."""

from __future__ import annotations

import re
from codecs import BOM_UTF8
from typing import BinaryIO, Callable, Optional, Union

import mmdb

from .bars import Read
from .lines import LONGEST_LINE
from .trouble import Unreadable, sentence
from .words import RESERVED

PROMPT_FOR_MORE = " ...> "

_LOAD = re.compile(rb"[ \t]*load[ \t]+([A-Za-z_][A-Za-z0-9_]{0,31})[ \t]+0*([0-9]{1,19})[ \t]*\r?")
_GREATEST_COUNT = (1 << 63) - 1
_PIECE = 1 << 16


def prompt_in(transactions: int) -> str:
    """The prompt for a command, with a mark where transactions are open, and their number where they are several."""
    mark = "*" if transactions else ""
    return f"mmdb{mark}{transactions if transactions > 1 else ''}> "


def block_length(line: bytes) -> Optional[int]:
    """How many bytes belong to a line as its block, where it spells a load."""
    if b"load" not in line:
        return None
    spelled = _LOAD.fullmatch(line)
    if spelled is None or spelled[1].decode() in RESERVED or len(line) - line.endswith(b"\r") > LONGEST_LINE:
        return None
    count = int(spelled[2])
    return count if count <= _GREATEST_COUNT else None


class Source:
    """A source of lines and blocks. `name` is what messages call it, and `number` that of the last line."""

    name = ""
    number = 0
    is_typed = False

    def line(self, is_more: bool = False) -> Optional[bytes]:
        """The next line without its line feed, or None at the end. `is_more` says that it continues a command."""
        raise NotImplementedError

    def take(self, count: int) -> bytes:
        """The next so many bytes, fewer only at the end."""
        raise NotImplementedError

    def mark(self) -> None:
        """Notes the place in the source, to which `back` goes."""

    def back(self) -> None:
        """Goes back to the place that was noted, so that the lines from there on are read again."""

    def unmark(self) -> None:
        """Forgets the place that was noted."""

    def forget(self) -> None:
        """Forgets what was typed and isn't done yet."""

    def block(self, count: int, limit: int) -> bytes:
        """The block of a load. Raises the refusals 12, of a block past the limit, and 13, of one that is cut short."""
        if count <= limit:
            block = self.take(count)
            if len(block) < count:
                come = f"the line asks for {count} bytes, and {len(block)} have come"
                raise mmdb.Refused(13, "block cut short", None, come)
            return block
        most = f"the line asks for {count} bytes, and a block has at most {limit}"
        while count and self.take(min(count, _PIECE)):
            count -= min(count, _PIECE)
        raise mmdb.Refused(12, "block too long", None, most)


class Stream(Source):
    """The requests of a file or a pipe. A mark of UTF-8 in front of the first line is skipped where it is asked for."""

    def __init__(self, file: Union[BinaryIO, Read], name: str, skips_mark: bool = False) -> None:
        self._file = file
        self.name = name
        self._skips_mark = skips_mark
        #: Bytes that were read from the file, and are read again first.
        self._again = b""
        #: The lines since the mark, where there is one, and the number of the line before them.
        self._marked: Optional[bytes] = None
        self._number_at_mark = 0

    def line(self, is_more: bool = False) -> Optional[bytes]:
        """The next line. Of one that is too long, only a front that is too long as well is kept."""
        longest = LONGEST_LINE + len(b"\r\n") + 1
        try:
            line = piece = self._readline(longest)
            while len(line) == longest and piece and not piece.endswith(b"\n"):
                piece = self._readline(_PIECE)
        except OSError as why:
            raise Unreadable(sentence(self.name or "standard input", why)) from why
        self.number += 1
        if self._marked is not None:
            self._marked += line if line.endswith(b"\n") or piece == line else line + b"\n"
        return (line[:-1] if line.endswith(b"\n") else line) if line else None

    def take(self, count: int) -> bytes:
        taken, self._again = self._again[:count], self._again[count:]
        try:
            if len(taken) < count:
                taken += self._file.read(count - len(taken))
        except OSError as why:
            raise Unreadable(sentence(self.name or "standard input", why)) from why
        self.number += taken.count(b"\n")
        return taken

    def mark(self) -> None:
        self._marked, self._number_at_mark = b"", self.number

    def back(self) -> None:
        self._again = (self._marked or b"") + self._again
        self._marked, self.number = None, self._number_at_mark

    def unmark(self) -> None:
        self._marked = None

    def _readline(self, most: int) -> bytes:
        if self._skips_mark:
            self._skips_mark = False
            # (the mark is none of the bytes that a line may have)
            line = self._file.readline(most + len(BOM_UTF8))
            front = len(BOM_UTF8) if line.startswith(BOM_UTF8) else 0
            self._again = line[front + most :]
            return line[front : front + most]
        if not self._again:
            return self._file.readline(most)
        end = min(self._again.find(b"\n") + 1 or len(self._again), most)
        line, self._again = self._again[:end], self._again[end:]
        return line


class Terminal(Source):
    """What is typed. A line that was pasted with others waits for its turn."""

    is_typed = True

    def __init__(self) -> None:
        self._typed = b""
        #: The lines of the command that is being typed, before this one.
        self.before = ""
        #: What is called with the lines of a command before the next one is read.
        self.on_done: Callable[[str], None] = lambda lines: None
        #: What gives the prompt for a command.
        self.prompt: Callable[[], str] = lambda: prompt_in(0)

    def line(self, is_more: bool = False) -> Optional[bytes]:
        if not is_more:
            self.on_done(self.before)
            self.before = ""
        if not self._typed and not self._read(PROMPT_FOR_MORE if is_more else self.prompt()):
            return None
        line, self._typed = self._typed.split(b"\n", 1)
        self.before += line.decode("utf-8", "replace") + "\n"
        return line

    def take(self, count: int) -> bytes:
        while len(self._typed) < count and self._read(PROMPT_FOR_MORE):
            pass
        taken, self._typed = self._typed[:count], self._typed[count:]
        return taken

    def forget(self) -> None:
        self._typed = b""

    def _read(self, prompt: str) -> bool:
        """Reads one more line, and tells whether there was one."""
        try:
            typed = input(prompt)
        except EOFError:
            return False
        except UnicodeDecodeError:
            raise mmdb.Refused(11, "not UTF-8") from None
        except OSError as why:
            raise Unreadable(sentence("the terminal", why)) from why
        self._typed += typed.encode("utf-8", "surrogateescape") + b"\n"
        return True
