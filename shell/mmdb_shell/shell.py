"""The shell: it takes requests from a source, does them, and shows what comes of them."""

from __future__ import annotations

import os
import re
import time
from contextlib import contextmanager
from typing import Iterable, Iterator, List, NamedTuple, Optional, Sequence, TextIO, Union

import mmdb

from . import commands
from .bars import Bar
from .boxes import Look
from .files import full_name
from .interrupts import Interrupts
from .lines import is_blank, is_comment
from .modes import COUNTED, MODES, lines_of_row
from .moving import answer
from .output import Output, Pager, Stopped, pager_command
from .parameters import Parameters
from .reading import Source, block_length
from .requests import Attempt, Request, Requests
from .selecting import RowsAsRecords, RowsByRange, by_range
from .showing import Names, Rows, count, refusal
from .transactions import MOST_LINES, Transactions
from .trouble import NAME, Bailed, Trouble, Unreadable

#: What a line is answered: rows, or a text.
Answer = Union[mmdb.Rows, RowsByRange, RowsAsRecords, str]

# How deep files may read files.
_DEEPEST = 16
# The refusals of what is no line, or no command.
_NO_COMMAND = (10, 11, 20)
# How blank lines and comments begin.
_NO_WORD = (b"", b"#", b"\r")
# What only a select of several tables has, outside of texts.
_JOIN = re.compile(rb"\bjoin\b")
# The commands whose answers count the rows that were changed.
_CHANGES = (b"insert", b"update", b"delete", b"load")


class Settings(NamedTuple):
    """How databases are opened."""

    policy: str = "auto"
    rows: int = mmdb.MOST
    block: int = mmdb.MOST

    def opened(self) -> mmdb.Database:
        return mmdb.Database(*self)


class Shell:
    """A shell over one database at a time."""

    def __init__(self, settings: Settings, out: TextIO, err: TextIO, look: Look, is_at_terminal: bool) -> None:
        self.settings = settings
        self.db = settings.opened()
        self.transactions = Transactions(self.db)
        self.interrupts = Interrupts(lambda: self.db.interrupt())
        self.output = Output(out, self.interrupts)
        self.look = look
        self.mode = "box" if is_at_terminal else "csv"
        self.parameters = Parameters()
        self.has_timer = self.bails = self.tells_changes = False
        self.explains = self.has_pager = True
        #: How many requests were done and refused, and how many rows were changed by the last one and by all.
        self.done = self.refused = self.changed = self.changed_in_all = 0
        self.is_at_terminal = is_at_terminal
        self._out = out
        self._err = err
        #: The line that was fed last, the number of the line where it begins, and whether it is being done.
        self._line, self._number, self._is_doing = b"", 0, False
        #: The files that are being read, each by the one before it.
        self._reading: List[str] = []

    # ---- requests

    def run(self, source: Source) -> None:
        """Does each request of a source, to its end."""
        requests = Requests(source)
        while self._step(requests):
            self.output.flush()

    def run_file(self, source: Source) -> None:
        """The same of a file that a line before has named."""
        place = os.path.realpath(full_name(source.name))
        if place in self._reading:
            raise Trouble(f"{source.name} is being read already")
        if len(self._reading) == _DEEPEST:
            raise Trouble(f"files read files {_DEEPEST} deep, and {source.name} is one more")
        self._reading.append(place)
        try:
            self.run(source)
        finally:
            self._reading.pop()

    def _step(self, requests: Requests) -> bool:
        """Does one request, and tells whether the source goes on."""
        source, self._line = requests.source, b""
        try:
            if source.is_typed:
                self.interrupts.forget()
            self._is_doing = False
            with self.interrupts.allowed():
                request = requests.next()
            self._is_doing = True
            if request is None:
                return False
            self._do(requests, request)
            self.done += 1
        except (KeyboardInterrupt, mmdb.Interrupted) as why:
            if not source.is_typed:
                raise KeyboardInterrupt from why
            self.output.failed(why)
            requests.forget()
            if self._is_doing:
                self.tell("interrupted")
            else:
                self.output.say("\n")
        except Bailed:
            if not source.is_typed:
                raise
        except (mmdb.Refused, Trouble, MemoryError) as why:
            self._refuse(source, why)
            return not isinstance(why, Unreadable)
        return True

    def _do(self, requests: Requests, request: Request) -> None:
        """Does a request, and where its line ends too early, that line with those after it."""
        refused = self._try(requests.source, request)
        if refused is not None and refused.goes_on:
            try:
                refused = self._do_continued(requests, refused)
            finally:
                requests.source.unmark()
        if refused is not None:
            self._line, self._number = refused.line, refused.request.number
            raise refused.why

    def _do_continued(self, requests: Requests, front: Attempt) -> Optional[Attempt]:
        """Does a request that goes on in the next lines. In a file those that don't belong to it are read again, each
        by itself. So a line that is a command is never lost to a mistake before it."""
        source, best, last = requests.source, front, front
        source.mark()
        while last.goes_on:
            if not last.has_open_text:
                best = last
                source.mark()
            self._is_doing = False
            with self.interrupts.allowed():
                request = requests.continued(last.request)
            self._is_doing = True
            if request is None:
                break
            attempt = self._try(source, request)
            if attempt is None:
                return None
            last = attempt
        if source.is_typed or last.request.is_ended and last.ends_too_early:
            return last
        requests.back()
        return best if best is front or last.goes_on else last

    def _try(self, source: Source, request: Request) -> Optional[Attempt]:
        """Does a request. Where it is refused as no command, gives that; any other refusal is raised."""
        self._line, self._number = request.line, request.number
        try:
            self._do_one(source, request)
            return None
        except mmdb.Refused as why:
            if why.number not in _NO_COMMAND:
                raise
            return Attempt(request, self._line, why)

    def _do_one(self, source: Source, request: Request) -> None:
        """Does one request, with the block that it asks for, and shows the answer."""
        front = request.line.lstrip(b" \t")
        if front[:1] in _NO_WORD and (is_blank(front) or is_comment(front)):
            self.transactions.check_spelling(request.line)
            return
        # (one that has come before a select begins would not end it)
        self.interrupts.check()
        try:
            if front.startswith(b"."):
                commands.do(self, request.line.decode("utf-8", "surrogateescape").rstrip("\r"))
            else:
                self._do_command(source, request.line)
        except Stopped:
            pass
        self.output.done()

    def _do_command(self, source: Source, line: bytes) -> None:
        """Does a command of the language."""
        self._line, values = self.parameters.bind(line)
        block = None
        length = block_length(self._line)
        if length is not None:
            with self.interrupts.allowed():
                block = source.block(length, self.settings.block)
        self.transactions.keeps = source.is_typed or source.number <= MOST_LINES
        began = time.perf_counter()
        told = self._answered(self._line, block, values)
        took = time.perf_counter() - began
        if isinstance(told, str):
            self._show_answer(source, line.split(None, 1)[0], told)
        else:
            self.show(told.names, told)
        if self.has_timer:
            self.say(f"time: {took:.6f} s\n")

    def _answered(self, line: bytes, block: Optional[bytes], values: Sequence[mmdb.Value] = ()) -> Answer:
        """The rows of a select, with the types of their columns; of another line what the library answers."""
        if not line.lstrip(b" \t").startswith(b"select"):
            if not values:
                return self.transactions.answer(line, block).decode()
            return self.transactions.change(line, self._executed, line, values)
        ranges = None if values or self.has_timer else by_range(self.db, line)
        if ranges is not None:
            return ranges
        # (what is answered isn't cut by Ctrl-C, and a join may take long)
        if self.mode == "csv" and not values and not (self.is_at_terminal and _JOIN.search(line)):
            return RowsAsRecords(self.db, line)
        return self._executed(line, values)

    def _executed(self, line: bytes, values: Sequence[mmdb.Value]) -> Answer:
        """The same of a statement, by its values."""
        try:
            found = self.db.execute(line.decode(), *values)
        except ValueError as why:
            # (what isn't UTF-8, or has a place for a parameter, is refused as such)
            answer(self.db, line)
            raise Trouble(str(why).replace("mmdb: ", "")) from why
        if isinstance(found, int):
            return f"ok {found}\n"
        told: Answer = "ok\n" if found is None else found
        return told

    # ---- answers

    def show(self, names: Names, rows: Rows) -> None:
        """Shows rows in the mode that is set."""
        pager = Pager(pager_command(), self.output.say) if self._has_pages() else None
        write = self.output.write if pager is None else pager.write
        look = self.look._replace(is_folded=self.look.is_folded and not self.output.is_elsewhere)
        pieces = MODES[self.mode](names, rows, look)
        try:
            with self.interrupts.allowed():
                if self.is_at_terminal and self.output.is_elsewhere:
                    self._write_with_bar(pieces, len(rows) * lines_of_row(self.mode, names))
                else:
                    for piece in pieces:
                        write(piece)
        finally:
            if pager is not None:
                pager.end()
        if self.is_at_terminal and not self.output.is_elsewhere and self.mode in COUNTED:
            self.say(f"{count(rows)}\n")

    def _write_with_bar(self, pieces: Iterable[str], lines: int) -> None:
        """Writes rows to where a terminal doesn't show them, with a bar that does."""
        with self.bar(lines, "lines") as bar:
            for piece in pieces:
                self.output.write(piece)
                bar.add(piece.count("\n"))

    def _has_pages(self) -> bool:
        return self.is_at_terminal and self.has_pager and bool(pager_command()) and not self.output.is_elsewhere

    def _show_answer(self, source: Source, word: bytes, told: str) -> None:
        """Shows an answer without rows. Where nobody has typed the line, that it was done goes without saying."""
        if word in _CHANGES:
            self.changed = int(told[len("ok ") :])
            self.changed_in_all += self.changed
        if word == b"tables" and not source.is_typed:
            told = told[: told.rindex("ok ")]
        if not told.startswith("ok"):
            with self.interrupts.allowed():
                self.say(told)
        elif source.is_typed:
            # (Ctrl-C came too late for it, so that it was done is said)
            self.say(told)
        if word in _CHANGES and self.tells_changes:
            self.say(f"changes: {self.changed}, total: {self.changed_in_all}\n")

    def _refuse(self, source: Source, why: Exception) -> None:
        """Tells why a request isn't done."""
        self.refused += 1
        self.output.failed(why)
        place = ""
        if not source.is_typed and not isinstance(why, Unreadable):
            place = f"{source.name}, line {self._number}: " if source.name else f"line {self._number}: "
        self.tell(refusal(self._line, why, place, self.explains, self.is_at_terminal))
        if self.bails and not source.is_typed:
            raise Bailed

    def note(self, text: str) -> None:
        """Says at a terminal what a command of the shell has done."""
        if self.is_at_terminal:
            self.output.say(text + "\n")

    def tell(self, text: str) -> None:
        """Tells something beside the answers, on standard error."""
        self.output.flush()
        self._write_error(text + "\n" if self.is_at_terminal else f"{NAME}: {text}\n")

    def _write_error(self, text: str) -> None:
        try:
            self._err.write(text)
            self._err.flush()
        except (OSError, ValueError):
            # Who closed standard error wants to hear nothing. A terminal that is gone is met at the next line.
            pass

    def say(self, text: str) -> None:
        """Writes an answer."""
        self.output.write(text)

    # ---- databases and long work

    def take(self, db: mmdb.Database, settings: Settings) -> None:
        """Takes another database in place of this one, which is closed."""
        self.db, self.settings, self.transactions, old = db, settings, Transactions(db), self.db
        old.close()

    @contextmanager
    def bar(self, total: Optional[int], unit: str) -> Iterator[Bar]:
        """A bar for what may take long, at a terminal."""
        is_shown = self.is_at_terminal and self._err.isatty()
        bar = Bar(self._write_error if is_shown else None, total, unit)
        try:
            yield bar
        finally:
            bar.end()
