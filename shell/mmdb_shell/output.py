"""Where answers go: to standard output, and for a while to a file, a command or a pager."""

from __future__ import annotations

import os
from contextlib import ExitStack
from typing import TYPE_CHECKING, Any, Callable, Optional, TextIO

from . import terminals
from .files import full_name, opened_straight, written
from .interrupts import Interrupts
from .trouble import Trouble, Unwritable, sentence, told_of

if TYPE_CHECKING:
    import subprocess


class Stopped(Exception):
    """The command that takes the answers has ended, and wants no more of them."""


class Output:
    """Takes what is said. It goes to standard output unless `to` names another place."""

    def __init__(self, out: TextIO, interrupts: Interrupts) -> None:
        self._out = out
        self._interrupts = interrupts
        self._target: Optional[_Target] = None
        #: How many requests are left until the place is left again; None where it stays.
        self._left: Optional[int] = None

    @property
    def is_elsewhere(self) -> bool:
        """Whether answers don't go to standard output."""
        return self._target is not None

    def write(self, text: str) -> None:
        """Writes an answer. Raises Unwritable where standard output takes nothing, and Trouble where the place doesn't."""
        if self._target is None:
            self.say(text)
            return
        try:
            self._target.write(text)
        except BrokenPipeError as why:
            # (the command takes no more, and what follows is for it as long as answers go there)
            raise Stopped from why
        except OSError as why:
            name = self._target.name
            self._drop(why)
            raise Trouble(sentence(name, why)) from why

    def say(self, text: str) -> None:
        """Writes to standard output, wherever answers go."""
        try:
            self._out.write(text)
        except OSError as why:
            raise Unwritable(str(why.strerror or why)) from why

    def flush(self) -> None:
        """Lets all that was said be seen."""
        try:
            self._out.flush()
        except OSError as why:
            raise Unwritable(str(why.strerror or why)) from why
        if self._target is not None:
            self._target.flush()

    def to(self, place: str, is_once: bool) -> None:
        """Lets answers go to a file, or to a command behind a `|`; where `is_once`, those of the next request alone."""
        self.back()
        self.flush()
        if place.startswith("|"):
            self._target = _Command(place[1:].strip())
        else:
            self._target = _File(place, is_once, self._interrupts)
        self._left = 2 if is_once else None

    def done(self) -> None:
        """Notes that a request was done, which may be the last one whose answer goes elsewhere."""
        if self._left is None:
            return
        self._left -= 1
        if not self._left:
            self.back()

    def failed(self, why: BaseException) -> None:
        """Notes that a request wasn't done. A file for its answer alone stays what it was."""
        if self._left is not None:
            self._drop(why)

    def _drop(self, why: BaseException) -> None:
        target, self._target, self._left = self._target, None, None
        if target is not None:
            target.drop(why)

    def back(self) -> None:
        """Lets answers go to standard output again. A file is whole then, and a command has ended."""
        target, self._target, self._left = self._target, None, None
        if target is not None:
            target.end()


class _Target:
    """A place where answers go for a while."""

    def __init__(self, name: str) -> None:
        self.name = name
        self._stream: Any = None

    def write(self, text: str) -> None:
        self._stream.write(text.encode("utf-8", "surrogateescape"))

    def flush(self) -> None:
        """Passes on what was written. (What goes wrong is met by the next write, or by the end.)"""
        try:
            self._stream.flush()
        except OSError:
            pass

    def end(self) -> None:
        """Ends it, with all that was written. Raises Trouble where that fails."""

    def drop(self, why: BaseException) -> None:
        """Ends it where a write has failed."""


class _File(_Target):
    """A file. For one answer it takes its place once it is whole, else it is written as answers come."""

    def __init__(self, name: str, is_whole: bool, interrupts: Interrupts) -> None:
        super().__init__(name)
        self._stack = ExitStack()
        if is_whole:
            self._stream = self._stack.enter_context(written(name, interrupts))
        else:
            with told_of(name):
                self._stream = self._stack.enter_context(opened_straight(full_name(name), interrupts))

    def end(self) -> None:
        with told_of(self.name):
            self._stack.close()

    def drop(self, why: BaseException) -> None:
        try:
            self._stack.__exit__(type(why), why, why.__traceback__)
        except (OSError, Trouble):
            pass


class _Command(_Target):
    """A command of the system's shell, which gets the answers on its standard input."""

    def __init__(self, name: str) -> None:
        super().__init__(name)
        if not name:
            raise Trouble("behind | a command is missing")
        self._process = begun(name)
        self._stream = self._process.stdin

    def end(self) -> None:
        status = ended(self._process)
        if status:
            what = f"ended with status {status}" if status > 0 else f"was ended by the signal {-status}"
            raise Trouble(f"{self.name} {what}")

    def drop(self, why: BaseException) -> None:
        ended(self._process)


def begun(command: str) -> "subprocess.Popen[bytes]":
    """A command that reads from the shell, and writes where the shell does."""
    # (it takes a while to load, and most runs need none of it)
    import subprocess

    with told_of(command):
        return subprocess.Popen(command, shell=True, stdin=subprocess.PIPE)


def ended(process: "subprocess.Popen[bytes]") -> int:
    """Ends the input of a command, waits for its end, and gives its status."""
    try:
        if process.stdin is not None:
            process.stdin.close()
    except OSError:
        pass  # (it has ended already)
    return process.wait()


class Pager:
    """Takes rows for a terminal. Once they are more than fit there, they go through the command of a pager."""

    def __init__(self, command: str, write: Callable[[str], None]) -> None:
        self._command = command
        self._write = write
        self._columns, self._lines = terminals.size()
        self._held = ""
        self._process: Optional["subprocess.Popen[bytes]"] = None

    def write(self, text: str) -> None:
        if self._process is None:
            self._held += text
            if not self._is_full():
                return
            self._process = begun(self._command)
            text, self._held = self._held, ""
        assert self._process.stdin is not None
        try:
            self._process.stdin.write(text.encode("utf-8", "surrogateescape"))
        except BrokenPipeError as why:
            raise Stopped from why

    def end(self) -> None:
        """Shows what was held back, or waits until the pager is left."""
        if self._process is None:
            self._write(self._held)
        else:
            ended(self._process)

    def _is_full(self) -> bool:
        lines = self._held.split("\n")[:-1]
        # (the prompt and a line that counts the rows stand below them)
        return sum(1 + max(len(line) - 1, 0) // max(self._columns, 1) for line in lines) > self._lines - 2


def pager_command() -> str:
    """The command by which pages are shown: that of PAGER, if there is one."""
    return os.environ.get("PAGER", "").strip()
