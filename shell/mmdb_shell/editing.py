"""Editing at a terminal: the history that is kept, and the words that are completed."""

from __future__ import annotations

import os
from typing import List, Optional

from .lines import joined
from .reading import Terminal
from .shell import Shell
from .trouble import sentence

try:
    import readline
except ImportError:
    readline = None  # type: ignore[assignment]

MOST_LINES = 10_000
# What ends a word. A dot doesn't, since T.c is one.
_DELIMITERS = " \t(),=<>'\""


def history_file() -> str:
    """Where the history is kept. Of a user without a home there is no such place."""
    home = os.path.expanduser("~")
    for state in (os.environ.get("XDG_STATE_HOME", ""), os.path.join(home, ".local", "state")):
        if os.path.isabs(state):
            return os.path.join(state, "mmdb", "history")
    return ""


class History:
    """The lines of earlier runs, and those of this one, which are put behind them at its end."""

    def __init__(self, path: str) -> None:
        self._path = path
        self._before = 0
        #: How many lines there were when the command began.
        self._kept = 0

    def read(self) -> None:
        """Takes the lines that are kept. Raises OSError where there is a file that can't be read."""
        try:
            readline.read_history_file(self._path)
        except FileNotFoundError:
            pass
        self._before = self._kept = readline.get_current_history_length()

    def on_done(self, command: str) -> None:
        """Puts the lines of a command that is done into one, so that all of it is had again at once. Where a text goes
        over several lines they stay, since a line of the history can't hold it."""
        whole, *lines = command.encode().splitlines() or [b""]
        for line in lines:
            whole = joined(whole, line)
        if lines and b"\n" not in whole:
            while readline.get_current_history_length() > self._kept:
                readline.remove_history_item(self._kept)
            readline.add_history(whole.decode())
        self._kept = readline.get_current_history_length()

    def write(self) -> None:
        """Keeps the lines of this run. Raises OSError where it can't."""
        new = readline.get_current_history_length() - self._before
        if new <= 0:
            return
        os.makedirs(os.path.dirname(self._path), mode=0o700, exist_ok=True)
        os.close(os.open(self._path, os.O_WRONLY | os.O_CREAT | os.O_APPEND, 0o600))
        readline.set_history_length(MOST_LINES)
        if hasattr(readline, "append_history_file"):
            readline.append_history_file(new, self._path)
        else:
            readline.write_history_file(self._path)


class Completion:
    """The words that a word can become, one after the other, as readline asks for them."""

    def __init__(self, shell: Shell, terminal: Terminal) -> None:
        self._shell = shell
        self._terminal = terminal
        self._found: List[str] = []

    def complete(self, text: str, state: int) -> Optional[str]:
        """The word of that number, or None where there is none any more."""
        if state == 0:
            # (only here, so that the shell starts sooner)
            from .completing import Completer

            line = readline.get_line_buffer()
            before = self._terminal.before + line[: readline.get_begidx()]
            self._found = Completer(self._shell).words(before, text, line[readline.get_endidx() :])
        return self._found[state] if state < len(self._found) else None


def prepare(shell: Shell, terminal: Terminal) -> Optional[History]:
    """Makes readline ready, where there is one, and gives the history."""
    if readline is None:
        return None
    readline.set_completer_delims(_DELIMITERS)
    readline.set_completer(Completion(shell, terminal).complete)
    is_libedit = "libedit" in (readline.__doc__ or "")
    readline.parse_and_bind("bind ^I rl_complete" if is_libedit else "tab: complete")
    history = History(history_file())
    terminal.on_done = history.on_done
    try:
        history.read()
    except OSError as why:
        shell.tell(f"the history of earlier runs isn't there: {sentence(history_file(), why)}")
    return history


def keep(shell: Shell, history: Optional[History]) -> None:
    """Keeps the history, or tells why it can't be kept."""
    if history is None:
        return
    try:
        history.write()
    except OSError as why:
        shell.tell(f"the history isn't kept: {sentence(history_file() or 'home for it', why)}")
