"""What a word that is begun can become, by the place where it is."""

from __future__ import annotations

import glob
import os
import re
from typing import Dict, Iterable, Iterator, List

import mmdb

from .dotted import DOTTED, found
from .lines import cut
from .modes import MODES
from .schema import Table, tables_of
from .shell import Shell
from .trouble import Trouble
from .words import COMMANDS, KEYWORDS, REFUSALS

# The words behind which a blank comes anyhow.
_FOLLOWED = frozenset([*COMMANDS, *KEYWORDS, *DOTTED]) - {"null", "tables", ".tables", ".quit"}
# A place for a value, which the library takes in statements alone.
_PLACE = re.compile(r"\?|:[^\W\d]\w*")
# What no command has: behind the front of one, the library tells what may stand in its place.
_NOTHING = " ;"
# What a reason says that it wanted, up to what it found.
_WANTED = re.compile(r"column \d+: wanted (.*), found ;")
_TABLE, _COLUMN = "a table's name", "a column's name"
# The tables that a line names, before the place or behind it.
_NAMED = re.compile(r"\b(?:from|join|insert|update|delete|index)[ \t]+(\w+)")


class Completer:
    """Knows the words that can stand in a place."""

    def __init__(self, shell: Shell) -> None:
        self._shell = shell

    def words(self, before: str, text: str, behind: str = "") -> List[str]:
        """The words that begin with a text and can stand between what is before it and behind it."""
        tables = self._tables()
        front = _front(before)
        if before.lstrip(" \t").startswith("."):
            words = self._of_the_shell(before.split(), text, [*tables])
        elif not front:
            words = [*DOTTED] if text.startswith(".") else [*COMMANDS]
        else:
            words = self._of_the_language(front, text, behind, tables)
        told = sorted({word for word in words if word.startswith(text)})
        return [f"{word} " for word in told] if len(told) == 1 and told[0] in _FOLLOWED else told

    def _tables(self) -> Dict[str, Table]:
        try:
            return tables_of(self._shell.db)
        except (mmdb.Refused, ValueError):
            return {}

    def _of_the_shell(self, before: List[str], text: str, tables: List[str]) -> Iterable[str]:
        """The words that can stand behind those of a command of the shell."""
        try:
            usage = DOTTED[found(before[0])].usage
        except Trouble:
            return []
        if len(before) > len(usage):
            return []
        kinds = usage[len(before) - 1].strip("[].").split("|")
        return [word for kind in kinds for word in self._of_kind(kind, text, tables)]

    def _of_kind(self, kind: str, text: str, tables: List[str]) -> Iterable[str]:
        """The words of a kind that a command of the shell takes, or the word that it takes as it is."""
        if kind == "FILE":
            return _files(text)
        helped = [*COMMANDS, *KEYWORDS, "language", *(name[1:] for name in DOTTED), *map(str, REFUSALS)]
        by_kind: Dict[str, Iterable[str]] = {
            "TABLE": tables,
            "MODE": MODES,
            "ACTION": ["clear", "list", "set", "unset"],
            "NAME": mmdb.POLICIES,
            "WORD": helped,
            "SELECT": ["select"],
        }
        return by_kind.get(kind, [] if kind.isupper() else [kind])

    def _of_the_language(self, front: str, text: str, behind: str, tables: Dict[str, Table]) -> Iterator[str]:
        """The words that the library takes behind the front of a command."""
        table, _, _ = text.rpartition(".")
        qualified = f"{table}." if table else ""
        for wanted in self._wanted(front + qualified):
            if wanted == _TABLE:
                yield from tables
            elif wanted == _COLUMN:
                yield from _columns(front, qualified, behind, tables)
            elif wanted.isalpha():
                yield wanted

    def _wanted(self, front: str) -> List[str]:
        """What the library wants behind the front of a command: it is asked of a line that is surely no command."""
        line = _PLACE.sub("0", front.replace("\n", " ")) + _NOTHING
        try:
            speller = self._shell.transactions.speller
            speller.answer(line)
            told = _WANTED.match(speller.reason(line) or "")
        except (mmdb.NoMemory, ValueError):
            return []
        return re.split(", | or ", told[1]) if told else []


def _front(before: str) -> str:
    """The front of the command that is being typed, behind the last semicolon. In a text nothing is completed."""
    rest = before.encode("utf-8", "surrogateescape")
    while True:
        front, has_semicolon, rest = cut(rest)
        if not has_semicolon:
            break
    return front.decode("utf-8", "surrogateescape").lstrip(" \t")


def _columns(front: str, qualified: str, behind: str, tables: Dict[str, Table]) -> Iterator[str]:
    """The columns of the tables that the command names, or of all where it names none yet."""
    if qualified:
        table = tables.get(qualified[:-1])
        yield from (f"{qualified}{column.name}" for column in (table.columns if table else []))
        return
    command = front + behind.partition(";")[0]
    named = [tables[name] for name in _NAMED.findall(command) if name in tables]
    for table in named or tables.values():
        yield from (column.name for column in table.columns)
        if len(named) != 1:
            yield f"{table.name}."


def _files(text: str) -> Iterator[str]:
    """The files and folders whose names begin so."""
    for path in glob.iglob(glob.escape(os.path.expanduser(text)) + "*"):
        yield text + path[len(os.path.expanduser(text)) :] + ("/" if os.path.isdir(path) else "")
