"""The commands of the shell itself, which begin with a dot: how they are named, found and spelled."""

from __future__ import annotations

from typing import TYPE_CHECKING, Callable, Dict, List, NamedTuple

from .trouble import Trouble

if TYPE_CHECKING:
    from .shell import Shell


class Command(NamedTuple):
    """A command: what does it with the shell and its words, the words it takes, what it does, and more on that.

    A word in brackets may be missing, and the last takes all that follows where it ends in `..`. Where `is_open`, the
    last takes what follows as it is, with its blanks and quote marks."""

    run: Callable[..., None]
    usage: List[str]
    does: str
    more: str
    is_open: bool

    @property
    def least(self) -> int:
        return sum(not word.startswith("[") for word in self.usage)

    @property
    def most(self) -> float:
        return float("inf") if self.usage and ".." in self.usage[-1] else len(self.usage)


#: The commands by name.
DOTTED: Dict[str, Command] = {}


def dotted(
    spelling: str, does: str, more: str = "", is_open: bool = False
) -> Callable[[Callable[..., None]], Callable[..., None]]:
    """Puts a function among the commands, under the first word of the spelling."""
    name, *usage = spelling.split(" ")

    def put(run: Callable[..., None]) -> Callable[..., None]:
        DOTTED[name] = Command(run, usage, does, more, is_open)
        return run

    return put


def found(name: str) -> str:
    """The command that a word names, by its whole name or by a front that only one has."""
    if name in DOTTED:
        return name
    names = sorted(full for full in DOTTED if full.startswith(name) and len(name) > 1)
    if not names:
        raise Trouble(f"there is no {name}; .help lists what there is")
    if len(names) > 1:
        raise Trouble(f"{name} can be {', '.join(names[:-1])} or {names[-1]}")
    return names[0]


def do(shell: Shell, line: str) -> None:
    """Does the command of a line."""
    name = found(line.split(maxsplit=1)[0])
    command = DOTTED[name]
    words = _words(line, command)
    if not command.least <= len(words) <= command.most:
        raise Trouble("it is written " + " ".join([name, *command.usage]))
    command.run(shell, *words)


def _words(line: str, command: Command) -> List[str]:
    """The words behind the name of a command."""
    if command.is_open:
        return line.strip(" \t").split(None, len(command.usage))[1:]
    # (it takes a while to load)
    import shlex

    try:
        return shlex.split(line)[1:]
    except ValueError as why:
        raise Trouble("a quote mark is left open, or a backslash ends the line") from why
