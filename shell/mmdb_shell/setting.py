"""Commands that set how the shell does and shows things, and those that leave it."""

from __future__ import annotations

from typing import TYPE_CHECKING, Callable

from .dotted import dotted
from .modes import MODES
from .trouble import Quit, Trouble

if TYPE_CHECKING:
    from .shell import Shell


@dotted(
    ".mode [MODE] [TABLE]",
    "shows or sets the output mode",
    f"MODE is {', '.join([*MODES][:-1])} or {[*MODES][-1]}.\n"
    "TABLE is the table of the lines of .mode insert; default: the table that was selected from.",
)
def _mode(shell: Shell, name: str = "", table: str = "") -> None:
    if not name:
        shell.say(f"{shell.mode}\n")
        return
    if name not in MODES:
        raise Trouble(f"a mode is one of {', '.join(MODES)}")
    if table and name != "insert":
        raise Trouble("a table is named for the mode insert alone")
    shell.mode, shell.look = name, shell.look._replace(table=table)


@dotted(
    ".output [FILE]",
    "sends answers to a file or, after |, to a command",
    ".output rows.csv      writes answers to the file\n"
    ".output |sort | head  sends them to the command\n"
    ".output               closes the file, or waits for the command, and shows answers again",
    is_open=True,
)
def _output(shell: Shell, place: str = "") -> None:
    if place:
        shell.output.to(_unquoted(place), is_once=False)
    else:
        shell.output.back()


@dotted(
    ".once FILE",
    "does so for the next answer only",
    ".once rows.csv replaces the file when the answer is complete; .once |sort sends it to the command.",
    is_open=True,
)
def _once(shell: Shell, place: str) -> None:
    shell.output.to(_unquoted(place), is_once=True)


def _unquoted(place: str) -> str:
    """A name without its quote marks. Of a command they stay."""
    if place.startswith("|") or place[:1] not in ("'", '"'):
        return place
    if len(place) < 2 or place[-1] != place[0]:
        raise Trouble("a quote mark is left open")
    return place[1:-1]


@dotted(".print [TEXT..]", "prints a text")
def _print(shell: Shell, *words: str) -> None:
    shell.say(" ".join(words) + "\n")


@dotted(
    ".parameter [ACTION] [PLACE] [VALUE]",
    "shows or sets the values of ? and :name",
    ".parameter set 1 'Ann'   sets the value of the first ? of each line\n"
    ".parameter set :least 7  sets the value of :least\n"
    ".parameter unset 1       removes a value; .parameter clear removes all\n"
    ".parameter list          shows all values\n"
    "A value without quotes that is no number and not null is a text.",
    is_open=True,
)
def _parameter(shell: Shell, what: str = "list", place: str = "", value: str = "") -> None:
    parameters = shell.parameters
    if what == "set" and value:
        parameters.set(place, value)
    elif what == "unset" and place and not value:
        parameters.unset(place)
    elif what == "clear" and not place:
        parameters.clear()
    elif what == "list" and not place:
        shell.show(("place", "value"), parameters.rows())
    else:
        raise Trouble("it is written .parameter set PLACE VALUE, unset PLACE, clear or list")


# The switches: what each does when it is on, and where the shell keeps it.
_SWITCHES = (
    (".bail", "stops a script at the first refused line; refuses CSV files with odd quotes", "bails"),
    (".changes", "shows how many rows each change affected", "tells_changes"),
    (".explain", "explains why a line is refused", "explains"),
    (".pager", "shows long answers with the command in $PAGER", "has_pager"),
    (".timer", "shows how long each line took", "has_timer"),
)


def _switch(kept: str) -> Callable[[Shell, str], None]:
    """What turns a switch, which the shell keeps under that name."""

    def turn(shell: Shell, word: str) -> None:
        if word not in ("on", "off"):
            raise Trouble(f"it is on or off, not {word}")
        setattr(shell, kept, word == "on")

    return turn


for _name, _does, _kept in _SWITCHES:
    dotted(f"{_name} on|off", _does)(_switch(_kept))


@dotted(".exit [STATUS]", "leaves, with an exit status")
def _exit(_shell: Shell, status: str = "") -> None:
    if status and not (status.isdecimal() and len(status) < 4 and int(status) < 256):
        raise Trouble("a status is a number from 0 to 255")
    raise Quit(int(status) if status else None)


@dotted(".quit", "leaves; so does Ctrl-D")
def _quit(_shell: Shell) -> None:
    raise Quit
