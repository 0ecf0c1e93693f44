"""What `.help` says."""

from __future__ import annotations

from typing import Iterator

from .dotted import DOTTED
from .words import COMMANDS, KEYWORDS, LANGUAGE, REFUSALS, SIGNS


def overview() -> Iterator[str]:
    """The commands of the language and of the shell."""
    yield "Commands of the language; .help WORD explains a word, .help language all, .help NUMBER an error:"
    yield "  " + " ".join(COMMANDS)
    yield "Commands of the shell; an unambiguous prefix is enough:"
    for name, command in sorted(DOTTED.items()):
        yield f"  {' '.join([name, *command.usage]):36} {command.does}"


def help_for(word: str) -> Iterator[str]:
    """What there is on a word; nothing on what is no word."""
    if word == "language":
        yield from LANGUAGE.splitlines()
        yield from (f"  {sign:12} {means}" for sign, means in SIGNS.items())
    if word in COMMANDS:
        spelling, does = COMMANDS[word].split("\n")
        yield from spelling.split(" | ")
        yield f"  {does}"
    for told in (KEYWORDS, SIGNS):
        if word in told:
            yield word
            yield f"  {told[word]}"
    yield from _help_for_dotted(word)
    for number, meaning in REFUSALS.items():
        if word == str(number):
            yield f"error {number}: {meaning}"


def _help_for_dotted(word: str) -> Iterator[str]:
    for name in dict.fromkeys((word, f".{word}")):
        if name in DOTTED:
            command = DOTTED[name]
            yield " ".join([name, *command.usage])
            yield f"  {command.does}"
            yield from (f"  {line}" for line in command.more.splitlines())
