"""The words of the shell's start."""

from __future__ import annotations

from typing import TYPE_CHECKING, Callable, List, NamedTuple, Optional, Sequence

import mmdb

from .modes import MODES
from .trouble import NAME

if TYPE_CHECKING:
    import argparse


class Options(NamedTuple):
    """What the words say. Without words all is as here."""

    files: Sequence[str] = ()
    lines: Sequence[str] = ()
    restored: Optional[str] = None
    init: Optional[str] = None
    has_init: bool = True
    bails: bool = False
    policy: str = "auto"
    mode: Optional[str] = None
    is_plain: bool = False
    rows: int = mmdb.MOST
    block: int = mmdb.MOST


def options_of(words: List[str]) -> Options:
    """The options of the words. Wrong ones, --help and --version end the shell."""
    return Options(**vars(_parser().parse_args(words))) if words else Options()


def _parser() -> argparse.ArgumentParser:
    # (it takes a while to load, and most starts have no words)
    import argparse

    parser = argparse.ArgumentParser(
        prog=NAME,
        description="A shell over a database in main memory, which ends with the shell. .help tells of its commands.",
    )
    add = parser.add_argument
    add("files", nargs="*", metavar="FILE", help="do the lines of the file and end; - is standard input")
    add("-c", dest="lines", action="append", default=[], metavar="LINE", help="do the line and end, after the files")
    add("--restore", dest="restored", metavar="FILE", help="begin with the database of a dump")
    add("--init", metavar="FILE", help="do the lines of this file first")
    add("--no-init", dest="has_init", action="store_false", help="do no init file at a terminal")
    add("--bail", dest="bails", action="store_true", help="end at the first refusal, as by .bail on")
    add("--policy", choices=mmdb.POLICIES, default="auto", help="how plans are chosen")
    add("--mode", choices=MODES, help="how rows are shown")
    add("--plain", dest="is_plain", action="store_true", help="draw boxes with + - and |")
    add("--rows", type=_number_from(1), default=mmdb.MOST, metavar="N", help="the most rows of a table")
    add("--block", type=_number_from(0), default=mmdb.MOST, metavar="N", help="the most bytes of a block")
    add("--version", action="version", version=f"{NAME} {mmdb.__version__}")
    return parser


def _number_from(least: int) -> Callable[[str], int]:
    """What makes a limit of a word."""
    from argparse import ArgumentTypeError

    def number(word: str) -> int:
        value = int(word) if word.isdecimal() and len(word) < 20 else -1
        if not least <= value <= mmdb.MOST:
            raise ArgumentTypeError(f"it is a number from {least} to {mmdb.MOST}")
        return value

    return number
