"""What can go wrong beside a refusal of the library, told in sentences."""

from __future__ import annotations

import errno
import os
import sys
from contextlib import contextmanager
from typing import Iterator, Optional

#: What the shell calls itself where it speaks beside the answers.
NAME = "mmdb-shell"

#: What the shell ends with. With wrong words it ends with 2.
DONE, REFUSED, UNWRITABLE, NO_MEMORY, NO_LIBRARY, INTERRUPTED = 0, 1, 3, 4, 70, 130


class Trouble(Exception):
    """A sentence for the user: what was asked isn't done, and all is as it was."""

    def __init__(self, text: str, reason: Optional[str] = None) -> None:
        super().__init__(text)
        #: The reason of the refusal that it is about, where it is about one.
        self.reason = reason


class Unreadable(Trouble):
    """A source of requests can't be read any further."""


class Unwritable(Exception):
    """Standard output, or the terminal, takes nothing any more."""


class Quit(Exception):
    """The user has asked to leave, with a status where one was said."""

    def __init__(self, status: Optional[int] = None) -> None:
        super().__init__()
        self.status = status


class Bailed(Exception):
    """A line was refused, and none of the lines after it is to be done."""


def fail(status: int, text: str) -> int:
    """Tells why the shell ends with a status, if there is anybody to tell."""
    try:
        print(f"{NAME}: {text}", file=sys.stderr, flush=True)
    except (OSError, ValueError):
        pass
    return status


def sentence(path: str, why: OSError) -> str:
    """Why a file can't be had."""
    if isinstance(why, FileNotFoundError):
        return f"there is no {path}"
    # (readline calls a folder an invalid argument)
    if isinstance(why, IsADirectoryError) or os.path.isdir(path) and why.errno == errno.EINVAL:
        return f"{path} is a folder"
    if isinstance(why, PermissionError):
        return f"there is no right to {path}"
    return f"{path}: {why.strerror or why}"


@contextmanager
def told_of(path: str) -> Iterator[None]:
    """Makes trouble of what the system says of a file."""
    try:
        yield
    except OSError as why:
        raise Trouble(sentence(path, why)) from why
