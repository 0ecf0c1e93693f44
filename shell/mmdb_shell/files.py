"""Files that are written whole or not at all, and files that are read."""

from __future__ import annotations

import os
import stat
from contextlib import contextmanager
from io import BufferedReader
from typing import BinaryIO, Iterator, Optional

from mmdb import files

from .interrupts import Interrupts
from .trouble import Trouble, told_of


def full_name(path: str) -> str:
    """A name with the user's home in place of ~."""
    if not path or "\0" in path:
        raise Trouble(f"{path!r} is no name of a file")
    return os.path.expanduser(path)


@contextmanager
def opened(path: str, interrupts: Interrupts) -> Iterator[BufferedReader]:
    """A file to be read. Ctrl-C ends the wait for a pipe that nobody writes into."""
    with told_of(path), interrupts.allowed():
        file = open(full_name(path), "rb")
    with file:
        yield file


def size_of(file: BinaryIO) -> Optional[int]:
    """How many bytes a file has, where it is a plain one."""
    told = os.fstat(file.fileno())
    return told.st_size if stat.S_ISREG(told.st_mode) else None


@contextmanager
def written(path: str, interrupts: Optional[Interrupts] = None) -> Iterator[BinaryIO]:
    """A file to be written, which takes its place once it is whole: if that fails, what stood there stays. What is no
    plain file, as a pipe or a device, is written straight."""
    name = full_name(path)
    folder = os.path.dirname(os.path.realpath(name))
    with told_of(path if os.path.isdir(folder) else folder):
        with files.written(name, lambda straight: opened_straight(straight, interrupts or Interrupts())) as file:
            yield file


def opened_straight(name: str, interrupts: Interrupts) -> BinaryIO:
    """A file that is written where it is. Ctrl-C ends the wait for a pipe that nobody reads from."""
    with interrupts.allowed():
        return open(name, "wb")
