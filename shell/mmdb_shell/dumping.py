"""A whole database in a dump: into a file and back, or from one database into another."""

from __future__ import annotations

from contextlib import contextmanager
from typing import Iterator

import mmdb
from mmdb import dumps
from mmdb.errors import WrongFile

from .bars import Bar, Read, Written
from .moving import answer, numbered
from .trouble import Trouble


def write(db: mmdb.Database, file: Written) -> None:
    """Writes a dump, which `restore` reads, and the program mmdb too."""
    with _told():
        dumps.write(db, file)


def copy(db: mmdb.Database, empty: mmdb.Database, bar: Bar) -> None:
    """Makes an empty database like another."""
    with _told():
        for request in dumps.requests_of(db):
            answer(empty, *request)
            bar.add((request.block or b"").count(b"\n"))


def restore(file: Read, name: str, empty: mmdb.Database) -> None:
    """Does a dump in an empty database. If it raises, that one may have anything in it."""
    with _told():
        dumps.restore(empty, file, name)


@contextmanager
def _told() -> Iterator[None]:
    """Makes trouble of what the package says of a dump."""
    try:
        yield
    except WrongFile as why:
        raise Trouble(why.told, why.reason) from why
    except mmdb.Refused as why:
        raise Trouble(numbered(why), why.reason) from why
    except mmdb.DataError as why:
        raise Trouble(str(why).replace("mmdb: ", "", 1)) from why
