"""Functions that are told of changes, for what a program keeps beside the tables."""

from __future__ import annotations

import threading
import weakref
from typing import TYPE_CHECKING, Any, Callable, Dict, Set, Tuple

from .errors import WrongType

if TYPE_CHECKING:
    from .database import Database


class Watch:
    """A function that is told of the changes of a table, or of any table, until this is closed.

    `Database.watch` makes one. Used as a context manager, it is closed at the end, and also with its database. A program that wants it
    for as long as that need not keep it.
    """

    def __init__(self, database: Database, function: Callable[[int], object], table: bytes) -> None:
        # (not the database itself, which would have itself in a circle)
        self._database = weakref.ref(database)
        self._function = function
        self._table = table
        #: The number when it was told last, or was made.
        self._number = _number_of(database, table)
        self._is_open = True

    @property
    def closed(self) -> bool:
        """Whether it is closed, or its database is."""
        database = self._database()
        return not self._is_open or database is None or database.closed

    def close(self) -> None:
        """Ends it: the function is called no more. A second call does nothing."""
        database = self._database()
        if database is not None and database._watches is not None:
            database._watches.end(database, self)

    def __enter__(self) -> Watch:
        return self

    def __exit__(self, *_: object) -> None:
        self.close()

    def __reduce__(self) -> Any:
        raise TypeError("mmdb: a Watch has no copies")


class Watches:
    """The watches of a database, and what each thread has to tell at the end of its call."""

    def __init__(self) -> None:
        self._open: Tuple[Watch, ...] = ()
        #: By each thread the numbers that its calls have raised, and that aren't told yet.
        self._due: Dict[int, Dict[Watch, int]] = {}
        #: The threads that are telling. What is changed by a function meanwhile is told behind it.
        self._telling: Set[int] = set()

    # The calls that take the database want its turn, but for the one that ends a watch, which takes it.

    def begin(self, database: Database, function: Callable[[int], object], table: bytes) -> Watch:
        """Has a function told from now on."""
        if not callable(function):
            raise WrongType(f"mmdb: a function is told of changes, not a {type(function).__name__}")
        watch = Watch(database, function, table)
        self._open += (watch,)
        database._be_watched(True)
        return watch

    def end(self, database: Database, watch: Watch) -> None:
        """Has a function told no more."""
        with database._turn:
            watch._is_open = False
            self._open = tuple(other for other in self._open if other is not watch)
            database._be_watched(bool(self._open))

    def note(self, database: Database) -> None:
        """Takes note of the numbers that have risen, which this thread is to tell."""
        for watch in self._open:
            number = _number_of(database, watch._table)
            if number != watch._number:
                # (a table that was dropped has none, so that its watch is told that of all)
                due = self._due.setdefault(threading.get_ident(), {})
                due[watch] = number or _number_of(database, b"")
                watch._number = number

    def tell(self) -> None:
        """Tells what this thread has to tell, until nothing is left. Does nothing in a function that is being told."""
        thread = threading.get_ident()
        if thread not in self._due or thread in self._telling:
            return
        self._telling.add(thread)
        try:
            _tell_all(self._due[thread])
        finally:
            del self._due[thread]
            self._telling.discard(thread)

    def keep_one_thread(self) -> None:
        """Forgets all threads but this one, in a child of fork."""
        thread = threading.get_ident()
        self._due = {other: due for other, due in self._due.items() if other == thread}
        self._telling &= {thread}


def _tell_all(due: Dict[Watch, int]) -> None:
    """Tells these numbers, and those that come in meanwhile. If a function raises, the others are told before that is passed on."""
    while due:
        watch = next(iter(due))
        number = due.pop(watch)
        if watch.closed:
            continue
        try:
            watch._function(number)
        except BaseException:
            _tell_all(due)
            raise


def _number_of(database: Database, table: bytes) -> int:
    """The number of the newest change of a table, or of all if its name is empty. 0 where there is no such table."""
    found = database._version(table)
    if isinstance(found, int):
        return found
    # (if memory runs out for a long name, each change counts as one of its table)
    return 0 if found.startswith(b"error 30 ") else _number_of(database, b"")
