"""The shared library by ctypes: where it is, and its calls on one database.

The extension `_mmdb` has the same classes, and replaces this if it was built.
"""

from __future__ import annotations

import ctypes
import os
import struct
import threading
from collections import OrderedDict
from typing import Any, List, Optional, Sequence, Tuple, Union

from .errors import WrongUse
from .lines import Placed
from .rows import Rows, Shape
from .values import encoded, stored_rows, stored_values

_NAME = "libmmdb.so"

# What a call answers, of mmdb.h.
_NOT_OPEN, _NO_LINE, _NO_MEMORY, _NO_SUCH_STATEMENT, _NO_SUCH_PLACE, _REFUSED, _IN_TRANSACTION = 1, 5, 7, 9, 10, 12, 16

# How many statements are kept by their lines, and how many bytes a statement that waits may hold, beside texts of rows.
_KEPT = 128
_HELD = 1 << 14

# A cell, of mmdb.h: an integer, where a text begins and how long it is, and which of the kinds it is of.
_CELL = struct.Struct("=qIHH")
_NULL, _INTEGER, _TEXT = 0, 1, 2


class _Bytes(ctypes.Structure):
    """Bytes that the library keeps."""

    _fields_ = [("at", ctypes.c_void_p), ("length", ctypes.c_size_t)]


class _Cells(ctypes.Structure):
    """Rows that the library keeps."""

    _fields_ = [
        ("cells", ctypes.c_void_p),
        ("texts", ctypes.c_void_p),
        ("rows", ctypes.c_size_t),
        ("columns", ctypes.c_size_t),
        ("changed", ctypes.c_uint64),
    ]


class _Number(ctypes.Structure):
    """A statement: its number, and how many places it has."""

    _fields_ = [("number", ctypes.c_uint32), ("places", ctypes.c_uint32)]


def _path() -> str:
    """Where the library is: in the folder that MMDB_LIBRARY names, in this package, beside it, or the system's."""
    folder = os.environ.get("MMDB_LIBRARY")
    if folder:
        return os.path.join(folder, _NAME)
    package = os.path.dirname(os.path.abspath(__file__))
    for place in (package, os.path.dirname(package)):
        path = os.path.join(place, _NAME)
        if os.path.exists(path):
            return path
    # (it loads many modules, and is seldom needed)
    import ctypes.util

    return ctypes.util.find_library("mmdb") or _NAME


def _is_whole(path: str) -> bool:
    """Whether a file is a whole library, up to the table of its sections at its end. Loading a part of one would end the
    process."""
    with open(path, "rb") as file:
        front = file.read(64)
        size = file.seek(0, os.SEEK_END)
    if len(front) < 64 or not front.startswith(b"\x7fELF"):
        return False
    (table,) = struct.unpack_from("<Q", front, 40)
    length, count = struct.unpack_from("<HH", front, 58)
    return bool(table + length * count <= size)


def _loaded() -> ctypes.CDLL:
    """The library."""
    path = _path()
    is_there = os.path.isfile(path)
    try:
        if is_there and not _is_whole(path):
            raise ImportError(f"mmdb: {path} is damaged: it is no library, or a part of one")
        return ctypes.CDLL(path)
    except OSError as why:
        if is_there:
            raise ImportError(f"mmdb: {path} can't be loaded: {why}") from why
        raise ImportError(
            f"mmdb: {why}; the shared library {_NAME} is missing: it stands in the folder that the variable "
            f"MMDB_LIBRARY names, in {os.path.dirname(os.path.abspath(__file__))}, or where the system keeps libraries"
        ) from why


def _call(library: ctypes.CDLL, name: str, result: Any, *arguments: Any) -> Any:
    """A call of the library, with its types."""
    try:
        call = getattr(library, name)
    except AttributeError as why:
        raise ImportError(f"mmdb: {_path()} is another library, since it has no {name}") from why
    call.restype, call.argtypes = result, arguments
    return call


_ADDRESS, _SIZE, _NUMBER = ctypes.c_void_p, ctypes.c_size_t, ctypes.c_uint32
_LIBRARY = _loaded()
_OPEN = _call(_LIBRARY, "mmdb_open", _NUMBER, _ADDRESS, _NUMBER, _NUMBER, _NUMBER)
_COMMAND = _call(_LIBRARY, "mmdb_command", _NUMBER, _ADDRESS, _ADDRESS, _SIZE, _ADDRESS)
_LOAD = _call(_LIBRARY, "mmdb_load", _NUMBER, _ADDRESS, _ADDRESS, _SIZE, _ADDRESS, _SIZE, _ADDRESS)
_INDEXES = _call(_LIBRARY, "mmdb_indexes", _NUMBER, _ADDRESS, _ADDRESS, _SIZE, _ADDRESS)
_VERSION = _call(_LIBRARY, "mmdb_version", _NUMBER, _ADDRESS, _ADDRESS, _SIZE, _ADDRESS)
_PLAN = _call(_LIBRARY, "mmdb_plan", _NUMBER, _ADDRESS, _ADDRESS, _SIZE, _ADDRESS)
_ANSWER = _call(_LIBRARY, "mmdb_answer", _NUMBER, _ADDRESS, _ADDRESS)
_REASON = _call(_LIBRARY, "mmdb_reason", _NUMBER, _ADDRESS, _ADDRESS, _SIZE, _ADDRESS, _SIZE, _ADDRESS)
_PREPARE_REASON = _call(_LIBRARY, "mmdb_prepare_reason", _NUMBER, _ADDRESS, _ADDRESS, _SIZE, _ADDRESS)
_STATEMENT_REASON = _call(_LIBRARY, "mmdb_statement_reason", _NUMBER, _ADDRESS, _NUMBER, _ADDRESS)
_BEGIN = _call(_LIBRARY, "mmdb_begin", _NUMBER, _ADDRESS)
_COMMIT = _call(_LIBRARY, "mmdb_commit", _NUMBER, _ADDRESS)
_ROLLBACK = _call(_LIBRARY, "mmdb_rollback", _NUMBER, _ADDRESS)
_TRANSACTIONS = _call(_LIBRARY, "mmdb_transactions", _SIZE, _ADDRESS)
_SHARE = _call(_LIBRARY, "mmdb_share", _NUMBER, _ADDRESS, _ADDRESS)
_CLONE = _call(_LIBRARY, "mmdb_clone", _NUMBER, _ADDRESS, _ADDRESS)
_LEAVE = _call(_LIBRARY, "mmdb_leave", _NUMBER, _ADDRESS)
_CLOSE = _call(_LIBRARY, "mmdb_close", None, _ADDRESS)
_INTERRUPTER_OPEN = _call(_LIBRARY, "mmdb_interrupter_open", _NUMBER, _ADDRESS, _ADDRESS)
_INTERRUPT = _call(_LIBRARY, "mmdb_interrupt", None, _ADDRESS)
_INTERRUPTER_CLOSE = _call(_LIBRARY, "mmdb_interrupter_close", None, _ADDRESS)
_PREPARE = _call(_LIBRARY, "mmdb_prepare", _NUMBER, _ADDRESS, _ADDRESS, _SIZE, _ADDRESS)
_BIND_INTEGER = _call(_LIBRARY, "mmdb_bind_integer", _NUMBER, _ADDRESS, _NUMBER, _NUMBER, ctypes.c_int64)
_BIND_TEXT = _call(_LIBRARY, "mmdb_bind_text", _NUMBER, _ADDRESS, _NUMBER, _NUMBER, _ADDRESS, _SIZE)
_BIND_NULL = _call(_LIBRARY, "mmdb_bind_null", _NUMBER, _ADDRESS, _NUMBER, _NUMBER)
_EXECUTE = _call(_LIBRARY, "mmdb_execute", _NUMBER, _ADDRESS, _NUMBER, _ADDRESS)
_COLUMNS = _call(_LIBRARY, "mmdb_columns", _NUMBER, _ADDRESS, _NUMBER, _ADDRESS)
_COUNT = _call(_LIBRARY, "mmdb_count", _NUMBER, _ADDRESS, _NUMBER, _ADDRESS)
_FIRST = _call(_LIBRARY, "mmdb_first", _NUMBER, _ADDRESS, _NUMBER, _SIZE, _ADDRESS)
_FINALIZE = _call(_LIBRARY, "mmdb_finalize", _NUMBER, _ADDRESS, _NUMBER)
_CURSOR_OPEN = _call(_LIBRARY, "mmdb_cursor_open", _NUMBER, _ADDRESS, _NUMBER, _ADDRESS)
_CURSOR_FETCH = _call(_LIBRARY, "mmdb_cursor_fetch", _NUMBER, _ADDRESS, _SIZE, _ADDRESS)
_CURSOR_CLOSE = _call(_LIBRARY, "mmdb_cursor_close", None, _ADDRESS)


class _Unstored(Exception):
    """A value isn't stored as it is. (It is put into that form when no call has its turn, since that may call the database.)"""


class Handle:
    """An open database, of which `mmdb.Database` is made.

    Each of its calls has its turn, so that they come one after another. Those that say so want it held, by
    `with self._turn`.
    """

    # What the calls of here want of the database that is made of it.
    _perform: Any
    _shaped: Any
    _refuse: Any
    _failed: Any
    _note: Any
    _tell: Any

    def __init__(self, policy: int, rows: int, block: int) -> None:
        self._lock = threading.Lock()
        #: The lock that a thread takes in its place which keeps it, and so has the others wait; and that thread, or 0.
        self._own_lock = threading.Lock()
        self._keeper = self._depth = 0
        self._inside = ctypes.c_void_p(None)
        self._at = ctypes.addressof(self._inside)
        #: What asks the select that is under way to end, and the lock for that. (A function for a signal may come between.)
        self._asking = threading.RLock()
        self._interrupter = ctypes.c_void_p(None)
        self._interrupter_at = ctypes.addressof(self._interrupter)
        self._told = _Bytes(None, 0)
        self._told_at = ctypes.addressof(self._told)
        # The pointer of what is told, seen as one to characters: a slice of it is a copy of the answer.
        self._characters: Any = ctypes.POINTER(ctypes.c_char).from_address(self._told_at)
        self._cells = _Cells()
        self._cells_at = ctypes.addressof(self._cells)
        #: The statements that are kept by their lines, that which was used last at the end.
        self._kept: OrderedDict[str, _Statement] = OrderedDict()
        #: The numbers of statements that were let go while another call had its turn.
        self._let_go: List[int] = []
        #: How many declarations there were: what is known of the columns is of one of these numbers.
        self._declarations = 0
        #: Whether changes are noted and told.
        self._is_watched = False
        self._check(_OPEN(self._at, policy, rows, block) or _INTERRUPTER_OPEN(self._at, self._interrupter_at))

    @property
    def closed(self) -> bool:
        """Whether it is closed."""
        return not self._inside

    @property
    def _turn(self) -> threading.Lock:
        """The turn of its calls."""
        return self._own_lock if self._keeper and self._keeper == threading.get_ident() else self._lock

    def _keep(self) -> None:
        """Has other threads wait with their calls. It wants no turn."""
        if self._keeper != threading.get_ident():
            self._lock.acquire()
            self._keeper = threading.get_ident()
        self._depth += 1

    def _end_keeping(self) -> None:
        """Ends that."""
        self._depth -= 1
        if not self._depth:
            self._keeper = 0
            self._lock.release()

    @property
    def _is_kept(self) -> bool:
        """Whether this thread has others wait."""
        return self._keeper == threading.get_ident()

    def _be_watched(self, is_watched: bool) -> None:
        """Has changes noted and told from now on, or no more."""
        self._is_watched = is_watched

    def _renew_turn(self) -> None:
        """Gives a new turn in a child of fork, where the threads that had the turn aren't, but for this one."""
        if self._keeper != threading.get_ident():
            self._keeper = self._depth = 0
            self._lock = threading.Lock()
        self._own_lock = threading.Lock()
        self._asking = threading.RLock()

    def close(self) -> None:
        """Gives all memory of the database back. A second call does nothing."""
        with self._turn:
            self._kept.clear()
            self._close()

    def __del__(self) -> None:
        if hasattr(self, "_interrupter_at"):
            self._close()

    def _interrupt(self) -> None:
        """Asks the select to end that is under way. It wants no turn."""
        with self._asking:
            if self._interrupter:
                _INTERRUPT(self._interrupter_at)

    def _close(self) -> None:
        """Closes it, and what asks its selects to end."""
        with self._asking:
            if self._interrupter:
                _INTERRUPTER_CLOSE(self._interrupter_at)
                self._interrupter.value = None
        _CLOSE(self._at)

    def execute(self, line: str, /, *parameters: Any, **named: Any) -> Any:
        """Executes a command, and returns its answer."""
        return self._perform("execute", line, parameters, named)

    def select(self, line: str, /, *parameters: Any, **named: Any) -> Any:
        """Executes a select, and returns its rows."""
        return self._perform("select", line, parameters, named)

    def change(self, line: str, /, *parameters: Any, **named: Any) -> Any:
        """Executes an insert, an update or a delete, and returns the number of rows."""
        return self._perform("change", line, parameters, named)

    def _done(self, line: str, placed: Placed, values: Tuple[Any, ...], most: Optional[int] = None) -> Any:
        """Does a statement, which is kept by its line, with these values. Of a select at most so many rows are found."""
        try:
            with self._turn:
                statement = self._statement(line, placed)
                found = statement.done(self, values, most)
                shape = statement.shape
                is_told = self._is_watched and not placed.is_select
                if is_told:
                    self._note()
        except _Unstored:
            return self._done(line, placed, stored_values(values), most)
        if is_told:
            self._tell()
        return found if shape is None or shape.converters is None else shape.converted(found)

    def _first(self, line: str, placed: Placed, asked: Tuple[Any, ...]) -> Any:
        """The first rows of a select, which is kept by its line: how many at most comes before its values."""
        return self._done(line, placed, asked[1:], asked[0])

    def _page(self, line: str, placed: Placed, asked: Tuple[Any, ...]) -> Any:
        """The same of stored values. Those of the rows are as they are stored too."""
        with self._turn:
            return self._statement(line, placed).done(self, asked[1:], asked[0])

    def _cursor(self, line: str, placed: Placed, values: Tuple[Any, ...]) -> Optional[Cursor]:
        """A cursor on the rows of a select, which is kept by its line, with these stored values. None in a transaction."""
        with self._turn:
            return self._statement(line, placed).cursor(self, values)

    def _done_many(self, line: str, placed: Placed, rows: List[Tuple[Any, ...]]) -> int:
        """Does a statement, which is kept by its line, with each of these rows of values."""
        rows = stored_rows(rows)
        try:
            with self._turn:
                return self._statement(line, placed).done_many(self, rows)
        finally:
            if self._is_watched:
                self._tell()

    def _count(self, line: str, placed: Placed, values: Tuple[Any, ...]) -> int:
        """How many rows a select shows, which is kept by its line, with these values."""
        try:
            with self._turn:
                return self._statement(line, placed).count(self, values)
        except _Unstored:
            return self._count(line, placed, stored_values(values))

    def _statement(self, line: str, placed: Placed) -> _Statement:
        """The statement that is kept by this line. The longest unused one goes where they are too many."""
        statement = self._kept.get(line)
        if statement is None:
            if len(self._kept) >= _KEPT:
                self._kept.popitem(last=False)[1].finalize(self)
            statement = self._kept[line] = _Statement(placed)
        self._kept.move_to_end(line)
        return statement

    # The calls below need their turn held.

    def _command(self, line: bytes) -> bytes:
        """What is answered to a line. It is empty for comments and blank lines."""
        status = _COMMAND(self._at, line, len(line), self._told_at)
        return self._unanswered(status) if status else self._noted(self._told_bytes())

    def _load(self, line: bytes, block: bytes) -> bytes:
        """What is answered to a line with its block."""
        status = _LOAD(self._at, line, len(line), block, len(block), self._told_at)
        return self._unanswered(status) if status else self._noted(self._told_bytes())

    def _noted(self, answer: bytes) -> bytes:
        """An answer, once its changes are noted for those who watch. (What is refused has changed nothing, and its reason may be asked
        for next.)"""
        if self._is_watched and not answer.startswith(b"error "):
            self._note()
        return answer

    def _indexes(self, table: bytes) -> bytes:
        """What is answered to who asks how the indexes of a table stand."""
        status = _INDEXES(self._at, table, len(table), self._told_at)
        return self._unanswered(status) if status else self._told_bytes()

    def _version(self, table: bytes) -> Union[int, bytes]:
        """The number of the newest change of a table, or of all if its name is empty; or the refusal."""
        given = ctypes.c_uint64()
        status = _VERSION(self._at, table, len(table), ctypes.addressof(given))
        if status == _REFUSED:
            _ANSWER(self._at, self._told_at)
            return self._told_bytes()
        return self._unanswered(status) if status else given.value

    def _plan(self, line: bytes) -> bytes:
        """The plan of the select in a line, or the refusal of the line."""
        status = _PLAN(self._at, line, len(line), self._told_at)
        return self._unanswered(status) if status and status != _REFUSED else self._told_bytes()

    def _reason(self, line: bytes, block: bytes) -> Optional[str]:
        """Why the line that was just answered was refused, with its block. None if it wasn't, or when out of memory.

        It is asked directly after the answer, while the tables are unchanged.
        """
        return self._words(_REASON(self._at, line, len(line), block, len(block), self._told_at))

    def _words(self, status: int) -> Optional[str]:
        """The words of a reason that was asked for. None if there are none, or when out of memory."""
        if status == _NO_MEMORY:
            return None
        words = self._unanswered(status) if status else self._told_bytes()
        return words.decode() or None

    def _begin(self) -> None:
        """Begins a transaction."""
        self._check(_BEGIN(self._at))

    def _commit(self) -> None:
        """Ends the innermost transaction, and keeps what was done in it."""
        self._check(_COMMIT(self._at))

    def _rollback(self) -> bool:
        """Ends the innermost transaction, and restores the tables that it began with. Gives whether somebody is to be told."""
        self._check(_ROLLBACK(self._at))
        if self._is_watched:
            self._note()
        return self._is_watched

    def _transactions(self) -> int:
        """How many transactions are open."""
        count: int = _TRANSACTIONS(self._at)
        return count

    def _share(self, reader: Handle) -> None:
        """Has another handle share the tables, in the place of its own. It wants the turns of both."""
        self._check(_SHARE(self._at, reader._at))

    def _clone(self, copy: Handle) -> None:
        """Gives another handle, which has no statements, a copy of the tables."""
        copy._close()
        self._check(_CLONE(self._at, copy._at) or _INTERRUPTER_OPEN(copy._at, copy._interrupter_at))

    def _leave(self) -> None:
        """Leaves the tables, and has none then."""
        self._check(_LEAVE(self._at))

    def _check(self, status: int) -> None:
        """Raises what a status says, unless the call was done."""
        if status:
            self._failed(status)

    def _forget(self) -> None:
        """Forgets what is known of the columns of statements, which may have been declared anew."""
        self._declarations += 1

    def _told_bytes(self) -> bytes:
        told: bytes = self._characters[: self._told.length]
        return told

    def _unanswered(self, status: int) -> bytes:
        """The answer to a call that wasn't done, or why it wasn't."""
        if status == _NO_LINE and not self.closed:
            return b""
        self._failed(status)
        return b""


class _Statement:
    """A statement. It is prepared where it wasn't yet, or was let go since. Its calls want the turn of its handle."""

    def __init__(self, placed: Placed) -> None:
        self.placed = placed
        self.number: Optional[int] = None
        self.shape: Optional[Shape] = None
        #: The number of declarations at which the shape was asked for.
        self.declarations = 0

    def done(self, handle: Handle, values: Tuple[Any, ...], most: Optional[int] = None) -> Any:
        """Executes it with these values, and returns its rows, or only so many of the first, or their number."""
        self.prepare(handle, values)
        size = self.bind(handle, values)
        if self.placed.is_select:
            self.know_shape(handle)
        self.execute(handle, values, most)
        found = self.rows(handle, values, most) if self.placed.is_select else handle._cells.changed
        if size + handle._cells.rows * handle._cells.columns * _CELL.size > _HELD:
            self.finalize(handle)
        return found

    def done_many(self, handle: Handle, rows: List[Tuple[Any, ...]]) -> int:
        """Does it with each of these rows of values, and gives how many rows all were about."""
        count: int = 0
        try:
            for values in rows:
                self.prepare(handle, values)
                self.bind(handle, values)
                self.execute(handle, values)
                count += handle._cells.changed
        finally:
            if handle._is_watched:
                handle._note()
        return count

    def count(self, handle: Handle, values: Tuple[Any, ...]) -> int:
        """Counts the rows that it shows with these values."""
        self.prepare(handle, values)
        size = self.bind(handle, values)
        given = ctypes.c_uint64(0)
        status = _COUNT(handle._at, self.number, ctypes.addressof(given))
        if status:
            self.failed(handle, status, values)
        if size > _HELD:
            self.finalize(handle)
        return given.value

    def cursor(self, handle: Handle, values: Tuple[Any, ...]) -> Optional[Cursor]:
        """A cursor on the rows that it shows with these values. None in a transaction."""
        self.prepare(handle, values)
        size, cursor = self.bind(handle, values), Cursor(handle, self.placed, values)
        try:
            status = _CURSOR_OPEN(handle._at, self.number, cursor.at)
            if status == _IN_TRANSACTION:
                return None
            if status:
                self.failed(handle, status, values)
            cursor.shape = self.shape_of_cursor(handle, cursor, values)
        except BaseException:
            cursor.close()
            raise
        finally:
            if size > _HELD:
                self.finalize(handle)
        return cursor

    def shape_of_cursor(self, handle: Handle, cursor: Cursor, values: Tuple[Any, ...]) -> Shape:
        """The shape of the rows of a cursor. Where the columns that are known aren't theirs, they are asked for once more."""
        handle._check(_CURSOR_FETCH(cursor.at, 0, handle._cells_at))
        width = handle._cells.columns
        if self.shape is not None and len(self.shape.names) != width:
            self.shape = None
        self.know_shape(handle)
        # (the cursor is open, so that it is only refused for memory)
        if self.shape is None:
            self.failed(handle, _REFUSED, values)
        assert self.shape is not None
        if len(self.shape.names) != width:
            handle._failed(_REFUSED)
        return self.shape

    def prepare(self, handle: Handle, values: Sequence[Any]) -> None:
        """Prepares it where it isn't. The values are for the words of a refusal."""
        if self.number is not None:
            return
        while handle._let_go:
            _FINALIZE(handle._at, handle._let_go.pop())
        given, line = _Number(), self.placed.prepared
        status = _PREPARE(handle._at, line, len(line), ctypes.addressof(given))
        if status:
            self.failed(handle, status, values)
        self.number, self.shape = given.number, None
        if given.places != self.placed.places:
            self.finalize(handle)
            handle._failed(_NO_SUCH_PLACE)

    def bind(self, handle: Handle, values: Tuple[Any, ...]) -> int:
        """Binds these values, and returns how many bytes their texts are."""
        at, number, size = handle._at, self.number, 0
        for place, value in enumerate(values):
            kind = type(value)
            if kind is int and -(1 << 63) <= value < 1 << 63:
                status = _BIND_INTEGER(at, number, place, value)
            elif kind is str:
                text = encoded(value)
                size += len(text)
                status = _BIND_TEXT(at, number, place, text, len(text))
            elif value is None:
                status = _BIND_NULL(at, number, place)
            else:
                if kind is bool or not isinstance(value, (int, str)):
                    raise _Unstored
                stored_values((value,))
                if isinstance(value, str):
                    text = str.encode(value)
                    size += len(text)
                    status = _BIND_TEXT(at, number, place, text, len(text))
                else:
                    status = _BIND_INTEGER(at, number, place, value)
            if status:
                self.failed(handle, status, values)
        return size

    def know_shape(self, handle: Handle) -> None:
        """Asks for the columns where they aren't known."""
        if self.shape is not None and self.declarations == handle._declarations:
            return
        self.shape, self.declarations = None, handle._declarations
        status = _COLUMNS(handle._at, self.number, handle._cells_at)
        # (if it is refused, the execution is too, and says why)
        if not status:
            self.shape = handle._shaped(*map(tuple, _columns_of(handle._cells)))

    def execute(self, handle: Handle, values: Tuple[Any, ...], most: Optional[int] = None) -> None:
        at, number, cells = handle._at, self.number, handle._cells_at
        status = _EXECUTE(at, number, cells) if most is None else _FIRST(at, number, most, cells)
        if status:
            self.failed(handle, status, values)

    def rows(self, handle: Handle, values: Tuple[Any, ...], most: Optional[int]) -> Rows:
        """The rows that the execution found. It is done once more where the columns that are known aren't theirs."""
        if self.shape is None or handle._cells.columns != len(self.shape.names):
            self.shape = None
            self.know_shape(handle)
            self.execute(handle, values, most)
        if self.shape is None:
            handle._failed(_REFUSED)
        assert self.shape is not None
        return self.shape.rows(_columns_of(handle._cells))

    def finalize(self, handle: Handle) -> None:
        """Lets it go, with all that it holds. It may be prepared again."""
        if self.number is not None:
            number, self.number = self.number, None
            _FINALIZE(handle._at, number)

    def failed(self, handle: Handle, status: int, values: Sequence[Any]) -> None:
        """Raises what a status says."""
        if status == _NO_MEMORY:
            handle._refuse(self.placed, values, b"error 90 no memory\n", None)
        if status == _REFUSED:
            _ANSWER(handle._at, handle._told_at)
            answer = handle._told_bytes()
            handle._refuse(self.placed, values, answer, self.reason(handle))
        handle._failed(status)

    def reason(self, handle: Handle) -> Optional[str]:
        """Why it was just refused: by the library's words, whose columns are those of the prepared line."""
        if self.number is None:
            line = self.placed.prepared
            return handle._words(_PREPARE_REASON(handle._at, line, len(line), handle._told_at))
        return handle._words(_STATEMENT_REASON(handle._at, self.number, handle._told_at))


class Cursor:
    """The rows of a select, which are read page by page. Until it is closed, nobody changes the tables.

    A generator of pages.py has each. It may be closed at any time, also where waiting for a turn could last for ever, and the library wants
    none for that: a cursor is a handle of its own.
    """

    def __init__(self, handle: Handle, placed: Placed, values: Tuple[Any, ...]) -> None:
        self._handle, self._placed, self._values = handle, placed, values
        self._inside = ctypes.c_void_p(None)
        #: Where it is.
        self.at = ctypes.addressof(self._inside)
        #: What its rows are made of, once it is open.
        self.shape: Optional[Shape] = None

    @property
    def closed(self) -> bool:
        """Whether it is closed."""
        return not self._inside

    def fetch(self, most: int) -> Rows:
        """The next rows, so many at most, with their values as they are stored."""
        handle, cells = self._handle, self._handle._cells
        with handle._turn:
            status = _CURSOR_FETCH(self.at, most, handle._cells_at)
            if status == _NO_MEMORY:
                handle._refuse(self._placed, self._values, b"error 90 no memory\n", None)
            handle._check(status)
            assert self.shape is not None
            return self.shape.rows(_columns_of(cells))

    def close(self) -> None:
        """Lets the tables go. A second call does nothing. It wants no turn."""
        _CURSOR_CLOSE(self.at)

    def __del__(self) -> None:
        if hasattr(self, "at"):
            self.close()


def _columns_of(cells: _Cells) -> List[List[Any]]:
    """The values of each column of rows."""
    count, width = cells.rows, cells.columns
    content = ctypes.string_at(cells.cells, count * width * _CELL.size) if count else b""
    if count == 1:
        return [[_value_of(cells.texts, *cell)] for cell in _CELL.iter_unpack(content)]
    view = memoryview(content)
    integers, words, shorts = view.cast("q"), view.cast("I"), view.cast("H")
    columns = []
    for at in range(width):
        numbers, kinds = integers[2 * at :: 2 * width].tolist(), shorts[8 * at + 7 :: 8 * width].tolist()
        if kinds.count(_INTEGER) < count:
            places = words[4 * at + 2 :: 4 * width].tolist(), shorts[8 * at + 6 :: 8 * width].tolist()
            numbers = _mixed(cells.texts, kinds, numbers, *places)
        columns.append(numbers)
    return columns


def _value_of(texts: int, integer: int, at: int, length: int, kind: int) -> Any:
    """The value of a cell."""
    if kind == _TEXT:
        return ctypes.string_at(texts + at, length).decode()
    return integer if kind == _INTEGER else None


def _mixed(texts: int, kinds: List[int], integers: List[int], begins: List[int], lengths: List[int]) -> List[Any]:
    """The values of a column that aren't integers alone."""
    ends = [begin + length for begin, length, kind in zip(begins, lengths, kinds) if kind == _TEXT]
    held = ctypes.string_at(texts, max(ends)) if ends else b""
    return [
        held[begin : begin + length].decode() if kind == _TEXT else integer if kind == _INTEGER else None
        for kind, integer, begin, length in zip(kinds, integers, begins, lengths)
    ]


class Prepared:
    """A statement of a database that is prepared once and done many times, of which `mmdb.Statement` is made."""

    # What the calls of here want of the statement that is made of it.
    _perform: Any

    def __init__(self, handle: Handle, placed: Placed) -> None:
        self._statement = _Statement(placed)
        self._handle: Optional[Handle] = None
        with handle._turn:
            self._statement.prepare(handle, (None,) * placed.places)
        self._handle = handle

    @property
    def closed(self) -> bool:
        """Whether it is closed."""
        return self._handle is None

    def close(self) -> None:
        """Lets the statement go. A second call does nothing."""
        handle, self._handle = self._handle, None
        if handle is not None:
            with handle._turn:
                self._statement.finalize(handle)

    def __del__(self) -> None:
        handle = getattr(self, "_handle", None)
        if handle is None or self._statement.number is None:
            return
        # (it is let go at any time, where waiting for its turn could last for ever)
        turn = handle._turn
        if not turn.acquire(blocking=False):
            handle._let_go.append(self._statement.number)
            return
        self._statement.finalize(handle)
        turn.release()

    def execute(self, /, *parameters: Any, **named: Any) -> Any:
        """Executes it with these parameters, and returns its rows, or their number."""
        return self._perform(parameters, named)

    def _done(self, values: Tuple[Any, ...], most: Optional[int] = None) -> Any:
        """Does it with these values. Of a select at most so many rows are found."""
        handle, statement = self._open_handle(), self._statement
        try:
            with handle._turn:
                found = statement.done(handle, values, most)
                shape = statement.shape
                is_told = handle._is_watched and not statement.placed.is_select
                if is_told:
                    handle._note()
        except _Unstored:
            return self._done(stored_values(values), most)
        if is_told:
            handle._tell()
        return found if shape is None or shape.converters is None else shape.converted(found)

    def _first(self, asked: Tuple[Any, ...]) -> Any:
        """The first rows that it shows: how many at most comes before its values."""
        return self._done(asked[1:], asked[0])

    def _done_many(self, rows: List[Tuple[Any, ...]]) -> int:
        """Does it with each of these rows of values."""
        rows = stored_rows(rows)
        handle = self._open_handle()
        try:
            with handle._turn:
                return self._statement.done_many(handle, rows)
        finally:
            if handle._is_watched:
                handle._tell()

    def _count(self, values: Tuple[Any, ...]) -> int:
        """How many rows it shows with these values."""
        handle = self._open_handle()
        try:
            with handle._turn:
                return self._statement.count(handle, values)
        except _Unstored:
            return self._count(stored_values(values))

    def _names(self) -> Tuple[str, ...]:
        """The names of its columns, whatever its parameters are."""
        handle, statement = self._open_handle(), self._statement
        with handle._turn:
            values = (None,) * statement.placed.places
            statement.prepare(handle, values)
            statement.know_shape(handle)
            if statement.shape is None:
                statement.failed(handle, _REFUSED, values)
            assert statement.shape is not None
            return statement.shape.names

    def _open_handle(self) -> Handle:
        if self._handle is None:
            raise WrongUse("mmdb: the statement is closed")
        return self._handle
