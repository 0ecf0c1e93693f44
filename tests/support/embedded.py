"""The library in this process, by ctypes and without the package for Python: a handle, its statements, and the ways to answer a stream.

What must hold: the structures and the types of calls are those of include/mmdb.h.
"""

import contextlib
import ctypes
import struct

from . import harness, model, tested


class Bytes(ctypes.Structure):
    """Bytes that the library keeps."""

    _fields_ = [("at", ctypes.c_void_p), ("length", ctypes.c_size_t)]


class Prepared(ctypes.Structure):
    """A statement, by its number."""

    _fields_ = [("number", ctypes.c_uint32), ("places", ctypes.c_uint32)]


class Rows(ctypes.Structure):
    """Rows that the library keeps, as cells and the texts of these."""

    _fields_ = [
        ("cells", ctypes.c_void_p),
        ("texts", ctypes.c_void_p),
        ("rows", ctypes.c_size_t),
        ("columns", ctypes.c_size_t),
        ("changed", ctypes.c_uint64),
    ]

    def values(self):
        """The values of each row."""
        cells = CELL.iter_unpack(ctypes.string_at(self.cells, CELL.size * self.rows * self.columns))
        listed = [self.value(*cell) for cell in cells]
        return [listed[at : at + self.columns] for at in range(0, len(listed), self.columns)]

    def value(self, integer, at, length, kind):
        if kind == TEXT:
            return ctypes.string_at(self.texts + at, length)
        return integer if kind == INTEGER else None


class Mark(ctypes.Structure):
    """Where a save goes on."""

    _fields_ = [("version", ctypes.c_uint64), ("table", ctypes.c_size_t), ("part", ctypes.c_uint32), ("row", ctypes.c_uint32)]


CELL = struct.Struct("=qIHH")
INTEGER, TEXT = 1, 2
NO_MEMORY, REFUSED, SHARED = 7, 12, 14
SAVE_OVER = 5


def call(name, result, *arguments):
    found = getattr(LIBRARY, name)
    found.restype, found.argtypes = result, arguments
    return found


LIBRARY = ctypes.CDLL(str(tested.library() / "libmmdb.so"))
ADDRESS, SIZE, NUMBER = ctypes.c_void_p, ctypes.c_size_t, ctypes.c_uint32
OPEN = call("mmdb_open", NUMBER, ADDRESS, NUMBER, NUMBER, NUMBER)
COMMAND = call("mmdb_command", NUMBER, ADDRESS, ADDRESS, SIZE, ADDRESS)
LOAD = call("mmdb_load", NUMBER, ADDRESS, ADDRESS, SIZE, ADDRESS, SIZE, ADDRESS)
FEED = call("mmdb_feed", NUMBER, ADDRESS, ADDRESS, SIZE)
ANSWER = call("mmdb_answer", NUMBER, ADDRESS, ADDRESS)
REFUSAL = call("mmdb_refusal", NUMBER, ADDRESS)
REASON = call("mmdb_reason", NUMBER, ADDRESS, ADDRESS, SIZE, ADDRESS, SIZE, ADDRESS)
PREPARE_REASON = call("mmdb_prepare_reason", NUMBER, ADDRESS, ADDRESS, SIZE, ADDRESS)
STATEMENT_REASON = call("mmdb_statement_reason", NUMBER, ADDRESS, NUMBER, ADDRESS)
INDEXES = call("mmdb_indexes", NUMBER, ADDRESS, ADDRESS, SIZE, ADDRESS)
PREPARE = call("mmdb_prepare", NUMBER, ADDRESS, ADDRESS, SIZE, ADDRESS)
BIND_INTEGER = call("mmdb_bind_integer", NUMBER, ADDRESS, NUMBER, NUMBER, ctypes.c_int64)
BIND_TEXT = call("mmdb_bind_text", NUMBER, ADDRESS, NUMBER, NUMBER, ADDRESS, SIZE)
BIND_NULL = call("mmdb_bind_null", NUMBER, ADDRESS, NUMBER, NUMBER)
EXECUTE = call("mmdb_execute", NUMBER, ADDRESS, NUMBER, ADDRESS)
COLUMNS = call("mmdb_columns", NUMBER, ADDRESS, NUMBER, ADDRESS)
COUNT = call("mmdb_count", NUMBER, ADDRESS, NUMBER, ADDRESS)
FIRST = call("mmdb_first", NUMBER, ADDRESS, NUMBER, SIZE, ADDRESS)
CURSOR_OPEN = call("mmdb_cursor_open", NUMBER, ADDRESS, NUMBER, ADDRESS)
CURSOR_FETCH = call("mmdb_cursor_fetch", NUMBER, ADDRESS, SIZE, ADDRESS)
CURSOR_CLOSE = call("mmdb_cursor_close", None, ADDRESS)
FINALIZE = call("mmdb_finalize", NUMBER, ADDRESS, NUMBER)
QUERY = call("mmdb_query", NUMBER, ADDRESS, ADDRESS, SIZE, ADDRESS)
BEGIN = call("mmdb_begin", NUMBER, ADDRESS)
COMMIT = call("mmdb_commit", NUMBER, ADDRESS)
ROLLBACK = call("mmdb_rollback", NUMBER, ADDRESS)
TRANSACTIONS = call("mmdb_transactions", SIZE, ADDRESS)
SHARE = call("mmdb_share", NUMBER, ADDRESS, ADDRESS)
LEAVE = call("mmdb_leave", NUMBER, ADDRESS)
SAVE = call("mmdb_save", NUMBER, ADDRESS, ADDRESS, ADDRESS)
RESTORE_OPEN = call("mmdb_restore_open", NUMBER, ADDRESS, NUMBER, NUMBER, NUMBER)
RESTORE_TAKE = call("mmdb_restore_take", NUMBER, ADDRESS, ADDRESS, SIZE, ADDRESS)
RESTORE_END = call("mmdb_restore_end", NUMBER, ADDRESS, ADDRESS)
RESTORE_CLOSE = call("mmdb_restore_close", None, ADDRESS)
CLOSE = call("mmdb_close", None, ADDRESS)


@contextlib.contextmanager
def through(library):
    """In it the calls are those of another library."""
    before = {name: found for name, found in globals().items() if isinstance(found, LIBRARY._FuncPtr)}
    for name, found in before.items():
        other = getattr(library, found.__name__)
        other.restype, other.argtypes = found.restype, found.argtypes
        globals()[name] = other
    try:
        yield
    finally:
        globals().update(before)


class Handle:
    """An open database, which is closed at the end of its `with`: without tables, or of the pieces of a dump. Or a handle that shares the
    tables of another."""

    def __init__(self, policy="auto", limits=model.Limits(), shares=None, restores=None):
        self.inside = ctypes.c_void_p(None)
        self.at = ctypes.addressof(self.inside)
        self.told = Bytes(None, 0)
        self.told_at = ctypes.addressof(self.told)
        if restores is not None:
            self.restore(restores, harness.POLICIES.index(policy), limits)
        elif shares is None:
            self.done(OPEN(self.at, harness.POLICIES.index(policy), limits.rows, limits.block))
        else:
            shares.share(self)

    def __enter__(self):
        return self

    def __exit__(self, *_):
        self.close()

    def close(self):
        CLOSE(self.at)

    @staticmethod
    def done(status):
        if status:
            raise AssertionError(f"a call gives the status {status}")

    def said(self, status):
        """What a call told."""
        self.done(status)
        return ctypes.string_at(self.told.at, self.told.length)

    def ask(self, line, block):
        """The answer to a line, with its block where it asks for one. A line without bytes has none."""
        if model.block_length(line):
            return self.said(LOAD(self.at, line, len(line), block, len(block), self.told_at))
        return self.said(COMMAND(self.at, line, len(line), self.told_at)) if line else b""

    def feed(self, piece):
        """The answers that a piece brings."""
        self.done(FEED(self.at, piece, len(piece)))
        return self.answer()

    def answer(self):
        """The last answers."""
        return self.said(ANSWER(self.at, self.told_at))

    def refusal(self):
        return REFUSAL(self.at)

    def reason(self, line, block):
        return self.said(REASON(self.at, line, len(line), block, len(block), self.told_at))

    def prepare_reason(self, line):
        return self.said(PREPARE_REASON(self.at, line, len(line), self.told_at))

    def statement_reason(self, statement):
        return self.said(STATEMENT_REASON(self.at, statement.number, self.told_at))

    def indexes(self, table):
        return self.said(INDEXES(self.at, table, len(table), self.told_at))

    def is_done(self, status):
        """Whether a call on a statement was done, and not refused."""
        if status != REFUSED:
            self.done(status)
        return status != REFUSED

    def prepare(self, line):
        """The statement of a line, or None where it is refused."""
        statement = Prepared()
        return statement if self.is_done(PREPARE(self.at, line, len(line), ctypes.addressof(statement))) else None

    def bind(self, statement, values):
        for place, value in enumerate(values):
            if value is None:
                status = BIND_NULL(self.at, statement.number, place)
            elif isinstance(value, int):
                status = BIND_INTEGER(self.at, statement.number, place, value)
            else:
                status = BIND_TEXT(self.at, statement.number, place, value, len(value))
            self.done(status)

    def execute(self, statement):
        """The rows that a statement has, or None where it is refused."""
        rows = Rows()
        return rows if self.is_done(EXECUTE(self.at, statement.number, ctypes.addressof(rows))) else None

    def columns(self, statement):
        """The names and the kinds of a statement's columns."""
        columns = Rows()
        self.done(COLUMNS(self.at, statement.number, ctypes.addressof(columns)))
        return columns.values()

    def count(self, statement):
        """How many rows a statement shows."""
        count = ctypes.c_uint64()
        self.done(COUNT(self.at, statement.number, ctypes.addressof(count)))
        return count.value

    def first(self, statement, most):
        """The first rows that a statement has, so many at most, or None where it is refused."""
        rows = Rows()
        return rows if self.is_done(FIRST(self.at, statement.number, most, ctypes.addressof(rows))) else None

    def finalize(self, statement):
        self.done(FINALIZE(self.at, statement.number))

    def begin(self):
        self.done(BEGIN(self.at))

    def commit(self):
        self.done(COMMIT(self.at))

    def roll_back(self):
        self.done(ROLLBACK(self.at))

    def transactions(self):
        """How many transactions are open."""
        return TRANSACTIONS(self.at)

    def share(self, reader):
        self.done(SHARE(self.at, reader.at))

    def leave(self):
        self.done(LEAVE(self.at))

    def saved(self):
        """What the database is saved as, or None where it is refused."""
        mark, pieces = Mark(), []
        while mark.part != SAVE_OVER:
            if not self.is_done(SAVE(self.at, ctypes.addressof(mark), self.told_at)):
                return None
            pieces.append(ctypes.string_at(self.told.at, self.told.length))
        return b"".join(pieces)

    def restore(self, pieces, policy, limits):
        """Opens it of a dump in these pieces."""
        inside = ctypes.c_void_p(None)
        at = ctypes.addressof(inside)
        self.done(RESTORE_OPEN(at, policy, limits.rows, limits.block))
        try:
            for piece in pieces:
                self.done(RESTORE_TAKE(at, piece, len(piece), self.told_at))
            self.done(RESTORE_END(at, self.at))
        finally:
            RESTORE_CLOSE(at)

    def declines(self, change):
        """Whether a change is declined in each way, and a transaction too, since another handle shares the tables."""
        rows = Rows()
        commanded = COMMAND(self.at, change, len(change), self.told_at)
        queried = QUERY(self.at, change, len(change), ctypes.addressof(rows))
        return {commanded, queried, BEGIN(self.at)} == {SHARED}


class Cursor:
    """The rows that a statement has, to be read page by page."""

    def __init__(self, handle, statement):
        self.inside = ctypes.c_void_p(None)
        self.at = ctypes.addressof(self.inside)
        handle.done(CURSOR_OPEN(handle.at, statement.number, self.at))

    def page(self, most):
        """The values of the next rows, so many at most."""
        rows = Rows()
        Handle.done(CURSOR_FETCH(self.at, most, ctypes.addressof(rows)))
        return rows.values()

    def close(self):
        CURSOR_CLOSE(self.at)


def answers_to(pieces, policy="auto", limits=model.Limits()):
    """The answers of a new database to a stream in these pieces."""
    with Handle(policy, limits) as handle:
        return b"".join(map(handle.feed, pieces))
