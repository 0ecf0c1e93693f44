"""Calls of `embedded` while their selects are asked to end: each handle that opens has a thread that asks at random times. A select that was
ended is done again, until it isn't.

What must hold: programs/storms.c has these two functions.
"""

import contextlib
import ctypes

from . import compiling, embedded

INTERRUPTED = 18
# The most binary digits of the nanoseconds between two asks.
DIGITS_OF_PAUSES = 18
# The calls that do a select.
SELECTS = ("EXECUTE", "FIRST", "COUNT", "QUERY", "CURSOR_OPEN")


class Storms:
    """The threads of the handles that are open, and how many selects and asks there were in all."""

    def __init__(self, room):
        library = ctypes.CDLL(str(room.sharing("storms.so", compiling.PROGRAMS / "storms.c", [*compiling.C, "-shared", "-fPIC"])))
        self.begin, self.end = library.storms_begin, library.storms_end
        self.begin.restype, self.begin.argtypes = ctypes.c_void_p, (ctypes.c_void_p, ctypes.c_uint)
        self.end.restype, self.end.argtypes = ctypes.c_long, (ctypes.c_void_p,)
        self.of = {}
        self.ended = self.asks = 0

    def opened(self, at):
        if at not in self.of and ctypes.c_void_p.from_address(at).value:
            self.of[at] = self.begin(at, DIGITS_OF_PAUSES)

    def closed(self, at):
        asks = self.end(self.of.pop(at)) if at in self.of else 0
        if asks < 0:
            raise AssertionError("an interrupter was not opened, or a thread not begun or ended")
        self.asks += asks

    def again(self, call):
        """That call, made again where a select was ended."""

        def made(*given):
            while (status := call(*given)) == INTERRUPTED:
                self.ended += 1
            return status

        return made

    def opening(self, call):
        """That call, whose last handle is open behind it: there are two where one shares the tables of another."""

        def made(at, *given):
            status = call(at, *given)
            self.opened(given[0] if call is self.calls["SHARE"] else at)
            return status

        return made

    def closing(self, call):
        """That call; each second thread asks on for a while behind it."""

        def made(at):
            if len(self.of) % 2:
                self.closed(at)
            call(at)
            self.closed(at)

        return made

    @contextlib.contextmanager
    def all_around(self):
        """In it all handles that open are asked."""
        ways = {**dict.fromkeys(SELECTS, self.again), "OPEN": self.opening, "SHARE": self.opening, "CLOSE": self.closing}
        self.calls = {name: getattr(embedded, name) for name in ways}
        try:
            for name, way in ways.items():
                setattr(embedded, name, way(self.calls[name]))
            yield
        finally:
            for name, call in self.calls.items():
                setattr(embedded, name, call)
