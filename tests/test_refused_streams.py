"""Each call for memory refused in turn while the library answers streams of 200 commands: fed, line by line, as statements, and in
transactions. A request that was refused by 90 is made again and succeeds, so all other answers are the same. No rollback and no commit
finds that there is no memory. In the end everything is freed.

In large sizes (`tests/fire refused_streams`) MMDB_STREAMS is the number of streams and MMDB_SEED their seed.
"""

import collections
import ctypes
import random
import unittest

from support import compiling, embedded, joined, model, prepared, random_streams, shapes, sizes, streams, transacted

SEED = sizes.said("MMDB_SEED", 19861126)
STREAMS = sizes.said("MMDB_STREAMS", sizes.size(2, 6))
COMMANDS = 200
# In the gate not each call is refused.
APART = sizes.size(61, 1)
APART_IN_TRANSACTIONS = sizes.size(601, 11)
NO_MEMORY = b"error 90 no memory\n"
MOST_CALLS = 100_000
ROOM = compiling.Room()


def setUpModule():
    compiling.counting_library(ROOM.path, ["-DUNTOLD"])


def tearDownModule():
    ROOM.close()


class NoMemory(Exception):
    """A call found no memory."""


class Handle(embedded.Handle):
    """A database whose calls may find no memory."""

    @staticmethod
    def done(status):
        if status in (embedded.NO_MEMORY, embedded.REFUSED):
            raise NoMemory
        embedded.Handle.done(status)


def lines_of(draw, number):
    """Lines and loads, by the number of their stream those about joins, those of the model, or those about large trees."""
    if number % 3 == 0:
        keys = {name: joined.keys_of(draw, name) for name in "abcd"}
        yield joined.DECLARED
        yield from (joined.load(draw, name, keys) for name in "abcd")
        while True:
            yield joined.line(draw, keys)
    if number % 3 == 1:
        yield random_streams.FRONT
        while True:
            yield random_streams.load(draw) if draw.random() < 0.15 else random_streams.line(draw)
    yield shapes.stream(draw)
    while True:
        yield shapes.line(draw)


def units_at(number):
    """The units of the stream of that number, of which each ends."""
    draw = random.Random(f"{SEED} {number}")
    units = []
    for some in lines_of(draw, number):
        units += model.units_of(streams.whole_units_of(some))
        if len(units) >= COMMANDS:
            return units[:COMMANDS] + [(b"tables", b"")]


# ---- the ways to ask


def by_lines(handle, _):
    return handle.ask


def by_statements(handle, draw):
    return prepared.Statements(handle, draw, collections.Counter()).ask


def by_pieces(handle, _):
    """A piece is a line with its block. One whose answer finds no room is the last."""

    def piece(line, block):
        return handle.feed(line + b"\n" + block)

    return piece


class Again:
    """A database in transactions that is asked once more where there was no memory, but for a commit and a rollback."""

    def __init__(self, handle, asked):
        self.handle = handle
        self.asked = asked
        self.commit, self.roll_back, self.transactions = handle.commit, handle.roll_back, handle.transactions

    def ask(self, line, block):
        return self.asked(self.handle.ask, (line, block))

    def indexes(self, name):
        return self.asked(self.handle.indexes, (name,))

    def begin(self):
        try:
            self.handle.begin()
        except NoMemory:
            self.handle.begin()


class Refused(unittest.TestCase):
    """A stream, whose answers are as ever whichever call for memory is refused."""

    def setUp(self):
        self.library = ctypes.CDLL(str(ROOM.path / "libmmdb.so"))
        for name in ("allocations_refused", "allocations_held"):
            getattr(self.library, name).restype = ctypes.c_long
        self.library.allocations_refuse.argtypes = (ctypes.c_long, ctypes.c_long)
        self.count = collections.Counter()

    def check(self, way):
        with embedded.through(self.library):
            for number in range(STREAMS):
                self.check_stream(number, way)
        if sizes.is_large:
            print(f"seed {SEED}: " + ", ".join(f"{what} {times}" for what, times in sorted(self.count.items())), flush=True)
        self.assertGreater(self.count["answered 90 at first"], 0)

    def check_stream(self, number, way):
        units = units_at(number)
        tables = model.Tables(model.Limits())
        answers = [tables.answer(*unit) for unit in units]
        for met in range(0, MOST_CALLS, APART):
            self.library.allocations_refuse(met, 1)
            with self.subTest(stream=number, refused_call=met + 1):
                given = self.answers(units, way)
                self.assertEqual(self.library.allocations_held(), 0)
                expected = answers[: len(given)] if way is by_pieces else answers
                self.assertEqual([both for both in zip(given, expected) if both[0] != both[1]], [])
                self.assertEqual(len(given), len(expected))
            self.count["runs"] += 1
            if not self.library.allocations_refused():
                self.count["calls refused"] += met
                return
        raise AssertionError("a stream asks for memory more often than this test waits for")

    def answers(self, units, way):
        """The answers to the units, where a stream of pieces isn't over before."""
        with self.opened() as handle:
            asks = way(handle, random.Random(SEED))
            given = []
            for unit in units:
                given.append(self.asked(asks, unit))
                if way is by_pieces and given[-1] is None:
                    return given[:-1]
            return given

    def check_transactions(self, number):
        """The streams in the same transactions each time, whichever call for memory is refused."""
        units = units_at(number)
        for met in range(0, MOST_CALLS, APART_IN_TRANSACTIONS):
            self.library.allocations_refuse(met, 1)
            with self.subTest(stream=number, refused_call=met + 1):
                with self.opened() as handle:
                    draw, again = random.Random(SEED), Again(handle, self.asked)
                    statements = prepared.Statements(handle, draw, collections.Counter())
                    ways = [again.ask, lambda *unit: self.asked(statements.ask, unit)]
                    self.assertEqual(transacted.Run(again, transacted.Lists(), draw, ways, feeds=False).differences(units), [])
                self.assertEqual(self.library.allocations_held(), 0)
            if not self.library.allocations_refused():
                return
        raise AssertionError("a stream asks for memory more often than this test waits for")

    def opened(self):
        try:
            return Handle()
        except NoMemory:
            self.count["not opened at first"] += 1
            return Handle()

    def asked(self, asks, unit):
        """The answer to a unit, which is asked for once more where there was no memory; or None where the stream is over."""
        try:
            answer = asks(*unit)
        except NoMemory:
            self.count["found no memory at first"] += 1
            return asks(*unit) if asks.__name__ != "piece" else None
        if answer == NO_MEMORY:
            self.count["answered 90 at first"] += 1
            return asks(*unit)
        return answer

    def test_lines(self):
        self.check(by_lines)

    def test_statements(self):
        self.check(by_statements)

    def test_pieces(self):
        self.check(by_pieces)

    def test_transactions(self):
        with embedded.through(self.library):
            for number in range(STREAMS):
                self.check_transactions(number)
