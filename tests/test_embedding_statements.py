"""The rows and random streams as statements of the library: a line with values bound to its places has the same answer as the line with
these values in it.
"""

import unittest

from support import compiling, drawn, harness, streams
from support.calls import line_by_line

SEED = 20261127
ROOM = compiling.Room()


def tearDownModule():
    ROOM.close()


class Bound(unittest.TestCase):
    """Each row has its answers where its lines on rows are done by statements, to whose places their values are bound."""

    VALUES_STAY = 0

    @classmethod
    def setUpClass(cls):
        words = [*compiling.C, *compiling.SANITIZED, f"-DVALUES_STAY={cls.VALUES_STAY}"]
        cls.program = ROOM.compiled(cls.__name__, compiling.PROGRAMS / "by_statements.c", words)

    def check_row(self, words, stream, answers):
        ended = compiling.ran([self.program, *words], b"".join(line_by_line(stream)))
        self.assertEqual((ended.status, ended.out, ended.err), (0, answers, b""))


class Given(Bound):
    """The same where the values stay in the lines."""

    VALUES_STAY = 1


class Drawn(unittest.TestCase):
    """Random streams, whose statements are told with some of their values in places, have the answers of the model."""

    def test_random_streams(self):
        words = [*compiling.C, *compiling.SANITIZED, "-DVALUES_STAY=0"]
        drawn.check(self, ROOM.compiled("drawn", compiling.PROGRAMS / "by_statements.c", words), SEED)


def row(words, stream, answers):
    return lambda test: test.check_row(words, *streams.whole(stream, answers))


for name, stream, answers in harness.rows():
    setattr(Bound, f"test_{name}", row([], stream, answers))
for name, limits, stream, answers in harness.limited_rows():
    setattr(Bound, f"test_limited_{name}", row([str(limits.rows), str(limits.block)], stream, answers))
