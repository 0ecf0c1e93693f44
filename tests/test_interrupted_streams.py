"""Random streams whose selects are asked to end at random times. One that was ended is done again, and all answers are those of plain lists
of rows, so that nothing has changed. From C lines are done as statements, while a thread and a handler of signals ask. In transactions,
with readers between them, a thread asks for each handle.

In large sizes (`tests/fire interrupted_streams`) MMDB_FIRST, MMDB_STREAMS and MMDB_SEED select those in transactions.
"""

import re
import unittest

import test_many_streams
from support import compiling, drawn, sizes, storms

SEED = 20261130
FIRST = sizes.said("MMDB_FIRST", 0)
STREAMS = sizes.said("MMDB_STREAMS", sizes.size(100, 10_000, 60))
ENDED = re.compile(rb"(\d+) selects were ended\n")
ROOM = compiling.Room()


def tearDownModule():
    ROOM.close()


def tell(what):
    if sizes.is_large:
        print(f"\n{what}", flush=True)


class Statements(unittest.TestCase):
    """By statements, and beside these by queries, counts and first rows."""

    def test_each_answer_is_right(self):
        words = [*compiling.C, *compiling.SANITIZED, "-pthread", "-DVALUES_STAY=0", "-DINTERRUPTED=1"]
        program = ROOM.compiled("interrupted", compiling.PROGRAMS / "by_statements.c", words)
        ended = int(drawn.check(self, program, SEED, ENDED)[1])
        tell(f"{drawn.STREAMS} streams by statements: {ended} selects were ended")
        self.assertGreater(ended, 0)


class Transactions(unittest.TestCase):
    """In transactions, whose ends are drawn, by lines, pieces and statements, and on readers that share the tables."""

    def test_each_answer_is_right(self):
        asked = storms.Storms(ROOM)
        with asked.all_around():
            for number in range(FIRST, FIRST + STREAMS):
                with self.subTest(stream=number):
                    self.assertEqual(test_many_streams.in_transactions(test_many_streams.stream_at(number)), [])
        self.assertEqual(asked.of, {})
        tell(f"streams {FIRST} to {FIRST + STREAMS - 1} in transactions: {asked.ended} selects were ended by {asked.asks} asks")
        self.assertGreater(asked.ended, 0)
