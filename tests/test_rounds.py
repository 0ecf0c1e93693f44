"""Rounds of changes, each from no rows to no rows: every round has the answers of the first, and holds no more memory in the end."""

import random
import unittest

from support import model, sizes, texts
from support.holding import FRONT, MARK, Counter

SEED = 19800101
ROUNDS = sizes.size(6, 60)
ROWS = sizes.size(150, 2_000)
TABLES = b"""table dept (id int, name text)
table emp (id text, n int, dept ref dept null)
"""
INDEXES = b"""index dept name hash
index emp n tree
index emp n hash
index emp dept tree
index emp dept hash
"""
# Rows of four cells in many partitions of a store, of which each keeps one row of so many at most.
PARTITIONS = 64
SLOTS = 256
WIDE = 4 * 16
SPARSE = 300
# What a store and its indexes may keep beside what their rows need.
MOST_SPARE = 3 * 65_536
# What a list of blocks may have more than another one of as many.
LIST_STEP = 1_024
# The bytes of a row's node in a declared hash, and what a row that is alone in its partition may hold beside cells and nodes.
NODE = 12
BESIDE = 1_000
DROPS = b"drop table emp\ndrop table dept\n"


def text(draw):
    return draw.choice([b"a", b"b", b"c" * draw.randrange(100), texts.of_length(draw.choice(texts.LENGTHS))])


def changes(draw):
    """Rows come, change, go by halves, come again, and go."""
    depts, emps = draw.sample(range(-ROWS, ROWS), ROWS // 3), draw.sample(range(10**6), ROWS)
    lines = [b"insert dept (%d, '%s')" % (key, text(draw)) for key in depts]
    inserts = [b"insert emp ('%06d', %d, %d)" % (key, draw.randrange(9), draw.choice(depts)) for key in emps]
    lines += inserts
    lines += [b"update emp set n = %d where n = %d" % (number, (number + 3) % 9) for number in range(9)]
    lines += [b"update dept set name = '%s' where id = %d" % (text(draw), key) for key in draw.sample(depts, len(depts) // 2)]
    lines += [b"update dept set name = '%s' where id > %d" % (texts.of_length(length), ROWS // 2) for length in texts.LENGTHS]
    lines += [b"update emp set dept = null where dept < 0", b"delete dept where id < 0", b"delete dept", b"delete emp where n > 4"]
    lines += [b"insert dept (%d, '')" % key for key in depts] + inserts
    lines += [b"select * from emp", b"select emp.id, name from emp join dept on emp.dept = dept.id where n < 4"]
    lines += [b"select distinct n, name from emp join dept on emp.dept = dept.id"]
    lines += [b"delete emp where id = '%06d'" % key for key in draw.sample(emps, ROWS // 2)]
    return b"".join(line + b"\n" for line in [*lines, b"delete emp", b"delete dept"])


def loads(draw):
    """Loads, of which some are refused, and dumps."""
    depts, emps = draw.sample(range(-ROWS, ROWS), ROWS // 3), draw.sample(range(10**6), ROWS)
    names = model.record([b"id", b"name"]), model.record([b"id", b"n", b"dept"])
    some = [model.record([key, text(draw)]) for key in depts]
    others = [model.record([b"%06d" % key, draw.randrange(9), draw.choice([None, *depts])]) for key in emps]
    blocks = [
        (b"dept", [names[0], *some, model.record([b"x", b"y"])]),
        (b"dept", [names[0], *some, some[0]]),
        (b"dept", [names[1], *some]),
        (b"dept", [names[0], *some]),
        (b"emp", [names[1], *others, model.record([b"z", 1, 2 * ROWS])]),
        (b"emp", [names[1], *others]),
        (b"emp", [names[1], *others]),
        (b"nosuch", some),
    ]
    stream = b""
    for table, records in blocks:
        block = b"".join(records)
        stream += b"load %s %d\n" % (table, len(block)) + block
    return stream + b"dump dept\ndump emp\ndump nosuch\nselect id from emp where n = 3\ndelete emp\ndelete dept\n"


class Rounds(unittest.TestCase):
    """The lines of a round stand between selects of an empty table, at which the memory is looked at."""

    @classmethod
    def setUpClass(cls):
        cls.counter = Counter()
        cls.addClassCleanup(cls.counter.close)

    def run_counted(self, pieces):
        """Runs the program, and gives its answers, and the bytes that it held at each of these selects."""
        ended, out, held = self.counter.run(pieces)
        self.assertEqual((ended.status, ended.err), (0, b""))
        self.assertEqual(len(held), pieces.count(MARK))
        return out, held

    def check(self, front, lines):
        out, held = self.run_counted([front, *[lines, MARK] * ROUNDS])
        answers = model.answers_to(front)
        of_a_round = model.answers_to(front + lines + MARK)[len(answers) :]
        self.assertTrue(out == answers + of_a_round * ROUNDS, "a round is answered otherwise")
        # A list that was shrunk once grows in other steps than a new one. So the first round may hold a little less than the others.
        self.assertEqual(set(held[1:]), {held[1]}, held)
        self.assertLess(abs(held[1] - held[0]), LIST_STEP, held)

    def test_rounds_of_rows(self):
        self.check(FRONT + TABLES, changes(random.Random(SEED)))

    def test_rounds_of_rows_under_indexes(self):
        self.check(FRONT + TABLES + INDEXES, changes(random.Random(SEED)))

    def test_rounds_of_tables(self):
        self.check(FRONT, TABLES + INDEXES + changes(random.Random(SEED)) + DROPS)

    def test_rounds_of_indexes(self):
        lines = INDEXES.splitlines(keepends=True)
        dropped = b"".join(b"drop " + line for line in reversed(lines))
        rows = changes(random.Random(SEED)).partition(b"delete emp\n")[0]
        self.check(FRONT + TABLES, rows + (INDEXES + dropped) * 3 + b"delete emp\ndelete dept\n")

    def test_rounds_of_loads(self):
        self.check(FRONT + TABLES + INDEXES, loads(random.Random(SEED)))

    def test_updates_that_move_all_rows_and_back(self):
        """All rows go to one value under a declared tree and a hash, and to their own values again."""
        lines = [b"insert emp ('%06d', %d, null)" % (key, key) for key in range(ROWS)]
        back = [b"update emp set n = %d where id = '%06d'" % (key, key) for key in range(ROWS)]
        lines += [b"update emp set n = 1", *back, b"update emp set n = 1 where n > 5", *back, b"delete emp"]
        self.check(FRONT + TABLES + INDEXES, b"".join(line + b"\n" for line in lines))

    def test_few_rows_of_many_hold_little(self):
        """Of rows in many partitions those of the first and the last stay, then each 300th of them, then the last."""
        keys = range(PARTITIONS * SLOTS)
        table = b"table wide (id int, a int, b int, c int)\n"
        rows = b"".join(b"insert wide (%d, 0, 0, 0)\n" % key for key in keys)
        middle = b"delete wide where id > %d and id < %d\n" % (SLOTS - 1, keys[-SLOTS])
        thinned = b"".join(b"delete wide where id = %d\n" % key for key in keys if key % SPARSE)
        rest = b"delete wide where id < %d\n" % keys[-SLOTS]
        for lines, most in ((middle, 2), (thinned + rest, 1)):
            _, held = self.run_counted([FRONT, table, MARK, rows, MARK, lines, MARK])
            empty, full, few = held[-3:]
            self.assertGreater(full - empty, PARTITIONS * SLOTS * WIDE)
            self.assertLess(few - empty, MOST_SPARE + most * 2 * SLOTS * WIDE)

    def test_a_row_alone_in_its_partition_holds_its_slots_and_their_nodes(self):
        """As docs/performance.md tells: the cells of 256 rows, and the nodes of 256 rows for each declared hash."""
        table = b"table wide (id int, a int, b int, c int)\nindex wide a tree\nindex wide b hash\n"
        rows = b"".join(b"insert wide (%d, %d, %d, 0)\n" % (key, -key, key % 1_000) for key in range(PARTITIONS * SLOTS))
        thinned = b"".join(
            b"delete wide where id > %d and id < %d\n" % (first, first + SLOTS) for first in range(0, PARTITIONS * SLOTS, SLOTS)
        )
        _, (empty, few) = self.run_counted([FRONT, table, MARK, rows + thinned, MARK])
        cells = SLOTS * WIDE
        self.assertGreater(few - empty, PARTITIONS * cells)
        self.assertLess(few - empty, PARTITIONS * (cells + SLOTS * NODE + BESIDE))

    def test_tables_that_go_give_all_back(self):
        """What is kept of them is the room of the largest answer, so that is there before the first look."""
        rows = changes(random.Random(SEED)).partition(b"delete emp\n")[0]
        tables = TABLES + INDEXES
        _, held = self.run_counted([FRONT, tables, rows, DROPS, MARK, tables, MARK, rows, MARK, DROPS, MARK])
        self.assertEqual(sorted(held), [held[0], held[3], held[1], held[2]])
        self.assertEqual(held[3], held[0])
