"""The memory that a session keeps for later, counted from outside: space for its largest answer, and nothing of a block. A text that is
short again keeps no block. A column of a wide row takes no more than one of a narrow row. A dump that is abandoned takes little more
than its limit. A table that shrank keeps few nodes, and one that is empty few slots.
"""

import os
import random
import re
import unittest

from support import compiling, harness, model, preloading, sizes, texts

ROWS = 500
HELD = re.compile(rb"\n\[held (\d+), most (\d+)\]\n")
MARK = b"select * from marks\n"
MARKED = b"rows 0\nmarks.id\n"
FRONT = b"table marks (id int)\ntable t (id int, name text)\n"
TEXT = b"a 'text' of \"many\" bytes, " * 8
RECORDS = [model.record([key, TEXT]) for key in range(ROWS)]
HEADER = model.record([b"id", b"name"])
INSERTS = b"".join(b"insert t (%d, '%s')\n" % (key, TEXT.replace(b"'", b"''")) for key in range(ROWS))
ROOM = compiling.Room()


def tearDownModule():
    ROOM.close()


def load(records):
    block = b"".join([HEADER, *records])
    return b"load t %d\n" % len(block) + block


class Counted(unittest.TestCase):
    """What the tests share: runs whose memory is counted."""

    @classmethod
    def setUpClass(cls):
        cls.counter = preloading.Library("count_held")
        cls.addClassCleanup(cls.counter.close)

    def counted(self):
        return {**os.environ, "LD_PRELOAD": str(self.counter.path)}

    def check_ended(self, ended, answers):
        self.assertEqual((ended.status, ended.err), (0, b""))
        self.assertTrue(HELD.sub(b"", ended.out) == answers, "the stream is answered otherwise")

    def held_over(self, pieces, answers):
        """The bytes that the program holds at each select of an empty table, at which the memory is looked at."""
        ended = harness.run_in_pieces(pieces, env=self.counted())
        self.check_ended(ended, answers)
        return [int(held) for held, _ in re.findall(HELD.pattern + MARKED, ended.out)]


class Kept(Counted):
    """The program, over streams in which such selects stand."""

    def held(self, *pieces):
        return self.held_over(pieces, model.answers_to(b"".join(pieces)))

    def check_answers(self, *lines):
        """What is kept once all of these lines are answered is the room of the largest answer, which doubles as it grows."""
        front = FRONT + INSERTS
        before, *after = self.held(front, MARK, *(piece for line in lines for piece in (line, MARK)))
        largest = max(len(model.answers_to(front + line)) for line in lines) - len(model.answers_to(front))
        self.assertLessEqual(after[-1] - before, 2 * largest)
        return after

    def test_the_room_of_a_large_select_is_kept(self):
        self.check_answers(b"select * from t\n")

    def test_the_room_of_a_large_dump_is_kept(self):
        self.check_answers(b"dump t\n")

    def test_the_room_of_the_largest_answer_alone_is_kept(self):
        lines = [b"select id from t\n", b"dump t\n", b"select * from t\n", b"select * from t where id < 9\n", b"dump t\n"]
        after = self.check_answers(*lines, *lines)
        self.assertEqual(set(after[len(lines) :]), {after[len(lines) - 1]}, after)

    def held_behind_load(self, front, records):
        """The bytes that are held before a load that comes in pieces, and behind it."""
        return self.held(front, MARK, *harness.pieces_of(load(records), 50_000), MARK)

    def test_nothing_of_a_load_that_cannot_be_read_is_kept(self):
        before, after = self.held_behind_load(FRONT, [*RECORDS, b"x,y\n"])
        self.assertEqual(after, before)

    def test_nothing_but_the_rooms_of_rows_is_kept_of_a_refused_load(self):
        """The store keeps its partitions, as it does when rows that came in are deleted."""
        first, others = INSERTS.split(b"\n", 1)
        _, after = self.held_behind_load(FRONT + first + b"\n", [*RECORDS[1:], RECORDS[0]])
        self.assertEqual([after], self.held(FRONT + first + b"\n" + others + b"delete t where id > 0\n", MARK))

    def test_nothing_but_the_rows_is_kept_of_a_load(self):
        _, after = self.held_behind_load(FRONT, RECORDS)
        self.assertEqual([after], self.held(FRONT + INSERTS, MARK))


class Rows(Counted):
    """What rows take, at the ends of partitions of 256 slots, where none is half full."""

    COUNT = 4 * 256
    BOX = 24

    def held(self, *pieces):
        """The bytes that are held behind each of these pieces, beyond those that are held behind the first."""
        pieces = [piece for each in pieces for piece in (each, MARK)]
        first, *others = self.held_over(pieces, model.answers_to(b"".join(pieces)))
        return [held - first for held in others]

    def rows(self, columns, keys):
        """A load of rows of so many integers."""
        block = b"".join(model.record([key] * columns) for key in keys)
        header = model.record([b"c%d" % number for number in range(columns)])
        return b"load t %d\n" % (len(header) + len(block)) + header + block

    def test_each_column_takes_as_much(self):
        """A second load of rows takes nothing but what the rows do, and the tree of their keys."""
        loads = range(self.COUNT), range(self.COUNT, 2 * self.COUNT)
        takes = {}
        for columns in (1, 2, 3, 16):
            table = b"table t (%s)\n" % b", ".join(b"c%d int" % number for number in range(columns))
            tables = b"table marks (id int)\n" + table
            (takes[columns],) = self.held(tables + self.rows(columns, loads[0]), self.rows(columns, loads[1]))
        of_a_column = takes[2] - takes[1]
        self.assertEqual(of_a_column % self.COUNT, 0, takes)
        self.assertEqual([takes[3] - takes[1], takes[16] - takes[1]], [2 * of_a_column, 15 * of_a_column])
        # Beside its cells a row takes 6 bytes in the tree where keys rise, and less than one of what tells its slot.
        self.assertLess(takes[1] - of_a_column, self.COUNT * 7)

    def test_links_are_counted_only_where_a_column_refers_to_the_table(self):
        """A row takes a count of 8 bytes there, whether the column was declared before the row came in or after."""
        tables, refers = b"table marks (id int)\ntable t (c0 int)\n", b"table u (c0 int, c1 ref t)\n"
        first, second = self.rows(1, range(self.COUNT)), self.rows(1, range(self.COUNT, 2 * self.COUNT))
        (alone,), (referred,) = self.held(tables + first, second), self.held(tables + refers + first, second)
        (over_none,), (over_rows,) = self.held(tables, refers), self.held(tables + first, refers)
        for counts in referred - alone, over_rows - over_none:
            self.assertGreaterEqual(counts, self.COUNT * 8)
            self.assertLess(counts, self.COUNT * 9)

    def test_a_text_takes_a_block_only_while_it_is_long(self):
        """Its bytes and a box, where it is longer than a cell has room for, and nothing where it is not."""
        lengths = [*texts.LENGTHS, *reversed(texts.LENGTHS)]
        block = model.record([b"id", b"name"]) + b"".join(b"%d,\n" % key for key in range(self.COUNT))
        # The first update makes the room that the cells of every update have.
        front = FRONT + b"load t %d\n" % len(block) + block + b"update t set name = '' where id = 0\n"
        held = self.held(front, *(b"update t set name = '%s'\n" % texts.of_length(length) for length in lengths))
        for length, taken, taken_again in zip(lengths, held, reversed(held)):
            with self.subTest(length=length):
                self.assertEqual(taken, taken_again)
                self.assertIn(taken, [0] if length <= texts.IN_A_CELL else [0, self.COUNT * (self.BOX + length)])
        self.assertEqual(max(held), self.COUNT * (self.BOX + model.LONGEST_TEXT))


class GivenUp(Counted):
    """The library, under a small limit of blocks."""

    LIMIT = 8_192

    def test_a_dump_that_is_given_up_takes_little_more_than_its_limit(self):
        program = ROOM.compiled("requests", compiling.PROGRAMS / "requests.c")
        stream = FRONT + INSERTS + b"dump t\n" + MARK
        limits = model.Limits(block=self.LIMIT)
        calls = b"".join(b"command %d\n%s" % (len(line), line) for line in stream.splitlines())
        ended = compiling.ran([program, str(limits.rows), str(limits.block)], calls, env=self.counted())
        self.check_ended(ended, model.answers_to(stream, limits))
        *_, (before, _), (dumped, most), (after, _) = [map(int, told) for told in HELD.findall(ended.out)]
        self.assertEqual((dumped, after), (before, before))
        # The block doubles as it grows, and lies there twice while it is copied; and fields between quotes have a buffer of
        # their own. The whole block would take some 200,000 bytes.
        self.assertLessEqual(most - before, 6 * (self.LIMIT + len(RECORDS[0])))


class Shrunk(Counted):
    """A table fills with many rows, in an order at random, and loses them, three times over."""

    ROWS = sizes.size(100_000, 1_000_000)
    LEFT = 1_000
    ROUNDS = 3
    REFERENCE = 4
    FEW_NODES = 64 * 256
    # The slots of four partitions, of a row of one column.
    FEW_SLOTS = 4 * 256 * 64
    # Rows of two columns in so many partitions that once all are gone a store gives each back.
    CLEARING = 9 * 256

    def rounds(self, *columns, indexes=(), clearing=0):
        """The bytes that are held in each round when the rows are there, when few are left, and when none is; and where so many
        rows come and go behind them, at these two as well."""
        load = self.load(columns, random.Random(19860528).sample(range(self.ROWS), self.ROWS))
        lines = [load, b"delete t where id >= %d\n" % self.LEFT, b"delete t\n"]
        counts = [self.ROWS, self.ROWS - self.LEFT, self.LEFT]
        if clearing:
            lines += [self.load(columns, range(clearing)), b"delete t\n"]
            counts += [clearing, clearing]
        table = b"table t (%s int)\n" % b" int, ".join(columns)
        pieces = [b"table marks (id int)\n", table, *indexes]
        for line in lines * self.ROUNDS:
            pieces += [*harness.pieces_of(line, 50_000), MARK]
        answers = b"ok\n" * (2 + len(indexes)) + b"".join(b"ok %d\n" % count + MARKED for count in counts) * self.ROUNDS
        held = self.held_over(pieces, answers)
        return [held[at : at + len(counts)] for at in range(0, len(held), len(counts))]

    def load(self, columns, keys):
        records = [b",".join(columns), *(b",".join([b"%d" % key] * len(columns)) for key in keys)]
        block = b"\n".join(records) + b"\n"
        return b"load t %d\n" % len(block) + block

    def test_the_tree_of_the_key_gives_its_nodes_back(self):
        """A row of a key alone takes its slot and its reference in the tree. Of the slots those are kept that stand in one partition
        with one of the few rows."""
        full, few, _ = self.rounds(b"id")[0]
        self.assertGreater(full - few, (self.ROWS - self.LEFT) * self.REFERENCE)

    def test_an_emptied_table_gives_its_slots_back(self):
        """Measured against a table of one row, which came and went."""
        table = [b"table marks (id int)\n", b"table t (id int)\n"]
        answers = b"ok\nok\nok 1\nok 1\n" + MARKED
        (without,) = self.held_over([*table, b"insert t (1)\n", b"delete t\n", MARK], answers)
        for full, _, none in self.rounds(b"id"):
            self.assertGreater(full - without, self.ROWS * 2 * self.REFERENCE)
            self.assertLess(none - without, self.FEW_SLOTS + self.FEW_NODES)

    def test_a_declared_index_gives_back_what_it_grew_to(self):
        """In each round, measured against the same table without it. A hash keeps memory for some thousand nodes, and the
        heads of the buckets that it has not folded yet, as a removal folds one at most."""
        plain = self.rounds(b"id", b"n")[0]
        for kind, kept in ((b"tree", self.FEW_NODES), (b"hash", 16 * self.FEW_NODES)):
            for of_round in self.rounds(b"id", b"n", indexes=[b"index t n %s\n" % kind]):
                with self.subTest(kind):
                    full, few, none = (held - without for held, without in zip(of_round, plain))
                    self.assertGreater(full, self.ROWS * self.REFERENCE)
                    self.assertLess(few, 2 * kept)
                    self.assertLess(none, kept)

    def test_each_round_of_rows_under_trees_holds_what_the_first_held(self):
        """Each begins with a store that keeps no partition, so that rows come into the same ones."""
        first, *others = self.rounds(b"id", b"n", indexes=[b"index t n tree\n"], clearing=self.CLEARING)
        self.assertEqual(others, [first] * len(others))
