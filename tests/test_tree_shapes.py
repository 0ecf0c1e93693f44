"""The trees of tables after a stream: the height, the number of nodes and of references of each, as the library tells them.

What must hold: the answer of `mmdb_indexes` has the fields that docs/c.md says.
"""

import csv
import random
import unittest

from support import embedded, harness, model, random_streams, streams

LEAST, MOST = 30, 32
STREAMS = 40


def fibonacci(n):
    """0, 1, and then each is the sum of the two before it."""
    a, b = 0, 1
    for _ in range(n):
        a, b = b, a + b
    return a


def tables_after(stream):
    """The tables of plain lists after a stream."""
    tables = model.Tables(model.Limits())
    for unit in model.units_of(stream):
        tables.answer(*unit)
    return tables.by_name.values()


def trees_after(stream, names):
    """The height, the nodes and the references of each tree of these tables after a stream, by table and column."""
    found = {}
    with embedded.Handle() as handle:
        handle.feed(stream)
        for name in names:
            told = handle.indexes(name.encode()).decode().splitlines()
            for index in csv.DictReader(told[1:]):
                if index["kind"] == "tree":
                    found[name, index["column"]] = tuple(int(index[field]) for field in ("height", "nodes", "rows"))
    return found


class TreeShapes(unittest.TestCase):
    """Each tree has each row of its table once, in nodes and levels as few as those of a balanced tree of full nodes are."""

    def check_trees(self, stream):
        stream = streams.whole_units_of(stream)
        wanted = {}
        tables = tables_after(stream)
        for table in tables:
            for place in {0} | {place for place, kind in table.indexes if kind == "tree"}:
                wanted[table.name, table.columns[place].name] = len(table.rows)
        found = trees_after(stream, [table.name for table in tables])
        self.assertEqual({tree: items for tree, (_, _, items) in found.items()}, wanted)
        for height, nodes, items in found.values():
            self.assertLessEqual(LEAST * nodes, 2 * items + LEAST)
            self.assertLessEqual(items, MOST * nodes)
            self.assertLessEqual(fibonacci(height + 2), 1 + items)
            self.assertLess(nodes, 2**height)
        return found

    def test_after_each_row(self):
        for name, stream, _ in harness.rows():
            with self.subTest(row=name):
                self.check_trees(stream)

    def test_after_random_streams(self):
        draw = random.Random(random_streams.SEED)
        for number in range(STREAMS):
            with self.subTest(stream=number):
                self.check_trees(random_streams.stream_and_answers(draw)[0])

    def test_after_rows_that_come_and_go(self):
        keys = random.Random(random_streams.SEED).sample(range(10_000), 3_000)
        puts = b"".join(b"insert t (%d, %d)\n" % (key, key % 7) for key in keys)
        stream = b"table t (id int, n int)\nindex t n tree\n" + puts + b"delete t where n = 3\nupdate t set n = 9 where id < 2000\n"
        [key, declared] = self.check_trees(stream).values()
        self.assertGreater(key[0], 5)
        self.assertGreater(declared[0], 5)

    def test_over_rows_that_are_there(self):
        """A tree that is declared on a full table has the fewest nodes and levels that there can be."""
        keys = random.Random(random_streams.SEED).sample(range(10_000), 3_000)
        puts = b"".join(b"insert t (%d, %d, 's%d')\n" % (key, key % 7, key % 50) for key in keys)
        stream = b"table t (id int, n int, s text)\n" + puts + b"index t n tree\nindex t s tree\n"
        found = self.check_trees(stream)
        nodes = -(-len(keys) // MOST)
        packed = nodes.bit_length(), nodes, len(keys)
        self.assertEqual((found["t", "n"], found["t", "s"]), (packed, packed))
