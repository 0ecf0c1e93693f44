"""Keys that an attacker chose: in orders that unbalance a tree, and with hashes that share one bucket."""

import random
import unittest

from support import chosen, harness, model, sizes

COUNT = sizes.size(1_000, 100_000)
MEETING = sizes.size(1_000, 20_000)
# The hash of this text is 0, and stays 0 with each byte 0 behind it.
HASHED_TO_0 = b"\x15?\t5?\t\x04\x02\x16\x030\tx\x0c"


def by_turns(some, others):
    """One of each, then the next of each."""
    return [key for pair in zip(some, others) for key in pair]


def by_halves(keys):
    """The key in the middle, then those in the middle of its sides, and so on."""
    steps = [2**power for power in range(len(keys).bit_length(), 0, -1)]
    return [keys[at] for step in steps for at in range(step // 2, len(keys), step)] + keys[:1]


ORDERS = {
    "rising": lambda keys: keys,
    "falling": lambda keys: keys[::-1],
    "zigzag": lambda keys: by_turns(keys[: len(keys) // 2], keys[: len(keys) // 2 - 1 : -1]),
    "from the middle": lambda keys: by_turns(keys[len(keys) // 2 :], keys[len(keys) // 2 - 1 :: -1]),
    "by halves": by_halves,
    "by sevens": lambda keys: [key for first in range(7) for key in keys[first::7]],
}


def meeting_integers(draw, count):
    """Integers whose hashes are equal in their 12 lowest bits. A last byte can be chosen that makes eight of them 0."""
    keys = set()
    while len(keys) < count:
        front = b"\0" + draw.randbytes(7)
        content = front + bytes([chosen.hash_of(front) % 256])
        if chosen.hash_of(content) % 2**12 == 0:
            keys.add(int.from_bytes(content[1:], "big", signed=True))
    return list(keys)


def written(value):
    """A value as it stands in a command."""
    return b"%d" % value if isinstance(value, int) else b"'" + value + b"'"


class Table:
    """A table of pairs, the lines that change and show it, and the answers that these must have."""

    def __init__(self, kind):
        self.pairs = {}
        self.lines, self.answers = [], []
        for line in (b"table t (id %s, n %s)" % (kind, kind), b"index t id hash", b"index t n tree", b"index t n hash"):
            self.add(line, b"ok\n")

    def add(self, line, answer):
        self.lines.append(line + b"\n")
        self.answers.append(answer)

    def insert(self, key, value):
        self.pairs[key] = value
        self.add(b"insert t (%s, %s)" % (written(key), written(value)), b"ok 1\n")

    def delete(self, key):
        del self.pairs[key]
        self.add(b"delete t where id = %s" % written(key), b"ok 1\n")

    def show(self, select, names, rows):
        records = b"".join(map(model.record, rows))
        self.add(select, b"rows %d\n%s\n" % (len(rows), names) + records)

    def show_all(self):
        self.show(b"select * from t", b"t.id,t.n", sorted(self.pairs.items()))
        self.show(b"select distinct n from t", b"t.n", [[value] for value in sorted(self.pairs.values())])

    def find(self, value):
        """Shows the pairs of a value and of a key, and those from a key to the value, each by the index that there is."""
        pairs = sorted(self.pairs.items())
        self.show(b"select * from t where n = %s" % written(value), b"t.id,t.n", [pair for pair in pairs if pair[1] == value])
        self.show(b"select n from t where id = %s" % written(value), b"t.n", [[n] for key, n in pairs if key == value])
        self.show(b"select id from t where n < %s" % written(value), b"t.id", [[key] for key, n in pairs if n < value])


class ChosenKeys(unittest.TestCase):
    """The answers are as with any keys, and come in time."""

    def check(self, kind, keys):
        """Pairs come in the order of these keys, every second goes in that order, and comes again."""
        table, values, sought = Table(kind), dict(zip(keys, keys[1:] + keys[:1])), random.Random(0).sample(keys, 20)
        changes = ((keys, table.insert), (keys[::2], lambda key, _: table.delete(key)), (keys[::2], table.insert))
        for some, change in changes:
            for key in some:
                change(key, values[key])
            table.show_all()
            for value in sought:
                table.find(value)
        for policy in ("auto", "hash", "tree"):
            ended = harness.run_whole(b"".join(table.lines), ["--policy", policy])
            self.assertEqual((ended.status, ended.err), (0, b""))
            self.assertTrue(ended.out == b"".join(table.answers), f"an answer differs under {policy}")

    def test_orders_of_integers(self):
        for name, order in ORDERS.items():
            with self.subTest(order=name):
                self.check(b"int", order(list(range(-COUNT // 2, COUNT // 2))))

    def test_orders_of_texts(self):
        for name, order in ORDERS.items():
            with self.subTest(order=name):
                self.check(b"text", order([b"%08d" % number for number in range(COUNT)]))

    def test_integers_that_meet(self):
        self.check(b"int", meeting_integers(random.Random(MEETING), MEETING))

    def test_texts_of_one_hash(self):
        keys = [HASHED_TO_0 + bytes(count) for count in range(model.LONGEST_TEXT - len(HASHED_TO_0) + 1)]
        self.assertEqual({chosen.hash_of(b"\1" + key) for key in keys}, {0})
        self.check(b"text", keys)
