"""Values that an attacker chose so that all have one hash (support/chosen.py). Under a declared hash each search of a value walks over all
of them, while inserts, and changes by another index, walk over none. Under a tree in its place, and in joins by trees, chosen values cost
what others cost. Valgrind counts the instructions.
"""

import math
import random
import shutil
import unittest

from support import chosen, embedded, growth, sizes

SEED = 20261128
# How many rows there are, in large sizes in the bucket of the declared hash, and in tables that are joined or shown distinct.
SEARCHED = sizes.size((250, 1_000), (5_000, 20_000), (100, 400))
JOINED = sizes.size((250, 1_000), (500, 2_000), (100, 400))
# How many values are sought, or changed by themselves.
SOUGHT = 50
# The instructions on chosen values are at most so many times those on others where no chain is walked. Else they are at most so many
# for each row of the chain, and the others grow by at most this power of the rows.
MOST_RATIO = 1.5
MOST_A_ROW = 200
MOST_POWER = 1.3
TABLE = b"table t (id int, s text, n int)\n"
METER = growth.Meter()


def tearDownModule():
    METER.close()


def drawn_texts(count):
    """Texts as long as the chosen ones, which nobody chose."""
    draw, length = random.Random(SEED), len(chosen.texts_of_one_hash(count)[0])
    return [bytes(draw.choices(b"abcdefghijklmnopqrstuvwxyz", k=length)) for _ in range(count)]


def inserts(texts):
    return growth.each(b"insert t (%d, '%s', 0)\n", enumerate(texts))


def work(kind, texts):
    """What is measured under an index of the column s, each as its name and a pair."""
    draw = random.Random(SEED)
    declared = TABLE + b"index t s %s\n" % kind
    filled, keys = declared + inserts(texts), draw.sample(range(len(texts)), SOUGHT)
    sought = [texts[key] for key in draw.sample(range(len(texts)), SOUGHT)]
    others = [(texts[(key + 1) % len(texts)], key) for key in keys]
    return {
        "insert": growth.Pair(declared, inserts(texts)),
        "update by key": growth.Pair(filled, growth.each(b"update t set s = '%s' where id = %d\n", others)),
        "delete by key": growth.Pair(filled, growth.each(b"delete t where id = %d\n", [(key,) for key in keys])),
        "select by value": growth.Pair(filled, growth.each(b"select id from t where s = '%s'\n", [(text,) for text in sought])),
        "update by value": growth.Pair(filled, growth.each(b"update t set n = 1 where s = '%s'\n", [(text,) for text in sought])),
        "delete by value": growth.Pair(filled, growth.each(b"delete t where s = '%s'\n", [(text,) for text in sought])),
    }


BY_VALUE = ("select by value", "update by value", "delete by value")


def joined(texts, kinds):
    """A join of two tables with these texts, under these indexes of both."""
    front = TABLE + growth.each(b"index t s %s\n", kinds) + inserts(texts)
    return growth.Pair(front + front.replace(b" t ", b" u "), b"select t.id, u.id from t join u on t.s = u.s\n")


def shown(integers):
    """A distinct select of these integers."""
    return growth.Pair(TABLE + growth.each(b"insert t (%d, '', %d)\n", enumerate(integers)), b"select distinct n from t\n")


def tell(what, count, chosen_ones, others):
    if sizes.is_large:
        print(f"{what}, {count} rows: {chosen_ones:.0f} instructions with chosen values, {others:.0f} with others", flush=True)


class Values(unittest.TestCase):
    """The values have one hash, and the library puts them into one bucket."""

    def test_texts_of_one_hash(self):
        texts = chosen.texts_of_one_hash(SEARCHED[1])
        self.assertEqual(len(set(texts)), SEARCHED[1])
        self.assertEqual({chosen.hash_of(b"\1" + text) % chosen.KEPT for text in texts}, {0})
        with embedded.Handle() as handle:
            handle.feed(TABLE + b"index t s hash\n" + inserts(texts))
            *_, hashed = handle.indexes(b"t").decode().splitlines()
        self.assertEqual(hashed.split(",")[-1], str(SEARCHED[1]))

    def test_integers_shown_alike(self):
        integers = chosen.integers_shown_alike(JOINED[1])
        self.assertEqual(len(set(integers)), JOINED[1])
        self.assertEqual({chosen.shown_hash(integer) for integer in integers}, {0})


@unittest.skipUnless(sizes.is_large or shutil.which("valgrind"), "valgrind is not installed")
class Instructions(unittest.TestCase):
    def counted(self, kind):
        """The instructions of a command, by what is done and at how many rows: on chosen values, and on others."""
        works = [(count, work(kind, texts(count))) for count in SEARCHED for texts in (chosen.texts_of_one_hash, drawn_texts)]
        taken = iter(METER.instructions([pair for _, pairs in works for pair in pairs.values()]))
        of_one = [{what: next(taken) / (count if what == "insert" else SOUGHT) for what in pairs} for count, pairs in works]
        both = zip(SEARCHED, of_one[::2], of_one[1::2])
        return {(what, count): (on_chosen[what], on_others[what]) for count, on_chosen, on_others in both for what in on_chosen}

    def check_as_others(self, kind, found):
        for (what, count), (chosen_ones, others) in found.items():
            tell(f"{what} under a {kind}", count, chosen_ones, others)
            with self.subTest(what=what, kind=kind, rows=count):
                self.assertLessEqual(chosen_ones, MOST_RATIO * others)

    def test_under_a_hash(self):
        found = self.counted(b"hash")
        searches = {key: found.pop(key) for key in list(found) if key[0] in BY_VALUE}
        self.check_as_others("hash", found)
        for (what, count), (chosen_ones, others) in searches.items():
            tell(f"{what} under a hash", count, chosen_ones, others)
            with self.subTest(what=what, rows=count):
                self.assertLessEqual(chosen_ones, others + MOST_A_ROW * count)

    def test_under_a_tree_in_its_place(self):
        found = self.counted(b"tree")
        self.check_as_others("tree", found)
        for what in dict.fromkeys(what for what, _ in found):
            few, many = (found[what, count][0] for count in SEARCHED)
            with self.subTest(what=what):
                self.assertLessEqual(math.log(many / few, SEARCHED[1] / SEARCHED[0]), MOST_POWER - 1)

    def test_joins(self):
        count = JOINED[1]
        pairs = [joined(texts, kinds) for kinds in ([(b"tree",)], []) for texts in (chosen.texts_of_one_hash(count), drawn_texts(count))]
        by_trees, others_by_trees, by_hash, others_by_hash = (taken / count for taken in METER.instructions(pairs))
        tell("a row of a join by trees", count, by_trees, others_by_trees)
        tell("a row of a join by a hash", count, by_hash, others_by_hash)
        self.assertLessEqual(by_trees, MOST_RATIO * others_by_trees)
        self.assertLessEqual(by_hash, others_by_hash + MOST_A_ROW * count)

    def test_distinct_selects(self):
        count = JOINED[1]
        draw = random.Random(SEED)
        others = [draw.randrange(-(2**63), 2**63) for _ in range(count)]
        pairs = [shown(integers) for integers in (chosen.integers_shown_alike(count), others)]
        alike, differing = (taken / count for taken in METER.instructions(pairs))
        tell("a row of a distinct select", count, alike, differing)
        self.assertLessEqual(alike, differing + MOST_A_ROW * count)
