"""Commands on four times the rows cost about four times as much, whatever values the indexes hold. Valgrind counts the instructions of the
patterns of support/growth.py. In large sizes (`tests/fire growth`) it does so on more rows, and their processor time is measured too. There
some patterns have absolute limits, expiry is compared with SQLite's, and the memory of a row has a limit. MMDB_ROWS sets the rows of the
smaller tables.
"""

import itertools
import math
import random
import shutil
import sqlite3
import time
import unittest

from support import growth, holding, sizes

FEW = sizes.said("MMDB_ROWS", sizes.size(1_000, 100_000, 250))
MANY = 4 * FEW
# The sizes of larger tables, of which the smallest no longer fits the caches of most machines.
BEYOND = 4 * MANY, 16 * MANY
# Tables whose instructions are counted: in large sizes they have fewer rows than those that are timed.
COUNTED = (FEW // 10, MANY // 10) if sizes.is_large else (FEW, MANY)
# The instructions of a pattern, and its time, grow by this power of its rows at most, and it takes at most so many times what it takes on
# differing values. A time also grows where the smaller table fits a cache and the larger one doesn't: then it is taken again of tables that
# both are larger, and at most once more.
MOST_POWER = 1.3
MOST_RATIO = 1.5
# A time is the least of some rounds, and a shorter one than this is taken for it.
ROUNDS = 3
ROUNDS_OF_FEW = 9
LEAST = 0.001
# All rows of one value go in so many seconds at most, single ones among equals in at most so many times what they take among
# differing ones, and a row in three indexes holds at most so many bytes.
MOST_SECONDS = 1
MOST_AMONG_EQUALS = 1.3
MOST_BYTES = 100
METER = growth.Meter()


def tearDownModule():
    METER.close()


def pairs(asked):
    """The pairs of patterns at numbers of rows."""
    return [pattern.pair(rows) for pattern, rows in asked]


def tell(what):
    print(what, flush=True)


class Growing:
    """Patterns, of which `taken` has what each takes at two numbers of rows."""

    def powers(self, rows, least):
        """By which power of its rows each pattern grows; what is less than the least counts as that."""
        few, many = rows
        for pattern in self.patterns:
            grown = max(self.taken[pattern, many], least) / max(self.taken[pattern, few], least)
            yield pattern, math.log(grown, many / few)

    def check_ratios(self, rows, least=0):
        for pattern in filter(growth.Pattern.is_hashed, self.patterns):
            for count in rows:
                with self.subTest(pattern=str(pattern), rows=count):
                    differing = max(self.taken[pattern.partner(), count], least)
                    self.assertLessEqual(self.taken[pattern, count], MOST_RATIO * differing)


@unittest.skipUnless(sizes.is_large or shutil.which("valgrind"), "valgrind is not installed")
class Instructions(Growing, unittest.TestCase):
    @classmethod
    def setUpClass(cls):
        cls.patterns = growth.patterns()
        asked = [(pattern, rows) for pattern in cls.patterns for rows in COUNTED]
        cls.taken = dict(zip(asked, METER.instructions(pairs(asked))))

    def test_no_pattern_grows_by_the_square(self):
        pattern, power = max(self.powers(COUNTED, 0), key=lambda found: found[1])
        tell(f"{pattern}: by the power {power:.2f} of its rows, which is the greatest, from {COUNTED[0]} to {COUNTED[1]}")
        for pattern, power in self.powers(COUNTED, 0):
            with self.subTest(pattern=str(pattern)):
                self.assertLessEqual(power, MOST_POWER)

    def test_equal_values_take_as_long_as_differing_ones(self):
        self.check_ratios(COUNTED)


@unittest.skipUnless(sizes.is_large, "times are measured in large sizes only")
class PatternTimes(Growing, unittest.TestCase):
    @classmethod
    def setUpClass(cls):
        cls.patterns = growth.patterns()
        asked = [(pattern, rows) for pattern in cls.patterns for rows in (FEW, MANY)]
        cls.taken = cls.timed(asked)

    @classmethod
    def timed(cls, asked):
        """The seconds of each pattern at each number of rows. Those that are compared with the same take their turns."""
        taken = {}
        for partner in dict.fromkeys(pattern.partner() for pattern in cls.patterns):
            group = [(pattern, rows) for pattern, rows in asked if pattern.partner() == partner]
            taken.update(zip(group, METER.seconds(pairs(group), ROUNDS)))
            for pattern, rows in group:
                tell(f"{pattern}: {taken[pattern, rows]:.4f} s at {rows} rows")
        return taken

    def power_between(self, pattern, *rows):
        """By which power a pattern grows between these two numbers of rows, by times that are taken for this."""
        few, many = (max(seconds, LEAST) for seconds in METER.seconds(pairs([(pattern, count) for count in rows]), ROUNDS))
        power = math.log(many / few, rows[1] / rows[0])
        tell(f"{pattern}: from {rows[0]} to {rows[1]} rows by the power {power:.2f}")
        return power

    def counted_power(self, pattern):
        """By which power the instructions of a pattern grow between the tables that were timed."""
        few, many = METER.instructions(pairs([(pattern, FEW), (pattern, MANY)]))
        power = math.log(many / few, MANY / FEW)
        tell(f"{pattern}: by instructions, from {FEW} to {MANY} rows by the power {power:.2f}")
        return power

    def least_power(self, pattern, power):
        """The power by which a pattern grows, or where that is too much, the one by which it grows between larger tables, if all of it can
        be measured there."""
        tell(f"{pattern}: from {FEW} to {MANY} rows by the power {power:.2f}")
        for rows in itertools.pairwise((MANY, *BEYOND)):
            if power > MOST_POWER and pattern.is_whole(rows[1]):
                power = self.power_between(pattern, *rows)
        return power

    def test_no_time_grows_by_the_square(self):
        for pattern, power in self.powers((FEW, MANY), LEAST):
            with self.subTest(pattern=str(pattern)):
                if power > MOST_POWER:
                    self.assertLessEqual(self.counted_power(pattern), MOST_POWER)
                self.assertLessEqual(self.least_power(pattern, power), MOST_POWER)

    def test_equal_values_take_as_long_as_differing_ones(self):
        self.check_ratios((FEW, MANY), LEAST)


@unittest.skipUnless(sizes.is_large, "times are measured in large sizes only")
class Times(unittest.TestCase):
    def test_all_rows_of_one_value_go(self):
        (taken,) = METER.seconds(pairs([(growth.Pattern("delete all", "hash", "one", "rising"), MANY)]))
        tell(f"{MANY} rows of one value go in {taken:.3f} s")
        self.assertLessEqual(taken, MOST_SECONDS)

    def test_rows_go_among_equals(self):
        of_one = growth.Pattern("delete of few", "hash", "one", "random")
        equal, differing = METER.seconds(pairs([(of_one, FEW), (of_one.partner(), FEW)]), ROUNDS_OF_FEW)
        tell(f"{FEW // growth.EQUAL} of {FEW} rows go by their keys in {equal:.6f} s among equals, else in {differing:.6f} s")
        self.assertLessEqual(equal, MOST_AMONG_EQUALS * differing)


@unittest.skipUnless(sizes.is_large, "times are measured in large sizes only")
class Sessions(unittest.TestCase):
    """Sessions of which half are anonymous, under a hash of the user and a tree of the time: a tenth expires."""

    @classmethod
    def setUpClass(cls):
        count = 2 * FEW
        ends = random.Random(growth.SEED).sample(range(count), count)
        cls.rows = [(key, f"user {key}" if key % 2 else "", end) for key, end in enumerate(ends)]
        cls.end = count // 10

    def mmdb(self):
        block = b"id,user,until\n" + b"".join(b"%d,%s,%d\n" % (key, user.encode(), end) for key, user, end in self.rows)
        before = b"table session (id int, user text, until int)\nindex session user hash\nindex session until tree\n"
        before += b"load session %d\n" % len(block) + block
        (taken,) = METER.seconds([growth.Pair(before, b"delete session where until < %d\n" % self.end)])
        return taken

    def sqlite(self):
        with sqlite3.connect(":memory:") as database:
            database.execute("create table session (id integer primary key, user text, until int)")
            database.execute("create index user on session (user)")
            database.execute("create index until on session (until)")
            database.executemany("insert into session values (?, ?, ?)", self.rows)
        began = time.process_time()
        self.assertEqual(database.execute("delete from session where until < ?", [self.end]).rowcount, self.end)
        database.commit()
        return time.process_time() - began

    def test_expiry(self):
        ours, theirs = (min(expire() for _ in range(ROUNDS)) for expire in (self.mmdb, self.sqlite))
        tell(f"{self.end} of {len(self.rows)} sessions expire in {ours:.4f} s, in SQLite in {theirs:.4f} s")
        self.assertLessEqual(ours, theirs)


@unittest.skipUnless(sizes.is_large, "in large sizes only")
class Memory(unittest.TestCase):
    """A row of four columns has entries in the tree of its key, in a declared tree and in a hash."""

    TABLE = b"table t (id int, n int, h int, s text)\nindex t n tree\nindex t h hash\n"

    @classmethod
    def setUpClass(cls):
        cls.counter = holding.Counter()
        cls.addClassCleanup(cls.counter.close)

    def check(self, count, hashed):
        keys = random.Random(growth.SEED).sample(range(count), count)
        rows = [(key, 7 * key % count, hashed(key), key % 100) for key in keys]
        inserts = growth.each(b"insert t (%d, %d, %d, 'text %d')\n", rows)
        ended, out, held = self.counter.run([holding.FRONT + self.TABLE, holding.MARK, inserts, holding.MARK])
        self.assertEqual((ended.status, out.count(b"ok 1\n")), (0, count))
        row = (held[1] - held[0]) / count
        tell(f"a row in three indexes takes {row:.1f} bytes at {count} rows")
        self.assertLessEqual(row, MOST_BYTES)

    def test_rows_of_differing_values(self):
        for count in (FEW, 10 * FEW):
            with self.subTest(count=count):
                self.check(count, lambda key: key)

    def test_rows_of_one_value(self):
        for count in (FEW, 10 * FEW):
            with self.subTest(count=count):
                self.check(count, lambda key: 0)
