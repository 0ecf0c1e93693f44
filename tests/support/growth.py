"""Patterns of use, each some commands on a table of a number of rows, and what they cost: instructions, which valgrind counts, or the
time of a processor.

What must hold: programs/growth.c reads what a pair writes. A new way to change or read many rows is a line of PATTERNS.
"""

import concurrent.futures
import itertools
import os
import random
import re
import subprocess
import tempfile
from dataclasses import dataclass, replace

from . import compiling, harness

SEED = 19860828
# How many rows have one value where hundreds do, in how many ranges rows are gone through, and how many rows a table of few has.
EQUAL = 100
RANGES = 20
FEW = 10
# How many rows of three numbers a block takes, which has 16 MiB at most.
ROWS_A_BLOCK = 500_000
# How many pairs are counted in one process.
SHARE = 12
# Large pages for the tables, as ./run asks for them.
LARGE_PAGES = {**os.environ, "GLIBC_TUNABLES": "glibc.malloc.hugetlb=1"}
# What is measured, the indexes of the column a, the values in it, the order in which commands go over the keys, and the policy.
PATTERNS = """
insert                          none  differing    rising
insert                          none  differing    falling
insert                          none  differing    random
insert                          tree  one          random
insert                          hash  differing    random
insert                          hash  by hundreds  random
insert                          hash  half one     random
insert                          hash  zipf         random
insert                          hash  one          random
insert                          both  one          rising
load                            none  differing    random
load                            tree  one          falling
load                            hash  differing    random
load                            hash  half one     random
load                            hash  one          random
load                            both  zipf         random
load taken back                 tree  one          random
load taken back                 hash  differing    random
load taken back                 hash  by hundreds  random
load taken back                 hash  half one     random
load taken back                 hash  one          random
update all                      tree  differing    rising
update all                      hash  differing    rising
update all                      hash  half one     rising
update all                      hash  one          rising
update all                      both  zipf         rising
update by key                   tree  one          random
update by key                   hash  differing    random
update by key                   hash  by hundreds  random
update by key                   hash  half one     random
update by key                   hash  zipf         random
update by key                   hash  one          rising
update by key                   hash  one          random
update by value                 hash  by hundreds  random
update of another column        hash  one          random
delete all                      none  differing    rising
delete all                      tree  one          rising
delete all                      hash  differing    rising
delete all                      hash  by hundreds  rising
delete all                      hash  half one     rising
delete all                      hash  zipf         rising
delete all                      hash  one          rising
delete all                      both  one          rising
delete by key                   tree  one          random
delete by key                   hash  differing    random
delete by key                   hash  half one     random
delete by key                   hash  one          rising
delete by key                   hash  one          falling
delete by key                   both  zipf         random
delete of few                   hash  one          random
delete by value                 tree  by hundreds  random
delete by value                 hash  differing    random
delete by value                 hash  by hundreds  random
delete by value                 hash  one          random
delete by a scan                hash  one          rising
delete of links                 hash  half one     rising
delete of the unlinked          tree  one          random
expire                          tree  half one     rising
expire                          hash  differing    rising
expire                          hash  half one     rising
expire                          hash  one          rising
delete and insert               hash  zipf         random
select by key                   none  differing    random
select by value                 tree  zipf         random
select by value                 hash  differing    random
select by value                 hash  by hundreds  random
select by value                 hash  one          random
select by ranges                tree  zipf         rising
select by a scan                none  differing    rising
select of all                   none  differing    rising
select distinct                 none  zipf         rising
join                            none  one          rising   auto
join that finds few             hash  half one     rising   hash
join that finds few             hash  one          rising   hash
join                            tree  by hundreds  rising   tree
join                            tree  half one     rising   merge
join with few                   none  differing    rising   scan
join of links                   none  half one     rising   auto
index made                      tree  one          rising
index made                      hash  half one     rising
index made                      hash  one          rising
index dropped                   both  one          rising
drop table                      hash  one          rising
dump                            none  differing    rising
tables                          both  one          rising
"""


def zipf(draw, count):
    """Numbers of which the second comes half as often as the first, the third a third as often, and so on."""
    return draw.choices(range(count), cum_weights=list(itertools.accumulate(1 / (at + 1) for at in range(count))), k=count)


VALUES = {
    "differing": lambda draw, count: draw.sample(range(count), count),
    "by hundreds": lambda draw, count: draw.sample([at // EQUAL for at in range(count)], count),
    "half one": lambda draw, count: draw.sample([at % 2 * at for at in range(count)], count),
    "zipf": zipf,
    "one": lambda draw, count: [0] * count,
}
ORDERS = {
    "rising": lambda draw, rows: rows,
    "falling": lambda draw, rows: rows[::-1],
    "random": lambda draw, rows: draw.sample(rows, len(rows)),
}
KINDS = {"none": [], "tree": [b"tree"], "hash": [b"hash"], "both": [b"tree", b"hash"]}


def each(line, values):
    return b"".join(line % value for value in values)


def load(table, names, rows):
    """A load of rows of numbers, in as few blocks as their limit allows."""
    record = b",".join([b"%d"] * len(rows[0])) + b"\n"
    blocks = (names + b"\n" + each(record, rows[at : at + ROWS_A_BLOCK]) for at in range(0, len(rows), ROWS_A_BLOCK))
    return b"".join(b"load %s %d\n" % (table, len(block)) + block for block in blocks)


class Table:
    """A table t of a key, a value in a, and in b another number, which no two rows share. The keys rise as the rows are put in
    before what is measured."""

    DECLARED = b"table t (id int, a int, b int)\n"

    def __init__(self, pattern, count):
        draw = random.Random(f"{SEED} {pattern.values} {count}")
        self.count = count
        self.kinds = KINDS[pattern.index]
        self.rows = list(zip(range(count), VALUES[pattern.values](draw, count), draw.sample(range(count), count)))
        self.in_order = ORDERS[pattern.order](draw, self.rows)
        self.keys = [key for key, _, _ in self.in_order]
        self.values = list(dict.fromkeys(value for _, value, _ in self.in_order))
        self.bounds = [count * at // RANGES for at in range(RANGES + 1)]

    def indexes(self):
        return each(b"index t a %s\n", self.kinds)

    def empty(self):
        return self.DECLARED + self.indexes()

    def load(self, rows):
        return load(b"t", b"id,a,b", rows)

    def filled(self):
        return self.empty() + self.load(self.rows)

    def unindexed(self):
        return self.DECLARED + self.load(self.rows)


class Links(Table):
    """One whose values are links to the rows of a table u, which has each number for a key."""

    DECLARED = b"table u (id int)\ntable t (id int, a ref u, b int)\n"

    def load(self, rows):
        return load(b"u", b"id", [(key,) for key in range(self.count)]) + super().load(rows)

    def unlinked(self):
        linked = set(self.values)
        return [key for key in self.keys if key not in linked]


class Joined(Table):
    """One that is joined with a table u, which has each number in its column a, under the same indexes."""

    def filled(self):
        others = load(b"u", b"id,a", [(key, number) for key, _, number in self.rows])
        return super().filled() + b"table u (id int, a int)\n" + each(b"index u a %s\n", self.kinds) + others


@dataclass(frozen=True)
class Work:
    """What comes before, what is measured, of which table, and how many refusals answer it."""

    before: callable
    measured: callable
    table: type = Table
    refusals: int = 0


INSERT = b"insert t (%d, %d, %d)\n"
WORK = {
    "insert": Work(Table.empty, lambda t: each(INSERT, t.in_order)),
    "load": Work(Table.empty, lambda t: t.load(t.in_order)),
    "load taken back": Work(
        lambda t: t.empty() + INSERT % (t.count, 0, 0), lambda t: t.load([*t.in_order, (t.count, 0, 0)]), refusals=1
    ),
    "update all": Work(Table.filled, lambda t: b"update t set a = -1\n"),
    "update by key": Work(
        Table.filled,
        lambda t: each(b"update t set a = %d where id = %d\n", [(t.count + value, key) for key, value, _ in t.in_order]),
    ),
    "update by value": Work(Table.filled, lambda t: each(b"update t set b = 0 where a = %d\n", t.values)),
    "update of another column": Work(Table.filled, lambda t: each(b"update t set b = 0 where id = %d\n", t.keys)),
    "delete all": Work(Table.filled, lambda t: b"delete t\n"),
    "delete by key": Work(Table.filled, lambda t: each(b"delete t where id = %d\n", t.keys)),
    "delete of few": Work(Table.filled, lambda t: each(b"delete t where id = %d\n", t.keys[: t.count // EQUAL])),
    "delete by value": Work(Table.filled, lambda t: each(b"delete t where a = %d\n", t.values)),
    "delete by a scan": Work(Table.filled, lambda t: b"delete t where b < %d\n" % (t.count // 2)),
    "delete of links": Work(Links.filled, lambda t: b"delete t\n", Links),
    "delete of the unlinked": Work(Links.filled, lambda t: each(b"delete u where id = %d\n", t.unlinked()), Links),
    "expire": Work(lambda t: t.filled() + b"index t b tree\n", lambda t: each(b"delete t where b < %d\n", t.bounds[1:])),
    "delete and insert": Work(
        Table.filled, lambda t: each(b"delete t where id = %d\n" + INSERT, [(row[0], *row) for row in t.in_order])
    ),
    "select by key": Work(Table.filled, lambda t: each(b"select * from t where id = %d\n", t.keys)),
    "select by value": Work(Table.filled, lambda t: each(b"select id from t where a = %d\n", t.values)),
    "select by ranges": Work(
        Table.filled, lambda t: each(b"select id from t where a >= %d and a < %d\n", zip(t.bounds, t.bounds[1:]))
    ),
    "select by a scan": Work(Table.filled, lambda t: b"select id from t where b < %d\n" % FEW),
    "select of all": Work(Table.filled, lambda t: b"select * from t\n"),
    "select distinct": Work(Table.filled, lambda t: b"select distinct a from t\n"),
    "join": Work(Joined.filled, lambda t: b"select t.id, u.id from u join t on u.a = t.a\n", Joined),
    "join that finds few": Work(
        Joined.filled, lambda t: b"select t.id, u.id from u join t on u.a = t.a where t.b < %d\n" % FEW, Joined
    ),
    "join with few": Work(
        lambda t: t.filled() + b"table few (id int)\n" + load(b"few", b"id", [(key,) for key in range(FEW)]),
        lambda t: b"select t.id, few.id from t join few on t.a = few.id\n",
    ),
    "join of links": Work(Links.filled, lambda t: b"select t.id, u.id from t join u on t.a = u.id\n", Links),
    "index made": Work(Table.unindexed, Table.indexes),
    "index dropped": Work(Table.filled, lambda t: each(b"drop index t a %s\n", t.kinds)),
    "drop table": Work(Table.filled, lambda t: b"drop table t\n"),
    "dump": Work(Table.filled, lambda t: b"dump t\n"),
    "tables": Work(Table.filled, lambda t: b"tables\n" * t.count),
}


@dataclass(frozen=True)
class Pair:
    """What comes before, what is measured and by how many refusals that is answered; and the policy."""

    before: bytes
    measured: bytes
    refusals: int = 0
    policy: str = "auto"

    def written(self):
        """The pair as tests/support/programs/growth.c reads it."""
        numbers = harness.POLICIES.index(self.policy), len(self.before), len(self.measured)
        return b"%d %d %d\n" % numbers + self.before + self.measured


@dataclass(frozen=True)
class Pattern:
    """A line of PATTERNS."""

    what: str
    index: str
    values: str
    order: str
    policy: str = "auto"

    def __str__(self):
        return ", ".join([self.what, self.index, self.values, self.order, self.policy])

    def is_hashed(self):
        return b"hash" in KINDS[self.index]

    def partner(self):
        """The same on differing values."""
        return replace(self, values="differing")

    def is_whole(self, count):
        """Whether all of it is measured at so many rows. Of a load that is taken back only the last block is, which takes one row more."""
        return not WORK[self.what].refusals or count < ROWS_A_BLOCK

    def pair(self, count):
        """The pair at so many rows."""
        work = WORK[self.what]
        table = work.table(self, count)
        return Pair(work.before(table), work.measured(table), work.refusals, self.policy)


def patterns():
    """All patterns, and those on differing values that the ones of a hash are compared with, each once."""
    listed = [Pattern(*re.split("  +", line)) for line in PATTERNS.strip().splitlines()]
    return [*dict.fromkeys([*listed, *(pattern.partner() for pattern in listed if pattern.is_hashed())])]


def total(dump):
    """All that callgrind has counted in a dump."""
    with open(dump, encoding="utf-8", errors="replace") as told:
        return next(int(line.split()[1]) for line in told if line.startswith("totals: "))


class Meter:
    """The program that answers pairs, and what their second pieces take."""

    def __init__(self):
        self.room = compiling.Room()
        self.program = self.room.compiled("growth", compiling.PROGRAMS / "growth.c")

    def close(self):
        self.room.close()

    def instructions(self, pairs):
        """How many instructions each pair takes."""
        shares = [pairs[at : at + SHARE] for at in range(0, len(pairs), SHARE)]
        with concurrent.futures.ThreadPoolExecutor(len(os.sched_getaffinity(0))) as threads:
            return [*itertools.chain.from_iterable(threads.map(self.counted, shares))]

    def counted(self, pairs):
        """How many instructions each takes. Callgrind dumps what it has counted each time that `measured` is left."""
        with tempfile.TemporaryDirectory(dir=self.room.path) as folder:
            counts = f"{folder}/counts"
            marks = [f"--{what}=measured" for what in ("toggle-collect", "zero-before", "dump-after")]
            self.answer(pairs, ["valgrind", "-q", "--tool=callgrind", *marks, f"--callgrind-out-file={counts}"])
            return [total(f"{counts}.{number}") for number in range(1, len(pairs) + 1)]

    def seconds(self, pairs, rounds=1):
        """What each pair takes of a processor's time, the least of some rounds in which they take their turns."""
        taken = [[self.answer([pair])[0] for pair in pairs] for _ in range(rounds)]
        return [min(each) / 1e9 for each in zip(*taken)]

    def answer(self, pairs, words=()):
        """Has the pairs answered, and gives how many nanoseconds each took."""
        stream = b"".join(pair.written() for pair in pairs)
        ended = subprocess.run([*words, self.program], input=stream, capture_output=True, check=True, env=LARGE_PAGES)
        told = [[int(number) for number in line.split()] for line in ended.stdout.splitlines()]
        for pair, (_, *refusals) in zip(pairs, told, strict=True):
            if refusals != [0, pair.refusals]:
                raise AssertionError(f"{refusals} commands were refused before {pair.measured[:80]} and of it")
        return [nanoseconds for nanoseconds, *_ in told]
