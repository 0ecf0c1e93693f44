"""In a table of 200,000 rows or more sixteen searches of a tree go side by side. Keys are sought so before a delete of many rows, and for a
load whose rows name some of them; integers of any column in a join. What goes, what stays, what is joined and what is named is what a plain
dictionary says, also where the last rows are fewer than sixteen.
"""

import collections
import random
import unittest

from support import harness

HELD = 200_000
SEED = 20261130
# Numbers of rows that go at once: fewer than are read ahead, sixteen and its neighbours, and many.
COUNTS = (1, 3, 4, 15, 16, 17, 1_003)
# Keys below this are looked at in the end.
LOW = -HELD + 3_000
FRONT = b"table u (id int, a int)\nindex u a hash\n"
JOINED = b"table u (id int, a int)\nindex u a tree\ntable v (id int, a int)\n"


def load(table, rows):
    block = b"id,a\n" + b"".join(b"%d,%d\n" % row for row in rows)
    return b"load %s %d\n" % (table, len(block)) + block


class ReadAhead(unittest.TestCase):
    def test_deletes_of_many_rows(self):
        draw = random.Random(SEED)
        keys = draw.sample(range(-HELD, HELD), HELD)
        values = [-count for count in COUNTS for _ in range(count)]
        rows = list(zip(keys, values + [draw.randrange(HELD) for _ in range(HELD - len(values))]))
        draw.shuffle(rows)
        stream = FRONT + load(b"u", rows)
        stream += b"".join(b"delete u where a = %d\nselect id from u where a = %d\n" % (-count, -count) for count in COUNTS)
        stream += b"select id from u where id < %d\n" % LOW
        left = sorted(key for key, value in rows if key < LOW and value >= 0)
        awaited = [b"ok", b"ok", b"ok %d" % HELD]
        for count in COUNTS:
            awaited += [b"ok %d" % count, b"rows 0", b"u.id"]
        awaited += [b"rows %d" % len(left), b"u.id", *(b"%d" % key for key in left)]
        ran = harness.run_whole(stream)
        self.assertEqual((ran.status, ran.err), (0, b""))
        self.assertEqual(ran.out.splitlines(), awaited)

    def test_joins(self):
        draw = random.Random(SEED)
        keys = draw.sample(range(-HELD, HELD), HELD)
        # Half of the values are of a row each, and some of many.
        values = [draw.choice((draw.randrange(-HELD, HELD), draw.randrange(50), 2**63 - 1, -(2**63))) for _ in keys]
        values[: HELD // 2] = draw.sample(range(HELD, 3 * HELD), HELD // 2)
        draw.shuffle(values)
        sought = [draw.randrange(-HELD, 3 * HELD) for _ in range(1_003)]
        sought += [2**63 - 1, -(2**63)] + [3 * HELD - draw.randrange(16) for _ in range(64)]
        rows = collections.defaultdict(list)
        for key, value in sorted(zip(keys, values)):
            rows[value].append(key)
        outer = [(at, value) for at, value in enumerate(sought) if len(rows.get(value, ())) < 10_000]
        by_column = [(at, key) for at, value in outer for key in rows.get(value, ())]
        there = set(keys)
        by_key = [(at, value) for at, value in outer if value in there]
        stream = JOINED + load(b"u", list(zip(keys, values))) + load(b"v", outer)
        stream += b"select v.id, u.id from v join u on v.a = u.a\nselect v.id, u.id from v join u on v.a = u.id\n"
        awaited = [b"ok"] * 3 + [b"ok %d" % HELD, b"ok %d" % len(outer)]
        for found in (by_column, by_key):
            awaited += [b"rows %d" % len(found), b"v.id,u.id", *(b"%d,%d" % pair for pair in found)]
        for policy in ("auto", "tree"):
            with self.subTest(policy=policy):
                ran = harness.run_whole(stream, ["--policy", policy])
                self.assertEqual((ran.status, ran.err), (0, b""))
                self.assertEqual(ran.out.splitlines(), awaited)

    def test_links_of_loads(self):
        draw = random.Random(SEED)
        keys = draw.sample(range(-HELD, HELD), HELD)
        # Each row names two: at random, one after the other, the same ones, and none where it may.
        rising = sorted(draw.sample(keys, 200))
        named = [draw.choice(keys) for _ in range(500)] + rising + [keys[at // 40] for at in range(303)]
        rows = [(at, draw.choice((b"", b"%d" % key)), key) for at, key in enumerate(named)]
        draw.shuffle(rows)
        block = b"id,a,b\n" + b"".join(b"%d,%s,%d\n" % row for row in rows)
        lost = next(key for key in range(-HELD, HELD) if key not in set(keys))
        wrong = b"id,a,b\n" + b"".join(b"%d,%s,%d\n" % (2_000 + at, a, lost if at == 777 else b) for at, a, b in sorted(rows))
        stream = FRONT + b"table w (id int, a ref u null, b ref u)\n" + load(b"u", [(key, key) for key in keys])
        stream += b"".join(b"load w %d\n" % len(each) + each for each in (block, wrong))
        stream += b"select id, a, b from w\ndelete u where id = %d\ndelete w\ndelete u\n" % rising[0]
        awaited = [b"ok"] * 3 + [b"ok %d" % HELD, b"ok %d" % len(rows), b"error 42 no referenced row (record 778)"]
        awaited += [b"rows %d" % len(rows), b"w.id,w.a,w.b", *(b"%d,%s,%d" % row for row in sorted(rows))]
        awaited += [b"error 44 row is referenced", b"ok %d" % len(rows), b"ok %d" % HELD]
        ran = harness.run_whole(stream)
        self.assertEqual((ran.status, ran.err), (0, b""))
        self.assertEqual(ran.out.splitlines(), awaited)
