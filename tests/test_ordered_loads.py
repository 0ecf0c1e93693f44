"""Loads of large blocks into a large table, whose rows are inserted by rising keys if all of them are accepted. Whatever the order in the
block, the tables are those of inserts one after another, and the first refused record is the one that is reported.
"""

import concurrent.futures
import os
import random
import unittest

from support import harness, model, refusing, sizes

HELD = sizes.size(50_000, 50_000, 15_000)
ROWS = 3_000
SEED = 20240229
MOST = 2**63 - 1
MOST_CALLS = 2**18
NO_MEMORY = b"error 90 no memory\n"
TABLES = b"table d (id int)\ntable e (id int)\ntable m (id int, a int, s text)\n"
TABLES += b"table r (id int, d ref d null, e ref e)\ntable t (id text, a int)\n"
INDEXES = b"index m a tree\nindex m s hash\n"
NAMES = {b"d": b"id", b"e": b"id", b"m": b"id,a,s", b"r": b"id,d,e", b"t": b"id,a"}
# As many rows of d and e are named by those of r: few beside as many as r has.
DEPTS = 40
NAMED = 500
# Rows are as many as from which their order counts, and one less.
FEW = 1_000
# How many lines answer what stands in front of a block.
ANSWERS = 8
LOOKS = b"dump m\nselect id from m where a = 3\nselect id from m where s = 'row 77'\nselect * from m where id = 2000001\n"


def load(table, records):
    block = b"".join([NAMES[table] + b"\n", *(record + b"\n" for record in records)])
    return b"load %s %d\n" % (table, len(block)) + block


def rows_of_m(keys):
    return [b"%d,%d,row %d" % (key, key % 1_000, key % 100_000) for key in keys]


class Keys:
    """Keys at random: even ones are held, and odd ones new. No key is given twice."""

    def __init__(self):
        self.draw = random.Random(SEED)
        self.odd = self.draw.sample(range(1, 4 * 10**6, 2), 20 * ROWS)
        self.held = self.draw.sample(range(0, 4 * 10**6, 2), HELD)

    def new(self, count=ROWS):
        keys, self.odd = self.odd[:count], self.odd[count:]
        return keys


def with_at(keys, places):
    """The keys with others at some places."""
    keys = [*keys]
    for place, key in places.items():
        keys[place] = key
    return keys


def blocks_of_m(keys):
    """Blocks of keys, in their order: those that come in, and those that are refused."""
    yield "at random", keys.new()
    yield "rising", sorted(keys.new())
    yield "falling", sorted(keys.new(), reverse=True)
    yield "rising but for the last", [*sorted(some := keys.new()), min(some) - 2]
    yield "turned", (some := sorted(keys.new()))[ROWS // 3 :] + some[: ROWS // 3]
    yield "of all widths", with_at(keys.new(), {0: MOST, 7: -1, ROWS // 2: -MOST - 1, ROWS - 1: -(10**12)})
    yield "many enough", keys.new(FEW)
    yield "too few", keys.new(FEW - 1)
    some = keys.new()
    yield "with a key twice", with_at(some, {ROWS - 2: some[5]})
    yield "with a key in two neighbours", with_at(some, {ROWS // 2: some[ROWS // 2 + 1]})
    yield "with a key that is held", with_at(some, {ROWS // 3: keys.held[9]})
    yield "with a key that is held first", with_at(some, {0: keys.held[HELD - 1]})
    yield "with several keys twice", with_at(some, {2_800: some[1], 2_799: some[2_900], 17: some[2_801]})
    yield "with keys held and twice", with_at(some, {2_900: keys.held[1], 2_500: some[2], 2_400: keys.held[2], 2_700: some[3]})
    yield "with keys twice and held", with_at(some, {2_900: some[0], 2_500: keys.held[2], 2_400: some[2], 2_700: keys.held[3]})
    yield "at last", some


def records_of_r(rows):
    """Rows of a key, a row of d or none, and a row of e."""
    return [b"%d,%s,%d" % (key, b"" if dept is None else b"%d" % dept, other) for key, dept, other in rows]


def rows_of_r(keys, block):
    return [(key, None if key % 9 == 0 else key % DEPTS, keys.held[key % NAMED]) for key in block]


def with_in(rows, places):
    """The rows with other values in some columns of some rows: by place and column."""
    rows = [list(row) for row in rows]
    for (place, column), value in places.items():
        rows[place][column] = value
    return rows


def blocks_of_r(keys):
    """What is answered first, and blocks of rows that name others, where they are there."""
    yield b"ok", rows_of_r(keys, keys.new())
    yield b"ok", rows_of_r(keys, sorted(keys.new(), reverse=True))
    yield b"ok", [(key, None, keys.held[0]) for key in keys.new()]
    some, missing = rows_of_r(keys, keys.new()), keys.new(1)[0]
    first, last = some[3][0], some[ROWS - 4][0]
    yield b"error 42 ", with_in(some, {(ROWS // 2, 1): DEPTS})
    yield b"error 42 ", with_in(some, {(0, 2): missing})
    yield b"error 42 ", with_in(some, {(ROWS - 1, 2): missing, (ROWS - 2, 1): DEPTS})
    yield b"error 42 ", with_in(some, {(2_000, 2): missing, (2_500, 0): first})
    yield b"error 42 ", with_in(some, {(2_000, 1): -1, (2_500, 0): keys.held[5]})
    yield b"error 41 ", with_in(some, {(2_000, 0): first, (2_500, 1): DEPTS})
    yield b"error 41 ", with_in(some, {(2_000, 0): keys.held[5], (1_999, 0): keys.held[6], (2_500, 2): missing})
    yield b"error 41 ", with_in(some, {(2_000, 0): last, (ROWS - 2, 2): missing})
    yield b"error 41 ", with_in(some, {(2_000, 0): first, (2_000, 1): DEPTS, (2_000, 2): missing})
    yield b"ok", some


def texts_of_t(draw, count):
    """Texts that begin alike or are the beginnings of others, of each length at which they are kept in another way, and others."""
    fronts = [b"", b"k", b"a number", b"a number of", "é".encode(), "a lettré".encode(), b"x" * 13, b"x" * 14, b"x" * 1_000]
    ends = [b"%d" % number for number in draw.sample(range(10**6), count)]
    beginnings = [b"z" * length for length in range(1, 200)] + [b"%s " % (b"z" * length) for length in range(1, 200)]
    return draw.sample([*beginnings, *(draw.choice(fronts) + end for end in ends)], count)


def records_of_t(block):
    return [b'"%s",%d' % (text, len(text)) for text in block]


def blocks_of_t(held, new):
    """What is answered first, and blocks of texts for keys."""
    blocks = [new[at : at + ROWS] for at in range(0, len(new), ROWS)]
    yield b"ok", blocks[0]
    yield b"ok", sorted(blocks[1], reverse=True)
    yield b"ok", sorted(blocks[2])
    yield b"ok", blocks[3][:FEW]
    some = blocks[4]
    yield b"error 41 ", with_at(some, {2_800: some[5]})
    yield b"error 41 ", with_at(some, {ROWS // 2: some[ROWS // 2 + 1]})
    yield b"error 41 ", with_at(some, {ROWS - 1: held[9]})
    yield b"error 41 ", with_at(some, {2_900: held[1], 2_500: some[2], 2_400: held[2], 2_700: some[3]})
    yield b"ok", some


class LoadsInOrder(unittest.TestCase):
    """Each stream is answered as by plain lists."""

    @classmethod
    def setUpClass(cls):
        cls.keys = Keys()
        cls.front = TABLES + INDEXES + load(b"m", rows_of_m(cls.keys.held))

    def check(self, stream):
        ran, told = harness.run_whole(stream), model.answers_to(stream)
        self.assertEqual((ran.status, ran.err), (0, b""))
        self.assertTrue(ran.out == told, "the answers are not those of plain lists")
        return told

    def test_blocks_in_every_order(self):
        names, blocks = zip(*blocks_of_m(self.keys))
        told = self.check(self.front + b"".join(load(b"m", rows_of_m(block)) for block in blocks) + LOOKS)
        answers = told.splitlines()[ANSWERS : ANSWERS + len(names)]
        for name, answer in zip(names, answers):
            self.assertEqual(answer.startswith(b"error 41"), "twice" in name or "two" in name or "is held" in name, (name, answer))

    def check_blocks(self, front, looks, blocks):
        """Loads blocks behind others, and tells apart those that are answered by a refusal."""
        awaited, loads = zip(*blocks)
        told = self.check(front + b"".join(loads) + looks).splitlines()[front.count(b"\ntable ") + front.count(b"\nload ") + 1 :]
        for number, start in enumerate(awaited):
            self.assertTrue(told[number].startswith(start), (number, start, told[number]))

    def test_tables_with_references(self):
        keys = self.keys
        held = records_of_r(rows_of_r(keys, keys.held))
        front = TABLES + load(b"d", [b"%d" % key for key in range(DEPTS)])
        front += load(b"e", [b"%d" % key for key in keys.held[:NAMED]]) + load(b"r", held)
        blocks = [(awaited, load(b"r", records_of_r(rows))) for awaited, rows in blocks_of_r(keys)]
        looks = b"dump r\ndelete d where id = 3\ndelete r where d = 3\ndelete d where id = 3\ndelete e where id = %d\n" % keys.held[0]
        self.check_blocks(front, looks, blocks)

    def test_texts_for_keys(self):
        draw = random.Random(SEED + 1)
        texts = texts_of_t(draw, HELD + 5 * ROWS)
        held, new = texts[:HELD], texts[HELD:]
        blocks = [(awaited, load(b"t", records_of_t(block))) for awaited, block in blocks_of_t(held, new)]
        self.check_blocks(TABLES + load(b"t", records_of_t(held)), b"dump t\nselect * from t where id = 'zz'\n", blocks)

    def test_want_of_memory(self):
        refuser = refusing.Refuser()
        self.addCleanup(refuser.close)
        block = load(b"m", rows_of_m(self.keys.new()))
        whole = self.front + block + LOOKS + block + LOOKS
        done, again = model.answers_to(whole), model.answers_to(self.front + LOOKS + block + LOOKS)
        before = b"".join(done.splitlines(keepends=True)[:ANSWERS])
        refused = before + NO_MEMORY + again.removeprefix(before)
        # The first of the block's calls are those of its rows as they are read, the last those of the rows that go in.
        start, end = (refuser.calls([harness.PROGRAM], stream, MOST_CALLS) for stream in (self.front, self.front + block))
        calls = [*range(start + 1, end - 4, (end - start) // 8), *range(end - 4, end + 1)]
        with concurrent.futures.ThreadPoolExecutor(os.cpu_count()) as threads:
            runs = threads.map(lambda nth: (nth, *refuser.run_over_file([harness.PROGRAM], whole, nth)), calls)
            met = [self.check_run(nth, ended, is_met, refused, done) for nth, ended, is_met in runs]
        self.assertIn(True, met, "no call for memory was refused")

    def check_run(self, nth, ended, is_met, refused, done):
        """Checks the answers of a run, and tells whether the load found no memory in it."""
        with self.subTest(refused_call=nth):
            self.assertEqual((ended.status, ended.err, is_met), (0, b"", True))
            self.assertTrue(ended.out in (refused, done), "neither all rows came in, nor none")
        return ended.out == refused
