"""The binding for Python: iterators over joins, `distinct` selects and others that are read by a cursor. They hold the tables until the last
page is read, or they are closed or let go.
"""

import contextlib
import copy
import gc
import itertools
import os
import random
import tempfile
import threading
import tracemalloc
import unittest
import weakref

from support import binding, sizes
from support.binding import mmdb

SEED = 20261130
ROWS = 60
PAGES = (1, 3, 10_000)
JOIN = "select t.id, t.s, u.id from t join u on t.id = u.t"
DISTINCT = "select distinct s, n from t"
NAMES = [f"c{number}" for number in range(16)]
CONDITIONS = " and ".join(f"c{number} >= 0" for number in range(7))
# Selects that are read by a cursor, each with its parameters.
LINES = (
    (JOIN, ()),
    (f"{JOIN} where t.id > ?", (ROWS // 2,)),
    (f"{JOIN} where u.n <> :n and t.s <> :s", ({"n": 3, "s": "text 2"},)),
    (f"{JOIN} where t.s = ?", ("none of them",)),
    ("select distinct u.n, t.s from t join u on t.id = u.t", ()),
    ("select * from u join t on u.t = t.id join v on v.n = t.n where v.id < ?", (9,)),
    ("select u.id from t join u on t.n = u.n", ()),
    (DISTINCT, ()),
    ("select distinct n from t where id >= ?", (5,)),
    ("select distinct id, n from u where t <> ? and n < ?", (3, 9)),
    (f"select {', '.join(NAMES[1:])}, c0 from w where c0 > ?", (1,)),
    (f"select {', '.join(NAMES[1:8])} from w where {CONDITIONS} and c9 > ?", (11,)),
)


# A program that ends within its loop.
PROGRAM = """
import mmdb
db = mmdb.Database()
db.execute("table v (id int)")
db.load("v", [(1,), (2,), (3,)])
rows, more = db.iterate("select distinct id from v", page=1), db.iterate("select distinct id from v", page=1)
print(next(rows).id)
"""


class WithTables(binding.WithDatabase):
    """A test with tables whose joins have more rows than a few pages."""

    def setUp(self):
        super().setUp()
        self.db.execute("table t (id int, s text, n int)")
        self.db.execute("table u (id int, t ref t null, n int)")
        self.db.execute("table v (id int, n int)")
        self.db.execute(f"table w ({', '.join(f'{name} int' for name in NAMES)})")
        self.db.execute("index t n tree")
        self.db.load("t", ((id, f"text {id % 5}" + "'\n" * (id % 2), id % 7) for id in range(ROWS)))
        self.db.load("u", ((id, None if id % 6 == 0 else id * 7 % ROWS, id % 11) for id in range(3 * ROWS)))
        self.db.load("v", ((id, id % 4) for id in range(20)))
        self.db.load("w", [tuple(range(id, id + 16)) for id in range(20)])

    def check_same(self, found, rows):
        found = list(found)
        self.assertEqual(found, rows)
        self.assertEqual(list(map(type, found)), list(map(type, rows)))

    def check_held(self):
        """Nobody changes the tables."""
        self.assertRaises(mmdb.Shared, self.db.change, "update v set n = 0 where id = 0")

    def check_free(self):
        """They may be changed."""
        self.assertEqual(self.db.change("update v set n = 0 where id = 0"), 1)

    def iterated(self, line=JOIN, page=2):
        """An iterator that has given a row, and holds the tables."""
        rows = self.db.iterate(line, page=page)
        self.assertEqual(next(rows), self.db.first(1, line)[0])
        self.check_held()
        return rows


class Cursors(WithTables):
    """Their rows are those of `select`, and are read page by page."""

    def test_they_are_all_rows(self):
        draw = random.Random(SEED)
        with self.db.reader() as reader:
            for line, parameters in LINES:
                statements = [handle.prepare(line) for handle in (self.db, reader)]
                for page in (*PAGES, draw.randrange(4, ROWS)):
                    with self.subTest(line=line, page=page):
                        rows = self.db.select(line, *parameters)
                        for handle in (self.db, reader):
                            self.check_same(handle.iterate(line, *parameters, page=page), rows)
                        for statement in statements:
                            self.check_same(statement.iterate(*parameters, page=page), rows)
        self.check_free()

    def test_each_policy(self):
        for policy in mmdb.POLICIES:
            with mmdb.Database(policy) as db:
                db.execute("table t (id int, n int)")
                db.load("t", ((id, id % 5) for id in range(50)))
                db.execute("table u (id int, n int)")
                db.load("u", ((id, id % 4) for id in range(50)))
                for line in ("select t.id, u.id from t join u on t.n = u.n", "select distinct t.n, u.n from t join u on t.id = u.id"):
                    with self.subTest(policy=policy, line=line):
                        self.check_same(db.iterate(line, page=7), db.select(line))

    def test_more_rows_than_a_page_has(self):
        self.db.load("v", ((id, 0) for id in range(20, 10_100)))
        for line, most in (("select t.id, v.id from t join v on t.n = v.n where t.id < 15", 20_000), ("select distinct id, n from v", 10_000)):
            rows = self.db.select(line)
            self.assertGreater(len(rows), most)
            each = self.db.iterate(line)
            self.check_same(itertools.islice(each, most), rows[:most])
            self.check_held()
            self.check_same(each, rows[most:])
            self.check_free()

    def test_a_page_that_is_not_the_last(self):
        for line, count in ((JOIN, self.db.count(JOIN)), (DISTINCT, self.db.count(DISTINCT))):
            for page in (1, 2, count - 1, count):
                with self.subTest(line=line, page=page):
                    rows = self.iterated(line, page)
                    more = count // page * page - 1
                    self.assertEqual(len(list(itertools.islice(rows, more))), more)
                    self.check_held()
                    self.assertEqual(len(list(rows)), count - more - 1)
                    self.check_free()

    def test_a_last_page(self):
        """It holds nothing, so that what is shown may be changed row by row."""
        for line in (DISTINCT, "select distinct v.id from v join t on v.n = t.n"):
            shown = self.db.select(line)
            for page in (len(shown) + 1, 10_000):
                seen = []
                for row in self.db.iterate(line, page=page):
                    seen.append(row)
                    self.check_free()
                self.assertEqual(seen, shown)
        rows = self.iterated(DISTINCT, page=7)
        self.assertEqual(len(list(itertools.islice(rows, 8 * 7 - 1))), 8 * 7 - 1)
        self.check_held()
        next(rows)
        self.check_free()
        self.assertEqual(len(list(rows)), ROWS - 8 * 7 - 1)

    def test_no_rows(self):
        self.db.execute("delete u")
        for page in PAGES:
            rows = self.db.iterate(JOIN, page=page)
            self.check_free()
            self.assertEqual(list(rows), [])

    def test_columns_that_are_read_as_other_types(self):
        line = "select t.n, u.id from t join u on t.id = u.t"
        stored = self.db.select(line)
        self.db.convert("t.n", str)
        rows = self.db.iterate(line, page=2)
        self.assertEqual([next(rows), next(rows)], [(str(n), id) for n, id in stored[:2]])
        self.db.convert("t.n", None)
        self.db.convert("u.id", lambda id: [id])
        self.assertEqual([next(rows), next(rows)], [(n, [id]) for n, id in stored[2:4]])
        with self.db.reader() as reader:
            self.assertEqual(list(reader.iterate(line, page=3)), [(n, [id]) for n, id in stored])
        rows.close()
        self.check_free()

    def test_values_that_can_not_be_read(self):
        line, (first, *_, last) = "select distinct id from v", self.db.select("select distinct id from v")
        for bad, seen in ((first.id, None), (last.id, 18)):
            self.db.convert("v.id", lambda id, bad=bad: int("none" if id == bad else id))
            each, found = None, []
            with self.assertRaisesRegex(mmdb.DataError, f"^mmdb: the column v.id has {bad}: invalid literal"):
                each = self.db.iterate(line, page=3)
                for row in each:
                    found.append(row)
            self.assertEqual((each and len(found)), seen)
            self.assertEqual(list(each or ()), [])
            self.check_free()

    def test_refusals_come_at_the_call(self):
        for number, line, values in (
            (30, "select t.id from t join none on t.id = none.id", ()),
            (30, "select distinct a from none", ()),
            (34, "select t.id from t join t on t.id = t.id", ()),
            (32, "select distinct id, none from t", ()),
            (33, "select distinct s, s from t", ()),
            (35, f"{JOIN} where t.id = ?", ("a",)),
            (35, "select distinct s\nfrom t\nwhere id = :id", ({"id": "a"},)),
            (20, f"{JOIN} limit 5", ()),
            (20, "select distinct s from ?", (1,)),
        ):
            with self.subTest(line=line):
                found = self.refused_somehow(number, self.db.iterate, line, *values, page=2)
                selected = self.refused_somehow(number, self.db.select, line, *values)
                self.assertEqual((str(found), repr(found), found.written), (str(selected), repr(selected), selected.written))
                self.check_free()

    def test_tables_that_are_declared_anew(self):
        """What was known of the columns of a line is asked for once more."""
        line = "select * from v join t on v.n = t.n where t.id < ?"
        with self.db.prepare(line) as statement:
            for columns in (("id", "n", "more"), ("n", "id"), ("o", "id", "n", "p")):
                self.check_same(self.db.iterate(line, 5, page=4), self.db.select(line, 5))
                self.db.execute("drop table v")
                self.db.execute(f"table v ({', '.join(f'{name} int' for name in columns)})")
                self.db.load("v", [tuple(range(id, id + len(columns))) for id in range(9)])
                self.check_same(statement.iterate(5, page=4), self.db.select(line, 5))
                self.assertEqual(statement.names[: len(columns)], tuple(f"v.{name}" for name in columns))

    def test_what_is_done_meanwhile(self):
        """All that changes nothing."""
        rows = self.iterated()
        first = self.db.select(f"{JOIN} where t.id < ?", 9)
        for handle in (self.db, self.db.reader()):
            self.addCleanup(handle.close)
            self.assertEqual(handle.select(f"{JOIN} where t.id < ?", 9), first)
            self.assertEqual((handle.count("select * from t"), len(handle.dump("u"))), (ROWS, 3 * ROWS))
            self.assertEqual(list(handle.iterate(DISTINCT, page=4)), handle.select(DISTINCT))
            self.assertEqual(list(handle.iterate("select s from t", page=4)), handle.select("select s from t"))
            self.assertEqual([index.rows for index in handle.indexes("t")], [ROWS, ROWS])
            self.assertGreater(len(handle.plan(JOIN)), 1)
            self.assertEqual(handle.version("t"), self.db.version("t"))
            with tempfile.TemporaryDirectory(prefix="mmdb-tests-") as folder:
                handle.save(os.path.join(folder, "all"))
                with mmdb.Database.restore(os.path.join(folder, "all")) as restored:
                    self.assertEqual(restored.select(JOIN), self.db.select(JOIN))
            with copy.copy(handle) as copied:
                self.assertEqual(copied.change("delete u"), 3 * ROWS)
        self.check_same(rows, self.db.select(JOIN)[1:])

    def test_several_at_once(self):
        lines = [JOIN, DISTINCT, JOIN]
        iterators = [self.db.iterate(line, page=page) for line, page in zip(lines, (1, 2, 5))]
        found = [[] for _ in lines]
        for got in itertools.zip_longest(*iterators):
            for at, row in enumerate(got):
                found[at] += [row] if row is not None else []
        self.assertEqual(found, [self.db.select(line) for line in lines])
        self.check_free()
        first, second = self.iterated(JOIN), self.iterated(JOIN)
        first.close()
        self.check_held()
        second.close()
        self.check_free()


class Held(WithTables):
    """Until when they hold the tables, and what is refused meanwhile."""

    def test_each_change_is_refused(self):
        rows = self.iterated()
        insert = self.db.prepare("insert v (?, ?)")
        for call in (
            lambda: insert.execute(100, 1),
            lambda: insert.executemany([(100, 1)]),
            lambda: self.db.execute("insert v (100, 1)"),
            lambda: self.db.change("update t set s = 'a'"),
            lambda: self.db.change("delete v where id > ?", 3),
            lambda: self.db.executemany("insert v (?, ?)", [(100, 1)]),
            lambda: self.db.execute("table x (id int)"),
            lambda: self.db.execute("index v n hash"),
            lambda: self.db.answer("drop table v"),
            lambda: self.db.load("v", [(100, 1)]),
            lambda: self.db.load("v", ((id, 1) for id in range(100, 2_000))),
            lambda: self.db.load_csv("v", "id,n\n100,1\n"),
            self.db.begin,
            lambda: self.db.transaction().__enter__(),
        ):
            with self.assertRaisesRegex(mmdb.Shared, "^mmdb: readers or iterators share the tables, and nothing changes them until"):
                call()
        self.assertEqual((self.db.count("select * from v"), self.db.in_transaction), (20, False))
        rows.close()
        self.assertEqual(insert.execute(100, 1), 1)

    def test_how_they_end(self):
        def fail(rows):
            with self.assertRaises(KeyError):
                for _ in rows:
                    raise KeyError
            rows.close()

        def loop(rows):
            with contextlib.closing(rows):
                for _ in rows:
                    break

        for end in (list, lambda rows: rows.close(), fail, loop, lambda rows: rows.throw(KeyError)):
            for begin in (lambda: self.db.iterate(JOIN, page=2), self.iterated):
                rows = begin()
                self.check_held()
                with contextlib.suppress(KeyError):
                    end(rows)
                self.check_free()
                self.assertEqual(list(rows), [])
                rows.close()
                self.assertRaises(StopIteration, next, rows)

    def test_they_are_let_go(self):
        for begin in (lambda: self.db.iterate(JOIN, page=2), self.iterated):
            rows = begin()
            self.check_held()
            del rows
            gc.collect()
            self.check_free()

    def test_they_are_let_go_in_a_circle(self):
        for begin in (lambda: self.db.iterate(JOIN, page=2), self.iterated):
            circle = {"rows": begin()}
            circle["circle"] = circle
            self.check_held()
            del circle
            gc.collect()
            self.check_free()

    def test_the_database_goes_with_them(self):
        """It is in a circle with its iterator."""
        for begin in (iter, lambda rows: next(rows) and rows):
            db = mmdb.Database()
            db.execute("table v (id int)")
            db.load("v", [(1,), (2,)])
            db.rows = begin(db.iterate("select distinct id from v", page=1))
            gone = weakref.ref(db)
            del db
            gc.collect()
            self.assertIsNone(gone())

    def test_they_end_while_a_call_has_its_turn(self):
        """Nothing is waited for, as the collector may end them at any time."""
        for end in (lambda rows: rows.close(), lambda rows: None):
            for begin in (lambda: self.db.iterate(JOIN, page=2), self.iterated):
                rows = begin()
                with self.db._turn:  # pylint: disable=protected-access
                    end(rows)
                    del rows
                    gc.collect()
                self.check_free()

    def test_what_they_outlive(self):
        rows = self.db.select(JOIN)
        reader = self.db.reader()
        with self.db.prepare(JOIN) as statement, reader.prepare(JOIN) as read:
            each = [statement.iterate(page=2), read.iterate(page=2), reader.iterate(JOIN, page=3), reader.iterate(JOIN, page=4)]
        self.assertEqual(next(each[2]), rows[0])
        reader.leave()
        self.refused(30, reader.select, JOIN)
        self.check_held()
        self.check_same(each.pop(), rows)
        reader.close()
        self.check_same(each.pop(), rows[1:])
        for number in range(200):
            self.assertEqual(self.db.select(f"select n from v where id = {20 + number}"), [])
        self.check_held()
        self.check_same(each.pop(), rows)
        each.append(self.db.iterate(JOIN, page=5))
        self.db.close()
        with self.assertRaisesRegex(ValueError, "closed"):
            self.db.iterate(JOIN)
        for iterator in each:
            self.check_same(iterator, rows)

    def test_at_the_end_of_the_program(self):
        for last in ("", "del db\n", "import gc; gc.disable(); db.rows = rows; del rows, db\n"):
            ended = binding.run_python("-c", PROGRAM + last)
            self.assertEqual((ended.status, ended.out, ended.err), (0, "1\n", ""))

    def test_in_a_transaction(self):
        """All rows are read at once, and nothing is held."""
        for line in (JOIN, DISTINCT):
            with self.db.transaction():
                self.db.execute("insert v (?, 0)", 100 + len(line))
                before = self.db.select(line)
                rows, more = self.db.iterate(line, page=2), self.db.prepare(line).iterate(page=1)
                self.assertEqual(next(rows), before[0])
                self.db.execute("delete u where id = 1")
                self.db.execute("update t set s = ?", line)
                self.assertEqual((len(list(rows)), next(more)), (len(before) - 1, before[0]))
                self.refused_somehow(30, self.db.iterate, "select distinct a from none")
            self.check_same(more, before[1:])
            self.assertNotEqual(self.db.select(line), before)
            self.check_same(self.db.iterate(line, page=4), self.db.select(line))

    def test_a_connection(self):
        with contextlib.closing(mmdb.connect()) as connection:
            cursor = connection.cursor()
            cursor.execute("table v (id int)").executemany("insert v (?)", [(1,), (2,), (3,)])
            rows = connection.database.iterate("select distinct id from v", page=1)
            self.assertEqual(next(rows), (1,))
            connection.commit()
            self.assertEqual(next(rows), (2,))
            held = connection.database.iterate("select distinct id from v", page=1)
            with self.assertRaises(connection.OperationalError):
                cursor.execute("delete v")
            self.assertEqual(cursor.execute("select * from v").fetchall(), [(1,), (2,), (3,)])
            held.close()
            self.assertEqual((cursor.execute("delete v").rowcount, list(rows)), (3, [(3,)]))

    def test_watches_may_iterate(self):
        seen = []
        with self.db.watch(lambda number: seen.append(list(self.db.iterate("select distinct n from v", page=1))), "v"):
            self.db.execute("delete v where n > 1")
            self.db.execute("delete v")
        self.assertEqual(seen, [[(0,), (1,)], []])


class Threads(WithTables):
    """They are read in turn with the calls on their database, by any thread."""

    def run_all(self, *works):
        wrong = []

        def run(work):
            try:
                work()
            except Exception as why:  # pylint: disable=broad-except
                wrong.append(repr(why))

        threads = [threading.Thread(target=run, args=(work,)) for work in works]
        for thread in threads:
            thread.start()
        for thread in threads:
            thread.join()
        self.assertEqual(wrong, [])

    def test_other_calls_come_between(self):
        rows, reader = self.db.select(JOIN), self.db.reader()

        def read(handle):
            for page in range(1, 20):
                self.assertEqual(list(handle.iterate(JOIN, page=page)), rows)

        def ask():
            for _ in range(20):
                self.assertEqual((self.db.select(JOIN), reader.count(JOIN)), (rows, len(rows)))

        self.run_all(*[lambda handle=handle: read(handle) for handle in (self.db, self.db, reader, reader)], ask, ask)
        reader.close()
        self.check_free()

    def test_one_that_is_read_by_another_thread(self):
        rows, found = self.db.iterate(JOIN, page=3), []
        for _ in range(4):
            self.run_all(lambda: found.extend(itertools.islice(rows, 7)))
        self.run_all(lambda: found.extend(rows))
        self.assertEqual(found, self.db.select(JOIN))
        self.check_free()

    def test_a_thread_that_changes_what_it_can(self):
        done = threading.Event()

        def work():
            while not done.is_set():
                with contextlib.suppress(mmdb.Shared):
                    self.db.change("update u set n = 6")
                    self.db.change("update u set n = 5")

        def read():
            try:
                for _ in range(50):
                    seen = {row.n for row in self.db.iterate("select u.id, u.n from u join t on u.t = t.id", page=40)}
                    self.assertEqual(len(seen), 1)
            finally:
                done.set()

        self.db.change("update u set n = 5")
        self.run_all(work, read)


class Memory(WithTables):
    """What is held while many rows are iterated over."""

    def test_it_holds_a_page(self):
        self.db.execute("table long (id int, s text)")
        self.db.load("long", ((id, f"{id:0100d}") for id in range(8_000)))
        for line in ("select long.s, v.n from long join v on long.id = v.id", "select distinct s, id from long"):
            self.db.load("v", ((id, 0) for id in range(self.db.count("select * from v"), 8_000)))
            peaks = []
            for page in (200, 8_000):
                tracemalloc.start()
                self.assertEqual(sum(1 for _ in self.db.iterate(line, page=page)), 8_000)
                peaks.append(tracemalloc.get_traced_memory()[1])
                tracemalloc.stop()
            self.assertLess(10 * peaks[0], peaks[1])


@unittest.skipUnless(sizes.is_large, "it needs gigabytes: in large sizes only")
class TooLarge(binding.WithDatabase):
    """Texts for whose places a cell has no number: more than 4 GiB together."""

    def test_fewer_can_be_read(self):
        line = "select a.s from a join b on a.k = b.k"
        self.db.execute("table a (id int, k int, s text)")
        self.db.execute("table b (id int, k int)")
        self.db.load("a", ((number, 1, "x" * 1024) for number in range(1100)))
        self.db.load("b", ((number, 1) for number in range(4096)))
        for ask in (self.db.select, lambda line: self.db.iterate(line, page=5_000_000)):
            with self.assertRaisesRegex(mmdb.OperationalError, "more than 4 GiB"):
                ask(line)
        rows = self.db.iterate(line)
        self.assertEqual(sum(len(row.s) for row in itertools.islice(rows, 20_000)), 20_000 * 1024)
        rows.close()
        self.db.execute("delete b where id < 4000")
