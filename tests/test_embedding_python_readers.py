"""The binding for Python: readers that share the tables of a database, also in threads of their own."""

import threading

from support import binding, sizes
from support.binding import mmdb

READERS = 4
READS, WRITES = sizes.size(200, 5_000, 60), sizes.size(40, 1_000, 15)
ALL = "select * from t"
SHARED = "^mmdb: readers or iterators share the tables, and nothing changes them until all have left or are closed$"


class Readers(binding.WithDatabase):
    """What readers may do, and what is raised meanwhile."""

    def setUp(self):
        super().setUp()
        self.db.execute("table t (id int, s text)")
        self.rows = [(number, f"row {number}") for number in range(10)]
        self.db.load("t", self.rows)

    def reader(self):
        reader = self.db.reader()
        self.addCleanup(reader.close)
        return reader

    def check_declined(self, database):
        """Nothing that changes tables is done with a handle that shares them."""
        statement = database.prepare("insert t (?, ?)")
        for call in (
            lambda: statement.execute(100, "a"),
            lambda: statement.executemany([(100, "a")]),
            lambda: database.execute("insert t (100, 'a')"),
            lambda: database.execute("insert t (:id, 'a')", id=100),
            lambda: database.change("update t set s = 'a'"),
            lambda: database.change("delete t where id > ?", 3),
            lambda: database.executemany("insert t (?, ?)", [(100, "a")]),
            lambda: database.execute("table u (id int)"),
            lambda: database.answer("drop table t"),
            lambda: database.answer("load t 9", "id,s\n9,a\n"),
            lambda: database.load("t", [(100, "a")]),
            lambda: database.load("t", ((number, "a") for number in range(100, 2_000))),
            lambda: database.load_dicts("t", [{"id": 100, "s": "a"}]),
            lambda: database.load_csv("t", "id,s\n100,a\n"),
            lambda: database.load_csv("t", "id,s\n100,a\n", columns=("id", "s")),
            database.begin,
            lambda: database.transaction().__enter__(),
        ):
            with self.assertRaisesRegex(mmdb.Shared, SHARED) as raised:
                call()
            self.assertIsInstance(raised.exception, mmdb.OperationalError)
        self.refused(30, database.change, "delete u")
        self.refused(35, database.change, "insert t (?, 'a')", "x")
        self.assertEqual((database.select(ALL), database.in_transaction), (self.rows, False))

    def test_what_is_read(self):
        reader = self.reader()
        self.assertEqual((type(reader), reader.closed), (mmdb.Reader, False))
        for handle in (reader, self.db):
            with handle.prepare("select s from t where id = ?") as find:
                self.assertEqual((find.execute(3), find.names), ([("row 3",)], ("t.s",)))
            self.assertEqual(handle.select("select id from t where id < :most", most=3).column("id"), [0, 1, 2])
            self.assertEqual(handle.execute("select * from t where id = 9"), [(9, "row 9")])
            for name in ("t", " t "):
                self.assertEqual((handle.dump(name), handle.dump(name).names), (self.rows, ("id", "s")))
            self.assertEqual([index.rows for index in handle.indexes("t")], [10])
            self.assertEqual((handle.version(), handle.version("t")), (self.db.version(), self.db.version("t")))
            self.assertEqual(handle.plan("select s from t where id = ?", 3)[0], "search of t by the key, 10 rows")
            self.assertEqual((handle.count(ALL), handle.count("select s from t where id < ?", 3)), (10, 3))
            self.assertEqual(handle.first(2, "select id from t where id > ?", 3), [(4,), (5,)])
            self.refused(30, handle.select, "select * from u")
            self.assertEqual(handle.execute("tables"), "table t (id int, s text)\n")
            self.assertEqual(handle.execute("dump t")[:16], "load t 85\nid,s\n0")
            self.assertEqual(handle.answer("select s from t where id = 3"), b"rows 1\nt.s\nrow 3\n")
            self.assertEqual((handle.answer(" # of t"), handle.answer("dump u")), (b"", b"error 30 no such table\n"))
            self.assertRegex(handle.reason("dump u"), "^u is no table")
            for name, number in (("u", 30), ("t t", 20), ("", 20), ("t join t", 20)):
                self.refused_somehow(number, handle.dump, name)
                self.refused_somehow(30, handle.indexes, name)

    def test_nothing_is_changed(self):
        reader = self.reader()
        for handle in (self.db, reader, self.reader()):
            self.check_declined(handle)
        reader.close()
        self.check_declined(self.db)

    def test_all_have_left(self):
        first, second = self.reader(), self.reader()
        first.leave()
        self.check_declined(self.db)
        second.close()
        self.db.execute("insert t (10, 'row 10')")
        self.db.share(first)
        self.assertEqual(len(first.select(ALL)), 11)
        with self.db.reader() as third:
            self.assertEqual(len(third.dump("t")), 11)
        self.assertTrue(third.closed)
        first.leave()
        with self.db.transaction():
            self.assertEqual(self.db.executemany("insert t (?, '')", [(11,), (12,)]), 2)
        self.assertEqual(len(self.db.select(ALL)), 13)

    def test_what_stays_of_one_that_has_left(self):
        reader = self.reader()
        find, insert = reader.prepare("select s from t where id = ?"), reader.prepare("insert t (?, ?)")
        rows = reader.select(ALL)
        for number in range(10, 13):
            self.assertEqual(find.execute(number), [])
            reader.leave()
            self.db.execute("insert t (?, ?)", number, str(number))
            self.assertEqual(rows, self.rows)
            self.refused(30, find.execute, 1)
            self.refused(30, insert.execute, 1, "a")
            self.refused(30, reader.select, ALL)
            self.refused(30, reader.dump, "t")
            self.assertEqual(reader.answer("tables"), b"ok 0\n")
            for call in (
                lambda: reader.execute("table t (id int)"),
                lambda: reader.answer("drop table t"),
                lambda: reader.load("t", [(1,)]),
            ):
                self.assertRaises(mmdb.Shared, call)
            self.db.share(reader)
            self.assertEqual((find.execute(number), len(reader.select(ALL))), ([(str(number),)], number + 1))
        self.assertRaises(mmdb.Shared, insert.execute, 20, "a")

    def test_tables_that_were_declared_anew(self):
        reader = self.reader()
        self.assertEqual(reader.select(ALL).names, ("t.id", "t.s"))
        reader.leave()
        self.db.execute("drop table t")
        self.db.execute("table t (s text, n int, id int)")
        self.db.execute("insert t ('a', 1, 2)")
        self.db.share(reader)
        self.assertEqual((reader.select(ALL), reader.select(ALL).names), ([("a", 1, 2)], ("t.s", "t.n", "t.id")))
        self.assertEqual(reader.dump("t").names, ("s", "n", "id"))

    def test_columns_are_read_as_those_of_the_database(self):
        self.db.convert("t.s", str.upper)
        reader = self.reader()
        self.db.convert("t.s", None)
        self.assertEqual((reader.dump("t")[1], self.db.dump("t")[1]), ((1, "ROW 1"), (1, "row 1")))
        reader.convert("t.id", bool)
        self.assertEqual(reader.select(f"{ALL} where id = 1"), [(True, "ROW 1")])

    def test_the_database_is_closed_first(self):
        readers = [self.reader() for _ in range(3)]
        find = readers[0].prepare(ALL)
        self.db.close()
        readers.pop().close()
        self.assertEqual([find.execute(), *(reader.dump("t") for reader in readers)], [self.rows] * 3)
        readers.pop().leave()
        self.assertEqual(find.execute(), self.rows)

    def test_in_a_transaction(self):
        reader = self.reader()
        reader.leave()
        with self.db.transaction():
            for call in (self.db.reader, lambda: self.db.share(reader)):
                self.assertRaises(mmdb.InTransaction, call)
            self.db.execute("insert t (10, 'row 10')")
        self.db.share(reader)
        self.assertEqual(len(reader.dump("t")), 11)

    def test_wrong_calls(self):
        reader, closed = self.reader(), self.reader()
        closed.close()
        for wrong, why, call in (
            (ValueError, "the reader is closed", lambda: self.db.share(closed)),
            (ValueError, "the database is closed", closed.leave),
            (ValueError, "the database is closed", lambda: closed.answer("tables")),
            (ValueError, "the database is closed", lambda: closed.load_csv("t", "id\n")),
            (ValueError, "its database has", reader.reader),
            (ValueError, "its database has", lambda: reader.share(reader)),
            (TypeError, "a reader shares tables, not a Database", lambda: self.db.share(self.db)),
        ):
            with self.assertRaisesRegex(wrong, f"^mmdb: .*{why}"):
                call()
        reader.close()
        self.db.close()
        self.assertRaisesRegex(ValueError, "the database is closed", self.db.reader)


class Threads(binding.WithDatabase):
    """Four threads that read, and one that writes."""

    def setUp(self):
        super().setUp()
        self.db.execute("table t (id int, s text)")
        self.wrong, self.lock, self.count = [], threading.Lock(), 0
        self.readers = [self.db.reader() for _ in range(READERS)]
        for reader in self.readers:
            self.addCleanup(reader.close)

    def run_all(self, *works):
        def run(work):
            try:
                work()
            except Exception as why:  # pylint: disable=broad-except
                self.wrong.append(repr(why))

        threads = [threading.Thread(target=run, args=(work,)) for work in works]
        for thread in threads:
            thread.start()
        for thread in threads:
            thread.join()
        self.assertEqual(self.wrong, [])

    def read(self, reader):
        with self.lock:
            find = reader.prepare("select s from t where id >= ?")
        for _ in range(READS):
            with self.lock:
                count, rows = self.count, find.execute(0)
            self.assertEqual([row.s for row in rows], [f"row {number}" for number in range(count)])

    def write(self):
        for _ in range(WRITES):
            with self.lock:
                for reader in self.readers:
                    reader.leave()
                self.db.execute("insert t (?, ?)", self.count, f"row {self.count}")
                self.count += 1
                for reader in self.readers:
                    self.db.share(reader)

    def test_behind_a_lock(self):
        self.run_all(self.write, *(lambda reader=reader: self.read(reader) for reader in self.readers))
        self.assertEqual((self.count, len(self.db.dump("t"))), (WRITES, WRITES))

    def test_readers_at_the_same_time(self):
        """No lock is needed while nobody writes, nor of a writer who waits until all have left."""

        def read(reader):
            for _ in range(READS):
                self.assertEqual(reader.select("select * from t where s <> ?", "y"), [])
                with self.db.reader() as other:
                    self.assertEqual(other.dump("t"), self.db.dump("t"))
            reader.leave()

        def write():
            while True:
                try:
                    return self.db.execute("insert t (1, 'x')")
                except mmdb.Shared:
                    pass

        self.run_all(write, *(lambda reader=reader: read(reader) for reader in self.readers))
        self.assertEqual(self.db.dump("t"), [(1, "x")])
