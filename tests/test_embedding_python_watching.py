"""The binding for Python: functions that are told of changes, of which calls they are told, and of which they aren't."""

import copy
import gc
import os
import threading
import unittest.mock
import warnings
import weakref

from support import binding
from support.binding import mmdb

THREADS, CHANGES = 4, 200
# More rows than a block of these bytes has.
BLOCK, MANY = 2_000, 1_500


class Stop(Exception):
    """What a function raises."""


class Told(binding.WithDatabase):
    """A database with tables `t` and `u`, and what is told of it."""

    def setUp(self):
        super().setUp()
        self.db.execute("table t (id int, s text)")
        self.db.execute("table u (id int)")
        self.db.load("t", [(1, "a"), (2, "b")])
        self.told = []
        self.watch = self.db.watch(self.told.append)

    def tells(self, call, *given, **named):
        """A call is told once, with the number that all tables have then. Gives what it gives."""
        self.told.clear()
        before = self.db.version()
        found = call(*given, **named)
        self.assertEqual(self.told, [self.db.version()])
        self.assertGreater(self.told[0], before)
        return found

    def tells_nothing(self, call, *given, **named):
        """A call isn't told, nor has the number risen."""
        self.told.clear()
        before = self.db.version()
        found = call(*given, **named)
        self.assertEqual((self.told, self.db.version()), ([], before))
        return found

    def raises(self, why, call, *given):
        """A call that raises, and is done no further."""
        with self.assertRaises(why):
            call(*given)


class Calls(Told):
    """Each kind of call."""

    def test_lines_and_statements(self):
        self.assertEqual(self.tells(self.db.execute, "insert t (3, 'c')"), 1)
        self.assertEqual(self.tells(self.db.execute, "insert t (?, ?)", 4, "d"), 1)
        self.assertEqual(self.tells(self.db.execute, "insert t (:id, :s)", id=5, s="e"), 1)
        self.assertEqual(self.tells(self.db.change, "update t set s = ? where id > 3", "x"), 2)
        self.assertEqual(self.tells(self.db.change, "# more\ndelete t\nwhere id = 5"), 1)
        self.assertEqual(self.tells(self.db.execute, "insert t (?, ?)", True + 5, mmdb.Date(2026, 1, 1)), 1)
        self.assertEqual(self.tells(self.db.answer, "insert u (1)"), b"ok 1\n")
        self.assertEqual(self.tells(self.db.answer, "load u 5", b"id\n2\n"), b"ok 1\n")
        with self.db.prepare("insert u (?)") as insert:
            self.assertEqual(self.tells(insert.execute, 3), 1)
            self.assertEqual(self.tells(insert.execute, True + 3), 1)
            self.assertEqual(self.tells(insert.executemany, [(5,), (6,)]), 2)
            self.assertEqual(self.tells(insert.executemany, [(number,) for number in range(100, 2_000)]), 1_900)

    def test_many_rows(self):
        insert = "insert u (?)"
        self.assertEqual(self.tells(self.db.executemany, insert, [(1,), (2,)]), 2)
        self.assertEqual(self.tells(self.db.executemany, insert, [(number,) for number in range(100, 2_000)]), 1_900)
        self.assertEqual(self.tells(self.db.executemany, "insert t (?, ?)", [(9, mmdb.Date(2026, 1, 1))]), 1)
        self.tells(self.raises, mmdb.Refused, self.db.executemany, insert, [(3,), (4,), (1,)])
        self.tells(self.raises, mmdb.Refused, self.db.executemany, insert, [(number,) for number in (*range(5_000, 6_000), 5_000)])
        self.assertEqual(self.tells(self.db.executemany, "delete u where id = 3", [(), ()]), 1)
        self.tells_nothing(self.raises, mmdb.Refused, self.db.executemany, insert, [(1,), (7,)])
        self.tells_nothing(self.raises, TypeError, self.db.executemany, insert, [(7,), (1.5,)])
        self.tells_nothing(self.db.executemany, insert, [])

    def test_loads(self):
        self.assertEqual(self.tells(self.db.load, "t", [(3, "c"), (4, "d")]), 2)
        self.assertEqual(self.tells(self.db.load_dicts, "t", [{"id": 5, "s": "e"}]), 1)
        self.assertEqual(self.tells(self.db.load_csv, "t", "id,s\n6,f\n"), 1)
        self.assertEqual(self.tells(self.db.load_csv, "t", "s;id\ng;7\n", columns=("id", "s"), separator=";"), 1)
        self.tells_nothing(self.raises, mmdb.Refused, self.db.load, "t", [(8, "h"), (1, "a")])
        self.tells_nothing(self.db.load, "t", [])

    def test_loads_of_several_blocks(self):
        """They are one call, within which nothing is told, also where they are undone."""
        self.db = mmdb.Database(block=BLOCK)
        self.addCleanup(self.db.close)
        self.db.execute("table t (id int, s text)")
        self.db.watch(self.told.append)
        rows = [(number, "some text") for number in range(MANY)]

        def made():
            yield from rows[:-1]
            self.db.execute("insert t (-1, 'by the rows')")
            self.assertEqual(self.told, [])
            yield rows[-1]

        def csv(first):
            return "id,s\n" + "".join(f"{number},more text\n" for number in range(first, first + MANY))

        self.assertEqual(self.tells(self.db.load, "t", made()), MANY)
        self.assertEqual(self.tells(self.db.load_csv, "t", csv(MANY)), MANY)
        self.assertEqual(self.tells(self.db.load_csv, "t", csv(2 * MANY), columns=("id", "s")), MANY)
        self.tells(self.raises, mmdb.Refused, self.db.load, "t", [*((number, "x") for number in range(5_000, 6_000)), (1, "again")])
        self.assertEqual(self.db.count("select * from t"), 1 + 3 * MANY)

    def test_declarations(self):
        self.tells(self.db.execute, "table v (id int, n int)")
        self.tells_nothing(self.db.execute, "index v n tree")
        self.tells_nothing(self.db.execute, "drop index v n tree")
        self.tells(self.db.execute, "drop table v")

    def test_what_changes_nothing(self):
        find = self.db.prepare("select * from t where id = ?")
        for call in (
            lambda: self.db.select("select * from t"),
            lambda: self.db.execute("tables"),
            lambda: self.db.dump("t"),
            lambda: self.db.count("select * from t"),
            lambda: self.db.plan("select * from t"),
            lambda: self.db.indexes("t"),
            lambda: self.db.execute("# a comment"),
            lambda: find.execute(1),
            lambda: self.db.execute("delete t where id > ?", 7),
            lambda: self.db.execute("update t set s = 'c' where id = 7"),
            lambda: self.db.answer("insert t (1, 'again')"),
            lambda: self.raises(mmdb.Refused, self.db.execute, "insert t (1, 'again')"),
            lambda: self.raises(mmdb.Refused, self.db.execute, "insert t (?, ?)", 1, "again"),
            lambda: self.raises(mmdb.Refused, self.db.prepare("insert u (?)").execute, "x"),
            lambda: self.raises(mmdb.NoTransaction, self.db.rollback),
            lambda: copy.copy(self.db).execute("delete t"),
        ):
            self.tells_nothing(call)
        with self.db.reader() as reader:
            self.tells_nothing(reader.select, "select * from t")
            self.tells_nothing(self.raises, mmdb.Shared, self.db.execute, "delete t")
            with self.assertRaisesRegex(ValueError, "^mmdb: a reader changes nothing: its database is watched$"):
                reader.watch(print)

    def test_transactions(self):
        self.tells_nothing(self.db.begin)
        self.tells(self.db.execute, "insert u (1)")
        self.tells_nothing(self.db.commit)
        self.db.begin()
        self.tells(self.db.execute, "insert u (2)")
        self.tells(self.db.rollback)
        with self.db.transaction():
            self.tells(self.db.load, "u", [(2,)])
            self.told.clear()
        self.assertEqual(self.told, [])

        def undone():
            with self.db.transaction():
                self.db.begin()
                self.db.execute("insert u (3)")
                self.told.clear()
                raise Stop

        self.tells(self.raises, Stop, undone)
        self.assertEqual(self.db.dump("u"), [(1,), (2,)])

    def test_a_connection(self):
        with mmdb.connect() as connection:
            self.db = connection.database
            cursor = connection.cursor()
            self.db.watch(self.told.append)
            self.tells(cursor.execute, "table t (id int)")
            self.tells(cursor.execute, "insert t (?)", (1,))
            self.tells(cursor.executemany, "insert t (?)", [(2,), (3,)])
            self.tells_nothing(connection.commit)
            self.tells(cursor.execute, "delete t")
            self.tells(connection.rollback)
            self.tells(self.raises, mmdb.IntegrityError, cursor.execute, "insert t (1)")
        self.db.close()

    def test_reasons_stay(self):
        """The reason of what was answered is told after it, and lines that are refused tell theirs."""
        self.assertEqual(self.db.answer("insert t (1, 'b')"), b"error 41 key exists\n")
        self.assertEqual(self.db.reason("insert t (1, 'b')"), "t has a row with the key 1")
        self.refused(41, self.db.execute, "insert t (1, 'b')")
        self.refused(41, self.db.executemany, "insert u (?)", [(1,), (2,), (1,)])
        self.assertEqual(self.db.answer("delete u"), b"ok 2\n")


class Tables(Told):
    """What is told of one table."""

    def setUp(self):
        super().setUp()
        self.of_t = []
        self.db.watch(self.of_t.append, "t")

    def test_its_changes_alone(self):
        self.db.execute("insert u (1)")
        self.assertEqual(self.of_t, [])
        self.db.execute("insert t (3, 'c')")
        self.assertEqual(self.of_t, [self.db.version("t")])

    def test_it_comes_and_goes(self):
        """It is told of when it is dropped, by the number of all, and when it is declared, but not between."""
        self.db.execute("drop table t")
        self.assertEqual(self.of_t, [self.db.version()])
        self.db.execute("insert u (1)")
        self.assertEqual(len(self.of_t), 1)
        self.db.execute("table t (id int)")
        self.assertEqual(self.of_t[1:], [self.db.version("t")])
        self.db.execute("insert t (1)")
        self.assertEqual(self.of_t[2:], [self.db.version("t")])
        self.assertEqual(self.of_t, sorted(set(self.of_t)))

    def test_it_comes_and_goes_by_rollbacks(self):
        self.db.begin()
        self.db.execute("drop table t")
        self.db.rollback()
        self.assertEqual(self.of_t[1:], [self.db.version("t")])
        of_v = []
        self.db.watch(of_v.append, "a_table_of_many_letters")
        self.db.begin()
        self.db.execute("table a_table_of_many_letters (id int)")
        self.db.execute("insert u (1)")
        self.assertEqual(len(of_v), 1)
        self.db.rollback()
        self.assertEqual(of_v[1:], [self.db.version()])
        self.db.execute("insert u (1)")
        self.assertEqual(len(of_v), 2)

    def test_a_number_that_finds_no_memory(self):
        """A table of which nothing can be asked counts as changed."""
        ask = self.db._version
        with unittest.mock.patch.object(self.db, "_version", lambda table: b"error 90 no memory\n" if table else ask(table)):
            self.db.execute("insert u (1)")
            self.assertEqual(self.of_t, [self.db.version()])
            self.db.execute("insert u (2)")
            self.assertEqual(self.of_t[1:], [self.db.version()])
        self.db.execute("insert t (3, 'c')")
        self.assertEqual(self.of_t[2:], [self.db.version("t")])

    def test_a_rollback_tells_each_table(self):
        self.db.begin()
        self.db.execute("insert u (1)")
        self.db.rollback()
        self.assertEqual(self.of_t, [self.db.version("t")])


class Functions(Told):
    """What functions may do."""

    def test_they_read_what_was_changed(self):
        seen = []
        self.db.watch(lambda number: seen.append((number == self.db.version("u"), self.db.dump("u"))), "u")
        self.db.execute("insert u (1)")
        self.db.executemany("insert u (?)", [(number,) for number in range(2, 5)])
        self.assertEqual(seen, [(True, [(1,)]), (True, [(1,), (2,), (3,), (4,)])])

    def test_what_they_change_is_told_once_they_have_returned(self):
        depths, depth = [], 0

        def insert(_):
            nonlocal depth
            depths.append((depth, self.db.count("select * from u")))
            depth += 1
            if len(depths) < 4:
                self.db.execute("insert u (?)", 100 + len(depths))
                self.db.load("u", [(200 + len(depths),)])
            depth -= 1

        self.db.watch(insert, "u")
        self.db.execute("insert u (1)")
        self.assertEqual(depths, [(0, 1), (0, 3), (0, 5), (0, 7)])
        self.assertEqual(self.told[-1], self.db.version())

    def test_they_change_another_table(self):
        of_t = []
        self.db.watch(lambda number: of_t.append((number, self.db.version("t"))), "t")
        self.db.watch(lambda _: self.db.change("update t set s = 'told'"), "u")
        self.db.execute("insert u (1)")
        self.assertEqual(of_t, [(self.db.version("t"),) * 2])

    def test_what_they_raise(self):
        """It is raised by the call, whose change stands, and the others are told."""
        before, after = [], []

        def stop(_):
            raise Stop

        self.watch.close()
        self.db.watch(before.append)
        with self.db.watch(stop):
            self.db.watch(after.append)
            for call in (
                lambda: self.db.execute("insert u (1)"),
                lambda: self.db.execute("insert u (?)", 2),
                lambda: self.db.prepare("insert u (?)").execute(3),
                lambda: self.db.load("u", [(4,)]),
                lambda: self.db.load_csv("u", "id\n5\n"),
                lambda: self.db.executemany("insert u (?)", [(6,), (7,)]),
                lambda: self.db.answer("insert u (8)"),
                lambda: self.db.execute("insert u\n(9)"),
            ):
                with self.assertRaises(Stop) as raised:
                    call()
                self.assertIsNone(raised.exception.__context__)
                self.assertEqual((before[-1], after[-1]), (self.db.version(),) * 2)
            with self.assertRaises(Stop) as raised:
                self.db.executemany("insert u (?)", [(10,), (1,)])
            self.assertIsInstance(raised.exception.__context__, mmdb.Refused)
        self.assertEqual(self.db.dump("u").column("id"), [*range(1, 11)])
        self.assertEqual((len(before), len(after)), (9, 9))
        self.db.execute("insert u (11)")
        self.assertEqual((len(before), len(after)), (10, 10))

    def test_several_raise(self):
        def stop(why):
            def function(_):
                raise why

            return function

        first, second = Stop(), Stop()
        self.db.watch(stop(first))
        self.db.watch(stop(second))
        with self.assertRaises(Stop) as raised:
            self.db.execute("insert u (1)")
        self.assertIs(raised.exception, second)
        self.assertIs(second.__context__, first)
        self.assertIsNone(first.__context__)
        with self.assertRaises(Stop) as raised:
            self.db.executemany("insert u (?)", [(2,), (1,)])
        self.assertIs(second.__context__, first)
        self.assertIsInstance(first.__context__, mmdb.Refused)

    def test_what_is_no_function_and_no_name(self):
        for function, table, why in ((None, "", TypeError), (7, "t", TypeError), (print, "\ud800", ValueError)):
            with self.assertRaisesRegex(why, "^mmdb: "):
                self.db.watch(function, table)
        self.db.execute("insert u (1)")
        self.assertEqual(len(self.told), 1)

    def test_threads(self):
        """Each thread tells what it changed before its call returns, and doesn't wait for the others' functions."""
        told, missed = {}, []

        def tell(number):
            told.setdefault(threading.get_ident(), []).append(number)

        def change(thread):
            mine = told.setdefault(threading.get_ident(), [])
            for number in range(CHANGES):
                count = len(mine)
                self.db.execute("insert u (?)", thread * CHANGES + number)
                if len(mine) != count + 1:
                    missed.append(mine)

        self.db.watch(tell, "u")
        threads = [threading.Thread(target=change, args=(thread,)) for thread in range(THREADS)]
        for thread in threads:
            thread.start()
        for thread in threads:
            thread.join()
        self.assertEqual(missed, [])
        numbers = [number for mine in told.values() for number in mine]
        self.assertEqual(len(numbers), THREADS * CHANGES)
        self.assertEqual((max(numbers), len(set(numbers))), (self.db.version("u"), len(numbers)))
        for mine in told.values():
            self.assertEqual(mine, sorted(mine))

    def test_others_go_on_while_one_is_told(self):
        """A function may wait for another thread that uses the database."""

        def wait(_):
            other = threading.Thread(target=self.db.execute, args=("select * from t",))
            other.start()
            other.join(60)
            self.assertFalse(other.is_alive())
            self.told.append("waited")

        for call in (lambda: self.db.execute("insert u (1)"), lambda: self.db.load("u", ((id,) for id in range(10, 3_000)))):
            with self.db.watch(wait):
                call()
            self.assertEqual(self.told[-1], "waited")

    def test_a_fork_in_a_function(self):
        statuses = []
        with self.db.watch(lambda _: statuses.append(self.status_of_child()), "u"):
            self.db.execute("insert u (1)")
        self.assertEqual(statuses, [3])

    def test_a_fork_while_another_thread_tells(self):
        begun, over = threading.Event(), threading.Event()
        with self.db.watch(lambda _: (begun.set(), over.wait(60)), "u"):
            thread = threading.Thread(target=self.db.execute, args=("insert u (1)",))
            thread.start()
            begun.wait(60)
            status = self.status_of_child()
            over.set()
            thread.join()
        self.assertEqual(status, 3)

    def status_of_child(self):
        """How many changes are told in a child."""
        with warnings.catch_warnings():
            # (that there are other threads)
            warnings.simplefilter("ignore", DeprecationWarning)
            child = os.fork()
        if child:
            return os.waitstatus_to_exitcode(os.waitpid(child, 0)[1])
        told = []
        try:
            self.change_in_child(told)
        finally:
            os._exit(len(told))

    def change_in_child(self, told):
        """Changes this database in a thread, which may be numbered as one that isn't here, and another."""
        thread = threading.Thread(target=self.db.execute, args=("insert t (3, 'c')",))
        with self.db.watch(told.append, "t"):
            thread.start()
            thread.join()
        with mmdb.Database() as other, other.watch(told.append):
            other.execute("table t (id int)")
            other.execute("insert t (1)")


class Ends(Told):
    """What ends a watch."""

    def test_close(self):
        with self.watch as watch:
            self.assertIs(watch, self.watch)
            self.assertFalse(watch.closed)
            self.db.execute("insert u (1)")
        self.assertTrue(watch.closed)
        self.assertIsNone(watch.close())
        self.db.execute("insert u (2)")
        self.assertEqual(len(self.told), 1)
        self.db.watch(self.told.append)
        self.db.execute("insert u (3)")
        self.assertEqual(len(self.told), 2)

    def test_one_of_two_functions_that_are_alike(self):
        other = self.db.watch(self.told.append)
        self.db.execute("insert u (1)")
        self.assertEqual(len(self.told), 2)
        other.close()
        self.db.execute("insert u (2)")
        self.assertEqual((len(self.told), other.closed, self.watch.closed), (3, True, False))

    def test_within_a_function(self):
        told = []

        def once(number):
            told.append(number)
            watch.close()
            later.close()
            self.db.execute("insert u (2)")
            self.db.watch(told.append, "u")
            self.db.execute("insert u (3)")

        watch = self.db.watch(once, "u")
        later = self.db.watch(lambda _: self.fail("it was closed"), "u")
        self.db.execute("insert u (1)")
        self.assertEqual((len(told), told[-1]), (2, self.db.version("u")))

    def test_the_database_is_closed(self):
        def close(_):
            self.db.close()

        self.db.watch(close)
        later = self.db.watch(lambda _: self.fail("the database was closed"))
        self.db.execute("insert u (1)")
        self.assertEqual((len(self.told), self.watch.closed, later.closed), (1, True, True))
        self.assertIsNone(later.close())
        with self.assertRaisesRegex(ValueError, "closed"):
            self.db.watch(print)

    def test_the_database_is_let_go(self):
        """A watch that is left open doesn't keep its database, nor does it take a collection to free that."""
        gc.disable()
        self.addCleanup(gc.enable)
        db = mmdb.Database()
        watch, alive = db.watch(self.told.append), weakref.ref(db)
        db.execute("table t (id int)")
        del db
        self.assertIsNone(alive())
        self.assertTrue(watch.closed)
        self.assertIsNone(watch.close())
        self.assertEqual(len(self.told), 1)

    def test_it_has_no_copies(self):
        with self.assertRaisesRegex(TypeError, "^mmdb: a Watch has no copies$"):
            copy.copy(self.watch)
