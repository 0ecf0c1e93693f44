"""The binding for Python: PEP 249, its transactions, and the classes of its errors."""

import contextlib
import datetime
import pickle
import re
import threading
import unittest

from support import model
from support.binding import mmdb

# How many rows a thread inserts.
INSERTS = 1_000
# By the class of PEP 249, the numbers of the refusals that are of it.
NUMBERS = {
    mmdb.ProgrammingError: (10, 11, 20, *range(30, 40), 45),
    mmdb.IntegrityError: (40, 41, 42, 44),
    mmdb.DataError: (46, 61, 62),
    mmdb.OperationalError: (12, 43, 64, 90),
}


class Errors(unittest.TestCase):
    """The tree of exceptions, and where refusals stand in it."""

    def test_the_tree(self):
        tree = {
            Exception: [mmdb.Warning, mmdb.Error],
            mmdb.Error: [mmdb.InterfaceError, mmdb.DatabaseError],
            mmdb.DatabaseError: [*NUMBERS, mmdb.InternalError, mmdb.NotSupportedError, mmdb.Refused],
        }
        for above, classes in tree.items():
            for each in classes:
                self.assertEqual(each.__bases__, (above,))

    def test_each_refusal_has_its_class(self):
        known = {number for numbers in NUMBERS.values() for number in numbers}
        self.assertEqual({*model.TEXTS, 90} - {13}, known)
        with mmdb.Database(rows=1, block=20) as db:
            raised = {}
            for line, block in (
                ("table t (id int, s text)", None),
                ("table u (id int, t ref t)", None),
                ("insert t (1, 'a')", None),
                ("insert u (1, 1)", None),
                ("x" * 8193, None),
                ("x", None),
                ("drop table t", None),
                ("insert t (1, 'a')", None),
                ("insert u (2, 2)", None),
                ("insert t (2, 'a')", None),
                ("delete t", None),
                ("insert t (1)", None),
                (f"insert t (2, '{'x' * 1025}')", None),
                ("index v id hash", None),
                ("index t id tree", None),
                ("t", "id\n"),
                ("t", "id,s\n1\n"),
                ("t", "id,s\n" + "x" * 20),
            ):
                try:
                    _ = db.execute(line) if block is None else db.load_csv(line, block)
                except mmdb.Refused as why:
                    raised[why.number] = why
        self.assertEqual(sorted(raised), [10, 12, 20, 30, 39, 40, 41, 42, 43, 44, 45, 46, 61, 62])
        for number, why in raised.items():
            is_of = [each for each, numbers in NUMBERS.items() if isinstance(why, each)]
            self.assertEqual([number in NUMBERS[each] for each in is_of], [True], number)
            again = pickle.loads(pickle.dumps(why))
            self.assertEqual((type(again), vars(again), str(again)), (type(why), vars(why), str(why)))
        for each in (mmdb.Refused, mmdb.OperationalError, MemoryError):
            self.assertTrue(issubclass(mmdb.NoMemory, each))

    def test_what_is_declined_has_its_class(self):
        for each, above in (
            (mmdb.NoTransaction, mmdb.ProgrammingError),
            (mmdb.InTransaction, mmdb.NotSupportedError),
            (mmdb.Shared, mmdb.OperationalError),
        ):
            self.assertEqual(each.__bases__, (above,))

    def test_wrong_use_is_an_error_of_both_kinds(self):
        with mmdb.Database() as db:
            db.execute("table t (id int, s text)")
            for classes, call in (
                ((mmdb.ProgrammingError, ValueError), lambda: db.execute("insert t (?, ?)", 1)),
                ((mmdb.ProgrammingError, TypeError), lambda: db.execute("insert t (1, ?)", 1.5)),
                ((mmdb.ProgrammingError, TypeError), lambda: db.select("tables")),
                ((mmdb.ProgrammingError, ValueError), lambda: db.execute("drop table ?", "\n")),
                ((mmdb.ProgrammingError, ValueError), lambda: db.prepare("delete t").executemany([(1,)])),
                ((mmdb.DataError, ValueError), lambda: db.execute("insert t (1, ?)", "\ud800")),
                ((mmdb.DataError, ValueError), lambda: db.execute("insert t (?, '')", 2**63)),
            ):
                for each in classes:
                    self.assertRaises(each, call)


class Connections(unittest.TestCase):
    """What PEP 249 asks for."""

    def setUp(self):
        self.connection = mmdb.connect()
        self.addCleanup(self.connection.close)
        self.cursor = self.connection.cursor()
        self.cursor.execute("table t (id int, s text)")

    def test_the_module(self):
        self.assertEqual((mmdb.apilevel, mmdb.threadsafety, mmdb.paramstyle), ("2.0", 2, "qmark"))

    def test_the_names_of_types_and_constructors(self):
        day, noon = datetime.date(2026, 5, 28), datetime.datetime(2026, 5, 28, 12)
        self.assertEqual((mmdb.Date(2026, 5, 28), mmdb.Timestamp(2026, 5, 28, 12), mmdb.Time(12)), (day, noon, noon.time()))
        ticks = noon.timestamp()
        self.assertEqual((mmdb.DateFromTicks(ticks), mmdb.TimestampFromTicks(ticks), mmdb.TimeFromTicks(ticks)), (day, noon, noon.time()))
        self.cursor.execute("insert t (1, ?)", (mmdb.DateFromTicks(ticks),))
        self.assertEqual(self.connection.database.dump("t"), [(1, "2026-05-28")])
        self.assertRaises(mmdb.ProgrammingError, self.cursor.execute, "insert t (2, ?)", (mmdb.Binary(b"a"),))
        for each, types in ((mmdb.DATETIME, (datetime.date, datetime.datetime, datetime.time)), (mmdb.BINARY, (bytes,)), (mmdb.ROWID, ())):
            self.assertEqual([kind for kind in (int, str, bytes, datetime.date, datetime.datetime, datetime.time, None) if each == kind], [
                kind for kind in (bytes, datetime.date, datetime.datetime, datetime.time) if kind in types
            ])
            self.assertTrue(each in {each} and each == each and each != mmdb.NUMBER and mmdb.STRING != each)

    def test_the_exceptions_of_a_connection(self):
        for name in ("Warning", "Error", "InterfaceError", "InternalError", "NotSupportedError", "DatabaseError", *(each.__name__ for each in NUMBERS)):
            self.assertIs(getattr(self.connection, name), getattr(mmdb, name))

    def test_where_a_cursor_is(self):
        self.assertEqual((self.cursor.rownumber, self.cursor.lastrowid), (None, None))
        self.connection.database.load("t", ((number, "") for number in range(5)))
        self.cursor.execute("select id from t")
        self.assertEqual((self.cursor.rownumber, self.cursor.fetchone(), self.cursor.rownumber), (0, (0,), 1))
        for value, mode, at in ((2, "relative", 3), (-3, "relative", 0), (5, "absolute", 5), (1, "absolute", 1)):
            self.cursor.scroll(value, mode)
            self.assertEqual(self.cursor.rownumber, at)
        for value, mode in ((-2, "relative"), (5, "relative"), (-1, "absolute"), (6, "absolute")):
            with self.assertRaises(IndexError):
                self.cursor.scroll(value, mode)
        self.assertRaises(mmdb.ProgrammingError, self.cursor.scroll, 1, "backwards")
        self.cursor.scroll(1)
        self.assertEqual(self.cursor.fetchone(), (2,))
        self.assertIsNone(self.cursor.nextset())
        for call in (self.cursor.fetchone, lambda: self.cursor.scroll(1)):
            self.assertRaises(mmdb.ProgrammingError, call)

    def test_no_procedures(self):
        self.assertRaises(mmdb.NotSupportedError, self.cursor.callproc, "f", (1,))

    def test_a_cursor_as_a_context_manager(self):
        with self.connection.cursor() as cursor:
            cursor.execute("select * from t")
        self.check_closed(cursor, "the cursor is closed")

    def test_changes(self):
        self.assertEqual((self.cursor.rowcount, self.cursor.description), (-1, None))
        for operation, parameters, count in (
            ("insert t (?, ?)", (1, "a"), 1),
            ("insert t (?, ?)", [2, "b"], 1),
            ("insert t (:id, :s)", {"id": 3, "s": "c"}, 1),
            ("update t set s = 'd' where id > ?", (1,), 2),
            ("delete t where id = 9", (), 0),
        ):
            self.assertIs(self.cursor.execute(operation, parameters), self.cursor)
            self.assertEqual((self.cursor.rowcount, self.cursor.description), (count, None), operation)
        self.cursor.executemany("insert t (?, ?)", [(4, "d"), (5, "e")])
        self.assertEqual(self.cursor.rowcount, 2)
        self.connection.commit()
        self.assertEqual(self.connection.database.dump("t"), [[1, "a"], [2, "d"], [3, "d"], [4, "d"], [5, "e"]])

    def test_rows_are_fetched(self):
        self.connection.database.load("t", ((number, str(number)) for number in range(10)))
        self.cursor.execute("select * from t where id < ?", (9,))
        columns = [("id", mmdb.NUMBER), ("s", mmdb.STRING)]
        self.assertEqual(self.cursor.description, [(*column, None, None, None, None, None) for column in columns])
        self.assertEqual(self.cursor.rowcount, 9)
        self.assertEqual((self.cursor.fetchone(), self.cursor.fetchmany()), ([0, "0"], [[1, "1"]]))
        self.cursor.arraysize = 2
        self.assertEqual((self.cursor.fetchmany(), self.cursor.fetchmany(1)), ([[2, "2"], [3, "3"]], [[4, "4"]]))
        self.assertEqual((self.cursor.fetchmany(0), self.cursor.fetchmany(-1), next(self.cursor).s), ([], [], "5"))
        self.assertEqual((self.cursor.fetchall(), self.cursor.fetchall()), ([[6, "6"], [7, "7"], [8, "8"]], []))
        self.assertEqual((self.cursor.fetchone(), self.cursor.fetchmany(2), list(self.cursor)), (None, [], []))
        self.assertEqual([row.id for row in self.cursor.execute("select id from t where id > 7")], [8, 9])
        self.assertEqual(self.cursor.execute("select * from t where id > 9").fetchall(), [])
        self.assertEqual((self.cursor.rowcount, self.cursor.description[1][0]), (0, "s"))

    def test_cursors_stand_by_themselves(self):
        other = self.connection.cursor().execute("insert t (1, 'a')").execute("select * from t")
        self.cursor.execute("delete t")
        self.assertEqual((other.fetchall(), other.connection), ([[1, "a"]], self.connection))

    def test_texts_that_are_answered(self):
        for operation, text in (("tables", "table t (id int, s text)\n"), ("\tdump t", "load t 5\nid,s\n")):
            self.cursor.execute(operation)
            self.assertEqual(self.cursor.description[0][:2], (operation.split()[0], mmdb.STRING))
            self.assertEqual(self.cursor.fetchall(), [[text]])

    def test_nothing_to_fetch(self):
        for operation in (None, "insert t (1, 'a')", "# select", "drop table t"):
            self.connection.commit()
            cursor = self.connection.cursor() if operation is None else self.cursor.execute(operation)
            for fetch in (cursor.fetchone, cursor.fetchmany, cursor.fetchall, lambda cursor=cursor: next(cursor)):
                with self.assertRaisesRegex(mmdb.ProgrammingError, "no rows to fetch"):
                    fetch()

    def test_what_fails_leaves_no_rows(self):
        for error, operation, parameters in (
            (mmdb.IntegrityError, "insert t (1, 'b')", ()),
            (mmdb.ProgrammingError, "selct", ()),
            (mmdb.ProgrammingError, "select * from u", ()),
            (mmdb.ProgrammingError, "insert t (?, ?)", (1,)),
            (mmdb.ProgrammingError, "delete t where s = ?", "a"),
            (mmdb.ProgrammingError, "delete t where s = ?", b"a"),
            (mmdb.ProgrammingError, "delete t where s = ?", 1),
            (mmdb.ProgrammingError, "delete t where s = ?", None),
            (mmdb.ProgrammingError, "delete t where s = ?", (datetime.timedelta(1),)),
            (mmdb.ProgrammingError, "delete t where s = :s", {"t": 1}),
            (mmdb.ProgrammingError, None, ()),
            (mmdb.DataError, "delete t where id <> ?", (2**63,)),
        ):
            self.connection.database.execute("delete t")
            self.connection.database.execute("insert t (1, 'a')")
            self.cursor.execute("select * from t")
            with self.subTest(operation=operation, parameters=parameters):
                self.assertRaises(error, self.cursor.execute, operation, parameters)
                self.assertRaises(mmdb.ProgrammingError, self.cursor.fetchall)
                self.assertEqual((self.cursor.description, self.cursor.rowcount), (None, -1))
                self.assertFalse(self.connection.database.in_transaction)
        self.assertRaises(mmdb.ProgrammingError, self.cursor.executemany, "select * from t", [()])
        self.assertEqual(self.connection.database.dump("t"), [[1, "a"]])

    def test_what_is_refused_tells_the_reason(self):
        self.cursor.execute("insert t (1, 'a')")
        for error, told, call, *given in (
            (mmdb.IntegrityError, "41 key exists: column 11: t has a row with the key 1", self.cursor.execute, (1, "b")),
            (mmdb.IntegrityError, "41 key exists: column 11: t has a row with the key 1", self.cursor.executemany, [(2, "b"), (1, "b")]),
            (mmdb.DataError, "46 text too long: column 14: the text for column s has 1025 bytes, and 1024 are allowed", self.cursor.execute, (1, "b" * 1025)),
            (mmdb.ProgrammingError, "35 wrong type: column 11: column id of t has integers, and 'a' is a text", self.cursor.execute, ("a", "b")),
        ):
            with self.subTest(given=given), self.assertRaises(error) as raised:
                call("insert t (?, ?)", *given)
            self.assertEqual(str(raised.exception).split("\n")[0], f"error {told}")

    def test_sizes_are_taken(self):
        self.cursor.setinputsizes([int])
        self.cursor.setoutputsize(10)
        self.cursor.setoutputsize(10, 0)
        self.assertEqual(self.cursor.rowcount, -1)

    def check_closed(self, cursor, why):
        for call in (
            lambda: cursor.execute("tables"),
            lambda: cursor.executemany("insert t (?, ?)", []),
            cursor.fetchone,
            cursor.fetchmany,
            cursor.fetchall,
            lambda: next(cursor),
        ):
            with self.assertRaisesRegex(mmdb.ProgrammingError, why):
                call()

    def test_a_closed_cursor(self):
        with contextlib.closing(self.cursor.execute("select * from t")):
            pass
        self.cursor.close()
        self.check_closed(self.cursor, "the cursor is closed")
        self.assertEqual(self.connection.cursor().execute("select * from t").fetchall(), [])

    def test_a_closed_connection(self):
        with contextlib.closing(self.connection) as connection:
            self.cursor.execute("select * from t")
        connection.close()
        self.check_closed(self.cursor, "the connection is closed")
        for call in (connection.cursor, connection.commit, connection.rollback):
            with self.assertRaisesRegex(mmdb.ProgrammingError, re.escape("the connection is closed")):
                call()
        self.cursor.close()


class Stop(Exception):
    """What ends a block."""


class WithRows(unittest.TestCase):
    """A connection with a table of one row."""

    autocommit = False

    def setUp(self):
        self.connection = mmdb.connect(autocommit=self.autocommit)
        self.addCleanup(self.connection.close)
        self.database = self.connection.database
        self.cursor = self.connection.cursor()
        self.cursor.execute("table t (id int, s text)")
        self.database.execute("insert t (1, 'a')")

    def check(self, rows, is_open):
        self.assertEqual((self.database.dump("t"), self.database.in_transaction), (rows, is_open))

    def rows(self):
        return self.connection.cursor().execute("select * from t").fetchall()


class Transactions(WithRows):
    """A change begins one, which a commit or a rollback ends."""

    def test_a_change_begins_one_and_nothing_else_does(self):
        self.assertIs(self.connection.autocommit, False)
        for operation in ("select * from t", "tables", "dump t", "# insert", "", "index t s hash", "drop index t s hash"):
            self.cursor.execute(operation)
            self.check([(1, "a")], False)
        for operation, parameters in (
            ("insert t (2, 'b')", ()),
            ("update t set s = ?", ("b",)),
            (" delete t where id = 9", ()),
            ("# one more\ninsert t (:id,\n :s)", {"id": 3, "s": "c"}),
        ):
            self.cursor.execute(operation, parameters)
            self.assertTrue(self.database.in_transaction)
            self.cursor.execute("delete t where id = 1")
            # (which ends the innermost)
            self.database.rollback()
            self.check([(1, "a")], False)
        self.cursor.executemany("insert t (?, 'b')", [(2,)])
        self.check([(1, "a"), (2, "b")], True)

    def test_a_commit_keeps_and_a_rollback_undoes(self):
        for end, rows in ((self.connection.rollback, [(1, "a")]), (self.connection.commit, [(2, "b"), (3, "c"), (4, "b")])):
            self.cursor.executemany("insert t (?, ?)", [(2, "x"), (3, "c"), (4, "b")])
            self.cursor.execute("update t set s = ? where id = ?", ("b", 2))
            self.cursor.execute("delete t where s = ?", ("a",))
            self.assertEqual((self.cursor.rowcount, self.rows()), (1, [(2, "b"), (3, "c"), (4, "b")]))
            for _ in range(2):
                self.assertIsNone(end())
                self.check(rows, False)
        self.connection.rollback()
        self.check(rows, False)

    def test_one_that_is_refused_begins_none(self):
        for operation, parameters in (("insert t (1, 'b')", ()), ("insert t (2, ?)", ()), ("delete u", ()), ("update t set s = 1", ())):
            self.assertRaises(mmdb.DatabaseError, self.cursor.execute, operation, parameters)
            self.check([(1, "a")], False)
        self.cursor.execute("insert t (2, 'b')")
        self.assertRaises(mmdb.IntegrityError, self.cursor.execute, "insert t (2, 'c')")
        self.check([(1, "a"), (2, "b")], True)

    def test_many_of_which_one_is_refused(self):
        for rows in ([(2, "b"), (3,)], [(2, "b"), 3], [(2, "b"), (3, 1.5)]):
            self.assertRaises(mmdb.ProgrammingError, self.cursor.executemany, "insert t (?, ?)", rows)
            self.check([(1, "a")], False)
        self.assertRaises(mmdb.IntegrityError, self.cursor.executemany, "insert t (?, ?)", iter([(2, "b"), (1, "c"), (3, "d")]))
        self.check([(1, "a"), (2, "b")], True)
        self.connection.rollback()
        self.check([(1, "a")], False)
        self.assertRaises(mmdb.IntegrityError, self.cursor.executemany, "insert t (?, ?)", [(1, "c"), (2, "b")])
        self.check([(1, "a")], True)

    def test_declarations_begin_none(self):
        self.cursor.execute("table u (id int)").execute("index t s hash")
        self.check([(1, "a")], False)
        self.cursor.execute("insert u (1)")
        self.connection.rollback()
        self.assertEqual((self.database.dump("u"), self.database.in_transaction), ([], False))
        self.cursor.execute("drop table u").execute("drop index t s hash")
        self.assertEqual(self.database.execute("tables"), "table t (id int, s text)\n")

    def test_declarations_are_part_of_one(self):
        for end, declared in ((self.connection.rollback, ""), (self.connection.commit, "index t s hash\ntable u (id int, t ref t)\n")):
            self.cursor.execute("insert t (2, 'b')")
            self.cursor.execute("index t s hash").execute("table u (id int, t ref t)")
            self.cursor.executemany("insert u (?, ?)", [(1, 2), (2, 1)])
            self.assertEqual(self.cursor.execute("select id from u where t = ?", (2,)).fetchall(), [(1,)])
            self.check([(1, "a"), (2, "b")], True)
            end()
            self.assertEqual(self.database.execute("tables"), f"table t (id int, s text)\n{declared}")
        self.check([(1, "a"), (2, "b")], False)
        self.assertEqual(self.database.dump("u"), [(1, 2), (2, 1)])

    def test_drops_are_part_of_one(self):
        self.cursor.execute("table u (id int, t ref t)").execute("index t s hash")
        self.database.execute("insert u (7, 1)")
        before = self.database.execute("tables")
        for end, declared in ((self.connection.rollback, before), (self.connection.commit, "table t (id int, s text)\n")):
            self.cursor.execute("insert t (2, 'b')")
            self.assertRaises(mmdb.IntegrityError, self.cursor.execute, "drop table t")
            self.cursor.execute("drop table u").execute("drop index t s hash")
            self.assertRaises(mmdb.ProgrammingError, self.cursor.execute, "select * from u")
            self.assertEqual(self.cursor.execute("select id from t where s = 'b'").fetchall(), [(2,)])
            self.check([(1, "a"), (2, "b")], True)
            end()
            self.assertEqual(self.database.execute("tables"), declared)
            if declared == before:
                self.assertEqual((self.database.dump("u"), self.rows()), ([(7, 1)], [(1, "a")]))
        self.check([(1, "a"), (2, "b")], False)
        self.assertRaises(mmdb.ProgrammingError, self.database.dump, "u")

    def test_a_block_commits_and_an_exception_rolls_back(self):
        with self.connection as given:
            self.cursor.execute("insert t (2, 'b')")
        self.assertIs(given, self.connection)
        self.check([(1, "a"), (2, "b")], False)
        for raised in (Stop, KeyboardInterrupt):
            with self.assertRaises(raised), self.connection:
                self.cursor.execute("delete t")
                raise raised
            self.check([(1, "a"), (2, "b")], False)
        with self.connection:
            pass
        with self.assertRaises(Stop), self.connection:
            self.cursor.execute("delete t")
            self.connection.close()
            raise Stop
        with self.assertRaisesRegex(mmdb.ProgrammingError, "the connection is closed"), self.connection:
            self.cursor.execute("delete t")

    def test_savepoints_of_the_database_end_too(self):
        for end, rows in ((self.connection.rollback, [(1, "a")]), (self.connection.commit, [(1, "a"), (2, "b"), (4, "d")])):
            self.cursor.execute("insert t (2, 'b')")
            with self.assertRaises(Stop), self.database.transaction():
                self.cursor.execute("insert t (3, 'c')")
                raise Stop
            self.database.begin()
            self.cursor.execute("insert t (4, 'd')")
            end()
            self.check(rows, False)

    def test_the_calls_of_the_database_begin_none(self):
        self.database.load("t", [(2, "b")])
        self.connection.rollback()
        self.check([(1, "a"), (2, "b")], False)
        self.cursor.execute("delete t where id = 2")
        self.database.load("t", [(3, "c")])
        self.connection.rollback()
        self.check([(1, "a"), (2, "b")], False)

    def test_it_is_of_all_cursors_and_threads(self):
        for call in (lambda: self.cursor.execute("insert t (2, 'b')"), lambda: self.connection.cursor().execute("delete t where id = 1")):
            thread = threading.Thread(target=call)
            thread.start()
            thread.join()
        self.check([(2, "b")], True)
        self.connection.rollback()
        self.check([(1, "a")], False)

    def test_nothing_is_kept_that_no_thread_commits(self):
        def insert(keys):
            cursor = self.connection.cursor()
            for key in keys:
                cursor.execute("insert t (?, 'b')", (key,))

        threads = [threading.Thread(target=insert, args=(range(first, first + INSERTS),)) for first in (10, 10 + INSERTS)]
        for thread in threads:
            thread.start()
        while any(thread.is_alive() for thread in threads):
            self.connection.rollback()
        self.connection.rollback()
        self.check([(1, "a")], False)

    def test_none_begins_while_tables_are_shared(self):
        with self.database.reader():
            self.assertRaises(mmdb.OperationalError, self.cursor.execute, "insert t (2, 'b')")
            self.assertEqual(self.rows(), [(1, "a")])
            self.connection.commit()
        self.cursor.execute("insert t (2, 'b')")
        self.assertRaises(mmdb.NotSupportedError, self.database.reader)

    def test_rows_stay(self):
        self.cursor.execute("insert t (2, 'b')").execute("select * from t")
        self.connection.rollback()
        self.assertEqual((self.cursor.fetchall(), self.rows()), ([(1, "a"), (2, "b")], [(1, "a")]))

    def test_a_close_commits_nothing(self):
        self.cursor.execute("insert t (2, 'b')")
        self.connection.close()
        self.assertFalse(self.database.in_transaction)
        with contextlib.closing(mmdb.connect()) as other:
            self.assertEqual(other.database.execute("tables"), "")


class Autocommit(WithRows):
    """Each change is final."""

    autocommit = True

    def test_each_change_is_final(self):
        self.assertIs(self.connection.autocommit, True)
        self.cursor.execute("insert t (2, 'b')")
        self.cursor.execute("update t set s = 'c' where id = 1")
        self.assertRaises(mmdb.IntegrityError, self.cursor.executemany, "insert t (?, 'd')", [(3,), (2,), (4,)])
        self.check([(1, "c"), (2, "b"), (3, "d")], False)
        self.connection.commit()
        with self.assertRaisesRegex(mmdb.NotSupportedError, "each change is final by autocommit"):
            self.connection.rollback()
        self.cursor.execute("index t s hash").execute("drop table t")
        self.assertEqual(self.database.execute("tables"), "")

    def test_the_end_of_a_block_does_nothing(self):
        with self.connection:
            self.cursor.execute("insert t (2, 'b')")
        with self.assertRaises(Stop), self.connection:
            self.cursor.execute("insert t (3, 'c')")
            raise Stop
        self.check([(1, "a"), (2, "b"), (3, "c")], False)
