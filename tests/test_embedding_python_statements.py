"""The binding for Python: statements that are prepared and kept, their parameters, and that they do what lines do."""

import ast
import copy
import functools
import gc
import itertools
import pickle
import random
import signal
import threading
import unittest
import weakref

from support import binding, drawn, embedding, model
from support.binding import mmdb

SEED = 20261126
STATEMENTS = 10_000


class Statements(binding.WithDatabase):
    """What `prepare` gives."""

    def setUp(self):
        super().setUp()
        self.db.execute("table dept (id int, name text)")
        self.db.execute("table emp (id int, name text, dept ref dept null)")
        self.db.load("dept", [(10, "toys"), (20, "shoes")])
        self.db.load("emp", [(1, "Ann", 20), (2, "Bob", None), (3, "Cy?", 20)])

    def test_what_execute_gives(self):
        for line, parameters, given in (
            ("select * from emp where id < ?", (3,), [[1, "Ann", 20], [2, "Bob", None]]),
            ("select * from emp where dept = ?", (None,), [[2, "Bob", None]]),
            ("select distinct dept from emp", (), [[None], [20]]),
            (" select\tname from emp where name = 'Cy?' and id=?", (3,), [["Cy?"]]),
            ("insert emp (?, ?, ?)", (4, "it's", 10), 1),
            ("update emp set name = ?, dept = ? where id >= ?", ("D", None, 3), 2),
            ("delete emp where id = ? and name = ?", (4, "d"), 0),
            ("delete emp where id = ? and name = ?\r", (4, "D"), 1),
            ("select emp.id, dept.name from emp join dept on emp.dept = dept.id", (), [[1, "shoes"]]),
        ):
            with self.subTest(line=line), self.db.prepare(line) as statement:
                self.assertEqual(statement.execute(*parameters), given)
        self.assertEqual(self.db.dump("emp"), [[1, "Ann", 20], [2, "Bob", None], [3, "D", None]])

    def test_parameters_by_name(self):
        statement = self.db.prepare("select id from emp where id >= :x and id <= :x and name <> :name")
        self.assertEqual(statement.execute(name="", x=2), [[2]])
        self.assertEqual(statement.execute({"x": 3, "name": "Ann"}), [[3]])
        for why, given, named in (
            ("no parameter is given for :name$", (), {"x": 1}),
            ("no place :y$", (), {"x": 1, "name": "", "y": 2}),
            ("by its name", (1, "a"), {}),
            ("by its name", (1,), {"name": ""}),
        ):
            with self.subTest(given=given, named=named), self.assertRaisesRegex(ValueError, why):
                statement.execute(*given, **named)

    def test_names(self):
        for line, names in (
            ("select * from emp where id < ? and name = ?", ("emp.id", "emp.name", "emp.dept")),
            ("select dept.name, emp.id from emp join dept on emp.dept = dept.id where dept.id > ?", ("dept.name", "emp.id")),
            ("select name from dept", ("dept.name",)),
            ("insert emp (?, ?, ?)", ()),
            ("delete emp where id = ?", ()),
        ):
            with self.subTest(line=line), self.db.prepare(line) as statement:
                self.assertEqual((statement.names, statement.line), (names, line))

    def test_rows_have_names_and_types(self):
        statement = self.db.prepare("select name, dept from emp where id = ?")
        for key, rows in ((1, [["Ann", 20]]), (7, []), (2, [["Bob", None]])):
            found = statement.execute(key)
            self.assertEqual((type(found), found, found.names, found.types), (mmdb.Rows, rows, ("emp.name", "emp.dept"), (str, int)))
            self.assertEqual([row.name for row in found], [row[0] for row in rows])

    def test_rows_are_copies(self):
        statement = self.db.prepare("select * from emp where id <= ?")
        kept = [statement.execute(key) for key in (3, 1, 2, 0)]
        self.db.change("delete emp")
        self.assertEqual(statement.execute(9), [])
        statement.close()
        self.db.close()
        all_rows = [[1, "Ann", 20], [2, "Bob", None], [3, "Cy?", 20]]
        self.assertEqual(kept, [all_rows, all_rows[:1], all_rows[:2], []])

    def test_while_its_rows_are_read(self):
        statement = self.db.prepare("select id from emp where id > ?")
        found = [[row.id, [other.id for other in statement.execute(row.id)]] for row in statement.execute(0)]
        self.assertEqual(found, [[1, [2, 3]], [2, [3]], [3, []]])

    def test_executemany(self):
        with self.db.prepare("insert emp (?, ?, null)") as statement:
            self.assertEqual(statement.executemany((number, str(number)) for number in range(10, 20)), 10)
            self.assertEqual(statement.executemany([[20, "a"], (21, "b")]), 2)
            self.assertEqual(statement.executemany([]), 0)
            why = self.refused(41, statement.executemany, [(22, "c"), (10, "it's"), (23, "d")])
            self.assertEqual(why.line, "insert emp (10, 'it''s', null)")
            for wrong, row, told in (
                (ValueError, (24,), "2 places for 1 parameters .row 2."),
                (ValueError, (2**63, "a"), "64 bits .row 2."),
                (ValueError, (24, "\ud800"), "surrogate.* .row 2."),
                (TypeError, (24, 1.5), "not float.* .row 2."),
                (TypeError, (24, (1,)), "not tuple; pass .values .row 2."),
                (TypeError, "ab", "not str .row 2."),
            ):
                with self.subTest(row=row), self.assertRaisesRegex(wrong, told):
                    statement.executemany([(30, "e"), row])
        with self.db.prepare("update emp set name = :name where id = :id") as statement:
            self.assertEqual(statement.executemany({"id": id, "name": "z"} for id in (20, 21, 99)), 2)
        with self.db.prepare("select * from emp") as statement, self.assertRaisesRegex(TypeError, "insert, update, delete"):
            statement.executemany([()])
        self.assertEqual([row.id for row in self.db.dump("emp")], [1, 2, 3, *range(10, 23)])

    def test_many_rows_of_parameters(self):
        rows = [(number, f"é{number}" if number % 3 else "", None if number % 2 else 10) for number in range(100, 5_100)]
        self.assertEqual(self.db.executemany("insert emp (?, ?, ?)", rows), len(rows))
        self.assertEqual(self.db.select("select * from emp where id >= 100"), list(map(list, rows)))

    def test_lines_of_another_kind(self):
        for line in ("tables", "table t (id int)", "dump emp", "load emp 0", "drop table emp", "# select", "", "\r"):
            with self.subTest(line=line), self.assertRaisesRegex(TypeError, "prepare takes a line that begins with insert, "):
                self.db.prepare(line)
        for line in (None, b"select * from emp", 5):
            with self.subTest(line=line), self.assertRaisesRegex(TypeError, "a line is a str"):
                self.db.prepare(line)
        for line in ("select * from emp where name = '\n'", "insert emp (?, :name, null)", "delete emp where name = '\ud800'"):
            with self.subTest(line=line), self.assertRaises(ValueError):
                self.db.prepare(line)

    def test_what_is_refused_whatever_the_values_are(self):
        for number, line, told, reason in (
            (20, "selct * from emp", "selct * from emp", "column 1: selct is no statement: is select meant?"),
            (20, "select * from emp where id ? 1", "select * from emp where id null 1", "column 28"),
            (20, "select ? from emp", "select null from emp", "column 8: wanted distinct, * or a column's name, found ?"),
            (20, "select :a from emp", "select null from emp", "column 8: wanted distinct, * or a column's name, found :a"),
            (20, "select * from emp\r\r", "select * from emp\r\r", "column 18"),
            (20, "insert emp (:id, :name, x)", "insert emp (null, null, x)", "column 25: x is no value: a text stands between quote marks"),
            (30, "select * from nowhere where id = ?", "select * from nowhere where id = null", "nowhere is no table"),
            (32, "delete emp where salary = ?", "delete emp where salary = null", "salary is no column of emp"),
            (35, "insert emp ('1', ?, ?)", "insert emp ('1', null, null)", "column id of emp has integers, and '1' is a text"),
            (45, "insert emp (?)", "insert emp (null)", "a row of emp has a value for each column: 3, not 1"),
        ):
            with self.subTest(line=line):
                why = self.refused(number, self.db.prepare, line)
                self.assertEqual((why.line, why.written), (told, line))
                self.assertIn(reason, why.reason)

    def test_refusals_of_values(self):
        insert, update = self.db.prepare("insert emp (?, ?, ?)"), self.db.prepare("update emp set dept = ? where id = ?")
        long = "é" * 513
        for number, statement, parameters, line, reason in (
            (35, insert, ("4", "D", 10), "insert emp ('4', 'D', 10)", "column 13: column id of emp has integers, and '4' is a text"),
            (35, insert, (4, None, 10), "insert emp (4, null, 10)", "column 16: column name of emp takes no null"),
            (35, insert, (4, "D", "toys"), "insert emp (4, 'D', 'toys')", "column 19: column dept of emp has integers, and 'toys' is a text"),
            (35, update, (10, None), "update emp set dept = 10 where id = null", "column 36: column id of emp takes no null"),
            (41, insert, (1, "D", 10), "insert emp (1, 'D', 10)", "column 13: emp has a row with the key 1"),
            (42, insert, (4, "D", 11), "insert emp (4, 'D', 11)", "column 19: dept has no row with the key 11, which column dept names"),
            (42, update, (11, 1), "update emp set dept = 11 where id = 1", "column 23: dept has no row with the key 11, which column dept names"),
            (46, insert, (4, long, 10), f"insert emp (4, '{long}', 10)", "column 16: the text for column name has 1026 bytes, and 1024 are allowed"),
        ):
            with self.subTest(parameters=parameters):
                why = self.refused(number, statement.execute, *parameters)
                self.assertEqual((why.line, why.written, why.reason), (line, statement.line, reason))
        self.assertEqual(insert.execute(4, "é" * 512, 10), 1)
        self.assertEqual(self.db.select("select name from emp where id = 4"), [["é" * 512]])
        self.assertEqual(self.refused_somehow(46, insert.execute, 5, "x" * 100_000, 10).line, f"insert emp (5, '{'x' * 100_000}', 10)")
        why = self.refused(41, insert.execute, 4, "a\n", 10)
        self.assertEqual((why.line, why.reason), ("insert emp (4, 'a\n', 10)", "column 13: emp has a row with the key 4"))

    def test_refusals_of_values_by_name(self):
        """The columns are those of the line as it was written."""
        line = "update emp set name='é :id ?',dept=:dept where id=:who and name<>:name"
        statement, given = self.db.prepare(line), {"dept": 10, "who": 1, "name": "D"}
        for number, named, reason in (
            (42, {"dept": 11}, "column 36: dept has no row with the key 11, which column dept names"),
            (35, {"who": "1"}, "column 51: column id of emp has integers, and '1' is a text"),
            (35, {"name": 5}, "column 66: column name of emp has texts, and 5 is an integer"),
        ):
            for call in (statement.execute, functools.partial(self.db.execute, line)):
                with self.subTest(named=named):
                    why = self.refused(number, call, {**given, **named})
                    self.assertEqual((why.written, why.reason), (line, reason))

    def test_values_that_are_none(self):
        statement = self.db.prepare("insert emp (?, ?, ?)")
        for wrong, why, values in (
            (ValueError, "3 places for 2 parameters", (4, "D")),
            (ValueError, "3 places for 4 parameters", (4, "D", 10, 10)),
            (ValueError, "3 places for 0 parameters", ()),
            (TypeError, r"pass \*values", ((4, "D", 10),)),
            (TypeError, "not float", (4.0, "D", 10)),
            (TypeError, "not bytes", (4, b"D", 10)),
            (TypeError, "not list; pass", ([4], "D", 10)),
            (ValueError, "64 bits", (2**63, "D", 10)),
            (ValueError, "64 bits", (4, "D", -(2**63) - 1)),
            (ValueError, "64 bits", (10**5000, "D", 10)),
            (ValueError, "lone surrogate", (4, "D\udcff", 10)),
        ):
            for call in (statement.execute, lambda *values: self.db.change("insert emp (?, ?, ?)", *values)):
                with self.subTest(values=values), self.assertRaisesRegex(wrong, why):
                    call(*values)
        self.assertEqual(len(self.db.dump("emp")), 3)

    def test_each_value_comes_back(self):
        insert, find = self.db.prepare("insert dept (?, ?)"), self.db.prepare("select * from dept where id = ? and name = ?")
        integers = [-(2**63), 2**63 - 1, -1, 0, 2**31, -(2**31) - 1]
        texts = ["", "\0", "a\0b", "'", "''", "?", ":id", "null", "1", "\r", "\U0010ffff", "\ufffe", "x" * 1024]
        for row in itertools.zip_longest(integers, texts, fillvalue=None):
            row = [100 + len(texts) + texts.index(row[1]) if row[0] is None else row[0], row[1]]
            with self.subTest(row=row):
                self.assertEqual((insert.execute(*row), find.execute(*row)), (1, [row]))

    def test_a_text_in_a_place_stays_in_it(self):
        draw = random.Random(SEED)
        statement = self.db.prepare("select id from emp where name = ?")
        for _ in range(500):
            text = embedding.text(draw) + draw.choice(embedding.BREAKS)
            self.assertEqual(statement.execute(text), [])
        self.assertEqual(len(self.db.dump("emp")), 3)

    def test_a_closed_statement(self):
        statement = self.db.prepare("delete emp where id = ?")
        self.assertFalse(statement.closed)
        with statement as same:
            self.assertIs(same, statement)
        statement.close()
        self.assertTrue(statement.closed)
        for call in (
            lambda: statement.execute(1),
            lambda: statement.execute(),
            lambda: statement.execute(id=1),
            lambda: statement.executemany([(1,)]),
            lambda: statement.names,
        ):
            with self.assertRaisesRegex(ValueError, "the statement is closed"):
                call()
        self.assertEqual(len(self.db.dump("emp")), 3)

    def test_one_that_is_closed_twice_frees_no_other(self):
        """Its number may be that of another by then."""
        closed = [self.db.prepare("select id from emp where id > ?") for _ in range(10)]
        for statement in closed:
            statement.close()
        others = [self.db.prepare("select name from emp where id = ?") for _ in range(10)]
        for statement in closed:
            statement.close()
            with self.assertRaisesRegex(ValueError, "the statement is closed"):
                statement.execute(1)
        self.assertEqual([other.execute(1) for other in others], [[["Ann"]]] * 10)

    def test_of_a_closed_database(self):
        statements = [self.db.prepare(line) for line in ("delete emp where id = ?", "select * from emp where id = ?")]
        statements[1].execute(1)
        self.db.close()
        for statement in statements:
            with self.assertRaisesRegex(ValueError, "the database is closed"):
                statement.execute(1)
            statement.close()
        with self.assertRaisesRegex(ValueError, "the database is closed"):
            self.db.prepare("delete emp")

    def test_it_has_no_copies(self):
        statement = self.db.prepare("delete emp")
        for make in (copy.copy, copy.deepcopy, pickle.dumps):
            with self.assertRaisesRegex(TypeError, "has no copies"):
                make(statement)

    def test_one_that_is_let_go(self):
        for _ in range(300):
            self.db.prepare("select * from emp where id = ?").execute(1)
        ring = mmdb.Database()
        ring.execute("table t (id int)")
        ring.mine = ring.prepare("select * from t")
        seen = weakref.ref(ring.mine), weakref.ref(ring)
        del ring
        gc.collect()
        self.assertEqual((seen[0](), seen[1](), len(self.db.select("select * from emp"))), (None, None, 3))


    def test_ones_that_are_never_closed(self):
        line = "db = mmdb.Database(); db.execute('table t (id int)'); kept = [db.prepare('select * from t') for _ in range(3)]; "
        for program in (line + "print(kept[0].execute())", line + "db.kept = kept; del kept", line + "import sys; sys.kept = kept; del db"):
            with self.subTest(program=program):
                ended = binding.run_python("-W", "error", "-c", f"import mmdb; {program}")
                self.assertEqual((ended.err, ended.status), ("", 0))


class Kept(binding.WithDatabase):
    """Statements that are kept by their lines, as they come to `execute`, `select` and `change`."""

    def test_many_lines(self):
        self.db.execute("table t (id int, n int)")
        for number in range(STATEMENTS):
            self.assertEqual(self.db.change(f"insert t (?, {number})", number), 1)
        for number in range(0, STATEMENTS, 7):
            self.assertEqual(self.db.select(f"select n from t where id = {number} and n >= ?", 0), [[number]])
        self.assertEqual(len(self.db.dump("t")), STATEMENTS)

    def test_many_statements_at_once(self):
        self.db.execute("table t (id int, n int)")
        statements = [self.db.prepare(f"insert t (?, {number})") for number in range(STATEMENTS)]
        for number, statement in enumerate(statements):
            self.assertEqual(statement.execute(number), 1)
        for statement in statements[::2]:
            statement.close()
        for number, statement in enumerate(statements[1::2]):
            statement.execute(STATEMENTS + number)
        found = self.db.select("select n from t where id >= ?", STATEMENTS)
        self.assertEqual([row.n for row in found], list(range(1, STATEMENTS, 2)))

    def test_lines_by_turns(self):
        self.db.execute("table t (id int)")
        self.db.load("t", [(number,) for number in range(400)])
        draw = random.Random(SEED)
        for _ in range(3_000):
            least, most = draw.randrange(400), draw.randrange(300)
            found = self.db.select(f"select id from t where id >= ? and id < {most}", least)
            self.assertEqual([row.id for row in found], list(range(least, most)))

    def test_lines_of_several_kinds_by_turns(self):
        """What is known of the line that goes, its columns and its places, isn't taken for that of the one that comes."""
        self.db.execute("table t (id int, n int)")
        self.db.load("t", [(number, -number) for number in range(400)])
        kinds = (
            lambda key: self.assertEqual(self.db.select(f"select * from t where id = {key}"), [[key, -key]]),
            lambda key: self.assertEqual(self.db.select(f"select n from t where id = {key} and n <= ?", 0), [[-key]]),
            lambda key: self.assertEqual(self.db.select(f"select id from t where id = {key} and n <= :most", most=0).names, ("t.id",)),
            lambda key: self.assertEqual(self.db.change(f"update t set n = {-key} where id = :key", key=key), 1),
            lambda key: self.assertEqual(self.db.change(f"delete t where id = {key + 400}"), 0),
        )
        draw = random.Random(SEED)
        for _ in range(3_000):
            draw.choice(kinds)(draw.randrange(400))

    def test_a_table_that_is_declared_anew(self):
        select, insert = "select * from t where id = ?", "insert t (?, ?)"
        statement = None
        for columns, row, types in (
            ("id int, s text", [1, "a"], (int, str)),
            ("id text, n int", ["1", 7], (str, int)),
            ("s text, id int", ["x", 1], (str, int)),
            ("id int, s text", [1, "b"], (int, str)),
        ):
            self.db.execute(f"table t ({columns})")
            names = tuple(f"t.{column.split(' ')[0]}" for column in columns.split(", "))
            statement = statement or self.db.prepare(select)
            self.assertEqual(self.db.change(insert, *row), 1)
            key = row[names.index("t.id")]
            for found in (self.db.select(select, key), statement.execute(key)):
                self.assertEqual((found, found.names, found.types), ([row], names, types))
            self.assertEqual(statement.names, names)
            wrong = key if names == ("t.s", "t.id") else 1.5
            if wrong == 1.5:
                self.refused(35, statement.execute, str(key) if type(key) is int else 1)
            self.db.answer("drop table t")
            self.refused(30, statement.execute, key)
            self.refused(30, lambda: statement.names)
            self.refused(30, self.db.select, select, key)
            self.refused(30, self.db.change, insert, *row)
        self.db.execute("table t (id int)")
        self.assertEqual(statement.execute(1).names, ("t.id",))
        self.refused(45, self.db.change, insert, 1, 2)
        self.db.execute("drop table t")
        self.db.execute("table t (n int)")
        self.refused(32, statement.execute, 1)

    def test_more_columns_than_before(self):
        self.db.execute("table t (id int)")
        self.db.execute("table u (id int)")
        self.db.load("t", [(1,)])
        self.db.load("u", [(1,)])
        line = "select * from t join u on t.id = u.id"
        self.assertEqual(self.db.select(line), [[1, 1]])
        self.db.execute("drop table u")
        self.db.execute("table u (id int, s text)")
        self.db.change("insert u (1, 'a')")
        self.assertEqual(self.db.select(line), [[1, 1, "a"]])

    def test_large_answers_and_texts(self):
        self.db.execute("table t (id int, s text)")
        rows = [[number, str(number) * 10] for number in range(5_000)]
        self.db.load("t", rows)
        for _ in range(3):
            self.assertEqual(self.db.select("select * from t"), rows)
            self.assertEqual(self.db.select("select * from t where s = ?", "x" * 100_000), [])
            self.refused_somehow(46, self.db.change, "insert t (?, ?)", 9_999, "x" * 100_000)
            self.refused_somehow(46, self.db.executemany, "insert t (?, ?)", [(9_999, "x" * 100_000)])
        self.assertEqual(self.db.change("insert t (?, ?)", 9_999, "x"), 1)

    def test_threads_share_a_statement(self):
        self.db.execute("table t (id int, s text)")
        insert, select = self.db.prepare("insert t (?, ?)"), self.db.prepare("select s from t where id = :id")
        wrong = []

        def work(first):
            for number in range(first, first + 200):
                insert.execute(number, str(number))
                try:
                    insert.execute(number, "again")
                except mmdb.Refused as why:
                    wrong.extend([] if why.reason == f"column 11: t has a row with the key {number}" else [why])
                found = select.execute(id=number)
                wrong.extend([] if found == [[str(number)]] else [found])

        threads = [threading.Thread(target=work, args=(first,)) for first in range(0, 800, 200)]
        for thread in threads:
            thread.start()
        for thread in threads:
            thread.join()
        self.assertEqual((wrong, len(self.db.dump("t"))), ([], 800))


    def test_threads_load_and_select(self):
        self.db.execute("table t (id int, s text)")
        wrong = []

        def load(first):
            for begin in range(first, first + 20_000, 1_000):
                self.db.load("t", [(number, "x") for number in range(begin, begin + 1_000)])

        def select():
            while any(thread.is_alive() for thread in loads):
                found = self.db.select("select s from t where id >= ? and id < ?", 19_000, 21_000)
                wrong.extend([] if len(found) % 1_000 == 0 else [len(found)])

        loads = [threading.Thread(target=load, args=(first,)) for first in (0, 20_000)]
        threads = [*loads, *(threading.Thread(target=select) for _ in range(2))]
        for thread in threads:
            thread.start()
        for thread in threads:
            thread.join()
        self.assertEqual((wrong, len(self.db.dump("t"))), ([], 40_000))

    def test_an_interrupt(self):
        """Ctrl-C ends the rows of a call, and others go on."""
        self.db.execute("table t (id int)")
        rows = [(1,)] * 3_000_000

        def interrupt(*_):
            raise KeyboardInterrupt

        before = signal.signal(signal.SIGALRM, interrupt)
        self.addCleanup(signal.signal, signal.SIGALRM, before)
        for call in (lambda: self.db.executemany("delete t where id <> ?", rows), lambda: self.db.prepare("delete t where id = ?").executemany(rows)):
            signal.setitimer(signal.ITIMER_REAL, 0.1)
            with self.assertRaises(KeyboardInterrupt):
                call()
            self.assertEqual(self.db.change("delete t where id <> ?", 1), 0)


class Stub(binding.WithDatabase):
    """What the stub of the extension tells is there, by the extension and by ctypes."""

    def test_each_call(self):
        self.db.execute("table t (id int)")
        self.db.execute("insert t (1)")
        line = "select distinct id from t"
        made = {"Named": self.db.dump("t")[0], "Handle": self.db, "Prepared": self.db.prepare("select * from t")}
        made["Cursor"] = self.db._cursor(line, mmdb.lines.placed(line), ())  # pylint: disable=protected-access
        stub = ast.parse((binding.FOLDER / "mmdb" / "_mmdb.pyi").read_text())
        classes = [each for each in stub.body if isinstance(each, ast.ClassDef)]
        self.assertEqual([each.name for each in classes], list(made))
        for each in classes:
            names = {member.name for member in each.body if isinstance(member, ast.FunctionDef)}
            self.assertEqual([name for name in names if not hasattr(made[each.name], name)], [])
            if mmdb.implementation == "extension":
                (base,) = [base for base in type(made[each.name]).__mro__ if base.__name__ == each.name]
                others = {name for name in vars(base) if not (name.startswith("__") and name.endswith("__"))}
                self.assertEqual(others, names - {"__init__"})


class Streams(unittest.TestCase):
    """Each statement of random streams does what its line does, whichever of its values are bound. A select is iterated over as well."""

    def test_random_streams(self):
        draw = random.Random(SEED)
        done = {word: 0 for word in drawn.BEGINNINGS}
        for number in range(drawn.STREAMS):
            with self.subTest(stream=number), mmdb.Database(draw.choice(mmdb.POLICIES)) as db:
                for line, block, expected in list(drawn.requests(draw)):
                    statement = drawn.statement_of(draw, line)
                    if statement is None:
                        answer = db.answer(line, block if model.block_length(line) else None)
                    else:
                        answer = answer_of(db, draw, *statement)
                        done[statement[0].split(" ")[0]] += not answer.startswith(b"error")
                    self.assertEqual(answer, expected, (line, statement))
        self.assertGreater(min(done.values()), drawn.STREAMS // 10)


def answer_of(db, draw, line, values):
    """What is answered to a line with these values, as the library writes it."""
    try:
        if draw.random() < 0.5:
            found = db.execute(line, *values)
        else:
            with db.prepare(line) as statement:
                found = statement.execute(*values)
    except mmdb.Refused as why:
        return f"error {why.number} {why.text}\n".encode()
    if not isinstance(found, mmdb.Rows):
        return b"ok %d\n" % found
    if list(db.iterate(line, *values, page=draw.randrange(1, 9))) != found:
        return b"iterated otherwise\n"
    rows = [[value.encode() if isinstance(value, str) else value for value in row] for row in [found.names, *found]]
    return b"rows %d\n" % len(found) + b"".join(map(model.record, rows))
