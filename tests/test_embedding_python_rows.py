"""The binding for Python: rows by the names of their columns, and what load takes for rows."""

import copy
import json
import pickle

from support import binding


class Names(binding.WithDatabase):
    """A row is the tuple of its values, which can also be read by name."""

    def setUp(self):
        super().setUp()
        self.db.execute("table dept (id int, name text)")
        self.db.execute("table emp (id int, name text, dept ref dept null)")
        self.db.load("dept", [(10, "toys")])
        self.db.load("emp", [(1, 'Ann "A"', 10), (2, "Bob, B", None)])

    def test_of_one_table(self):
        for found, full in ((self.db.select("select * from emp"), "emp."), (self.db.dump("emp"), "")):
            ann, bob = found
            with self.subTest(names=found.names):
                self.assertEqual(found.names, tuple(full + name for name in ("id", "name", "dept")))
                self.assertEqual(found.types, (int, str, int))
                self.assertEqual((ann.id, ann.name, ann.dept, bob.dept), (1, 'Ann "A"', 10, None))
                self.assertEqual((ann["id"], ann["emp.id"], bob["emp.dept"], bob["name"]), (1, 1, None, "Bob, B"))

    def test_of_several_tables(self):
        (row,) = self.db.select("select emp.name, dept.name, emp.id from emp join dept on emp.dept = dept.id")
        self.assertEqual((row["emp.name"], row["dept.name"], row["emp.id"], row.id), ('Ann "A"', "toys", 1, 1))
        several = "several columns of the row are called name: emp.name, dept.name"
        with self.assertRaisesRegex(KeyError, several):
            row["name"]  # pylint: disable=pointless-statement
        with self.assertRaisesRegex(AttributeError, several):
            row.name  # pylint: disable=pointless-statement

    def test_names_that_are_none(self):
        row = self.db.select("select id, name from emp")[0]
        for name in ("dept", "emp.dept", "dept.id", "ID", "emp.", "", "0"):
            with self.subTest(name=name):
                with self.assertRaisesRegex(KeyError, "the row has no column '.*'; its columns are emp.id, emp.name"):
                    row[name]  # pylint: disable=pointless-statement
                with self.assertRaises(AttributeError):
                    getattr(row, name)
        self.assertEqual((row[type("Text", (str,), {})("id")], row[True]), (1, 'Ann "A"'))
        for wrong in (None, 1.0, b"id", ("id",)):
            with self.subTest(wrong=wrong), self.assertRaises(TypeError):
                row[wrong]  # pylint: disable=pointless-statement
        with self.assertRaises(IndexError):
            row[2]  # pylint: disable=pointless-statement

    def test_names_that_tuples_or_python_have(self):
        names = ["count", "sort", "mro", "__del__", "__eq__", "__len__", "__class__", "_names", "_places", "x__"]
        self.db.execute(f"table odd ({', '.join(f'{name} int' for name in names)})")
        self.db.load("odd", [range(len(names))])
        (row,) = self.db.select("select * from odd")
        self.assertEqual([row[name] for name in names], list(range(len(names))))
        self.assertEqual((len(row), row, row.count(1), row.sort, row.mro, row.x__), (10, tuple(range(10)), 1, 1, 2, 9))

    def test_a_row_is_a_tuple(self):
        found = self.db.select("select * from emp")
        row, values = found[0], (1, 'Ann "A"', 10)
        self.assertIsInstance(row, tuple)
        self.assertEqual((row, repr(row), row[-1], row[:2], row + (2,)), (values, repr(values), 10, values[:2], (*values, 2)))
        self.assertEqual((hash(row), {row: 1}[values], {values, row}), (hash(values), 1, {values}))
        self.assertEqual(json.dumps(found), '[[1, "Ann \\"A\\"", 10], [2, "Bob, B", null]]')
        for copied in (copy.copy(row), copy.deepcopy(row), pickle.loads(pickle.dumps(row))):
            self.assertEqual((type(copied), copied, copied.name, copied["emp.id"]), (type(row), row, 'Ann "A"', 1))
        copied = pickle.loads(pickle.dumps(found))
        self.assertEqual((copied, copied.names, copied[1].name), (found, found.names, "Bob, B"))
        found.sort(key=lambda row: row.dept or 0)
        self.assertEqual([row.id for row in found], [2, 1])
        with self.assertRaises(TypeError):
            row[0] = 7
        self.assertEqual(self.db.select("select * from emp where id > 2"), [])

    def test_what_a_row_is_equal_to(self):
        (row,) = self.db.select("select * from dept")
        for other, is_equal in (((10, "toys"), True), ([10, "toys"], True), ((10,), False), ([10, "toys", 1], False), ("toys", False), (None, False)):
            with self.subTest(other=other):
                self.assertEqual((row == other, other == row, row != other, other != row), (is_equal, is_equal, not is_equal, not is_equal))
        self.assertTrue(row < (11, "") and row >= (10, "toys") and (9, "z") < row)
        with self.assertRaises(TypeError):
            row < [11, ""]  # pylint: disable=pointless-statement

    def test_dicts(self):
        self.assertEqual(self.db.select("select dept, id from emp").dicts(), [{"dept": 10, "id": 1}, {"dept": None, "id": 2}])
        self.assertEqual(self.db.dump("dept").dicts(), [{"id": 10, "name": "toys"}])
        line = "select emp.name, dept.name, dept from emp join dept on emp.dept = dept.id"
        self.assertEqual(self.db.select(line).dicts(), [{"emp.name": 'Ann "A"', "dept.name": "toys", "dept": 10}])
        self.assertEqual(self.db.select("select * from emp where id > 2").dicts(), [])

    def test_tables_that_are_declared_anew(self):
        before = self.db.select("select * from emp")
        self.db.execute("drop table emp")
        self.db.execute("table emp (id text, dept int)")
        self.db.change("insert emp ('1', 2)")
        (after,) = self.db.select("select * from emp")
        self.assertEqual((after.id, after.dept, before[0].id, before[0].dept), ("1", 2, 1, 10))


class Loads(binding.WithDatabase):
    """What load and load_dicts take, and what they refuse, which changes nothing."""

    def setUp(self):
        super().setUp()
        self.db.execute("table u (k text)")
        self.db.execute("table t (id int, s text, u ref u null)")
        self.db.load("u", [["a"]])

    def test_rows_of_each_kind(self):
        rows = [(1, "x", None), [2, "", "a"], iter([3, "y\n", "a"]), (value for value in (4, '"', None))]
        self.assertEqual(self.db.load("t", iter(rows)), 4)
        again = self.db.dump("t")
        self.assertEqual(again, [[1, "x", None], [2, "", "a"], [3, "y\n", "a"], [4, '"', None]])
        self.db.execute("delete t")
        self.assertEqual(self.db.load("t", again), 4)
        self.assertEqual(self.db.dump("t"), again)

    def test_dicts(self):
        rows = [{"id": 1, "s": "x", "u": None}, {"u": "a", "s": "y", "id": 2}]
        self.assertEqual(self.db.load_dicts("t", iter(rows)), 2)
        self.assertEqual(self.db.dump("t").dicts(), rows)
        self.db.execute("delete t")
        self.assertEqual(self.db.load_dicts("t", self.db.select("select * from t").dicts()), 0)

    def check(self, load, wrong, rows, why):
        with self.subTest(rows=rows), self.assertRaisesRegex(wrong, why):
            load("t", rows)
        self.assertEqual(self.db.dump("t"), [])

    def test_what_is_no_row(self):
        for row in ("abc", b"abc", {"id": 1}, {1, 2, 3}, 5, None):
            self.check(self.db.load, TypeError, [(1, "x", None), row], f"not {type(row).__name__} .row 2.")
        self.check(self.db.load, TypeError, "abc", "not str .row 1.")
        self.check(self.db.load, TypeError, [{"id": 1}], "load_dicts takes dicts")

    def test_rows_that_do_not_fit(self):
        first = (1, "x", None)
        for wrong, row, why in (
            (ValueError, (2, "x"), "row 2 has 2 values for 3 columns"),
            (ValueError, (), "row 2 has 0 values for 3 columns"),
            (ValueError, (2, "\ud800", None), "lone surrogate"),
            (ValueError, (2**63, "x", None), "64 bits .row 2."),
            (ValueError, (2, "x", ""), "the empty text as null .row 2."),
            (TypeError, ("2", "x", None), "the column id takes int, not str .row 2."),
            (TypeError, (2.0, "x", None), "the column id takes int, not float .row 2."),
            (TypeError, (2, True, None), "the column s takes str, not int .row 2."),
            (TypeError, (2, None, None), "the column s takes str, not NoneType .row 2."),
            (TypeError, (2, "x", 3), "the column u takes str or None, not int .row 2."),
        ):
            self.check(self.db.load, wrong, [first, row], why)

    def test_dicts_that_do_not_fit(self):
        for wrong, row, why in (
            (ValueError, {"id": 1, "u": None}, "a row lacks the column s of t .row 1."),
            (ValueError, {}, "a row lacks the column id, s, u of t"),
            (ValueError, {"id": 1, "s": "", "u": None, "x": 1, 5: 2}, "a row has x, 5, which is no column of t .row 1."),
            (ValueError, {"t.id": 1, "s": "", "u": None}, "a row lacks the column id of t"),
            (TypeError, {"id": "1", "s": "", "u": None}, "the column id takes int, not str .row 1."),
            (TypeError, (1, "", None), "a row is a dict, not tuple .row 1."),
            (TypeError, "abc", "a row is a dict, not str .row 1."),
        ):
            self.check(self.db.load_dicts, wrong, [row], why)

    def test_subclasses_of_the_types(self):
        class Number(int):
            """An integer that is written otherwise."""

            def __repr__(self):
                return "one"

        class Text(str):
            """A text that is written otherwise."""

            def replace(self, *_):
                return "' or id <> '"

            def __str__(self):
                return "another"

        self.assertEqual(self.db.load("t", [(Number(1), Text("x"), None), (2, "y", Text("a"))]), 2)
        self.assertEqual(self.db.change("insert t (?, ?, ?)", Number(3), Text("it's"), Text("a")), 1)
        self.assertEqual(self.db.dump("t"), [[1, "x", None], [2, "y", "a"], [3, "it's", "a"]])
