"""The binding for Python: rows that are sorted, grouped and summed, and handed on to pandas and by the interface of Arrow."""

import ctypes
import datetime
import gc
import importlib.util
import sys
import unittest
from unittest import mock

from support import binding
from support.binding import mmdb

HAS_PANDAS = importlib.util.find_spec("pandas") is not None
HAS_ARROW = importlib.util.find_spec("pyarrow") is not None


class WithRows(binding.WithDatabase):
    """A database with two tables."""

    def setUp(self):
        super().setUp()
        self.db.execute("table dept (id int, name text)")
        self.db.execute("table emp (id int, name text, dept ref dept null, pay int)")
        self.db.load("dept", [(10, "toys"), (20, "")])
        self.db.load("emp", [(1, "Cy", 20, 5), (2, "Bob", None, 7), (3, "Ann", 10, 5), (4, "日本", 20, -(2**63))])
        self.rows = self.db.select("select * from emp")
        self.joined = self.db.select("select emp.id, dept.id, emp.name, dept.name from emp join dept on emp.dept = dept.id")


class Columns(WithRows):
    """What rows do by the names of their columns."""

    def ids(self):
        return [row.id for row in self.rows]

    def test_sort(self):
        for columns, how, ids in (
            (("name",), {}, [3, 2, 1, 4]),
            (("dept", "name"), {}, [2, 3, 1, 4]),
            (("emp.dept",), {"reverse": True}, [1, 4, 3, 2]),
            (("pay", "id"), {}, [4, 1, 3, 2]),
            ((), {"key": lambda row: -row.id}, [4, 3, 2, 1]),
            ((), {}, [1, 2, 3, 4]),
        ):
            with self.subTest(columns=columns, how=how):
                self.rows = self.db.select("select * from emp")
                self.assertIsNone(self.rows.sort(*columns, **how))
                self.assertEqual(self.ids(), ids)
        for wrong, columns, how in ((KeyError, ("salary",), {}), (TypeError, ("id",), {"key": len}), (TypeError, ("id",), {"other": 1})):
            with self.subTest(columns=columns, how=how), self.assertRaises(wrong):
                self.rows.sort(*columns, **how)

    def test_group(self):
        groups = self.rows.group("dept")
        self.assertEqual(list(groups), [20, None, 10])
        self.assertEqual([[row.id for row in groups[dept]] for dept in (20, None, 10)], [[1, 4], [2], [3]])
        self.assertEqual((type(groups[20]), groups[20].names, groups[20].types), (mmdb.Rows, self.rows.names, self.rows.types))
        self.assertEqual(list(self.rows.group("pay", "emp.dept")), [(5, 20), (7, None), (5, 10), (-(2**63), 20)])
        self.assertEqual({dept: rows.sum("pay") for dept, rows in self.rows.group("dept").items()}, {20: 5 - 2**63, None: 7, 10: 5})
        self.assertEqual(self.db.select("select * from emp where id > 4").group("id"), {})
        for wrong, columns in ((KeyError, ("x",)), (TypeError, ())):
            with self.assertRaises(wrong):
                self.rows.group(*columns)

    def test_sum_and_column(self):
        self.assertEqual((self.rows.sum("dept"), self.rows.sum("pay"), self.rows.sum("emp.id")), (50, 17 - 2**63, 10))
        self.assertEqual(self.db.select("select * from emp where id > 4").sum("pay"), 0)
        self.assertEqual((self.rows.column("name"), self.joined.column("dept.id")), (["Cy", "Bob", "Ann", "日本"], [20, 10, 20]))
        with self.assertRaisesRegex(TypeError, "the column name has values that have no sum"):
            self.rows.sum("name")
        for call in (self.joined.sum, self.joined.column, self.joined.sort, self.joined.group):
            with self.assertRaisesRegex(KeyError, "several columns of the row are called id: emp.id, dept.id"):
                call("id")
            with self.assertRaisesRegex(KeyError, "no column 'pay'"):
                call("pay")


class Frames(WithRows):
    """A DataFrame of pandas."""

    def test_without_pandas(self):
        with mock.patch.dict(sys.modules, {"pandas": None}), self.assertRaisesRegex(ImportError, "mmdb: to_pandas needs the package pandas"):
            self.rows.to_pandas()

    @unittest.skipUnless(HAS_PANDAS, "pandas is not installed")
    def test_with_pandas(self):
        frame = self.rows.to_pandas()
        self.assertEqual(list(frame.columns), ["id", "name", "dept", "pay"])
        self.assertEqual([str(kind) for kind in frame.dtypes[["id", "dept", "pay"]]], ["int64", "Int64", "int64"])
        self.assertEqual((list(frame["name"]), list(frame["pay"])), (self.rows.column("name"), self.rows.column("pay")))
        self.assertEqual([None if frame["dept"].isna()[at] else int(frame["dept"][at]) for at in range(4)], self.rows.column("dept"))
        self.assertEqual(list(self.joined.to_pandas().columns), ["emp.id", "dept.id", "emp.name", "dept.name"])
        self.assertEqual(self.db.select("select * from emp where id > 4").to_pandas().shape, (0, 4))
        self.db.execute("table day (id int, day text)")
        self.db.load("day", [(1, datetime.datetime(2026, 1, 1)), (0, datetime.datetime(2027, 1, 1))])
        self.db.convert("day.day", datetime.datetime)
        self.db.convert("day.id", bool)
        frame = self.db.dump("day").to_pandas()
        self.assertEqual((str(frame.dtypes["id"]), str(frame.dtypes["day"])[:10]), ("bool", "datetime64"))


class Structure(ctypes.Structure):
    """One of Arrow, whose fields are told by those below."""

    def field(self, name):
        return getattr(self, name)


class Schema(Structure):
    _fields_ = [
        *((name, ctypes.c_char_p) for name in ("format", "name", "metadata")),
        *((name, ctypes.c_int64) for name in ("flags", "n_children")),
        *((name, ctypes.c_void_p) for name in ("children", "dictionary", "release", "private_data")),
    ]


class Array(Structure):
    _fields_ = [
        *((name, ctypes.c_int64) for name in ("length", "null_count", "offset", "n_buffers", "n_children")),
        *((name, ctypes.c_void_p) for name in ("buffers", "children", "dictionary", "release", "private_data")),
    ]


class Stream(Structure):
    _fields_ = [(name, ctypes.c_void_p) for name in ("get_schema", "get_next", "get_last_error", "release", "private_data")]


def pointer_of(capsule):
    get = ctypes.PyDLL(None).PyCapsule_GetPointer
    get.restype, get.argtypes = ctypes.c_void_p, [ctypes.py_object, ctypes.c_char_p]
    return get(capsule, b"arrow_array_stream")


def got(stream, call, into):
    """What a call of a stream gives."""
    status = ctypes.CFUNCTYPE(ctypes.c_int, ctypes.c_void_p, ctypes.c_void_p)(getattr(stream, call))(ctypes.addressof(stream), ctypes.addressof(into))
    assert status == 0, status
    return into


def released(structure):
    ctypes.CFUNCTYPE(None, ctypes.c_void_p)(structure.release)(ctypes.addressof(structure))
    assert structure.release is None


def children_of(structure):
    pointers = ctypes.cast(structure.children, ctypes.POINTER(ctypes.c_void_p))
    return [type(structure).from_address(pointers[at]) for at in range(structure.n_children)]


def values_of(kind, array):
    """The values of a column, by its buffers."""
    buffers = ctypes.cast(array.buffers, ctypes.POINTER(ctypes.c_void_p))
    bits = buffers[0] and ctypes.string_at(buffers[0], (array.length + 7) // 8)
    if kind == b"l":
        assert array.n_buffers == 2
        values = list((ctypes.c_int64 * array.length).from_address(buffers[1]))
    else:
        assert (kind, array.n_buffers) == (b"u", 3)
        ends = (ctypes.c_int32 * (array.length + 1)).from_address(buffers[1])
        values = [ctypes.string_at(buffers[2] + ends[at], ends[at + 1] - ends[at]).decode() for at in range(array.length)]
    found = [value if not bits or bits[at >> 3] >> (at & 7) & 1 else None for at, value in enumerate(values)]
    assert array.null_count == found.count(None) and array.offset == 0
    return found


class Arrow(WithRows):
    """The stream of Arrow that rows have, as its interface says it."""

    def setUp(self):
        super().setUp()
        from mmdb import arrow

        self.kept, self.streams = arrow._KEPT, arrow._STREAMS
        self.before = len(self.kept), len(self.streams)

    def check_released(self):
        gc.collect()
        self.assertEqual((len(self.kept), len(self.streams)), self.before)

    def moved(self, capsule):
        """The stream of a capsule, as somebody takes it who moves it."""
        there, mine = Stream.from_address(pointer_of(capsule)), Stream()
        ctypes.memmove(ctypes.addressof(mine), ctypes.addressof(there), ctypes.sizeof(there))
        there.release = None
        return mine

    def check(self, rows, names):
        capsule = rows.__arrow_c_stream__()
        stream = self.moved(capsule)
        del capsule
        schema, array = got(stream, "get_schema", Schema()), got(stream, "get_next", Array())
        self.assertIsNone(got(stream, "get_next", Array()).release)
        released(stream)
        self.assertEqual((schema.format, array.length, array.n_children), (b"+s", len(rows), len(names)))
        columns = children_of(schema)
        self.assertEqual([(column.name.decode(), column.flags) for column in columns], [(name, 2) for name in names])
        kinds = [column.format for column in columns]
        self.assertEqual(kinds, [b"l" if kind is int else b"u" for kind in rows.types])
        found = [values_of(kind, child) for kind, child in zip(kinds, children_of(array))]
        released(schema)
        released(array)
        self.check_released()
        return found

    def test_each_column(self):
        found = self.check(self.rows, ["id", "name", "dept", "pay"])
        self.assertEqual(found, [self.rows.column(name) for name in ("id", "name", "dept", "pay")])
        self.assertEqual(self.check(self.joined, ["emp.id", "dept.id", "emp.name", "dept.name"])[3], ["", "toys", ""])
        self.assertEqual(self.check(self.db.select("select id, name from emp where id > 4"), ["id", "name"]), [[], []])

    def test_many_rows_with_nulls(self):
        self.db.load("emp", ((number, str(number) * (number % 3), None if number % 7 else 10, 0) for number in range(100, 1_100)))
        rows = self.db.select("select dept, name from emp")
        self.assertEqual(self.check(rows, ["dept", "name"]), [rows.column("dept"), rows.column("name")])

    def test_values_of_other_types_are_exported_as_stored(self):
        self.db.convert("emp.pay", str)
        self.db.convert("emp.id", bool)
        self.db.execute("delete emp where id > 1")
        self.assertEqual(self.check(self.db.select("select id, name from emp"), ["id", "name"]), [[1], ["Cy"]])

    def test_what_nobody_takes(self):
        capsule = self.rows.__arrow_c_stream__()
        self.assertGreater(len(self.kept), self.before[0])
        del capsule
        self.check_released()
        stream = self.moved(self.rows.__arrow_c_stream__(None))
        released(stream)
        self.check_released()

    def test_a_column_that_is_taken_alone(self):
        """It is good until it is released itself."""
        stream = self.moved(self.rows.__arrow_c_stream__())
        array = got(stream, "get_next", Array())
        child, mine = children_of(array)[1], Array()
        ctypes.memmove(ctypes.addressof(mine), ctypes.addressof(child), ctypes.sizeof(child))
        child.release = None
        released(array)
        released(stream)
        gc.collect()
        self.assertEqual(values_of(b"u", mine), self.rows.column("name"))
        released(mine)
        self.check_released()

    @unittest.skipUnless(HAS_ARROW, "pyarrow is not installed")
    def test_by_pyarrow(self):
        table = importlib.import_module("pyarrow").table(self.rows)
        self.assertEqual((table.column_names, str(table.schema.types)), (["id", "name", "dept", "pay"], "[DataType(int64), DataType(string), DataType(int64), DataType(int64)]"))
        self.assertEqual([table[name].to_pylist() for name in table.column_names], [self.rows.column(name) for name in table.column_names])
        del table
        self.check_released()
