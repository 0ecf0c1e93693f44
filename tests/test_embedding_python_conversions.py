"""The binding for Python: values of other types than int and str, which adapters store and converters read."""

import contextlib
import datetime
import decimal
import enum
import uuid

from support import binding
from support.binding import mmdb

KEY = uuid.UUID("12345678-1234-5678-1234-567812345678")
EAST = datetime.timezone(datetime.timedelta(hours=2))


class Color(enum.Enum):
    """Texts."""

    RED = "red"
    BLUE = "blue"


class Level(enum.IntEnum):
    """Integers."""

    LOW = 1
    HIGH = 2


class Nested(enum.Enum):
    """Values that have an adapter themselves."""

    FIRST = datetime.date(2026, 1, 1)


class Money:
    """A type that the package doesn't know."""

    def __init__(self, cents):
        self.cents = cents


class Tip(Money):
    """One that is made of it."""


# Values, and how they are stored.
STORED = (
    (True, 1),
    (False, 0),
    (datetime.date(2026, 5, 28), "2026-05-28"),
    (datetime.datetime(2026, 5, 28, 1, 2, 3), "2026-05-28T01:02:03"),
    (datetime.datetime(2026, 5, 28, 1, 2, 3, 4, EAST), "2026-05-28T01:02:03.000004+02:00"),
    (datetime.time(23, 59), "23:59:00"),
    (decimal.Decimal("-1.50"), "-1.50"),
    (KEY, "12345678-1234-5678-1234-567812345678"),
    (Color.BLUE, "blue"),
    (Level.HIGH, 2),
    (Nested.FIRST, "2026-01-01"),
    (Tip(150), 150),
)


class WithTables(binding.WithDatabase):
    """A database with a column of each kind, and an adapter."""

    def setUp(self):
        super().setUp()
        self.db.execute("table t (id int, n int, s text)")
        mmdb.register_adapter(Money, lambda money: money.cents)

    @staticmethod
    def row(key, stored):
        return (key, stored, "") if isinstance(stored, int) else (key, 0, stored)


class Adapters(WithTables):
    """What is stored in the place of values of other types."""

    def test_each_call(self):
        for value, stored in STORED:
            given = (1, value, "") if isinstance(stored, int) else (1, 0, value)
            insert = self.db.prepare("insert t (?, ?, ?)")
            named = dict(zip(("id", "n", "s"), given))
            for call in (
                lambda: self.db.execute("insert t (?, ?, ?)", *given),
                lambda: self.db.change("insert t (:id, :n, :s)", **named),
                lambda: self.db.executemany("insert t (?, ?, ?)", [given]),
                lambda: self.db.executemany("insert t (:id, :n, :s)", [named]),
                lambda: insert.execute(*given),
                lambda: insert.executemany([list(given)]),
                lambda: self.db.load("t", [given]),
                lambda: self.db.load_dicts("t", [named]),
            ):
                with self.subTest(value=value):
                    self.assertEqual(call(), 1)
                    self.assertEqual(self.db.dump("t"), [self.row(1, stored)])
                    self.assertEqual({type(each) for each in self.db.dump("t")[0]}, {int, str})
                    column = "n" if isinstance(stored, int) else "s"
                    self.assertEqual(self.db.select(f"select id from t where {column} = ?", value), [(1,)])
                    self.assertEqual(self.db.execute("delete t"), 1)

    def test_by_a_cursor(self):
        with contextlib.closing(mmdb.connect()) as connection:
            cursor = connection.cursor().execute("table t (id int, day text)")
            cursor.execute("insert t (?, ?)", (True, datetime.date(2026, 1, 1)))
            self.assertEqual(cursor.execute("select * from t").fetchall(), [(1, "2026-01-01")])

    def test_the_nearest_type_counts(self):
        class Day(datetime.date):
            """A day."""

        self.db.execute("insert t (1, 0, ?)", Day(2026, 1, 2))
        mmdb.register_adapter(Day, lambda day: f"day {day.day}")
        self.db.execute("insert t (2, 0, ?)", Day(2026, 1, 2))
        self.assertEqual(self.db.select("select s from t"), [("2026-01-02",), ("day 2",)])

    def test_null(self):
        class Nothing:
            """No value."""

        mmdb.register_adapter(Nothing, lambda _: None)
        self.db.execute("table u (k int)")
        self.db.execute("table v (id int, u ref u null)")
        self.assertEqual((self.db.execute("insert v (1, ?)", Nothing()), self.db.load("v", [(2, Nothing())])), (1, 1))
        self.assertEqual(self.db.dump("v"), [(1, None), (2, None)])

    def test_a_bool_may_be_stored_otherwise(self):
        mmdb.register_adapter(bool, lambda value: "yes" if value else "no")
        self.addCleanup(mmdb.register_adapter, bool, int)
        self.db.execute("insert t (1, 0, ?)", True)
        self.db.load("t", [(2, 0, False)])
        self.assertEqual(self.db.select("select s from t"), [("yes",), ("no",)])

    def test_an_adapter_may_use_the_database(self):
        class Next:
            """The next key."""

        mmdb.register_adapter(Next, lambda _: len(self.db.dump("t")))
        insert = self.db.prepare("insert t (?, 0, '')")
        for call in (lambda: self.db.execute("insert t (?, 0, '')", Next()), lambda: insert.execute(Next()), lambda: self.db.load("t", [(Next(), 0, "")])):
            self.assertEqual(call(), 1)
        self.assertEqual([row.id for row in self.db.dump("t")], [0, 1, 2])

    def test_what_has_none(self):
        insert = self.db.prepare("insert t (?, 0, ?)")
        for value, why in (
            (1.5, "not float; round it to an int, or pass a Decimal or a str"),
            (b"a", "not bytes; register an adapter"),
            (object(), "not object; register an adapter"),
            ({}, "not dict; register an adapter"),
            (datetime.timedelta(1), "not timedelta; register an adapter"),
        ):
            for call in (
                lambda value=value: self.db.execute("insert t (1, 0, ?)", value),
                lambda value=value: self.db.executemany("insert t (?, 0, ?)", [(0, ""), (1, value)]),
                lambda value=value: insert.execute(1, value),
                lambda value=value: insert.executemany([(0, ""), (1, value)]),
            ):
                with self.subTest(value=value), self.assertRaisesRegex(TypeError, why):
                    call()
            with self.assertRaisesRegex(TypeError, f"the column s takes str, not {type(value).__name__} .row 1."):
                self.db.load("t", [(1, 0, value)])
        self.assertEqual(self.db.dump("t"), [])

    def test_what_an_adapter_gives(self):
        class Odd:
            """A type whose adapter gives what it is made with."""

            def __init__(self, given):
                self.given = given

        mmdb.register_adapter(Odd, lambda odd: odd.given)
        for given, wrong, why in (
            (1.5, TypeError, "the adapter of Odd gave a value of float"),
            (Odd(1), TypeError, "the adapter of Odd gave a value of Odd"),
            (2**63, ValueError, "64 bits"),
            ("\ud800", ValueError, "lone surrogate"),
        ):
            with self.subTest(given=given):
                with self.assertRaisesRegex(wrong, why):
                    self.db.execute("insert t (?, 0, '')", Odd(given))
                with self.assertRaisesRegex(wrong, why + ".*row 2"):
                    self.db.executemany("insert t (?, 0, '')", [(1,), (Odd(given),)])
        self.assertEqual(self.db.execute("insert t (1, ?, '')", Odd(True)), 1)
        self.refused(35, self.db.execute, "insert t (2, 0, ?)", Odd(1))

    def test_what_is_no_adapter(self):
        for kind, adapter in ((1, int), ("Money", int), (Money, None), (int, int), (str, str), (type(None), str)):
            with self.subTest(kind=kind), self.assertRaises(TypeError):
                mmdb.register_adapter(kind, adapter)
        for kind, converter in ((1, int), (Money, 5)):
            with self.subTest(kind=kind), self.assertRaises(TypeError):
                mmdb.register_converter(kind, converter)


class Converters(WithTables):
    """What columns are read as."""

    def test_each_type(self):
        for value, stored in STORED[:-2]:
            column = "n" if isinstance(stored, int) else "s"
            self.db.convert(f"t.{column}", type(value))
            self.db.execute("insert t (1, ?, ?)", *self.row(1, stored)[1:])
            with self.subTest(value=value), self.db.prepare(f"select {column} from t where id > ?") as statement:
                for found in (self.db.select(f"select {column} from t"), statement.execute(0), self.db.execute(f"select {column} from t where id > ?", 0)):
                    self.assertEqual((found, type(found[0][0]), found[0][column], found.names), ([(value,)], type(value), value, (f"t.{column}",)))
                self.assertEqual(self.db.dump("t")[0][column], value)
            self.db.convert(f"t.{column}", None)
            self.assertEqual(self.db.select(f"select {column} from t"), [(stored,)])
            self.db.execute("delete t")

    def test_by_a_function(self):
        self.db.load("t", [(1, 250, "a,b"), (2, -1, "")])
        self.db.convert("t.n", Money)
        self.db.convert("t.s", lambda text: text.split(","))
        found = self.db.select("select s, n, id from t")
        self.assertEqual([(row.s, row.n.cents, row.id) for row in found], [(["a", "b"], 250, 1), ([""], -1, 2)])
        self.assertEqual((found.types, found.dicts()[0]["s"]), ((str, int, int), ["a", "b"]))

    def test_of_joined_tables_and_nulls(self):
        self.db.execute("table u (id int, day text, t ref t null)")
        self.db.load("t", [(1, 1, "2026-01-01")])
        self.db.load("u", [(1, "2026-01-02", 1), (2, "2026-01-03", None)])
        self.db.convert("u.day", datetime.date)
        self.db.convert("u.t", bool)
        self.assertEqual(
            self.db.select("select u.day, t.s, u.t from u join t on u.t = t.id"), [(datetime.date(2026, 1, 2), "2026-01-01", True)]
        )
        self.assertEqual(self.db.dump("u"), [(1, datetime.date(2026, 1, 2), True), (2, datetime.date(2026, 1, 3), None)])
        self.assertEqual(self.db.select("select day from u where id > 2"), [])

    def test_what_can_not_be_read(self):
        self.db.load("t", [(1, 1, "2026-01-01"), (2, 5, "soon")])
        for column, kind, why in (
            ("t.s", datetime.date, "the column t.s has 'soon': "),
            ("t.s", decimal.Decimal, "the column t.s has '2026-01-01': "),
            ("t.n", bool, "the column t.n has 5: a bool is stored as 0 or 1"),
            ("t.n", Color, "the column t.n has 1: "),
            ("t.id", datetime.date, "the column t.id has 1: "),
        ):
            self.db.convert(column, kind)
            with self.subTest(column=column, kind=kind), self.assertRaisesRegex(mmdb.DataError, why):
                self.db.select("select * from t")
            self.db.convert(column, None)
        self.assertEqual(len(self.db.dump("t")), 2)

    def test_what_is_no_converter(self):
        for column, kind in (("n", bool), ("a.b.c", bool), (5, bool), ("t.n", 5), ("t.n", "bool")):
            with self.subTest(column=column, kind=kind), self.assertRaises(TypeError):
                self.db.convert(column, kind)

        class Unknown:
            """A type that can't be called with a value."""

        mmdb.register_converter(Unknown, lambda value: f"unknown {value}")
        self.db.convert("t.n", Unknown)
        self.db.load("t", [(1, 7, "")])
        self.assertEqual(self.db.select("select n from t"), [("unknown 7",)])

    def test_rows_are_read_without_holding_the_database(self):
        self.db.load("t", [(1, 1, ""), (2, 2, "")])
        self.db.convert("t.n", lambda value: [row.id for row in self.db.select("select id from t where id = ?", value)])
        self.assertEqual(self.db.select("select n from t"), [([1],), ([2],)])
