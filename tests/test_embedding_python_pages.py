"""The binding for Python: selects that are iterated over page by page, by a line, by a statement and by a reader. What is read by a cursor
is also tested by test_embedding_python_cursors.py.
"""

import datetime
import enum
import itertools
import random
import threading
import tracemalloc

from support import binding
from support.binding import mmdb

SEED = 20261130
ROWS = 300
# Selects that are read by their key, each with one parameter.
BY_KEY = (
    "select * from t where id > ?",
    "select*from t where id>?",
    "select s from t where id >= ? and id < 250",
    "select s,n from t where n<>?and s<>'x and y' and s<>''''",
    "\tselect n ,  t . id\t, s from  t\twhere id<>? \r",
    "select n from t where n = ?",
    "select t.s from t where s <> 'from u join t where distinct ? :a ' and n < ?",
    "select * from t where t.n > ?",
)
# And others, which are read by a cursor.
BY_CURSOR = (
    "select distinct s from t where id > ?",
    "select\tdistinct n, id from t where id > ?",
    "select u.id, t.s from u join t on u.t = t.id where u.id > ?",
    "select t.id from t join u on u.t = t.id where t.id > ?",
)


class Colour(enum.Enum):
    RED = 1
    BLUE = 2


class Pages(binding.WithDatabase):
    """They are what `select` returns, as it was when the first was read."""

    def setUp(self):
        super().setUp()
        self.db.execute("table t (id int, s text, n int)")
        self.db.execute("table u (id int, t ref t null)")
        self.db.execute("index t n tree")
        self.db.execute("index t s hash")
        self.db.load("t", ((id, f"text {id % 7}" + "'-" * (id % 3), (ROWS - id) % 50) for id in range(ROWS)))
        self.db.load("u", ((id, None if id % 5 == 0 else id * 3 % ROWS) for id in range(ROWS)))

    def check_same(self, found, rows):
        found = list(found)
        self.assertEqual(found, rows)
        self.assertEqual(list(map(type, found)), list(map(type, rows)))

    def met_by_changes(self, line, *parameters):
        """What is raised where a table is changed between two rows of a select: by the next row if it is read by its key, and by the
        change if by a cursor."""
        rows = self.db.iterate(line, *parameters, page=1)
        self.assertEqual(next(rows), self.db.first(1, line, *parameters)[0])
        try:
            self.db.change("update t set s = 'other' where id = 0")
        except mmdb.Shared as why:
            self.assertEqual(len(list(rows)), self.db.count(line, *parameters) - 1)
            return type(why)
        with self.assertRaises(mmdb.Changed) as raised:
            next(rows)
        return type(raised.exception)

    def test_they_are_all_rows(self):
        draw = random.Random(SEED)
        with self.db.reader() as reader:
            for line in (*BY_KEY, *BY_CURSOR):
                statements = [handle.prepare(line) for handle in (self.db, reader)]
                for page in (1, 2, 7, ROWS - 1, ROWS, ROWS + 1, 1 << 70):
                    value = draw.choice([-1, 0, 5, ROWS // 2, ROWS - 2, ROWS])
                    with self.subTest(line=line, page=page, value=value):
                        rows = self.db.select(line, value)
                        for handle in (self.db, reader):
                            self.check_same(handle.iterate(line, value, page=page), rows)
                        for statement in statements:
                            self.check_same(statement.iterate(value, page=page), rows)

    def test_how_they_are_read(self):
        for lines, raised in ((BY_KEY, mmdb.Changed), (BY_CURSOR, mmdb.Shared)):
            for line in lines:
                with self.subTest(line=line):
                    self.assertEqual(self.met_by_changes(line, 5), raised)

    def test_more_rows_than_a_page_has(self):
        count = 2 * 10_000 + 1
        self.db.execute("delete u")
        self.db.execute("delete t")
        self.db.load("t", ((id, str(id), id) for id in range(count)))
        rows = self.db.iterate("select s from t")
        self.check_same(rows, self.db.select("select s from t"))
        rows = self.db.iterate("select id from t")
        self.assertEqual(len(list(itertools.islice(rows, 10_000))), 10_000)
        self.db.execute("insert t (-1, '', 0)")
        self.assertRaises(mmdb.Changed, next, rows)

    def test_as_many_items_and_conditions_as_may_be(self):
        names = [f"c{number}" for number in range(16)]
        self.db.execute(f"table w ({', '.join(f'{name} int' for name in names)})")
        self.db.load("w", [tuple(range(id, id + 16)) for id in range(5)])
        conditions = " and ".join(f"c{number} >= 0" for number in range(7))
        for line in (
            "select * from w",
            f"select {', '.join(names)} from w",
            f"select {', '.join(reversed(names))} from w",
            f"select {', '.join(names[1:])} from w",
            f"select {', '.join(names[2:])} from w where {conditions}",
            f"select * from w where {conditions} and c15 >= 0",
            f"select c5 from w where {conditions} and c15 >= 0",
        ):
            with self.subTest(line=line):
                self.check_same(self.db.iterate(line, page=2), self.db.select(line))
        self.refused(37, self.db.iterate, f"select * from w where {conditions} and c7 = 0 and c8 = 0")

    def test_lines_that_are_as_long_as_may_be(self):
        seen = set()
        for item, length in itertools.product(("id", "n"), range(8165, 8193)):
            line = f"select {item} from t where s <> ''"
            for long in (line + " " * (length - len(line)), line.replace("''", f"'{'x' * (length - len(line))}'")):
                with self.subTest(item=item, length=length):
                    self.check_same(self.db.iterate(long, page=70), self.db.select(long))
                    seen.add(self.met_by_changes(long))
        self.assertEqual(seen, {mmdb.Changed, mmdb.Shared})
        self.refused(10, self.db.iterate, line + " " * (8193 - len(line)))

    def test_names_that_are_nearly_words(self):
        names = ("wherever", "fromage", "_from", "and_", "distinct1", "selects", "from_", "Where")
        for table, key in itertools.product(("selects", "fromage", "distinct_", "AND", "t" * 32), ("id", "wherever", "k" * 32)):
            columns = [name for name in names if name != key]
            self.db.execute(f"table {table} ({key} int, {', '.join(f'{name} int' for name in columns)})")
            self.db.load(table, [(id, *range(7)) if len(columns) == 7 else (id, *range(8)) for id in range(5)])
            for shown in ("*", key, f"{table}.{key}", "distinct1, and_", "_from", "from_,fromage"):
                line = f"select {shown} from {table} where and_ >= 0"
                with self.subTest(line=line):
                    self.check_same(self.db.iterate(line, page=2), self.db.select(line))
            self.db.execute(f"drop table {table}")

    def test_keys_that_are_texts(self):
        texts = sorted({"", " ", "a", "a\n", "'", "''", "b\r\n", "?", ":a", "é", "\U0010ffff", "x" * 1024, "null", "0"}, key=str.encode)
        self.db.execute("table k (k text, n int)")
        self.db.load("k", [(text, number) for number, text in enumerate(texts)])
        for line in ("select * from k", "select n from k", "select n from k where k <> 'a'"):
            for page in (1, 3):
                self.check_same(self.db.iterate(line, page=page), self.db.select(line))

    def test_columns_that_are_read_as_other_types(self):
        self.db.execute("table e (id int, day text, colour int, t ref t null)")
        day = datetime.date(2026, 11, 30)
        self.db.load("e", [(id, day, 1 + id % 2, id) for id in range(5)] + [(5, day, 1, None)])
        self.db.convert("e.day", datetime.date)
        self.db.convert("e.colour", Colour)
        for key in (None, str, lambda id: [id]):
            self.db.convert("e.id", key)
            for line in ("select * from e", "select day from e", "select t from e", "select t, id from e where day = ?"):
                values = [day] if "?" in line else []
                with self.subTest(line=line, key=key):
                    self.check_same(self.db.iterate(line, *values, page=2), self.db.select(line, *values))
        rows = self.db.iterate("select colour from e", page=2)
        self.assertEqual((next(rows), next(rows)), ((Colour.RED,), (Colour.BLUE,)))
        self.db.convert("e.colour", None)
        self.assertEqual(next(rows), (1,))

    def test_parameters(self):
        lines = ("select id from t where id >= :least and id <= :most and n <> :least", "select s from t where id >= :page")
        named = {"least": 7, "most": 60}
        rows = self.db.select(lines[0], named)
        self.check_same(self.db.iterate(lines[0], **named, page=5), rows)
        self.check_same(self.db.prepare(lines[0]).iterate(named), rows)
        self.check_same(self.db.iterate(lines[1], {"page": 290}, page=3), self.db.select(lines[1], page=290))
        with self.assertRaisesRegex(ValueError, "no parameter is given for :page"):
            self.db.iterate(lines[1], page=290)
        adapted = []
        mmdb.register_adapter(Number, lambda number: adapted.append(number) or int(number))
        self.check_same(self.db.iterate("select id from t where id > ?", Number(5), page=2), self.db.select("select id from t where id > 5"))
        self.assertEqual(len(adapted), 1)

    def test_refusals_come_at_the_call(self):
        for number, line, values in (
            (30, "select * from none", ()),
            (32, "select none from t", ()),
            (33, "select s, s from t", ()),
            (35, "select * from t where id = ?", ("a",)),
            (35, "select s from t where n > 3 and id = ?", ("a",)),
            (35, "select s\nfrom t\nwhere id = :id", ({"id": "a"},)),
            (20, "select s from t where id = 1 or id = 2", ()),
            (20, "select s from t limit 5", ()),
            (20, "select s from ?", (1,)),
            (20, "select s from t where id > 5 'x", ()),
            (32, "select distinct none from t", ()),
        ):
            with self.subTest(line=line):
                found = self.refused(number, self.db.iterate, line, *values, page=5)
                selected = self.refused(number, self.db.select, line, *values)
                self.assertEqual((str(found), repr(found), found.written), (str(selected), repr(selected), selected.written))

    def test_wrong_calls(self):
        for line in ("delete t", "tables", "# select", ""):
            with self.subTest(line=line), self.assertRaisesRegex(TypeError, "iterate takes a line that begins with select"):
                self.db.iterate(line)
        with self.db.prepare("delete t") as delete, self.assertRaisesRegex(TypeError, "iterate takes a line that begins with select"):
            delete.iterate()
        line = "select * from t where id = ?"
        for kind, line, parameters, page in (
            (ValueError, line, (1,), 0),
            (ValueError, line, (1,), -1),
            (TypeError, line, (1,), 1.5),
            (TypeError, line, (1,), "1"),
            (TypeError, b"select * from t", (), 1),
            (ValueError, line, (), 1),
            (ValueError, line, (1, 2), 1),
            (ValueError, line, ("\ud800",), 1),
            (ValueError, line, (1 << 63,), 1),
            (TypeError, line, (1.5,), 1),
        ):
            with self.subTest(line=line, parameters=parameters, page=page), self.assertRaises(kind):
                self.db.iterate(line, *parameters, page=page)

    def test_what_is_closed(self):
        statement = self.db.prepare("select id from t")
        rows, more = statement.iterate(page=2), self.db.iterate("select id from t", page=2)
        statement.close()
        with self.assertRaisesRegex(ValueError, "closed"):
            statement.iterate()
        self.assertEqual([row.id for row in rows], list(range(ROWS)))
        self.assertEqual(next(more), (0,))
        self.db.close()
        self.assertEqual(next(more), (1,))
        for call in (lambda: next(more), lambda: self.db.iterate("select id from t")):
            with self.assertRaisesRegex(ValueError, "closed"):
                call()
        self.assertEqual(list(more), [])


class Number:
    """A value of a type with an adapter."""

    def __init__(self, number):
        self.number = number

    def __int__(self):
        return self.number


class Changes(binding.WithDatabase):
    """A table that is changed between two pages."""

    def setUp(self):
        super().setUp()
        self.db.execute("table u (id int)")
        self.db.execute("table t (id int, u ref u null)")
        self.rows = [(id, None) for id in range(4)]
        self.db.load("t", self.rows)

    def check_changed(self, change, database=None):
        for line in ("select * from t", "select u from t"):
            with self.subTest(line=line):
                rows = (database or self.db).iterate(line, page=2)
                self.assertIn(next(rows)[0], (0, None))
                change()
                next(rows)
                with self.assertRaisesRegex(mmdb.Changed, "^mmdb: the table t was changed between two pages of its rows$") as raised:
                    next(rows)
                self.assertIsInstance(raised.exception, mmdb.OperationalError)
                self.assertEqual(list(rows), [])
                self.db.execute("delete t")
                self.db.load("t", self.rows)

    def test_each_change_is_seen(self):
        def roll_back():
            self.db.begin()
            self.db.execute("insert t (9, null)")
            self.db.rollback()

        self.check_changed(lambda: self.db.execute("insert t (9, null)"))
        self.check_changed(lambda: self.db.change("update t set u = ? where id = 1", None))
        self.check_changed(lambda: self.db.change("delete t where id = ?", 3))
        self.check_changed(lambda: self.db.load("t", [(9, None)]))
        self.check_changed(lambda: self.db.executemany("insert t (?, ?)", [(9, None), (10, None)]))
        self.check_changed(roll_back)
        self.check_changed(self.redeclare)
        self.assertEqual(list(self.db.iterate("select * from t", page=1)), self.rows)

    def redeclare(self):
        self.db.execute("drop table t")
        self.db.execute("table t (id int, u ref u null)")
        self.db.load("t", self.rows)

    def test_a_table_that_is_gone(self):
        rows = self.db.iterate("select id from t", page=2)
        self.db.execute("drop table t")
        self.assertEqual([next(rows), next(rows)], [(0,), (1,)])
        self.assertRaises(mmdb.Changed, next, rows)

    def test_what_is_no_change_of_it(self):
        rows, seen = self.db.iterate("select id from t", page=1), []
        for row in rows:
            seen.append(row.id)
            self.db.execute(f"insert u ({row.id})")
            self.db.execute(f"table v{row.id} (id int)")
            self.assertEqual(self.db.change("delete t where id > 9"), 0)
            self.refused_somehow(41, self.db.change, "insert t (1, null)")
            self.db.execute("index t u hash" if row.id % 2 == 0 else "drop index t u hash")
        self.assertEqual(seen, [0, 1, 2, 3])

    def test_within_the_last_page(self):
        for page in (5, 10):
            rows = self.db.iterate("select id from t", page=page)
            self.assertEqual(next(rows), (0,))
            self.db.execute("delete t where id = 3")
            self.assertEqual(len(list(rows)), 3)
            self.db.execute("insert t (3, null)")

    def test_in_a_transaction(self):
        with self.db.transaction():
            self.db.execute("insert t (4, null)")
            self.assertEqual(len(list(self.db.iterate("select * from t", page=2))), 5)
            rows = self.db.iterate("select * from t", page=2)
        self.assertEqual(len(list(rows)), 5)

    def test_a_reader_that_leaves(self):
        with self.db.reader() as reader, mmdb.Database() as other:
            other.execute("table u (id int)")
            other.execute("table t (id int, u ref u null)")
            other.load("t", self.rows)

            def leave(change, database):
                reader.leave()
                change()
                database.share(reader)

            rows = reader.iterate("select id from t", page=2)
            leave(lambda: self.db.execute("insert u (1)"), self.db)
            self.assertEqual(len(list(rows)), 4)
            for change, database in (
                (lambda: self.db.execute("insert t (9, null)"), self.db),
                (lambda: None, other),
                (lambda: None, self.db),
            ):
                rows = reader.iterate("select id from t", page=2)
                leave(change, database)
                self.assertEqual([next(rows), next(rows)], [(0,), (1,)])
                self.assertRaises(mmdb.Changed, next, rows)
            rows = reader.iterate("select id from t", page=2)
            reader.leave()
            self.assertEqual([next(rows), next(rows)], [(0,), (1,)])
            self.assertRaises(mmdb.Changed, next, rows)

    def test_threads_go_on_between_pages(self):
        rows, done = self.db.iterate("select id from t", page=2), []
        thread = threading.Thread(target=lambda: done.append(self.db.count("select * from t")))
        next(rows)
        thread.start()
        thread.join()
        self.assertEqual((done, [row.id for row in rows]), ([4], [1, 2, 3]))

    def test_a_thread_that_changes_it(self):
        def work():
            for id in range(100, 400):
                self.db.execute("insert t (?, null)", id)
                self.db.execute("delete t where id = ?", id)

        thread, ends = threading.Thread(target=work), []
        thread.start()
        while thread.is_alive() or not ends:
            try:
                # (a row that comes and goes is in none of them, or at the end)
                seen = [row.id for row in self.db.iterate("select id from t", page=2)]
                self.assertEqual(seen[:4], [0, 1, 2, 3])
                ends.append(len(seen))
            except mmdb.Changed:
                pass
        thread.join()
        self.assertLessEqual(set(ends), {4, 5})

    def test_watches_may_iterate(self):
        seen = []
        with self.db.watch(lambda number: seen.append([row.id for row in self.db.iterate("select id from t", page=2)]), "t"):
            self.db.execute("insert t (9, null)")
        self.assertEqual(seen, [[0, 1, 2, 3, 9]])


class Memory(binding.WithDatabase):
    """What is held while many rows are iterated over."""

    def test_it_holds_a_page(self):
        self.db.execute("table t (id int, s text)")
        self.db.load("t", ((id, f"{id:0100d}") for id in range(8_000)))
        for shown in ("*", "s"):
            peaks = []
            for page in (200, 8_000):
                tracemalloc.start()
                self.assertEqual(sum(1 for _ in self.db.iterate(f"select {shown} from t", page=page)), 8_000)
                peaks.append(tracemalloc.get_traced_memory()[1])
                tracemalloc.stop()
            self.assertLess(10 * peaks[0], peaks[1])
