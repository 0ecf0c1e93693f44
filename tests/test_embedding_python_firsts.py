"""The binding for Python: the first rows of selects, by a line, by a statement and by a reader."""

import datetime
import random
import sys
import threading

from support import binding
from support.binding import mmdb

SEED = 20261129
ROWS = 500
SELECTS = (
    "select * from t where id > ?",
    "select s from t where id >= ? and id < 400",
    "select id from t where id <> ? and s = 'text 3'",
    "select id from t where n = ?",
    "select * from t where n <> ? and id > 10",
    "select distinct s from t where n < ?",
    "select t.id, u.id from u join t on u.t = t.id where u.id > ?",
)


class Firsts(binding.WithDatabase):
    """They are the front of what `select` returns."""

    def setUp(self):
        super().setUp()
        self.db.execute("table t (id int, s text, n int)")
        self.db.execute("table u (id int, t ref t null)")
        self.db.execute("index t s hash")
        self.db.execute("index t n tree")
        self.db.load("t", ((id, f"text {id % 7}" + "-" * (id % 3 * 20), ROWS - id) for id in range(ROWS)))
        self.db.load("u", ((id, None if id % 5 == 0 else id * 3 % ROWS) for id in range(ROWS)))

    def test_they_are_the_front_of_all_rows(self):
        draw = random.Random(SEED)
        with self.db.reader() as reader:
            for line in SELECTS:
                statements = [handle.prepare(line) for handle in (self.db, reader)]
                for most in (0, 1, 9, ROWS, ROWS + 1, sys.maxsize, 1 << 70):
                    value = draw.choice([-1, 0, 5, ROWS // 2, ROWS - 2, ROWS])
                    rows = self.db.select(line, value)
                    found = [handle.first(most, line, value) for handle in (self.db, reader)]
                    found += [statement.first(most, value) for statement in statements]
                    for first in found:
                        self.assertEqual((type(first), first, first.names, first.types), (mmdb.Rows, rows[:most], rows.names, rows.types))

    def test_pages_of_a_table_that_changes(self):
        line, last, seen = "select id, s from t where id > :last", -1, []
        page = self.db.first(64, line, last=last)
        while page:
            last = page[-1].id
            seen += page.column("id")
            self.db.change("delete u where t = ?", page[0].id)
            self.db.change("delete t where id = ?", page[0].id)
            self.db.change("insert t (?, 'new', 0)", -last - 2)
            page = self.db.first(64, line, {"last": last})
        self.assertEqual(seen, list(range(ROWS)))
        self.assertEqual(self.db.first(1, "select id from t")[0].id, -ROWS - 1)

    def test_rows_stay_and_a_statement_goes_on(self):
        with self.db.prepare("select id from t where id >= ?") as after:
            first, rows, second = after.first(2, 3), after.execute(ROWS - 1), after.first(1, 7)
            self.assertEqual((first, rows, second, after.count(0)), ([(3,), (4,)], [(ROWS - 1,)], [(7,)], ROWS))
        with self.assertRaisesRegex(ValueError, "closed"):
            after.first(1, 0)
        self.assertEqual(self.db.first(1, "select *\n# all\nfrom u where t = ?", 3), [(1, 3)])

    def test_values_are_converted(self):
        self.db.execute("table d (day text)")
        day = datetime.date(2026, 11, 29)
        self.db.execute("insert d (?)", day)
        self.db.convert("d.day", datetime.date)
        self.assertEqual(self.db.first(1, "select * from d where day <= ?", day), [(day,)])
        with self.db.prepare("select * from d where day = ?") as of_day:
            self.assertEqual((of_day.first(5, day), of_day.first(0, day)), ([(day,)], []))

    def test_what_has_no_first_rows(self):
        for line in ("delete t", "insert u (1000, null)", "tables", "# select", ""):
            with self.subTest(line=line), self.assertRaisesRegex(TypeError, "first takes a line that begins with select"):
                self.db.first(1, line)
        with self.db.prepare("delete t") as delete, self.assertRaisesRegex(TypeError, "first takes a line that begins with select"):
            delete.first(1)
        self.refused(30, self.db.first, 1, "select * from none")
        refused = self.refused(35, self.db.first, 1, "select * from t where id = ?", "a")
        self.assertEqual(refused.line, "select * from t where id = 'a'")
        self.assertRegex(refused.reason, "^column 28: ")
        for kind, most, line, parameters in (
            (ValueError, -1, "select * from t", ()),
            (TypeError, 1.5, "select * from t", ()),
            (TypeError, "1", "select * from t", ()),
            (TypeError, 1, b"select * from t", ()),
            (ValueError, 1, "select * from t where id = ?", (1, 2)),
            (ValueError, 1, "select * from t where s = ?", ("\ud800",)),
            (TypeError, 1, "select * from t where id = ?", (1.5,)),
        ):
            with self.subTest(most=most, line=line), self.assertRaises(kind):
                self.db.first(most, line, *parameters)
        self.assertEqual((self.db.count("select * from t"), self.db.count("select * from u")), (ROWS, ROWS))

    def test_after_a_declaration(self):
        line = "select * from d"
        for kind, value in (("int", 1), ("text", "1")):
            self.db.execute(f"table d (id int, v {kind})")
            self.db.execute("insert d (1, ?)", value)
            first = self.db.first(1, line)
            self.assertEqual((first, first.types[1]), ([(1, value)], type(value)))
            self.db.execute("drop table d")
        self.refused(30, self.db.first, 1, line)

    def test_in_a_transaction(self):
        with self.assertRaises(KeyError), self.db.transaction():
            self.db.execute("insert t (-1, 'first', 0)")
            self.assertEqual(self.db.first(1, "select id from t"), [(-1,)])
            raise KeyError
        self.assertEqual(self.db.first(1, "select id from t"), [(0,)])

    def test_threads_share_a_database(self):
        def work(begin):
            for at in range(begin, begin + 100):
                found = self.db.first(2, "select id from t where id >= ?", at)
                wrong.extend(found if found != [(at,), (at + 1,)] else ())

        wrong = []
        threads = [threading.Thread(target=work, args=(begin,)) for begin in (0, 100, 200, 300)]
        for thread in threads:
            thread.start()
        for thread in threads:
            thread.join()
        self.assertEqual(wrong, [])

    def test_a_closed_database(self):
        statement = self.db.prepare("select * from t")
        self.db.close()
        for call in (lambda: self.db.first(1, "select * from t"), lambda: statement.first(1)):
            with self.assertRaisesRegex(ValueError, "closed"):
                call()
