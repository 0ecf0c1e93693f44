"""The binding for Python: threads that go on during a call, and threads that share a database."""

import random
import sys
import threading
import time

from support import binding
from support.binding import mmdb

ROWS = 20_000
SEED = 20261201
# Longer than any test: a thread that holds the interpreter's lock gives it up by itself alone.
NEVER = 1_000


class Others(binding.WithDatabase):
    """During a call that may last another thread goes on."""

    def setUp(self):
        super().setUp()
        self.db.execute("table t (id int, n int, s text)")
        self.rows = [(number, number % 7, "x" * 20) for number in range(ROWS)]
        self.db.load("t", self.rows)
        self.db.execute("index t n hash")
        before = sys.getswitchinterval()
        self.addCleanup(sys.setswitchinterval, before)
        self.is_under_way = self.was_seen = self.is_over = False

    def watch(self):
        while not self.is_over:
            self.was_seen |= self.is_under_way
            time.sleep(0)

    def check(self, call):
        """Another thread is awake during the call, which is made until one is."""
        self.was_seen = self.is_over = False
        other = threading.Thread(target=self.watch)
        other.start()
        sys.setswitchinterval(NEVER)
        try:
            for _ in range(1_000):
                self.is_under_way = True
                call()
                self.is_under_way = False
                if self.was_seen:
                    break
        finally:
            sys.setswitchinterval(0.005)
            self.is_over = True
            other.join()
        self.assertTrue(self.was_seen)

    def test_selects(self):
        line = "select id from t where s <> 'x' and n > 6"
        statement = self.db.prepare("select id from t where s <> ? and n > ?")
        for call in (lambda: self.db.select(line), lambda: self.db.execute(line.replace("6", "?"), 6), lambda: statement.execute("x", 6)):
            with self.subTest(call=call):
                self.check(lambda call=call: self.assertEqual(call(), []))

    def test_changes(self):
        statement = self.db.prepare("update t set n = ? where s = ?")
        self.check(lambda: statement.execute(1, "y"))
        self.check(lambda: self.db.change("delete t where s = 'y'"))
        self.check(lambda: self.db.executemany("update t set n = ? where s = ?", [(1, "y")] * 3))

    def test_a_statement_that_was_quick(self):
        """It is looked at again behind a load."""
        self.db.execute("table u (id int, s text)")
        statement = self.db.prepare("select id from u where s = ?")
        for _ in range(100):
            self.assertEqual(statement.execute("x"), [])
        self.db.load("u", ((number, "y") for number in range(ROWS)))
        self.check(lambda: statement.execute("x"))

    def test_loads_and_lines(self):
        block = "id,n,s\n" + "".join(f"{number},{number},\n" for number in range(ROWS, 2 * ROWS))
        self.db.execute("drop index t n hash")

        def load():
            self.db.load_csv("t", block)
            self.db.change("delete t where id >= ?", ROWS)

        self.check(load)
        self.check(lambda: self.db.execute("dump t"))
        self.check(lambda: self.db.answer("select * from t"))

    def test_what_is_told(self):
        self.check(lambda: self.db.indexes("t"))
        block = b"id,n,s\n" + b"".join(b"%d,1,\n" % number for number in range(ROWS, 2 * ROWS)) + b"0,1,\n"
        line = f"load t {len(block)}"

        def reason():
            self.db.answer(line, block)
            self.assertEqual(self.db.reason(line, block), "t has a row with the key 0")

        self.check(reason)

    def test_a_rollback(self):
        new = [(number, 1, "y") for number in range(ROWS, 2 * ROWS)]

        def roll_back():
            self.is_under_way = False
            self.db.begin()
            self.db.load("t", new)
            self.is_under_way = True
            self.db.rollback()

        self.check(roll_back)
        self.assertEqual(len(self.db.select("select id from t")), ROWS)

    def test_a_close(self):
        def close():
            self.is_under_way = False
            db = mmdb.Database()
            db.execute("table t (id int, n int, s text)")
            db.load("t", self.rows)
            self.is_under_way = True
            db.close()

        self.check(close)


class Shared(binding.WithDatabase):
    """Calls of several threads on one database come one after another, and each has its own answer."""

    def run_all(self, *works):
        """Each work is a function of a thread of its own."""
        wrong = []

        def run(work):
            try:
                work()
            except Exception as why:  # pylint: disable=broad-except
                wrong.append(repr(why))

        threads = [threading.Thread(target=run, args=(work,)) for work in works]
        for thread in threads:
            thread.start()
        for thread in threads:
            thread.join()
        self.assertEqual(wrong, [])

    def test_slow_and_quick_calls(self):
        self.db.execute("table t (id int, owner int, s text)")
        select = self.db.prepare("select s from t where owner = ?")
        count = 300

        def work(owner):
            draw = random.Random(SEED + owner)
            texts = []
            for number in range(count):
                texts.append(str(draw.random()))
                self.assertEqual(self.db.execute("insert t (?, ?, ?)", owner * count + number, owner, texts[-1]), 1)
                if number % 50 == 0:
                    self.assertEqual([row.s for row in select.execute(owner)], texts)
                    self.assertEqual(self.db.select(f"select id from t where id = {owner * count + number} and owner <> {number}")[0][0], owner * count + number)
            self.assertEqual(len(self.db.select("select * from t where owner = ? and s <> ?", owner, "")), count)

        self.run_all(*(lambda owner=owner: work(owner) for owner in range(1_000, 1_004)))
        self.assertEqual(len(self.db.dump("t")), 4 * count)

    def test_refusals_are_those_of_the_thread(self):
        self.db.execute("table t (id int, s text)")
        self.db.load("t", ((number, "a") for number in range(1_000)))

        def refused(key):
            for _ in range(200):
                with self.assertRaises(mmdb.Refused) as raised:
                    self.db.execute("insert t (?, 'b')", key)
                self.assertEqual(raised.exception.reason, f"column 11: t has a row with the key {key}")
                self.db.select("select id from t where s = ?", "b")

        self.run_all(*(lambda key=key: refused(key) for key in range(4)))

    def test_one_that_closes(self):
        """Calls that come after the close say so; none is cut."""
        for _ in range(20):
            db = mmdb.Database()
            db.execute("table t (id int, s text)")
            db.load("t", ((number, "a") for number in range(2_000)))
            statement = db.prepare("select id from t where s <> ?")

            def use(statement=statement, db=db):
                try:
                    while True:
                        self.assertEqual(len(statement.execute("b")), 2_000)
                        self.assertEqual(len(db.select("select * from t")), 2_000)
                except ValueError as why:
                    self.assertRegex(str(why), "closed")

            self.run_all(use, use, db.close)
            self.assertTrue(db.closed)
