"""The binding for Python: selects that are asked to end, by another thread and by Ctrl-C."""

import contextlib
import copy
import os
import signal
import subprocess
import sys
import threading
import time
import unittest
import warnings

from support import binding, harness
from support.binding import mmdb

# By a scan the join looks at each pair of rows, and gives none.
ROWS = 4_000
JOIN = "select a.id, b.id from a join b on a.n = b.n"
BEHIND = f"{JOIN} where a.id >= ?"
# Of these it would take a minute or more.
MANY = 200_000
SECONDS = 20
IS_EXTENSION = mmdb.implementation == "extension"


def fill(db, rows):
    db.execute("table a (id int, n int)")
    db.execute("table b (id int, n int)")
    db.load("a", ((id, id % 7) for id in range(rows)))
    db.load("b", ((id, id % 7 + 7) for id in range(rows)))


class Poked:
    """Something is done again and again by a thread, for as long as a `with` lasts."""

    def __init__(self, poke, threads=1):
        self._poke = poke
        self._is_over = threading.Event()
        self._threads = [threading.Thread(target=self._work) for _ in range(threads)]

    def _work(self):
        while not self._is_over.wait(0.0005):
            self._poke()

    def __enter__(self):
        for thread in self._threads:
            thread.start()

    def __exit__(self, *_):
        self._is_over.set()
        for thread in self._threads:
            thread.join()


class WithJoin(binding.WithDatabase):
    """A test with a join that takes a while."""

    def setUp(self):
        super().setUp()
        self.db = mmdb.Database("scan")
        self.addCleanup(self.db.close)
        fill(self.db, ROWS)

    def check_interrupted(self, handle, call, threads=1):
        """A call is ended by those who ask for it, and what is done behind it is as ever."""
        version = handle.version()
        with Poked(handle.interrupt, threads), self.assertRaisesRegex(mmdb.Interrupted, "^mmdb: the select was interrupted$") as raised:
            for _ in range(100):
                call()
        self.assertIsInstance(raised.exception, mmdb.OperationalError)
        self.assertEqual((handle.select("select * from a where id < ?", 2), handle.version()), ([(0, 0), (1, 1)], version))


class Interrupts(WithJoin):
    """Selects that a thread asks to end."""

    def calls(self, handle):
        """The calls of a select, each with what it gives."""
        statement, after = handle.prepare(JOIN), handle.prepare(BEHIND)
        return [
            (lambda: handle.select(JOIN), []),
            (lambda: handle.select(BEHIND, 0), []),
            (lambda: handle.execute(JOIN), []),
            (lambda: handle.execute(f"{JOIN} where a.id >= :id", id=0), []),
            (lambda: handle.count(JOIN), 0),
            (lambda: handle.first(1, BEHIND, 0), []),
            (lambda: list(handle.iterate(JOIN)), []),
            (statement.execute, []),
            (statement.count, 0),
            (lambda: after.first(5, 0), []),
            (lambda: list(after.iterate(0)), []),
        ]

    def test_each_call(self):
        with self.db.reader() as reader:
            for handle in (self.db, reader):
                for call, found in self.calls(handle):
                    self.check_interrupted(handle, call)
                    self.assertEqual(call(), found)

    def test_many_threads_ask_at_once(self):
        self.check_interrupted(self.db, lambda: self.db.select(JOIN), threads=8)

    def test_what_was_asked_before(self):
        for _ in range(3):
            self.db.interrupt()
            self.assertEqual(self.db.select(JOIN), [])
        self.db.interrupt()
        self.assertEqual((self.db.count(JOIN), self.db.first(1, JOIN)), (0, []))

    def test_it_ends_at_once(self):
        """A join of many rows is ended long before its time."""
        with mmdb.Database("scan") as db:
            fill(db, MANY)
            began = time.monotonic()
            with Poked(db.interrupt), self.assertRaises(mmdb.Interrupted):
                db.select(JOIN)
            self.assertLess(time.monotonic() - began, SECONDS)

    def test_what_is_not_cut(self):
        insert = "insert a (?, ?)"
        with Poked(self.db.interrupt):
            for _ in range(20):
                self.assertEqual(self.db.executemany(insert, [(id, 0) for id in range(ROWS, 2 * ROWS)]), ROWS)
                self.assertEqual(self.db.change("update a set n = 1 where id >= ?", ROWS), ROWS)
                self.assertEqual(self.db.change("delete a where id >= ?", ROWS), ROWS)
                self.assertEqual(self.db.load("a", ((id, 0) for id in range(ROWS, 2 * ROWS))), ROWS)
                with self.assertRaises(KeyError), self.db.transaction():
                    self.db.execute("delete b")
                    raise KeyError
                self.assertEqual(self.db.execute("delete a where id >= 4000"), ROWS)
            self.assertEqual(self.db.answer(JOIN), b"rows 0\na.id,b.id\n")
            self.assertEqual(len(self.db.execute("dump a").splitlines()), ROWS + 2)
        self.assertEqual((self.db.count("select * from a"), self.db.count("select * from b")), (ROWS, ROWS))

    def test_handles_of_their_own(self):
        """What asks one doesn't ask another that shares its tables, or has copies of them."""
        with self.db.reader() as reader, copy.copy(self.db) as copied:
            for asked, others in ((self.db, (reader, copied)), (reader, (self.db, copied)), (copied, (self.db, reader))):
                with Poked(asked.interrupt):
                    for other in others:
                        self.assertEqual(other.select(JOIN), [])
            for handle in (reader, copied, self.db):
                self.check_interrupted(handle, lambda handle=handle: handle.select(JOIN))

    def test_a_reader_that_comes_back(self):
        with self.db.reader() as reader:
            for _ in range(3):
                self.check_interrupted(reader, lambda: reader.count(JOIN))
                reader.leave()
                reader.interrupt()
                self.db.execute("insert a (?, 0)", self.db.count("select * from a"))
                self.db.share(reader)
            self.assertEqual(reader.count("select * from a"), ROWS + 3)

    def test_in_a_transaction(self):
        with self.db.transaction():
            self.db.execute("insert a (-1, 0)")
            with Poked(self.db.interrupt), self.assertRaises(mmdb.Interrupted):
                for _ in range(100):
                    self.db.select(JOIN)
            self.assertEqual((self.db.in_transaction, self.db.count("select * from a")), (True, ROWS + 1))

    def test_an_iterator_holds_nothing(self):
        self.check_interrupted(self.db, lambda: self.db.iterate(JOIN, page=1))
        self.assertEqual(self.db.change("update a set n = 0 where id = 0"), 1)
        # (a page is no select, and isn't cut)
        rows = self.db.iterate("select distinct id from a", page=1)
        with Poked(self.db.interrupt):
            self.assertEqual([row.id for row in rows], list(range(ROWS)))
        self.assertEqual(self.db.change("update a set n = 0 where id = 0"), 1)

    def test_a_cursor(self):
        connection = mmdb.connect("scan")
        self.addCleanup(connection.close)
        fill(connection.database, ROWS)
        cursor = connection.cursor()
        with Poked(connection.database.interrupt), self.assertRaises(connection.OperationalError):
            for _ in range(100):
                cursor.execute(BEHIND, (0,))
        self.assertEqual((cursor.description, cursor.rowcount), (None, -1))
        self.assertEqual(cursor.execute("select id from a where id < 1").fetchall(), [(0,)])

    def test_it_is_closed_meanwhile(self):
        for _ in range(50):
            db = mmdb.Database()
            db.execute("table a (id int)")
            with Poked(db.interrupt, threads=2):
                with contextlib.suppress(mmdb.Interrupted):
                    self.assertEqual(db.select("select * from a"), [])
                db.close()
                db.interrupt()
            with self.assertRaisesRegex(ValueError, "closed"):
                db.select("select * from a")

    def test_it_is_closed_once_its_select_has_ended(self):
        """A close waits for the select that is under way, which is asked to end first."""
        raised, db = [], mmdb.Database("scan")
        fill(db, ROWS)

        def work():
            while True:
                try:
                    db.select(JOIN)
                except (mmdb.Interrupted, ValueError) as why:
                    raised.append(why)
                    if not isinstance(why, mmdb.Interrupted):
                        return

        thread = threading.Thread(target=work)
        thread.start()
        while not raised:
            db.interrupt()
        db.close()
        thread.join()
        self.assertEqual({type(why) for why in raised[:-1]}, {mmdb.Interrupted})

    def test_in_a_child_of_fork(self):
        with Poked(self.db.interrupt), warnings.catch_warnings():
            # (that there are other threads)
            warnings.simplefilter("ignore", DeprecationWarning)
            child = os.fork()
            if not child:
                self.end_child()
        self.assertEqual(os.waitstatus_to_exitcode(os.waitpid(child, 0)[1]), 0)

    def end_child(self):
        status = 1
        try:
            signal.alarm(SECONDS)
            db = mmdb.Database("scan")
            fill(db, ROWS)
            for handle in (self.db, db):
                self.check_interrupted(handle, lambda handle=handle: handle.select(JOIN))
            status = 0
        finally:
            os._exit(status)  # pylint: disable=protected-access


class Raised(Exception):
    """What a function for a signal raises."""


def poke():
    os.kill(os.getpid(), signal.SIGINT)


class WithSignals(WithJoin):
    """A test of the main thread, with functions for the signal."""

    def setUp(self):
        super().setUp()
        self.seen, self.is_due = 0, False
        self.addCleanup(signal.signal, signal.SIGINT, signal.getsignal(signal.SIGINT))

    def raise_once(self, *_):
        if self.is_due:
            self.is_due = False
            raise Raised

    def count(self, *_):
        self.seen += 1

    def check_raised(self, call):
        """What the function for the signal raises is what the call does."""
        signal.signal(signal.SIGINT, self.raise_once)
        with Poked(poke), self.assertRaises(Raised):
            self.is_due = True
            while True:
                call()
        self.assertEqual(self.db.select("select * from a where id < ?", 2), [(0, 0), (1, 1)])


class CtrlC(WithSignals):
    """A signal that comes while a select is under way."""

    def test_what_a_function_raises(self):
        statement = self.db.prepare(BEHIND)
        with self.db.reader() as reader:
            for call in (
                lambda: self.db.select(JOIN),
                lambda: self.db.execute(BEHIND, 0),
                lambda: self.db.count(JOIN),
                lambda: self.db.first(1, JOIN),
                lambda: list(self.db.iterate(JOIN)),
                lambda: statement.execute(0),
                lambda: statement.count(0),
                lambda: statement.first(1, 0),
                lambda: reader.select(JOIN),
            ):
                self.check_raised(call)

    def test_a_function_that_returns(self):
        """The select goes on, and what was done about the signal stands."""
        signal.signal(signal.SIGINT, self.count)
        while not self.seen:
            threading.Timer(0.005, poke).start()
            for _ in range(10):
                self.assertEqual(self.db.select(JOIN), [])
        self.assertEqual(signal.getsignal(signal.SIGINT), self.count)

    def test_signals_that_are_ignored(self):
        signal.signal(signal.SIGINT, signal.SIG_IGN)
        with Poked(poke):
            for call in (lambda: self.db.select(JOIN), lambda: self.db.execute(BEHIND, 0)):
                self.assertEqual([call() for _ in range(5)], [[]] * 5)

    def test_behind_a_select(self):
        """Python's handler is where it was."""
        for handler in (self.count, signal.default_int_handler, self.count):
            signal.signal(signal.SIGINT, handler)
            self.assertEqual(self.db.select(JOIN), [])
            seen = self.seen
            if handler == self.count:
                signal.raise_signal(signal.SIGINT)
                self.assertEqual(self.seen, seen + 1)
            else:
                self.assertRaises(KeyboardInterrupt, signal.raise_signal, signal.SIGINT)

    def test_a_select_of_another_thread(self):
        """It goes on: the signal is the main thread's."""
        signal.signal(signal.SIGINT, self.count)
        found = []
        thread = threading.Thread(target=lambda: found.extend(self.db.count(JOIN) for _ in range(5)))
        thread.start()
        while thread.is_alive() or not self.seen:
            poke()
            time.sleep(0.001)
        self.assertEqual(found, [0] * 5)

    def run_program(self, program, *poked):
        """The lines that a program prints. At each that is among those, a signal comes, and again where nothing is printed."""
        where = {**os.environ, **binding.WHERE}
        words = [sys.executable, "-u", "-c", PROGRAM + program]
        with subprocess.Popen(words, env=where, stdout=subprocess.PIPE, stderr=subprocess.PIPE, text=True) as ran:
            self.addCleanup(ran.stderr.close)
            lines = []
            for line in ran.stdout:
                lines.append(line.rstrip("\n"))
                if lines[-1] in poked:
                    time.sleep(0.05)
                    ran.send_signal(signal.SIGINT)
            status = ran.wait(harness.SECONDS)
            return lines, ran.stderr.read(), status

    def test_by_the_handler_that_is_there_at_first(self):
        told = self.run_program("try:\n    select()\nexcept KeyboardInterrupt:\n    print(db.count('select * from a'))\n", "select")
        self.assertEqual(told, (["select", str(ROWS)], "", 0))

    def test_a_handler_of_the_system(self):
        told = self.run_program("import signal\nsignal.signal(signal.SIGINT, signal.SIG_DFL)\nselect()\n", "select")
        self.assertEqual(told, (["select"], "", -signal.SIGINT))


PROGRAM = f"""
import mmdb
db = mmdb.Database("scan")
for name, more in (("a", 0), ("b", 7)):
    db.execute(f"table {{name}} (id int, n int)")
    db.load(name, ((id, id % 7 + more) for id in range({ROWS})))

def select():
    print("select")
    while True:
        db.select("{JOIN}")
"""


@unittest.skipUnless(IS_EXTENSION, "by ctypes a signal comes at the end of a call")
class EndedByCtrlC(WithSignals):
    """What of that only the extension does: the select is ended."""

    def test_it_ends_at_once(self):
        with mmdb.Database("scan") as db:
            fill(db, MANY)
            began = time.monotonic()
            self.check_raised(lambda: db.select(JOIN))
            self.assertLess(time.monotonic() - began, SECONDS)

    def test_a_function_that_interrupts(self):
        signal.signal(signal.SIGINT, lambda *_: self.db.interrupt())
        with Poked(poke), self.assertRaises(mmdb.Interrupted):
            for _ in range(100):
                self.db.select(JOIN)

    def test_another_is_ended_by_a_thread(self):
        """Both may come at once."""
        signal.signal(signal.SIGINT, self.count)
        with Poked(poke):
            self.check_interrupted(self.db, lambda: self.db.select(JOIN), threads=2)

    def test_rows_that_are_made(self):
        """The rows of a select that was long found are made one after the other."""
        self.db.load("a", ((id, 0) for id in range(ROWS, 60_000)))
        self.check_raised(lambda: self.db.select("select * from a"))
        self.check_raised(lambda: list(self.db.iterate("select distinct n, id from a", page=1 << 40)))
        self.check_raised(lambda: list(self.db.iterate("select distinct n, id from a", page=10)))
        self.assertEqual(self.db.change("update a set n = 0 where id = 0"), 1)

    def test_a_child_of_fork_in_another_thread(self):
        """The child isn't in the select, and its signals are Python's."""
        signal.signal(signal.SIGINT, signal.default_int_handler)
        statuses = []

        def fork():
            with warnings.catch_warnings():
                warnings.simplefilter("ignore", DeprecationWarning)
                child = os.fork()
            if child:
                statuses.append(os.waitstatus_to_exitcode(os.waitpid(child, 0)[1]))
                return
            try:
                poke()
                time.sleep(SECONDS)
            except KeyboardInterrupt:
                os._exit(3)  # pylint: disable=protected-access
            finally:
                os._exit(1)  # pylint: disable=protected-access

        for _ in range(5):
            thread = threading.Thread(target=fork)
            thread.start()
            while thread.is_alive():
                self.assertEqual(self.db.select(JOIN), [])
            thread.join()
        self.assertEqual(statuses, [3] * 5)
