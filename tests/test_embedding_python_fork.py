"""The binding for Python: databases and readers in a child of fork, while another thread is in a call on another database or on the same. A
call in the child that waits is ended by an alarm, and the test fails.
"""

import contextlib
import os
import signal
import threading
import warnings

from support import binding, sizes
from support.binding import mmdb

FORKS = sizes.size(20, 1_000, 10)
MOST_FORKS = 50 * FORKS
SECONDS = 60
ROWS = 1_000

# How a child ends.
DONE, CLOSED, FAILED = 0, 3, 1


def status_of_child(what, *given):
    """How a child ends that does this: DONE, or CLOSED where it says so."""
    with warnings.catch_warnings():
        # (that there are other threads)
        warnings.simplefilter("ignore", DeprecationWarning)
        child = os.fork()
    if child:
        return os.waitstatus_to_exitcode(os.waitpid(child, 0)[1])
    status = FAILED
    try:
        status = CLOSED if what(*given) else DONE
    finally:
        os._exit(status)  # pylint: disable=protected-access


class Forked(binding.WithDatabase):
    """The child uses databases and readers on which no other thread is in a call, and opens new ones."""

    def setUp(self):
        super().setUp()
        self.fill(self.db)
        self.is_over = False

    def fill(self, db):
        db.execute("table t (id int, s text)")
        db.load("t", [(number, f"the text of the row {number}") for number in range(ROWS)])

    def keep_busy(self):
        """Calls on a database of this thread, until all is over."""
        with mmdb.Database() as db:
            self.fill(db)
            while not self.is_over:
                db.select("select distinct s from t where id >= ?", 0)
                db.executemany("update t set s = ? where id = ?", [("x" * 20, number) for number in range(ROWS)])

    def keep_reading(self):
        """Calls on the database of all threads, until all is over."""
        while not self.is_over:
            self.db.select("select distinct s from t where id >= ?", 0)

    def use(self, reader, rows):
        """What the child does."""
        signal.alarm(SECONDS)
        self.assertEqual(len(reader.select("select * from t")), ROWS)
        self.assertEqual(len(list(rows)), ROWS - 1)
        self.assertRaises(mmdb.Shared, self.db.execute, "delete t")
        reader.close()
        with self.db.transaction():
            self.db.execute("delete t where id > ?", 2)
        self.assertEqual(len(self.db.select("select * from t")), 3)
        with mmdb.Database() as db:
            self.fill(db)
            self.assertEqual(len(db.dump("t")), ROWS)

    def is_closed(self):
        """Whether the child finds the database closed. Any other goes on."""
        signal.alarm(SECONDS)
        with mmdb.Database() as db:
            self.fill(db)
        try:
            self.db.execute("tables")
        except ValueError:
            return True
        return False

    @contextlib.contextmanager
    def beside(self, keep):
        """While another thread keeps doing this."""
        busy = threading.Thread(target=keep)
        busy.start()
        try:
            yield
        finally:
            self.is_over = True
            busy.join()

    def test_other_handles_go_on(self):
        reader = self.db.reader()
        self.addCleanup(reader.close)
        rows = self.db.iterate("select distinct s from t", page=100)
        next(rows)
        with self.beside(self.keep_busy):
            self.assertEqual({status_of_child(self.use, reader, rows) for _ in range(FORKS)}, {DONE})
        self.assertEqual((len(self.db.select("select * from t")), len(list(rows))), (ROWS, ROWS - 1))

    def test_a_database_in_a_call_is_closed(self):
        found = set()
        with self.beside(self.keep_reading):
            # (whether a child begins within a call is a matter of time)
            for number in range(MOST_FORKS):
                found.add(status_of_child(self.is_closed))
                if number >= FORKS and CLOSED in found:
                    break
        self.assertLessEqual(found, {DONE, CLOSED})
        self.assertIn(CLOSED, found)
        self.assertEqual(len(self.db.select("select * from t")), ROWS)
