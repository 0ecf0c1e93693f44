"""Refuses each of the library's calls for memory that a call on a statement makes in turn, and tells of each call how many they
are. It then raises that there was none, and everything is as it was; or it is done as ever. What was refused is done when it
is called again. A second database, which is never refused anything, tells what is as ever."""

import ctypes
import itertools
import os
import tempfile

import mmdb

LIBRARY = ctypes.CDLL(os.path.join(os.environ["MMDB_LIBRARY"], "libmmdb.so"))
LONG = "a text that is longer than a slot of few bytes, and than some more of them"
KEY = "a key of some length"
MANY = 20


class Kept:
    """A database with rows, and statements."""

    def __init__(self):
        self.db = mmdb.Database()
        self.db.execute("table u (k text)")
        self.db.execute("table t (id int, s text, c ref u null)")
        self.db.execute("index t s hash")
        self.db.executemany("insert u (?)", [(KEY,)])
        self.db.executemany("insert t (?, ?, ?)", [(1, "a", None), (2, "another text", KEY), (3, "c\n", None)])
        self.insert = self.db.prepare("insert t (?, ?, null)")
        self.update = self.db.prepare("update t set s = ? where id > ?")
        self.delete = self.db.prepare("delete t where s <> ?")
        self.select = self.db.prepare("select * from t where id >= ?")
        self.join = self.db.prepare("select distinct t.s, u.k from t join u on t.c = u.k where t.s <> ?")
        self.more = []

    def insert_in_transaction(self):
        with self.db.transaction():
            self.insert.execute(4, LONG)

    def delete_in_transaction(self):
        with self.db.transaction():
            self.delete.execute("a")
            self.insert.execute(2, LONG)

    def update_in_transaction(self):
        with self.db.transaction():
            self.update.execute(LONG, 1)
            self.db.change("update t set c = ?", KEY)

    def declare_in_transaction(self):
        with self.db.transaction():
            self.delete.execute("a")
            self.db.execute("index t s tree")
            self.db.execute("table v (id int, c ref u)")
            self.db.execute("insert v (1, ?)", KEY)
            self.db.execute("index v c hash")

    def drop_in_transaction(self):
        with self.db.transaction():
            self.db.execute("drop index t s hash")
            self.update.execute(LONG, 1)
            self.db.execute("drop table t")
            self.db.execute("table t (id int, s text, c ref u null)")
            self.insert.execute(4, LONG)

    def iterate(self):
        """The rows of selects that are read by a cursor, page by page. Then nothing holds the tables."""
        rows = [*self.db.iterate("select distinct s, id from t where s <> ?", LONG, page=1)]
        rows += self.db.iterate("select t.s, u.k from t join u on t.c = u.k", page=2)
        self.db.change("update t set c = ? where id = ?", KEY, 1)
        return rows

    def prepare(self):
        self.more.append(self.db.prepare("select s, c from t where s = ? and id < ? and c <> 'a text that is given'"))

    def restored(self):
        """What is saved of a database that was restored from what was saved of this one."""
        with tempfile.TemporaryDirectory(prefix="mmdb-tests-") as folder:
            first, second = os.path.join(folder, "first"), os.path.join(folder, "second")
            self.db.save(first)
            with mmdb.Database.restore(first) as db:
                db.save(second)
            with open(second, "rb") as file:
                return file.read()

    def state(self):
        return self.db.execute("tables"), self.db.select("select * from t"), self.select.execute(2)


STEPS = (
    lambda of: [of.prepare() for _ in range(MANY)] and None,
    lambda of: of.insert.execute(4, LONG),
    lambda of: of.insert.executemany([(4, LONG)]),
    lambda of: of.update.execute(LONG, 1),
    lambda of: of.delete.execute("a"),
    lambda of: of.select.execute(1),
    lambda of: of.join.execute(LONG),
    lambda of: of.select.names,
    lambda of: of.db.select("select s from t where s <> ? and id < ?", LONG, 3),
    lambda of: of.db.begin(),
    lambda of: of.insert_in_transaction(),
    lambda of: of.update_in_transaction(),
    lambda of: of.delete_in_transaction(),
    lambda of: of.declare_in_transaction(),
    lambda of: of.drop_in_transaction(),
    lambda of: of.restored(),
    lambda of: of.iterate(),
    lambda of: of.db.change("update t set c = ? where id = ?", KEY, 1),
)


def is_refused(step, met):
    """Whether a step calls for memory so often that one call is refused."""
    one, twin = Kept(), Kept()
    LIBRARY.allocations_refuse(ctypes.c_long(met), ctypes.c_long(1))
    try:
        given = step(one)
    except mmdb.NoMemory as why:
        LIBRARY.allocations_refuse(ctypes.c_long(0), ctypes.c_long(0))
        assert (why.number, why.text) == (90, "no memory"), why
        assert one.state() == twin.state(), "something changed"
        given, refused = step(one), True
    else:
        refused = LIBRARY.allocations_refused() > 0
        LIBRARY.allocations_refuse(ctypes.c_long(0), ctypes.c_long(0))
    assert given == step(twin)
    assert one.state() == twin.state()
    return refused


for step in STEPS:
    print(next(met for met in itertools.count() if not is_refused(step, met)))
