"""The binding for Python: transactions, one in another too, what is undone by them, and what is raised of them."""

import random
import threading
import typing

from support import binding, sizes
from support.binding import mmdb

SEED = 20261204
ORDERS = sizes.size(200, 5_000)
STEPS = 60


class Stop(Exception):
    """What ends a block."""


class Transactions(binding.WithDatabase):
    """What begins and ends them."""

    def setUp(self):
        super().setUp()
        self.db.execute("table t (id int, s text)")
        self.db.execute("insert t (1, 'a')")

    def ids(self):
        return [row.id for row in self.db.select("select id from t")]

    def test_a_commit_keeps_and_a_rollback_restores(self):
        for end, ids in ((self.db.commit, [1, 2, 3]), (self.db.rollback, [1, 2, 3])):
            self.assertFalse(self.db.in_transaction)
            self.assertIsNone(self.db.begin())
            self.assertTrue(self.db.in_transaction)
            first = len(self.ids()) + 1
            self.db.execute("insert t (?, 'b')", first)
            self.db.load("t", [(first + 1, "c")])
            self.assertEqual(self.ids(), [*range(1, first + 2)])
            self.assertIsNone(end())
            self.assertEqual(self.ids(), ids)
        self.assertFalse(self.db.in_transaction)

    def test_one_in_another_is_a_savepoint(self):
        self.db.begin()
        self.db.execute("insert t (2, 'b')")
        self.db.begin()
        self.db.execute("insert t (3, 'c')")
        self.db.rollback()
        self.assertEqual((self.ids(), self.db.in_transaction), ([1, 2], True))
        self.db.begin()
        self.db.execute("insert t (4, 'd')")
        self.db.commit()
        self.assertEqual((self.ids(), self.db.in_transaction), ([1, 2, 4], True))
        self.db.rollback()
        self.assertEqual((self.ids(), self.db.in_transaction), ([1], False))

    def test_each_order_is_as_of_plain_lists(self):
        draw = random.Random(SEED)
        for _ in range(ORDERS):
            with mmdb.Database() as db:
                self.check_order(db, draw)

    def check_order(self, db, draw):
        db.execute("table t (id int, s text)")
        insert, select = db.prepare("insert t (?, ?)"), db.prepare("select * from t")
        rows, saved = [], []
        for number in range(STEPS):
            step = draw.choice(("insert", "load", "twice", "begin", "begin", "commit", "rollback"))
            new = (number, str(number))
            if step == "insert":
                rows = [*rows, new]
                insert.execute(*new)
            elif step == "load":
                rows = [*rows, new, (number + STEPS, "")]
                self.assertEqual(db.load("t", [new, (number + STEPS, "")]), 2)
            elif step == "twice" and rows:
                self.refused(41, insert.execute, rows[0][0], "")
                self.refused(41, db.load, "t", [new, rows[0]])
            elif step == "begin":
                saved.append(rows)
                db.begin()
            elif step == "commit" and saved:
                saved.pop()
                db.commit()
            elif step == "rollback" and saved:
                rows = saved.pop()
                db.rollback()
            self.assertEqual(select.execute(), sorted(rows))
            self.assertEqual(db.in_transaction, bool(saved))

    def test_the_end_of_a_block_commits(self):
        with self.db.transaction() as given:
            self.assertTrue(self.db.in_transaction)
            self.db.execute("insert t (2, 'b')")
        self.assertEqual((given, self.ids(), self.db.in_transaction), (None, [1, 2], False))

    def test_an_exception_rolls_back(self):
        for raised in (Stop, KeyboardInterrupt, GeneratorExit, StopIteration):
            with self.assertRaises(raised), self.db.transaction():
                self.db.execute("insert t (2, 'b')")
                raise raised
            self.assertEqual((self.ids(), self.db.in_transaction), ([1], False))
        with self.assertRaises(mmdb.IntegrityError), self.db.transaction():
            self.db.executemany("insert t (?, '')", [(2,), (3,), (1,)])
        self.assertEqual(self.ids(), [1])

    def test_a_block_in_a_block(self):
        with self.db.transaction():
            self.db.execute("insert t (2, 'b')")
            with self.assertRaises(Stop), self.db.transaction():
                self.db.execute("insert t (3, 'c')")
                raise Stop
            with self.db.transaction():
                self.db.execute("insert t (4, 'd')")
            self.assertEqual((self.ids(), self.db.in_transaction), ([1, 2, 4], True))
        self.assertEqual((self.ids(), self.db.in_transaction), ([1, 2, 4], False))

    def test_what_is_still_open_ends_with_its_block(self):
        self.db.begin()
        with self.db.transaction():
            self.db.begin()
            self.db.execute("insert t (2, 'b')")
            self.db.begin()
            self.db.execute("insert t (3, 'c')")
        self.assertEqual((self.ids(), self.db.in_transaction), ([1, 2, 3], True))
        with self.assertRaises(Stop), self.db.transaction():
            self.db.begin()
            self.db.execute("insert t (4, 'd')")
            self.db.commit()
            self.db.begin()
            raise Stop
        self.assertEqual((self.ids(), self.db.in_transaction), ([1, 2, 3], True))
        self.db.rollback()
        self.assertEqual((self.ids(), self.db.in_transaction), ([1], False))

    def test_a_block_whose_transaction_was_ended_before(self):
        with self.assertRaises(mmdb.NoTransaction), self.db.transaction():
            self.db.execute("insert t (2, 'b')")
            self.db.rollback()
        self.db.begin()
        with self.assertRaises(Stop), self.db.transaction():
            self.db.commit()
            raise Stop
        self.assertTrue(self.db.in_transaction)
        self.db.commit()
        self.assertEqual(self.ids(), [1])
        with self.assertRaisesRegex(ValueError, "the database is closed"), self.db.transaction():
            self.db.close()
        with mmdb.Database() as db, self.assertRaises(Stop), db.transaction():
            db.close()
            raise Stop

    def test_none_is_open(self):
        for end in (self.db.commit, self.db.rollback):
            with self.assertRaisesRegex(mmdb.NoTransaction, "^mmdb: no transaction is open$") as raised:
                end()
            self.assertIsInstance(raised.exception, mmdb.ProgrammingError)
        self.assertEqual(self.ids(), [1])

    def test_what_is_not_done_in_one(self):
        self.db.execute("index t s hash")
        with self.db.transaction():
            self.db.execute("insert t (2, 'b')")
            with self.assertRaisesRegex(mmdb.InTransaction, "^mmdb: this isn't done in a transaction") as raised:
                self.db.reader()
            self.assertIsInstance(raised.exception, mmdb.NotSupportedError)
            for number, line in ((32, "update t set nothing = 'b'"), (20, " dropx"), (30, "drop table u"), (38, "drop index t s tree")):
                self.refused(number, self.db.execute, line)
            self.assertEqual(self.db.execute("tables"), "table t (id int, s text)\nindex t s hash\n")
        self.assertEqual(self.ids(), [1, 2])
        self.assertIsNone(self.db.execute("drop index t s hash"))
        self.assertIsNone(self.db.execute("drop table t"))

    def test_a_closed_database(self):
        self.db.begin()
        self.db.close()
        self.assertFalse(self.db.in_transaction)
        for call in (self.db.begin, self.db.commit, self.db.rollback, lambda: self.db.transaction().__enter__()):
            with self.assertRaisesRegex(ValueError, "the database is closed"):
                call()

    def test_rows_and_statements_stay(self):
        insert, select = self.db.prepare("insert t (?, ?)"), self.db.prepare("select * from t where id >= ?")
        found = [select.execute(0)]
        for step in (self.db.begin, self.db.begin, self.db.commit, self.db.rollback):
            insert.execute(len(found) + 1, "b")
            found.append(select.execute(0))
            step()
            self.assertEqual(self.db.select("select * from t where id >= ?", 0), select.execute(0))
        self.assertEqual([len(rows) for rows in found], [1, 2, 3, 4, 5])
        self.assertEqual([row.id for row in found[-1]], [1, 2, 3, 4, 5])
        self.assertEqual((self.ids(), select.names), ([1, 2], ("t.id", "t.s")))

    def test_what_can_be_read_in_one(self):
        with self.db.transaction():
            self.db.load_dicts("t", [{"s": "b", "id": 2}])
            self.db.load_csv("t", "id,s\n3,c\n")
            self.assertEqual(self.db.dump("t"), [(1, "a"), (2, "b"), (3, "c")])
            self.assertEqual(self.db.execute("dump t"), "load t 17\nid,s\n1,a\n2,b\n3,c\n")
            self.assertEqual([index.rows for index in self.db.indexes("t")], [3])
            self.assertEqual(self.db.answer("insert t (1, 'b')"), b"error 41 key exists\n")
            self.assertEqual(self.db.reason("insert t (1, 'b')"), "t has a row with the key 1")

    def test_it_is_of_all_threads(self):
        for call in (self.db.begin, lambda: self.db.execute("insert t (2, 'b')"), self.db.begin, self.db.commit, self.db.rollback):
            thread = threading.Thread(target=call)
            thread.start()
            thread.join()
        self.assertEqual((self.ids(), self.db.in_transaction), ([1], False))


class Changes(binding.WithDatabase):
    """Deletes and updates in a transaction."""

    def setUp(self):
        super().setUp()
        for line in ("table dept (id int, name text)", "table emp (id int, name text, dept ref dept null)", "index emp name hash", "index emp dept tree"):
            self.db.execute(line)
        self.depts = [(10, "toys"), (20, "shoes")]
        self.emps = [(1, "Ann", 20), (2, "Bob", None), (3, "Cy?", 20)]
        self.db.load("dept", self.depts)
        self.db.load("emp", self.emps)

    def check_rows(self, depts, emps):
        self.assertEqual((self.db.dump("dept"), self.db.dump("emp")), (depts, emps))

    def test_a_rollback_restores_what_was_deleted(self):
        delete = self.db.prepare("delete emp where dept = ?")
        for _ in range(3):
            with self.assertRaises(Stop), self.db.transaction():
                self.refused(44, self.db.change, "delete dept where id = 20")
                self.assertEqual(delete.execute(20), 2)
                self.assertEqual(self.db.change("delete emp where id = ?", 2), 1)
                self.assertEqual(self.db.execute("delete dept where id = 20"), 1)
                self.assertEqual(self.db.load("emp", [(1, "Eve", 10)]), 1)
                self.refused(42, self.db.execute, "insert emp (2, 'Di', 20)")
                self.check_rows([(10, "toys")], [(1, "Eve", 10)])
                raise Stop
            self.check_rows(self.depts, self.emps)
            self.assertEqual(self.db.select("select id from emp where name = 'Ann'"), [(1,)])
            self.assertEqual(self.db.select("select id from emp where dept = 20"), [(1,), (3,)])
            self.assertEqual([index.rows for index in self.db.indexes("emp")], [3, 3, 3])
            self.refused(44, self.db.change, "delete dept where id = 20")

    def test_a_rollback_restores_what_was_updated(self):
        update = self.db.prepare("update emp set dept = :dept, name = :name where id >= :id")
        for _ in range(3):
            with self.assertRaises(Stop), self.db.transaction():
                self.assertEqual(update.execute(dept=10, name="a text that no cell of a row can hold", id=2), 2)
                with self.assertRaises(Stop), self.db.transaction():
                    self.assertEqual(self.db.change("update emp set name = '', dept = null"), 3)
                    self.assertEqual(self.db.execute("delete emp where name = ?", ""), 3)
                    raise Stop
                self.assertEqual(self.db.executemany("update emp set name = ? where id = ?", [("two\nlines", 2), ("Di", 7)]), 1)
                self.assertEqual(self.db.answer("update emp set dept = 10 where id = 1"), b"ok 1\n")
                self.refused(42, self.db.execute, "update emp set dept = 30")
                self.refused(36, self.db.execute, "update emp set id = 1")
                self.assertEqual(self.db.execute("delete dept where id = 20"), 1)
                self.refused(44, self.db.change, "delete dept where id = 10")
                self.check_rows([(10, "toys")], [(1, "Ann", 10), (2, "two\nlines", 10), (3, "a text that no cell of a row can hold", 10)])
                raise Stop
            self.check_rows(self.depts, self.emps)
            self.assertEqual(self.db.select("select id from emp where name = 'Bob'"), [(2,)])
            self.assertEqual(self.db.select("select id from emp where dept = 20"), [(1,), (3,)])
            self.assertEqual([index.rows for index in self.db.indexes("emp")], [3, 3, 3])
            self.refused(44, self.db.change, "delete dept where id = 20")

    def test_a_commit_keeps_what_was_updated(self):
        with self.db.transaction():
            self.assertEqual(self.db.executemany("update emp set dept = ? where id = ?", [(10, 1), (None, 3)]), 2)
            with self.db.transaction():
                self.assertEqual(self.db.change("update emp set name = 'Eve' where dept = 10"), 1)
        self.check_rows(self.depts, [(1, "Eve", 10), (2, "Bob", None), (3, "Cy?", None)])
        self.assertEqual(self.db.change("delete dept where id = 20"), 1)

    def test_a_commit_keeps_what_was_deleted(self):
        with self.db.transaction():
            self.assertEqual(self.db.executemany("delete emp where id = :id", [{"id": 1}, {"id": 3}]), 2)
            self.assertEqual(self.db.executemany("delete dept where id = ?", [(20,), (30,)]), 1)
            self.assertEqual(self.db.answer("delete emp where id = 7"), b"ok 0\n")
        self.check_rows([(10, "toys")], [(2, "Bob", None)])

    def test_what_is_refused_is_rolled_back_with_what_was_done(self):
        with self.assertRaises(mmdb.IntegrityError), self.db.transaction():
            self.db.executemany("delete emp where id = ?", [(2,), (3,)])
            self.db.executemany("delete dept where id = ?", [(10,), (20,)])
        self.check_rows(self.depts, self.emps)

    def test_each_order_is_as_of_plain_lists(self):
        draw = random.Random(SEED + 1)
        for _ in range(ORDERS):
            with mmdb.Database() as db:
                db.execute("table t (id int, s text)")
                db.execute("index t s hash")
                self.check_order(db, draw)

    def check_order(self, db, draw):
        above, delete = db.prepare("delete t where id >= ?"), db.prepare("delete t where s = ?")
        set_above, set_one = db.prepare("update t set s = ? where id >= ?"), db.prepare("update t set s = ? where id = ?")
        steps = "insert, insert, load, load, set above, set one, above, delete, by key, begin, begin, commit, rollback".split(", ")
        rows, saved = {}, []
        for number in range(STEPS):
            step = draw.choice(steps)
            text, key = str(draw.randrange(5)), draw.randrange(number + 1)
            if step == "insert" and key not in rows:
                db.execute("insert t (?, ?)", key, text)
                rows[key] = text
            elif step == "load":
                self.assertEqual(db.load("t", ((-number * 3 - at, text) for at in range(1, 4))), 3)
                rows.update((-number * 3 - at, text) for at in range(1, 4))
            elif step == "set above":
                self.assertEqual(set_above.execute(text, key), sum(id >= key for id in rows))
                rows = {id: text if id >= key else s for id, s in rows.items()}
            elif step == "set one":
                self.assertEqual(set_one.execute(text, key), key in rows)
                rows.update({key: text} if key in rows else {})
            elif step == "above":
                self.assertEqual(above.execute(key), sum(id >= key for id in rows))
                rows = {id: s for id, s in rows.items() if id < key}
            elif step == "delete":
                self.assertEqual(delete.execute(text), sum(s == text for s in rows.values()))
                rows = {id: s for id, s in rows.items() if s != text}
            elif step == "by key":
                self.assertEqual(db.change("delete t where id = ?", key), key in rows)
                rows.pop(key, None)
            elif step == "begin":
                db.begin()
                saved.append(dict(rows))
            elif step == "commit" and saved:
                db.commit()
                saved.pop()
            elif step == "rollback" and saved:
                db.rollback()
                rows = saved.pop()
            self.assertEqual(db.dump("t"), sorted(rows.items()))
            self.assertEqual(db.select("select id from t where s = ?", text).column("id"), sorted(id for id, s in rows.items() if s == text))


class Made(typing.NamedTuple):
    """A table: the line that declares it, that of its index, and its rows."""

    line: str
    index: str = ""
    rows: list = []


class Declarations(binding.WithDatabase):
    """Tables and indexes that are made in a transaction."""

    def setUp(self):
        super().setUp()
        self.db.execute("table t (id int, s text)")
        self.db.load("t", [(1, "a"), (2, "b")])
        self.before = "table t (id int, s text)\n"

    def check_declared(self, *lines):
        self.assertEqual(self.db.execute("tables"), self.before + "".join(f"{line}\n" for line in lines))

    def check_is_no_table(self, name):
        for call in (self.db.dump, self.db.indexes, lambda name: self.db.select(f"select * from {name}")):
            self.refused(30, call, name)
        self.refused(30, self.db.load, name, [(1,)])

    def test_a_rollback_undoes_a_table_with_its_rows(self):
        for _ in range(3):
            with self.assertRaises(Stop), self.db.transaction():
                self.assertIsNone(self.db.execute("table u (id int, t ref t null)"))
                self.assertEqual(self.db.load("u", [(1, 2), (2, None)]), 2)
                self.assertEqual(self.db.answer("index u t hash"), b"ok\n")
                self.refused(44, self.db.execute, "delete t where id = 2")
                with self.assertRaises(Stop), self.db.transaction():
                    self.db.execute("table v (k text, u ref u)")
                    self.assertEqual(self.db.load_dicts("v", [{"u": 2, "k": "a text that no cell of a row can hold"}]), 1)
                    self.refused(44, self.db.execute, "delete u")
                    raise Stop
                self.check_is_no_table("v")
                self.check_declared("table u (id int, t ref t null)", "index u t hash")
                self.assertEqual(self.db.dump("u"), [(1, 2), (2, None)])
                raise Stop
            self.check_declared()
            self.check_is_no_table("u")
            with self.assertRaises(Stop), self.db.transaction():
                self.assertEqual(self.db.change("delete t where id = 2"), 1)
                raise Stop
        self.db.execute("table u (k text, n int)")
        self.assertEqual(self.db.load("u", [("a", 1)]), 1)
        self.assertEqual(self.db.dump("u"), [("a", 1)])

    def test_a_rollback_undoes_an_index(self):
        for kind in ("tree", "hash"):
            with self.assertRaises(Stop), self.db.transaction():
                self.db.execute("delete t where id = 1")
                self.db.execute("update t set s = 'c' where id = 2")
                self.db.execute(f"index t s {kind}")
                self.db.execute("insert t (3, 'c')")
                self.assertEqual(self.db.select("select id from t where s = 'c'"), [(2,), (3,)])
                self.assertEqual([(index.kind, index.rows) for index in self.db.indexes("t")], [("tree", 2), (kind, 2)])
                self.refused(39, self.db.execute, f"index t s {kind}")
                raise Stop
            self.check_declared()
            self.assertEqual([index.rows for index in self.db.indexes("t")], [2])
            self.assertEqual(self.db.select("select id from t where s = 'a'"), [(1,)])
            self.assertEqual(self.db.select("select id from t where s = 'c'"), [])

    def test_a_commit_keeps_both(self):
        with self.db.transaction():
            self.db.execute("delete t where id = 1")
            self.db.execute("index t s tree")
            with self.db.transaction():
                self.db.execute("table u (id int, t ref t)")
                self.db.load_csv("u", "t,id\n2,7\n", columns=["t", "id"])
        self.check_declared("index t s tree", "table u (id int, t ref t)")
        self.assertEqual(self.db.dump("u"), [(7, 2)])
        self.refused(44, self.db.execute, "delete t where s = 'b'")
        self.assertIsNone(self.db.execute("drop table u"))
        self.assertEqual(self.db.execute("delete t where s = 'b'"), 1)

    def test_statements_are_of_the_tables_as_they_are(self):
        self.db.begin()
        self.db.execute("table u (id int, s text)")
        insert, select = self.db.prepare("insert u (?, ?)"), self.db.prepare("select * from u")
        self.assertEqual(insert.execute(1, "a"), 1)
        found = select.execute()
        self.assertEqual((found, select.names), ([(1, "a")], ("u.id", "u.s")))
        self.db.rollback()
        self.assertEqual(found, [(1, "a")])
        self.refused(30, insert.execute, 1, "a")
        self.refused(30, select.execute)
        self.refused(30, lambda: select.names)
        self.db.begin()
        self.db.execute("table u (s text, id int, more int)")
        self.assertEqual(self.db.load("u", [("b", 2, 3)]), 1)
        self.assertEqual((select.execute(), select.names), ([("b", 2, 3)], ("u.s", "u.id", "u.more")))
        self.db.rollback()
        self.db.execute("table u (s text, id int)")
        self.refused(35, insert.execute, 1, "a")
        self.assertEqual(insert.execute("a", 1), 1)
        self.assertEqual(self.db.load("u", [("b", 2)]), 1)
        self.assertEqual((select.execute()[1].id, self.db.select("select * from u").names), (2, ("u.s", "u.id")))

    def test_what_is_refused_declares_nothing(self):
        with self.db.transaction():
            for number, line in ((31, "table t (id int)"), (30, "table u (id int, v ref v)"), (32, "index t n tree"), (20, "tablex u (id int)")):
                self.refused(number, self.db.execute, line)
            self.db.execute("table u (id int)")
        self.check_declared("table u (id int)")

    def test_each_order_is_as_of_plain_lists(self):
        draw = random.Random(SEED + 2)
        for _ in range(ORDERS):
            with mmdb.Database() as db:
                self.check_order(db, draw)

    def check_order(self, db, draw):
        """Tables, each of which refers to the one before it, with rows and an index."""
        made, saved = [], []
        for _ in range(STEPS):
            step = draw.choice(("table", "table", "index", "insert", "insert", "begin", "begin", "commit", "rollback"))
            last = len(made) - 1
            if step == "table":
                made = [*made, Made(f"table t{last + 1} (id int, c {f'ref t{last}' if made else 'int'})")]
                db.execute(made[-1].line)
            elif step == "index" and made and not made[-1].index:
                made = [*made[:-1], made[-1]._replace(index=f"index t{last} c {draw.choice(('tree', 'hash'))}")]
                db.execute(made[-1].index)
            elif step == "insert" and made and (last == 0 or made[-2].rows):
                made = [*made[:-1], made[-1]._replace(rows=[*made[-1].rows, (len(made[-1].rows), 0)])]
                db.execute(f"insert t{last} (?, ?)", *made[-1].rows[-1])
            elif step == "begin":
                db.begin()
                saved.append(made)
            elif step == "commit" and saved:
                db.commit()
                saved.pop()
            elif step == "rollback" and saved:
                db.rollback()
                made = saved.pop()
            self.assertEqual(db.execute("tables").splitlines(), [line for table in made for line in table[:2] if line])
            self.assertEqual([db.dump(f"t{number}") for number in range(len(made))], [table.rows for table in made])
