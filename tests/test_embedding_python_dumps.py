"""Databases that are saved to a file by the package for Python, and restored from it."""

import concurrent.futures
import copy
import itertools
import os
import pathlib
import pickle
import random
import tempfile
import threading
import tracemalloc
import unittest
from unittest import mock

from support import binding, embedding, harness, sizes
from support.binding import mmdb
from support.limited import small_files

from mmdb.ranges import chunks
from mmdb.values import quoted_fields

SEED = 20261129
DATABASES = sizes.size(20, 300)
ROWS = 10_000

COMPANY = """table dept (name text)
table emp (id int, name text, dept ref dept null, boss int)
index emp dept hash
index emp dept tree
index emp boss tree
index dept name hash
table part (id int, of ref emp, made ref emp null)
table none (id int)
""".splitlines()

# What these tables are saved as, with the rows that `company` has.
SAVED = b"""# mmdb dump 1
table dept (name text)
table emp (id int, name text, dept ref dept null, boss int)
table part (id int, of ref emp, made ref emp null)
table none (id int)
load dept 22
name
""
shoes
"to
ys"
index dept name hash
load emp 98
id,name,dept,boss
-9223372036854775808,,,0
1,"a ""b"", 'c'
d\r",shoes,-1
2,"
","to
ys",1
3,null,,2
update emp set dept = '' where id = 3
index emp dept hash
index emp dept tree
index emp boss tree
load part 22
id,of,made
7,1,
8,3,2
# end of the dump: 4 tables, 9 rows
"""
EMPTY = b"# mmdb dump 1\n# end of the dump: 0 tables, 0 rows\n"


def company(block=mmdb.MOST):
    db = mmdb.Database(block=block)
    for line in COMPANY:
        db.execute(line)
    db.load("dept", [("shoes",), ("to\nys",), ("",)])
    db.executemany(
        "insert emp (?, ?, ?, ?)",
        [(3, "null", "", 2), (1, "a \"b\", 'c'\nd\r", "shoes", -1), (2, "\n", "to\nys", 1), (-(1 << 63), "", None, 0)],
    )
    db.load("part", [(7, 1, None), (8, 3, 2)])
    return db


class Noted(mmdb.Database):
    """A database of which the last one that was opened is noted."""

    last = None

    def __init__(self, *given, **named):
        super().__init__(*given, **named)
        Noted.last = self


def held_by(db):
    """All that a database has."""
    tables = [line.split()[1] for line in db.execute("tables").splitlines() if line.startswith("table ")]
    return db.execute("tables"), [db.dump(table) for table in tables]


class WithFolder(binding.WithDatabase):
    def setUp(self):
        super().setUp()
        room = tempfile.TemporaryDirectory(prefix="mmdb-tests-")
        self.addCleanup(room.cleanup)
        self.room = pathlib.Path(room.name)
        self.path = self.room / "all.mmdb"

    def restored(self, content, **limits):
        """A database of a file with this content."""
        self.path.write_bytes(content)
        db = mmdb.Database.restore(self.path, **limits)
        self.addCleanup(db.close)
        return db

    def saved(self, db):
        """What a database is saved as."""
        db.save(self.path)
        return self.path.read_bytes()

    def refuses(self, content, told, **limits):
        """A file with this content is no dump, for this reason. No database is left open."""
        self.path.write_bytes(content)
        with self.assertRaises(mmdb.DataError) as raised:
            Noted.restore(self.path, **limits)
        self.assertIsInstance(raised.exception, ValueError)
        self.assertEqual(str(raised.exception), f"mmdb: {self.path}{told}")
        self.assertTrue(Noted.last.closed)


class Copied(WithFolder):
    """What `copy.copy` makes of a database."""

    def test_a_company(self):
        with company() as db:
            with copy.copy(db) as copied:
                self.assertEqual((type(copied), held_by(copied), self.saved(copied)), (mmdb.Database, held_by(db), SAVED))
                self.assertEqual([*map(copied.indexes, ("dept", "emp"))], [*map(db.indexes, ("dept", "emp"))])
                copied.execute("insert none (1)")
                copied.execute("drop table part")
                self.refused(42, copied.execute, "insert emp (7, 'x', 'nowhere', 1)")
            self.assertEqual(self.saved(db), SAVED)

    def test_of_a_reader(self):
        with company() as db, db.reader() as reader, copy.copy(reader) as copied:
            copied.execute("insert none (1)")
            self.assertEqual((copied.count("select * from none"), db.count("select * from none")), (1, 0))

    def test_what_has_no_copy(self):
        with self.db.transaction(), self.assertRaises(mmdb.InTransaction):
            copy.copy(self.db)
        for make in (copy.deepcopy, pickle.dumps):
            with self.assertRaisesRegex(TypeError, "copy.copy makes a copy of one"):
                make(self.db)
        self.db.close()
        with self.assertRaisesRegex(ValueError, "closed"):
            copy.copy(self.db)


class Saved(WithFolder):
    def test_a_company(self):
        with company() as db:
            self.assertEqual(self.saved(db), SAVED)
            again = self.restored(SAVED)
            self.assertEqual(held_by(again), held_by(db))
            self.assertEqual([*map(again.indexes, ("dept", "emp"))], [*map(db.indexes, ("dept", "emp"))])
            self.assertEqual(self.saved(again), SAVED)
            again.execute("insert part (9, 1, null)")
            self.refused(42, again.execute, "insert part (10, 99, null)")

    def test_the_program_reads_it(self):
        ended = harness.run_whole(SAVED + b"tables\n")
        self.assertEqual((ended.status, ended.err), (0, b""))
        self.assertNotIn(b"error", ended.out)
        self.assertTrue(ended.out.endswith(company().answer("tables")))

    def test_without_tables(self):
        self.assertEqual(self.saved(self.db), EMPTY)
        self.assertEqual(self.restored(self.path.read_bytes()).execute("tables"), "")

    def test_random_rows(self):
        draw = random.Random(SEED)
        for number in range(DATABASES):
            with self.subTest(number), company(block=draw.choice((1 << 12, 1 << 14, mmdb.MOST))) as db:
                keys = [f"{at}{embedding.text(draw)}" for at in range(20)] + ["", None]
                db.load("dept", [(key,) for key in keys if key])
                for at in range(4, draw.randrange(5, 200)):
                    text = draw.choice(["", *embedding.LINE_FEEDS]) + embedding.text(draw) + "x" * draw.randrange(300)
                    db.execute("insert emp (?, ?, ?, ?)", at, text, draw.choice(keys), draw.randrange(1 << 40))
                content = self.saved(db)
                again = self.restored(content)
                self.assertEqual(held_by(again), held_by(db))
                path = self.room / "again"
                with mmdb.Database.restore(str(path.with_name("all.mmdb")), block=db._block, policy="merge") as third:
                    third.save(str(path))
                self.assertEqual(path.read_bytes(), content)

    def test_tables_of_many_blocks(self):
        """By keys of both kinds, of which many can't be written in a line."""
        with mmdb.Database(block=1 << 13) as db:
            db.execute("table t (id int, s text)")
            db.execute("table u (k text, n int)")
            db.load("t", ((at - 7, "x" * (at % 50)) for at in range(3 * ROWS)))
            db.load("u", ((f"{at:06}\"" + ("\n" if at % 3 else ""), at) for at in range(3 * ROWS)))
            content = self.saved(db)
            self.assertGreater(content.count(b"\nload t "), 50)
            self.assertGreater(content.count(b"\nload u "), 50)
            self.assertTrue(content.endswith(b"# end of the dump: 2 tables, %d rows\n" % (6 * ROWS)))
            again = self.restored(content, block=1 << 13)
            self.assertEqual(held_by(again), held_by(db))
            self.assertEqual(self.saved(again), content)

    def test_what_no_dump_can_hold(self):
        self.path.write_bytes(b"old")
        with company() as db:
            db.execute("table u (k text, d ref dept null)")
            db.execute("insert u (?, ?)", "a\nb", "")
            with self.assertRaises(mmdb.DataError) as raised:
                db.save(self.path)
        why = "mmdb: no dump can hold a row of u whose key has a line feed and whose d is the empty text: set it to null first"
        self.assertEqual(str(raised.exception), why)
        with mmdb.Database(block=40) as db:
            db.execute("table t (id int, s text)")
            db.execute("insert t (1, ?)", "x" * 32)
            db.save(self.room / "fits")
            db.execute("update t set s = ?", "x" * 33)
            with self.assertRaisesRegex(ValueError, r"\Ammdb: a row of t has no room in a block of 40 bytes\Z"):
                db.save(self.path)
        self.assertEqual(self.path.read_bytes(), b"old")
        self.assertEqual(sorted(os.listdir(self.room)), ["all.mmdb", "fits"])

    def test_in_a_transaction(self):
        with company() as db:
            with db.transaction():
                db.execute("delete part")
                content = self.saved(db)
                self.assertTrue(db.in_transaction)
                db.rollback()
                db.begin()
            self.assertEqual(self.saved(db), SAVED)
        self.assertNotIn(b"load part", content)
        self.assertIn(b"load emp", content)
        self.assertEqual(self.restored(content).dump("part"), [])

    def test_by_a_reader(self):
        with company(block=1 << 7) as db, db.reader() as reader:
            content = self.saved(reader)
            self.assertEqual(self.saved(db), content)
            self.assertRaises(mmdb.Shared, db.execute, "delete part")
            self.assertRaisesRegex(ValueError, "a file is restored by mmdb.Database", type(reader).restore, self.path)
            reader.leave()
            self.assertEqual(self.saved(reader), EMPTY)
        self.assertRaisesRegex(ValueError, "the database is closed", db.save, self.room / "new")
        self.assertEqual(os.listdir(self.room), ["all.mmdb"])

    def test_converters_and_subclasses(self):
        """Columns are saved as they are stored. What is restored is of the class that restores."""

        class Other(mmdb.Database):
            pass

        with company() as db:
            db.convert("emp.boss", bool)
            self.assertEqual(self.saved(db), SAVED)
        with Other.restore(self.path) as other:
            self.assertIs(type(other), Other)


class Costs(WithFolder):
    """What a save holds, and whom it has wait."""

    def filled(self, tables):
        """A database with so many tables of many blocks."""
        db = mmdb.Database(block=1 << 14)
        self.addCleanup(db.close)
        for number in range(tables):
            db.execute(f"table t{number} (id int, s text)")
            db.load(f"t{number}", ((at, "x" * 40) for at in range(2 * ROWS)))
        return db

    def peak(self, call, *given, **named):
        """The most bytes that Python holds during a call."""
        tracemalloc.start()
        try:
            call(*given, **named)
            return tracemalloc.get_traced_memory()[1]
        finally:
            tracemalloc.stop()

    def test_memory(self):
        """It doesn't grow with the tables. A restore holds some blocks."""
        least, most = (self.peak(self.filled(tables).save, self.path) for tables in (1, 4))
        self.assertLess(most, 1.2 * least)
        self.assertGreater(self.path.stat().st_size, 2 * most)
        self.assertLess(self.peak(mmdb.Database.restore, self.path), 16 * (1 << 14))

    def test_other_threads_wait(self):
        """Each save has the rows of one moment, while another thread changes them."""
        db = self.filled(1)
        ends = threading.Event()

        def change():
            for at in itertools.count(2 * ROWS):
                db.change("insert t0 (?, ?)", at, "new")
                db.change("delete t0 where id = ?", at - 2 * ROWS)
                if ends.is_set():
                    return

        with concurrent.futures.ThreadPoolExecutor() as threads:
            changing = threads.submit(change)
            try:
                for _ in range(5):
                    with self.restored(self.saved(db)) as again:
                        self.assertIn(again.count("select id from t0"), (2 * ROWS, 2 * ROWS + 1))
            finally:
                ends.set()
            changing.result()


class Chunks(unittest.TestCase):
    """Records are cut where as many as have room end."""

    def test_drawn_records(self):
        draw = random.Random(SEED)
        for _ in range(sizes.size(300, 10_000)):
            texts = ["".join(draw.choice('",\nab') for _ in range(draw.randrange(6))) for _ in range(draw.randrange(30))]
            records = [quoted_fields([text])[0].encode() + b",7\n" for text in texts]
            most = max([*map(len, records), draw.randrange(1, 60)])
            packed = [b""]
            for record in records:
                packed = [*packed, record] if len(packed[-1] + record) > most else [*packed[:-1], packed[-1] + record]
            cuts = sorted(draw.randrange(len(records) + 1) for _ in range(3))
            pieces = [b"".join(records[low:high]) for low, high in zip([0, *cuts], [*cuts, None])]
            self.assertEqual([*chunks(pieces, most)], [*filter(None, packed)])

    def test_one_that_is_too_long(self):
        self.assertEqual([*chunks([b'1\n"2\n', b'3"\n4\n'], 4)], [b"1\n", b'"2\n3"\n4\n'])
        self.assertEqual([*chunks([], 0)], [])


class Files(WithFolder):
    """A file is whole or as it was."""

    def test_a_full_disk(self):
        self.path.write_bytes(b"old")
        with company() as db:
            for most in range(len(SAVED)):
                with small_files(most), self.assertRaises(OSError):
                    db.save(self.path)
                self.assertEqual(os.listdir(self.room), ["all.mmdb"])
                self.assertEqual(self.path.read_bytes(), b"old")
            with small_files(len(SAVED)):
                self.assertEqual(self.saved(db), SAVED)

    def test_paths(self):
        with company() as db:
            for path in (self.room, self.room / "no" / "file"):
                self.assertRaises(OSError, db.save, path)
                self.assertRaises(OSError, mmdb.Database.restore, path)
            self.assertRaises(TypeError, db.save, None)
            db.save(os.fsencode(self.room / "bytes"))
            os.unlink(self.room / "bytes")
            self.assertRaises(FileNotFoundError, mmdb.Database.restore, self.path)
            os.symlink("all.mmdb", self.room / "link")
            self.path.touch(0o640)
            db.save(self.room / "link")
            self.assertEqual((self.path.read_bytes(), self.path.stat().st_mode & 0o777), (SAVED, 0o640))
            self.assertTrue((self.room / "link").is_symlink())
            db.save("/dev/null")

    def test_arguments(self):
        with company() as db:
            db.save(self.path)
        with self.assertRaisesRegex(ValueError, "a policy is one of"):
            mmdb.Database.restore(self.path, policy="best")
        with mmdb.Database.restore(self.path, "tree", 5, 200) as db:
            self.assertEqual(db.execute("insert emp (4, '', null, 0)"), 1)
            self.refused(43, db.execute, "insert emp (5, '', null, 0)")


class Damaged(WithFolder):
    """A file that is no whole dump is refused, and names the place."""

    def test_cut_at_each_byte(self):
        for end in range(len(SAVED)):
            with self.subTest(end=end), self.assertRaises(mmdb.DataError):
                self.restored(SAVED[:end])

    def test_each_byte_of_the_first_and_the_last_line(self):
        first, last = range(SAVED.index(b"\n") + 1), range(SAVED.rindex(b"\n", 0, -1) + 1, len(SAVED))
        for at in (*first, *last):
            for byte in {0, 10, 13, 32, 48, 49, 57, 120, 255} - {SAVED[at]}:
                with self.subTest(at=at, byte=byte), self.assertRaises(mmdb.DataError):
                    self.restored(SAVED[:at] + bytes([byte]) + SAVED[at + 1 :])

    def test_what_is_told(self):
        end = b"# end of the dump: 1 tables, 0 rows\n"
        whole = b"# mmdb dump 1\ntable t (id int)\nload t 7\nid\n1\n2\n"
        no_dump = " is no dump: it doesn't begin with the line # mmdb dump 1"
        part = " is a part of a dump: it doesn't end with a line # end of the dump"
        wrong = ", line 7: its last line is not # end of the dump: 1 tables, 2 rows"
        for content, told in (
            (b"", no_dump),
            (b"# mmdb dump\n", no_dump),
            (b"# mmdb dump 1", no_dump),
            (b"\n# mmdb dump 1\n" + end, no_dump),
            (b"# mmdb dump 2\n" + end, " is a dump of version 2, and only those of version 1 are read"),
            (whole, part),
            (whole + b"# end of the dum", part),
            (whole + end, wrong),
            (whole + b"# end of the dump: 1 tables, 2 rows", part),
            (whole + b"# end of the dump: 1 tables, 2 rows\n\n", " goes on after the end of the dump"),
            (whole[:-3], ", line 3: the file is cut short, 4 bytes into a block of 7"),
            (whole + b"drop table t\n", ", line 7: this is no line of a dump"),
            (whole + b"# a comment\n", ", line 7: this is no line of a dump"),
            (whole + b"load t -1\n", ", line 7: this is no line of a dump"),
            (whole + b"update " + b"x" * 9_000, ", line 7: the line is too long for a dump"),
            (whole + b"index t s tree\n", ", line 7: error 32 no such column: s is no column of t"),
            (whole + b"load t 5\nid\n1\n", ", line 7: error 41 key exists (record 1): t has a row with the key 1"),
        ):
            with self.subTest(told=told, content=content):
                self.refuses(content, told)
        most = f"a block of the database has at most {mmdb.MOST} bytes, and the line asks for {mmdb.MOST + 1}"
        self.refuses(whole + b"load t %d\n" % (mmdb.MOST + 1), f", line 7: {most}")
        self.refuses(SAVED, ", line 6: a block of the database has at most 20 bytes, and the line asks for 22", block=20)
        full = "dept has 0 rows, 2 records come before this one, and a table has at most 2 rows"
        self.refuses(SAVED, f", line 6: error 43 table full (record 3): {full}", rows=2)

    def test_no_memory(self):
        """It is told as ever, and the database is closed."""
        self.path.write_bytes(SAVED)
        answered = mmdb.Database._accepted

        def accepted(db, line, block=None, written=None):
            if block:
                raise mmdb.NoMemory(90, "no memory")
            return answered(db, line, block, written)

        with mock.patch.object(mmdb.Database, "_accepted", accepted), self.assertRaises(mmdb.NoMemory):
            Noted.restore(self.path)
        self.assertTrue(Noted.last.closed)
