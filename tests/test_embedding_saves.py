"""Databases that are saved and restored from C in pieces: of each kind, cut, wrong, refused and changed meanwhile, in transactions and on
shared tables, with each call for memory refused. Python, the program and the shell restore what is saved so, and what they save is restored
so. In large sizes (`tests/fire embedding_saves`) this also runs under memcheck, which sees the library.
"""

import pathlib
import random
import re
import shutil
import tempfile
import unittest

import test_embedding_python_dumps as python_dumps
from support import binding, compiling, embedding, harness, sizes
from support.binding import mmdb

SEED = 20261130
DATABASES = sizes.size(20, 300, 8)
SHELL = str(harness.ROOT / "shell" / "mmdb-shell")
MEMCHECK = ["valgrind", "--quiet", "--error-exitcode=9", "--leak-check=full"]
NAME = re.compile(rb"^table (\w+) ", re.MULTILINE)
REFUSED = re.compile(rb"^error \d\d ", re.MULTILINE)
# How many bytes a piece has that is taken in.
STEPS = (7, 4096, 1 << 24)
ROOM = compiling.Room()


def tearDownModule():
    ROOM.close()


def compiled(name, *words):
    source = compiling.PROGRAMS / f"{name}.c"
    return ROOM.compiled("-".join((name, *(word.strip("-=,") for word in words))), source, [*compiling.C, *words], compiling.COUNTED)


class Programs(compiling.Programs):
    """What the programs check themselves."""

    def check(self, name):
        self.check_counted(compiled(name))
        self.check_counted(compiled(name, *compiling.SANITIZED))

    def check_under_memcheck(self, name):
        self.check_counted([*MEMCHECK, compiled(name)])

    def test_saves(self):
        self.check("saves")

    def test_restores(self):
        self.check("restores")

    def test_each_call_for_memory_is_refused(self):
        self.check("saves_refused")

    @unittest.skipUnless(sizes.is_large and shutil.which("valgrind"), "in large sizes only, with valgrind")
    def test_under_memcheck(self):
        for name in ("saves", "restores", "saves_refused"):
            with self.subTest(name):
                self.check_under_memcheck(name)


def asked_of(tables):
    """The lines that ask for all that a database has, whose tables are listed so."""
    return [b"tables", *(b"select * from " + name for name in NAME.findall(tables))]


def told_by(db):
    """What a database of the package for Python has."""
    return b"".join(map(db.answer, asked_of(db.answer("tables"))))


class WithFolder(unittest.TestCase):
    def setUp(self):
        room = tempfile.TemporaryDirectory(prefix="mmdb-tests-")
        self.addCleanup(room.cleanup)
        self.path = pathlib.Path(room.name, "all.mmdb")

    def restored(self, content):
        self.path.write_bytes(content)
        db = mmdb.Database.restore(self.path)
        self.addCleanup(db.close)
        return db

    def saved(self, db):
        db.save(self.path)
        return self.path.read_bytes()

    def resaved(self, content, step, most=mmdb.MOST):
        """What a program in C saves that has restored a dump in pieces of so many bytes, under a limit of blocks."""
        ran = compiling.ran([ROOM.path / "resave", str(most), str(step)], content)
        self.assertEqual((ran.status, ran.err), (0, b""))
        return ran.out


class Files(WithFolder):
    """Dumps of each kind of database, which a program in C has saved, beside what the database had."""

    @classmethod
    def setUpClass(cls):
        folder = ROOM.path / "dumps"
        folder.mkdir()
        ended = compiling.ran([compiled("saves"), str(folder)])
        assert ended.status == 0, ended.err
        cls.dumps = [(path, path.read_bytes(), path.with_suffix(".told").read_bytes()) for path in sorted(folder.glob("*.mmdb"))]
        assert len(cls.dumps) > 10
        ROOM.compiled("resave", compiling.PROGRAMS / "resave.c")

    def test_python_restores_them(self):
        for path, _, told in self.dumps:
            with self.subTest(path.stem), mmdb.Database.restore(path) as db:
                self.assertEqual(told_by(db), told)

    def test_the_program_reads_them(self):
        for path, content, told in self.dumps:
            with self.subTest(path.stem):
                ended = harness.run_whole(content + b"\n".join((*asked_of(told), b"")))
                self.assertEqual((ended.status, ended.err), (0, b""))
                self.assertTrue(ended.out.endswith(told))
                self.assertIsNone(REFUSED.search(ended.out[: -len(told)]))

    def test_the_shell_restores_them(self):
        for path, content, _ in self.dumps:
            with self.subTest(path.stem):
                ended = binding.run_python(SHELL, "--restore", str(path), "-c", f".dump {self.path}")
                self.assertEqual((ended.status, ended.err), (0, ""))
                self.assertEqual(self.resaved(self.path.read_bytes(), 4096), self.resaved(content, 4096))

    def test_those_that_python_saves_are_restored(self):
        for path, content, _ in self.dumps:
            with self.subTest(path.stem), mmdb.Database.restore(path) as db:
                resaved = {self.resaved(self.saved(db), step) for step in STEPS}
                self.assertEqual(resaved, {self.resaved(content, 1 << 16)})
                if not path.stem.endswith("-cut"):
                    self.assertEqual(resaved, {content})

    def test_a_company_is_saved_as_by_python(self):
        contents = [content for path, content, _ in self.dumps if path.stem == "company"]
        self.assertEqual(contents, [python_dumps.SAVED])
        self.assertEqual([content for path, content, _ in self.dumps if path.stem == "nothing"], [python_dumps.EMPTY])


class Drawn(WithFolder):
    """Databases with drawn rows, which Python saves, a program in C restores and saves, and Python restores."""

    @classmethod
    def setUpClass(cls):
        ROOM.compiled("resave", compiling.PROGRAMS / "resave.c")

    def drawn(self, draw):
        db = python_dumps.company(block=draw.choice((1 << 12, 1 << 14, mmdb.MOST)))
        self.addCleanup(db.close)
        keys = [f"{at}{embedding.text(draw)}" for at in range(20)] + ["", None]
        db.load("dept", [(key,) for key in keys if key])
        for at in range(4, draw.randrange(5, 200)):
            text = draw.choice(["", *embedding.LINE_FEEDS]) + embedding.text(draw) + "x" * draw.randrange(300)
            db.execute("insert emp (?, ?, ?, ?)", at, text, draw.choice(keys), draw.randrange(1 << 40))
        return db

    def test_drawn_rows(self):
        draw = random.Random(SEED)
        for number in range(DATABASES):
            with self.subTest(number):
                db = self.drawn(draw)
                most, step = db._block, draw.choice((1, 7, 61, 4096))
                content = self.resaved(self.saved(db), step, most)
                again = self.restored(content)
                self.assertEqual(told_by(again), told_by(db))
                self.assertEqual(self.resaved(content, 4096, most), content)


if __name__ == "__main__":
    unittest.main()
