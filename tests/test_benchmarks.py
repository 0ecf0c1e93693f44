"""The benchmark in C++ in small: mmdb, SQLite, plain containers and, where they are installed, LMDB and H2 read the same rows of a table
with three indexes, between changes. Nothing is asserted of its times.
"""

import subprocess
import sys
import unittest

from support import compiling, harness, tested

FOLDER = harness.ROOT / "bench" / "embed"
sys.path.append(str(FOLDER))

import h2

CPP = ["c++", "-std=c++17", *compiling.WARNINGS]
# A jar names others that it can do without, which is of no concern here.
JAVAC = ["-Xlint:all,-path", "-Werror"]
ROWS = ("1", "300")
KINDS = ["select by key", "select by hash of a number", "select by hash of a text", "insert", "update of both", "delete"]
FIGURE, SUM = r"^{}(\t\d+\.\d+){{{}}}$", r"^sum\t\d+$"
ROOM = compiling.Room()


def tearDownModule():
    ROOM.close()


def has_header(name):
    words = ["cc", "-E", "-include", name, "-x", "c", "/dev/null"]
    return subprocess.run(words, capture_output=True, check=False).returncode == 0


class Indexes(unittest.TestCase):
    """With what is installed, and without Boost and LMDB."""

    def built(self, name, *words, linked=()):
        tested.requires("cc", "c++")
        if not has_header("sqlite3.h"):
            self.skipTest("SQLite's library is not installed")
        linked = [tested.library() / "libmmdb.a", "-lsqlite3", *linked]
        return ROOM.linked(name, FOLDER / "indexes.cpp", [*CPP, *words], linked)

    def out(self, *words):
        ended = compiling.ran([*words])
        self.assertEqual(ended.status, 0, ended.err.decode())
        # Java tells there what a machine can't do.
        if words[0] != "java":
            self.assertEqual(ended.err, b"")
        return ended.out.decode()

    def sum_of(self, columns, *words):
        """The last line of a program, which has the sum of what it read. Before it come the figures, in so many columns."""
        *figures, last = self.out(*words).splitlines()
        self.assertEqual(len(figures), len(KINDS))
        for what, figure in zip(KINDS, figures):
            self.assertRegex(figure, FIGURE.format(what, columns))
        self.assertRegex(last, SUM)
        return last

    def check(self, columns, program):
        for rows in ROWS:
            with self.subTest(rows=rows):
                self.sum_of(columns, program, rows, "1")

    def test_as_it_is_built(self):
        has_lmdb = has_header("lmdb.h")
        program = self.built("indexes", linked=["-llmdb"] if has_lmdb else [])
        self.check(4 if has_lmdb else 3, program)
        names = self.out(program, "--version")
        self.assertEqual(("multi" in names, "LMDB" in names), (True, has_lmdb))

    def test_without_boost_and_lmdb(self):
        program = self.built("indexes-without", "-DWITHOUT_BOOST", "-DWITHOUT_LMDB", *compiling.SANITIZED)
        self.check(3, program)
        self.assertEqual(self.out(program, "--version"), "std::map and two std::unordered_multimap\n")

    def test_h2_reads_the_same_rows(self):
        if not h2.is_installed():
            self.skipTest("Java or H2 is not installed")
        program = self.built("indexes-beside-h2", "-DWITHOUT_LMDB")
        java = h2.compiled(ROOM.path, *JAVAC)
        self.assertRegex(self.out(*java, "--version"), r"^H2 \S+ \(Java \S+\)\n$")
        for rows in ROWS:
            with self.subTest(rows=rows):
                self.assertEqual(self.sum_of(1, *java, rows, "1"), self.sum_of(3, program, rows, "1"))
