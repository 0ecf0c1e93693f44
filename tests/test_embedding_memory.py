"""The examples, and the bindings' statements, over a library that counts its memory: whichever call for memory fails, everything is freed
when the program ends. And selects by a tree, which ask for none once they are warm.
"""

import itertools
import os
import subprocess
import sys
import unittest

from support import compiling, embedding, harness, sizes, tested

BINDING = harness.ROOT / "bindings" / "python"
C = harness.ROOT / "examples" / "c"
PYTHON = harness.ROOT / "examples" / "python" / "sessions.py"
RUST = harness.ROOT / "examples" / "rust"
# The example in Python makes some 1,200 calls, so that not each is refused in the gate.
APART = sizes.size(31, 1)
ROOM = compiling.Room()


def setUpModule():
    compiling.counting_library(ROOM.path)


def tearDownModule():
    ROOM.close()


def built(crate, program, *words):
    """The program of a crate, built with the library that counts."""
    tested.requires("cargo")
    target = ROOM.path / "target"
    how = {**os.environ, "MMDB_LIBRARY": str(ROOM.path), "CARGO_TARGET_DIR": str(target)}
    subprocess.run(["cargo", "build", "--quiet", "--offline", *words], cwd=crate, check=True, env=how)
    return target / "debug" / program


class Statements(unittest.TestCase):
    """Each call for memory of each call on a statement is refused in turn, and nothing has changed then; in Rust also those of
    transactions, of loads of many blocks, and of readers. In C it is done by tests/test_embedding_c.py."""

    def check(self, *words):
        how = {**os.environ, "MMDB_LIBRARY": str(ROOM.path), "PYTHONPATH": str(BINDING)}
        ended = compiling.ran(list(words), env=how)
        count = compiling.COUNT.fullmatch(ended.err)
        self.assertIsNotNone(count, ended.err.decode(errors="replace"))
        self.assertEqual((ended.status, count[1]), (0, count[2]))
        refused = list(map(int, ended.out.split()))
        self.assertGreater(len(refused), 5)
        self.assertGreater(min(refused), 0)

    def test_in_python(self):
        self.check(sys.executable, compiling.PROGRAMS / "statements_refused.py")

    def check_in_rust(self, name):
        program = (compiling.PROGRAMS / f"{name}.rs").read_text()
        crate = embedding.crate(ROOM.path, name, program, [compiling.PROGRAMS / "refusing.rs"])
        self.check(built(crate, name))

    def test_in_rust(self):
        self.check_in_rust("statements_refused")

    def test_transactions_loads_and_readers_in_rust(self):
        self.check_in_rust("loads_refused")


class Readers(unittest.TestCase):
    """All memory comes back of handles that share tables in threads, in whichever order they are closed."""

    def test_in_python(self):
        how = {**os.environ, "MMDB_LIBRARY": str(ROOM.path), "PYTHONPATH": str(BINDING)}
        ended = compiling.ran([sys.executable, compiling.PROGRAMS / "readers.py"], env=how)
        count = compiling.COUNT.fullmatch(ended.err)
        self.assertIsNotNone(count, ended.err.decode(errors="replace"))
        self.assertEqual((ended.status, ended.out, count[1], count[3]), (0, b"", count[2], b"0"))


class Rooms(compiling.Programs):
    """A warm select by a tree asks for no memory, each call for memory of a cold one is refused in turn, and the room for many rows is freed."""

    def test_in_c(self):
        self.check_counted(ROOM.compiled("rooms", compiling.PROGRAMS / "rooms.c", compiling.C, compiling.COUNTED))


class Examples(unittest.TestCase):
    """Each writes what it shall, or ends for want of memory."""

    def check(self, words, expected, apart):
        """Refuses the first call for memory and each so many behind it, until a run makes no such call, or fails."""
        for nth in itertools.count(1, apart):
            refused = False
            with self.subTest(refused_call=nth):
                refused = self.check_run(words, expected, nth)
            if not refused:
                self.assertGreater(nth, 1)
                return

    def check_run(self, words, expected, nth):
        """Gives whether a call was refused."""
        how = {**os.environ, "MMDB_LIBRARY": str(ROOM.path), "PYTHONPATH": str(BINDING), "REFUSE_NTH": str(nth)}
        ended = compiling.ran(words, env=how)
        count = compiling.COUNT.search(ended.err)
        self.assertIsNotNone(count, ended.err.decode(errors="replace"))
        given, given_back, refused = map(int, count.groups())
        self.assertEqual(given, given_back)
        if ended.status == 0:
            self.assertEqual((ended.out, ended.err), (expected, count[0]))
        else:
            self.assertEqual((ended.status, refused), (1, 1))
            self.assertIn(b"no memory", ended.err)
        return refused > 0

    def test_in_c(self):
        examples = sorted(C.glob("*.c"))
        self.assertGreater(len(examples), 0)
        for source in examples:
            program = ROOM.compiled(source.stem, source, and_with=compiling.COUNTED)
            self.check([program], source.with_suffix(".expected").read_bytes(), 1)

    def test_in_python(self):
        self.check([sys.executable, PYTHON], PYTHON.with_suffix(".txt").read_bytes(), APART)

    def test_in_rust(self):
        self.check([built(RUST, "lending", "--locked")], (RUST / "expected.txt").read_bytes(), 1)
