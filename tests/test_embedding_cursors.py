"""Cursors from C: the rows of selects read page by page, beside those of an execution; each status; what is done and declined while one is
open, and each call for memory refused. Threads read cursors beside their databases, under sanitizers.

In large sizes (`tests/fire embedding_cursors`) they also run under valgrind's memcheck and drd, which see the library, and selects are
read whose texts are more than 4 GiB.
"""

import shutil
import unittest

from support import compiling, sizes

CURSORS, THREADS = (compiling.PROGRAMS / name for name in ("cursors.c", "cursor_threads.c"))
# How often threads read cursors in each way.
TURNS = sizes.size(50, 2_000, 20)
# Under drd all is slower by far.
WATCHED = 5
MEMCHECK = ["valgrind", "--quiet", "--error-exitcode=9", "--leak-check=full"]
DRD = ["valgrind", "--tool=drd", "--quiet", "--error-exitcode=9", "--check-stack-var=yes"]
HAS_VALGRIND = sizes.is_large and shutil.which("valgrind")
ROOM = compiling.Room()


def tearDownModule():
    ROOM.close()


class Cursors(compiling.Programs):
    """One thread."""

    def compiled(self, name, *words):
        return ROOM.compiled(name, CURSORS, [*compiling.C, *words], compiling.COUNTED)

    def test_as_it_is(self):
        self.check_counted(self.compiled("cursors"))

    def test_under_the_sanitizers_of_addresses(self):
        self.check_counted(self.compiled("cursors-address", *compiling.SANITIZED))

    @unittest.skipUnless(HAS_VALGRIND, "in large sizes only, with valgrind")
    def test_under_memcheck(self):
        self.check_counted([*MEMCHECK, self.compiled("cursors-watched")])


class TooLarge(compiling.Programs):
    """Texts for whose places a cell has no number."""

    @unittest.skipUnless(sizes.is_large, "it needs gigabytes: in large sizes only")
    def test_as_it_is(self):
        self.check_counted(ROOM.compiled("too-large", compiling.PROGRAMS / "too_large.c", compiling.C, compiling.COUNTED))


class Threads(compiling.Programs):
    """Cursors that are read in other threads than their databases."""

    def compiled(self, name, turns, *words):
        return ROOM.compiled(name, THREADS, [*compiling.C, "-pthread", f"-DTURNS={turns}", *words], compiling.COUNTED)

    def test_as_it_is(self):
        self.check_counted(self.compiled("threads", TURNS))

    def test_under_the_sanitizer_of_threads(self):
        self.check_counted(self.compiled("threads-thread", TURNS, "-fsanitize=thread"))

    def test_under_the_sanitizers_of_addresses(self):
        self.check_counted(self.compiled("threads-address", TURNS, *compiling.SANITIZED))

    @unittest.skipUnless(HAS_VALGRIND, "in large sizes only, with valgrind")
    def test_under_drd(self):
        self.check_counted([*DRD, self.compiled("threads-drd", WATCHED)])
