"""Selects that are ended while they are under way, from C: by threads and by a handler of signals, in each call and under each policy, on shared
tables and in transactions. In large sizes (`tests/fire embedding_interrupts`) this also runs under memcheck, which sees the library.
"""

import shutil
import unittest

from support import compiling, sizes

SOURCE = compiling.PROGRAMS / "interrupts.c"
ROWS = sizes.size(2_000, 10_000, 1_000)
# Under memcheck all is slower by far.
WATCHED = 300
ROOM = compiling.Room()


def tearDownModule():
    ROOM.close()


class Interrupts(compiling.Programs):
    def compiled(self, name, rows, *words):
        return ROOM.compiled(name, SOURCE, [*compiling.C, "-pthread", f"-DROWS={rows}", *words], compiling.COUNTED)

    def check(self, name, *words):
        self.check_counted(self.compiled(name, ROWS, *words))

    def test_as_it_is(self):
        self.check("interrupts")

    def test_under_the_sanitizer_of_threads(self):
        self.check("interrupts-thread", "-fsanitize=thread")

    def test_under_the_sanitizers_of_addresses(self):
        self.check("interrupts-address", *compiling.SANITIZED)

    @unittest.skipUnless(sizes.is_large and shutil.which("valgrind"), "in large sizes only, with valgrind")
    def test_under_memcheck(self):
        words = ["valgrind", "--quiet", "--error-exitcode=9", "--leak-check=full"]
        self.check_counted([*words, self.compiled("interrupts-watched", WATCHED)])
