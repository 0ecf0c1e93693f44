"""Handles that share tables: each status, what stays, and memory; and four readers and a writer behind a lock, under sanitizers. In
large sizes (`tests/fire embedding_sharing`) these also run under valgrind's drd, which sees every read and write of the library.
"""

import os
import shutil
import unittest

from support import compiling, sizes

SHARING, READERS = (compiling.PROGRAMS / name for name in ("sharing.c", "readers.c"))
# How often each of four threads reads, and the fifth writes.
READS, WRITES = sizes.size(2_000, 200_000), sizes.size(50, 2_000)
# Under drd all is slower by far.
WATCHED = ["-DREADS=200", "-DWRITES=20"]
ALL = [f"-DREADS={READS}", f"-DWRITES={WRITES}"]
DRD = ["valgrind", "--tool=drd", "--quiet", "--error-exitcode=9", "--check-stack-var=yes"]
HAS_DRD = sizes.is_large and shutil.which("valgrind")
# What no lock orders: the sanitizer says it of the program's own counts, drd of the handles too.
RACE, CONFLICT = b"data race", b"Conflicting"
ROOM = compiling.Room()


def tearDownModule():
    ROOM.close()


class Sharing(compiling.Programs):
    """One thread: each status, what stays, and handles closed in each order."""

    def check(self, name, words=compiling.C):
        self.check_counted(ROOM.compiled(name, SHARING, words, compiling.COUNTED))

    def test_each_status_and_all_memory_comes_back(self):
        self.check("sharing")

    def test_under_the_sanitizers_of_addresses(self):
        self.check("sharing-address", [*compiling.C, *compiling.SANITIZED])


class Readers(unittest.TestCase):
    """Four threads that read, and one that writes."""

    def ran(self, name, words=(), before=(), counts=ALL):
        program = ROOM.compiled(name, READERS, [*compiling.C, "-pthread", *counts, *words])
        # (the first report ends the program, before the library is called out of turn)
        return compiling.ran([*before, program], env={**os.environ, "TSAN_OPTIONS": "halt_on_error=1"})

    def check(self, *given, **how):
        ended = self.ran(*given, **how)
        self.assertEqual((ended.status, ended.out, ended.err), (0, b"", b""))

    def test_each_reads_what_is_there(self):
        self.check("readers")

    def test_under_the_sanitizer_of_threads(self):
        self.check("readers-thread", ["-fsanitize=thread"])

    def test_under_the_sanitizers_of_addresses(self):
        self.check("readers-address", compiling.SANITIZED)

    def test_without_the_lock_the_sanitizer_of_threads_reports_it(self):
        ended = self.ran("readers-unlocked", ["-fsanitize=thread", "-DUNLOCKED"])
        self.assertNotEqual(ended.status, 0)
        self.assertIn(RACE, ended.err)

    @unittest.skipUnless(HAS_DRD, "in large sizes only, with valgrind")
    def test_under_drd(self):
        self.check("readers-drd", before=DRD, counts=WATCHED)

    @unittest.skipUnless(HAS_DRD, "in large sizes only, with valgrind")
    def test_without_the_lock_drd_reports_it(self):
        ended = self.ran("readers-drd-unlocked", ["-DUNLOCKED"], before=DRD, counts=WATCHED)
        self.assertNotEqual(ended.status, 0)
        self.assertIn(CONFLICT, ended.err)
