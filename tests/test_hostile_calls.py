"""Calls of the library by a hostile caller, drawn by a seed, under sanitizers. In large sizes (`tests/fire hostile_calls`) they also run
under valgrind's memcheck, which sees every read and write of the library. MMDB_SEED and MMDB_CALLS select them.

What must hold: programs/fuzz.c makes every call of the header.
"""

import re
import shutil
import unittest

from support import compiling, sizes

SEED = sizes.said("MMDB_SEED", 20261128)
CALLS = sizes.said("MMDB_CALLS", sizes.size(60_000, 5_000_000))
# Under memcheck all is slower by far.
WATCHED = CALLS // 50
# How no call ends, as no memory is refused here, no select has so many texts, and none is asked to end while it is under way.
NEVER = {
    *("more than 4 GiB of texts, 4294967296 statements, or 2^64 rows to count", "no memory"),
    *("the stream is over", "the select was interrupted"),
}
COUNTED = re.compile(rb"(.*): (\d+)\n")
ROOM = compiling.Room()


def tearDownModule():
    ROOM.close()


class HostileCalls(unittest.TestCase):
    """Each call ends as the header tells, and nothing is read or written that isn't the library's or lent to it."""

    def check(self, calls, words, before=()):
        program = ROOM.compiled("fuzz", compiling.PROGRAMS / "fuzz.c", [*compiling.C, *words])
        ended = compiling.ran([*before, program, str(SEED), str(calls)])
        self.assertEqual((ended.status, ended.err), (0, b""))
        counts = {name.decode(): int(count) for name, count in COUNTED.findall(ended.out)}
        if sizes.is_large:
            print(f"\nseed {SEED}, {calls} calls: " + ", ".join(f"{name}: {count}" for name, count in counts.items()), flush=True)
        self.assertGreater(len(counts), len(NEVER))
        return counts

    def test_under_the_sanitizers(self):
        counts = self.check(CALLS, compiling.SANITIZED)
        self.assertEqual({name for name, count in counts.items() if count == 0}, NEVER)

    @unittest.skipUnless(sizes.is_large and shutil.which("valgrind"), "in large sizes only, with valgrind")
    def test_under_memcheck(self):
        words = ["valgrind", "--quiet", "--error-exitcode=9", "--leak-check=full"]
        self.check(WATCHED, ["-O1"], words)
