"""C programs that embed the library, compiled into a temporary folder.

What must hold: CALLS are the calls that programs/allocations.c counts and refuses, and COUNT matches the line that it prints.
"""

import pathlib
import re
import subprocess
import tempfile
import unittest

from . import harness, tested

PROGRAMS = harness.SUPPORT / "programs"
INCLUDE = harness.ROOT / "include"
WARNINGS = ["-Wall", "-Wextra", "-Wpedantic", "-Werror", "-g", "-O1"]
C = ["cc", "-std=c99", *WARNINGS]
CPP = ["c++", "-std=c++11", *WARNINGS]
SANITIZED = ["-fsanitize=address,undefined", "-fno-sanitize-recover=all"]
# The calls for memory that tests/support/programs/allocations.c counts and refuses. It does so of the library and the program,
# and not of the C library itself.
CALLS = ("malloc", "calloc", "realloc", "free")
COUNTED = [*(f"-Wl,--wrap={call}" for call in CALLS), PROGRAMS / "allocations.c"]
# What it says at the end: the blocks given and given back, and the calls refused.
COUNT = re.compile(rb"(\d+) blocks given, (\d+) given back, (\d+) calls refused\n")


class Room:
    """A folder for what is compiled."""

    def __init__(self):
        self.room = tempfile.TemporaryDirectory(prefix="mmdb-tests-")
        self.path = pathlib.Path(self.room.name)

    def close(self):
        self.room.cleanup()

    def compiled(self, name, source, words=C, and_with=()):
        """Compiles a program with the archive, and gives its path."""
        return self.linked(name, source, words, [*and_with, tested.library() / "libmmdb.a"])

    def sharing(self, name, source, words=C):
        """Compiles a program with the shared library, and gives its path."""
        folder = tested.library()
        return self.linked(name, source, words, [f"-L{folder}", f"-Wl,-rpath,{folder}", "-lmmdb"])

    def linked(self, name, source, words, linked):
        tested.requires(words[0])
        language = ["-x", "c++" if words[0] == CPP[0] else "c"]
        path = self.path / name
        subprocess.run([*words, f"-I{INCLUDE}", *language, source, "-x", "none", *linked, "-o", path], check=True)
        return path


def counting_library(folder, words=()):
    """Puts a library into a folder, archive and shared, whose calls for memory tests/support/programs/allocations.c counts and
    refuses, compiled with these words. It doesn't count those of a program that embeds it."""
    tested.requires("cc", "ar", "objcopy")
    archive, counting = folder / "libmmdb.a", folder / "allocations.o"
    others = [word for call in CALLS for word in ("--redefine-sym", f"{call}=__wrap_{call}")]
    subprocess.run(["objcopy", *others, tested.library() / "libmmdb.a", archive], check=True)
    real = [f"-D__real_{call}={call}" for call in CALLS]
    subprocess.run([*C, "-fPIC", *words, *real, "-c", PROGRAMS / "allocations.c", "-o", counting], check=True)
    subprocess.run(["ar", "rc", archive, counting], check=True)
    whole = ["-Wl,--whole-archive", archive, "-Wl,--no-whole-archive"]
    subprocess.run(["cc", "-shared", "-o", folder / "libmmdb.so", *whole], check=True)


def ran(program, stream=b"", **how):
    """Runs a program over a stream, and tells how it ended."""
    words = program if isinstance(program, list) else [program]
    done = subprocess.run(words, input=stream, capture_output=True, timeout=harness.SECONDS, check=False, **how)
    return harness.Ended(done.returncode, done.stdout, done.stderr)


class Programs(unittest.TestCase):
    """What the tests of compiled programs share."""

    def check_ran(self, program, out=b"", **how):
        ended = ran(program, **how)
        self.assertEqual((ended.status, ended.out, ended.err), (0, out, b""))

    def check_counted(self, program, out=b""):
        """A program that counts its memory gave all of it back."""
        ended = ran(program)
        count = COUNT.fullmatch(ended.err)
        self.assertIsNotNone(count, ended.err.decode(errors="replace"))
        self.assertEqual((ended.status, ended.out), (0, out))
        self.assertEqual(count[1], count[2])
        self.assertGreater(int(count[1]), 0)
