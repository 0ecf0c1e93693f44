"""A shell and a program that are killed at any moment: each file that they wrote is whole, and no other file is left.

While a file replaces another one, it has a second name. Then it is whole, so a kill at that moment leaves one whole file more.
"""

import os
import pathlib
import random
import signal
import subprocess
import sys
import tempfile
import time
import unittest
from unittest import mock

from support import harness, model, shell_modules, sizes, tested

from mmdb import files
from mmdb_shell.files import Trouble, written

SEED = 20261127
KILLS = sizes.size(10, 150)
ROWS = sizes.size(4_000, 20_000)
# Before a shell is killed so many files come, and then a while goes by.
MOST_FILES = 12
LONGEST_WAIT = 0.02
TIMES = 200
SHELL = [sys.executable, str(shell_modules.FOLDER / "mmdb-shell")]
TABLES = b"table t (id int, s text)\ntable u (id int, t ref t null)\ntable v (id int, s text)\n"
READY = b"rows 0\nv.id,v.s\n"


def csv(names, rows):
    return b"".join(map(model.record, [names, *rows]))


T = csv([b"id", b"s"], [[number, b"row %d, with a text" % number] for number in range(ROWS)])
U = csv([b"id", b"t"], [[number, number if number % 3 else None] for number in range(ROWS)])
LOADS = b"load t %d\n%bload u %d\n%b" % (len(T), T, len(U), U)
DUMP = b"# mmdb dump 1\n%b%b# end of the dump: 3 tables, %d rows\n" % (TABLES, LOADS, 2 * ROWS)


def lines(name):
    """What the shell does until it is killed: new files, and files that take the places of others."""
    yield from (".restore there.mmdb", "select * from v")
    for number in range(TIMES):
        yield from (f".save t new-{number}.t", ".save t one", f".dump new-{number}.all", ".save u one", f"{name} v there.csv", "delete v")


def has_files_without_a_name():
    """Whether the folder of temporary files can have such a file."""
    try:
        os.close(os.open(tempfile.gettempdir(), os.O_TMPFILE | os.O_WRONLY, 0o600))
        return True
    except OSError:
        return False


WITHOUT_A_NAME = unittest.skipUnless(has_files_without_a_name(), "the system has no files without a name")


class Killed(unittest.TestCase):
    def setUp(self):
        room = tempfile.TemporaryDirectory(prefix="mmdb-tests-")
        self.addCleanup(room.cleanup)
        self.room = pathlib.Path(room.name)
        self.draw = random.Random(SEED)
        self.there = {"there.mmdb": DUMP, "there.csv": T, "tables": TABLES}
        self.found = self.between = 0
        for name, text in self.there.items():
            (self.room / name).write_bytes(text)

    def kill(self, words, stream, ready, count):
        """Begins a process over a stream, waits for what it writes once it is ready, for so many files and then a while, and
        kills it."""
        where = {**os.environ, "MMDB_LIBRARY": str(tested.library()), "PYTHONDONTWRITEBYTECODE": "1"}
        how = {"stdin": subprocess.PIPE, "stdout": subprocess.PIPE, "stderr": subprocess.PIPE, "bufsize": 0}
        with subprocess.Popen(words, cwd=self.room, env=where, **how) as process:
            process.stdin.write(stream)
            told = harness.read_bytes(process.stdout, len(ready))
            self.wait_for(count)
            time.sleep(self.draw.uniform(0, LONGEST_WAIT))
            process.kill()
            self.assertEqual((told, process.stderr.read()), (ready, b""))
            self.assertEqual(process.wait(timeout=harness.SECONDS), -signal.SIGKILL)

    def wait_for(self, count):
        latest = time.monotonic() + harness.SECONDS
        while len(os.listdir(self.room)) < len(self.there) + count:
            self.assertLess(time.monotonic(), latest, "no files come")
            time.sleep(0.002)

    def check_files(self):
        """Each file is whole, and of what has been written no part is elsewhere. All but what was there goes."""
        for path in self.room.iterdir():
            text = path.read_bytes()
            if path.name in self.there:
                self.assertTrue(text == self.there[path.name], path)
                continue
            whole = {".t": (T,), ".all": (DUMP,), "": (T, U)}[path.suffix if path.name.startswith("new-") else ""]
            self.assertTrue(text in whole, f"{path.name} has {len(text)} bytes")
            self.assertRegex(path.name, r"new-\d+\.(t|all)|one|\.one\..*")
            self.found += 1
            self.between += path.name.startswith(".")
            path.unlink()

    @WITHOUT_A_NAME
    def test_a_shell_that_writes_files(self):
        stream = "".join(f"{line}\n" for line in lines(".load")).encode()
        for number in range(KILLS):
            with self.subTest(kill=number):
                self.kill(SHELL, stream, READY.partition(b"\n")[2], self.draw.randrange(MOST_FILES))
                self.check_files()
        self.assertGreater(self.found, KILLS)
        if sizes.is_large:
            print(f"{KILLS} shells were killed, {self.found} files found whole, {self.between} of them with a second name", flush=True)

    def test_a_program_that_loads_files(self):
        words = [harness.PROGRAM, "tables", "-", "--load", "t=there.csv", *["there.mmdb"] * TIMES]
        for number in range(KILLS):
            with self.subTest(kill=number):
                self.kill(words, b"select * from v\n", b"ok\n" * 3 + READY, 0)
                self.check_files()


class Written(unittest.TestCase):
    """The two ways to write a file, with a name and without one, have the same effect."""

    def setUp(self):
        room = tempfile.TemporaryDirectory(prefix="mmdb-tests-")
        self.addCleanup(room.cleanup)
        self.room = pathlib.Path(room.name)
        self.place = str(self.room / "file")

    def there(self):
        return {path.name: (path.read_bytes(), path.stat().st_mode & 0o777) for path in self.room.iterdir()}

    def check(self, while_written):
        """A new file, one in its place, which keeps its rights, and one that fails. So many files have a name meanwhile."""
        with written(self.place) as file:
            self.assertEqual(len(self.there()), while_written)
            file.write(b"one")
        mode = os.stat(self.place).st_mode & 0o777
        self.assertEqual(self.there(), {"file": (b"one", mode)})
        os.chmod(self.place, 0o640)
        with written(self.place) as file:
            self.assertEqual(len(self.there()), 1 + while_written)
            file.write(b"two")
        self.assertEqual(self.there(), {"file": (b"two", 0o640)})
        with self.assertRaises(KeyError), written(self.place) as file:
            file.write(b"three")
            raise KeyError
        self.assertEqual(self.there(), {"file": (b"two", 0o640)})

    @WITHOUT_A_NAME
    def test_without_a_name(self):
        self.check(0)

    def test_where_there_is_no_proc(self):
        with mock.patch.object(files, "_OPEN", str(self.room / "nowhere")):
            self.check(1)

    def test_where_each_file_has_a_name(self):
        real = os.open

        def refuses(path, flags, *more, **named):
            if flags & os.O_TMPFILE == os.O_TMPFILE:
                raise OSError(95, "Operation not supported")
            return real(path, flags, *more, **named)

        with mock.patch.object(os, "open", refuses):
            self.check(1)

    def test_a_place_that_is_taken_meanwhile(self):
        with written(self.place) as file:
            file.write(b"one")
            pathlib.Path(self.place).write_bytes(b"another's")
        self.assertEqual([text for text, _ in self.there().values()], [b"one"])

    def test_a_folder_that_is_not_there(self):
        with self.assertRaises(Trouble) as raised, written(str(self.room / "none" / "file")):
            pass
        self.assertEqual(str(raised.exception), f"there is no {self.room / 'none'}")
