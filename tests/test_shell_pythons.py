"""The shell on each Python that is found here: on the path, among those of pyenv, and the system's, from 3.8 on.

What must hold: the session has a command of each module of the shell, and all Pythons answer it alike.
"""

import functools
import glob
import os
import re
import shutil
import sqlite3
import subprocess
import sys
import unittest
import unittest.mock

from support import harness, shells
from support.shells import COMPANY

SCRIPT = str(shells.shell_modules.FOLDER / "mmdb-shell")
ASKS = "import sys; print(sys.implementation.name, *sys.version_info[:2])"
OLDEST = (3, 8)


@functools.cache
def pythons():
    """The Pythons by their versions, and this one."""
    names = [f"python3.{minor}" for minor in range(30)]
    paths = [*filter(None, map(shutil.which, names)), "/usr/bin/python3", *glob.glob(os.path.expanduser("~/.pyenv/versions/*/bin/python3"))]
    found = {sys.version_info[:2]: sys.executable}
    for path in paths:
        version = version_of(path) if os.path.exists(path) else None
        if version is not None:
            found.setdefault(version, path)
    return dict(sorted(found.items()))


def version_of(path):
    """The version of a CPython that runs. (One that pyenv has a name for may not be installed.)"""
    ran = subprocess.run([path, "-c", ASKS], capture_output=True, check=False, timeout=harness.SECONDS)
    told = re.fullmatch(rb"cpython (3) (\d+)\s*", ran.stdout)
    return (3, int(told[2])) if told else None


class EachPython(shells.Piped):
    """A session through a pipe, and one at a terminal."""

    def session(self, room):
        csv = room / "more.csv"
        csv.write_text('name,id,dept\n"Cy, ""C""",3,10\nDi,4,\n')
        return [
            *COMPANY,
            f".import {csv} emp",
            f".import {csv} people",
            ".undo",
            ".begin",
            f".load people {csv}",
            "insert emp (5, 'Ed', 10); insert emp (6, 'a\nb', null)",
            ".rollback",
            ".parameter set :least 2",
            "select id, name from emp where id >= :least",
            *(line for mode in ("box", "column", "html", "insert", "json", "line", "markdown", "tabs", "csv") for line in (f".mode {mode}", "select * from emp")),
            ".indexes",
            ".count",
            ".head 1 emp",
            ".help emp",
            ".help language",
            ".once |cat",
            "tables",
            "updat emp",
            f".export sql {room}/sql",
            f".dump {room}/dump",
            f".save emp {room}/csv",
            ".policy tree",
            ".open",
            f".restore {room}/dump",
            f".read {room}/no",
            "dump emp",
            ".exit 7",
        ]

    def answered(self, python, version):
        """What a Python answers to the session, and the files that it writes."""
        room = self.room / version
        room.mkdir()
        stream = "".join(f"{line}\n" for line in self.session(room)).encode()
        ran = subprocess.run([python, SCRIPT], input=stream, env=self.environment(), capture_output=True, timeout=harness.SECONDS, check=False)
        told = [ran.returncode, *(text.decode().replace(str(room), "ROOM") for text in (ran.stdout, ran.stderr))]
        return [*told, *((room / name).read_text() for name in ("sql", "dump", "csv") if (room / name).exists())]

    def test_they_answer_alike(self):
        expected = self.answered(sys.executable, "this")
        self.assertEqual((expected[0], len(expected)), (7, 6))
        db = sqlite3.connect(":memory:")
        self.addCleanup(db.close)
        db.executescript(expected[3])
        self.assertEqual(db.execute("select id, name, dept from emp").fetchall(), [(1, "Ann", 10), (2, "", None), (3, 'Cy, "C"', 10), (4, "Di", None)])
        for version, python in pythons().items():
            with self.subTest(version=version):
                if version >= OLDEST:
                    self.assertEqual(self.answered(python, f"3.{version[1]}"), expected)
                else:
                    ran = subprocess.run([python, SCRIPT], input=b"", env=self.environment(), capture_output=True, timeout=harness.SECONDS, check=False)
                    why = f"mmdb-shell: it wants Python 3.8 or later, and this is {version[0]}.{version[1]}\n"
                    self.assertEqual((ran.returncode, ran.stdout, ran.stderr.decode()), (70, b"", why))


class AtATerminal(shells.AtATerminal):
    """The prompt, the completion and a narrow box on the oldest and on the newest."""

    def check_python(self, python):
        with unittest.mock.patch.object(shells, "RUN", [python, SCRIPT]):
            shell = self.typed(COLUMNS="40", LINES="24", NO_COLOR="1")
        for line in COMPANY:
            shell.ask(line)
        shell.ask("insert dept (20, 'one two three four five six seven eight')")
        shell.type("sel\t* f\tdep\t\n")
        shell.wait_for("select * from dept\n")
        seen = shell.wait_for("2 rows\n")
        shell.wait_for("mmdb> ")
        self.assertIn("│      10 │ toys                       │\n│      20 │ one two three four five    │\n│         │ six seven eight            │\n", seen)
        self.assertNotIn("\x1b[3", seen)
        self.assertEqual(shell.ask(".undo"), "undone: insert dept (20, 'one two three four five six seven eight')\n")
        shell.type("\x04")
        self.assertEqual(shell.end(), 0)

    def test_the_oldest_and_the_newest(self):
        found = {version: python for version, python in pythons().items() if version >= OLDEST}
        for version in {min(found), max(found)}:
            with self.subTest(version=version):
                self.check_python(found[version])
