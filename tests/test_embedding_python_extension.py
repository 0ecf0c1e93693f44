"""The binding for Python by its extension: all tests of test_embedding_python*.py again, in processes of their own.

What must hold: ALONE lists the files that select the extension themselves.
"""

import os
import re
import subprocess
import sys
import unittest

from support import building_package, harness, tested

# (those of the package and of this extension find the extension by themselves)
ALONE = ("test_embedding_python_extension", "test_embedding_python_package")
MODULES = sorted({path.stem for path in harness.TESTS.glob("test_embedding_python*.py")} - set(ALONE))
# A library that is another, where none may be looked at.
PROGRAM = "import mmdb; print(mmdb.implementation, mmdb.Database.__base__.__module__, mmdb.Database().execute('tables'))"


@unittest.skipIf("MMDB_EXTENDED" in os.environ, "these tests are under way by the extension")
@unittest.skipUnless(building_package.has_extension(), "this Python doesn't build the extension")
class Extension(unittest.TestCase):
    """What is done by ctypes is done by the extension."""

    def ran(self, *words, **variables):
        how = {**os.environ, "PYTHONDONTWRITEBYTECODE": "1", **variables}
        return subprocess.run(
            [sys.executable, *words], cwd=harness.TESTS, env=how, capture_output=True, text=True, timeout=10 * harness.SECONDS, check=False
        )

    def test_each_module(self):
        self.assertGreater(len(MODULES), 3)
        for module in MODULES:
            with self.subTest(module=module):
                ended = self.ran("-m", "unittest", module, MMDB_EXTENDED=str(building_package.extended()))
                self.assertEqual(ended.returncode, 0, ended.stderr)
                self.assertRegex(ended.stderr, r"Ran [1-9]\d* tests")

    def test_which_one_is_taken(self):
        extended = building_package.extended()
        for variables, told in (
            ({}, "extension mmdb._mmdb"),
            ({"MMDB_PURE": "1"}, "ctypes mmdb.library"),
            ({"MMDB_LIBRARY": str(extended / "mmdb")}, "ctypes mmdb.library"),
        ):
            with self.subTest(variables=variables):
                where = {"MMDB_LIBRARY": "", "MMDB_PURE": "", "PYTHONPATH": str(extended), **variables}
                ended = self.ran("-c", PROGRAM, **where)
                self.assertEqual((ended.stderr, ended.stdout), ("", f"{told} \n"))

    def test_it_shows_nothing_of_the_library(self):
        """What the library calls its functions is no matter of others in the process, nor theirs of it."""
        extension = building_package.extended() / "mmdb" / building_package.EXTENSION
        tested.requires("nm")
        told = subprocess.run(["nm", "-D", "--defined-only", extension], capture_output=True, text=True, check=True).stdout
        self.assertEqual(re.findall(r" [A-Z] (\w+)", told), ["PyInit__mmdb"])
