"""The package mmdb for Python as the tests use it, programs that use it, and tests with a database.

What must hold: this module is imported before mmdb, since it sets which library and which form of the package, ctypes or extension,
are loaded.
"""

import os
import re
import subprocess
import sys
import unittest

from . import harness, model, tested

FOLDER = harness.ROOT / "bindings" / "python"
# The folder with a package whose extension was built, where that is to be tested. Else it goes by ctypes.
EXTENDED = os.environ.get("MMDB_EXTENDED")
WHERE = {
    "MMDB_LIBRARY": "" if EXTENDED else str(tested.library()),
    "PYTHONPATH": EXTENDED or str(FOLDER),
    "PYTHONDONTWRITEBYTECODE": "1",
}

tested.library()
os.environ["MMDB_LIBRARY"] = WHERE["MMDB_LIBRARY"]
sys.path.insert(0, WHERE["PYTHONPATH"])

import mmdb

assert mmdb.implementation == ("extension" if EXTENDED else "ctypes"), mmdb.implementation


def run_python(*words, python=sys.executable, **variables):
    """Runs Python on these words, with the variables of WHERE and those that are given."""
    how = {**os.environ, **WHERE, **variables}
    ran = subprocess.run([python, *words], capture_output=True, timeout=harness.SECONDS, check=False, env=how)
    return harness.Ended(ran.returncode, ran.stdout.decode(), ran.stderr.decode())


class WithDatabase(unittest.TestCase):
    """A test with a database."""

    def setUp(self):
        self.db = mmdb.Database()
        self.addCleanup(self.db.close)

    def refused(self, number, call, *given, **named):
        """The refusal of that number, which a call raises."""
        why = self.refused_somehow(number, call, *given, **named)
        first, *pointed = str(why).split("\n")
        self.assertEqual(first, f"error {number} {why.text}: {why.reason}")
        self.assertEqual(len(pointed), 2 if re.match(r"column \d+: ", why.reason) else 0)
        return why

    def refused_without_reason(self, number, call, *given, **named):
        """The same where nothing can be told of why."""
        why = self.refused_somehow(number, call, *given, **named)
        self.assertEqual((str(why), why.reason), (f"error {number} {why.text}", None))
        return why

    def refused_somehow(self, number, call, *given, **named):
        """The same, whether something is told of why or not."""
        with self.assertRaises(mmdb.Refused) as raised:
            call(*given, **named)
        why = raised.exception
        self.assertEqual((why.number, why.text.split(" (")[0]), (number, model.TEXTS[number]))
        self.assertEqual(repr(why), f"{type(why).__name__}{(number, why.text, why.line, why.reason)!r}")
        return why
