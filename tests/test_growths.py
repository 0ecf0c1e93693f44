"""How often a session that begins over a catalog allocates, however many rows the catalog has.

What must hold: the crates' tests whose names end in `_with_counted_growths` print when the catalog and when the session is complete.
"""

import bisect
import unittest

from support import harness, refusing, tested

CATALOG_STANDS = b"the catalog stands\n"
SESSION_STANDS = b"the session stands\n"


@tested.requires_toolchain
class Growths(unittest.TestCase):
    """A session over a table of 1,000 rows meets as many growths as one over a table of none: it copies no row."""

    @classmethod
    def setUpClass(cls):
        cls.refuser = refusing.Refuser()
        cls.addClassCleanup(cls.refuser.close)

    def ended(self, binary, name, nth):
        """How a test ends with its nth call for memory refused."""
        return self.refuser.run([binary, name], b"", nth)[0]

    def growths(self, binary, name):
        """How many calls for memory keep a session from standing over a catalog that stands, each refused in turn."""
        first = 1 + bisect.bisect_left(
            range(1, refusing.MOST_CALLS), True, key=lambda nth: CATALOG_STANDS in self.ended(binary, name, nth).out
        )
        for nth in range(first, refusing.MOST_CALLS):
            ended = self.ended(binary, name, nth)
            self.assertIn(CATALOG_STANDS, ended.out)
            if SESSION_STANDS in ended.out:
                return nth - first
            self.assertNotEqual(ended.status, 0)
        raise AssertionError(f"{name}: no session stands")

    def test_a_session_copies_no_row(self):
        counted = {name: self.growths(binary, name) for binary, name in harness.crate_tests("_with_counted_growths")}
        self.assertEqual(len(counted), 2, "the crates' tests were not built")
        self.assertGreater(min(counted.values()), 0, "no call for memory was refused")
        self.assertEqual(len(set(counted.values())), 1, counted)
