"""Each row of tests/rows: whole, in pieces of several sizes, and under each policy.

What must hold: a case of the language is a pair of files there, NAME.in and NAME.out, and needs no line here.
"""

import unittest

from support import harness


class Rows(unittest.TestCase):
    """Each stream of bytes has its answers, however it is cut."""

    def check(self, ended, answers):
        self.assertEqual(ended.out, answers)
        self.assertEqual(ended.err, b"")
        self.assertEqual(ended.status, 0)


def whole(stream, answers):
    return lambda test: test.check(harness.run_whole(stream), answers)


def under_each_policy(stream, answers):
    def test(self):
        for policy in harness.POLICIES:
            with self.subTest(policy=policy):
                self.check(harness.run_whole(stream, ["--policy", policy]), answers)

    return test


def cut(stream, answers, size):
    return lambda test: test.check(harness.run_in_pieces(harness.pieces_of(stream, size)), answers)


for name, stream, answers in harness.rows():
    setattr(Rows, f"test_{name}_whole", whole(stream, answers))
    setattr(Rows, f"test_{name}_under_each_policy", under_each_policy(stream, answers))
    for size in (1, 2, 7):
        setattr(Rows, f"test_{name}_in_pieces_of_{size}", cut(stream, answers, size))
