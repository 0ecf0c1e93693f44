"""The rows of tests/rows through the library, those with limits of their own too. Each goes request by request, by a handle that shares the
tables, fed in pieces, both ways alternating, and with each of the library's calls for memory refused in turn.
"""

import itertools
import re
import unittest

from support import compiling, harness, model, sizes, streams
from support.calls import asked, call, line_by_line

PIECES = (1, 7, 4_096)
PIECES_ASKED_AGAIN = sizes.size(PIECES[1:], PIECES[1:], PIECES[2:])
AGAIN = re.compile(rb"(\d+) asked again\n")
ROOM = compiling.Room()


def tearDownModule():
    ROOM.close()


def fed(stream, size):
    """The calls that feed a stream in pieces of that size."""
    return [call(b"feed", piece) for piece in harness.pieces_of(stream, size)]


def fed_by_request(stream, size):
    """The calls that feed each request of a stream by itself, in pieces of that size."""
    for line, block in model.units_of(stream):
        yield from fed(line + b"\n" + block, size)


def by_turns(stream):
    """The calls that ask each second request of a stream, once half of the next is fed, whose rest is fed then."""
    units = list(model.units_of(stream))
    for unit, (line, block) in itertools.zip_longest(units[::2], units[1::2], fillvalue=(b"", b"")):
        request = line + b"\n" + block
        half = len(request) // 2
        yield call(b"feed", request[:half])
        yield from asked(*unit)
        yield call(b"feed", request[half:])


class Answered(unittest.TestCase):
    """Each row has its answers from one handle."""

    @classmethod
    def setUpClass(cls):
        cls.program, cls.shared = (
            ROOM.compiled(name, compiling.PROGRAMS / f"{name}.c", [*compiling.C, *compiling.SANITIZED])
            for name in ("requests", "shared_requests")
        )

    def check(self, words, calls, answers, program=None):
        ended = compiling.ran([program or self.program, *words], b"".join(calls))
        self.assertEqual((ended.status, ended.out, ended.err), (0, answers, b""))

    def check_row(self, words, stream, answers):
        with self.subTest("line by line"):
            self.check(words, line_by_line(stream), answers)
        with self.subTest("by a handle that shares the tables"):
            self.check(words, line_by_line(stream), answers, self.shared)
        with self.subTest("by turns"):
            self.check(words, by_turns(stream), answers)
        for size in PIECES:
            with self.subTest(pieces_of=size):
                self.check(words, fed(stream, size), answers)


class AskedAgain(unittest.TestCase):
    """Whichever call for memory of the library is refused, a request is answered as ever, or it is answered 90 and has its
    answer when it is asked again. All memory is given back."""

    @classmethod
    def setUpClass(cls):
        compiling.counting_library(ROOM.path)
        source = compiling.PROGRAMS / "again.c"
        cls.program = ROOM.linked("again", source, compiling.C, [ROOM.path / "libmmdb.a"])

    def check(self, words, calls, answers):
        """Gives how often something was asked again."""
        ended = compiling.ran([self.program, *words], b"".join(calls))
        again = AGAIN.match(ended.err)
        self.assertIsNotNone(again, ended.err.decode(errors="replace"))
        self.assertEqual((ended.status, ended.out), (0, answers))
        return int(again[1])

    def check_row(self, words, stream, answers):
        with self.subTest("line by line"):
            self.check(words, line_by_line(stream), answers)
        for size in PIECES_ASKED_AGAIN:
            with self.subTest(pieces_of=size):
                self.check(words, fed_by_request(stream, size), answers)

    def test_some_request_is_asked_again(self):
        stream, answers = ((harness.ROWS / f"first-path.{end}").read_bytes() for end in ("in", "out"))
        self.assertGreater(self.check([], line_by_line(stream), answers), 0)
        self.assertGreater(self.check([], fed_by_request(stream, 7), answers), 0)


def row(words, stream, answers):
    return lambda test: test.check_row(words, *streams.whole(stream, answers))


def add_rows(tests):
    """Adds a test for each row to a class. (A loop over classes would leave a second name for one, whose tests then run twice.)"""
    for name, stream, answers in harness.rows():
        setattr(tests, f"test_{name}", row([], stream, answers))
    for name, limits, stream, answers in harness.limited_rows():
        setattr(tests, f"test_limited_{name}", row([str(limits.rows), str(limits.block)], stream, answers))


add_rows(Answered)
add_rows(AskedAgain)
