"""Each call for memory refused in turn, in the program over the rows of tests/rows, and in the crates' tests for it.

What must hold: those tests' names end in `_under_refusal`, and each passes whichever call fails.
"""

import unittest

from support import harness, refusing, sizes, streams, tested

NO_MEMORY = b"error 90 no memory\n"
STATUS_OF_NO_MEMORY = 4
# Of the calls for memory of a row every so many is refused.
APART = sizes.size(1, 1, 5)
REFUSER = refusing.Refuser()


def tearDownModule():
    REFUSER.close()


class Program(unittest.TestCase):
    """With one call for memory refused the program ends at once, or some units are answered 90, and the others as if
    those were not there."""

    def check_row(self, stream, apart=APART):
        rest, refused, last = {}, 0, None
        for nth, ended, is_met in REFUSER.each_run([harness.PROGRAM], stream, apart):
            with self.subTest(refused_call=nth):
                if ended.status == STATUS_OF_NO_MEMORY:
                    self.assertEqual((ended.out, ended.err), (b"", b"mmdb: no memory\n"))
                else:
                    refused += self.check_units(stream, ended, rest)
            last = nth, ended, is_met
        self.assertEqual((last[2], last[1].status), (False, 0), "the run without a refusal")
        self.assertGreater(last[0], 1, "no call for memory was refused")
        return refused

    def check_units(self, stream, ended, rest):
        """Checks the answers of a run that began, and gives the number of those that are 90."""
        self.assertEqual((ended.status, ended.err), (0, b""))
        units, answers = streams.units_of(stream), streams.answers_of(ended.out)
        self.assertEqual(len(answers), len(units))
        kept = b"".join(unit for unit, answer in zip(units, answers) if answer != NO_MEMORY)
        others = b"".join(answer for answer in answers if answer != NO_MEMORY)
        if kept not in rest:
            rest[kept] = harness.run_whole(kept).out
        self.assertEqual(others, rest[kept])
        return answers.count(NO_MEMORY)

    def test_some_unit_is_answered_90(self):
        self.assertGreater(self.check_row((harness.ROWS / "first-path.in").read_bytes(), 1), 0)

    def test_words_are_never_lost(self):
        for words in (["--help"], ["--version"], ["--policy", "tree"], ["--policy", "fast"], ["--nosuch"], [b"\xff"]):
            ample = harness.run_whole(b"", words)
            for nth, ended, _ in REFUSER.each_run([harness.PROGRAM, *words]):
                with self.subTest(words=words, refused_call=nth):
                    if ended.status == STATUS_OF_NO_MEMORY:
                        self.assertEqual((ended.out, ended.err), (b"", b"mmdb: no memory\n"))
                    else:
                        self.assertEqual((ended.status, ended.out, ended.err), (ample.status, ample.out, ample.err))


def row(stream):
    return lambda test: test.check_row(stream)


for name, stream, _ in harness.rows():
    setattr(Program, f"test_{name}", row(stream))


@tested.requires_toolchain
class Crates(unittest.TestCase):
    """The crates' tests whose names end in `_under_refusal` pass whichever call for memory is refused."""

    def check_test(self, binary, name):
        for nth, ended, _ in REFUSER.each_run([binary, name]):
            with self.subTest(refused_call=nth):
                self.assertEqual(ended.status, 0, (ended.out + ended.err).decode(errors="replace"))

    def test_some_test_is_found(self):
        self.assertTrue(any(name.startswith("test_crate_") for name in dir(Crates)), "no crate's tests were built")


def crate_test(binary, name):
    return lambda test: test.check_test(binary, name)


for binary, name in harness.crate_tests("_under_refusal"):
    crate = binary.parent.parent.name
    setattr(Crates, f"test_crate_{crate}_{name.replace('::', '_')}", crate_test(binary, name))
