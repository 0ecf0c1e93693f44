"""Test runs that end with a count.

What must hold: the last line is `N passed, M failed`. Before it are the skipped tests by reason, in lines that SKIPPED matches; they
count as neither. `test` and tests/quick parse these lines.
"""

import collections
import re
import signal
import sys
import time
import unittest

from . import tested

SKIPPED = re.compile(r"skipped: (\d+), (.*)")
COUNT = re.compile(r"(\d+) passed, (\d+) failed")


class Counted(unittest.TextTestResult):
    """Counts the tests, each once however many of its parts fail."""

    def __init__(self, *given, **named):
        super().__init__(*given, **named)
        self.failed = set()
        self.skipped_ids = set()
        self.passed = 0

    def addSubTest(self, test, subtest, err):
        super().addSubTest(test, subtest, err)
        if err is not None:
            self.failed.add(test.id())

    def addFailure(self, test, err):
        super().addFailure(test, err)
        self.failed.add(test.id())

    def addError(self, test, err):
        super().addError(test, err)
        self.failed.add(test.id())

    def addSkip(self, test, reason):
        super().addSkip(test, reason)
        self.skipped_ids.add(test.id())

    def stopTest(self, test):
        super().stopTest(test)
        self.passed += test.id() not in self.failed | self.skipped_ids


def has_program():
    return tested.PROGRAM.is_file()


def heed_interrupts():
    """Has this process heed an interrupt where it was started to ignore it, as a shell without job control starts its background jobs.
    What the tests start would ignore it too, and a test that sends one would wait for ever."""
    if signal.getsignal(signal.SIGINT) is signal.SIG_IGN:
        signal.signal(signal.SIGINT, signal.default_int_handler)


def run(name, suite, verbosity=0):
    """Runs the tests that `suite` loads, and returns the status."""
    heed_interrupts()
    if not has_program():
        print(f"tests: {tested.PROGRAM} is not built: scripts/build and rt ci build it; ./test quick tests the release")
        print("0 passed, 1 failed")
        return 1
    began = time.monotonic()
    result = unittest.TextTestRunner(stream=sys.stdout, resultclass=Counted, verbosity=verbosity).run(suite())
    print(f"{name}: {time.monotonic() - began:.0f} seconds")
    for reason, count in collections.Counter(reason for _, reason in result.skipped).items():
        print(f"skipped: {count}, {reason}")
    print(f"{result.passed} passed, {len(result.failed)} failed")
    return 1 if result.failed else 0
