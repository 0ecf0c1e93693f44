"""Test files, each run as a process of its own, and one on each processor.

What must hold: a test file leaves nothing behind and needs no other.
"""

import collections
import concurrent.futures
import os
import pathlib
import resource
import subprocess
import sys
import time

from . import counting

TESTS = pathlib.Path(__file__).resolve().parents[1]
# Those that take longest start first.
LONGEST = """growths given_back install embedding_rows embedding_rust embedding_python_package refused_growths release ordered_loads
referee growth""".split()


class File:
    """A test file, and how its run ended."""

    def __init__(self, name):
        self.name = name
        self.passed = self.failed = 0
        self.skipped = collections.Counter()

    def run(self):
        began = time.monotonic()
        how = {"stdin": subprocess.DEVNULL, "stdout": subprocess.PIPE, "stderr": subprocess.STDOUT, "text": True, "errors": "replace"}
        ended = subprocess.run([sys.executable, TESTS / "run", self.name], check=False, **how)
        self.printed = ended.stdout
        self.count(ended.returncode)
        self.seconds = time.monotonic() - began
        return self

    def count(self, status):
        """Reads the counts. A run that ends before its count is a failure."""
        lines = self.printed.splitlines()
        counted = counting.COUNT.fullmatch(lines[-1] if lines else "")
        if counted:
            self.passed, self.failed = int(counted[1]), int(counted[2])
        self.failed += self.failed == 0 and (status != 0 or not counted)
        for skipped in filter(None, map(counting.SKIPPED.fullmatch, lines)):
            self.skipped[skipped[2]] += int(skipped[1])

    def report(self, name):
        if self.failed:
            print(self.printed)
        print(f"{name}: {self.name}: {self.passed} passed, {self.failed} failed, {self.seconds:.0f} s", flush=True)


def files(named=()):
    """The named files, or all; those that take longest first."""
    names = named or sorted(path.stem.removeprefix("test_") for path in TESTS.glob("test_*.py"))
    return [File(name) for name in sorted(names, key=lambda name: LONGEST.index(name) if name in LONGEST else len(LONGEST))]


def run_each(name, listed):
    """Runs the files, and reports each when it ends. After an interrupt no further file starts."""
    with concurrent.futures.ThreadPoolExecutor(len(os.sched_getaffinity(0))) as threads:
        try:
            for ended in concurrent.futures.as_completed([threads.submit(file.run) for file in listed]):
                ended.result().report(name)
        except KeyboardInterrupt:
            threads.shutdown(cancel_futures=True)
            raise


def report_skipped(listed):
    names_of = collections.defaultdict(list)
    for file in listed:
        for reason in file.skipped:
            names_of[reason].append(file.name)
    for reason, names in names_of.items():
        count = sum(file.skipped[reason] for file in listed)
        print(f"skipped: {count}, {reason} ({', '.join(names)})")


def run(name, listed):
    """Runs the files under the name of a tier, and returns the status. It ends with the skipped tests by reason, the minutes and the count."""
    began = time.monotonic()
    run_each(name, listed)
    report_skipped(listed)
    used = resource.getrusage(resource.RUSAGE_CHILDREN)
    print(f"{name}: {(time.monotonic() - began) / 60:.1f} minutes, {(used.ru_utime + used.ru_stime) / 60:.1f} of a processor")
    failed = sum(file.failed for file in listed)
    print(f"{sum(file.passed for file in listed)} passed, {failed} failed")
    return 1 if failed else 0
