"""Standard streams that fail: full files, readers that leave, and reads that fail. In large sizes they fail at each byte of each row."""

import bisect
import concurrent.futures
import functools
import itertools
import os
import subprocess
import tempfile
import unittest

from support import harness, model, sizes, streams
from support.limited import small_files

LINES = (harness.ROWS / "departments-and-employees.in").read_bytes() + b"tables\n"
BLOCKS = (harness.ROWS / "load-of-references.in").read_bytes()
APART = sizes.size(41, 1)
READ_FAULT = (1, b"mmdb: read fault\n")
WRITE_FAULT = (3, b"mmdb: write fault\n")


def close_input():
    os.close(0)


def run_to_a_file(stream, most):
    """The status, what is on standard error, and what a file has that takes so many bytes. The signal of it is ignored."""
    with tempfile.TemporaryFile() as out:
        how = {"stdout": out, "stderr": subprocess.PIPE, "restore_signals": False}
        with small_files(most):
            ran = subprocess.run([harness.PROGRAM], input=stream, timeout=harness.SECONDS, check=False, **how)
        out.seek(0)
        return ran.returncode, ran.stderr, out.read()


def run_until_empty(stream, length):
    """The status, what is on standard error, and the answers, where a read fails behind so many bytes."""
    reads, writes = os.pipe()
    try:
        os.set_blocking(reads, False)
        os.write(writes, stream[:length])
        ran = subprocess.run([harness.PROGRAM], stdin=reads, capture_output=True, timeout=harness.SECONDS, check=False)
    finally:
        os.close(reads)
        os.close(writes)
    return ran.returncode, ran.stderr, ran.stdout


def runs_at_each(run, stream, lengths):
    """Each of the lengths, and what `run` gives at it. Other processes run them, several at once."""
    with concurrent.futures.ProcessPoolExecutor() as jobs:
        yield from zip(lengths, jobs.map(functools.partial(run, stream), lengths, chunksize=10))


class FullFiles(unittest.TestCase):
    """A file that takes some bytes and no further one has these bytes of the answers, and the status tells of it."""

    def check(self, stream):
        answers = model.answers_to(stream)
        for most, ran in runs_at_each(run_to_a_file, stream, range(0, len(answers), APART)):
            with self.subTest(most=most):
                self.assertEqual(ran, (*WRITE_FAULT, answers[:most]))
        self.assertEqual(run_to_a_file(stream, len(answers)), (0, b"", answers))

    def test_full_files_of_lines(self):
        self.check(LINES)

    def test_full_files_of_dumps(self):
        self.check(BLOCKS)

    @unittest.skipUnless(sizes.is_large, "some 88,000 runs: in large sizes only")
    def test_full_files_of_each_row(self):
        for name, stream, _ in harness.rows():
            with self.subTest(row=name):
                self.check(stream)


class ReadersThatLeave(unittest.TestCase):
    """Who reads some answers and leaves has got those of the lines so far. The next answer is a write fault."""

    def check(self, stream):
        units = streams.units_of(stream)
        for count in range(1, len(units), sizes.size(5, 1)):
            read, unread = b"".join(units[:count]), b"".join(units[count:])
            with self.subTest(units=count):
                self.assertEqual(self.run_and_leave(read, unread), (*WRITE_FAULT, model.answers_to(read)))

    def run_and_leave(self, read, unread):
        how = {"stdin": subprocess.PIPE, "stdout": subprocess.PIPE, "stderr": subprocess.PIPE, "bufsize": 0}
        length = len(model.answers_to(read))
        with subprocess.Popen([harness.PROGRAM], **how) as program:
            program.stdin.write(read)
            got = harness.read_bytes(program.stdout, length)
            program.stdout.close()
            program.stdin.write(unread)
            program.stdin.close()
            return program.wait(timeout=harness.SECONDS), program.stderr.read(), got

    def test_a_reader_of_lines_leaves(self):
        self.check(LINES)

    def test_a_reader_of_dumps_leaves(self):
        self.check(BLOCKS)


def answers_by_ends(stream):
    """Where the units of a stream end, and the answers to none of them, to the first, to the first two and so on."""
    tables, listed = model.Tables(model.Limits()), list(model.units_of(stream))
    lengths = [len(line) + 1 + model.block_length(line) for line, _ in listed]
    answers = itertools.accumulate((tables.answer(*unit) for unit in listed), initial=b"")
    return list(itertools.accumulate(lengths)), list(answers)


class FaultsOfReads(unittest.TestCase):
    """Where a read fails, the units that have ended are answered, and the one that hasn't has no answer. Here a pipe that
    doesn't wait is empty, and its other end is open."""

    def check(self, stream):
        ends, answers = answers_by_ends(stream)
        for length, ran in runs_at_each(run_until_empty, stream, range(0, len(stream) + 1, APART)):
            with self.subTest(length=length):
                self.assertEqual(ran, (*READ_FAULT, answers[bisect.bisect_right(ends, length)]))

    @unittest.skipUnless(sizes.is_large, "some 200,000 runs: in large sizes only")
    def test_a_read_fails_behind_each_row(self):
        for name, stream, _ in harness.rows():
            with self.subTest(row=name):
                self.check(stream)

    def test_a_read_fails_behind_lines(self):
        self.check(LINES)

    def test_a_read_fails_behind_blocks(self):
        self.check(BLOCKS)

    def test_an_input_that_is_closed(self):
        self.check_unread(preexec_fn=close_input)

    def test_an_input_that_is_open_for_writing_alone(self):
        with tempfile.TemporaryFile() as file:
            writes = os.open(f"/proc/self/fd/{file.fileno()}", os.O_WRONLY)
            try:
                self.check_unread(stdin=writes)
            finally:
                os.close(writes)

    def check_unread(self, **how):
        ran = subprocess.run([harness.PROGRAM], capture_output=True, timeout=harness.SECONDS, check=False, **how)
        self.assertEqual((ran.returncode, ran.stderr, ran.stdout), (*READ_FAULT, b""))
