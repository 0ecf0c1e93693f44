"""The program as a process: its words, statuses, flushes, and its bound on memory."""

import os
import resource
import subprocess
import unittest

from support import harness

FIRST_PATH = (harness.ROWS / "first-path.in").read_bytes()


def close_output():
    os.close(1)


def have_little_memory():
    resource.setrlimit(resource.RLIMIT_AS, (32 << 20, 32 << 20))


class Words(unittest.TestCase):
    """The words are read before any input."""

    def check_refused(self, *words):
        ended = harness.run_whole(FIRST_PATH, words)
        self.assertEqual((ended.status, ended.out), (2, b""))
        self.assertTrue(ended.err.startswith(b"error: "), ended.err)

    def test_help_goes_to_standard_output(self):
        for word in ("--help", "-h"):
            ended = harness.run_whole(FIRST_PATH, [word])
            self.assertEqual((ended.status, ended.err), (0, b""))
            self.assertIn(b"Usage: mmdb", ended.out)

    def test_version_goes_to_standard_output(self):
        for word in ("--version", "-V"):
            ended = harness.run_whole(FIRST_PATH, [word])
            self.assertEqual((ended.status, ended.out, ended.err), (0, f"mmdb {harness.VERSION}\n".encode(), b""))

    def test_wrong_words_end_with_status_2(self):
        for words in (["--policy", "fast"], ["--policy"], ["--nosuch"], ["-x"], ["--help=1"], ["--load"], ["--stop=1"]):
            with self.subTest(words=words):
                self.check_refused(*words)

    def test_a_word_that_is_not_utf_8_ends_with_status_2(self):
        self.check_refused(b"\xff")

    def test_help_that_cannot_be_written_ends_with_status_3(self):
        with open("/dev/full", "wb") as full:
            ran = subprocess.run([harness.PROGRAM, "--help"], stdout=full, stderr=subprocess.PIPE, check=False)
        self.assertEqual((ran.returncode, ran.stderr), (3, b"mmdb: write fault\n"))


class Statuses(unittest.TestCase):
    """A fault of the streams is told by the status and on standard error."""

    def run_to(self, **how):
        ran = subprocess.run([harness.PROGRAM], input=FIRST_PATH, stderr=subprocess.PIPE, timeout=harness.SECONDS, check=False, **how)
        return ran.returncode, ran.stderr

    def test_a_closed_output_is_a_write_fault(self):
        self.assertEqual(self.run_to(preexec_fn=close_output), (3, b"mmdb: write fault\n"))

    def test_a_full_disk_is_a_write_fault(self):
        with open("/dev/full", "wb") as full:
            self.assertEqual(self.run_to(stdout=full), (3, b"mmdb: write fault\n"))

    def test_a_pipe_that_nobody_reads_is_a_write_fault(self):
        reads, writes = os.pipe()
        os.close(reads)
        try:
            self.assertEqual(self.run_to(stdout=writes), (3, b"mmdb: write fault\n"))
        finally:
            os.close(writes)

    def test_a_folder_as_input_is_a_read_fault(self):
        with open_folder("/") as folder:
            ran = subprocess.run([harness.PROGRAM], stdin=folder, capture_output=True, timeout=harness.SECONDS, check=False)
        self.assertEqual((ran.returncode, ran.stdout, ran.stderr), (1, b"", b"mmdb: read fault\n"))


class open_folder:
    """A folder opened for reading, which no read can read."""

    def __init__(self, path):
        self.file = os.open(path, os.O_RDONLY)

    def __enter__(self):
        return self.file

    def __exit__(self, *_):
        os.close(self.file)


class Flushes(unittest.TestCase):
    """Answers come as soon as their lines have ended, or the blocks behind them."""

    def check(self, pieces, last, answer):
        """Each piece is answered before the next is sent, and the last once the stream has ended."""
        how = {"stdin": subprocess.PIPE, "stdout": subprocess.PIPE, "bufsize": 0}
        with subprocess.Popen([harness.PROGRAM], **how) as program:
            for sent, expected in pieces:
                program.stdin.write(sent)
                self.assertEqual(harness.read_bytes(program.stdout, len(expected)), expected)
            program.stdin.write(last)
            program.stdin.close()
            self.assertEqual(harness.read_bytes(program.stdout, 100), answer)
            self.assertEqual(program.wait(timeout=harness.SECONDS), 0)

    def test_each_answer_comes_before_the_next_line(self):
        lines = [(b"table t (id int)\n", b"ok\n"), (b"insert t (1)\n", b"ok 1\n"), (b"select * from t\n", b"rows 1\nt.id\n1\n")]
        self.check(lines, b"select * from t", lines[-1][1])

    def test_a_load_is_answered_at_the_last_byte_of_its_block(self):
        loads = [(b"load t 0\n", b"error 61 bad header\n"), (b"load t 4\nid\n", b""), (b"1", b"ok 1\n")]
        pieces = [(b"table t (id int)\n", b"ok\n"), *loads, (b"dump t\n", b"load t 5\nid\n1\n")]
        self.check(pieces, b"load t 6\nid\n2\n", b"error 13 block cut short\n")


class Memory(unittest.TestCase):
    """A line takes no memory beyond its bound."""

    def test_a_line_without_end_is_too_long(self):
        ended = harness.run_whole(b"x" * (100 << 20) + b"\n" + FIRST_PATH, preexec_fn=have_little_memory)
        self.assertEqual((ended.status, ended.err), (0, b""))
        self.assertTrue(ended.out.startswith(b"error 10 line too long\nok\n"), ended.out[:100])

    def test_a_table_that_outgrows_memory_is_answered_so(self):
        lines = [b"insert t (%d, 0, 0, 0, 0, 0, 0, 0)\n" % key for key in range(300_000)]
        columns = b", ".join(b"c%d int" % number for number in range(8))
        ended = harness.run_whole(b"table t (" + columns + b")\n" + b"".join(lines), preexec_fn=have_little_memory)
        self.assertEqual((ended.status, ended.err), (0, b""))
        answers = ended.out.split(b"\n")
        self.assertEqual(answers[:2] + answers[-1:], [b"ok", b"ok 1", b""])
        self.assertEqual(set(answers[1:-1]), {b"ok 1", b"error 90 no memory"})
        self.assertEqual(len(answers), len(lines) + 2)
