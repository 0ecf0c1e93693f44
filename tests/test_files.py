"""Files as the source of the stream: their order, loads of CSV files, files that can't be read, and where a run stops."""

import os
import pathlib
import random
import tempfile
import unittest

from support import harness, random_streams

TABLE = b"table t (id int)\ninsert t (1)\n"
READ = b"insert t (1)\nselect * from t\n"
BAD = b"insert t (2)\nfoo\ninsert t (3)\n"
ROWS = b"id\n7\n8\n"
MOST = 16_777_216
NO_COMMAND = "column 1: wanted table, drop, index, insert, update, delete, select, load, dump or tables, found foo"


class Files(unittest.TestCase):
    """A folder of files that words name."""

    def setUp(self):
        room = tempfile.TemporaryDirectory(prefix="mmdb-tests-")
        self.addCleanup(room.cleanup)
        self.room = pathlib.Path(room.name)
        for name, text in {"table": TABLE, "read": READ, "bad": BAD, "rows.csv": ROWS, "empty": b""}.items():
            self.write(name, text)

    def write(self, name, text):
        (self.room / name).write_bytes(text)
        return name

    def run_files(self, *words, stream=b"", **how):
        return harness.run_whole(stream, words, cwd=self.room, **how)

    def check(self, words, status, out, err="", stream=b""):
        """How a run ends, what it answers and what it tells."""
        ended = self.run_files(*words, stream=stream)
        self.assertEqual((ended.status, ended.out, ended.err.decode()), (status, out, err))

    def check_as_stream(self, words, stream):
        """That files are answered as that stream is, watched or not."""
        for more in ([], ["--explain"]):
            self.assertEqual(self.run_files(*words, *more).out, harness.run_whole(stream).out, words)


class Order(Files):
    """Sources are read in the order of the words."""

    def test_files_are_one_stream(self):
        self.check(["table", "read"], 0, b"ok\nok 1\nerror 41 key exists\nrows 1\nt.id\n1\n")
        self.check(["read", "table"], 0, b"error 30 no such table\nerror 30 no such table\nok\nok 1\n")

    def test_loads_stand_among_files(self):
        load = b"load t 7\n" + ROWS
        for words, stream in {
            ("table", "--load", "t=rows.csv", "read"): TABLE + load + READ,
            ("--load", "t=rows.csv", "table", "read"): load + TABLE + READ,
            ("table", "read", "--load=t=rows.csv"): TABLE + READ + load,
            ("table", "--load", "t=rows.csv", "--load", "t=rows.csv", "read"): TABLE + load + load + READ,
            ("table", "--load", "t=empty", "read"): TABLE + b"load t 0\n" + READ,
            ("--load", "t=rows.csv"): load,
        }.items():
            self.check_as_stream(words, stream)

    def test_other_words_stand_anywhere(self):
        for words in (["--policy", "scan", "table", "read"], ["table", "--policy=scan", "read"]):
            self.check_as_stream(words, TABLE + READ)
        self.check(["--", "table"], 0, b"ok\nok 1\n")

    def test_standard_input_is_read_where_it_is_named(self):
        out = b"ok\nok 1\nok 1\nerror 41 key exists\nrows 2\nt.id\n1\n9\n"
        self.check(["table", "-", "read"], 0, out, stream=b"insert t (9)")
        self.check(["table"], 0, b"ok\nok 1\n", stream=b"insert t (9)")

    def test_a_file_may_be_read_twice(self):
        self.check(["table", "table"], 0, b"ok\nok 1\nerror 31 table exists\nerror 41 key exists\n")

    def test_a_pipe_may_be_a_csv_file(self):
        reads, writes = os.pipe()
        os.write(writes, ROWS)
        os.close(writes)
        try:
            ended = self.run_files("table", "--load", f"t=/dev/fd/{reads}", pass_fds=[reads])
        finally:
            os.close(reads)
        self.assertEqual((ended.status, ended.out, ended.err), (0, b"ok\nok 1\nok 2\n", b""))

    def test_many_files_are_open_one_after_another(self):
        names = [self.write(f"n{number}", b"insert t (%d)\n" % number) for number in range(2, 2_000)]
        self.check(["table", *names], 0, b"ok\n" + b"ok 1\n" * 1_999)


class Lines(Files):
    """A last line without a line feed ends where the next source begins."""

    def test_a_line_feed_stands_between_two_sources(self):
        self.write("cut", b"insert t (5)")
        self.check_as_stream(["table", "cut", "read"], TABLE + b"insert t (5)\n" + READ)
        self.check_as_stream(["table", "cut", "empty", "empty", "read"], TABLE + b"insert t (5)\n" + READ)
        self.check_as_stream(["table", "cut", "--load", "t=rows.csv"], TABLE + b"insert t (5)\nload t 7\n" + ROWS)
        self.write("short.csv", b"id\n7")
        self.check_as_stream(["table", "--load", "t=short.csv", "read"], TABLE + b"load t 4\nid\n7\n" + READ)

    def test_the_last_line_is_answered(self):
        self.write("cut", b"insert t (5)")
        self.check_as_stream(["table", "cut"], TABLE + b"insert t (5)")

    def test_a_block_may_go_on_in_the_next_file(self):
        self.write("front", b"load t 7\nid\n")
        self.write("back", b"7\n8\nselect * from t\n")
        self.check_as_stream(["table", "front", "back"], TABLE + b"load t 7\n" + ROWS + b"select * from t\n")

    def test_a_block_that_the_last_file_ends_in_is_cut_short(self):
        self.write("cut", b"load t 5\nid\n7")
        err = "mmdb: cut line 1: error 13 block cut short: the line asks for 5 bytes, and 4 have come\n"
        self.check(["--explain", "table", "cut"], 0, b"ok\nok 1\nerror 13 block cut short\n", err)

    def test_rows_and_random_streams_cut_into_files(self):
        draw = random.Random(random_streams.SEED)
        streams = [(stream, answers) for _, stream, answers in harness.rows()]
        streams += [random_streams.stream_and_answers(draw) for _ in range(20)]
        for number, (stream, answers) in enumerate(streams):
            ends = [at for at in range(len(stream)) if stream[at : at + 1] == b"\n"]
            cuts = sorted(draw.sample(ends, min(len(ends), 3)))
            pieces = [stream[a + 1 : b + 1] for a, b in zip([-1, *cuts], [*cuts, len(stream)])]
            words = [self.write(f"piece{at}", piece) for at, piece in enumerate(pieces)]
            for more in ([], ["--explain"]):
                with self.subTest(stream=number, more=more):
                    ended = self.run_files(*words, *more)
                    self.assertEqual((ended.status, ended.out), (0, answers))


class Unreadable(Files):
    """What can't be read is named, and what came before it is answered."""

    def check_fault(self, word, fault):
        """A fault of a file, and of a CSV file."""
        for words in ([word], ["--load", f"t={word}"]):
            for more in ([], ["--explain"], ["--stop"]):
                with self.subTest(words=words, more=more):
                    self.check([*more, "table", *words, "read"], 1, b"ok\nok 1\n", f"mmdb: {word}: {fault}\n")

    def test_a_file_that_is_not_there(self):
        self.check_fault("none", "no such file")
        self.check_fault("table/none", "no such file")

    def test_a_folder(self):
        self.check_fault(".", "it is a folder")

    @unittest.skipIf(os.geteuid() == 0, "root may read all")
    def test_a_file_that_may_not_be_read(self):
        (self.room / self.write("locked", b"")).chmod(0)
        self.check_fault("locked", "it may not be read")

    def test_a_read_that_fails(self):
        self.check_fault("/proc/self/mem", "read fault")

    def test_standard_input_that_cannot_be_read(self):
        folder = os.open("/", os.O_RDONLY)
        try:
            ended = harness.run_whole(None, ["table", "-"], cwd=self.room, stdin=folder)
        finally:
            os.close(folder)
        self.assertEqual((ended.status, ended.out, ended.err), (1, b"ok\nok 1\n", b"mmdb: read fault\n"))

    def test_a_csv_file_past_the_limit(self):
        self.write("most.csv", b"x" * MOST)
        self.check(["table", "--load", "t=most.csv"], 0, b"ok\nok 1\nerror 61 bad header\n")
        self.write("more.csv", b"x" * (MOST + 1))
        err = f"mmdb: more.csv: it has more than {MOST} bytes, the most that one load takes\n"
        self.check(["table", "--load", "t=more.csv", "read"], 1, b"ok\nok 1\n", err)

    def test_a_name_that_no_table_can_have(self):
        for name in ("", "1t", "select", "a b", "t" * 33):
            ended = self.run_files("table", "--load", f"{name}=rows.csv")
            self.assertEqual((ended.status, ended.out), (2, b""), name)
            self.assertTrue(ended.err.startswith(b"error: --load takes TABLE=FILE, with the name of a table\n"), ended.err)
        self.assertEqual(self.run_files("--load", "rows.csv").status, 2)


class OddQuotes(Files):
    """A CSV file whose quote marks are read otherwise than they were meant is reported, or not read."""

    OPEN = "has a field whose quote mark is never closed, and which holds all that follows"
    BEHIND = "has a field with text behind its closing quote mark, which is read as a part of it"

    def told(self, csv, *words):
        """How loading a CSV ends, and what standard error says of the file."""
        self.write("texts", b"table t (id int, s text)\n")
        self.write("odd.csv", csv)
        ended = self.run_files(*words, "texts", "--load", "t=odd.csv")
        told = ended.err.decode()
        self.assertTrue(not told or (told.startswith("mmdb: odd.csv: ") and told.endswith("\n")), told)
        return ended, told[len("mmdb: odd.csv: ") : -1]

    def test_the_first_field_is_reported(self):
        for csv, answer, told in (
            (b'id,s\n1,"x"y\n', b"ok 1\n", f"record 1 {self.BEHIND}"),
            (b'id,s\n\n1,x\r\n2,"y\n3,z\n', b"ok 2\n", f"record 2 {self.OPEN}"),
            (b'id,s\n1,"a""b\nc"\n2,"x" \n3,"z\n', b"ok 3\n", f"record 2 {self.BEHIND}"),
            (b'"id,s\n1,x\n', b"error 61 bad header\n", f"the record of names {self.OPEN}"),
            (b'\xef\xbb\xbf"id"x,s\n1,x\n', b"error 61 bad header\n", f"the record of names {self.BEHIND}"),
        ):
            with self.subTest(csv=csv):
                ended, words = self.told(csv)
                self.assertEqual((ended.status, ended.out, words), (0, b"ok\n" + answer, told))
                ended, words = self.told(csv, "--stop")
                self.assertEqual((ended.status, ended.out, words), (1, b"ok\n", told))

    def test_other_marks_are_not(self):
        csv = b'\xef\xbb\xbf"id",s\r\n1,x"y"\n\n2,"a""b,\nc"\n3,""\n4,"""z"""'
        for words in ((), ("--stop",), ("--explain",)):
            ended, told = self.told(csv, *words)
            self.assertEqual((ended.status, ended.out, told), (0, b"ok\nok 4\n", ""))


class Stops(Files):
    """With --stop the first refusal is the last answer."""

    def test_the_line_is_named(self):
        err = f"mmdb: bad line 2: error 20 not a command: {NO_COMMAND}\n"
        self.check(["--stop", "table", "bad", "read"], 5, b"ok\nok 1\nok 1\nerror 20 not a command\n", err)

    def test_lines_of_standard_input(self):
        for stream in (TABLE + BAD, TABLE + b"insert t (2)\nfoo"):
            err = f"mmdb: line 4: error 20 not a command: {NO_COMMAND}\n"
            self.check(["--stop"], 5, b"ok\nok 1\nok 1\nerror 20 not a command\n", err, stream=stream)

    def test_a_csv_file_is_named(self):
        self.write("again.csv", b"id\n1\n")
        err = "mmdb: again.csv: error 41 key exists (record 1): t has a row with the key 1\n"
        self.check(["--stop", "table", "--load", "t=again.csv", "read"], 5, b"ok\nok 1\nerror 41 key exists (record 1)\n", err)

    def test_nothing_is_read_behind_it(self):
        ended = self.run_files("--stop", "table", "bad", "none")
        self.assertEqual((ended.status, ended.err.count(b"\n")), (5, 1))

    def test_what_is_not_refused_goes_on(self):
        self.check(["--stop", "table", "--load", "t=rows.csv"], 0, b"ok\nok 1\nok 2\n")


class Reasons(Files):
    """With --explain each refusal is named, by its file and its line there."""

    def test_lines_are_counted_in_their_file(self):
        self.write("again.csv", b"id\n1")
        self.write("block", b"# a block\nload t 5\nid\n1\n\nfoo\n")
        told = [
            f"bad line 2: error 20 not a command: {NO_COMMAND}",
            "again.csv: error 41 key exists (record 1): t has a row with the key 1",
            f"line 1: error 20 not a command: {NO_COMMAND}",
            "block line 2: error 41 key exists (record 1): t has a row with the key 1",
            f"block line 6: error 20 not a command: {NO_COMMAND}",
            "read line 1: error 41 key exists: t has a row with the key 1",
        ]
        words = ["--explain", "table", "bad", "--load", "t=again.csv", "-", "block", "read"]
        ended = self.run_files(*words, stream=b"foo")
        self.assertEqual(ended.err.decode().splitlines(), [f"mmdb: {line}" for line in told])
        self.assertEqual(ended.status, 0)

    def test_a_request_is_named_by_the_file_that_it_begins_in(self):
        self.write("front", b"load t 7\nid\n")
        self.write("back", b"1\n8\nfoo\n")
        told = ["front line 1: error 41 key exists (record 1): t has a row with the key 1", f"back line 3: error 20 not a command: {NO_COMMAND}"]
        ended = self.run_files("--explain", "table", "front", "back")
        self.assertEqual(ended.err.decode().splitlines(), [f"mmdb: {line}" for line in told])
