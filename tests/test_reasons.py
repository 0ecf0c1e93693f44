"""Reasons: what `--explain` prints on standard error, that answers stay the same with it, and what the library reports."""

import ctypes
import random
import re
import unittest

from support import hand, harness, model, random_streams, sizes, streams, tested

STREAMS = sizes.size(100, 5_000)
TOLD = re.compile(rb"mmdb: line (\d+): (error (\d\d) [^:\n]*): ([^\n]+)\n")
WANTED = re.compile(rb"column (\d+): wanted (.+), found ~(: .+)?")
COLUMN = re.compile(rb"column (\d+): ")
#: Lines that lead to each place of the grammar, with a blank between two symbols.
SPELLED = """table t ( t int , u text , v ref t , w ref t null )
drop table t
drop index t t tree
index t t hash
insert t ( 0 , 'x' )
update t set t = 0 , u = 'x' where t = 0
delete t where t = 0 and t . u <> 'x'
select * from t
select distinct * from t
select distinct t from t
select t , t . u , t from t join u on t . t = u . u join v on t . t = v . v where t < 0
load t 0
dump t
tables""".splitlines()
KEYWORDS = """and delete distinct drop dump from hash index insert int join load null on ref select set table tables text tree
update where""".split()
OPERATORS = ["=", "<>", "<", "<=", ">", ">="]
VALUES = ["0", "-1", "'x'", "null"]
SYMBOLS = [*KEYWORDS, *OPERATORS, "(", ")", ",", ".", "*", "t", "0", "-1", "'x'"]
#: What the words of a reason stand for, where they are no symbol.
MEANT = {
    "a table's name": ["t"],
    "a column's name": ["t"],
    "a value": VALUES,
    "an operator": OPERATORS,
    "a number of bytes": ["0"],
    "a comma": [","],
    "a dot": ["."],
}


def numbered_units(stream):
    """The units of a stream that have an answer, each as a line and its block, with the number of the line."""
    number = 1
    for line, block in model.units_of(stream):
        if not model.is_silent(model.without_return(line)):
            yield number, line, block
        number += 1 + block.count(b"\n")


def refusals_of(stream, answers):
    """The numbers of the lines that are refused, each with its answer."""
    for (number, _, _), answer in zip(numbered_units(stream), streams.answers_of(answers), strict=True):
        if answer.startswith(b"error "):
            yield number, answer[:-1]


class Program(unittest.TestCase):
    """The program tells each refusal with its line and a reason, and answers as ever."""

    def check(self, ended, stream, answers):
        told = TOLD.findall(ended.err)
        self.assertEqual((ended.status, ended.out), (0, answers))
        self.assertEqual([(int(number), answer) for number, answer, _, _ in told], list(refusals_of(stream, answers)))
        self.assertEqual(len(told), ended.err.count(b"\n"))

    def check_ways(self, stream, answers):
        self.check(harness.run_whole(stream, ["--explain"]), stream, answers)
        for size in (1, 7):
            pieces = harness.pieces_of(stream, size)
            self.check(harness.run_in_pieces(pieces, ["--explain"]), stream, answers)

    def test_lines_that_a_new_user_might_type(self):
        ended = harness.run_whole(hand.STREAM, ["--explain"])
        self.assertEqual(ended.out, harness.run_whole(hand.STREAM).out)
        first = hand.FRONT.count(b"\n") + 1
        told = [f"mmdb: line {number}: {line}" for number, line in enumerate(hand.TOLD, first)]
        self.assertEqual(ended.err.decode().splitlines(), told)

    def test_the_rows(self):
        for name, stream, answers in harness.rows():
            with self.subTest(row=name):
                self.check_ways(stream, answers)

    def test_random_streams(self):
        draw = random.Random(random_streams.SEED)
        for number in range(STREAMS):
            stream, answers = random_streams.stream_and_answers(draw)
            with self.subTest(stream=number):
                self.check(harness.run_whole(stream, ["--explain"]), stream, answers)
                pieces = random_streams.random_pieces(draw, stream)
                self.check(harness.run_in_pieces(pieces, ["--explain"]), stream, answers)

    def test_nothing_is_told_without_the_option(self):
        self.assertEqual(harness.run_whole(hand.STREAM).err, b"")

    def test_lines_of_a_block_are_counted(self):
        stream = b"table t (id int)\nload t 9\nid\n1\n2\n1\nfoo\nload t 3\nid\nbar"
        told = TOLD.findall(harness.run_whole(stream, ["--explain"]).err)
        self.assertEqual([(number, refusal) for number, _, refusal, _ in told], [(b"2", b"41"), (b"7", b"20"), (b"10", b"20")])

    def test_what_is_seen_badly(self):
        """Empty fields, blanks, characters that are not seen or turn a line's direction, and quote marks in texts."""
        none = "and that is no integer of 64 bits"
        for line, block, words in (
            ("load t 7", ",s\n1,x\n", "field 1 of the header is empty, and column 1 is id"),
            ("load t 9", "id, s\n1,x", 'field 2 of the header is " s", and column 2 is s'),
            ("load t 7", "id,s\n,x", f"the field of id is empty, {none}"),
            ("load t 9", "id,s\n1 ,x", f'the field of id is "1 ", {none}'),
            ("load t 10", "id,s\n\u202e,x", f"the field of id is <U+202E>, {none}"),
            ("insert t ('O''Hara\u2067', 'x')", "", "column id of t has integers, and 'O''Hara<U+2067>' is a text"),
            ("insert t (1, 'x\t\u2029)", "", "column 14: the text 'x<U+0009><U+2029>) has no quote mark at its end"),
            ("\ufefftables", "", "column 1: <U+FEFF> is no command: a byte order mark is allowed at the front of a block only"),
            ("tables\u00a0", "", "column 7: wanted the end of the line, found \u00a0 (U+00A0): a blank is a space or a tab"),
            (".tables", "", "column 1: . is no command: commands that begin with a dot are for mmdb-shell"),
            ("?", "", "column 1: ? is no command: the commands are table, drop, index, insert, update, delete, select, load, dump and tables"),
            ("help", "", "column 1: help is no command: the commands are table, drop, index, insert, update, delete, select, load, dump and tables"),
        ):
            with self.subTest(line=line):
                stream = f"table t (id int, s text)\n{line}\n{block}"
                told = TOLD.findall(harness.run_whole(stream.encode(), ["--explain"]).err)
                self.assertEqual([why.decode() for *_, why in told], [words])

    def test_a_stream_that_ends_inside_a_block(self):
        for end in (b"", b"\n", b"\nid\n"):
            told = TOLD.findall(harness.run_whole(b"load t 9" + end, ["--explain"]).err)
            come = len(end[1:])
            words = b"the line asks for 9 bytes, and %d have come" % come
            self.assertEqual(told, [(b"1", b"error 13 block cut short", b"13", words)])


class Places(unittest.TestCase):
    """At each place of the grammar just what a reason says is wanted may stand."""

    def reasons(self, lines):
        """Why each of these lines is no command, or nothing of one that is."""
        stream = "".join(f"{line}\n" for line in lines).encode()
        told = TOLD.findall(harness.run_whole(stream, ["--explain"]).err)
        found = {int(line): words for line, _, number, words in told if number == b"20"}
        return [found.get(number) for number in range(1, len(lines) + 1)]

    def test_just_what_is_wanted_may_stand(self):
        spelled = [line.split() for line in SPELLED]
        fronts = {"".join(f"{it} " for it in symbols[:at]) for symbols in spelled for at in range(len(symbols) + 1)} - {""}
        for front in ["", *sorted(fronts)]:
            other, whole, *behind = self.reasons([f"{front}~", front, *(f"{front}{symbol} ~" for symbol in SYMBOLS)])
            with self.subTest(front=front):
                column, words, _ = WANTED.fullmatch(other).groups()
                wanted = set(words.decode().replace(" or ", ", ").split(", "))
                self.assertEqual(int(column), len(front) + 1)
                self.assertEqual(bool(front) and not whole, "the end of the line" in wanted)
                stops = [int(COLUMN.match(words)[1]) for words in behind]
                admitted = {symbol for symbol, stop in zip(SYMBOLS, stops, strict=True) if stop > len(front) + 1}
                self.assertEqual(admitted, {it for words in wanted for it in MEANT.get(words, [words])} - {"the end of the line"})


class Bytes(ctypes.Structure):
    _fields_ = [("at", ctypes.POINTER(ctypes.c_char)), ("length", ctypes.c_size_t)]

    def whole(self):
        return self.at[: self.length]


class Library(unittest.TestCase):
    """The library tells a reason for each refusal, and of each number one can come by."""

    @classmethod
    def setUpClass(cls):
        cls.mmdb = ctypes.CDLL(str(tested.library() / "libmmdb.so"))

    def opened(self, limits=None):
        handle = ctypes.c_void_p()
        rows, block = (limits.rows, limits.block) if limits else (1 << 24, 1 << 24)
        self.assertEqual(self.mmdb.mmdb_open(ctypes.byref(handle), 0, rows, block), 0)
        self.addCleanup(self.mmdb.mmdb_close, ctypes.byref(handle))
        return handle

    def call(self, call, handle, line, block):
        told = Bytes()
        lengths = (ctypes.c_size_t(len(line)), ctypes.c_size_t(len(block)))
        status = call(ctypes.byref(handle), line, lengths[0], block, lengths[1], ctypes.byref(told))
        return status, told.whole() if status == 0 else b""

    def reasons(self, stream, limits=None):
        """The numbers of the refusals of a stream, each with its reason."""
        handle = self.opened(limits)
        for line, block in model.units_of(stream):
            if not line or len(block) < model.block_length(line):
                continue
            status, answer = self.call(self.mmdb.mmdb_load, handle, line, block)
            self.assertEqual(status, 0)
            status, words = self.call(self.mmdb.mmdb_reason, handle, line, block)
            self.assertEqual(status, 0)
            self.assertEqual(words != b"", answer.startswith(b"error "), (line, answer, words))
            told = Bytes()
            self.assertEqual((self.mmdb.mmdb_answer(ctypes.byref(handle), ctypes.byref(told)), told.whole()), (0, answer))
            if words:
                yield int(answer[6:8]), words

    def test_each_number_has_its_reasons(self):
        numbers = {number for _, stream, _ in harness.rows() for number, _ in self.reasons(stream)}
        for _, limits, stream, _ in harness.limited_rows():
            numbers |= {number for number, _ in self.reasons(stream, limits)}
        self.assertEqual(numbers | {13, 90}, set(model.TEXTS) | {13, 90})

    def test_a_load_of_too_many_rows(self):
        """It is told with the rows that are there, and the records before the one that is refused."""
        stream = b"table t (id int)\ninsert t (1)\nload t 9\nid\n2\n3\n4\ninsert t (2)\ninsert t (3)\ninsert t (4)\n"
        told = [words.decode() for _, words in self.reasons(stream, model.Limits(rows=3, block=100))]
        records = "t has 1 rows, 2 records come before this one, and a table has at most 3 rows"
        self.assertEqual(told, [records, "t has 3 rows, and there can be no more"])

    def test_reasons_are_those_of_the_program(self):
        told = [line.split(": ", 1)[1] for line in hand.TOLD]
        self.assertEqual([words.decode() for _, words in self.reasons(hand.STREAM)], told)

    def test_a_piece_of_a_stream(self):
        """The reason is about the first request in it that has an answer, with the block behind its line."""
        handle = self.opened()
        self.assertEqual(self.call(self.mmdb.mmdb_load, handle, b"table t (id int)", b""), (0, b"ok\n"))
        silent = b"# silent\n \n"
        for line, block in ((b"selekt 1", b""), (b"load t 5", b"id\nx\n"), (b"insert t ('x')", b"")):
            self.call(self.mmdb.mmdb_load, handle, line, block)
            alone = self.call(self.mmdb.mmdb_reason, handle, line, block)
            self.assertNotEqual(alone, (0, b""))
            piece = silent + line + b"\n" + block + b"tables\ninsert u (1)\n"
            self.assertEqual(self.mmdb.mmdb_feed(ctypes.byref(handle), piece, ctypes.c_size_t(len(piece))), 0)
            for asked in (piece, silent + line + b"\n" + block):
                self.assertEqual(self.call(self.mmdb.mmdb_reason, handle, asked, b""), alone)
            self.assertEqual(self.call(self.mmdb.mmdb_reason, handle, line + b"\n", block), alone)

    def test_statuses(self):
        closed = ctypes.c_void_p()
        self.assertEqual(self.call(self.mmdb.mmdb_reason, closed, b"foo", b""), (1, b""))
        handle = self.opened()
        self.assertEqual(self.call(self.mmdb.mmdb_reason, handle, b"", b""), (5, b""))
        self.assertEqual(self.call(self.mmdb.mmdb_reason, handle, b"foo", b""), (0, b""))
