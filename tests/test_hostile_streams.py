"""Streams that nobody intends: random bytes, words in any order, files that are no commands, streams that are cut after each byte, blocks
of junk, and blocks that are longer than the stream.
"""

import random
import resource
import unittest

from support import harness, model, refusing, sizes

SEED = 19860526
STREAMS = sizes.size(40, 5_000)
LINES = sizes.size(60, 200)
APART = sizes.size(7, 1)
CUT_ROWS = ["departments-and-employees", "quoting", "refusals"]
CUT_ROWS_OF_BLOCKS = ["dump-loaded-again", "block-formats", "load-of-references"]
FRONT = b"table t (id int, s text)\ntable u (s text, t ref t null)\n"
KEYWORDS = b"table drop index insert update delete select distinct from where and join on set tables".split()
KEYWORDS += b"tree hash int text ref null".split()
NAMES = b"t u id s t.id nosuch".split()
VALUES = b"0 -1 7 007 9223372036854775807 9223372036854775808 'a' '' '''' 'it''s' ' '".split(b" ") + [b"'\xc3\xa9'"]
SIGNS = b"( ) , . * = <> < <= > >= - ' \" # ; \x00 \x7f".split() + [b"\xc3\xa9", b"\xff", b"\t", b"\r"]
WORDS = KEYWORDS + NAMES * 3 + VALUES * 2 + SIGNS
RECORDS = [b"%d,a\n", b"%d,\n", b"x,%d\n", b"tables\n#%d\n", b"dump t\n#%d\n", b"insert t (%d, '')\n", b"delete u\n#%d\n"]
LETTERS = [bytes(range(256)), bytes(range(32, 127)) + b"\n", b"\xc3\xa9\xe2\x82\xac\xf0\x9f\x98\x80\n", b"\r\n \t#", b"'(),0a\n"]
MORE_THAN_ANY = 2**63 - 1


def have_little_memory():
    resource.setrlimit(resource.RLIMIT_AS, (12 << 20, 12 << 20))


def random_bytes(draw):
    letters = draw.choice(LETTERS)
    return bytes(draw.choices(letters, k=draw.randrange(1_000)))


def random_words(draw):
    lines = (b" ".join(draw.choices(WORDS, k=draw.randrange(1, 12))) for _ in range(draw.randrange(LINES)))
    return FRONT + b"".join(line + b"\n" for line in lines)


def random_loads(draw):
    """Loads of any lengths among lines that could be records, so that blocks end in records, lines and other loads."""
    stream = FRONT
    for _ in range(draw.randrange(LINES)):
        length = draw.choice([0, 5, 4, 9, 13, draw.randrange(40)])
        loads = [b"load t %d\nid,s\n", b"load u %d\ns,t\n", b"load t %d\r\nid,s\r\n", b"load nosuch %d\n"]
        stream += draw.choice([draw.choice(loads) % length, draw.choice(RECORDS) % draw.randrange(9), draw.choice(RECORDS) % 7])
    return stream[: draw.randrange(len(stream))]


class Streams(unittest.TestCase):
    """Each has the answers of plain lists of rows, whole and in pieces."""

    def check(self, stream):
        answers = model.answers_to(stream)
        size = 1 + len(stream) // 3
        for ended in (harness.run_whole(stream), harness.run_in_pieces(harness.pieces_of(stream, size))):
            self.assertEqual((ended.status, ended.err), (0, b""))
            self.assertEqual(ended.out, answers)

    def check_each(self, drawn):
        draw = random.Random(SEED)
        for number in range(STREAMS):
            with self.subTest(stream=number):
                self.check(drawn(draw))

    def test_random_bytes(self):
        self.check_each(random_bytes)

    def test_random_words(self):
        self.check_each(random_words)

    def test_random_loads_and_dumps(self):
        self.check_each(random_loads)

    def test_a_program_as_a_stream(self):
        self.check(harness.PROGRAM.read_bytes()[: sizes.size(100_000, None)])

    def check_cut(self, names):
        for name in names:
            stream = (harness.ROWS / f"{name}.in").read_bytes()
            for length in range(0, len(stream) + 1, APART):
                with self.subTest(row=name, length=length):
                    self.assertEqual(harness.run_whole(stream[:length]).out, model.answers_to(stream[:length]))

    def test_rows_cut_after_each_byte(self):
        self.check_cut(CUT_ROWS)

    def test_rows_with_blocks_cut_after_each_byte(self):
        self.check_cut(CUT_ROWS_OF_BLOCKS)


class Blocks(unittest.TestCase):
    """A block is never taken for commands, whatever stands in it, and takes no memory past the limit."""

    def test_blocks_of_junk(self):
        """What a quote mark in an odd place means isn't said, but it is the same in pieces, and the next line is a line."""
        draw = random.Random(SEED)
        for number in range(STREAMS):
            block = draw.choice([b"", b"id,s\n", b"id,s\n1,", b'id,s\n1,"']) + random_bytes(draw)
            stream = FRONT + b"load t %d\n" % len(block) + block + b"tables x\n"
            with self.subTest(stream=number):
                ended = harness.run_whole(stream)
                self.assertEqual((ended.status, ended.err), (0, b""))
                self.assertRegex(ended.out, rb"\Aok\nok\n(ok \d+|error (61|62|41) .*)\nerror 20 not a command\n\Z")
                self.assertEqual(harness.run_in_pieces(harness.pieces_of(stream, 1 + len(stream) // 3)).out, ended.out)

    def test_what_is_loaded_of_junk_is_dumped_and_loaded_again(self):
        draw = random.Random(SEED)
        for number in range(STREAMS):
            texts = (bytes(draw.choices(LETTERS[1] + b'"",,\r', k=draw.randrange(20))) for _ in range(20))
            block = b"id,s\n" + b"".join(model.record([key, text]) for key, text in enumerate(texts))
            load = b"load t %d\n" % len(block) + block
            with self.subTest(stream=number):
                ended = harness.run_whole(FRONT + load + b"dump t\ndelete t\n" + load + b"dump t\n")
                self.assertEqual(ended.out, b"ok\nok\nok 20\n" + load + b"ok 20\nok 20\n" + load)

    def test_a_block_past_the_limit_takes_no_memory(self):
        refuser = refusing.Refuser()
        self.addCleanup(refuser.close)
        calls = refuser.calls([harness.PROGRAM], b"")
        for length in (model.Limits().block + 1, 2**32, MORE_THAN_ANY):
            stream = b"load t %d\n" % length + b"x" * 100_000
            with self.subTest(length=length):
                self.assertEqual(harness.run_whole(stream).out, b"error 12 block too long\n")
                self.assertEqual(refuser.calls([harness.PROGRAM], stream), calls)

    def test_a_long_block_past_the_limit_with_little_memory(self):
        stream = b"load t %d\n" % MORE_THAN_ANY + bytes(sizes.size(20, 1000) << 20)
        ended = harness.run_whole(stream, preexec_fn=have_little_memory)
        self.assertEqual((ended.status, ended.err, ended.out[:100]), (0, b"", b"error 12 block too long\n"))

    def test_blocks_that_find_no_memory(self):
        """For the rows of a block, or for the block itself. The load is answered 90 behind it, or 13 where it is cut short."""
        for count in (200_000, 1_000_000):
            block = b"id,s\n" + b"".join(b"%d,%d\n" % (key, key) for key in range(count))
            load = b"load t %d\n" % len(block) + block
            refused = b"ok\nok\nerror 90 no memory\nok 1\nload t 8\nid,s\n1,\n"
            for stream, answers in (
                (load + b"insert t (1, '')\ndump t\n", refused),
                (load[:-1], b"ok\nok\nerror 13 block cut short\n"),
            ):
                with self.subTest(records=count, length=len(stream)):
                    ended = harness.run_whole(FRONT + stream, preexec_fn=have_little_memory)
                    self.assertEqual((ended.status, ended.err, ended.out[:100]), (0, b"", answers))
