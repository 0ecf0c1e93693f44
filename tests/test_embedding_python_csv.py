"""The binding for Python: quote marks of a CSV that are read otherwise than they were meant, and its first bytes."""

import random
import warnings

from support import binding, sizes
from support.binding import mmdb

SEED = 20261202
BLOCKS = sizes.size(20_000, 500_000)
OPEN = "a field whose quote mark is never closed, and which holds all that follows"
BEHIND = "a field with text behind its closing quote mark, which is read as a part of it"


def first_odd(content):
    """The record and the words of the first odd field, byte by byte as docs/language.md reads a block. None where there is none."""
    record, state = 0, "record"
    for mark in content:
        if state == "quoted":
            state = "behind" if mark == '"' else state
        elif state == "behind" and mark == '"':
            state = "quoted"
        elif mark in "\r\n":
            record += state != "record"
            state = "record"
        elif mark == ",":
            state = "field"
        elif state == "behind":
            return record, BEHIND
        else:
            state = "quoted" if mark == '"' and state in ("record", "field") else "bare"
    return (record, OPEN) if state == "quoted" else None


class Quotes(binding.WithDatabase):
    """What is warned of, and what is refused if it is asked for."""

    def setUp(self):
        super().setUp()
        self.db.execute("table t (id int, s text)")

    def warned(self, block, strict=False):
        """The warnings of a load, and how many rows it put in."""
        with warnings.catch_warnings(record=True) as caught:
            warnings.simplefilter("always")
            count = self.db.load_csv("t", block, strict=strict)
        self.assertEqual({warning.category for warning in caught}, {mmdb.CsvWarning} if caught else set())
        return [(warning.message.record, str(warning.message), warning.filename == __file__) for warning in caught], count

    def test_what_is_odd(self):
        for block, record, words, rows in (
            ('id,s\n1,"x"y\n2,z\n', 1, BEHIND, [(1, "xy"), (2, "z")]),
            ('id,s\n1,a\n\r\n2,"x\n3,y\n', 2, OPEN, [(1, "a"), (2, "x\n3,y\n")]),
            ('id,s\n1,a\n2,""z\n', 2, BEHIND, [(1, "a"), (2, "z")]),
            ('\ufeffid,s\n"1","x" \n', 1, BEHIND, [(1, "x ")]),
            ('id,"s"\n1,"a\nb"\n2,"""\n', 2, OPEN, [(1, "a\nb"), (2, '"\n')]),
        ):
            with self.subTest(block=block):
                told = f"mmdb: record {record} of the CSV has {words}"
                with self.assertRaisesRegex(mmdb.DataError, told) as raised:
                    self.db.load_csv("t", block, strict=True)
                self.assertIsInstance(raised.exception, ValueError)
                self.assertEqual(self.db.dump("t"), [])
                self.assertEqual(self.warned(block.encode()), ([(record, told, True)], len(rows)))
                self.assertEqual(self.db.dump("t"), rows)
                self.db.execute("delete t")

    def test_what_is_not(self):
        for block, rows in (
            ('id,s\n1,5"\n2,a"b"c\n', [(1, '5"'), (2, 'a"b"c')]),
            ('id,s\r\n"1","a ""b"", c"\r\n"2",""\r\n', [(1, 'a "b", c'), (2, "")]),
            ('\ufeff"id","s"\n1,\n', [(1, "")]),
            ("id,s\n1,a", [(1, "a")]),
        ):
            with self.subTest(block=block):
                self.assertEqual(self.warned(block, strict=True), ([], len(rows)))
                self.assertEqual(self.db.dump("t"), rows)
                self.db.execute("delete t")

    def test_a_warning_as_an_error(self):
        with warnings.catch_warnings():
            warnings.simplefilter("error", mmdb.CsvWarning)
            with self.assertRaises(mmdb.CsvWarning) as raised:
                self.db.load_csv("t", 'id,"s\n1,a\n')
        self.assertEqual((str(raised.exception), raised.exception.record), (f"mmdb: the record of names of the CSV has {OPEN}", 0))
        self.assertIsInstance(raised.exception, mmdb.Warning)
        self.assertEqual(self.db.dump("t"), [])

    def test_what_is_refused_is_warned_of_too(self):
        with warnings.catch_warnings(record=True) as caught:
            warnings.simplefilter("always")
            with self.assertRaisesRegex(mmdb.Refused, "^error 62 bad record 2: "):
                self.db.load_csv("t", 'id,s\n1,a\n"2,b\n3,c\n')
        self.assertEqual([str(warning.message) for warning in caught], [f"mmdb: record 2 of the CSV has {OPEN}"])

    def test_random_blocks(self):
        draw = random.Random(SEED)
        odd = 0
        for _ in range(BLOCKS):
            block = "".join(draw.choice('"",\n\rab') for _ in range(draw.randrange(20)))
            found = first_odd(block)
            odd += found is not None
            with self.subTest(block=block):
                for content in (block, "\ufeff" + block):
                    told = mmdb.quotes.first_odd(content.encode())
                    self.assertEqual(None if told is None else tuple(told), found)
                if mmdb.implementation == "extension":
                    self.assertEqual(mmdb.quotes._odd_field(block.encode()), mmdb.quotes.odd_field(block.encode()))
        self.assertGreater(odd, BLOCKS // 10)

    def test_a_mark_at_the_front_is_taken_off_once(self):
        self.assertEqual(self.db.load_csv("t", b"\xef\xbb\xbfid,s\n1,a\n"), 1)
        self.refused(61, self.db.load_csv, "t", b"\xef\xbb\xbf\xef\xbb\xbfid,s\n2,a\n")
