"""The binding for Python: loads of any size, which are whole or not at all, and columns that are named."""

import decimal
import io
import itertools
import random
import threading
import tracemalloc
import unittest
import unittest.mock
import warnings

from support import binding, embedding, model, sizes
from support.binding import mmdb

SEED = 20261205
TABLES = sizes.size(60, 2_000, 15)
BLOCKS = sizes.size(3_000, 100_000, 800)
ROWS_DRAWN = sizes.size(5_000, 200_000, 2_000)
# Rows that need several blocks of the most bytes.
MANY, LONG = 18_000, "x" * 1_000
# A row of each kind of column that the extension writes.
PLAIN_ROWS = {b"i": (0,), b"t": ("a",), b"I": (None,), b"T": (None,)}
# A block into which few rows go, and how many of a chunk's rows and more there are.
LITTLE, ROWS = 1_000, 1_300


class Stop(Exception):
    """What an iterator raises."""


def stopping(rows):
    yield from rows
    raise Stop


class Loads(binding.WithDatabase):
    """A table, in a database with little blocks."""

    def setUp(self):
        self.db = mmdb.Database(block=LITTLE)
        self.addCleanup(self.db.close)
        self.db.execute("table t (id int, s text)")
        self.db.execute("insert t (-1, 'old')")

    def check_unchanged(self):
        self.assertEqual((self.db.dump("t"), self.db.in_transaction), ([(-1, "old")], False))


class Records(binding.WithDatabase):
    """What the extension writes of rows at once is what is written of them by Python, or it writes nothing."""

    # What columns may take, and of each some values, among which others are drawn now and then.
    VALUES = {
        "int": [0, -1, 7, 10, 1986, 2**63 - 1, -(2**63)],
        "text": ["", "a", "O'Hara", "1,2", 'a "b"', "\r", "\n", "two words", "Straße", "😀", "\0", "null"],
    }
    ODD = [None, True, 2**63, -(2**63) - 1, 1.5, "\ud800", b"a", "", 1, "1", decimal.Decimal("1.5"), type("Text", (str,), {})("a")]

    def setUp(self):
        super().setUp()
        if mmdb.implementation != "extension":
            self.skipTest("only the extension writes rows at once")

    def test_what_is_left_to_python(self):
        for letters, row in (
            *((b"i", row) for row in ((True,), ("1",), (1.0,), (None,), (2**63,), (1, 2), (), [1])),
            *((b"t", row) for row in ((1,), (b"a",), (None,), ("\ud800",), (self.ODD[-1],), "a")),
            *((b"I", row) for row in ((False,), ("",))),
            *((b"T", row) for row in (("",), (0,))),
        ):
            with self.subTest(letters=letters, row=row):
                self.assertIsNotNone(mmdb.values.plain_records(letters, [PLAIN_ROWS[letters]]))
                self.assertIsNone(mmdb.values.plain_records(letters, [row]))
                self.assertIsNone(mmdb.values.plain_records(letters, [PLAIN_ROWS[letters], row]))

    def test_random_rows(self):
        draw, plain = random.Random(SEED), 0
        for _ in range(ROWS_DRAWN):
            kinds = [(draw.choice(["int", "text"]), draw.random() < 0.3) for _ in range(draw.randrange(1, 4))]
            columns = [mmdb.values.Column("c", {"int": int, "text": str}[kind], takes_null, None) for kind, takes_null in kinds]
            values = [[*self.VALUES[kind], *([None] if takes_null else [])] for kind, takes_null in kinds]
            rows = [tuple(map(draw.choice, values)) for _ in range(draw.randrange(4))]
            if draw.random() < 0.2:
                rows.append(draw.choice([tuple(draw.choices(self.ODD, k=len(kinds))), (), [1], "a", rows]))
            with self.subTest(kinds=kinds, rows=rows):
                written = mmdb.values.plain_records(mmdb.values.letters_of(columns), rows)
                if written is not None:
                    plain += 1
                    self.assertEqual(written.decode(), "\n".join(mmdb.values.records_of(columns, rows, 0)))
        self.assertGreater(plain, ROWS_DRAWN // 2)


class Whole(Loads):
    """All rows go in, or none."""

    def test_more_than_the_longest_block(self):
        with mmdb.Database() as db:
            db.execute("table t (id int, s text)")
            self.assertEqual(db.load("t", ((number, LONG) for number in range(MANY))), MANY)
            self.assertEqual([row.id for row in db.select("select id from t")], [*range(MANY)])
            block = "id,s\n" + "".join(f"{number},{LONG}\n" for number in range(MANY, 2 * MANY))
            self.assertGreater(len(block), mmdb.MOST)
            why = self.refused(41, db.load_csv, "t", io.StringIO(f"{block}7,y\n"))
            self.assertEqual((why.text, why.reason), (f"key exists (record {MANY + 1})", "t or an earlier record has the key 7"))
            self.assertEqual(len(db.select("select id from t")), MANY)

    def test_a_full_table(self):
        """The rows and the records before are those of the whole, wherever a block ends."""
        lines = "".join(f"{number},text\n" for number in range(20))
        whole = "t has 1 rows, 6 records come before this one, and a table has at most 7 rows"
        for block in (20, 28, 40, 60, 1_000):
            with self.subTest(block=block), mmdb.Database(rows=7, block=block) as db:
                db.execute("table t (id int, s text)")
                db.load("t", [(100, "a")])
                for call, given in (
                    (db.load, ((number, "text") for number in range(20))),
                    (db.load_csv, f"id,s\n{lines}"),
                    (lambda *given: db.load_csv(*given, columns=("id", "s")), f"id,s\n{lines}"),
                ):
                    why = self.refused(43, call, "t", given)
                    self.assertEqual((why.text, why.reason, db.dump("t")), ("table full (record 7)", whole, [(100, "a")]))

    def test_random_tables(self):
        draw = random.Random(SEED)
        for _ in range(TABLES):
            rows = [(number, embedding.text(draw), draw.choice([None, *range(3)])) for number in range(draw.randrange(1, 1_500))]
            with mmdb.Database(block=draw.randrange(5_000, 20_000)) as db:
                for line in ("table u (id int)", "table t (id int, s text, u ref u null)"):
                    db.execute(line)
                db.load("u", [(id,) for id in range(3)])
                draw.shuffle(rows)
                self.assertEqual(db.load("t", iter(rows)), len(rows))
                self.assertEqual(db.dump("t"), sorted(rows))
                names = ["id", "s", "u"]
                self.assertEqual(db.load_dicts("t", ({"id": -1 - id, "u": u, "s": s} for id, s, u in rows)), len(rows))
                block = b"id,s,u\n" + b"".join(model.record([-5_000 - id, s.encode(), u]) for id, s, u in rows)
                self.assertEqual(db.load_csv("t", io.BytesIO(block)), len(rows))
                for shift in (-1, -5_000):
                    found = db.select("select * from t where id <= ? and id > ?", shift, shift - 1_500)
                    self.assertEqual(found, sorted((shift - id, s, u) for id, s, u in rows))
                self.assertEqual(found.names, tuple(f"t.{name}" for name in names))

    def test_no_rows(self):
        for call, given in ((self.db.load, []), (self.db.load, iter(())), (self.db.load_dicts, []), (self.db.load_csv, "id,s\n"), (self.db.load_csv, ["id,s"])):
            self.assertEqual(call("t", given), 0)
        self.refused(61, self.db.load_csv, "t", [])
        self.check_unchanged()

    def test_a_refusal_tells_the_record_of_the_whole(self):
        rows = [(number, "x") for number in range(ROWS)]
        for number, text, reason, wrong in (
            (41, "key exists (record {})", "t or an earlier record has the key 7", (7, "y")),
            (41, "key exists (record {})", "t or an earlier record has the key -1", (-1, "y")),
            (62, "bad record {}", None, (ROWS, "y" * 1_025)),
        ):
            for at in (ROWS, ROWS - 3):
                given = [*rows[:at], wrong, *rows[at:]]
                block = "id,s\n" + "".join(f"{id},{s}\n" for id, s in given)
                for call, load in (
                    (self.db.load, iter(given)),
                    (self.db.load_dicts, ({"s": s, "id": id} for id, s in given)),
                    (self.db.load_csv, block),
                    (lambda *given: self.db.load_csv(*given, columns=("id", "s")), io.StringIO(block)),
                ):
                    if number == 62:
                        # (it has no room in a block)
                        self.refused(12, call, "t", load)
                    else:
                        why = self.refused(number, call, "t", load)
                        self.assertEqual((why.text, why.reason), (text.format(at + 1), reason))
                    self.check_unchanged()

    def test_a_refusal_of_two_records_of_a_block(self):
        rows = [*((number, "x") for number in range(ROWS)), (9_999, "x"), (9_999, "y")]
        why = self.refused(41, self.db.load, "t", rows)
        self.assertEqual((why.text, why.reason), (f"key exists (record {ROWS + 2})", f"record {ROWS + 1} has the key 9999 too"))
        with self.assertRaisesRegex(mmdb.Refused, f"^error 62 bad record {ROWS + 1}: the field of id is a, "):
            self.db.load_csv("t", "id,s\n" + "".join(f"{number},x\n" for number in range(ROWS)) + "a,x\n")
        self.check_unchanged()

    def test_rows_that_are_wrong(self):
        rows = [(number, "x") for number in range(ROWS)]
        for wrong, row, why in (
            (ValueError, (2,), f"row {ROWS + 1} has 1 values for 2 columns"),
            (ValueError, (2**63, "b"), f"64 bits .row {ROWS + 1}."),
            (ValueError, (-2, "\ud800"), "surrogate"),
            (TypeError, (-2, 2.5), f"not float .row {ROWS + 1}."),
            (TypeError, "ab", f"not str .row {ROWS + 1}."),
        ):
            with self.subTest(row=row), self.assertRaisesRegex(wrong, why):
                self.db.load("t", itertools.chain(rows, [row]))
            self.check_unchanged()
        for wrong, given, why in (
            (ValueError, {"id": -2}, f"lacks the column s of t .row {ROWS + 1}."),
            (ValueError, {"id": -2, "s": "", "x": 1}, f"has x, which is no column of t .row {ROWS + 1}."),
            (TypeError, (-2, ""), f"not tuple .row {ROWS + 1}."),
        ):
            with self.subTest(given=given), self.assertRaisesRegex(wrong, why):
                self.db.load_dicts("t", itertools.chain(({"id": id, "s": s} for id, s in rows), [given]))
            self.check_unchanged()

    def test_an_exception_of_the_iterator(self):
        for count in (0, 10, 1_000, ROWS):
            rows = [(number, "x") for number in range(count)]
            lines = ["id,s\n", *(f"{id},{s}\n" for id, s in rows)]
            for call, given in (
                (self.db.load, stopping(rows)),
                (self.db.load_dicts, stopping({"id": id, "s": s} for id, s in rows)),
                (self.db.load_csv, stopping(lines)),
                (lambda *given: self.db.load_csv(*given, columns=("s", "id")), stopping(lines)),
            ):
                self.assertRaises(Stop, call, "t", given)
                self.check_unchanged()

    def test_in_an_open_transaction_it_is_a_savepoint(self):
        with self.db.transaction():
            self.db.execute("insert t (-2, 'new')")
            self.assertRaises(Stop, self.db.load, "t", stopping((number, "x") for number in range(ROWS)))
            self.assertEqual(self.db.dump("t"), [(-2, "new"), (-1, "old")])
            self.assertEqual(self.db.load("t", ((number, "x") for number in range(ROWS))), ROWS)
            self.assertTrue(self.db.in_transaction)
            self.assertEqual(len(self.db.dump("t")), ROWS + 2)
        self.assertEqual((len(self.db.dump("t")), self.db.in_transaction), (ROWS + 2, False))

    def test_a_record_longer_than_a_block(self):
        for given in ([(1, LONG)], [(1, ""), (2, LONG), (3, "")]):
            self.refused(12, self.db.load, "t", given)
            for end in ("\n", ""):
                self.refused(12, self.db.load_csv, "t", "id,s\n" + "\n".join(f"{id},{s}" for id, s in given) + end)
        self.check_unchanged()

    def test_no_such_table(self):
        rows = [(number, "x") for number in range(ROWS)]
        for call in (
            lambda: self.db.load("u", rows),
            lambda: self.db.load("u", rows, columns=("id", "s")),
            lambda: self.db.load_dicts("u", [{"id": 1}], columns=("id",)),
            lambda: self.db.load_csv("u", "id,s\n" + "1,x\n" * ROWS),
            lambda: self.db.load_csv("u", "id,s\n1,x\n", columns=("id",)),
        ):
            self.refused(30, call)

    def test_memory_does_not_grow_with_the_rows(self):
        def lines(first, rows, form):
            return itertools.chain([first], (form.format(*row) for row in rows))

        for load in (
            lambda db, rows: db.load("t", rows),
            lambda db, rows: db.load_csv("t", lines("id,s\n", rows, "{},{}\n")),
            lambda db, rows: db.load_csv("t", lines("s,id\n", rows, "{1},{0}\n"), columns=("id", "s")),
        ):
            few, many = (self.peak_of(load, count) for count in (2_500, 6_000))
            self.assertLess(many, few * 1.3)

    def peak_of(self, load, count):
        """The most bytes of Python that are held while so many rows are loaded."""
        with mmdb.Database(block=1 << 16) as db:
            db.execute("table t (id int, s text)")
            tracemalloc.start()
            self.assertEqual(load(db, ((number, LONG) for number in range(count))), count)
            peak = tracemalloc.get_traced_memory()[1]
            tracemalloc.stop()
        return peak


class Threads(Loads):
    """What is done while a load of several blocks is under way."""

    def test_others_wait_and_are_not_undone(self):
        done = []

        def insert():
            begun.set()
            done.append(self.db.execute("insert t (-2, 'other')"))

        def rows():
            yield from ((number, "x") for number in range(ROWS))
            other.start()
            begun.wait()
            yield from ((number, "x") for number in range(ROWS, 2 * ROWS))
            self.assertEqual(done, [])
            raise Stop

        begun, other = threading.Event(), threading.Thread(target=insert)
        self.assertRaises(Stop, self.db.load, "t", rows())
        other.join()
        self.assertEqual((done, self.db.dump("t")), ([1], [(-2, "other"), (-1, "old")]))

    def test_an_iterator_that_calls_the_database(self):
        self.db.execute("table u (id int, s text)")

        def rows():
            for number in range(ROWS):
                if number % 100 == 0:
                    self.assertEqual(self.db.load("u", ((number + at, "y") for at in range(100))), 100)
                yield (number, self.db.select("select s from u where id = ?", number)[0].s)

        self.assertEqual(self.db.load("t", rows()), ROWS)
        self.assertEqual(self.db.select("select id from t where s = 'y'").column("id"), [*range(ROWS)])
        self.assertEqual(len(self.db.dump("u")), ROWS)
        for count in (1, ROWS):
            with self.assertRaises((ValueError, mmdb.Error)):
                self.db.load("t", ((-5 - number, str(self.db.close())) for number in range(count)))


class Named(binding.WithDatabase):
    """Columns that the caller names, and how a CSV is written."""

    def setUp(self):
        super().setUp()
        for line in ("table u (id int)", "table t (id int, s text, u ref u null)"):
            self.db.execute(line)
        self.db.load("u", [(7,)])

    def check_loaded(self, rows):
        self.assertEqual(self.db.dump("t"), rows)
        self.db.execute("delete t")

    def test_rows(self):
        for columns, rows, found in (
            (("s", "id", "u"), [("a", 1, 7), ["b", 2, None]], [(1, "a", 7), (2, "b", None)]),
            (["id", "s"], [(1, "a")], [(1, "a", None)]),
            (iter(("u", None, "s", None, "id")), [(7, 2.5, "a", None, 1), (None, b"", "b", (), 2)], [(1, "a", 7), (2, "b", None)]),
        ):
            self.assertEqual(self.db.load("t", iter(rows), columns), len(rows))
            self.check_loaded(found)
        self.assertEqual(self.db.load("t", ((str(id), id) for id in range(3_000)), columns=iter(("s", "id"))), 3_000)
        self.check_loaded([(id, str(id), None) for id in range(3_000)])
        with self.assertRaisesRegex(ValueError, "row 2 has 2 values for 3 columns"):
            self.db.load("t", [("a", 1, 7), ("b", 2)], ("s", "id", "u"))
        self.check_loaded([])

    def test_dicts(self):
        given = [{"id": 1, "s": "a", "u": 7, "x": 2.5}, {"x": None, "s": "b", "id": 2, "u": None}]
        for columns, found in ((("s", "u", "id"), [(1, "a", 7), (2, "b", None)]), (["id", "s"], [(1, "a", None), (2, "b", None)])):
            self.assertEqual(self.db.load_dicts("t", iter(given), columns=columns), 2)
            self.check_loaded(found)
        with self.assertRaisesRegex(ValueError, "a row lacks the column u of t .row 2."):
            self.db.load_dicts("t", [given[0], {"id": 3, "s": ""}], ("id", "s", "u"))
        self.check_loaded([])

    def test_files(self):
        for columns, block, found in (
            (("id", "s", "u"), "u,x,id,s\n7,,1,a\n,\"\n\",2,\"it's, \"\"b\"\"\"\n", [(1, "a", 7), (2, "it's, \"b\"", None)]),
            (("s", "id"), "s,u,id\na,8,1\r\nb,,2", [(1, "a", None), (2, "b", None)]),
            (("s", "id"), "\ufeffid,s\r1,a\r\r2,\r", [(1, "a", None), (2, "", None)]),
        ):
            for given in (block, block.encode(), io.StringIO(block), io.BytesIO(block.encode()), iter(block), block.splitlines(True)):
                self.assertEqual(self.db.load_csv("t", given, columns=columns), 2)
                self.check_loaded(found)

    def test_separators_and_quotes(self):
        for how, block, found in (
            ({"separator": ";"}, "id;s;u\n1;a,b;7\n2;\"c;\"\"\";\n", [(1, "a,b", 7), (2, 'c;"', None)]),
            ({"separator": "\t", "quote": None}, "id\ts\tu\n1\t\"a\t7\n2\tb\"\"\t\n", [(1, '"a', 7), (2, 'b""', None)]),
            ({"quote": "'"}, "id,s,u\n1,'it''s, \"a\"\n',7\n2,b,\n", [(1, "it's, \"a\"\n", 7), (2, "b", None)]),
            ({"separator": "|", "columns": ("s", "id")}, "s|id\n\"a|b\"|1\n|2\n", [(1, "a|b", None), (2, "", None)]),
        ):
            self.assertEqual(self.db.load_csv("t", block, **how), 2)
            self.check_loaded(found)
        self.refused(61, self.db.load_csv, "t", "id;u;s\n1;7;a\n", separator=";")
        with self.assertRaisesRegex(mmdb.Refused, "^error 62 bad record 1: the field of id is x, "):
            self.db.load_csv("t", "id;s;u\nx;a;7\n", separator=";")
        for wrong, how in (
            (ValueError, {"separator": ";;"}),
            (ValueError, {"separator": "\n"}),
            (ValueError, {"separator": "§"}),
            (ValueError, {"quote": ""}),
            (ValueError, {"separator": "'", "quote": "'"}),
            (TypeError, {"separator": b","}),
            (TypeError, {"separator": None}),
        ):
            with self.subTest(how=how), self.assertRaises(wrong):
                self.db.load_csv("t", "id,s,u\n", **how)

    def test_names_that_do_not_fit(self):
        for wrong, columns, why in (
            (ValueError, ("id", "s", "x"), "x is no column of t"),
            (ValueError, ("id", "s", "id"), "the column id is named twice"),
            (ValueError, ("s", "u"), "t has no row without a value for id"),
            (TypeError, "id", "by a list or tuple of names, not by str"),
            (TypeError, 5, "by a list or tuple of names, not by int"),
            (TypeError, ("id", "s", 5), "the name of a column is a str, not int"),
        ):
            for call, given in ((self.db.load, [(1, "a", 7)]), (self.db.load_dicts, [{}]), (self.db.load_csv, "id,s,u\n")):
                with self.subTest(columns=columns), self.assertRaisesRegex(wrong, f"^mmdb: .*{why}"):
                    call("t", given, columns=columns)
        for call in (self.db.load_dicts, self.db.load_csv):
            with self.assertRaisesRegex(TypeError, "not NoneType"):
                call("t", "", columns=("id", "s", None))

    def test_what_a_file_does_not_have(self):
        for wrong, block, why in (
            (mmdb.DataError, "id,u\n1,\n", "the CSV has no column s: its first record is the names of its columns"),
            (mmdb.DataError, "id,s,s\n1,a,b\n", "the CSV has several columns s"),
            (mmdb.DataError, "", "the CSV has no record of names"),
            (mmdb.DataError, "id,s\n1,a\n2\n", "record 2 of the CSV has 1 fields, and its names are 2"),
            (mmdb.DataError, "id,s\n1,a\n2,b,c\n", "record 2 of the CSV has 3 fields"),
            (TypeError, 5, "a CSV is a str, bytes, a file or an iterable of these, not int"),
            (TypeError, [5], "bytes or a str are wanted, not int"),
            (ValueError, ["id,s\n", "1,\ud800"], "surrogate"),
        ):
            with self.subTest(block=block), self.assertRaisesRegex(wrong, f"^mmdb: .*{why}"):
                self.db.load_csv("t", block, columns=("id", "s"))
        with self.assertRaisesRegex(mmdb.Refused, "^error 62 bad record 2: "):
            self.db.load_csv("t", b"s,id\na,1\n\xff,2\n", columns=("id", "s"))
        self.check_loaded([])

    def test_lines_without_quote_marks(self):
        """Fields are taken from many pieces of a file, line by line."""
        rows = [(number, ("", "a", "it's, 5\"", "é")[number % 4], 7 if number % 3 else None) for number in range(60)]
        for separator, ends in ((";", ("\n",)), ("\t", ("\r\n", "\r", "\n\n")), ("|", ("\n\r", "\r\r"))):
            lines = ["u,more,s,id,".replace(",", separator)]
            lines += [separator.join(("" if u is None else str(u), ",", s, str(id), "")) for id, s, u in rows]
            block = "".join(line + ends[at % len(ends)] for at, line in enumerate(lines))
            how = {"separator": separator, "quote": None}
            for piece in (1, 30, 1 << 20):
                with self.subTest(separator=separator, piece=piece), unittest.mock.patch.object(mmdb.csvs, "PIECE", piece):
                    self.assertEqual(self.db.load_csv("t", block, columns=("s", "id", "u"), **how), len(rows))
                    self.check_loaded(rows)
                    self.assertEqual(self.db.load_csv("t", io.StringIO(block), columns=("id", "s"), **how), len(rows))
                    self.check_loaded([(id, s, None) for id, s, _ in rows])
                    for wrong, count in (("7;,;a;60", 4), ("7;,;a;60;;", 6)):
                        with self.assertRaisesRegex(mmdb.DataError, f"^mmdb: record 61 of the CSV has {count} fields, and its names are 5"):
                            self.db.load_csv("t", block + wrong.replace(";", separator), columns=("id", "s"), **how)
        self.check_loaded([])

    def test_one_column_of_lines(self):
        """A record whose only field is empty is no empty line."""
        self.db.execute("table w (a text)")
        block = "b,a\n\n" + "".join(f"{text},{text}\n" for text in ("x", "", "y"))
        for piece in (1, 1 << 20):
            with unittest.mock.patch.object(mmdb.csvs, "PIECE", piece):
                self.assertEqual(self.db.load_csv("w", block, columns=["a"]), 3)
                self.assertEqual(self.db.dump("w"), [("",), ("x",), ("y",)])
                self.db.execute("delete w")

    def test_quoted_fields_in_small_blocks(self):
        """No record is cut, though it has line feeds."""
        texts = ('"two\nlines, ""quoted"""', '5", not quoted', '""', '"\n\n"')
        rows = [(id, ('two\nlines, "quoted"', '5", not quoted', "", "\n\n")[id % 4]) for id in range(60)]
        block = "s;more;id\n" + "".join(f'{texts[id % 4]};"a;b";{id}\n' for id, _ in rows)
        for limit in (40, 64, 1_000):
            with self.subTest(limit=limit), mmdb.Database(block=limit) as db:
                db.execute("table v (id int, s text)")
                self.assertEqual(db.load_csv("v", block, columns=("id", "s"), separator=";"), len(rows))
                self.assertEqual(db.select("select * from v"), rows)

    def test_random_files_are_read_as_a_load_reads_them(self):
        draw = random.Random(SEED)
        self.db.execute("table w (a text, b text)")
        loaded = 0
        for _ in range(BLOCKS):
            block = "a,b\n" + "".join(draw.choice('"",,\n\rab') for _ in range(draw.randrange(20)))
            expected = self.outcome(block)
            loaded += expected is not None
            other = block.translate(str.maketrans(',"', ";'"))
            lines = [block[at : at + 3] for at in range(0, len(block), 3)]
            piece = draw.choice((1, 5, 1 << 20))
            with self.subTest(block=block, piece=piece), unittest.mock.patch.object(mmdb.csvs, "PIECE", piece):
                self.assertEqual(self.outcome(lines), expected)
                self.assertEqual(self.outcome(lines, columns=("b", "a")), expected)
                found = self.outcome(other, separator=";", quote="'")
                self.assertEqual(found and [[text.translate(str.maketrans(";'", ',"')) for text in row] for row in found[0]], expected and expected[0])
                self.assertEqual(found and found[1], expected and expected[1])
        self.assertGreater(loaded, BLOCKS // 20)

    def outcome(self, block, **how):
        """The rows of a file and the warnings of it, or None if it isn't loaded."""
        with warnings.catch_warnings(record=True) as caught:
            warnings.simplefilter("always")
            try:
                self.db.load_csv("w", block, **how)
            except mmdb.DatabaseError:
                return None
        rows = self.db.dump("w")
        self.db.execute("delete w")
        return [list(row) for row in rows], [str(warning.message) for warning in caught]


def last_end(text, most):
    """Where the last record ends within the first bytes, byte by byte as docs/language.md reads a block; 0 where none does."""
    state, end = "front", 0
    for at, mark in enumerate(text[:most], 1):
        if state == "quoted":
            state = "behind" if mark == '"' else state
        elif mark == '"' and state in ("front", "behind"):
            state = "quoted"
        elif mark in "\r\n":
            state, end = "front", at
        else:
            state = "front" if mark == "," else "bare"
    return end


class Ends(unittest.TestCase):
    """The last end of a record in the front of a CSV, by which it is cut."""

    def check(self, text, most):
        expected = last_end(text, most)
        self.assertEqual(mmdb.csvs.records_end(text.encode(), most), expected)
        other = text.translate(str.maketrans(',"', ";'")).encode()
        self.assertEqual(mmdb.csvs.records_end(other, most, mmdb.quotes.form_of(";", "'")), expected)
        self.assertEqual(mmdb.csvs.records_end(other, most, mmdb.quotes.form_of(";", None)), last_end(text.replace('"', "b"), most))

    def test_random_texts(self):
        draw = random.Random(SEED)
        for _ in range(BLOCKS):
            text = "".join(draw.choice('"",,\n\rab') for _ in range(draw.randrange(30)))
            with self.subTest(text=text):
                self.check(text, draw.randrange(len(text) + 1))

    def test_many_quoted_fields(self):
        for front in ("", 'a5",x\n', '"x"y,\n'):
            for field in ('"a"', '"a\n"', '"a""\n"'):
                text = front + f"{field},b\n{field},{field}," * 700
                for most in (*range(len(text) - 20, len(text) + 1), 100, len(text) // 2):
                    with self.subTest(front=front, field=field, most=most):
                        self.check(text, most)
                        self.check(text + '"', most)


class Odd(Loads):
    """Quote marks of a file of several blocks."""

    def test_the_first_odd_field_is_warned_of_once(self):
        lines = [f"{number},x\n" for number in range(ROWS)]
        for at in (1, ROWS - 2):
            block = ["id,s\n", *lines[:at], f'{9_000 + at},"x"y\n', *lines[at:], '9999,"x"z']
            for how in ({}, {"columns": ("s", "id")}):
                with self.subTest(at=at, how=how):
                    with self.assertRaisesRegex(mmdb.DataError, f"^mmdb: record {at + 1} of the CSV has a field with text behind"):
                        self.db.load_csv("t", iter(block), strict=True, **how)
                    self.check_unchanged()
                    with warnings.catch_warnings(record=True) as caught:
                        warnings.simplefilter("always")
                        self.db.begin()
                        self.assertEqual(self.db.load_csv("t", io.StringIO("".join(block)), **how), ROWS + 2)
                        self.assertEqual({row.s for row in self.db.select("select s from t where id >= 9000")}, {"xy", "xz"})
                        self.db.rollback()
                    self.assertEqual([(each.message.record, each.filename == __file__) for each in caught], [(at + 1, True)])

    def test_a_field_that_is_never_closed(self):
        block = "id,s\n" + "".join(f"{number},x\n" for number in range(ROWS)) + '9999,"x\n' + "7,y\n" * ROWS
        with warnings.catch_warnings(record=True) as caught:
            warnings.simplefilter("always")
            self.refused(12, self.db.load_csv, "t", block)
        self.assertEqual([each.message.record for each in caught], [ROWS + 1])
        with self.assertRaisesRegex(mmdb.DataError, f"record {ROWS + 1} of the CSV has a field whose quote mark is never closed"):
            self.db.load_csv("t", block, strict=True)
        self.check_unchanged()

    def test_a_warning_as_an_error(self):
        block = "id,s\n" + "".join(f"{number},x\n" for number in range(ROWS)) + '9999,"x"y\n'
        with warnings.catch_warnings():
            warnings.simplefilter("error", mmdb.CsvWarning)
            for how in ({}, {"columns": ("s", "id")}):
                self.assertRaises(mmdb.CsvWarning, self.db.load_csv, "t", block, **how)
        self.check_unchanged()
