"""The shell's `.import`: CSV files by the names of their columns, into tables that are there or made; `.count` and `.head`."""

import contextlib
import csv
import io
import os
import random
import threading
import unittest.mock

from support import shells, sizes
from support.binding import mmdb
from support.shells import COMPANY

from mmdb_shell import importing

SEED = 20261127
FILES = sizes.size(60, 2_000)
TEXTS = sizes.size(2_000, 100_000)


class Imports(shells.InThisProcess):
    """What an import makes and puts in."""

    def shell(self, block=1 << 16):
        return super().shell(block)

    def imported(self, content, *options, lines=(), table="t"):
        """A shell that has imported a file into a table."""
        shell = self.shell()
        self.do(shell, *lines, f".import {self.file('f.csv', content)} {table} {' '.join(options)}")
        return shell

    def test_types_that_it_finds(self):
        shell = self.imported("id,n,zip,mixed,big,empty,neg\n1,5,007,1,9223372036854775807,,-3\n2,6,123,x,9223372036854775808,,-0\n")
        self.do(
            shell,
            ".schema",
            "select * from t where id = 2",
            said="table t (id int, n int, zip text, mixed text, big text, empty text, neg text)\nt.id,t.n,t.zip,t.mixed,t.big,t.empty,t.neg\n2,6,123,x,9223372036854775808,\"\",-0\n",
        )
        shell = self.imported("a,b\n")
        self.do(shell, ".schema", said="table t (a text, b text)\n")

    def test_names_that_it_makes(self):
        shell = self.imported("\ufeffFull Name,select,2nd,Straße,full name,Full Name,,x\n" + "1,2,3,4,5,6,7,8\n")
        self.do(
            shell,
            ".schema",
            said="table t (Full_Name int, _select int, _2nd int, Stra_e int, full_name int, Full_Name_2 int, column int, x int)\n",
        )
        long = "a" * 40
        shell = self.imported(f"{long},{long}b\n1,2\n")
        self.do(shell, ".schema", said=f"table t ({long[:32]} int, {long[:30]}_2 int)\n")

    def test_separators(self):
        for separator, content in (("';'", "id;s\n1;a,b\n"), ("tab", "id\ts\n1\ta,b\n"), ("|", "id|s\n1|a,b\n")):
            shell = self.imported(content, "--separator", separator)
            self.do(shell, "select * from t", said='t.id,t.s\n1,"a,b"\n')

    def test_columns_skip_and_key(self):
        shell = self.imported("title\n\n1,a,x\n2,b,y\n", "--columns id,-,name --skip 1 --key name")
        self.do(shell, ".schema", "select * from t", said="table t (name text, id int)\nt.name,t.id\nx,1\ny,2\n")

    def test_columns_by_name(self):
        lines = COMPANY[:4]
        shell = self.imported("NAME,more,dept,id\nAnn,x,10,1\nBo,y,,2\n", lines=lines, table="emp")
        self.do(shell, "select * from emp", said="emp.id,emp.name,emp.dept\n1,Ann,10\n2,Bo,\n")
        shell = self.imported("name,id\nAnn,1\n", lines=lines, table="emp")
        self.do(shell, "select * from emp", said="emp.id,emp.name,emp.dept\n1,Ann,\n")

    def test_what_is_refused(self):
        for content, options, lines, why in (
            ("", "", (), "the file is empty: its first record has the names of its columns"),
            ("id\n1\n", "", ["table t (id int, s text)"], "PATH has no column for s of t; it has id"),
            ("id\n1\n1\n", "", (), "error 41 key exists (record 2); no row of PATH went in: record 1 has the key 1 too"),
            ("id,s\n1,a\n2\n", "", (), "error 62 bad record 2; no row of PATH went in: a row of t has a field for each column: 2, not 1"),
            ("s,id\na,1\nb\n", "--key id", (), "record 2 has 1 field, and the file 2 fields"),
            ("id,more,s\n1,a\n", "", ["table t (id int, s text)"], "record 1 has 2 fields, and the file 3 fields"),
            (
                "id\nx\n",
                "",
                ["table t (id int)"],
                "error 62 bad record 1; no row of PATH went in: the field of id is x, and that is no integer of 64 bits",
            ),
            ("id\n1\n", "--key no", (), "the file has no column no; it has id"),
            ("id\n1\n", "--separator ab", (), "a separator is one character, but no quote mark and no end of a line; tab is spelled tab"),
            ("id\n1\n", "--separator", (), "a value is missing behind --separator"),
            ("id\n1\n", "--skip x", (), "there is no option --skip x; .help import lists them"),
            ("s\n\udcff\n".encode("utf-8", "surrogateescape"), "", (), "error 62 bad record 1; no row of PATH went in: the field of s is not UTF-8"),
        ):
            with self.subTest(content=content, options=options):
                shell = self.shell()
                path = self.file("f.csv", content)
                self.do(shell, *lines)
                shell.run(shells.reading.Stream(io.BytesIO(f".import {path} t {options}\n".encode()), ""))
                told = shell._err.getvalue().replace(path, "PATH")
                self.assertTrue(told.startswith(f"mmdb-shell: line 1: {why}"), told)
                self.assertEqual(shell.db.execute("tables"), "".join(f"{line}\n" for line in lines))
                if lines:
                    self.assertEqual(shell.db.execute("select * from t"), [])

    def test_odd_quotes_are_warned_of(self):
        behind = "a field with text behind its closing quote mark, which is read as a part of it"
        held = "a field whose quote mark is never closed, and which holds all that follows"
        for lines, content, options, record, odd, rows in (
            ((), 'id,s\n1,"x"y\n2,"a""b"\n', "", 1, behind, [(1, "xy"), (2, 'a"b')]),
            (["table t (id int, s text)"], 'id,s\n1,a\n2,"x"y\n', "", 2, behind, [(1, "a"), (2, "xy")]),
            (["table t (id int, s text)"], 's,id\n"x"y,1\n\n"x"y,2\n', "", 1, behind, [(1, "xy"), (2, "xy")]),
            (["table t (id int, s text)"], 'id;s\n1;"a;b"\n2;"x"y;\n', "--separator ';' --columns id,s,-", None, "", None),
            (["table t (id int, s text)"], '"odd"\n1;"a;b"\n2;"x"y\n', "--separator ';' --columns id,s --skip 1", 2, behind, [(1, "a;b"), (2, "xy")]),
            (["table t (id int, s text)"], '"o"dd\ns,id\n,1\n', "--skip 1", None, "", [(1, "")]),
            (["table t (id int, s text)"], 's,id,"n"o\na,1,\n', "", 0, behind, [(1, "a")]),
            (["table t (s text)"], 'S,more\na\n"b\nc,d\n', "--columns -,s --skip 2", None, "", None),
            (["table t (s text)"], 'S\na\n"b\nc,d\n', "", 2, held, [("a",), ("b\nc,d\n",)]),
            (["table t (s text)"], 'S\na\n"b\nc', "", 2, held, [("a",), ("b\nc",)]),
        ):
            with self.subTest(content=content, options=options):
                shell = self.shell()
                self.do(shell, *lines)
                shell.run(shells.reading.Stream(io.BytesIO(f".import {self.file('f.csv', content)} t {options}\n".encode()), ""))
                warning = f"mmdb-shell: warning: {f'record {record}' if record else 'the record of names'} of the CSV has {odd}\n"
                if rows is None:
                    self.assertRegex(shell._err.getvalue(), r"record \d has \d fields?, and the file \d fields?")
                else:
                    self.assertEqual(shell._err.getvalue(), "" if record is None else warning)
                    self.assertEqual(shell.db.execute("select * from t"), rows)

    def test_odd_quotes_are_refused_by_bail(self):
        refused = "record 2 of the CSV has a field with text behind its closing quote mark, which is read as a part of it (no row of the file went in)"
        for lines, content, options in (
            (["table t (id int, s text)", "insert t (7, 'a')"], 'id,s\n1,a\n2,"x"y\n', ""),
            (["table t (id int, s text)", "insert t (7, 'a')"], 's,more,id\na,,1\n"x"y,,2\n', ""),
            (["table t (id int, s text)"], '1;a\n2;"x"y\n', "--separator ';' --columns id,s"),
            ([], 'id,s\n1,a\n2,"x"y\n', ""),
        ):
            with self.subTest(content=content, options=options):
                shell = self.shell()
                self.do(shell, *lines, ".bail on")
                before = shell.db.answer("tables"), lines and shell.db.dump("t")
                self.do(shell, f".import {self.file('f.csv', content)} t {options}", refused=refused)
                self.assertEqual((shell.db.answer("tables"), lines and shell.db.dump("t")), before)
                self.do(shell, f".import {self.file('f.csv', content.replace('y', ''))} t {options}")

    def test_odd_quotes_are_those_of_a_load(self):
        draw = random.Random(SEED)
        odd = 0
        for _ in range(TEXTS):
            text = "".join(draw.choice(['"', '"', ",", "a", "x", "\n", "\r\n"]) for _ in range(draw.randrange(14)))
            with self.subTest(text), unittest.mock.patch.object(importing, "_PIECE", draw.choice([1, 3, 1 << 16])):
                parsed = importing._Parsed(io.StringIO(text, newline=""), ",", True)
                self.assertEqual(list(parsed.records), list(filter(None, csv.reader(io.StringIO(text, newline="")))))
                expected = mmdb.quotes.first_odd(text.encode())
                self.assertEqual(parsed.odd[:1], [expected] if expected else [])
                odd += expected is not None
        self.assertGreater(odd, TEXTS // 4)

    def test_a_pipe(self):
        os.mkfifo(self.room / "pipe")
        for lines, refused in (((), "t is no table, and to make it the file is read twice, which a pipe can't be"), (["table t (id int)"], "")):
            writer = threading.Thread(target=self.write, args=[self.room / "pipe"], daemon=True)
            writer.start()
            self.do(self.shell(), *lines, f".import {self.room}/pipe t", refused=refused)
            writer.join()

    def write(self, pipe):
        with contextlib.suppress(BrokenPipeError):
            pipe.write_text("id\n7\n")

    def test_random_files(self):
        draw = random.Random(SEED)
        for number in range(FILES):
            rows = [[at, *(self.drawn(draw) for _ in range(3))] for at in range(draw.randrange(1, 40))]
            separator = draw.choice([",", ";", "\t", "|"])
            text = io.StringIO()
            csv.writer(text, delimiter=separator, lineterminator=draw.choice(["\n", "\r\n"])).writerows([["id", "a", "b", "c"], *rows])
            order = draw.sample(["id int", "a text", "b text", "c text"][1:], 3)
            with self.subTest(number=number, text=text.getvalue()):
                shell = self.shell(block=draw.choice([600, 1 << 16]))
                self.do(
                    shell,
                    f"table t (id int, {', '.join(order)})",
                    f".import {self.file('f.csv', text.getvalue())} t --separator {'tab' if separator == chr(9) else repr(separator)}",
                )
                self.assertEqual(shell.db.execute("select id, a, b, c from t"), rows)

    def drawn(self, draw):
        return "".join(draw.choice(["a", "é", '"', ",", ";", "|", "\t", "\n", " ", "7", "''"]) for _ in range(draw.randrange(6)))


class FirstRows(shells.Piped):
    """`.count` and `.head`."""

    def test_count(self):
        lines = [
            *COMPANY,
            ".count",
            ".count emp",
            ".count select * from emp where dept = 10",
            ".parameter set 1 10",
            ".count select * from emp where dept = ?",
            ".count staff",
        ]
        self.check(lines, ["table,rows", "dept,1", "emp,2", "2", "1", "1"], ["line 12: error 30 no such table: staff is no table"])

    def test_head(self):
        rows = [f"insert t ('k{at:02}')" for at in range(20)]
        lines = [
            "table t (k text)",
            *rows,
            ".head 2 t",
            ".head 1 select * from t where k > 'k05'",
            ".head 0 t",
            ".count select * from t",
            ".head t",
            ".head 99 t",
        ]
        first = [f"k{at:02}" for at in range(20)]
        self.check(lines, ["t.k", "k00", "k01", "t.k", "k06", "t.k", "20", "t.k", *first[:10], "t.k", *first])
        refused = [
            "line 1: error 30 no such table: t is no table",
            "line 2: it is written .head [N] TABLE|SELECT",
            "line 3: it is written .head [N] TABLE|SELECT",
        ]
        self.check([".head t", ".head 7", ".head"], [], refused)

    def test_a_key_with_a_line_feed(self):
        self.check(
            ["table t (k text)", "insert t ('a\n')", "insert t ('b')", "insert t ('c')", ".head 1 t", ".head 2 t"],
            ["t.k", '"a', '"', "t.k", '"a', '"', "b"],
        )
