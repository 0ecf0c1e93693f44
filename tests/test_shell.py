"""The shell `mmdb-shell`: through a pipe, at a terminal, and its parts that split files."""

import codecs
import contextlib
import io
import os
import pathlib
import random
import re
import signal
import subprocess
import unittest
import unittest.mock
import warnings

from support import embedding, hand, harness, model, shells, sizes, tested
from support.binding import mmdb
from support.shells import COMPANY, RUN, Typed

SEED = 20261125
FILES = sizes.size(400, 20_000)

from mmdb_shell import commands, cutting, interrupts, moving, reading, schema, starting, words

PAGE = (harness.ROOT / "docs" / "shell.md").read_text()


# ---- through a pipe


class ThroughAPipe(shells.Piped):
    """Lines that nobody types."""

    def test_statements_and_what_is_refused(self):
        lines = [*COMPANY, "insert emp (1, 'Bo', 10)", "select name, dept from emp", "tables ?", "Tables", "select ?", "# a; comment"]
        refused = [
            "line 7: error 41 key exists: emp has a row with the key 1",
            "line 9: error 20 not a command: column 8: wanted the end of the line, found ?",
            "line 10: error 20 not a command: column 1: Tables is no command: tables is written in small letters",
            "line 11: error 20 not a command: column 8: wanted distinct, * or a column's name, found ?",
        ]
        self.check(lines, ["emp.name,emp.dept", "Ann,10", '"",'], refused)
        self.check(COMPANY, [])
        self.check([], [])

    def test_blocks(self):
        lines = ["table t (id int)", "load t 9", "id", "1", "2", "1", "load t 5", "id", "7", "load t 99", "tables"]
        refused = [
            "line 2: error 41 key exists (record 3): record 1 has the key 1 too",
            "line 10: error 13 block cut short: the line asks for 99 bytes, and 7 have come",
        ]
        self.check(lines, [], refused)
        self.check(["table t (id int)", "load t 5", "id", "7", "dump t"], ["load t 5", "id", "7"])
        refused = ["line 1: error 12 block too long: the line asks for 5 bytes, and a block has at most 4"]
        self.check(["load t 5", "id", "7", "tables"], [], refused, said=["--block", "4"])

    def test_bytes_that_are_no_line(self):
        refused = [
            "line 1: error 10 line too long: a line has at most 8192 bytes",
            "line 2: error 11 not UTF-8: at byte 1 no character begins",
            "line 4: error 20 not a command: column 1: wanted table, drop, index, insert, update, delete, select, load, dump "
            "or tables, found <U+0000>",
        ]
        self.check(b"# " + b"x" * 99_999 + b"\n\xff\ntables\r\n\0", [], refused)

    def test_lines_that_a_new_user_might_type(self):
        front = hand.FRONT.decode().splitlines()
        # (to the shell a semicolon is no mistake)
        shells_own = {"commit": "error 20 not a command: what is for the shell has a dot in front; .help lists it"}
        lines, reasons = zip(*[(line, shells_own.get(line, told)) for line, told in zip(hand.LINES, hand.TOLD) if ";" not in line])
        told = [f"line {number}: {line}" for number, line in enumerate(reasons, len(front) + 1)]
        self.check([*front, *lines], [], told)
        told = [f"line {number}: {line.split(':')[0]}" for number, line in enumerate(reasons, len(front) + 2)]
        self.check([*front, ".explain off", *lines], [], told)

    def test_each_command_of_the_shell(self):
        dump, csv, script = self.room / "all", self.room / "emp.csv", self.file("s", ".mode json\nselect id from dept\n.explain off\nnothing\n")
        (self.room / "more.csv").write_text("id,name,dept\n3,Cy,10\n")
        lines = [
            *COMPANY,
            ".help .timer",
            ".tables",
            ".schema emp",
            f".load emp '{self.room}/more.csv'",
            f".save emp {csv}",
            f".read {script}",
            f".dump {dump}",
            ".mode csv",
            ".indexes",
            ".policy tree",
            ".policy",
            "drop table emp",
            "drop table dept",
            f".restore {dump}",
            ".timer on",
            ".mode markdown",
            "select * from emp",
            ".quit",
            "nothing",
        ]
        ran = self.ran(lines)
        out = ran.stdout.decode()
        self.assertEqual(ran.stderr.decode(), f"mmdb-shell: {script}, line 4: error 20 not a command\n")
        expected = [".timer on|off", "  shows how long each line took", "dept", "emp", COMPANY[1], COMPANY[2]]
        expected += ['[{"dept.id": 10}]', "table,column,kind,declared,rows,height,nodes,fill,buckets,longest"]
        expected += ["dept,id,tree,with the table,1,1,1,1,,", "emp,id,tree,with the table,3,1,1,3,,", "emp,dept,tree,by index,3,1,1,3,,"]
        expected += ["tree", "| emp.id | emp.name | emp.dept |"]
        expected += ["|---:|---|---:|", "| 1 | Ann | 10 |", "| 2 | '' |  |", "| 3 | Cy | 10 |"]
        self.assertEqual(out.splitlines()[:-1], expected)
        self.assertRegex(out.splitlines()[-1], r"^time: \d+\.\d{6} s$")
        self.assertEqual(ran.returncode, 1)
        self.assertEqual(csv.read_text(), "id,name,dept\n1,Ann,10\n2,,\n3,Cy,10\n")
        read = harness.run_whole(dump.read_bytes() + b"select id from emp\n")
        self.assertEqual(read.out, b"ok\n" * 2 + b"ok 1\nok 3\nok\nrows 3\nemp.id\n1\n2\n3\n")

    def test_words_of_the_start(self):
        self.assertEqual(self.ran([], "--version").stdout.decode(), f"mmdb-shell {harness.VERSION}\n")
        self.assertIn("--policy", self.ran([], "--help").stdout.decode())
        self.check([".policy", ".mode"], ["merge", "json"], said=["--policy", "merge", "--mode", "json"])
        self.check(
            ["table t (id int)", "insert t (1)", "insert t (2)"],
            [],
            ["line 3: error 43 table full: t has 1 rows, and there can be no more"],
            said=["--rows", "1"],
        )
        for said in (["--policy", "fast"], ["--rows", "0"], ["--block", "x"], ["--file"]):
            with self.subTest(said), contextlib.redirect_stderr(io.StringIO()) as err, self.assertRaises(SystemExit) as ended:
                starting.main(said)
            self.assertEqual((ended.exception.code, "usage: mmdb-shell" in err.getvalue()), (2, True))

    def test_no_library(self):
        ran = self.ran([], env=self.environment(MMDB_LIBRARY=str(self.room)))
        self.assertEqual((ran.returncode, ran.stdout), (70, b""))
        self.assertRegex(ran.stderr.decode(), r"\Ammdb-shell: the library of mmdb can't be loaded: .*MMDB_LIBRARY.*\n\Z")
        self.file("libmmdb.so", (tested.library() / "libmmdb.so").read_bytes()[:200_000])
        ran = self.ran([], env=self.environment(MMDB_LIBRARY=str(self.room)))
        why = f"{self.room}/libmmdb.so is damaged: it is no library, or a part of one"
        self.assertEqual((ran.returncode, ran.stdout), (70, b""))
        self.assertEqual(ran.stderr.decode(), f"mmdb-shell: the library of mmdb can't be loaded: {why}\n")

    def test_streams_that_are_closed(self):
        for closed, status, err in (
            ("<&-", 1, b"mmdb-shell: standard input is closed\n"),
            (">&-", 3, b"mmdb-shell: standard output is closed\n"),
            ("2>&-", 1, b""),
        ):
            with self.subTest(closed):
                command = ["bash", "-c", f'"$@" {closed}', "bash", *RUN]
                ran = subprocess.run(command, input=b"a\n", capture_output=True, env=self.environment(), check=False)
                self.assertEqual((ran.returncode, ran.stdout, ran.stderr), (status, b"", err))

    def test_an_output_that_takes_nothing(self):
        with open("/dev/full", "wb") as full:
            ran = subprocess.run(RUN, input=b".help\n", stdout=full, stderr=subprocess.PIPE, env=self.environment(), check=False)
        self.assertEqual(ran.returncode, 3)
        self.assertEqual(ran.stderr, b"mmdb-shell: standard output can't be written to: No space left on device\n")

    def test_a_write_that_fails_leaves_what_stood_there(self):
        (self.room / "old").write_text("old")
        limited = ["bash", "-c", "trap '' XFSZ; ulimit -f 1; exec \"$@\"", "bash", *RUN]
        lines = ["table t (id int, s text)", *(f"insert t ({at}, '{'x' * 900}')" for at in range(4)), f".save t {self.room}/old", ".tables"]
        ran = subprocess.run(limited, input="\n".join(lines).encode(), capture_output=True, env=self.environment(), check=False)
        self.assertEqual((ran.returncode, ran.stdout), (1, b"t\n"))
        self.assertIn(b"File too large", ran.stderr)
        self.assertEqual([path.name for path in self.room.iterdir() if path.is_file()], ["old"])
        self.assertEqual((self.room / "old").read_text(), "old")


# ---- through a terminal


class AtATerminal(shells.AtATerminal):
    """What is seen and kept where somebody types."""

    def test_lines_and_their_answers(self):
        shell = self.typed()
        for line in COMPANY:
            self.assertIn(shell.ask(line), ("ok\n", "ok 1\n"))
        box = "┌────────┬──────────┬──────────┐\n│ emp.id │ emp.name │ emp.dept │\n├────────┼──────────┼──────────┤\n"
        box += "│      1 │ Ann      │       10 │\n│      2 │ ''       │          │\n└────────┴──────────┴──────────┘\n2 rows\n"
        self.assertEqual(shell.ask("select * from emp"), box)
        self.assertEqual(shell.ask("insert dept (10, '')"), "error 41 key exists: dept has a row with the key 10\n")
        shell.type("load dept 9\nid,n")
        shell.wait_for(" ...> id,n")
        shell.interrupt()
        self.assertEqual(shell.ask("select id from dept").count("\n"), 6)
        shell.type("\x04")
        self.assertEqual(shell.end(), 0)

    def test_the_session_of_the_page(self):
        shell = self.typed()
        for asked in re.search(r"^```\n(.*?)^```$", PAGE, re.MULTILINE | re.DOTALL)[1].split("mmdb> ")[1:]:
            line, answer = asked.split("\n", 1)
            self.assertEqual(shell.ask(line), answer)
        shell.type(".quit\n")
        self.assertEqual(shell.end(), 0)

    def test_a_caret_under_the_place(self):
        shell = self.typed()
        for line in COMPANY:
            shell.ask(line)
        wanted = "error 20 not a command: column 10: wanted from, found frm: is from meant?\n"
        self.assertEqual(shell.ask("select * frm emp"), f"  select * frm emp\n           ^\n{wanted}")
        wanted = "error 20 not a command: column 30: 12abc is no number, and a name begins with a letter\n"
        self.assertEqual(shell.ask("select * from emp where id = 12abc"), f"  select * from emp where id = 12abc\n{' ' * 31}^\n{wanted}")
        self.assertEqual(shell.ask("drop table staff"), "error 30 no such table: staff is no table\n")
        path = self.file("script", "# a script\n insert emp (3 'Cy', 10)\n")
        told = f"   insert emp (3 'Cy', 10)\n                 ^\n{path}, line 2: error 20 not a command: column 16: wanted a comma or ), found 'Cy'\n"
        self.assertEqual(shell.ask(f".read {path}"), f"{told}{path} is read: 1 lines done, 1 refused\n")
        self.assertEqual(shell.ask(".explain off"), "")
        self.assertEqual(shell.ask("select * frm emp"), "error 20 not a command\n")
        shell.type(".quit\n")
        self.assertEqual(shell.end(), 0)

    def test_completion(self):
        shell = self.typed()
        for line in COMPANY:
            shell.ask(line)
        for keys, line in (
            ("sel\t* f\tem\t", "select * from emp"),
            ("select emp.n\t from emp", "select emp.name from emp"),
            (".sch\tde\t", ".schema dept"),
            (".mo\tma\t", ".mode markdown"),
            (".pol\tme\t", ".policy merge"),
            (f".read {self.room}/fi\t", f".read {self.room}/file"),
        ):
            (self.room / "file").touch()
            shell.type(keys)
            shell.wait_for(line)
            shell.type("\x15")
        shell.type("\x04")
        self.assertEqual(shell.end(), 0)

    def test_ctrl_c_ends_the_typing_and_nothing_else(self):
        shell = self.typed()
        shell.ask("table t (id int)")
        shell.type("insert t (1)")
        shell.wait_for("insert t (1)")
        shell.interrupt()
        self.assertEqual(shell.ask("insert t (2)"), "ok 1\n")
        self.assertIn("│    2 │\n└──────┘\n1 row\n", shell.ask("select * from t"))
        os.mkfifo(self.room / "pipe")
        shell.interrupt_line(f".read {self.room}/pipe")
        self.assertEqual(shell.ask(".tables"), "t\n")
        shell.type(".quit\n")
        self.assertEqual(shell.end(), 0)

    def test_history_is_kept(self):
        shells = [self.typed(), self.typed()]
        for shell, line in zip(shells, ("tables", ".tables")):
            shell.ask(line)
            shell.type("\x04")
            self.assertEqual(shell.end(), 0)
        kept = self.room / "state" / "mmdb" / "history"
        self.assertEqual(kept.read_text(), "tables\n.tables\n")
        self.assertEqual(kept.stat().st_mode & 0o777, 0o600)
        shell = self.typed()
        shell.type("\x1b[A\x1b[A\n")
        shell.wait_for("ok 0\nmmdb> ")
        shell.type("\x04")
        self.assertEqual(shell.end(), 0)

    def test_a_history_that_cannot_be_kept(self):
        (self.room / "state").write_text("a file, and no folder")
        shell = self.typed()
        shell.ask("tables")
        shell.type("\x04")
        shell.wait_for("the history isn't kept: ")
        self.assertEqual(shell.end(), 0)

    def test_a_history_that_is_a_folder(self):
        folder = self.room / "state" / "mmdb" / "history"
        folder.mkdir(parents=True)
        shell = Typed(self.environment())
        shell.wait_for(f"the history of earlier runs isn't there: {folder} is a folder\n")
        shell.wait_for("mmdb> ")
        self.assertEqual(shell.ask("tables"), "ok 0\n")
        shell.type("\x04")
        shell.wait_for(f"the history isn't kept: {folder} is a folder\n")
        self.assertEqual(shell.end(), 0)

    def test_a_terminal_that_goes_away(self):
        shell = self.typed()
        shell.ask("tables")
        os.close(shell.terminal)
        self.assertEqual(shell.end(), 128 + signal.SIGHUP)
        self.assertEqual((self.room / "state" / "mmdb" / "history").read_text(), "tables\n")

    def test_what_is_pasted(self):
        shell = self.typed()
        shell.type("\x1b[200~table t (id int)\ninsert t (7)\nload t 5\nid\n8\nselect * from t\x1b[201~\n")
        shell.wait_for("│    7 │\n│    8 │\n└──────┘\n2 rows\nmmdb> ")
        shell.type("\x04")
        self.assertEqual(shell.end(), 0)


# ---- in this process


class Refusals(shells.InThisProcess):
    """A command of the shell that can't be done is told in a sentence, and changes nothing."""

    def test_what_is_refused(self):
        self.file("self", f".read {self.room}/self\n")
        self.file("f16", "")
        for line, why in (
            (".nothing", "there is no .nothing; .help lists what there is"),
            (".load t", "it is written .load TABLE FILE"),
            (".quit now", "it is written .quit"),
            (".read 'a", "a quote mark is left open, or a backslash ends the line"),
            (".schema u", "error 30 no such table: u is no table"),
            (".load u x", "error 30 no such table: u is no table"),
            (f".load t {self.room}/no", f"there is no {self.room}/no"),
            (f".load t {self.room}", f"{self.room} is a folder"),
            (f".save t {self.room}", f"{self.room} is a folder"),
            (f".save t {self.room}/no/x", f"there is no {self.room}/no"),
            (f".read {self.room}/no", f"there is no {self.room}/no"),
            (f".read {self.room}", f"{self.room} is a folder"),
            (f".restore {self.room}/no", "the database has tables, and only an empty one is restored into"),
            (".policy fast", "a policy is one of auto, scan, hash, tree, merge"),
            (".mode fast", "a mode is one of box, column, csv, html, insert, json, line, markdown, tabs"),
            (".timer fast", "it is on or off, not fast"),
            (".explain why", "it is on or off, not why"),
            (".help fast", "there is no help for fast; .help lists what there is"),
            (".read ''", "'' is no name of a file"),
            ("help", "error 20 not a command: what is for the shell has a dot in front; .help lists it"),
        ):
            with self.subTest(line=line):
                shell = self.shell()
                self.do(shell, "table t (id int)", line, refused=why)
                self.do(shell, ".tables", said="t\n")
        shell = self.shell()
        shell.run(reading.Stream(io.BytesIO(b".read /proc/self/mem\n.mode\n"), ""))
        self.assertEqual((shell._err.getvalue(), shell._out.getvalue()), ("mmdb-shell: /proc/self/mem: Input/output error\n", "csv\n"))
        for at in range(16):
            self.file(f"f{at}", f".read {self.room}/f{at + 1}\n")
        for name, last, why in (("self", "self", "is being read already"), ("f0", "f15", "is one more")):
            shell = self.shell()
            shell.run(reading.Stream(io.BytesIO(f".read {self.room}/{name}\n".encode()), ""))
            self.assertRegex(shell._err.getvalue(), rf"^mmdb-shell: {self.room}/{last}, line 1: .* {why}\n$")


class Marks(shells.InThisProcess):
    """One byte order mark at the front of a file of lines is skipped, and is no part of its first line."""

    def check(self, content, told, tables="t\n"):
        path, shell = self.room / "script", self.shell()
        path.write_bytes(content)
        shell.run(reading.Stream(io.BytesIO(f".read {path}\n.tables\n".encode()), ""))
        told = f"mmdb-shell: {path}, line 1: {told}\n" if told else ""
        self.assertEqual((shell._err.getvalue(), shell._out.getvalue()), (told, tables))

    def test_the_front_of_a_file(self):
        line, mark = b"table t (id int)", codecs.BOM_UTF8
        longest = line.ljust(reading.LONGEST_LINE)
        for content in (mark + line, mark + line + b"\r\n", mark + b"\n" + line, mark + longest + b"\n", longest + b"\r\n"):
            with self.subTest(front=content[:20], length=len(content)):
                self.check(content, "")
        for front in (mark + longest + b" ", longest + b" ", longest + mark, mark + longest + b" " + mark):
            content = front + b"\n" + line
            with self.subTest(front=content[:20], length=len(content)):
                self.check(content, f"error 10 line too long: a line has at most {reading.LONGEST_LINE} bytes")
        other = "error 20 not a command: column 1: <U+FEFF> is no command: a byte order mark is allowed at the front of a block only"
        self.check(mark + mark + line, other, "")
        self.check(b"", "", "")


class Loads(shells.InThisProcess):
    """A file goes in whole or not at all, however many blocks it has."""

    def test_a_file_of_many_blocks(self):
        shell = self.shell()
        path = self.file("t.csv", "\ufeffid,s\r\n" + "".join(f'{at},"a ""text"",\r\n{at}"\r\n' for at in range(50)))
        self.do(shell, "table t (id int, s text)", "insert t (99, 'old')", f".load t {path}")
        texts = [[at, f'a "text",\r\n{at}'] for at in range(50)]
        self.assertEqual(shell.db.execute("select * from t where id < 99"), texts)

    def test_odd_quotes_are_warned_of(self):
        shell = self.shell()
        content = "id,s\n" + "".join(f"{at},abcdefgh\n" for at in range(40))
        behind, held = "text behind its closing quote mark, which is read as a part of it", "whose quote mark is never closed, and which holds all that follows"
        for last, told, text in (('40,"x"y\n', f"a field with {behind}", "xy"), ('40,"x,\n41,y\n', f"a field {held}", "x,\n41,y\n")):
            with self.subTest(last=last):
                self.do(shell, "table t (id int, s text)")
                shell._err.seek(0)
                shell.run(reading.Stream(io.BytesIO(f".load t {self.file('t.csv', content + last)}\n".encode()), ""))
                self.assertEqual(shell._err.getvalue(), f"mmdb-shell: warning: record 41 of the CSV has {told}\n")
                self.assertEqual(shell.db.select("select s from t where id = 40"), [(text,)])
                self.do(shell, "drop table t", "table t (id int, s text)", ".bail on")
                refused = f"record 41 of the CSV has {told} (no row of the file went in)"
                self.do(shell, f".load t {self.file('t.csv', content + last)}", refused=refused)
                self.assertEqual(shell.db.dump("t"), [])
                self.do(shell, ".bail off", "drop table t")

    def test_what_is_refused_later_is_taken_back(self):
        for kind, keys, old in (
            ("int", [f"{at}" for at in range(0, 200, 2)], ["-7", "13", "99", "151"]),
            ("int", [f"{at}" for at in range(100)], []),
            ("text", [f"k{at:03}" for at in range(0, 200, 2)], ["''", "'k013'", "'k0990'", "'z'"]),
        ):
            key = keys[3] if kind == "int" else f"'{keys[3]}'"
            for last, why, reason in (
                (keys[3], "error 41 key exists (record 101)", f"t or an earlier record has the key {key}"),
                (f"{keys[-1]}z\n{keys[-1]}z", "error 41 key exists (record 102)", f"record 101 has the key '{keys[-1]}z' too"),
                ("x,7", "error 62 bad record 101", "a row of t has a field for each column: 1, not 2"),
            ):
                if kind == "int" and "z" in last:
                    continue
                with self.subTest(kind=kind, last=last):
                    shell = self.shell()
                    self.do(shell, f"table t (id {kind})", *(f"insert t ({key})" for key in old))
                    before = shell.db.execute("select * from t")
                    path = self.file("t.csv", "\n".join(["id", *keys, last]) + "\n")
                    self.do(shell, f".load t {path}", refused=f"{why}; no row of {path} went in: {reason}")
                    self.assertEqual(shell.db.execute("select * from t"), before)

    def test_other_refusals(self):
        shell = self.shell()
        self.do(shell, "table t (id int, s text)")
        path = self.file("t.csv", "id,t\n1,a\n")
        self.do(
            shell,
            f".load t {path}",
            refused=f"error 61 bad header; its first record has to be id,s; no row of {path} went in: field 2 of the header is t, and column 2 is s",
        )
        path = self.file("t.csv", "id,s\n" + "1,a\n" * 1 + '2,"' + "x" * 70 + "\n")
        why = "behind record 1 no record ends within a block of 64 bytes; is a quote mark left open? (no row of the file went in)"
        self.do(shell, f".load t {path}", refused=why)
        self.assertEqual(shell.db.execute("select * from t"), [])

    def test_keys_with_line_feeds(self):
        shell = self.shell()
        self.do(shell, "table t (k text)")
        shell.db.load("t", [("a\nb",)])
        keys = [f"k{at}" for at in range(50)]
        path = self.file("t.csv", "\n".join(["k", *keys, '"a\nb"']) + "\n")
        why = "error 41 key exists (record 51)"
        self.do(shell, f".load t {path}", refused=f"{why}; no row of {path} went in: t or an earlier record has the key 'a<U+000A>b'")
        self.assertEqual(shell.db.execute("select * from t"), [["a\nb"]])
        self.do(shell, f".load t {self.file('t.csv', chr(10).join(['k', *keys]))}", ".count t", said="51\n")

    def test_a_full_table(self):
        whole = "t has 1 rows, 20 records come before this one, and a table has at most 21 rows"
        path = self.file("t.csv", "\n".join(["id", *map(str, range(100, 130))]) + "\n")
        for block in (7, 9, 40, 1_000):
            with self.subTest(block=block):
                shell = self.shell(block, 21)
                refused = f"error 43 table full (record 21); no row of {path} went in: {whole}"
                self.do(shell, "table t (id int)", "insert t (7)", f".load t {path}", refused=refused)
                self.assertEqual(shell.db.dump("t"), [(7,)])

    def test_ctrl_c_takes_back(self):
        shell = self.shell()
        self.do(shell, "table t (id int)", "insert t (7)")
        table, held = schema.table_of(shell.db, "t"), shell.interrupts

        class File(io.BytesIO):
            """A file in whose midst Ctrl-C comes."""

            def read(self, count=-1):
                if self.tell() > 1_000:
                    held.on_interrupt(signal.SIGINT, None)
                return super().read(count)

        load = moving.Load(shell.db, table, held, is_strict=False)
        file = File(("id\n" + "".join(f"{at}\n" for at in range(100, 999))).encode())
        with self.assertRaises(KeyboardInterrupt):
            shell.transactions.whole("", lambda: load.run(file, 64))
        self.assertGreater(load.count, 100)
        self.assertEqual(shell.db.execute("select * from t"), [[7]])

    def test_no_memory_for_a_later_block_takes_back(self):
        shell = self.shell()
        self.do(shell, "table t (id int)", "insert t (7)")
        loaded, blocks = shell.db.load_csv, []

        def load_csv(name, block):
            blocks.append(block)
            if len(blocks) == 3:
                raise mmdb.NoMemory(90, "no memory")
            return loaded(name, block)

        path = self.file("t.csv", "id\n" + "".join(f"{at}\n" for at in range(8, 99)))
        with unittest.mock.patch.object(shell.db, "load_csv", load_csv):
            self.do(shell, f".load t {path}", refused=f"error 90 no memory; no row of {path} went in")
        self.assertEqual(shell.db.execute("select * from t"), [[7]])


class Cuts(unittest.TestCase):
    """Where a file is cut, a load of the parts is a load of the whole."""

    def test_random_files(self):
        draw = random.Random(SEED)
        several = 0
        for number in range(FILES):
            content = self.drawn(draw)
            with self.subTest(number=number, content=content):
                several += self.check(content, draw.randrange(40, 150), draw.randrange(1, 60))
        self.assertGreater(several, FILES // 2)

    def drawn(self, draw):
        """A file of rows whose fields and ends are spelled in each way that there is."""
        text = draw.choice(["id,s", "\ufeffid,s", '"id",s', "\n\r\nid,\"s\""]) + draw.choice(["\n", "\r", "\r\n"])
        for at in range(draw.randrange(30)):
            said = "".join(draw.choice(['"', '""', ",", "\n", "\r", "a", "é", " ", "x,y"]) for _ in range(draw.randrange(6)))
            quoted = '"' + said.replace('"', '""') + '"' + draw.choice(["", "", 'a"', " "])
            bare = "b" + said.replace(",", "").replace("\n", "").replace("\r", "")
            text += draw.choice([f"{at}", f'"{at}"']) + "," + draw.choice([quoted, bare, ""])
            text += draw.choice(["\n", "\r", "\r\n", "\n\n", "\n\r"])
        return text.encode()

    def check(self, content, limit, size):
        """Checks one file, and tells whether its parts are several."""
        pieces = cutting.without_mark(content[at : at + size] for at in range(0, len(content), size))
        parts = [*cutting.blocks(pieces, limit, b"", b"id,s\n")]
        self.assertTrue(all(len(part) <= limit for part in parts))
        self.assertEqual(self.loaded(parts), self.loaded([content]))
        return len(parts) > 1

    def loaded(self, blocks):
        with mmdb.Database() as db, warnings.catch_warnings():
            warnings.simplefilter("ignore", mmdb.CsvWarning)
            db.execute("table t (id int, s text)")
            return sum(db.load_csv("t", block) for block in blocks), db.execute("select * from t")


class Dumps(shells.InThisProcess):
    """A database goes into a file and comes back."""

    LINES = [
        "table u (k text)",
        "table v (k int)",
        "table e (id int, s text, u ref u null, v ref v null)",
        "index e u hash",
        "index e id hash",
        "index u k hash",
        "table none (id int)",
    ]

    def held_by(self, db):
        """All that a database has."""
        tables = schema.tables_of(db).values()
        columns = [(table, column.name) for table in tables for column in table.columns if column.takes_null]
        nulls = [db.answer(f"{moving.all_keys(table)} where {column} = null") for table, column in columns]
        return db.answer("tables"), [b"".join(moving.records(db, table)) for table in tables], nulls

    def filled(self):
        draw = random.Random(SEED)
        shell = self.shell(block=1 << 15)
        self.do(shell, *self.LINES)
        keys = list({embedding.text(draw) for _ in range(60)} | {""})
        shell.db.load("u", [(key,) for key in keys])
        shell.db.load("v", [(key,) for key in range(30)])
        for at in range(1_000):
            text = embedding.text(draw) + "x" * draw.randrange(300)
            shell.db.execute("insert e (?, ?, ?, ?)", at, text, draw.choice([None, *keys]), draw.choice([None, 3, 17]))
        return shell

    def test_a_dump_of_many_blocks_is_restored(self):
        shell = self.filled()
        path = str(self.room / "dump")
        self.do(shell, f".dump {path}")
        self.assertGreater(pathlib.Path(path).read_bytes().count(b"\nload e "), 3)
        shell.db.save(self.room / "saved")
        self.assertEqual((self.room / "saved").read_bytes(), pathlib.Path(path).read_bytes())
        with mmdb.Database.restore(path) as restored:
            self.assertEqual(self.held_by(restored), self.held_by(shell.db))
        again = self.shell(block=1 << 15)
        self.do(again, f".restore {path}")
        self.assertEqual(self.held_by(again.db), self.held_by(shell.db))
        self.do(again, f".restore {path}", refused="the database has tables, and only an empty one is restored into")
        self.do(again, ".policy merge", ".policy", said="merge\n")
        self.assertEqual(self.held_by(again.db), self.held_by(shell.db))

    def test_a_damaged_dump_changes_nothing(self):
        shell = self.filled()
        path = str(self.room / "dump")
        self.do(shell, f".dump {path}")
        whole = pathlib.Path(path).read_bytes()
        for content, why in (
            (b"", "is no dump"),
            (whole[20:], "is no dump"),
            (whole[:9000], "the file is cut short, "),
            (whole[: whole.index(b"load e")], "is a part of a dump"),
            (whole + b"tables\n", "goes on after the end of the dump"),
            (whole.replace(b"table v (k int)", b"drop table u ", 1), "line 3: this is no line of a dump"),
            (whole.replace(b"load e ", b"load f ", 1), "error 30 no such table: f is no table"),
        ):
            with self.subTest(why=why):
                again = self.shell(block=1 << 15)
                again.run(reading.Stream(io.BytesIO(f".restore {self.file('bad', content)}\n".encode()), ""))
                self.assertIn(why, again._err.getvalue())
                self.assertEqual(again.db.execute("tables"), "")

    def test_what_no_dump_can_hold(self):
        shell = self.shell()
        self.do(shell, "table u (k text)", "table e (k text, u ref u null)", "insert u ('')")
        shell.db.load("e", [("a\nb", None)])
        self.do(shell, "update e set u = ''")
        path = self.room / "dump"
        why = "no dump can hold a row of e whose key has a line feed and whose u is the empty text: set it to null first"
        self.do(shell, f".dump {path}", refused=why)
        self.assertFalse(path.exists())

    def test_a_table_beyond_a_block_is_saved(self):
        shell = self.shell(block=1 << 10)
        self.do(shell, "table t (k text, n int)", "table s (id int)", "insert s (1)")
        rows = [[f"{at:05}" + ("\n" if at % 3 == 1 else ""), at] for at in range(10_000)]
        for at in range(0, len(rows), 50):
            shell.db.load("t", rows[at : at + 50])
        path = self.room / "t.csv"
        path.touch(0o600)
        self.do(shell, f".save t {path}", f".save s {self.room}/s.csv")
        (self.room / "new").touch()
        modes = [(self.room / name).stat().st_mode & 0o777 for name in ("t.csv", "s.csv", "new")]
        self.assertEqual((modes[0], modes[1]), (0o600, modes[2]))
        self.assertEqual((self.room / "s.csv").read_text(), "id\n1\n")
        again = self.shell(block=1 << 20)
        self.do(again, "table t (k text, n int)", f".load t {path}")
        self.assertEqual(again.db.dump("t"), rows)


class Streams(shells.InThisProcess):
    """Lines and blocks are told apart as the language says."""

    def test_the_rows(self):
        for name, stream, answers in harness.rows():
            if name == "misspellings":
                # (some texts that are open at the end of their line end in a later one, to the shell)
                continue
            with self.subTest(name):
                shell = self.shell(block=mmdb.MOST)
                shell.run(reading.Stream(io.BytesIO(stream), ""))
                refused = re.findall(r"^mmdb-shell: line \d+: (?:error (\d\d)|there is no)", shell._err.getvalue(), re.MULTILINE)
                expected = re.findall(r"^error (\d\d) ", answers.decode(), re.MULTILINE)
                self.assertEqual([number or "20" for number in refused], expected)


class CtrlC(unittest.TestCase):
    """Where Ctrl-C comes at once, and where it waits."""

    def test_it_waits_until_it_is_allowed(self):
        held = interrupts.Interrupts()
        held.on_interrupt(signal.SIGINT, None)
        with self.assertRaises(KeyboardInterrupt), held.allowed():
            self.fail("it came too late")
        held.on_interrupt(signal.SIGINT, None)
        held.forget()
        with held.allowed():
            with self.assertRaises(KeyboardInterrupt):
                held.on_interrupt(signal.SIGINT, None)
            held.on_interrupt(signal.SIGINT, None)


# ---- pages


class Pages(unittest.TestCase):
    """The pages and the help tell of all that there is."""

    def test_each_command_is_told(self):
        manual = (harness.ROOT / "docs" / "man" / "mmdb-shell.1").read_text()
        for name, command in commands.DOTTED.items():
            with self.subTest(name):
                spelled = " ".join([name, *command.usage]).replace("|", "\\|")
                self.assertIn(f"\n| `{spelled}` | ", PAGE)
                self.assertRegex(manual, rf"(?m)^\.TP\n\.BI? \\&{re.escape(name)}( |$)")

    def test_each_refusal_has_words(self):
        self.assertEqual(set(words.REFUSALS), set(model.TEXTS))

    def test_the_words_are_those_of_the_language(self):
        self.assertEqual(words.RESERVED, model.RESERVED)
