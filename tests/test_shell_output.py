"""Where the answers of the shell go: files, commands and pages, and the bar of what takes long."""

import contextlib
import io
import os
import random
import signal
import subprocess
import time
import unittest
import unittest.mock

from support import harness, shells
from support.binding import mmdb
from support.shells import COMPANY

from mmdb import ranges as key_ranges
from mmdb_shell import bars, boxes, modes, moving, reading, selecting

SEED = 20261128
CSV = "emp.id,emp.name,emp.dept\n1,Ann,10\n2,\"\",\n"


class Elsewhere(shells.Piped):
    """Answers go to files and commands."""

    def read(self, name):
        return (self.room / name).read_text()

    def test_output(self):
        out = f"'{self.room}/an output'"
        lines = [*COMPANY, f".output {out}", "select * from emp", ".print more", "tables ?", ".output", ".print shown"]
        self.check(lines, ["shown"], ["line 10: error 20 not a command: column 8: wanted the end of the line, found ?"])
        self.assertEqual(self.read("an output"), CSV + "more\n")
        self.check([f".output {self.room}/left", "table t (id int)", ".tables"], [])
        self.assertEqual(self.read("left"), "t\n")

    def test_once(self):
        (self.room / "one").write_text("old")
        lines = [*COMPANY, f".once {self.room}/one", "", "# a comment", "select * from emp", ".print shown"]
        self.check(lines, ["shown"])
        self.assertEqual(self.read("one"), CSV)
        self.check(
            [f".once {self.room}/one", "selct", ".print shown"],
            ["shown"],
            ["line 2: error 20 not a command: column 1: selct is no command: is select meant?"],
        )
        self.assertEqual(self.read("one"), CSV)

    def test_a_command(self):
        lines = [
            *COMPANY,
            f".once |sort -r > '{self.room}/sorted'",
            "select * from emp",
            ".output | tr a-z A-Z",
            ".print 'in capitals'",
            ".output",
            ".print shown",
        ]
        self.check(lines, ["IN CAPITALS", "shown"])
        self.assertEqual(self.read("sorted"), "".join(sorted(CSV.splitlines(True), reverse=True)))

    def test_a_command_that_wants_no_more(self):
        rows = [f"insert t ({at})" for at in range(200)]
        lines = ["table t (id int)", *rows, ".output |head -n 1", *["select * from t"] * 200, ".output", ".print shown"]
        self.check(lines, ["t.id", "shown"])

    def test_what_is_refused(self):
        lines = [
            ".output",
            f".output {self.room}/no/x",
            f".once {self.room}",
            ".once |",
            ".once",
            ".output 'x",
            ".once |exit 3",
            ".print x",
            ".once |kill -9 $$",
            ".print x",
        ]
        refused = [
            f"line 2: there is no {self.room}/no/x",
            f"line 3: {self.room} is a folder",
            "line 4: behind | a command is missing",
            "line 5: it is written .once FILE",
            "line 6: a quote mark is left open",
            "line 8: exit 3 ended with status 3",
            "line 10: kill -9 $$ was ended by the signal 9",
        ]
        self.check(lines, [], refused)

    def test_a_place_that_is_full(self):
        lines = [
            "table t (id int, s text)",
            f"insert t (1, '{'x' * 1000}')",
            ".output /dev/full",
            *["select * from t"] * 20,
            ".output",
            ".print shown",
        ]
        ran = self.ran(lines)
        self.assertEqual(ran.returncode, 1)
        self.assertEqual(ran.stdout.decode().splitlines()[-1], "shown")
        self.assertRegex(ran.stderr.decode(), r"\Ammdb-shell: line \d+: /dev/full: No space left on device\n\Z")


class Shown(shells.AtATerminal):
    """Modes, pages and the width of a terminal."""

    def test_pages(self):
        pager = self.file("pager", "#!/bin/sh\nwc -l\necho paged\n")
        os.chmod(pager, 0o755)
        shell = self.typed(PAGER=pager, COLUMNS="40", LINES="12")
        shell.ask("table t (id int)")
        for at in range(20):
            shell.ask(f"insert t ({at})")
        self.assertEqual(shell.ask("select * from t"), "24\npaged\n20 rows\n")
        self.assertIn("│    1 │\n", shell.ask("select * from t where id < 3"))
        shell.ask(".pager off")
        self.assertIn("│   19 │\n", shell.ask("select * from t"))
        shell.ask(".pager on")
        shell.ask(f".once {self.room}/rows")
        self.assertEqual(shell.ask("select * from t"), "")
        self.assertEqual((self.room / "rows").read_text().count("\n"), 24)
        shell.type(".quit\n")
        self.assertEqual(shell.end(), 0)

    def test_a_pager_that_is_left(self):
        shell = self.typed(PAGER="head -n 1", LINES="12")
        shell.ask("table t (id int)")
        for at in range(20):
            shell.ask(f"insert t ({at})")
        self.assertTrue(shell.ask("select * from t").startswith("┌──────┐\n"))
        self.assertEqual(shell.ask(".print shown"), "shown\n")
        shell.type(".quit\n")
        self.assertEqual(shell.end(), 0)

    def test_a_narrow_terminal(self):
        shell = self.typed(COLUMNS="24", LINES="24")
        shell.ask("table t (id int, s text)")
        shell.ask("insert t (1, 'one two three four')")
        box = "┌──────┬───────────────┐\n│ t.id │ t.s           │\n├──────┼───────────────┤\n│    1 │ one two three │\n│      │ four          │\n└──────┴───────────────┘\n1 row\n"
        self.assertEqual(shell.ask("select * from t"), box)
        shell.ask(".mode column")
        self.assertEqual(shell.ask("select * from t"), "t.id  t.s\n----  ------------------\n   1  one two three four\n1 row\n")
        shell.ask(f".once {self.room}/wide")
        shell.ask("select * from t")
        shell.type(".quit\n")
        self.assertEqual(shell.end(), 0)

    def test_plain_boxes(self):
        for said, variables in ((["--plain"], {}), ([], {"PYTHONIOENCODING": "ascii"})):
            shell = self.typed(*said, **variables)
            shell.ask("table t (id int)")
            self.assertEqual(shell.ask("select * from t"), "+------+\n| t.id |\n+------+\n+------+\n0 rows\n")
            shell.type(".quit\n")
            self.assertEqual(shell.end(), 0)


class Bars(unittest.TestCase):
    """The bar of what takes over a second."""

    def drawn(self, total, unit, counts, seconds):
        """What a bar writes whose clock goes by so many seconds at each look."""
        written, clock = [], iter(range(0, 10_000))
        with unittest.mock.patch.object(bars.time, "monotonic", side_effect=lambda: next(clock) * seconds):
            bar = bars.Bar(written.append, total, unit)
            for count in counts:
                bar.add(count)
            bar.end()
        return "".join(written)

    def test_a_part_of_all(self):
        shown = self.drawn(100, "bytes", [50, 25, 25], 1).split("\r")
        half = "[" + "#" * 15 + "-" * 15 + "] 50 %"
        self.assertEqual(shown[1], half)
        self.assertEqual(shown[-3], "[" + "#" * 30 + "] 100 %")
        self.assertEqual(shown[-2:], [" " * len(shown[-3]), ""])

    def test_what_has_no_total(self):
        self.assertTrue(self.drawn(None, "bytes", [1_000, 234], 1).startswith("\r1,000 bytes\r1,234 bytes\r"))

    def test_what_is_done_soon(self):
        self.assertEqual(self.drawn(10, "rows", [1] * 10, 0.001), "")

    def test_files_are_counted(self):
        for read in (lambda file: file.read(), lambda file: file.readline()):
            bar = bars.Bar(None, 7, "bytes")
            read(bars.Read(io.BytesIO(b"id\n123\n"), bar))
            self.assertGreater(bar._done, 2)
        bar = bars.Bar(None, 2, "rows")
        bars.Written(io.BytesIO(), bar).write(b"1\n2\n")
        self.assertEqual(bar._done, 2)


class Screen(io.StringIO):
    """A standard error that is a terminal."""

    def isatty(self):
        return True


class WorksWithABar(shells.InThisProcess):
    """Each command that may take long has a bar."""

    def test_each(self):
        rows = self.file("rows", "id\n" + "".join(f"{at}\n" for at in range(3_000)))
        shell = self.shell(block=1 << 12)
        shell.is_at_terminal, shell._err = True, Screen()
        lines = [f".load t {rows}", f".import {rows} u", f".save t {rows}2", f".dump {self.room}/dump", f".export sql {self.room}/sql"]
        lines += [f".output {self.room}/rows3\nselect * from t{end}\n.mode {mode}" for end, mode in (("", "line"), (" where id > 0", "csv"))]
        lines += [".output\n.policy tree", f".open {self.room}/dump", ".open", f".restore {self.room}/dump"]
        shell.db.execute("table t (id int)")
        with unittest.mock.patch.multiple(bars, AFTER=0, EACH=0):
            for line in lines:
                with self.subTest(line):
                    shell._err.seek(0)
                    shell._err.truncate()
                    shell.run(reading.Stream(io.BytesIO(line.encode()), ""))
                    shown = shell._err.getvalue()
                    if line != ".open":
                        self.assertRegex(shown, r"\A\r\[[#-]{30}\] \d+ %")
                        self.assertRegex(shown, r"\r *\r\Z")
                    self.assertNotIn("error", shown)


class ByRange(shells.InThisProcess):
    """The rows of a whole table come range by range, and are those of the select."""

    def filled(self, rows):
        shell = self.shell(block=1 << 20)
        self.do(shell, "table u (id int)", "insert u (1)", "table t (id int, s text, u ref u null)", "table k (k text, n int)")
        shell.db.load("t", [(at, f"s{at % 7}", None if at % 3 else 1) for at in range(-rows // 2, rows // 2)])
        shell.db.load("k", [("\n" * (at % 3) + f"'{at}?", at) for at in range(rows)])
        return shell

    def test_the_rows_are_the_same(self):
        shell = self.filled(50)
        with unittest.mock.patch.object(selecting, "LEAST", 10), unittest.mock.patch.object(key_ranges, "_RANGE", 7):
            for line in (
                "select * from t",
                " select s , id from t\t",
                "select u from t\r",
                "select t.id from t",
                "select n from k",
                "select * from k",
            ):
                with self.subTest(line):
                    found, expected = selecting.by_range(shell.db, line.encode()), shell.db.execute(line)
                    self.assertEqual((list(found), len(found), found.names, found.types), (expected, 50, expected.names, expected.types))
                    self.assertGreater(len(found._lines), 2)

    def test_other_selects_are_read_at_once(self):
        shell = self.filled(50)
        with unittest.mock.patch.multiple(selecting, LEAST=10):
            for line in (
                "select distinct s from t",
                "select * from t where id > 3",
                "select * from t join u on t.u = u.id",
                "select * from u",
                "select * from nothing",
                "select 'a' from t",
            ):
                self.assertIsNone(selecting.by_range(shell.db, line.encode()))
            for line in ("select nothing from t", "select id, id from t", "select id s from t"):
                with self.assertRaises(mmdb.Refused) as ranges:
                    selecting.by_range(shell.db, line.encode())
                with self.assertRaises(mmdb.Refused) as whole:
                    shell.db.execute(line)
                self.assertEqual((ranges.exception.number, ranges.exception.reason), (whole.exception.number, whole.exception.reason))

    def test_the_shell_shows_them(self):
        shell = self.filled(selecting.LEAST)
        for mode in ("csv", "json", "box"):
            self.do(shell, f".mode {mode}", "select * from t", said=None)
            shown = shell._out.getvalue()
            self.do(shell, ".timer on", "select * from t", ".timer off", said=None)
            self.assertEqual(shown, shell._out.getvalue().partition("time: ")[0])
        self.do(shell, "select nothing from t", refused="error 32 no such column: nothing is no column of t")


class AsRecords(shells.InThisProcess):
    """Rows as CSV are those of the select, whatever texts and nulls they have."""

    TABLES = ["table u (k text, n int)", "table t (id int, a text, u ref u null, b text, c text)"]
    LINES = ["select * from t", "select a from t", "select id, u from t", "select u, b from t", "select a, b, id, c, k from t join u on t.u = u.k"]
    LINES += ["select id, a, c from t", "select b, c from t", "select a, c, b, id from t"]

    def drawn(self, draw, texts):
        """A shell with rows that are drawn of these texts."""
        shell = self.shell(block=1 << 16)
        self.do(shell, *self.TABLES)
        for key in texts:
            shell.db.execute("insert u (?, ?)", key, draw.randrange(9))
        for at in range(30):
            drawn = [draw.choice(texts) for _ in range(3)]
            shell.db.execute("insert t (?, ?, ?, ?, ?)", at, drawn[0], draw.choice([None, *texts]), *drawn[1:])
        return shell

    def test_drawn_rows(self):
        draw = random.Random(SEED)
        look = boxes.look("utf-8")
        for texts in (["a", "é,"], ["a", ""], ["", "\n", ",,", '"', "\n,\n"], ["a", "\n,", ",\n", "x,,y"]):
            shell = self.drawn(draw, texts)
            for line in self.LINES:
                pieces = unittest.mock.patch.object(moving, "PIECE", 16)
                with self.subTest(texts=texts, line=line), unittest.mock.patch.object(key_ranges, "_RANGE", 4), pieces:
                    rows = shell.db.execute(line)
                    expected = "".join(modes.MODES["csv"](rows.names, rows, look))
                    written = selecting.RowsAsRecords(shell.db, line.encode())
                    self.assertEqual((written.names, len(written), list(written)), (rows.names, len(rows), rows))
                    self.assertEqual("".join(modes.MODES["csv"](written.names, written, look)), expected)
                    with unittest.mock.patch.object(selecting, "LEAST", 1):
                        ranges = selecting.by_range(shell.db, line.encode())
                    if " join " not in line:
                        self.assertEqual("".join(modes.MODES["csv"](ranges.names, ranges, look)), expected)

    def test_no_value_is_read_without_need(self):
        for texts, lines in ((["a", "é,"], self.LINES), (["a", ""], [line for line in self.LINES if " u" not in line and "*" not in line])):
            shell = self.drawn(random.Random(SEED), texts)
            with unittest.mock.patch.object(shell.db, "select", side_effect=AssertionError):
                for line in lines:
                    self.do(shell, line, said=None)


class Late(shells.InThisProcess):
    """Ctrl-C that comes while the library is at a line."""

    def test_a_change_that_is_done_is_said_to_be_done(self):
        shell = self.shell()
        typed = reading.Terminal()
        self.do(shell, "table t (id int)", "insert t (1)")
        with unittest.mock.patch("builtins.input", side_effect=["insert t (2)", "select * from t", "select id from t", EOFError]):
            execute = shell.db.answer

            def answer(line, block=None):
                if line.startswith(b"insert"):
                    shell.interrupts.on_interrupt(signal.SIGINT, None)
                return execute(line, block)

            with unittest.mock.patch.object(shell.db, "answer", answer):
                shell.output.say("")
                shell.run(typed)
        self.assertEqual(shell._out.getvalue(), "ok 1\nt.id\n1\n2\nt.id\n1\n2\n")

    def test_a_select_ends_once_its_rows_are_found(self):
        shell = self.shell()
        self.do(shell, "table t (id int)", "insert t (1)")
        lines = ["select * from t where id > 0", ".mode json", "select * from t where id > 0", ".count t", EOFError]
        execute, answer = shell.db.execute, shell.db.answer

        def late(call, line, *given):
            if b"where" in line if isinstance(line, bytes) else "where" in line:
                shell.interrupts.on_interrupt(signal.SIGINT, None)
            return call(line, *given)

        with unittest.mock.patch("builtins.input", side_effect=lines), unittest.mock.patch.multiple(
            shell.db, execute=lambda *given: late(execute, *given), answer=lambda *given: late(answer, *given)
        ):
            shell.run(reading.Terminal())
        self.assertEqual((shell._out.getvalue(), shell._err.getvalue()), ("1\n", 2 * "mmdb-shell: interrupted\n"))


class LongSelects(shells.AtATerminal):
    """Joins that would take a minute or more, and Ctrl-C."""

    ROWS = 200_000
    JOIN = "select a.id, b.id from a join b on a.n = b.n"

    def setUp(self):
        super().setUp()
        loads = "".join(f"load {table} {len(block)}\n{block}" for table, block in (("a", self.block(0)), ("b", self.block(1))))
        self.filled = self.file("filled", f"table a (id int, n int)\ntable b (id int, n int)\n{loads}")
        self.selects = self.file("selects", f".print ready\n{self.JOIN}\n")

    def block(self, value):
        return "id,n\n" + "".join(f"{id},{value}\n" for id in range(self.ROWS))

    def test_at_a_terminal(self):
        shell = self.typed("--policy", "scan")
        shell.ask(f".read {self.filled}")
        lines = (self.JOIN, f"{self.JOIN} where a.id > 7", f".count {self.JOIN}", f".head 3 {self.JOIN}", f".plan {self.JOIN}")
        for mode in ("box", "csv"):
            shell.ask(f".mode {mode}")
            for line in (*lines, f".read {self.selects}"):
                with self.subTest(mode=mode, line=line):
                    began = time.monotonic()
                    shell.interrupt_line(line)
                    self.assertLess(time.monotonic() - began, harness.SECONDS / 2)
            self.assertEqual(shell.ask(".count a"), f"{self.ROWS}\n")
        shell.ask(".parameter set 1 0")
        shell.interrupt_line(f"{self.JOIN} where a.id >= ?")
        shell.type(".quit\n")
        self.assertEqual(shell.end(), 0)

    def test_without_a_terminal(self):
        """It ends the shell."""
        words = ["--policy", "scan", "--mode", "json", self.filled, self.selects]
        with subprocess.Popen([*shells.RUN, *words], env=self.environment(), stdout=subprocess.PIPE, stderr=subprocess.PIPE) as ran:
            self.addCleanup(ran.stderr.close)
            self.assertEqual(ran.stdout.readline(), b"ready\n")
            while ran.poll() is None:
                # (one that comes before the select begins is forgotten)
                ran.send_signal(signal.SIGINT)
                with contextlib.suppress(subprocess.TimeoutExpired):
                    ran.wait(3)
            self.assertEqual((ran.returncode, ran.stderr.read()), (130, b""))


class LongWork(shells.AtATerminal):
    """A bar at a terminal, and Ctrl-C behind it."""

    def test_a_load_from_a_slow_pipe(self):
        shell = self.typed()
        shell.ask("table t (id int)")
        os.mkfifo(self.room / "pipe")
        shell.type(f".load t {self.room}/pipe\n")
        shell.wait_for("pipe\n")
        with open(self.room / "pipe", "wb") as pipe:
            pipe.write(b"id\n")
            for start in range(0, 10_000_000, 200_000):
                pipe.write(b"".join(b"%d\n" % at for at in range(start, start + 200_000)))
                pipe.flush()
                if shell.sees(" bytes"):
                    break
            self.assertIn("interrupted\n", shell.interrupt())
        self.assertEqual(shell.ask(".count t"), "0\n")
        shell.type(".quit\n")
        self.assertEqual(shell.end(), 0)

    def check_interrupted(self, shell, line):
        """A line that goes on until Ctrl-C, which ends it and nothing else."""
        shell.interrupt_line(line)
        self.assertEqual(shell.ask(".count t"), "50000\n")

    def test_ctrl_c_ends_what_reads_and_writes(self):
        dump = self.file("dump", "# mmdb dump 1\ntable t (id int)\n")
        shell = self.typed()
        shell.ask("table t (id int)")
        rows = self.file("rows", "id\n" + "".join(f"{at}\n" for at in range(50_000)))
        self.assertEqual(shell.ask(f".load t {rows}"), f"50000 rows of {rows} are in t\n")
        os.mkfifo(self.room / "pipe")
        for line in ("save t", "dump", "export sql", "output", "once", "load t", "open", "read"):
            with self.subTest(line):
                self.check_interrupted(shell, f".{line} {self.room}/pipe")
        self.check_interrupted(shell, f".import {self.room}/pipe t")
        self.assertIn("is a part of a dump", shell.ask(f".open {dump}"))
        shell.type("select * from t\n")
        shell.wait_for("│     9 │\n")
        self.assertIn("interrupted\n", shell.interrupt())
        self.assertEqual(shell.ask(".count t"), "50000\n")
        shell.type(".quit\n")
        self.assertEqual(shell.end(), 0)


class Plainly(shells.AtATerminal):
    """A terminal that can do little."""

    def test_without_readline(self):
        self.file("readline.py", "raise ImportError\n")
        where = {"PYTHONPATH": str(self.room), "TERM": "dumb"}
        shell = self.typed("--plain", **where)
        shell.ask("table t (id int)")
        shell.type("insert t (1); select *\n")
        shell.wait_for(" ...> ")
        shell.type("from t\n")
        shell.wait_for("+------+\n| t.id |\n+------+\n|    1 |\n+------+\n1 row\nmmdb> ")
        shell.type("sel\x7f\x7f\x7f.quit\n")
        self.assertEqual(shell.end(), 0)
        self.assertFalse((self.room / "state").exists())
        self.assertNotIn("\x1b", shell.seen)

    def test_no_colours(self):
        shell = self.typed(TERM="xterm-256color")
        shell.ask("table t (id int)")
        self.assertNotIn("\x1b[3", shell.ask("select * from t") + shell.ask("select frm t"))
        shell.type(".quit\n")
        self.assertEqual(shell.end(), 0)
