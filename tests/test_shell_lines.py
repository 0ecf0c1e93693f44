"""Lines of the shell: several in one, one over several, values for their places, and the words and files that it starts with."""

import io
import unittest

from support import shells
from support.shells import COMPANY

from mmdb_shell import lines, reading
from mmdb_shell.parameters import Parameters


class OverSeveralLines(shells.Piped):
    """A command goes on in the next line where it ends too early, and a semicolon ends it."""

    def test_semicolons(self):
        self.check(
            ["table t (id int, s text); insert t (1, 'a;b');insert t (2, 'it''s; so') ; ;", "select s from t; tables;"],
            ["t.s", "a;b", "it's; so", "table t (id int, s text)"],
        )
        self.check(["# tables; nothing", "table t (id int);", ".print a;b"], ["a;b"])

    def test_a_command_over_several_lines(self):
        stream = ["table emp (", "  id int, # no comment here", ")"]
        self.assertEqual(self.ran(stream).returncode, 1)
        stream = [
            "table emp (",
            "  # the key",
            "  id int,",
            "",
            "  name text",
            ")",
            "insert emp (1,\r",
            "\t'Ann'); select",
            "name",
            "from emp where id =",
            "1",
        ]
        self.check(stream, ["emp.name", "Ann"])

    def test_a_text_over_several_lines(self):
        stream = ["table t (id int, s text)", "insert t (1, 'a", "", "# ''b;", "c')", "select * from t where s = 'a", "", "# ''b;", "c'"]
        self.check(stream, ["t.id,t.s", '1,"a', "", "# 'b;", 'c"'])

    def test_a_load_over_two_lines(self):
        self.check(["table t (id int)", "load t", "5", "id", "7", "select * from t"], ["t.id", "7"])

    def test_no_command_is_lost_to_a_mistake_before_it(self):
        wanted = "line 2: error 20 not a command: column 17: wanted a comma or ), found the end of the line"
        self.check(["table t (id text)", "insert t ('Ann' ", "insert t ('Bo')", "select * from t"], ["t.id", "Bo"], [wanted])
        wanted = "line 2: error 20 not a command: column 11: the text 'Ann) has no quote mark at its end"
        self.check(["table t (id text)", "insert t ('Ann)", "insert t ('Bo')", "select * from t"], ["t.id", "Bo"], [wanted])
        wanted = "line 2: error 20 not a command: column 8: wanted a table's name, found the end of the line"
        self.check(["table t (id int)", "dump t; insert", "load t 5", "id", "7", "select * from t"], ["load t 3", "id", "t.id", "7"], [wanted])

    def test_the_end_of_the_stream(self):
        wanted = "line 2: error 20 not a command: column 7: wanted distinct, * or a column's name, found the end of the line"
        self.check(["table t (id int)", "select", "tables"], ["table t (id int)"], [wanted])
        self.check(
            b"table t (id int)\ndelete t where id =",
            [],
            ["line 2: error 20 not a command: column 20: wanted a value, found the end of the line"],
        )

    def test_a_mistake_in_a_later_line(self):
        refused = [
            "line 1: error 20 not a command: column 28: wanted int, text or ref, found txt: is text meant?",
            "line 4: error 20 not a command: column 3: wanted table, drop, index, insert, update, delete, select, load, dump or tables, found name",
        ]
        self.check(["table t (", "  id int,", "# more", "  name txt", "tables"], [], refused)

    def test_a_semicolon_ends_what_ends_too_early(self):
        wanted = "line 1: error 20 not a command: column 7: wanted distinct, * or a column's name, found the end of the line"
        self.check(["select;", "tables"], [], [wanted])


class WhereLinesAreCut(unittest.TestCase):
    """The rules by which lines are cut and put together."""

    def test_cuts(self):
        for line, front, rest in (
            (b"a;b", b"a", b"b"),
            (b"'a;b';c", b"'a;b'", b"c"),
            (b"'it''s;'", None, b""),
            (b"# a;b", None, b""),
            (b" .print a;b", None, b""),
            (b"\xff;b", None, b""),
            (b"x" * 8193 + b";", None, b""),
            (b"'a", None, b""),
        ):
            with self.subTest(line[:20]):
                self.assertEqual(lines.cut(line), lines.Cut(line if front is None else front, front is not None, rest))

    def test_a_stream_goes_back(self):
        stream = reading.Stream(io.BytesIO(b"a\r\n" + b"x" * 20_000 + b"\nb\nc"), "")
        first = stream.line()
        stream.mark()
        read = [stream.line() for _ in range(3)]
        self.assertEqual((first, read[1:], stream.number), (b"a\r", [b"b", b"c"], 4))
        self.assertGreater(len(read[0]), 8194)
        stream.back()
        self.assertEqual(([stream.line() for _ in range(4)], stream.number), ([*read, None], 5))


class Parametrised(shells.Piped):
    """Values for ? and :name."""

    def test_values(self):
        said = [
            ".parameter set 1 7",
            ".parameter set ?2 it's",
            ".parameter set :least '7'",
            "table t (id int, s text)",
            "insert t (?, ?)",
            "insert t (8, '? :least')",
            ".parameter set :least 7",
            "select s from t where id >= :least",
            ".parameter",
            "select * from t where id = ? and s = ? and id = ?",
            ".parameter unset 2",
            ".parameter clear",
            "select * from t where id = ?",
        ]
        refused = [
            "line 10: no value is set for ?3: .parameter set ?3 VALUE sets one",
            "line 13: error 20 not a command: column 28: wanted a value, found ?: a ? is allowed in prepared statements only",
        ]
        self.check(said, ["t.s", "it's", "? :least", "place,value", "?1,7", "?2,it's", ":least,7"], refused)

    def test_kinds_of_values(self):
        parameters = Parameters()
        for spelled, value in (("-7", -7), ("'7'", "7"), ("null", None), ("'it''s'", "it's"), ("Ann B", "Ann B"), ("9" * 19, "9" * 19), ("'a", "'a")):
            parameters.set("1", spelled)
            self.assertEqual(parameters.bind(b"insert t (?)"), (b"insert t (?)", (value,)))
        self.assertEqual(parameters.bind(b"# what?"), (b"# what?", ()))

    def test_refused_words(self):
        why = "it is written .parameter set PLACE VALUE, unset PLACE, clear or list"
        for words in ("set 1", "unset", "clear 1", "list 1", "get 1"):
            self.check([f".parameter {words}"], [], [f"line 1: {why}"])
        self.check(
            [".parameter set 0 1", ".parameter unset 1"],
            [],
            ["line 1: 0 is no place: places are ?1, ?2 and so on, or :name", "line 2: no value is set for ?1"],
        )

    def test_the_place_of_what_is_wrong(self):
        self.check(
            [".parameter set 1 x", "table t (id int, s text)", "insert t (?, 'a')"],
            [],
            ["line 3: error 35 wrong type: column 11: column id of t has integers, and 'x' is a text"],
        )


class Started(shells.Piped):
    """Files, lines and a dump that are named at the start."""

    def setUp(self):
        super().setUp()
        self.company = self.file("company", "\n".join(COMPANY) + "\n")

    def check_started(self, said, out, err=(), status=None, stream=b"tables\n"):
        self.check(stream, out, err, status, said)

    def test_files_and_lines(self):
        self.check_started([self.company, "-c", "select name from emp; .print done"], ["emp.name", "Ann", '""', "done"])
        self.check_started(
            [self.company, "-"],
            ["table dept (id int, name text)", "table emp (id int, name text, dept ref dept null)", "index emp dept tree"],
        )
        self.check_started(["-c", "table t (id int)", "-c", ".tables"], ["t"])
        self.check_started(["-c", "selct"], [], ["-c, line 1: error 20 not a command: column 1: selct is no command: is select meant?"])
        self.check_started([f"{self.room}/no", self.company], [], [f"there is no {self.room}/no"])

    def test_restore(self):
        dump = str(self.room / "dump")
        self.check_started([self.company, "-c", f".dump {dump}"], [])
        self.check(["select id from dept"], ["dept.id", "10"], said=["--restore", dump])
        self.check([".tables"], [], [f"{self.company} is no dump: it doesn't begin with the line # mmdb dump 1"], said=["--restore", self.company])

    def test_bail(self):
        bad = self.file("bad", "selct\n.print never\n")
        wanted = f"{bad}, line 1: error 20 not a command: column 1: selct is no command: is select meant?"
        self.check_started(["--bail", bad, "-c", ".print never"], [], [wanted])
        self.check([".bail on", f".read {bad}", ".print never"], [], [wanted])

    def test_the_init_file(self):
        (self.room / "config" / "mmdb").mkdir(parents=True)
        self.file("config/mmdb/init", ".mode json\n")
        self.check([".mode"], ["csv"])
        self.check([".mode"], ["tabs"], said=["--init", self.file("own", ".mode tabs\n")])

    def test_exit(self):
        self.check([".exit 7", "tables"], [], status=7)
        self.check(["tables ?", ".exit"], [], ["line 1: error 20 not a command: column 8: wanted the end of the line, found ?"])
        self.check([".exit 256", ".exit x"], [], ["line 1: a status is a number from 0 to 255", "line 2: a status is a number from 0 to 255"])

    def test_open(self):
        dump = str(self.room / "dump")
        self.check_started(
            [
                self.company,
                "-c",
                f".dump {dump}",
                "-c",
                ".open",
                "-c",
                ".tables",
                "-c",
                f".open {dump}",
                "-c",
                f".open {dump}",
                "-c",
                ".tables",
            ],
            ["dept", "emp"],
        )
        self.check(
            [*COMPANY, f".open {self.company}", ".tables"],
            ["dept", "emp"],
            [f"line 7: {self.company} is no dump: it doesn't begin with the line # mmdb dump 1"],
        )

    def test_changes(self):
        self.check(
            [*COMPANY, ".changes on", "update emp set name = 'x'", "insert dept (11, '')", "delete dept where id = 12", "tables ?"],
            ["changes: 2, total: 5", "changes: 1, total: 6", "changes: 0, total: 6"],
            ["line 11: error 20 not a command: column 8: wanted the end of the line, found ?"],
        )

    def test_words_in_short(self):
        self.check([".tim on", ".e", ".x"], [], ["line 2: .e can be .exit, .explain or .export", "line 3: there is no .x; .help lists what there is"])
        self.check([*COMPANY, ".tab", ".sch dept"], ["dept", "emp", COMPANY[0]])


class Typed(shells.AtATerminal):
    """Lines over several lines, at a terminal."""

    def test_a_second_prompt(self):
        shell = self.typed()
        shell.type("table t (\n")
        shell.wait_for(" ...> ")
        shell.type("id int, s\n")
        shell.wait_for(" ...> ")
        shell.type("text)\n")
        shell.wait_for("ok\nmmdb> ")
        shell.type("insert t (1, 'a\n")
        shell.wait_for(" ...> ")
        shell.type("\n")
        shell.wait_for(" ...> ")
        shell.type("b'); select * from t;\n")
        shell.wait_for("│    1 │ a␊␊b │\n└──────┴──────┘\n1 row\nmmdb> ")
        shell.type(".quit\n")
        self.assertEqual(shell.end(), 0)

    def test_three_ways_out(self):
        shell = self.typed()
        for keys in ("\n", ";\n"):
            shell.type("select\n")
            shell.wait_for(" ...> ")
            shell.type(keys)
            shell.wait_for("found the end of the line\nmmdb> ")
        shell.type("select\n")
        shell.wait_for(" ...> ")
        shell.interrupt()
        self.assertEqual(shell.ask(".print here"), "here\n")
        shell.type("select\n")
        shell.wait_for(" ...> ")
        shell.type("frm t\n")
        shell.wait_for("  select frm t\n" + " " * 13 + "^\nerror 20 not a command: ")
        shell.type(".quit\n")
        self.assertEqual(shell.end(), 0)

    def test_a_paste(self):
        shell = self.typed()
        shell.type("\x1b[200~table t (\n  id int,\n  s text);\ninsert t (1, 'x'); insert t (2,\n'y')\nselect s\nfrom t\x1b[201~\n")
        shell.wait_for("│ x   │\n│ y   │\n└─────┘\n2 rows\nmmdb> ")
        shell.type(".quit\n")
        self.assertEqual(shell.end(), 0)

    def test_the_history_has_whole_commands(self):
        shell = self.typed()
        shell.ask(".print 1")
        shell.type("table t (\nid int,\nid2 int)\n")
        shell.wait_for("ok\nmmdb> ")
        shell.type("\x1b[A")
        shell.wait_for("table t ( id int, id2 int)")
        shell.type("\x1b[A\n")
        shell.wait_for("1\nmmdb> ")
        shell.type("table u (k text)\ninsert u ('a\nb')\n")
        shell.wait_for("ok 1\nmmdb> ")
        shell.type(".quit\n")
        self.assertEqual(shell.end(), 0)
        kept = (self.room / "state" / "mmdb" / "history").read_text()
        self.assertEqual(kept, ".print 1\ntable t ( id int, id2 int)\n.print 1\ntable u (k text)\ninsert u ('a\nb')\n.quit\n")

    def test_the_init_file(self):
        (self.room / "config" / "mmdb").mkdir(parents=True)
        self.file("config/mmdb/init", ".mode json\ntable t (id int)\nselct\n")
        for said, seen, mode in (
            ([], "selct is no command", "json\n"),
            (["--no-init"], "mmdb ", "box\n"),
            (["--init", self.file("own", ".mode csv\n")], "mmdb ", "csv\n"),
        ):
            shell = shells.Typed(self.environment(), *said)
            shell.wait_for(seen)
            shell.wait_for("mmdb> ")
            self.assertEqual(shell.ask(".mode"), mode)
            shell.type(".quit\n")
            self.assertEqual(shell.end(), 0)

    def test_an_init_file_that_ends_early(self):
        (self.room / "config" / "mmdb").mkdir(parents=True)
        for content, seen in ((".bail on\nselct\n.print never\n", "selct is no command"), (None, "init is a folder")):
            if content is None:
                (self.room / "config" / "mmdb" / "init").unlink()
                (self.room / "config" / "mmdb" / "init").mkdir()
            else:
                self.file("config/mmdb/init", content)
            shell = shells.Typed(self.environment())
            shell.wait_for(seen)
            self.assertNotIn("never", shell.wait_for("mmdb> "))
            shell.type(".quit\n")
            self.assertEqual(shell.end(), 0)

    def test_a_dump_and_a_file_that_bails(self):
        dump = self.file("dump", "# mmdb dump 1\ntable t (id int)\nload t 5\nid\n7\n# end of the dump: 1 tables, 1 rows\n")
        shell = self.typed("--restore", dump)
        self.assertIn("│    7 │\n", shell.ask("select * from t"))
        shell.ask(".bail on")
        self.assertIn("line 1: error 20 ", shell.ask(f".read {self.file('bad', 'selct.print never')}"))
        self.assertEqual(shell.ask(".print here"), "here\n")
        shell.type(".exit 3\n")
        self.assertEqual(shell.end(), 3)
        shell = shells.Typed(self.environment(), "--restore", f"{self.room}/no")
        shell.wait_for(f"there is no {self.room}/no")
        self.assertEqual(shell.end(), 1)
