"""What the shell completes and explains: words by the place where they are, and help on each word."""

import unittest

from support import model, shells
from support.shells import COMPANY

from mmdb_shell import commands, completing, dotted, helping, words


class Completed(shells.InThisProcess):
    """A word becomes what can stand in its place."""

    def setUp(self):
        super().setUp()
        self.there = self.shell()
        self.do(self.there, *COMPANY, "table staff (number int, chief ref emp)")
        self.completer = completing.Completer(self.there)

    def check(self, before, text, found, behind=""):
        with self.subTest(before=before, text=text, behind=behind):
            self.assertEqual(self.completer.words(before, text, behind), found)

    def test_tables(self):
        for before in (
            "select * from ",
            "insert ",
            "delete ",
            "dump ",
            "load ",
            "update ",
            "index ",
            "drop table ",
            "drop index ",
            "table t (a ref ",
            "select * from emp join ",
            "select * from emp join dept on ",
        ):
            self.check(before, "", ["dept", "emp", "staff"])
        self.check("select * from emp join ", "de", ["dept"])

    def test_columns(self):
        self.check("select * from emp where ", "", ["dept", "id", "name"])
        self.check("select * from emp where id = 1 and ", "n", ["name"])
        self.check("update emp set ", "na", ["name"])
        self.check("delete staff where ", "", ["chief", "number"])
        self.check("index staff ", "", ["chief", "number"])
        self.check("select ", "n", ["name", "number"], " from nothing")
        self.check("select ", "n", ["number"], " from staff")
        self.check("select id, ", "", ["dept", "id", "name"], " from emp")
        self.check("select * from emp join dept on emp.dept = dept.id where ", "", ["dept", "dept.", "emp.", "id", "name"])
        self.check("select * from emp where ", "emp.n", ["emp.name"])
        self.check("select ", "dept.", ["dept.id", "dept.name"])
        self.check("select ", "nothing.", [])

    def test_words(self):
        self.check("", "se", ["select "])
        self.check("select * ", "", ["from "])
        self.check("select * from emp ", "", ["join", "where"])
        self.check("select * from emp where id = 1 ", "", ["and "])
        self.check("index emp name ", "", ["hash", "tree"])
        self.check("drop ", "", ["index", "table"])
        self.check("update emp ", "", ["set "])
        self.check("table t (a ", "", ["int", "ref", "text"])
        self.check("table t (a int, b ref emp ", "", ["null"])
        self.check("selct ", "", [])
        self.check("tables ", "", [])

    def test_lines_before(self):
        self.check("select *\n", "", ["from "])
        self.check("insert emp (1, 'a;b', null); select * from emp\n", "", ["join", "where"])
        self.check("tables;", "t", ["table", "tables"])
        self.check("insert emp (1, 'it ", "", [])
        self.check("select * from emp where id = ? ", "", ["and "])
        self.check("select * from emp where id = :least and ", "i", ["id"])
        self.check("# a ", "", [])
        self.check("select * from emp where name = 'a\nb' ", "", ["and "])

    def test_it_changes_nothing(self):
        before = self.there.db.answer("select * from emp")
        for line in ("delete emp ", "drop table emp ", "insert emp (3, '', null) ", "update emp set name = 'x' "):
            self.completer.words(line, "")
        self.assertEqual(self.there.db.answer("select * from emp"), before)

    def test_words_of_the_shell(self):
        self.check("", ".sch", [".schema "])
        self.check("", ".e", [".exit", ".explain", ".export"])
        self.check(".schema ", "", ["dept", "emp", "staff"])
        self.check(".sch ", "s", ["staff"])
        self.check(".mode ", "m", ["markdown"])
        self.check(".mode insert ", "e", ["emp"])
        self.check(".timer ", "", ["off", "on"])
        self.check(".policy ", "me", ["merge"])
        self.check(".count ", "s", ["select", "staff"])
        self.check(".export ", "", ["sql"])
        self.check(".parameter ", "", ["clear", "list", "set", "unset"])
        self.check(".help ", "joi", ["join "])
        self.check(".quit ", "", [])
        self.check(".nothing ", "", [])
        (self.room / "file one").touch()
        self.check(".read ", f"{self.room}/fi", [f"{self.room}/file one"])
        self.check(".import ", f"{self.room}/fi", [f"{self.room}/file one"])
        self.check(f".import {self.room}/x ", "e", ["emp"])


class Helped(shells.Piped):
    """There is help on each word."""

    def told(self, word):
        return list(helping.help_for(word))

    def test_each_word(self):
        for word in [*model.RESERVED, *words.SIGNS, "tables", "language"]:
            with self.subTest(word):
                self.assertGreater(len(self.told(word)), 1)
        for name, command in commands.DOTTED.items():
            for word in (name, name[1:]):
                self.assertIn(f"  {command.does}", self.told(word))
        for number in model.TEXTS:
            self.assertEqual(len(self.told(str(number))), 1)
        self.assertEqual(self.told("nothing"), [])

    def test_what_is_said(self):
        self.check([".help join"], ["join", f"  {words.KEYWORDS['join']}"])
        self.check([".help =", ".help '#'"], ["=", f"  {words.SIGNS['=']}", "#", f"  {words.SIGNS['#']}"])
        self.check(
            [".help once"],
            [".once FILE", "  does so for the next answer only", *(f"  {line}" for line in commands.DOTTED[".once"].more.splitlines())],
        )
        told = self.ran([".help language"]).stdout.decode()
        for word in model.RESERVED:
            self.assertIn(f" {word}", f" {told}")
        listed = self.ran([".help"]).stdout.decode()
        for name in commands.DOTTED:
            self.assertIn(f"  {name} ", listed)

    def test_the_lines_of_the_help_fit_a_terminal(self):
        for word in [*model.RESERVED, *words.SIGNS, "language", *commands.DOTTED]:
            for line in self.told(word):
                self.assertLessEqual(len(line), 128)


class Named(unittest.TestCase):
    """The names of the shell's commands."""

    def test_fronts(self):
        for name in dotted.DOTTED:
            self.assertEqual(dotted.found(name), name)
        self.assertEqual(
            [dotted.found(name) for name in (".sc", ".par", ".ou", ".onc", ".imp")],
            [".schema", ".parameter", ".output", ".once", ".import"],
        )


class AtTheTerminal(shells.AtATerminal):
    """Completion by the Tab key."""

    def test_tabs(self):
        shell = self.typed()
        for line in COMPANY:
            shell.ask(line)
        for keys, line in (
            ("sel\t* f\tem\t wh\tna\t", "select * from emp where name"),
            ("drop in\tde\t na\t tr\t", "drop index dept name tree"),
            (".ex\t\t", ".exit     .explain  .export"),
        ):
            shell.type(keys)
            shell.wait_for(line)
            shell.type("\x05\x15")
        shell.type("select *\nfr\tde\t\n")
        shell.wait_for(" ...> from dept")
        shell.wait_for("│ toys      │\n")
        shell.wait_for("mmdb> ")
        shell.type("\x04")
        self.assertEqual(shell.end(), 0)
