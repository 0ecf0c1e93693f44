"""The shell's `.begin`, `.commit`, `.rollback` and `.undo`: what is done in a transaction, what is taken back, and what is seen of it."""

import io
import unittest
import unittest.mock

from support import hand, harness, shells
from support.binding import mmdb
from support.shells import COMPANY

from mmdb_shell import reading, transactions
from mmdb_shell.transactions import Transactions


class ThroughAPipe(shells.Piped):
    """Transactions of lines that nobody types."""

    def test_commit_and_rollback(self):
        lines = [
            "table t (id int)",
            ".begin",
            "insert t (1)",
            "load t 5",
            "id",
            "2",
            ".commit",
            ".begin",
            "insert t (3)",
            ".count t",
            ".rollback",
            "select * from t",
            "tables",
        ]
        self.check(lines, ["3", "t.id", "1", "2", "table t (id int)"])

    def test_savepoints(self):
        front = ["table t (id int)", ".begin", "insert t (1)", ".begin", "insert t (2)"]
        for ends, rows in (
            ([".commit", ".commit"], ["1", "2"]),
            ([".rollback", ".commit"], ["1"]),
            ([".commit", ".rollback"], []),
            ([".rollback", "insert t (2)", ".rollback"], []),
            ([".rollback", ".begin", "insert t (4)", ".commit", ".commit"], ["1", "4"]),
        ):
            with self.subTest(ends):
                self.check([*front, *ends, "select * from t"], ["t.id", *rows])

    def test_none_is_open(self):
        why = "no transaction is open; .begin opens one"
        self.check([".commit", ".rollback", ".begin", ".commit", ".commit"], [], [f"line {at}: {why}" for at in (1, 2, 5)])

    def test_what_is_refused_in_one_leaves_it_open(self):
        lines = ["table t (id int, s text)", ".begin", "insert t (1, 'a')", "insert t (1, 'b')", "insert u (1)", ".rollback", "select * from t"]
        refused = ["line 4: error 41 key exists: t has a row with the key 1", "line 5: error 30 no such table: u is no table"]
        self.check(lines, ["t.id,t.s"], refused)

    def test_drops(self):
        lines = [
            *COMPANY,
            ".begin",
            "insert emp (3, 'Cy', 10)",
            "drop index emp dept tree",
            "drop table dept",
            " drop table nothing",
            "drop table emp",
            ".begin",
            "drop table dept",
            "tables",
            ".rollback",
            "# a comment",
            "\t",
            "tabel emp",
            "drop table",
            "dropp table emp",
            "table emp (id int)",
            "insert emp (7)",
            "select * from emp",
            ".rollback",
            "tables",
            "select id, name from emp",
            ".begin",
            "drop table emp",
            ".commit",
            "drop table dept",
            "tables",
        ]
        front = [line for line in COMPANY if line.startswith(("table", "index"))]
        refused = ["line 10: error 40 table is referenced: column dept of emp refers to dept"]
        refused.append("line 11: error 30 no such table: nothing is no table")
        refused.append("line 19: error 20 not a command: column 1: tabel is no command: is table meant?")
        refused.append("line 20: error 20 not a command: column 11: wanted a table's name, found the end of the line")
        refused.append("line 21: error 20 not a command: column 1: dropp is no command: is drop meant?")
        self.check(lines, ["emp.id", "7", *front, "emp.id,emp.name", "1,Ann", '2,""'], refused)

    def test_declarations(self):
        lines = [
            *COMPANY,
            ".begin",
            "table more (id int, emp ref emp,\nname text)",
            "insert more (1, 2, 'x')",
            "delete emp where id = 2",
            ".begin",
            "update emp set name = 'Bo'",
            "index emp name hash",
            "select id from emp where name = 'Bo'",
            "table less (id text)",
            ".rollback",
            "index more name tree",
            "tables",
            ".rollback",
            "tables",
            "select name from emp",
            ".begin",
            "table less (id int)",
            ".commit",
            "insert less (7)",
            "drop table less",
            "tables",
        ]
        front = [line for line in COMPANY if line.startswith(("table", "index"))]
        made = ["table more (id int, emp ref emp, name text)", "index more name tree"]
        out = ["emp.id", "1", "2", *front, *made, *front, "emp.name", "Ann", '""', *front]
        why = "error 44 row is referenced: the row of emp with the key 2 is named in column emp of the row of more with the key 1"
        self.check(lines, out, [f"line 11: {why}"])

    def test_updates(self):
        lines = [
            *COMPANY,
            ".begin",
            "update emp set name = 'Bo', dept = null",
            "delete dept where id = 10",
            "update emp set dept = 10 where id = 1",
            ".begin",
            "update emp set name = 'a text that no cell of a row can hold' where id = 2",
            ".parameter set 1 'Cy'",
            "update emp set name = ? where id < 2",
            ".parameter clear",
            "update emp set nam = 'Di'",
            "update emp set name = 'Di', 7",
            "select name, dept from emp",
            ".rollback",
            "select name, dept from emp",
            ".rollback",
            "select name, dept from emp",
            ".begin",
            "update emp set name = 'Di' where name = 'Ann'",
            ".commit",
            "select name from emp",
        ]
        names = "emp.name,emp.dept"
        out = [names, "Cy,", "a text that no cell of a row can hold,", names, "Bo,", "Bo,", names, "Ann,10", '"",', "emp.name", "Di", '""']
        refused = [
            "line 10: error 42 no referenced row: dept has no row with the key 10, which column dept names",
            "line 16: error 32 no such column: nam is no column of emp: is name meant?",
            "line 17: error 20 not a command: column 29: wanted a column's name, found 7",
        ]
        self.check(lines, out, refused)

    def test_deletes(self):
        lines = [
            *COMPANY,
            ".begin",
            "delete dept where id = 10",
            "delete emp where dept = 10",
            "delete dept where id = 10",
            ".begin",
            "delete emp",
            "insert emp (1, 'Anew', null)",
            "select id, name from emp",
            ".rollback",
            "select id, name from emp",
            ".rollback",
            "delete dept where id = 10",
            "select id, name from emp",
            ".begin",
            "delete emp where id = 2",
            ".commit",
            "select id, name from emp",
        ]
        names = "emp.id,emp.name"
        out = [names, "1,Anew", names, '2,""', names, "1,Ann", '2,""', names, "1,Ann"]
        why = "error 44 row is referenced: the row of dept with the key 10 is named in column dept of the row of emp with the key 1"
        self.check(lines, out, [f"line {at}: {why}" for at in (8, 18)])

    def test_commands_that_take_another_database(self):
        csv, dump = self.file("f.csv", "id\n7\n"), self.room / "dump"
        lines = ["table t (id int)", f".dump {dump}", "drop table t", ".begin", ".open", f".restore {dump}", ".policy tree", f".import {csv} u"]
        lines += [".policy", ".count u", ".rollback", "tables", f".restore {dump}", ".begin", f".load t {csv}", f".import {csv} t", f".dump {dump}", ".rollback", ".count t"]
        refused = [f"line {at}: a transaction is open: end it by .commit or .rollback first" for at in (5, 6, 7)]
        refused.append(f"line 16: error 41 key exists (record 1); no row of {csv} went in: t has a row with the key 7")
        self.check(lines, ["auto", "1", "0"], refused)
        self.assertIn("load t 5\nid\n7\n", dump.read_text())

    def test_one_is_open_at_the_end(self):
        told = "a transaction was open, and ends with the database: it wasn't committed"
        for lines, said, status in (
            ([".begin"], [], 0),
            ([".begin", ".exit 7"], [], 7),
            ([], ["-c", ".begin", "-c", "tables"], 0),
        ):
            with self.subTest(lines, said=said):
                self.check(lines, [], [told], status, said)

    def test_undo(self):
        path = self.file("f.csv", "id\n7\n8\n")
        lines = ["table t (id int)", "insert t (1)", f".load t {path}", "insert t (7)", ".undo", "select * from t", ".undo"]
        refused = ["line 4: error 41 key exists: t has a row with the key 7", "line 7: nothing more can be undone"]
        self.check(lines, ["t.id", "1"], refused)

    def test_over_files(self):
        path = self.file("f", "insert t (1)\n.begin\ninsert t (2)\n")
        self.check(["table t (id int)", ".begin", f".read {path}", ".rollback", "select * from t", ".rollback", ".count t"], ["t.id", "1", "0"])


class Undone(shells.InThisProcess):
    """`.undo` takes the last change back, whatever is refused or read after it."""

    def answered(self, lines):
        """The lines that a shell answers, and those by which it refuses."""
        shell = self.shell(1 << 16)
        shell.run(reading.Stream(io.BytesIO("".join(f"{line}\n" for line in lines).encode()), ""))
        return shell._out.getvalue().splitlines(), shell._err.getvalue().replace("mmdb-shell: ", "").splitlines()

    def check(self, lines, out, err=()):
        self.assertEqual(self.answered(lines), ([*out], [*err]))

    def test_each_kind_of_change(self):
        csv = self.file("f.csv", "id\n7\n8\n")
        for lines, left in (
            (["insert t (1)"], ["t.id"]),
            (["insert t (1)", "insert t (2)"], ["t.id", "1"]),
            (["load t 7", "id", "3", "4"], ["t.id"]),
            ([f".load t {csv}"], ["t.id"]),
            (["insert t (1)", f".import {csv} t"], ["t.id", "1"]),
            ([".parameter set 1 5", "insert t (?)", ".parameter clear"], ["t.id"]),
            (["delete t", "insert t (1)"], ["t.id"]),
            (["insert t (1)", "delete t"], ["t.id", "1"]),
            (["insert t (1)", "delete t", "insert t (1)"], ["t.id"]),
            (["insert t (1)", "insert t (2)", ".parameter set 1 5", "delete t where id < ?", ".parameter clear"], ["t.id", "1", "2"]),
            ([f".read {self.file('script', 'insert t (1); insert t (2)')}"], ["t.id", "1"]),
        ):
            with self.subTest(lines):
                self.check(["table t (id int)", *lines, ".undo", "select * from t", "tables"], [*left, "table t (id int)"])

    def test_updates(self):
        front = ["table t (id int, s text)", "index t s hash", "insert t (1, 'a')"]
        for lines, left in (
            (["update t set s = 'b'"], "a"),
            (["update t set s = 'b'", "update t set s = 'a text that no cell of a row can hold' where s = 'b'"], "b"),
            (["update t set s = 'b'", "delete t where s = 'b'"], "b"),
            ([".parameter set 1 'c'", "update t set s = ? where id = 1", ".parameter clear"], "a"),
        ):
            with self.subTest(lines):
                self.check([*front, *lines, ".undo", f"select s from t where s = '{left}'"], ["t.s", left])

    def test_drops(self):
        front = ["table t (id int, s text)", "index t s hash", "table u (id int, t ref t)", "index u t tree"]
        rows = ["insert t (1, 'a')", "insert u (7, 1)"]
        looks = ["tables", "select id from t where s = 'a'", "select id from u where t >= 1"]
        shown = [*front, "t.id", "1", "u.id", "7"]
        for line in ("drop table u", "drop index t s hash", " drop\tindex u  t tree"):
            with self.subTest(line):
                self.check([*front, *rows, line, ".undo", *looks], shown)
                self.check([*front, *rows, ".begin", "insert t (2, 'b')", line, ".undo", *looks, ".rollback", *looks], shown * 2)
                self.check([*front, *rows, line, "insert t (2, 'b')", ".undo", *looks[1:2]], ["t.id", "1"])
        lines = ["drop table t", "drop table u", "drop table t", ".undo", ".count t"]
        self.check([*front, *rows, *lines], ["1"], ["line 7: error 40 table is referenced: column t of u refers to t"])
        self.check([*front, *rows, "drop table u", "table u (id int)", ".undo", "tables"], front[:2])

    def test_declarations(self):
        csv = self.file("f.csv", "id,s\n7,a\n")
        front = ["table t (id int, s text)", "index t s hash"]
        for line in ("table u (id int, t ref t)", "index t s tree", f".import {csv} u", " index\tt  id hash"):
            with self.subTest(line):
                self.check([*front, line, ".undo", "tables"], front)
                self.check([*front, "insert t (1, 'a')", line, ".undo", ".count t", "tables"], ["1", *front])
                begun = [".begin", "insert t (1, 'a')", "delete t", "insert t (2, 'b')", line, ".undo"]
                self.check([*front, *begun, "tables", ".count t", ".rollback", "tables", ".count t"], [*front, "1", *front, "0"])
        self.check([*front, f".load t {csv}", ".undo", "tables", ".count t"], [*front, "0"])
        self.check([*front, "table u (id int)", "insert u (1)", ".undo", "tables", ".count u"], [*front, "table u (id int)", "0"])
        begun = [".begin", "table u (id int, t ref t null)", "insert u (1, null)", "index u t hash", ".undo", ".undo"]
        nothing = "line 8: nothing more can be undone"
        self.check([*front, *begun, "tables", ".rollback", "tables"], [*front, "table u (id int, t ref t null)", *front], [nothing])
        self.check([*front, *begun, ".commit", "select * from u"], ["u.id,u.t", "1,"], [nothing])

    def test_an_import_that_is_refused_leaves_no_table(self):
        csv = self.file("f.csv", "id,s\n7,a\n7,b\n")
        refused = f"error 41 key exists (record 2); no row of {csv} went in: record 1 has the key 7 too"
        self.check([f".import {csv} u", "tables"], [], [f"line 1: {refused}"])
        lines = ["table t (id int)", ".begin", "insert t (1)", f".import {csv} u", "tables", ".undo", ".count t"]
        self.check(lines, ["table t (id int)", "0"], [f"line 4: {refused}"])

    def test_what_comes_after_it(self):
        csv = self.file("f.csv", "id\n7\n1\n")
        for after in (
            ["select * from u", "tabels", "delete t wher", "# a comment", "", ".mode csv", ".help undo", ".print", ".count t"],
            ["insert t (1)", "load t 5", "id", "1", "insert u (1)", "insert t ('a')", "delete u", "delete t where s = 1"],
            ["table t (id int)", "table u (id int, v ref v)", "index t id tree", "index t s hash", "index u id tree"],
            [f".load t {csv}", f".import {csv} t", ".load u x", ".commit", "update t st id = 1"],
        ):
            with self.subTest(after):
                front = ["table t (id int)", ".parameter set 1 1", "insert t (?)", ".parameter clear"]
                out, err = self.answered([*front, *after, ".undo", ".mode json", "select * from t"])
                self.assertEqual((out[-1], [line for line in err if "undone" in line]), ("[]", []))

    def test_what_cannot_be_undone(self):
        for lines, why in (
            ([], "no change was done yet"),
            (["insert t (2, 'b')", ".undo"], "nothing more can be undone"),
            (["insert t (2, 'b')", "insert t (3, 'c')", ".undo"], "nothing more can be undone"),
            (["insert t (2, 'b')", ".begin"], "no change was done since .begin"),
            ([".begin", "insert t (2, 'b')", ".commit"], "no change was done since .commit"),
            (["insert t (2, 'b')", ".begin", ".rollback"], "no change was done since .rollback"),
            (["insert t (2, 'b')", ".policy tree"], "no change was done yet"),
            (["insert t (2, 'b')", ".open"], "no change was done yet"),
        ):
            with self.subTest(lines):
                _, err = self.answered(["table t (id int, s text)", "insert t (1, 'a')", ".policy merge", *lines, ".undo"])
                self.assertEqual(err[-1], f"line {len(lines) + 4}: {why}")

    def test_in_a_transaction(self):
        front = ["table t (id int)", "insert t (1)", ".begin", "insert t (2)", "insert t (3)", "drop table t", ".undo"]
        self.check([*front, "select * from t", ".rollback", "select * from t"], ["t.id", "1", "2", "3", "t.id", "1"])
        self.check([*front, ".commit", "select * from t"], ["t.id", "1", "2", "3"])
        nothing = "line 8: nothing more can be undone"
        self.check([*front, ".undo", "insert t (5)", ".begin", ".rollback", ".commit", ".count t"], ["4"], [nothing])
        front = ["table t (id int)", "insert t (1)", "insert t (2)", ".begin", "delete t where id = 1", "delete t", ".undo"]
        self.check([*front, "select * from t", ".rollback", "select * from t"], ["t.id", "2", "t.id", "1", "2"])
        self.check([*front, ".commit", "select * from t", ".undo"], ["t.id", "2"], ["line 10: no change was done since .commit"])
        front = ["table t (id int, s text)", "insert t (1, 'a')", ".begin", "update t set s = 'b'", "update t set s = 'c'", ".undo"]
        self.check([*front, "select s from t", ".rollback", "select s from t"], ["t.s", "b", "t.s", "a"])
        self.check([*front, ".commit", "select s from t"], ["t.s", "b"])

    def test_lines_of_a_long_file(self):
        lines = [*(f"insert t ({at})" for at in range(3)), *["# a comment"] * (transactions.MOST_LINES - 4)]
        self.check(["table t (id int)", *lines, ".undo", ".count t"], ["2"])
        why = f"line {transactions.MOST_LINES + 2}: of a file or a pipe only the first 10,000 lines can be undone"
        self.check(["table t (id int)", *lines, "insert t (3)", ".undo", ".count t"], ["4"], [why])

    def test_many_changes(self):
        inserts = [f"insert t ({at})" for at in range(200)]
        for count in (63, 64, 65, 127, 128, 129, 200):
            with self.subTest(count):
                lines = ["table t (id int)", *inserts[:count], "insert t (0)", ".undo", ".count t", ".undo"]
                refused = [f"line {count + 2}: error 41 key exists: t has a row with the key 0", f"line {count + 5}: nothing more can be undone"]
                self.check(lines, [f"{count - 1}"], refused)


class Held(shells.InThisProcess):
    """What `.undo` costs: the changes that are kept are few, and it changes no answer."""

    def test_many_rows(self):
        shell = self.shell(1 << 20)
        block = "id\n" + "".join(f"{at}\n" for at in range(1_000))
        with unittest.mock.patch.object(transactions, "_MOST_ROWS", 1_500):
            self.do(shell, "table t (id int)", "table u (id int)")
            for name, rows in (("t", 1_000), ("u", 2_000), ("t", 2_000)):
                shell.run(reading.Stream(io.BytesIO(f"load {name} {len(block)}\n{block}".encode()), ""))
                self.assertEqual(shell.transactions._rows, rows)
            self.do(shell, "insert t (-1)")
            self.assertEqual([line for line, *_ in shell.transactions._kept], [b"insert t (-1)"])
            self.do(shell, ".undo", ".count t", said="1000\n")
            self.do(shell, ".parameter set 1 0", "delete t where id >= ?")
            self.assertEqual(shell.transactions._rows, 1_000)
            self.do(shell, ".parameter clear", "drop table u")
            self.assertEqual(shell.transactions._rows, 2_000)
            self.do(shell, "drop table t")
            self.assertEqual([line for line, *_ in shell.transactions._kept], [b"drop table t"])
            self.do(shell, ".undo", ".count t", said="0\n")

    def test_no_memory_for_a_transaction(self):
        shell = self.shell()
        self.do(shell, "table t (id int)", "insert t (1)")
        with unittest.mock.patch.object(shell.db, "begin", side_effect=mmdb.NoMemory(90, "no memory")):
            self.do(shell, "insert t (2)", "load t 5", "id", "3", ".count t", said="3\n")
            self.do(shell, ".undo", refused="no memory was found to undo load t 5")
            self.do(shell, ".begin", refused="error 90 no memory")
            self.do(shell, "delete t where id = 3", "insert t (3)")
            self.do(shell, f".load t {self.file('f', 'id')}", refused=f"error 90 no memory; no row of {self.room}/f went in")
        self.do(shell, ".begin", "insert t (4)")
        with unittest.mock.patch.object(shell.db, "begin", side_effect=mmdb.NoMemory(90, "no memory")):
            self.do(shell, "drop table t", "table t (id int)", "insert t (4)")
            self.do(shell, "table u (id int)")
            self.do(shell, ".undo", refused="no memory was found to undo table u (id int)")
            self.do(shell, "delete t", ".count t", said="0\n")
            self.do(shell, ".undo", refused="no memory was found to undo delete t")
        self.do(shell, ".rollback", ".count t", said="3\n")

    def test_no_memory_for_a_change_in_one(self):
        shell = self.shell()
        self.do(shell, "table t (id int)", "insert t (1)", "table u (id int, s text)", "insert u (1, 'a')")
        answered = shell.db.answer

        def answer(line, block=None):
            is_refused = line.startswith((b"insert", b"update", b"delete", b"index", b"drop")) and shell.db.in_transaction
            return b"error 90 no memory\n" if is_refused else answered(line, block)

        with unittest.mock.patch.object(shell.db, "answer", answer):
            self.do(shell, "insert t (2)", ".count t", said="2\n")
            self.do(shell, ".undo", refused="no memory was found to undo insert t (2)")
            self.do(shell, "delete t where id = 1", ".count t", said="1\n")
            self.do(shell, ".undo", refused="no memory was found to undo delete t where id = 1")
            self.do(shell, "update u set s = 'b'", "select s from u", said="u.s\nb\n")
            self.do(shell, ".undo", refused="no memory was found to undo update u set s = 'b'")
            self.do(shell, "index u s hash", "tables", said="table t (id int)\ntable u (id int, s text)\nindex u s hash\n")
            self.do(shell, ".undo", refused="no memory was found to undo index u s hash")
            self.do(shell, "drop table t", "tables", said="table u (id int, s text)\nindex u s hash\n")
            self.do(shell, ".undo", refused="no memory was found to undo drop table t")

    def test_answers_are_those_without_it(self):
        for name, stream, _ in harness.rows():
            if name == "misspellings":
                continue
            with self.subTest(name):
                told = []
                for kept in (0, 1, 64):
                    shell = self.shell(mmdb.MOST)
                    with unittest.mock.patch.object(transactions, "_MOST_CHANGES", kept):
                        shell.run(reading.Stream(io.BytesIO(stream), ""))
                    told.append((shell._out.getvalue(), shell._err.getvalue()))
                self.assertEqual(told[1:], told[:1] * 2)


class AtATerminal(shells.AtATerminal):
    """Transactions of lines that are typed."""

    def asked(self, shell, line, prompt):
        """What a line is answered, before this prompt."""
        shell.type(line + "\n")
        shell.wait_for(line + "\n")
        return shell.wait_for(f"\n{prompt}" if line.startswith("insert") else prompt)[: -len(prompt)]

    def test_the_prompt(self):
        shell = self.typed()
        shell.ask("table t (id int)")
        for line, answer, prompt in (
            (".begin", "", "mmdb*> "),
            ("insert t (1)", "ok 1\n", "mmdb*> "),
            (".begin", "", "mmdb*2> "),
            ("insert t (2)", "ok 1\n", "mmdb*2> "),
            (".rollback", "", "mmdb*> "),
            (".commit", "", "mmdb> "),
            (".commit", "no transaction is open; .begin opens one\n", "mmdb> "),
            (".count t", "1\n", "mmdb> "),
            (".begin", "", "mmdb*> "),
        ):
            self.assertEqual(self.asked(shell, line, prompt), answer)
        shell.type(".quit\n")
        shell.wait_for("a transaction was open, and ends with the database: it wasn't committed\n")
        self.assertEqual(shell.end(), 0)

    def test_undo(self):
        shell = self.typed()
        for line, answer in (
            ("table t (id int)", "ok\n"),
            ("insert t (1)", "ok 1\n"),
            ("insert t (1)", "error 41 key exists: t has a row with the key 1\n"),
            (".undo", "undone: insert t (1)\n"),
            (".undo", "nothing more can be undone\n"),
            (".count t", "0\n"),
            (f".load t {self.file('f.csv', 'id')}", f"0 rows of {self.room}/f.csv are in t\n"),
            (".undo", f"undone: .load t {self.room}/f.csv\n"),
            ("delete t", "ok 0\n"),
            (".undo", "undone: delete t\n"),
            ("table u (id int)", "ok\n"),
            (".undo", "undone: table u (id int)\n"),
            ("index t id hash", "ok\n"),
            (".undo", "undone: index t id hash\n"),
            ("index t id hash", "ok\n"),
            ("drop index t id hash", "ok\n"),
            (".undo", "undone: drop index t id hash\n"),
            ("drop table t", "ok\n"),
            (".undo", "undone: drop table t\n"),
            (".count t", "0\n"),
        ):
            self.assertEqual(shell.ask(line), answer)
        shell.type("\x04")
        self.assertEqual(shell.end(), 0)

    def test_over_several_lines_in_one(self):
        shell = self.typed()
        shell.ask("table t (id int, n int)")
        self.asked(shell, ".begin", "mmdb*> ")
        shell.type("table u (\n")
        shell.wait_for(" ...> ")
        self.assertEqual(self.asked(shell, "id int)", "mmdb*> "), "ok\n")
        self.assertEqual(self.asked(shell, "drop table u", "mmdb*> "), "ok\n")
        told = "  tabel u\n  ^\nerror 20 not a command: column 1: tabel is no command: is table meant?\n"
        self.assertEqual(self.asked(shell, "tabel u", "mmdb*> "), told)
        shell.type("ins\tt (7, 7)\n")
        shell.wait_for("ok 1\n")
        shell.type("upd\tt set n = 1\n")
        shell.wait_for("update t set n = 1\nok 1\nmmdb*> ")
        shell.type("del\tt\n")
        shell.wait_for("delete t\nok 1\nmmdb*> ")
        shell.type("\x04")
        shell.wait_for("a transaction was open, and ends with the database: it wasn't committed\n")
        self.assertEqual(shell.end(), 0)


class Spelling(unittest.TestCase):
    """What is no command is refused in a transaction as without one."""

    def test_lines_that_a_new_user_might_type(self):
        with mmdb.Database() as db:
            for line in hand.FRONT.decode().splitlines():
                db.answer(line)
            told = [self.told(db, Transactions(db), line) for line in hand.LINES]
            db.begin()
            transactions = Transactions(db)
            transactions.count = 1
            again = [self.told(db, transactions, line) for line in hand.LINES]
        self.assertGreater(sum(now.startswith("error 20 ") for now in again), 50)
        self.assertEqual(again, told)

    def told(self, db, transactions, line):
        """What is told of a line, which changes nothing."""
        before = db.answer("tables")
        try:
            return transactions.answer(line.encode()).decode()
        except mmdb.Refused as why:
            return f"error {why.number} {why.text}: {why.reason}"
        except Exception as why:
            return str(why)
        finally:
            self.assertEqual(db.answer("tables"), before, line)
