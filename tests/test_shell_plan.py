"""The shell's `.plan`: the steps of a select as a tree, then its rows and its time. That the steps are those of docs/plans.md."""

import unittest

from support import shells
from support.shells import COMPANY

TABLES = [
    *COMPANY,
    "table badge (id int, word text)",
    "index badge word hash",
    *(f"insert badge ({number}, 'word {number}')" for number in range(4)),
]
JOINED = "select emp.name, dept.name from emp join dept on emp.dept = dept.id"


class Plans(shells.Piped):
    """Each step stands below the one before it."""

    def planned(self, line, *said):
        """The steps of a select, and what is told behind them."""
        ran = self.ran([*TABLES, f".plan {line}"], *said)
        self.assertEqual(ran.stderr.decode(), "")
        *steps, last = ran.stdout.decode().splitlines()
        for depth, step in enumerate(steps[1:]):
            self.assertEqual(step[: 3 * depth + 3], "   " * depth + "└─ ")
        return [step.lstrip(" └─") for step in steps], last

    def check_steps(self, line, steps, *said):
        self.assertEqual(self.planned(line, *said)[0], steps)

    def test_one_table(self):
        steps, last = self.planned("select name from emp where id = 1")
        self.assertEqual(steps, ["search of emp by the key, 2 rows", "show the only row from where it lies"])
        self.assertRegex(last, r"^1 row in \d+\.\d{3} ms$")
        some = "show one row from where it lies, or more from a list"
        self.check_steps("select * from emp where dept = 10", ["search of emp by the tree on emp.dept, 2 rows", some])
        self.check_steps("select * from emp where id > 1", ["search of emp by a range of the key, 2 rows", some])
        self.check_steps("select * from emp where dept < 9", ["search of emp by a range of the tree on emp.dept, 2 rows", some])
        self.check_steps("select * from badge where word = 'a'", ["search of badge by the hash on badge.word, 4 rows", some])
        self.check_steps("select * from dept", ["scan of dept, 1 row", "show few rows from a list, or many in batches"])
        self.check_steps("select distinct name from emp", ["scan of emp, 2 rows", "show different rows from a list"])
        self.check_steps("select distinct name from emp where id = 1", ["search of emp by the key, 2 rows", "show different rows from a list"])

    def test_joins_of_whole_tables(self):
        links = "then join with dept by the links of emp.dept, 1 row"
        self.check_steps(JOINED, ["scan of emp, 2 rows", links, "show rows in batches"])
        back = ["scan of dept, 1 row", "then join with emp by the links of emp.dept, 2 rows", "show rows from a list"]
        self.check_steps("select emp.name from dept join emp on emp.dept = dept.id", back)
        badges = "select word from emp join badge on badge.id = emp.id"
        trees = "then join with badge by the trees on emp.id and badge.id, 4 rows"
        self.check_steps(badges, ["scan of emp, 2 rows", trees, "show rows from a list"])
        for policy, step in (
            ("scan", "by a comparison of each pair"),
            ("hash", "by a new hash on badge.id"),
            ("tree", "by the key"),
            ("merge", "by the trees on emp.id and badge.id"),
        ):
            with self.subTest(policy):
                steps = ["scan of emp, 2 rows", f"then join with badge {step}, 4 rows", "show rows from a list"]
                self.check_steps(badges, steps, "--policy", policy)

    def test_joins_of_the_rows_so_far(self):
        found, shown = "search of emp by the key, 2 rows", "show rows from a list"
        self.check_steps(f"{JOINED} where emp.id = 1", [found, "then join with dept by the links of emp.dept, 1 row", shown])
        words = "select word from emp join badge on badge.word = emp.name where emp.id = 1"
        self.check_steps(words, [found, "then join with badge by the hash on badge.word, 4 rows", shown])
        keys = "select word from emp join badge on badge.id = emp.id where emp.id = 1"
        either = "then join with badge by the key from at most 2 rows, else by a new hash on badge.id, 4 rows"
        self.check_steps(keys, [found, either, shown])
        self.check_steps(keys, [found, "then join with badge by the key, 4 rows", shown], "--policy", "tree")

    def test_parameters_and_transactions(self):
        lines = [*COMPANY, ".begin", "insert emp (3, 'Bo', 10)", ".parameter set 1 3", ".plan select name from emp where id = ?", ".rollback"]
        out = self.ran(lines).stdout.decode().splitlines()
        self.assertEqual(out[0], "search of emp by the key, 3 rows")
        self.assertTrue(out[2].startswith("1 row in "), out)

    def test_what_has_no_plan(self):
        self.check([".plan tables"], [], ["line 1: only a select has a plan"])
        self.check([".plan"], [], ["line 1: it is written .plan SELECT"])
        self.check([".plan select * from t"], [], ["line 1: error 30 no such table: t is no table"])


if __name__ == "__main__":
    unittest.main()
