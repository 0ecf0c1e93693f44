"""The binding for Python: the programs of its page, its examples, calls and values, and random streams.

What must hold: each test of test_embedding_python*.py passes by ctypes and by the extension; test_embedding_python_extension.py runs
them again.
"""

import pathlib
import random
import shutil
import subprocess
import tempfile
import threading
import unittest

from support import binding, embedding, hand, harness, model, random_streams, sizes, streams, tested
from support.binding import mmdb

SEED = 20260901
STREAMS = sizes.size(300, 10_000)
TEXTS = sizes.size(2_000, 100_000)
TABLES = sizes.size(60, 2_000)
EXAMPLES = harness.ROOT / "examples" / "python"

# A program in which an answer finds no memory: it is of 50 megabytes, and what Python takes itself is small beside one.
LITTLE_MEMORY = """
import resource
import mmdb

def held():
    return int(open("/proc/self/statm").read().split()[0]) * resource.getpagesize()

db = mmdb.Database()
db.execute("table t (id int, s text)")
for first in range(0, 50_000, 10_000):
    db.load("t", ((number, "x" * 1000) for number in range(first, first + 10_000)))
resource.setrlimit(resource.RLIMIT_AS, (held() + (1 << 20), resource.RLIM_INFINITY))
try:
    db.execute("select * from t")
except MemoryError as caught:
    why = caught
resource.setrlimit(resource.RLIMIT_AS, (resource.RLIM_INFINITY, resource.RLIM_INFINITY))
print(type(why).__name__, isinstance(why, mmdb.Refused), why, len(db.execute("select * from t")))
"""


class Programs(unittest.TestCase):
    """Programs that use the binding print what they shall."""

    def check(self, program, printed):
        ended = binding.run_python(*program)
        self.assertEqual((ended.err, ended.out, ended.status), ("", printed, 0))

    def test_the_programs_of_each_page(self):
        for page, count in (("README.md", 1), ("docs/python.md", 8)):
            found = embedding.programs(page, "python")
            self.assertEqual(len(found), count)
            for program, printed in found:
                with self.subTest(page=page, program=program):
                    self.check(["-c", program], printed)

    def test_examples(self):
        for example in sorted(EXAMPLES.glob("*.py")):
            with self.subTest(example=example.name):
                self.check([str(example)], example.with_suffix(".txt").read_text())

    def test_an_answer_that_finds_no_memory(self):
        self.check(["-c", LITTLE_MEMORY], "NoMemory True error 90 no memory: no memory was found for it, and all tables are as before 50000\n")

    def test_a_database_that_is_never_closed(self):
        self.check(["-c", "import mmdb\ndb = mmdb.Database()\nprint(db.execute('tables'))"], "\n")

    def test_no_library(self):
        tested.requires("cc")
        with tempfile.TemporaryDirectory() as folder:
            ended = binding.run_python("-c", "import mmdb", MMDB_LIBRARY=folder)
            self.assertRegex(ended.err, "ImportError: mmdb: .*libmmdb.so is missing: .*MMDB_LIBRARY")
            subprocess.run(["cc", "-shared", "-x", "c", "/dev/null", "-o", f"{folder}/libmmdb.so"], check=True)
            ended = binding.run_python("-c", "import mmdb", MMDB_LIBRARY=folder)
            self.assertRegex(ended.err, "ImportError: mmdb: .*libmmdb.so is another library")

    def test_a_library_that_is_damaged(self):
        """To load a part of one would end the process by a signal."""
        whole = (tested.library() / "libmmdb.so").read_bytes()
        with tempfile.TemporaryDirectory() as folder:
            broken = pathlib.Path(folder) / "libmmdb.so"
            for content in (b"", b"junk", b"junk" * 100, *(whole[:size] for size in (63, 64, 4096, len(whole) // 2, len(whole) - 1))):
                broken.write_bytes(content)
                with self.subTest(size=len(content)):
                    ended = binding.run_python("-c", "import mmdb", MMDB_LIBRARY=folder)
                    self.assertRegex(ended.err, "ImportError: mmdb: .*libmmdb.so is damaged: it is no library, or a part of one\n$")
                    self.assertEqual(ended.status, 1)
            broken.write_bytes(whole[:4] + b"\1" + whole[5:])
            ended = binding.run_python("-c", "import mmdb", MMDB_LIBRARY=folder)
            self.assertRegex(ended.err, "ImportError: mmdb: .*libmmdb.so can't be loaded: .*")

    def test_a_library_beside_the_package(self):
        with tempfile.TemporaryDirectory() as folder:
            shutil.copytree(binding.FOLDER / "mmdb", f"{folder}/mmdb", ignore=shutil.ignore_patterns("*.so"))
            shutil.copy(tested.library() / "libmmdb.so", folder)
            program = "import mmdb; print(mmdb.__path__, mmdb.Database().execute('tables'))"
            ended = binding.run_python("-c", program, MMDB_LIBRARY="", PYTHONPATH=folder)
        self.assertEqual((ended.err, ended.out), ("", f"['{folder}/mmdb'] \n"))


class Calls(binding.WithDatabase):
    """What each call gives."""

    def test_what_execute_gives(self):
        for line, given in [
            ("tables", ""),
            ("table t (id int, s text)", None),
            ("index t s hash", None),
            ("tables", "table t (id int, s text)\nindex t s hash\n"),
            ("insert t (1, 'a')", 1),
            ("update t set s = 'b' where id > 1", 0),
            ("# a comment, is it?", None),
            (" \t", None),
            ("", None),
            ("select * from t", [[1, "a"]]),
            ("dump t", "load t 9\nid,s\n1,a\n"),
            ("delete t", 1),
            ("drop index t s hash", None),
            ("drop table t", None),
        ]:
            with self.subTest(line=line):
                self.assertEqual(self.db.execute(line), given)

    def test_commands_over_several_lines(self):
        self.db.execute("""
            # the words
            table t (
                id int,
                s text
            )
        """)
        self.assertEqual(self.db.execute("tables\n"), "table t (id int, s text)\n")
        for line, parameters, found in (
            ("\n\n# it's a comment\n  insert t\n\t(?, 'it''s ?')\n# ? :s 'a\n", (1,), 1),
            ("insert\r\nt (?,\r\n?)\r\n", (2, "b\n"), 1),
            ("insert t (3, '#')", (), 1),
            ("select s\nfrom t where\n id = ?", (2,), [("b\n",)]),
            ("select s\nfrom t\nwhere id = 1 and s <> '# '", (), [("it's ?",)]),
            ("delete t\n# where\nwhere id = 3", (), 1),
            ("# delete t\n# where id = 1", (), None),
            ("\n", (), None),
            ("\n \r\n#", (), None),
        ):
            for _ in range(2):
                with self.subTest(line=line):
                    self.assertEqual(self.db.execute(line, *parameters), found)
                if type(found) is int:
                    break
        with self.db.prepare("select id\nfrom t\nwhere s = :s\n") as statement:
            self.assertEqual((statement.execute(s="b\n"), statement.line.count("\n")), ([(2,)], 3))
        self.assertEqual(self.db.select("\n  select id\n  from t\n"), [(1,), (2,)])
        self.assertEqual(self.db.executemany("insert t\n(?, ?)", [(4, "d"), (5, "e")]), 2)
        self.assertEqual(self.db.change("\ndelete t"), 4)
        with self.assertRaisesRegex(TypeError, "begins with tables"):
            self.db.select("\n# a\ntables")

    def test_a_refusal_of_a_command_over_several_lines(self):
        self.db.execute("table t (id int, s text)")
        for line, shown in (
            ("select *\nfrom t\nwhere id == 1", ["where id == 1", "          ^"]),
            ("# a\n  selct *\n  from t", ["  selct *", "  ^"]),
            ("select *\nfrom t\n# all\nwhere", ["where", "     ^"]),
            ("table u (\n  id int,\n  id2 in\n)", ["  id2 in", "      ^"]),
        ):
            with self.subTest(line=line):
                why = self.refused(20, self.db.execute, line)
                self.assertEqual((why.written, str(why).split("\n")[1:]), (line, [f"  {each}" for each in shown]))
        why = self.refused(35, self.db.execute, "insert t (\n  :id,\n  :s\n)", id=1, s=2)
        self.assertEqual(str(why).split("\n")[1:], ["    :s", "    ^"])
        self.assertEqual(why.line, "insert t (   1,   2 )")

    def test_rows_have_the_names_of_their_columns(self):
        self.db.execute("table t (id int, s text)")
        self.assertEqual(self.db.execute("select s, id from t").names, ("t.s", "t.id"))
        self.assertEqual(self.db.dump("t").names, ("id", "s"))

    def test_how_indexes_stand(self):
        with mmdb.Database() as db:
            db.execute("table t (id int, n int)")
            empty = mmdb.Index("id", "tree", 0, 0, 0, 0, None, None)
            self.assertEqual(db.indexes("t"), [empty])
            for line in ("index t n hash", "index t n tree"):
                db.execute(line)
            db.load("t", ([number, 7] for number in range(1000)))
            key, hashed, declared = db.indexes("t")
            self.assertEqual([index[:3] for index in (key, hashed, declared)], [("id", "tree", 1000), ("n", "hash", 1000), ("n", "tree", 1000)])
            self.assertEqual(hashed[3:], (None, None, None, 500, 1000))
            for tree in (key, declared):
                self.assertTrue(1000 // 32 < tree.nodes < 2**tree.height and tree.fill == 1000 // tree.nodes and tree[6:] == (None, None))

    def test_changes_raise_the_numbers_of_tables(self):
        self.db.execute("table t (id int)")
        self.db.execute("table u (id int)")
        before = [self.db.version(), self.db.version("t"), self.db.version("u")]
        self.db.execute("insert t (1)")
        self.refused(41, self.db.execute, "insert t (1)")
        after = [self.db.version(), self.db.version("t"), self.db.version("u")]
        self.assertTrue(after[0] > before[0] and after[1] > before[1] and after[2] == before[2])
        self.refused(30, self.db.version, "a_name_that_takes_memory")
        with self.assertRaises(RuntimeError), self.db.transaction():
            self.db.execute("insert u (1)")
            raise RuntimeError
        self.assertGreater(self.db.version("u"), after[2])

    def test_the_plan_of_a_select(self):
        self.db.execute("table t (id int, s text)")
        self.db.load("t", [(1, "a"), (2, "b")])
        plan = ["search of t by the key, 2 rows", "show the only row from where it lies"]
        self.assertEqual(self.db.plan("select s from t where id = 1"), plan)
        self.assertEqual(self.db.plan("select s from t where id = ?", 3), plan)
        self.assertEqual(self.db.plan("select s from t where id = :id", id=3), plan)
        self.refused(30, self.db.plan, "select * from u")
        self.refused_without_reason(20, self.db.plan, "delete t")
        self.assertEqual(len(self.db.dump("t")), 2)

    def test_refusals(self):
        self.db.execute("table t (id int)")
        self.db.execute("insert t (1)")
        self.refused(20, self.db.execute, "insert t (1")
        self.refused(30, self.db.execute, "select * from u")
        self.refused(30, self.db.load, "u", [])
        self.refused(30, self.db.load_dicts, "u", [{}])
        self.refused(30, self.db.dump, "u")
        self.refused(30, self.db.load_csv, "u", "id\n")
        self.refused(61, self.db.load_csv, "t", "")
        for number, line, call, *given in (
            (41, "insert t (1)", self.db.execute, "insert t (?)", 1),
            (35, "insert t ('it''s')", self.db.change, "insert t (?)", "it's"),
            (32, "select a from t", self.db.select, "select a from t"),
            (41, "load t 6", self.db.load, "t", [(2,), (1,)]),
            (20, "dump t t", self.db.dump, "t t"),
        ):
            with self.subTest(line=line):
                self.assertEqual(self.refused(number, call, *given).line, line)
        self.assertEqual(self.refused(41, self.db.load, "t", [(2,), (1,)]).text, "key exists (record 2)")
        with self.assertRaisesRegex(mmdb.Refused, "^error 62 bad record 2: the field of id is x, "):
            self.db.load_csv("t", b"id\n2\nx\n")
        self.assertEqual(self.db.dump("t"), [[1]])

    def test_select_and_change(self):
        self.assertIsNone(self.db.execute("table t (id int, s text)"))
        self.assertEqual(self.db.change("insert t (?, ?)", 1, "a"), 1)
        self.assertEqual(self.db.change("\tupdate t set s = :s", s="b"), 1)
        found = self.db.select(" select s from t where id = ?", 1)
        self.assertEqual((type(found), found.names, found), (mmdb.Rows, ("t.s",), [["b"]]))
        self.assertEqual(self.db.change("delete t where id > 1"), 0)

    def test_count(self):
        self.db.execute("table t (id int, s text)")
        self.db.load("t", [(id, f"text {id % 3}") for id in range(200)])
        self.assertEqual([self.db.count(f"select {what} from t") for what in ("*", "id", "distinct s")], [200, 200, 3])
        for most in (0, 7, 200):
            self.assertEqual(self.db.count("select * from t where id < ? and s = ?", most, "text 1"), (most + 1) // 3)
            self.assertEqual(self.db.count("select *\n# all\nfrom t where id < :most", most=most), most)
        with self.db.prepare("select distinct s from t where id >= :id") as select:
            rows = select.execute(id=198)
            self.assertEqual((select.count(id=0), select.count({"id": 199}), rows), (3, 1, [("text 0",), ("text 1",)]))
        with self.assertRaisesRegex(ValueError, "closed"):
            select.count(id=0)
        self.assertEqual(self.db.count("select * from t where id = ?", True), 1)

    def test_a_count_that_is_refused(self):
        self.db.execute("table t (id int)")
        for line in ("delete t", "insert t (2)", "tables", "# select", ""):
            with self.subTest(line=line), self.assertRaisesRegex(TypeError, "count takes a line that begins with select"):
                self.db.count(line)
        insert = self.db.prepare("insert t (1)")
        with self.assertRaisesRegex(TypeError, "count takes a line that begins with select"):
            insert.count()
        self.refused(30, self.db.count, "select * from u")
        refused = self.refused(35, self.db.count, "select * from t where id = ?", "a")
        self.assertEqual(refused.line, "select * from t where id = 'a'")
        self.assertRegex(refused.reason, "^column 28: ")
        with self.assertRaises(ValueError):
            self.db.count("select * from t where id = ?", 1, 2)
        self.assertEqual(self.db.count("select * from t"), 0)

    def test_lines_of_another_kind(self):
        self.db.execute("table t (id int)")
        self.db.execute("insert t (1)")
        for line in ("delete t", "insert t (2)", " drop table t", "tables", "dump t", "load t 0", "# select", "", " ", "\r"):
            with self.subTest(line=line), self.assertRaisesRegex(TypeError, "select takes a line that begins with select"):
                self.db.select(line)
        for call in (self.db.change, lambda line: self.db.executemany(line, [()])):
            for line in ("select * from t", "\tdrop table t", "index t id hash", "tables", "#delete t", "", " \r"):
                with self.subTest(line=line), self.assertRaisesRegex(TypeError, "a line that begins with insert, update, delete"):
                    call(line)
            for line in ("deletes t", "Delete t", "? t", ":delete t", "\ufeffdelete t", "(delete t)"):
                with self.subTest(line=line), self.assertRaises((mmdb.Refused, ValueError)):
                    call(line)
        for line in (b"delete t", None, 5, ["delete t"]):
            for call in (self.db.execute, self.db.select, self.db.count, self.db.change):
                with self.subTest(line=line), self.assertRaisesRegex(TypeError, "a line is a str"):
                    call(line)
        self.assertEqual(self.db.dump("t"), [[1]])

    def test_executemany(self):
        self.db.execute("table t (id int, s text)")
        self.assertEqual(self.db.executemany("insert t (?, ?)", [(1, "a"), [2, "b"]]), 2)
        self.assertEqual(self.db.executemany("insert t (:id, :s)", ({"s": str(id), "id": id} for id in (3, 4))), 2)
        self.assertEqual(self.db.executemany("update t set s = ? where id > ?", self.db.select("select s, id from t")), 6)
        self.assertEqual(self.db.executemany("delete t where id = ?", []), 0)
        self.assertEqual(self.db.dump("t"), [[1, "a"], [2, "a"], [3, "b"], [4, "3"]])

    def test_executemany_with_a_row_that_is_wrong(self):
        self.db.execute("table t (id int, s text)")
        for wrong, row, why in (
            (ValueError, (2,), "2 places for 1 parameters .row 2."),
            (ValueError, {"id": 2}, "no place :id .row 2."),
            (ValueError, (2, "\ud800"), "surrogate.* .row 2."),
            (ValueError, (2**63, "b"), "64 bits .row 2."),
            (TypeError, (2, 2.5), "not float.* .row 2."),
            (TypeError, "ab", "not str .row 2."),
            (TypeError, {1, 2}, "not set .row 2."),
            (TypeError, 7, "not int .row 2."),
        ):
            with self.subTest(row=row), self.assertRaisesRegex(wrong, why):
                self.db.executemany("insert t (?, ?)", [(1, "a"), row])
        self.assertEqual(self.db.dump("t"), [])
        why = self.refused(41, self.db.executemany, "insert t (?, ?)", [(1, "a"), (2, "b"), (1, "it's"), (3, "c")])
        self.assertEqual(why.line, "insert t (1, 'it''s')")
        self.assertEqual(self.db.dump("t"), [[1, "a"], [2, "b"]])

    def test_executemany_of_many_rows(self):
        self.db.execute("table dept (id text)")
        self.db.execute("table t (id int, s text, dept ref dept null)")
        texts = ("", "plain", "it's", "two\nlines\r", 'a "quoted", one', "\u20ac", "\0")
        depts = [f"dept {number}, {text}" for number, text in enumerate(texts)]
        rows = [(number * 7919 % 3000, texts[number % 7], depts[number % 5] if number % 3 else None) for number in range(3000)]
        self.assertEqual(self.db.executemany("insert dept (?)", [(dept,) for dept in depts] + [(f"{n}",) for n in range(300)]), 307)
        self.assertEqual(self.db.executemany(" insert\tt(? ,?, ?) ", rows[:1000]), 1000)
        self.assertEqual(self.db.executemany("insert t (:id, :s, :dept)", [dict(zip(("id", "s", "dept"), row)) for row in rows[1000:2000]]), 1000)
        self.assertEqual(self.db.prepare("insert t (?, ?, ?)").executemany(rows[2000:]), 1000)
        self.assertEqual(self.db.dump("t"), sorted(map(list, rows)))

    def test_executemany_of_many_rows_of_which_one_is_refused(self):
        self.db.execute("table dept (id text)")
        self.db.executemany("insert dept (?)", [("",), ("d",)])
        self.db.execute("table t (id int, s text, dept ref dept null)")
        for number, row, line in (
            (41, (7, "b", None), "insert t (7, 'b', null)"),
            (42, (500, "b", "x"), "insert t (500, 'b', 'x')"),
            (46, (500, "x" * 1025, None), f"insert t (500, '{'x' * 1025}', null)"),
            (35, (500, 1, None), "insert t (500, 1, null)"),
        ):
            with self.subTest(number=number):
                rows = [(id, "a", "d" if id % 2 else None) for id in range(500)] + [row, (501, "c", None)]
                why = self.refused(number, self.db.executemany, "insert t (?, ?, ?)", rows)
                self.assertEqual(why.line, line)
                self.assertEqual(self.db.dump("t"), [list(row) for row in rows[:500]])
                self.db.execute("delete t")
        for wrong, row in ((TypeError, (500, 2.5, None)), (ValueError, (500, "b")), (ValueError, (2**63, "b", None))):
            with self.subTest(row=row), self.assertRaisesRegex(wrong, ".row 501."):
                self.db.executemany("insert t (?, ?, ?)", [(id, "a", None) for id in range(500)] + [row])
        self.refused(30, self.db.executemany, "insert u (?)", [(id,) for id in range(500)])
        self.refused(45, self.db.executemany, "insert t (?)", [(id,) for id in range(500)])
        self.assertEqual(self.db.dump("t"), [])
        self.assertEqual(self.db.executemany("insert t (?, '', ?)", [(id, "d") for id in range(500)]), 500)
        # (a load would read this text as null)
        self.assertEqual(self.db.executemany("insert t (?, ?, ?)", [(id, "a", "") for id in range(500, 1000)]), 500)
        self.assertEqual(self.db.count("select id from t where dept = ''"), 500)

    def test_limits(self):
        with mmdb.Database(rows=2, block=6) as db:
            db.execute("table t (id int)")
            self.assertEqual(db.load("t", [(1,)]), 1)
            self.assertEqual(db.execute("insert t (2)"), 1)
            self.refused(43, db.execute, "insert t (3)")
            self.refused(64, db.execute, "dump t")
            self.assertEqual(db.dump("t"), [[1], [2]])
            self.refused(12, db.load, "t", [(1_000,)])
        for how in ({"rows": 0}, {"rows": mmdb.MOST + 1}, {"block": -1}, {"block": mmdb.MOST + 1}, {"rows": 2**32 + 1}):
            with self.assertRaises(ValueError):
                mmdb.Database(**how)
        with self.assertRaises(ValueError):
            mmdb.Database("fast")

    def test_a_closed_database(self):
        self.db.execute("table t (id int)")
        self.assertFalse(self.db.closed)
        self.db.close()
        self.db.close()
        self.assertTrue(self.db.closed)
        for call in (
            lambda: self.db.execute("tables"),
            lambda: self.db.execute(""),
            lambda: self.db.select("select * from t"),
            lambda: self.db.count("select * from t"),
            lambda: self.db.change("insert t (:id)", id=1),
            lambda: self.db.executemany("insert t (?)", [(1,)]),
            lambda: self.db.load_dicts("t", [{"id": 1}]),
            lambda: self.db.answer(b""),
            lambda: self.db.answer("load t 0", b""),
            lambda: self.db.reason("tables"),
            lambda: self.db.load("t", [(1,)]),
            lambda: self.db.load_csv("t", "id\n"),
            lambda: self.db.dump("t"),
        ):
            with self.assertRaisesRegex(ValueError, "closed"):
                call()

    def test_columns_are_known_anew_after_each_declaration(self):
        for kind, value in (("int", 1), ("text", "1"), ("int", 1)):
            self.db.execute(f"table t (id int, v {kind})")
            self.db.execute("insert t (1, ?)", value)
            self.assertEqual(self.db.execute("select v from t"), [[value]])
            self.db.answer(b"drop table t", b"" if kind == "text" else None)

    def test_threads_share_a_database(self):
        self.db.execute("table t (id int, s text)")

        def insert(first):
            for number in range(first, first + 300):
                self.db.execute("insert t (?, ?)", number, str(number))
                rows.append(self.db.execute("select s from t where id = ?", number))

        rows = []
        threads = [threading.Thread(target=insert, args=(first,)) for first in range(0, 1_200, 300)]
        for thread in threads:
            thread.start()
        for thread in threads:
            thread.join()
        self.assertEqual(sorted(int(row[0][0]) for row in rows), list(range(1_200)))
        self.assertEqual(self.db.dump("t"), [[number, str(number)] for number in range(1_200)])


class Reasons(binding.WithDatabase):
    """Each refusal has the library's reason."""

    def setUp(self):
        super().setUp()
        for line in hand.FRONT.decode().splitlines():
            self.db.execute(line)

    def test_lines_that_a_new_user_might_type(self):
        for line, told in zip(hand.LINES, hand.TOLD, strict=True):
            # (in Python a line with ? or :id has places, and wants parameters)
            if "?" in line or ":id" in line:
                continue
            with self.subTest(line=line):
                self.assertEqual(str(self.refused(int(told[6:8]), self.db.execute, line)).split("\n")[0], told)

    def test_the_line_has_a_caret_below_the_place(self):
        for line, given, shown, caret in (
            ("selct * from emp", {}, "selct * from emp", "^"),
            ("select * frm emp", {}, "select * frm emp", "         ^"),
            ("select *\tfrm emp", {}, "select * frm emp", "         ^"),
            ("insert dept (:id, :name)", {"id": 10, "name": "a"}, "insert dept (:id, :name)", "             ^"),
            ("delete dept where name = '日本' und id = 1", {}, "delete dept where name = '日本' und id = 1", " " * 32 + "^"),
            ("select " + "name, " * 40 + "? from emp", {}, "…" + ("name, " * 40)[-48:] + "? from emp", " " * 49 + "^"),
            ("select ? " + "x" * 90, {}, "select ? " + "x" * 28 + "…", "       ^"),
        ):
            with self.subTest(line=line):
                with self.assertRaises(mmdb.Refused) as raised:
                    self.db.execute(line, None) if "?" in line else self.db.execute(line, **given)
                _, first, second = str(raised.exception).split("\n")
                self.assertEqual((first, second), (f"  {shown}", f"  {caret}"))

    def test_no_caret_without_a_place(self):
        for line in ("select * from nowhere", "insert dept (10, 'a')", "select salary from dept"):
            with self.subTest(line=line):
                self.assertNotIn("\n", str(self.refused_somehow_of(line)))
        self.assertNotIn("\n", str(mmdb.Refused(20, "not a command", None, "column 1: nothing")))

    def refused_somehow_of(self, line):
        with self.assertRaises(mmdb.Refused) as raised:
            self.db.execute(line)
        return raised.exception

    def test_each_call(self):
        there, nowhere = "dept has a row with the key 10", "emp is no table"
        bound = f"column 14: {there}"
        self.db.execute("drop table emp")
        rows = [(30, "hats"), (10, "bags")]
        for number, reason, call, *given in (
            (41, bound, self.db.execute, "insert dept (?, ?)", *rows[1]),
            (41, bound, self.db.change, "insert dept (:id, :name)", {"id": 10, "name": "bags"}),
            (41, bound, self.db.executemany, "insert dept (?, ?)", rows),
            (41, there, self.db.load, "dept", rows),
            (41, there, self.db.load_dicts, "dept", [{"name": "bags", "id": 10}]),
            (41, there, self.db.load_csv, "dept", "id,name\n10,bags\n"),
            (30, nowhere, self.db.select, "select * from emp"),
            (30, nowhere, self.db.load, "emp", []),
            (30, nowhere, self.db.load_dicts, "emp", []),
            (30, nowhere, self.db.dump, "emp"),
            (30, nowhere, self.db.indexes, "emp"),
            (30, nowhere, self.db.version, "emp"),
            (30, nowhere, self.db.plan, "select * from emp"),
        ):
            self.db.execute("delete dept where id = 30")
            with self.subTest(call=call.__name__, number=number):
                self.assertEqual(self.refused(number, call, *given).reason, reason)

    def test_of_an_answer(self):
        self.assertEqual(self.db.answer("insert dept (10, 'a')"), b"error 41 key exists\n")
        self.assertEqual(self.db.reason("insert dept (10, 'a')"), "dept has a row with the key 10")
        self.assertEqual(self.db.answer(b"load dept 7", b"name,id"), b"error 61 bad header\n")
        self.assertEqual(self.db.reason(b"load dept 7", b"name,id"), "field 1 of the header is name, and column 1 is id")
        for line in ("tables", "# a comment", ""):
            self.db.answer(line)
            self.assertIsNone(self.db.reason(line))

    def test_of_the_tables_as_they_were(self):
        """Another thread that changes them doesn't come between a refusal and its reason."""
        is_over = threading.Event()

        def change():
            while not is_over.is_set():
                self.db.change("delete dept where id = 30")
                self.db.answer("insert dept (30, 'hats')")

        other = threading.Thread(target=change)
        other.start()
        try:
            for _ in range(200):
                self.db.answer("delete dept where id = 30")
                try:
                    while self.db.change("insert dept (30, 'bags')"):
                        pass
                except mmdb.Refused as why:
                    self.assertEqual(why.reason, "dept has a row with the key 30")
        finally:
            is_over.set()
            other.join()


class Parameters(binding.WithDatabase):
    """A parameter is one value, whatever it holds."""

    def setUp(self):
        super().setUp()
        self.db.execute("table t (id int, s text)")

    def test_random_texts_stay_in_their_places(self):
        draw = random.Random(SEED)
        expected = {}
        for number in range(TEXTS):
            text = embedding.text(draw)
            with self.subTest(text=text):
                self.assertEqual(self.db.execute("insert t (?,?)", number, text), 1)
                expected[number] = text
                found = self.db.execute("select s, id from t where s = ? and id = ? and s <> '?'", text, number)
                self.assertEqual(found, [] if text == "?" else [[text, number]])
                if draw.random() < 0.5:
                    expected[number] = text if text == ":s" else text + "':s"
                    line = "update t set s = :new where id = :id and s=:s and s <> ':s'"
                    changed = self.db.change(line, {"id": number, "s": text, "new": text + "':s"})
                    self.assertEqual(changed, text != ":s")
        self.assertEqual(self.db.dump("t"), [[number, text] for number, text in expected.items()])
        self.assertEqual(self.db.execute("tables"), "table t (id int, s text)\n")

    def test_texts_that_are_none(self):
        draw = random.Random(SEED)
        self.db.execute("insert t (1, 'a')")
        for _ in range(200):
            text = embedding.text(draw) + draw.choice(["\ud800", "\udfff", "\udc80"]) + embedding.text(draw)
            with self.subTest(text=text):
                for line in ("insert t (2, ?)", "delete t where s <> ?", "select * from t where s = ?", "drop table ?"):
                    with self.assertRaisesRegex(ValueError, "lone surrogate"):
                        self.db.execute(line, text)
                    with self.assertRaisesRegex(ValueError, "lone surrogate"):
                        self.db.execute(line.replace("?", ":s"), s=text)
        self.assertEqual(self.db.dump("t"), [[1, "a"]])

    def test_texts_with_line_feeds_are_inserted(self):
        draw = random.Random(SEED)
        texts = [embedding.text(draw) + draw.choice(embedding.LINE_FEEDS) + embedding.text(draw) for _ in range(200)]
        for number, text in enumerate(texts):
            with self.subTest(text=text):
                self.assertEqual(self.db.execute("insert t (?, ?)", number, text), 1)
                self.assertEqual(self.db.select("select s from t where id = :id", id=number), [[text]])
        self.assertEqual(self.db.dump("t"), [list(row) for row in enumerate(texts)])
        why = self.refused(41, self.db.execute, "insert t (?, ?)", 1, "b\nc")
        self.assertEqual((why.line, why.reason), ("insert t (1, 'b\nc')", "column 11: t has a row with the key 1"))

    def test_texts_with_line_feeds_are_found_and_set(self):
        draw = random.Random(SEED)
        self.db.execute("insert t (1, '')")
        for _ in range(200):
            text = embedding.text(draw) + draw.choice(embedding.LINE_FEEDS) + embedding.text(draw)
            with self.subTest(text=text):
                self.assertEqual(self.db.change("update t set s = ? where s <> ?", text, text), 1)
                self.assertEqual(self.db.select("select * from t where s = ?", text), [[1, text]])
                self.assertEqual(self.db.change("delete t where s < :s", s=text), 0)
                self.assertEqual(self.db.change("update t set s = '' where s = :s", s=text), 1)

    def test_no_other_command_takes_a_line_feed(self):
        for line in ("drop table ?", "tables ?", "? t"):
            with self.subTest(line=line), self.assertRaisesRegex(ValueError, "line feed"):
                self.db.execute(line, "a\nb")

    def test_a_parameter_runs_into_nothing_beside_it(self):
        for line, *given in (
            ("insert t (1, 'a'?)", "b"),
            ("insert t (1, ?'a')", "b"),
            ("insert t (1, ??)", "a", "b"),
            ("insert t (1?, 'a')", 2),
            ("insert t (?1, 'a')", 2),
            ("insert t (??, 'a')", 1, 2),
            ("insert t (-?, 'a')", 2),
            ("select s? from t", 1),
            ("select * from t?", None),
            ("? t", None),
            ("select * from ?", "t"),
            ("drop table ?", "t"),
            ("insert t (1, 'a'); ?", None),
            ("insert t (?, 'open", 1),
        ):
            with self.subTest(line=line):
                self.refused(20, self.db.execute, line, *given)
        for line in ("insert t (1:s, 'a')", "insert t (:s:s)", "insert t (1, 'a':s)", "insert t (1, :s'a')", ":s t"):
            with self.subTest(line=line):
                self.refused(20, self.db.execute, line, s="a")
        self.assertEqual(self.db.dump("t"), [])

    def test_places(self):
        for line, *given in (
            ("insert t (?, 'a')",),
            ("insert t (1, 'a')", 1),
            ("insert t (?, '?')", 1, 2),
            ("insert t (?, 'it''s ?')", 1, 2),
            ("insert t (?, ?)", 1),
            ("# ?", 1),
        ):
            with self.subTest(line=line), self.assertRaisesRegex(ValueError, "places for"):
                self.db.execute(line, *given)
        self.assertEqual(self.db.execute("insert t (?, 'it''s ? %s')", 1), 1)
        self.assertEqual(self.db.execute("insert t (2, '?')"), 1)
        self.assertEqual(self.db.dump("t"), [[1, "it's ? %s"], [2, "?"]])

    def test_places_with_names(self):
        self.assertEqual(self.db.execute("insert t (:line, 'it''s :s %s')", line=1), 1)
        self.assertEqual(self.db.execute("insert t (:self,:größe)", {"self": 2, "größe": ":s"}), 1)
        self.assertEqual(self.db.execute("insert t (3, '12:30')"), 1)
        self.assertEqual(self.db.select("select id from t where id>=:x and id<=:x and id <> :y", x=2, y=3), [[2]])
        self.assertIsNone(self.db.execute("# :x"))
        self.refused(20, self.db.execute, "insert t (4, 12:30)")
        self.assertEqual(self.db.dump("t"), [[1, "it's :s %s"], [2, ":s"], [3, "12:30"]])

    def test_names_that_do_not_fit(self):
        both = {"id": 1, "s": "a"}
        for why, line, given, named in (
            ("no parameter is given for :id, :s$", "insert t (:id, :s)", (), {}),
            ("no parameter is given for :s$", "insert t (:id, :s)", (), {"id": 1}),
            ("no parameter is given for :s$", "delete t where s = :s or s <> :s", ({},), {}),
            ("no place :Id$", "insert t (:id, :s)", (), {**both, "Id": 1}),
            ("no place :x$", "insert t (:id, :s)", ({**both, "x": 1},), {}),
            ("no place :s$", "insert t (:id, ':s')", (both,), {}),
            ("no place :id, :s$", "insert t (?, ?)", (), both),
            ("no place :id, :s$", "tables", (both,), {}),
            ("by its name", "insert t (:id, :s)", (1, "a"), {}),
            ("by its name", "insert t (:id, :s)", ((1, "a"),), {}),
            ("by its name", "insert t (?, ?)", (1,), {"s": "a"}),
            ("by its name", "insert t (:id, :s)", ({"id": 1},), {"s": "a"}),
            ("places of both kinds", "insert t (?, :s)", (1,), {"s": "a"}),
        ):
            with self.subTest(line=line, given=given, named=named), self.assertRaisesRegex(ValueError, why):
                self.db.execute(line, *given, **named)
        self.assertEqual(self.db.dump("t"), [])

    def test_a_sequence_in_the_place_of_parameters(self):
        for line in ("insert t (?, ?)", "delete t where id = ?", "delete t"):
            for values in ((1, "a"), [1, "a"], (1,), ()):
                with self.subTest(line=line, values=values), self.assertRaisesRegex(TypeError, r"pass \*values"):
                    self.db.execute(line, values)

    def test_values_of_no_type(self):
        for value in (1.0, b"a", (), [1], {}, 1j):
            with self.subTest(value=value):
                with self.assertRaises(TypeError):
                    self.db.execute("insert t (1, ?)", value)
                with self.assertRaises(TypeError):
                    self.db.execute("insert t (1, :s)", s=value)
                with self.assertRaises(TypeError):
                    self.db.load("t", [(value, "a")])
                with self.assertRaises(TypeError):
                    self.db.load("t", [(1, value)])
        for value in (None, "1"):
            with self.assertRaises(TypeError):
                self.db.load("t", [(value, "a")])
        for value in (None, 1):
            with self.assertRaises(TypeError):
                self.db.load("t", [(1, value)])
        self.assertEqual(self.db.dump("t"), [])

    def test_integers_of_64_bits(self):
        for value in (-(2**63), 2**63 - 1):
            self.assertEqual(self.db.execute("insert t (?, '')", value), 1)
        self.assertEqual(self.db.load("t", [(1 - 2**63, ""), (2**63 - 2, "")]), 2)
        for value in (-(2**63) - 1, 2**63, 10**5000):
            with self.assertRaises(ValueError):
                self.db.execute("insert t (?, '')", value)
            with self.assertRaises(ValueError):
                self.db.load("t", [(value, "")])
        self.assertEqual([row[0] for row in self.db.dump("t")], [-(2**63), 1 - 2**63, 2**63 - 2, 2**63 - 1])

    def test_lines_are_one_request(self):
        for line in ("load t 9", "load t 99999999999", "load t\n9", "insert t (1, 'a\n')", "insert t (1,\n'it''s\n')"):
            with self.subTest(line=line), self.assertRaises(ValueError):
                self.db.execute(line)
        self.refused(20, self.db.execute, "insert t (1, 'a')\ndelete t")
        for line, block in (("load t 3", b"ab"), ("load t 3", b""), ("tables", b"a"), ("load t 3\n", b"abc")):
            with self.subTest(line=line), self.assertRaises(ValueError):
                self.db.answer(line, block)
        for line, block in ((5, None), (None, None), ([100], None), ("load t 3", 3), ("load t 3", [1, 2, 3])):
            with self.subTest(line=line), self.assertRaisesRegex(TypeError, "bytes or a str are wanted"):
                self.db.answer(line, block)
        for name in ("t 4", "t\n", "t 4\n", "t 4 #"):
            with self.subTest(name=name), self.assertRaises((ValueError, mmdb.Refused)):
                self.db.load_csv(name, "id,s\n1,a\n")
        self.assertEqual(self.db.dump("t"), [])


class Types(binding.WithDatabase):
    """Each value comes back as it went in, by execute, load and dump."""

    DECLARED = ["table u (k text)", "table v (k int)", "table e (id int, s text, u ref u null, v ref v null, w ref u)"]

    def fill(self, draw, keys):
        """Fills the three tables, and gives the rows of the last."""
        for line in self.DECLARED:
            self.db.execute(line)
        self.db.load("u", [(key,) for key in keys])
        self.db.load("v", [(key,) for key in range(-3, 4)])
        rows = []
        for number in range(draw.randrange(1, 30)):
            or_null = [draw.choice([None, *keys]), draw.choice([None, *range(-3, 4)])]
            row = [number, embedding.text(draw), *or_null, draw.choice(keys)]
            self.db.execute("insert e (?, ?, ?, ?, ?)", *row)
            rows.append(row)
        return rows

    def test_random_tables(self):
        draw = random.Random(SEED)
        for number in range(TABLES):
            keys = list({embedding.text(draw) or "0" for _ in range(6)})
            with self.subTest(number=number):
                rows = self.fill(draw, keys)
                self.assertEqual(self.db.execute("select * from e"), rows)
                for place, name in enumerate(("id", "s", "u", "v", "w")):
                    self.assertEqual(self.db.execute(f"select {name} from e"), [[row[place]] for row in rows])
                of_null = [[row[3], row[1]] for row in rows if row[2] is None]
                self.assertEqual(self.db.execute("select v, s from e where u = null"), of_null)
                self.assertEqual(self.db.dump("e"), rows)
                self.db.execute("delete e")
                more = [[row[0], row[1] + "\n\r\n", *row[2:]] for row in rows]
                self.assertEqual(self.db.load("e", more), len(more))
                self.assertEqual(self.db.execute("select * from e"), more)
                self.assertEqual(self.db.dump("e"), more)
                for table in ("e", "v", "u"):
                    self.db.execute(f"drop table {table}")

    def test_texts_that_look_like_others(self):
        self.db.execute("table t (s text)")
        texts = sorted(["", "0", "-0", "007", "12", "-7", "9223372036854775808", "null", " ", "''", '""', "1,2"])
        self.assertEqual(self.db.load("t", [(text,) for text in texts]), len(texts))
        self.assertEqual(self.db.execute("select * from t"), [[text] for text in texts])
        self.assertEqual(self.db.dump("t"), [[text] for text in texts])
        self.assertEqual(self.db.execute("select * from t where s = ''"), [[""]])

    def test_null_and_the_empty_text(self):
        rows = self.fill(random.Random(SEED), ["", "a"])
        self.assertTrue(any(row[2] == "" for row in rows) and any(row[2] is None for row in rows))
        self.assertEqual(self.db.execute("select * from e"), rows)
        self.assertEqual(self.db.dump("e"), rows)
        self.assertEqual(self.db.execute("select id, v, w from e"), [[row[0], row[3], row[4]] for row in rows])
        for value in (None, ""):
            found = self.db.execute(f"select id from e where u = {'null' if value is None else repr(value)}")
            self.assertEqual(found, [[row[0]] for row in rows if row[2] == value])
            self.assertEqual(self.db.execute("select id from e where u = ?", value), found)
        with self.assertRaisesRegex(ValueError, "empty text as null"):
            self.db.load("e", [(100, "", "", None, "")])
        self.assertEqual(self.db.dump("e"), rows)


class Streams(unittest.TestCase):
    """Each request of random streams is answered as plain lists of rows answer it."""

    def test_random_streams_under_each_policy(self):
        draw = random.Random(SEED)
        for number in range(STREAMS):
            stream, _ = random_streams.stream_and_answers(draw)
            tables = model.Tables(model.Limits())
            units = list(model.units_of(streams.whole_units_of(stream)))
            answers = [tables.answer(*unit) for unit in units]
            with self.subTest(stream=number):
                for policy in mmdb.POLICIES:
                    self.check(policy, units, answers)

    def check(self, policy, units, answers):
        with mmdb.Database(policy) as db:
            for (line, block), answer in zip(units, answers):
                self.assertEqual(db.answer(line, block if model.block_length(line) else None), answer, (policy, line))
