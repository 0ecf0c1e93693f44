"""docs/guide.md and the session of the README: the snippets print what the pages say, and the limits are those of the language.

What must hold: each limit of the guide's last table has an entry in LINES or in ANSWERS.
"""

import os
import re
import subprocess
import sys
import tempfile
import unittest

import test_embedding_rust
from support import binding, compiling, embedding, harness, tested
from support.binding import mmdb

GUIDE = (harness.ROOT / "docs" / "guide.md").read_text()
LANGUAGE = (harness.ROOT / "docs" / "language.md").read_text()
SNIPPET = re.compile(r"```(\w+)\n(.*?)```\n\n```text\n(.*?)```", re.DOTALL)
TIME = re.compile(r"\d+\.\d+ ?s\b")
ROOM = compiling.Room()


def tearDownModule():
    ROOM.close()


def snippets(*languages):
    """The snippets in these languages, each with its language and what it prints."""
    return [found for found in SNIPPET.findall(GUIDE) if found[0] in languages]


class Snippets(unittest.TestCase):
    """What is pasted prints what stands below it, but for times."""

    def check_printed(self, words, printed, **how):
        how = {"stdout": subprocess.PIPE, "stderr": subprocess.STDOUT, "timeout": harness.SECONDS, "check": False, **how}
        ran = subprocess.run(words, text=True, **how)
        self.assertEqual(TIME.sub("TIME", ran.stdout), TIME.sub("TIME", printed))
        self.assertEqual(ran.returncode, 1 if "mmdb-shell: " in printed else 0)

    def test_each_has_what_it_prints(self):
        fences = re.findall(r"^```", GUIDE, re.MULTILINE)
        self.assertEqual(len(fences), 4 * len(snippets("sh", "python", "c", "rust")))
        for language, count in (("sh", 11), ("python", 8), ("c", 1), ("rust", 1)):
            self.assertEqual(len(snippets(language)), count, language)

    def test_shell_and_python(self):
        """In one folder and in their order, since some read files that those before them write."""
        path = f"{harness.PROGRAM.parent}:{harness.ROOT / 'shell'}:{os.environ['PATH']}"
        with tempfile.TemporaryDirectory(prefix="mmdb-tests-") as folder:
            how = {"cwd": folder, "env": {**os.environ, **binding.WHERE, "PATH": path}}
            for language, program, printed in snippets("sh", "python"):
                words = ["bash", "-euc"] if language == "sh" else [sys.executable, "-c"]
                with self.subTest(program):
                    self.check_printed([*words, program], printed, **how)

    def test_the_session_of_the_readme(self):
        ((session, answers),) = embedding.programs("README.md", "sh")
        (stream,) = re.findall(r"^\./run <<'END'\n(.*)^END$", session, re.DOTALL | re.MULTILINE)
        ended = harness.run_whole(stream.encode())
        self.assertEqual((ended.err, ended.out.decode(), ended.status), (b"", answers, 0))

    def test_c(self):
        for _, program, printed in snippets("c"):
            (ROOM.path / "fixture.c").write_text(program)
            self.check_printed([ROOM.compiled("fixture", ROOM.path / "fixture.c")], printed)

    def test_rust(self):
        tested.requires("cargo")
        ((_, program, printed),) = snippets("rust")
        crate = ROOM.path / "crate"
        for name, text in (("Cargo.toml", embedding.MANIFEST.format(name="fixture")), ("src/lib.rs", ""), ("tests/fixture.rs", program)):
            (crate / name).parent.mkdir(parents=True, exist_ok=True)
            (crate / name).write_text(text)
        where = {"MMDB_LIBRARY": str(tested.library().resolve()), "CARGO_TARGET_DIR": str(ROOM.path / "target")}
        words = ["cargo", "test", "--offline", "--test", "fixture"]
        how = {"cwd": crate, "env": {**os.environ, **where}, "timeout": test_embedding_rust.SECONDS, "check": False}
        ran = subprocess.run(words, capture_output=True, text=True, **how)
        self.assertEqual(ran.returncode, 0, ran.stderr)
        told = "".join(f"{line}\n" for line in ran.stdout.splitlines() if line)
        self.assertEqual(TIME.sub("TIME", told), TIME.sub("TIME", printed))


def conditions(count):
    return " and ".join(["id > 0"] * count)


def items(count):
    """A select of so many columns of two tables with 16 each."""
    named = [f"{table}.c{at}" for table in ("v", "w") for at in range(16)]
    return f"select {', '.join(named[:count])} from v join w on v.c0 = w.c0"


def joins(count):
    joined = "".join(f" join {table} on {table}.c0 = t.id" for table in "vwxyz"[:count])
    return f"select t.id from t{joined}"


def columns(count):
    return ", ".join(f"c{at} int" for at in range(count))


# The lines that reach a limit, by what is limited, over a table t and tables v to z of 16 columns.
LINES = {
    "columns of a table": lambda count: [f"table c{count} ({columns(count)})"],
    "bytes of a name": lambda count: [f"table {'n' * count} (id int)"],
    "an integer": lambda count: [f"insert t ({count}, '')", f"insert t ({-1 - count}, '')"],
    "bytes of a text that is stored": lambda count: [
        f"insert t ({count}, '{'s' * count}')",
        f"update t set s = '{'s' * count}'",
    ],
    "bytes of a line": lambda count: ["#" * count, f"tables{' ' * (count - 6)}"],
    "items of a select": lambda count: [items(count)],
    "conditions of a select": lambda count: [f"select id from t where {conditions(count)}"],
    "conditions of an update or a delete": lambda count: [
        f"update t set s = '' where {conditions(count)}",
        f"delete t where {conditions(count)}",
    ],
    "joins of a select": lambda count: [joins(count)],
}


def loaded_text(count):
    return loaded(f"id,s\n1,{'s' * count}\n")


def loaded_block(count):
    return loaded("id,s\n".ljust(count, "\n"))


def loaded(block):
    with mmdb.Database() as db:
        db.execute("table t (id int, s text)")
        return db.answer(f"load t {len(block)}", block.encode())


def last_table(count):
    with mmdb.Database() as db:
        return [db.answer(f"table t{at} (id int)") for at in range(count)][-1]


def last_row(count):
    """The answer to the last of so many rows, under a limit that is lowered to 3, since the highest one takes long."""
    with mmdb.Database(rows=3) as db:
        db.execute("table t (id int)")
        return [db.answer(f"insert t ({at})") for at in range(3 + count - mmdb.MOST)][-1]


def dumped(count):
    """The answer to a dump whose block has so many bytes."""
    rows, left = divmod(count - len("id,s\n"), 1024)
    with mmdb.Database() as db:
        db.execute("table t (id int, s text)")
        db.load("t", ((10_000 + at, "s" * (1024 - len("10000,\n"))) for at in range(rows)))
        db.execute("insert t (1, ?)", "s" * (left - len("1,\n")))
        return db.answer("dump t")


ANSWERS = {
    "tables": last_table,
    "rows of a table": last_row,
    "bytes of a text that is loaded": loaded_text,
    "bytes of a block that is loaded": loaded_block,
    "bytes of a block that is dumped": dumped,
}


class Limits(unittest.TestCase):
    """Each row of the table of limits: so many are taken, and one more is refused by that number."""

    def setUp(self):
        rows = re.findall(r"^\| (.*?) \| ([\d,]+) \| (\d\d) \|$", GUIDE.split("## 12.")[-1], re.MULTILINE)
        self.limits = {what: (int(most.replace(",", "")), int(number)) for what, most, number in rows}

    def check_limit(self, what, answers):
        """Checks the answers to so many and to one more, which a function gives."""
        most, number = self.limits[what]
        with self.subTest(what):
            for answer in answers(most):
                self.assertFalse(answer.startswith(b"error"), answer[:80])
            for answer in answers(most + 1):
                self.assertTrue(answer.startswith(f"error {number} ".encode()), answer[:80])

    def test_each_is_tried(self):
        self.assertEqual({*LINES, *ANSWERS}, set(self.limits))
        self.assertEqual(self.limits["rows of a table"][0], mmdb.MOST)

    def test_those_of_lines(self):
        with mmdb.Database() as db:
            db.execute("table t (id int, s text)")
            for table in "vwxyz":
                db.execute(f"table {table} ({columns(16)})")
            for what, lines in LINES.items():
                self.check_limit(what, lambda count, lines=lines: map(db.answer, lines(count)))

    def test_the_others(self):
        for what, answer in ANSWERS.items():
            self.check_limit(what, lambda count, answer=answer: [answer(count)])

    def test_they_are_those_of_the_language(self):
        """Each limit of its table, with each refusal that it tells of, is in the guide, and no other is."""
        told = LANGUAGE.split("## Limits\n")[1].split("\n## ")[0]
        limits = set()
        for mosts, beyond in re.findall(r"^\| .*? \| ([^|]*\d[^|]*) \| ([^|]*) \|$", told, re.MULTILINE):
            for most in filter(None, (re.findall(r"\d[\d,]*", part) for part in mosts.split(";"))):
                limits |= {(int(most[-1].replace(",", "")), int(number)) for number in re.findall(r"\d+", beyond)}
        self.assertEqual(set(self.limits.values()), limits)
