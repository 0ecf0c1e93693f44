"""mmdb and the shell of SQLite over `:memory:`, each a running program into which the same batches of statements go."""

import array
import fcntl
import os
import pathlib
import random
import re
import subprocess
import termios
import time
from typing import NamedTuple

TOP = pathlib.Path(__file__).resolve().parent.parent
ROUNDS = 5
PARTS = ["fill", "points", "reads", "joins", "blocks"]
# About so many statements, and so many rows that are read, make a batch.
STATEMENTS = 2_000
READ = 200_000
# Large pages for the memory of both programs, as ./run asks for them.
LARGE_PAGES = {**os.environ, "GLIBC_TUNABLES": "glibc.malloc.hugetlb=1"}
# A block of more bytes mmdb refuses under its standard limits; so many rows of the block below are well within it.
LONGEST_BLOCK = 16_777_216
ROWS_OF_A_BLOCK = 100_000

OURS = """table t (id int, n int, h int, s text)
index t n tree
index t h hash
table loaded (id int, n int, s text)
table site (id int, name text)
table dept (id int, name text, site ref site)
table emp (id int, name text, dept ref dept)
index emp dept tree
"""

THEIRS = """create table t (id integer primary key, n integer, h integer, s text);
create index t_n on t (n);
create index t_h on t (h);
create table loaded (id integer primary key, n integer, s text);
create table site (id integer primary key, name text);
create table dept (id integer primary key, name text, site integer references site);
create table emp (id integer primary key, name text, dept integer references dept);
create index emp_dept on emp (dept);
.mode csv
.headers on
"""


class Program:
    """A running program, which waits for statements."""

    def __init__(self, words, declarations):
        self.running = subprocess.Popen(words, stdin=subprocess.PIPE, stdout=subprocess.DEVNULL, env=LARGE_PAGES)
        self.seconds(declarations)

    def seconds(self, statements):
        """The processor's seconds that a batch takes."""
        before = self.spent()
        self.running.stdin.write(statements.encode())
        self.running.stdin.flush()
        while not self.is_waiting():
            time.sleep(0.0005)
        return self.spent() - before

    def is_waiting(self):
        """Whether the program has read all that its pipe held, and sleeps."""
        held = array.array("i", [0])
        fcntl.ioctl(self.running.stdin.fileno(), termios.FIONREAD, held)
        return held[0] == 0 and self.told("stat").rpartition(")")[2].split()[0] == "S"

    def spent(self):
        return int(self.told("schedstat").split()[0]) / 1e9

    def memory(self):
        """The memory that the program has, in bytes."""
        return int(re.search(r"VmRSS:\s+(\d+)", self.told("status"))[1]) * 1024

    def told(self, what):
        return pathlib.Path(f"/proc/{self.running.pid}/{what}").read_text()

    def end(self):
        self.running.stdin.close()
        self.running.wait()


def program():
    """The program as `./run` takes it: the released one where it is of these sources, else the one that is built first."""
    subprocess.run([TOP / "run", "--version"], check=True, stdout=subprocess.DEVNULL)
    digest = subprocess.run([TOP / "scripts" / "digest"], check=True, stdout=subprocess.PIPE, text=True).stdout
    released = TOP / "release" / "mmdb"
    is_released = (TOP / "release" / "mmdb.digests").read_text().startswith(digest)
    return released if is_released else TOP / "crates" / "mmdb" / "out" / "mmdb"


def inserts(table, rows):
    """The inserts of rows into a table, for both programs."""
    values = [", ".join(f"'{v}'" if isinstance(v, str) else str(v) for v in row) for row in rows]
    return ("".join(f"insert {table} ({v})\n" for v in values), "".join(f"insert into {table} values ({v});\n" for v in values))


def alike(statements):
    """Statements that both programs spell alike."""
    statements = list(statements)
    return "".join(f"{s}\n" for s in statements), "".join(f"{s};\n" for s in statements)


class Figure(NamedTuple):
    """What one statement took in mmdb and in sqlite3, and in another mmdb where one runs beside them, or how much memory a row."""

    rows: int
    what: str
    ours: float
    theirs: float
    unit: str
    before: float | None

    @property
    def ratio(self):
        return self.ours / self.theirs

    @property
    def change(self):
        """What mmdb takes of what the other mmdb takes."""
        return self.ours / self.before if self.before else None


class Comparison:
    """The programs over tables of so many rows: mmdb, another mmdb where one is named, and sqlite3. Each figure is handed to `tell` once
    it is known."""

    def __init__(self, rows, folder, tell, before=None):
        self.rows, self.folder, self.draw, self.told = rows, folder, random.Random(rows), tell
        self.ours = [Program([each], OURS) for each in (program(), before) if each]
        self.theirs = Program(["sqlite3", ":memory:"], THEIRS)

    @property
    def all(self):
        return [*self.ours, self.theirs]

    def tell(self, what, figures, unit="µs"):
        *ours, theirs = figures
        before = ours[1] if len(ours) > 1 else None
        self.told(Figure(self.rows, what, ours[0], theirs, unit, before))

    def took(self, batches):
        ours, theirs = batches
        return [running.seconds(ours) for running in self.ours] + [self.theirs.seconds(theirs)]

    def time(self, what, batches, count, before=None, rounds=ROUNDS):
        """Times batches of so many statements; before each, others are made that aren't timed."""
        all_took = []
        for _ in range(rounds):
            if before:
                self.took(before)
            all_took.append(self.took(batches))
        self.tell(what, [min(each) * 1e6 / count for each in zip(*all_took)])

    def text(self, size=8):
        return "".join(self.draw.choices("abcdefgh", k=size))

    def order(self):
        return self.draw.sample(range(self.rows), self.rows)

    def fill(self):
        """Rows by keys in random order, under a declared tree and a declared hash, with a hundred texts."""
        texts = [self.text() for _ in range(100)]
        made = inserts("t", [(key, n, h, self.draw.choice(texts)) for key, n, h in zip(self.order(), self.order(), self.order())])
        held = [running.memory() for running in self.all]
        self.time("insert", made, self.rows, rounds=1)
        grown = [running.memory() - before for running, before in zip(self.all, held)]
        self.tell("memory of a row", [bytes_grown / self.rows for bytes_grown in grown], "bytes")

    def points(self):
        keys = [self.draw.randrange(self.rows) for _ in range(STATEMENTS)]
        self.time("select by key", alike(f"select * from t where id = {key}" for key in keys), len(keys))
        self.time("select by a declared tree", alike(f"select * from t where n = {key}" for key in keys), len(keys))
        self.time("select by a declared hash", alike(f"select * from t where h = {key}" for key in keys), len(keys))
        self.time("update by key", alike(f"update t set s = '{self.text()}' where id = {key}" for key in keys), len(keys))
        once = self.draw.sample(range(self.rows), min(self.rows, STATEMENTS))
        gone = "".join(f"delete t where id = {key}\n" for key in once), "".join(f"delete from t where id = {key};\n" for key in once)
        again = inserts("t", [(key, key, key, "abcdefgh") for key in once])
        self.took(gone)
        self.time("delete by key", gone, len(once), before=again, rounds=ROUNDS)
        self.took(again)

    def reads(self):
        starts = [self.draw.randrange(self.rows) for _ in range(200)]
        self.time("range of 100 rows of a tree", alike(f"select * from t where n >= {n} and n < {n + 100}" for n in starts), len(starts))
        whole = max(1, READ // self.rows)
        self.time("scan with a condition", alike(["select * from t where s = 'abcdefgh'"] * whole), whole)
        self.time("distinct over 100 texts", alike(["select distinct s from t"] * whole), whole)

    def joins(self):
        """As many employees as rows, a hundredth as many departments, ten sites."""
        departments = max(10, self.rows // 100)
        self.took(inserts("site", [(key, self.text()) for key in range(10)]))
        self.took(inserts("dept", [(key, self.text(), key % 10) for key in range(departments)]))
        self.took(inserts("emp", [(key, self.text(), self.draw.randrange(departments)) for key in self.order()]))
        whole = max(1, READ // self.rows)
        pairs = "select emp.name, dept.name from emp join dept on emp.dept = dept.id"
        self.time("join of all employees", alike([pairs] * whole), whole)
        ones = [self.draw.randrange(departments) for _ in range(200)]
        one = "select dept.name, emp.name from dept join emp on emp.dept = dept.id where dept.id ="
        self.time("join of one department", alike(f"{one} {key}" for key in ones), len(ones))
        two = "select emp.name, dept.name, site.name from emp join dept on emp.dept = dept.id join site on dept.site = site.id"
        self.time("join of three tables", alike([two] * whole), whole)

    def scan(self, what, condition):
        whole = max(1, READ // self.rows)
        self.time(what, alike([f"select * from loaded where {condition}"] * whole), whole)

    def blocks(self):
        rows = [(key, self.draw.randrange(100), self.text()) for key in self.order()]
        emptied = "delete loaded\n", "delete from loaded;\n"
        self.time("insert of rows in rising order", inserts("loaded", sorted(rows)), self.rows, before=emptied, rounds=2)
        self.time("insert of the rows of a block", inserts("loaded", rows), self.rows, before=emptied, rounds=2)
        parts = [rows[at : at + ROWS_OF_A_BLOCK] for at in range(0, self.rows, ROWS_OF_A_BLOCK)]
        texts = ["id,n,s\n" + "".join(f"{key},{n},{s}\n" for key, n, s in part) for part in parts]
        files = [self.folder / f"rows{number}.csv" for number in range(len(texts))]
        for file, text in zip(files, texts):
            file.write_text(text)
        ours = "".join(f"load loaded {len(text)}\n{text}" for text in texts)
        theirs = "".join(f".import --csv --skip 1 {file} loaded\n" for file in files)
        self.time("load of a row", (ours, theirs), self.rows, before=emptied, rounds=3)
        made, dropped = ("index loaded n tree\n", "create index loaded_n on loaded (n);\n"), ("drop index loaded n tree\n", "drop index loaded_n;\n")
        self.took(made)
        self.time("index of a row of a full table", made, self.rows, before=dropped, rounds=3)
        self.took(dropped)
        for share, condition in [("1 %", "n < 1"), ("10 %", "n < 10"), ("all", "n >= 0")]:
            self.scan(f"scan in which {share} pass", condition)
        if sum(map(len, texts)) <= LONGEST_BLOCK:
            self.time("dump of a row", ("dump loaded\n", "select * from loaded;\n"), self.rows)

    def run(self, parts):
        for part in parts:
            getattr(self, part)()
        for running in self.all:
            running.end()
