"""mmdb and SQLite over `:memory:` in this process, under one interface: commands, and batches of prepared statements."""

import array
import ctypes
import pathlib
import subprocess
import sys
from typing import NamedTuple

HERE = pathlib.Path(__file__).resolve().parent
TOP = HERE.parent.parent
sys.path.append(str(TOP / "tests"))

from support import tested

MOST = 16_777_216
POLICIES = {"auto": 0, "scan": 1, "hash": 2, "tree": 3, "merge": 4}


class Statement(ctypes.Structure):
    _fields_ = [("number", ctypes.c_uint32), ("places", ctypes.c_uint32)]


class Batch(ctypes.Structure):
    _fields_ = [
        ("kinds", ctypes.c_void_p),
        ("values", ctypes.c_void_p),
        ("steps", ctypes.c_size_t),
        ("seconds", ctypes.c_double),
        ("rows", ctypes.c_uint64),
        ("sum", ctypes.c_uint64),
    ]


class Work(NamedTuple):
    """Which of some statements each step executes, and the values of all steps, one after another."""

    kinds: bytes
    values: array.array


class Outcome(NamedTuple):
    """The seconds of a batch, the number of rows that it answered, and the sum of their cells."""

    seconds: float
    rows: int
    sum: int


def one_kind(*columns):
    """Steps of one statement, whose places take their values from these columns."""
    values = array.array("q", bytes(8 * len(columns) * len(columns[0])))
    for place, column in enumerate(columns):
        values[place :: len(columns)] = array.array("q", column)
    return Work(bytes(len(columns[0])), values)


def repeated(times):
    """Steps of one statement without places."""
    return Work(bytes(times), array.array("q"))


def want_sqlite():
    """Installs the header and the library of SQLite where they are missing."""
    seeks = ["cc", "-E", "-include", "sqlite3.h", "-x", "c", "/dev/null"]
    if subprocess.run(seeks, capture_output=True, check=False).returncode:
        subprocess.run(["apt-get", "install", "-qq", "-y", "libsqlite3-dev"], check=True, stdout=subprocess.DEVNULL)


def compiled(folder):
    """timing.c, compiled into a folder and loaded."""
    want_sqlite()
    library, built = tested.library(), pathlib.Path(folder) / "timing.so"
    words = ["cc", "-std=c99", "-O2", "-Wall", "-Wextra", "-shared", "-fPIC", f"-I{TOP / 'include'}", HERE / "timing.c"]
    subprocess.run([*words, library / "libmmdb.so", f"-Wl,-rpath,{library}", "-lsqlite3", "-o", built], check=True)
    loaded = ctypes.CDLL(str(built))
    loaded.memory_in_use.restype = ctypes.c_uint64
    loaded.execute_ours.restype = loaded.execute_theirs.restype = ctypes.c_size_t
    loaded.sqlite3_libversion.restype = ctypes.c_char_p
    return loaded


class Ours:
    """mmdb under a policy."""

    def __init__(self, loaded, policy="auto"):
        self.loaded, self.kept, self.handle = loaded, {}, ctypes.c_void_p()
        self.at = ctypes.byref(self.handle)
        insist(loaded.mmdb_open(self.at, POLICIES[policy], MOST, MOST) == 0, "mmdb_open")

    def command(self, line):
        answer = (ctypes.c_void_p * 2)()
        text = line.encode()
        done = self.loaded.mmdb_command(self.at, text, len(text), answer) == 0
        insist(done and self.loaded.mmdb_refusal(self.at) == 0, line)

    def table(self, name, *columns):
        self.command(f"table {name} ({', '.join(columns)})")

    def index(self, table, column, kind):
        self.command(f"index {table} {column} {kind}")

    def drop_index(self, table, column, kind):
        self.command(f"drop index {table} {column} {kind}")

    def insert(self, table, places):
        return f"insert {table} ({', '.join('?' * places)})"

    def delete(self, table, column):
        return f"delete {table} where {column} = ?"

    def prepared(self, line):
        if line not in self.kept:
            self.kept[line] = Statement()
            text = line.encode()
            insist(self.loaded.mmdb_prepare(self.at, text, len(text), ctypes.byref(self.kept[line])) == 0, line)
        return self.kept[line]

    def execute(self, lines, work):
        statements = (Statement * len(lines))(*map(self.prepared, lines))
        return executed(lines, work, lambda batch: self.loaded.execute_ours(self.at, statements, batch))

    def in_one(self, do):
        """Does this in one transaction, where there are transactions of many statements."""
        return do()

    def close(self):
        self.loaded.mmdb_close(self.at)


class Theirs:
    """SQLite over `:memory:`."""

    def __init__(self, loaded):
        self.loaded, self.kept, self.handle = loaded, {}, ctypes.c_void_p()
        insist(loaded.sqlite3_open(b":memory:", ctypes.byref(self.handle)) == 0, "sqlite3_open")

    def command(self, line):
        insist(self.loaded.sqlite3_exec(self.handle, line.encode(), None, None, None) == 0, line)

    def table(self, name, key, *columns):
        spelled = [f"{key.replace(' int', ' integer')} primary key", *columns]
        self.command(f"create table {name} ({', '.join(spelled)})")

    def index(self, table, column, kind="tree"):
        self.command(f"create index {table}_{column} on {table} ({column})")

    def drop_index(self, table, column, kind="tree"):
        self.command(f"drop index {table}_{column}")

    def insert(self, table, places):
        return f"insert into {table} values ({', '.join('?' * places)})"

    def delete(self, table, column):
        return f"delete from {table} where {column} = ?"

    def prepared(self, line):
        if line not in self.kept:
            self.kept[line] = ctypes.c_void_p()
            made = self.loaded.sqlite3_prepare_v2(self.handle, line.encode(), -1, ctypes.byref(self.kept[line]), None)
            insist(made == 0, line)
        return self.kept[line]

    def execute(self, lines, work):
        statements = (ctypes.c_void_p * len(lines))(*(self.prepared(line).value for line in lines))
        return executed(lines, work, lambda batch: self.loaded.execute_theirs(statements, batch))

    def in_one(self, do):
        self.command("begin")
        outcome = do()
        self.command("commit")
        return outcome

    def close(self):
        for statement in self.kept.values():
            self.loaded.sqlite3_finalize(statement)
        self.loaded.sqlite3_close(self.handle)


def fill(program, table, *columns):
    """Puts rows with these columns into a table."""
    work = one_kind(*columns)
    return program.in_one(lambda: program.execute([program.insert(table, len(columns))], work))


def executed(lines, work, execute):
    values = (ctypes.c_int64 * max(1, len(work.values))).from_buffer(work.values or array.array("q", [0]))
    batch = Batch(ctypes.cast(work.kinds, ctypes.c_void_p), ctypes.addressof(values), len(work.kinds))
    insist(execute(ctypes.byref(batch)) == len(work.kinds), f"a step of {lines}")
    return Outcome(batch.seconds, batch.rows, batch.sum)


def insist(holds, what):
    if not holds:
        sys.exit(f"bench/papers: {what} fails")
