"""The shell's `.export sql`: SQLite and PostgreSQL take the file as it stands, and have the same tables, references, indexes and rows."""

import contextlib
import functools
import os
import pathlib
import random
import shutil
import sqlite3
import subprocess
import tempfile
import unittest

from support import embedding, harness, shells

SEED = 20261127
# Where Debian keeps the server's programs beside those on the path.
SERVERS = ["", *map(str, sorted(pathlib.Path("/usr/lib/postgresql").glob("*/bin"), reverse=True))]
USERS = ("postgres", "nobody")


def program(name):
    """The path of one of PostgreSQL's programs, or None."""
    return next(filter(None, (shutil.which(name, path=folder or None) for folder in SERVERS)), None)


@functools.cache
def why_no_server():
    """Why there is no server of PostgreSQL here to test with, or nothing."""
    missing = [name for name in ("initdb", "postgres", "psql") if program(name) is None]
    return f"PostgreSQL is not installed: there is no {missing[0]}" if missing else ""


class Server:
    """A server of PostgreSQL with a folder of its own, which no other process reaches by network."""

    def __init__(self, room):
        self.room = room
        self.user = USERS if os.geteuid() == 0 else ()
        self.how = {"capture_output": True, "timeout": harness.SECONDS, "check": False, "cwd": room}
        if self.user:
            # (a server doesn't run as root)
            self.how["user"] = self.found_user()
            os.chown(room, self.how["user"], -1)
        self.data = f"{room}/data"

    def found_user(self):
        import pwd

        for name in USERS:
            with contextlib.suppress(KeyError):
                return pwd.getpwnam(name).pw_uid
        raise unittest.SkipTest("there is no user to run PostgreSQL")

    def ran(self, name, *words, **how):
        return subprocess.run([program(name), *words], **{**self.how, **how})

    def __enter__(self):
        made = self.ran("initdb", "-D", self.data, "-U", "mmdb", "-A", "trust", "-E", "UTF8", "--locale=C", "--no-sync")
        if made.returncode:
            raise unittest.SkipTest(f"initdb fails here: {made.stderr.decode().strip()}")
        words = ["-D", self.data, "-k", str(self.room), "-h", "", "-F"]
        how = {key: value for key, value in self.how.items() if key in ("user", "cwd")}
        self.process = subprocess.Popen([program("postgres"), *words], stdout=subprocess.DEVNULL, stderr=subprocess.DEVNULL, **how)
        for _ in range(harness.SECONDS * 10):
            if self.asked("select 1").returncode == 0:
                return self
            with contextlib.suppress(subprocess.TimeoutExpired):
                self.process.wait(0.1)
                break
        self.__exit__()
        raise unittest.SkipTest("the server of PostgreSQL doesn't start here")

    def __exit__(self, *_):
        self.process.terminate()
        self.process.wait(harness.SECONDS)

    def asked(self, *lines, **how):
        words = [word for line in lines for word in ("-c", line)]
        return self.ran("psql", "-X", "-q", "-A", "-t", "-h", str(self.room), "-U", "mmdb", "-d", "postgres", "-v", "ON_ERROR_STOP=1", *words, **how)


class Exports(shells.InThisProcess):
    """A database of each kind of column, value and index, as SQL."""

    LINES = [
        "table u (k text)",
        "table v (k int, text2 text)",
        "table Order_ (id int, s text, u ref u null, v ref v)",
        "index Order_ u hash",
        "index Order_ u tree",
        "index Order_ id hash",
        "index Order_ s tree",
        "index v text2 hash",
        "table none (id int)",
    ]

    def filled(self, without="\0"):
        draw = random.Random(SEED)
        shell = self.shell(block=1 << 16)
        self.do(shell, *self.LINES)
        drawn = (embedding.text(draw) + draw.choice(["", "\n", "\r\n", "\\n"]) for _ in range(300))
        texts = list(dict.fromkeys(text.translate(dict.fromkeys(map(ord, without))) for text in drawn))
        shell.db.load("u", [(key,) for key in texts])
        shell.db.load("v", [(-(1 << 63), "least"), ((1 << 63) - 1, "greatest"), (0, "")])
        for at in range(1_200):
            shell.db.execute("insert Order_ (?, ?, ?, ?)", at, draw.choice(texts), draw.choice([None, *texts]), draw.choice([0, -(1 << 63)]))
        return shell

    def exported(self, shell):
        path = str(self.room / "all.sql")
        self.do(shell, f".export sql {path}")
        return path

    def test_sqlite(self):
        shell = self.filled()
        path = self.exported(shell)
        with contextlib.closing(sqlite3.connect(":memory:")) as other:
            other.execute("pragma foreign_keys = on")
            other.executescript(pathlib.Path(path).read_bytes().decode())
            for table in ("u", "v", "Order_", "none"):
                rows = other.execute(f'select * from "{table}"').fetchall()
                self.assertEqual(
                    sorted(map(list, rows), key=lambda row: row[0]),
                    sorted(shell.db.execute(f"select * from {table}"), key=lambda row: row[0]),
                )
            self.assertEqual(other.execute('pragma foreign_key_list("Order_")').fetchall()[0][2:5], ("v", "v", None))
            with self.assertRaises(sqlite3.IntegrityError):
                other.execute('insert into "Order_" values (9999, \'\', null, 7)')
            with self.assertRaises(sqlite3.IntegrityError):
                other.execute('insert into "Order_" values (9999, \'\', null, null)')
            with self.assertRaises(sqlite3.IntegrityError):
                other.execute('insert into "Order_" values (1, \'\', null, 0)')
            names = {name for (name,) in other.execute("select name from sqlite_master where type = 'index' and sql is not null")}
            self.assertEqual(names, {"Order__u", "Order__s", "v_text2"})

    def test_the_program_of_sqlite(self):
        if shutil.which("sqlite3") is None:
            self.skipTest("sqlite3 is not installed")
        # (it drops a carriage return at the end of a line that it reads)
        with open(self.exported(self.filled(without="\0\r")), "rb") as file:
            ran = subprocess.run(
                ["sqlite3", ":memory:", ".bail on", ".read /dev/stdin", 'select count(*) from "Order_"'],
                stdin=file,
                capture_output=True,
                check=False,
            )
        self.assertEqual((ran.returncode, ran.stdout, ran.stderr), (0, b"1200\n", b""))

    def test_postgresql(self):
        if why_no_server():
            self.skipTest(why_no_server())
        shell = self.filled()
        path = self.exported(shell)
        with tempfile.TemporaryDirectory(prefix="mmdb-pg-") as room, Server(room) as server:
            with open(path, "rb") as file:
                ran = server.asked(stdin=file)
            self.assertEqual((ran.returncode, ran.stdout, ran.stderr), (0, b"", b""))
            for table in ("u", "v", "Order_", "none"):
                key = "k" if table in ("u", "v") else "id"
                ran = server.asked(f'copy (select * from "{table}" order by "{key}") to stdout')
                self.assertEqual(ran.stderr, b"")
                self.do(shell, ".mode tabs", f"select * from {table}", said=None)
                self.assertEqual(ran.stdout.decode(), shell._out.getvalue().split("\n", 1)[1])
            ran = server.asked("select indexname from pg_indexes where schemaname = 'public' order by 1")
            self.assertEqual(ran.stdout.decode().split(), ["Order__pkey", "Order__s", "Order__u", "none_pkey", "u_pkey", "v_pkey", "v_text2"])
            ran = server.asked('insert into "Order_" values (9999, \'\', null, 7)')
            self.assertIn(b"violates foreign key constraint", ran.stderr)

    def test_what_sql_cannot_hold(self):
        path = self.room / "all.sql"
        for lines, why in (
            (["table t (id int)", "table T (id int)"], "SQL can't tell t from T: they differ by small and capital letters alone"),
            (["table t (ab int, aB text)"], "SQL can't tell ab from aB: they differ by small and capital letters alone"),
            (["table t (s text)", "insert t ('a\0')"], "SQL has no text with the character 0, as in 'a\\x00'"),
        ):
            self.do(self.shell(), *lines, f".export sql {path}", refused=why)
            self.assertFalse(path.exists())
        self.do(self.shell(), f".export csv {path}", refused="it is written .export sql FILE")

    def test_names_of_indexes(self):
        long = "a" * 32
        shell = self.shell()
        self.do(
            shell,
            f"table {long} (id int, {long} int)",
            f"index {long} {long} tree",
            "table t (id int, b int)",
            "index t b hash",
            "table t_b (id int)",
            "table T_B_ (id int)",
        )
        text = pathlib.Path(self.exported(shell)).read_text()
        self.assertIn(f'create index "index_1" on "{long}" ("{long}");\n', text)
        self.assertIn('create index "index_2" on "t" ("b");\n', text)
