"""A table of sessions at full speed: they arrive, are touched and looked up, and expire by ranges, under a declared tree and a hash. The
number of sessions is the same after each round, and so are, about, the memory and the instructions. The same holds for keys that were
chosen against both indexes, and where half of the sessions have one token and eight readers look them up beside.

In large sizes (`tests/fire churn`) it runs the commands of a day from C and from Python, and prints how long each kind of command took in
either half, beside SQLite. It asserts no time.
"""

import gc
import os
import random
import re
import shutil
import sqlite3
import subprocess
import time
import unittest

from support import compiling, embedded, growth, holding, sizes, tested

SEED = 19861101
ROWS = sizes.size(2_000, 50_000)
ROUNDS = sizes.size(12, 20)
TIMED_ROUNDS = 4
# Steps of a round, in each of which so many are touched that all could be in a round.
STEPS = 20
LONGEST_LIFE = 2 * STEPS
MOST_GROWTH = 1.1
# The words of tests/support/programs/churn.c: rounds, seconds of a round, and the longest life in seconds. There are 200 commands to a
# second, so that a day has 17,280,000. Chains are walked where keys meet, so that there are fewer then. With readers eight threads wait
# for each other twice in each second.
OF_A_DAY = sizes.size(("12", "100", "50"), ("24", "3600", "1800"))
OF_CHOSEN_KEYS = sizes.size(("12", "20", "10"), ("24", "600", "300"))
OF_READERS = sizes.size(("12", "20", "10"), ("24", "3600", "1800"), ("8", "20", "10"))
COUNTED = sizes.size(("8", "10", "5"), ("12", "100", "50"))
READERS = "8"
# Blocks that a thread keeps for itself aren't counted as held.
UNKEPT = {**os.environ, "GLIBC_TUNABLES": "glibc.malloc.tcache_count=0"}
# From which round on the table is as full as it will be.
FULL = 2
TABLE = ["table session (id int, token text, visits int, until int)", "index session until tree", "index session token hash"]


class Sessions:
    """What is asked of the table, step by step: each command as its kind and its values, and its answer."""

    def __init__(self, draw):
        self.draw = draw
        self.clock = 0
        self.next = 0
        self.tokens = []
        # For each session, by its token, its number and its end.
        self.there = {}

    def come(self):
        token = f"{self.draw.getrandbits(160):040x}"[: self.draw.randrange(12, 41)] + f"-{self.next}"
        self.next += 1
        until = self.clock + 1 + self.draw.randrange(LONGEST_LIFE)
        self.there[token] = [self.next, until]
        self.tokens.append(token)
        return "insert", (self.next, token, 0, until), b"ok 1\n"

    def touch(self):
        token = self.draw.choice(self.tokens)
        self.there[token][1] = self.clock + 1 + self.draw.randrange(LONGEST_LIFE)
        return "touch", (self.clock, self.there[token][1], token), b"ok 1\n"

    def look_up(self):
        token = self.draw.choice(self.tokens)
        number, until = self.there[token]
        return "look up", (token,), b"rows 1\nsession.id,session.until\n%d,%d\n" % (number, until)

    def expire(self):
        gone = [token for token, (_, until) in self.there.items() if until < self.clock]
        for token in gone:
            del self.there[token]
        self.tokens = list(self.there)
        return "expire", (self.clock,), b"ok %d\n" % len(gone)

    def fill(self):
        while len(self.there) < ROWS:
            yield self.come()

    def round(self):
        for _ in range(STEPS):
            self.clock += 1
            for number in range(ROWS // STEPS):
                yield self.touch()
                if number % 4 == 0:
                    yield self.look_up()
            yield self.expire()
            yield from self.fill()


LINES = {
    "insert": "insert session ({}, '{}', {}, {})",
    "touch": "update session set visits = {}, until = {} where token = '{}'",
    "look up": "select id, until from session where token = '{}'",
    "expire": "delete session where until < {}",
}
STATEMENTS = {
    "insert": "insert into session values (?, ?, ?, ?)",
    "touch": "update session set visits = ?, until = ? where token = ?",
    "look up": "select id, until from session where token = ?",
    "expire": "delete from session where until < ?",
}


def line(kind, values):
    return LINES[kind].format(*values).encode()


class Pieces:
    """The stream for the program: a fill, and rounds, each with a mark behind it. It keeps the answers that it must have."""

    def __init__(self):
        self.answers = []

    def piece(self, commands):
        listed = []
        for kind, values, answer in commands:
            listed.append(line(kind, values) + b"\n")
            self.answers.append(answer)
        return b"".join(listed)

    def each(self):
        sessions = Sessions(random.Random(SEED))
        yield holding.FRONT + "".join(f"{line}\n" for line in TABLE).encode()
        self.answers.append(b"ok\n" * (1 + len(TABLE)))
        yield self.piece(sessions.fill())
        for _ in range(ROUNDS):
            yield self.piece(sessions.round())
            yield holding.MARK
            self.answers.append(holding.MARKED)


class Held(unittest.TestCase):
    def test_no_round_holds_much_more_than_the_first(self):
        counter = holding.Counter()
        self.addCleanup(counter.close)
        pieces = Pieces()
        ended, out, held = counter.run(pieces.each())
        self.assertEqual((ended.status, ended.err), (0, b""))
        self.assertTrue(out == b"".join(pieces.answers), "a command is answered otherwise")
        self.assertEqual(len(held), ROUNDS)
        if sizes.is_large:
            print(f"{ROWS} sessions hold {held[0]} bytes after the first round, then {min(held[1:])} to {max(held[1:])}", flush=True)
        self.assertLessEqual(max(held), MOST_GROWTH * held[0], held)


@unittest.skipUnless(sizes.is_large, "times are measured in large sizes only")
class Timed(unittest.TestCase):
    """How much of a processor's time each command takes where it is called from Python: by a new text of mmdb's, and by a
    statement that SQLite has prepared. What else runs on the machine doesn't count."""

    def setUp(self):
        gc.disable()
        self.addCleanup(gc.enable)

    def test_the_times_of_mmdb(self):
        with embedded.Handle() as handle:
            for declared in TABLE:
                handle.ask(declared.encode(), b"")

            def does(kind, values):
                text = line(kind, values)
                began = time.thread_time_ns()
                answer = handle.said(embedded.COMMAND(handle.at, text, len(text), handle.told_at))
                return time.thread_time_ns() - began, answer

            self.check("mmdb", does, lambda answer: answer)

    def test_the_times_of_sqlite(self):
        database = sqlite3.connect(":memory:", isolation_level=None)
        self.addCleanup(database.close)
        database.execute("create table session (id integer primary key, token text, visits int, until int)")
        database.execute("create index until on session (until)")
        database.execute("create index token on session (token)")

        def does(kind, values):
            began = time.thread_time_ns()
            done = database.execute(STATEMENTS[kind], values)
            rows = done.fetchall()
            return time.thread_time_ns() - began, (kind, rows, done.rowcount)

        def told(answer):
            kind, rows, count = answer
            if kind == "look up":
                return b"rows 1\nsession.id,session.until\n%d,%d\n" % rows[0]
            return b"ok %d\n" % count

        self.check(f"SQLite {sqlite3.sqlite_version}", does, told)

    def check(self, name, does, told):
        """Does all commands, and tells their times by kind."""
        sessions = Sessions(random.Random(SEED))
        times = {kind: [] for kind in LINES}
        for commands in (sessions.fill(), *(sessions.round() for _ in range(TIMED_ROUNDS))):
            for kind, values, answer in commands:
                took, given = does(kind, values)
                times[kind].append(took)
                self.assertEqual(told(given), answer)
        for kind, listed in times.items():
            listed.sort()
            at = [listed[len(listed) // 2], listed[len(listed) * 99 // 100], listed[-1]]
            p50, p99, most = (f"{took / 1_000:.2f}" for took in at)
            print(f"{name}, {kind}, {len(listed)} times: p50 {p50} µs, p99 {p99} µs, most {most} µs", flush=True)


class InC(unittest.TestCase):
    """The same by prepared statements, from C. Each answer is that of a list of sessions."""

    @classmethod
    def setUpClass(cls):
        cls.room = compiling.Room()
        cls.addClassCleanup(cls.room.close)

    def compiled(self, engine, linked, *more):
        words = ["cc", "-std=c99", "-pthread", *compiling.WARNINGS, "-O2", *more, f"-I{compiling.PROGRAMS}"]
        return self.room.linked(engine, compiling.PROGRAMS / "churn.c", words, [compiling.PROGRAMS / f"churn_{engine}.c", *linked])

    def mmdb(self, *more):
        return self.compiled("mmdb", [tested.library() / "libmmdb.a"], *more)

    def run_mmdb(self, words, tokens, readers="0"):
        """Runs the sessions, and checks that no round holds much more than that from which on the table is full."""
        self.told(self.mmdb(), words, tokens, readers)
        self.check_flat(self.held)

    def check_flat(self, listed):
        full, rest = listed[FULL - 1], listed[FULL:]
        self.assertLessEqual(max(rest), MOST_GROWTH * full, listed)

    def run_sqlite(self, words, tokens):
        try:
            program = self.compiled("sqlite", ["-lsqlite3"])
        except subprocess.CalledProcessError:
            self.skipTest("SQLite's library is not installed")
        self.told(program, words, tokens, "0")

    def told(self, program, words, *others):
        """Keeps what was held behind each round, and tells the times in large sizes."""
        ended = compiling.ran([program, str(SEED), *words, *others], env=UNKEPT)
        self.assertEqual((ended.status, ended.err), (0, b""))
        self.held = [int(held) for held in re.findall(rb"held (\d+)\n", ended.out)]
        self.assertEqual(len(self.held), int(words[0]))
        if sizes.is_large:
            print("\n" + re.sub(r"held \d+\n", "", ended.out.decode()).rstrip())
            full, rest = self.held[FULL - 1], self.held[FULL:]
            print(f"holds {full} bytes after round {FULL}, then {min(rest)} to {max(rest)}", flush=True)

    def instructions(self, words, *others):
        """What the commands of each round take."""
        counts = self.room.path / "counts"
        marks = [f"--{what}" for what in ("toggle-collect=changes", "toggle-collect=looks_up", "dump-after=ends_round")]
        watched = ["valgrind", "-q", "--tool=callgrind", *marks, f"--callgrind-out-file={counts}", self.mmdb("-DIN_TURN")]
        ended = compiling.ran([*watched, str(SEED), *words, *others])
        self.assertEqual((ended.status, ended.err), (0, b""))
        # (the first dump is of none)
        return [growth.total(f"{counts}.{number}") for number in range(2, int(words[0]) + 2)]

    def test_a_day(self):
        self.run_mmdb(OF_A_DAY, "differing")

    def test_chosen_keys(self):
        self.run_mmdb(OF_CHOSEN_KEYS, "chosen")

    def test_half_with_one_token_and_readers(self):
        self.run_mmdb(OF_READERS, "half", READERS)

    @unittest.skipUnless(sizes.is_large or shutil.which("valgrind"), "valgrind is not installed")
    def test_each_round_takes_as_many_instructions(self):
        for tokens, readers in (("differing", "0"), ("half", READERS)):
            with self.subTest(tokens=tokens, readers=readers):
                counted = self.instructions(COUNTED, tokens, readers)
                self.check_flat(counted)
                if sizes.is_large:
                    full, rest = counted[FULL - 1], counted[FULL:]
                    print(f"{tokens}, {readers} readers: {full} instructions in round {FULL}, then {min(rest)} to {max(rest)}", flush=True)

    @unittest.skipUnless(sizes.is_large, "times are measured in large sizes only")
    def test_a_day_of_sqlite(self):
        self.run_sqlite(OF_A_DAY, "differing")

    @unittest.skipUnless(sizes.is_large, "times are measured in large sizes only")
    def test_half_with_one_token_of_sqlite(self):
        self.run_sqlite(OF_READERS, "half")

    @unittest.skipUnless(sizes.is_large, "times are measured in large sizes only")
    def test_chosen_keys_of_sqlite(self):
        self.run_sqlite(OF_CHOSEN_KEYS, "chosen")
