"""Times the Python module mmdb beside sqlite3 over `:memory:`, both in this process, on the same statements."""

import pathlib
import random
import sqlite3
import tempfile
import time

ROUNDS = 7
STATEMENTS = 2_000
ROWS_OF_A_BLOCK = 100_000
KINDS = ("select by key", "insert by key", "update by key", "delete by key")
WAYS = ("new text", "parameters", "prepared")
#: What is put in by one call, by the name of the figure: the call, and what makes of a list of tuples what it takes.
MANY_WAYS = {
    "insert of many": ("put in", lambda rows: rows),
    "load of an iterator": ("load", iter),
    "load of dicts": ("load dicts", lambda rows: ({"id": id, "n": n, "s": s} for id, n, s in rows)),
}
# What comes behind a batch, so that the tables are as they were. It isn't timed.
UNDONE_BY = {"insert by key": "delete by key", "delete by key": "insert by key"}
RANGE = 1_000
MANY = 100_000


def ours(db):
    """What does one statement of each kind in each way, by its key."""
    execute = db.execute
    select, insert, delete = "select * from t where id = ?", "insert t (?, ?, ?)", "delete t where id = ?"
    update = "update t set n = ?, s = ? where id = ?"
    selects, inserts, updates, deletes = [db.prepare(line).execute for line in (select, insert, update, delete)]
    return {
        ("select by key", "new text"): lambda key: execute(f"select * from t where id = {key}"),
        ("select by key", "parameters"): lambda key: execute(select, key),
        ("select by key", "prepared"): selects,
        ("insert by key", "new text"): lambda key: execute(f"insert t ({key}, {key}, 'abcdefgh')"),
        ("insert by key", "parameters"): lambda key: execute(insert, key, key, "abcdefgh"),
        ("insert by key", "prepared"): lambda key: inserts(key, key, "abcdefgh"),
        ("update by key", "new text"): lambda key: execute(f"update t set n = {key}, s = 'bcdefgha' where id = {key}"),
        ("update by key", "parameters"): lambda key: execute(update, key, "bcdefgha", key),
        ("update by key", "prepared"): lambda key: updates(key, "bcdefgha", key),
        ("delete by key", "new text"): lambda key: execute(f"delete t where id = {key}"),
        ("delete by key", "parameters"): lambda key: execute(delete, key),
        ("delete by key", "prepared"): deletes,
        "range": lambda least, most: execute("select * from t where id >= ? and id < ?", least, most),
        "put in": lambda rows: db.executemany(insert, rows),
        "take out": lambda rows: db.executemany(delete, rows),
        "load": lambda rows: db.load("t", rows),
        "load dicts": lambda dicts: db.load_dicts("t", dicts),
        "save": lambda folder: db.save(folder / "all.mmdb"),
        "restore": lambda folder: type(db).restore(folder / "all.mmdb"),
        "rows": lambda restored: restored.count("select id from t"),
    }


def theirs(text, kept):
    """The same of sqlite3. One connection keeps no statements, so that each text is a new one, and the other does: that
    is its way with parameters, and the one to which statements that were prepared are compared."""
    execute = kept.execute
    select, insert = "select * from t where id = ?", "insert into t values (?, ?, ?)"
    update, delete = "update t set n = ?, s = ? where id = ?", "delete from t where id = ?"
    found = {
        ("select by key", "new text"): lambda key: text.execute(f"select * from t where id = {key}").fetchall(),
        ("select by key", "parameters"): lambda key: execute(select, (key,)).fetchall(),
        ("insert by key", "new text"): lambda key: text.execute(f"insert into t values ({key}, {key}, 'abcdefgh')"),
        ("insert by key", "parameters"): lambda key: execute(insert, (key, key, "abcdefgh")),
        ("update by key", "new text"): lambda key: text.execute(f"update t set n = {key}, s = 'bcdefgha' where id = {key}"),
        ("update by key", "parameters"): lambda key: execute(update, (key, "bcdefgha", key)),
        ("delete by key", "new text"): lambda key: text.execute(f"delete from t where id = {key}"),
        ("delete by key", "parameters"): lambda key: execute(delete, (key,)),
        "range": lambda least, most: execute("select * from t where id >= ? and id < ?", (least, most)).fetchall(),
        "put in": lambda rows: in_one_transaction(kept, insert, rows),
        "take out": lambda rows: in_one_transaction(kept, delete, rows),
        "load": lambda rows: in_one_transaction(kept, insert, rows),
        "load dicts": lambda dicts: in_one_transaction(kept, "insert into t values (:id, :n, :s)", dicts),
        "save": lambda folder: write_script(kept, folder / "all.sql"),
        "restore": lambda folder: made_by_script(folder / "all.sql"),
        "rows": lambda restored: restored.execute("select count(*) from t").fetchone()[0],
    }
    return {**{(kind, "prepared"): found[kind, "parameters"] for kind in KINDS}, **found}


def in_one_transaction(connection, line, rows):
    connection.execute("begin")
    connection.executemany(line, rows)
    connection.execute("commit")


def write_script(connection, path):
    """Writes the lines of SQL that make this database to a file."""
    with open(path, "w", encoding="utf-8") as file:
        for line in connection.iterdump():
            file.write(f"{line}\n")


def made_by_script(path):
    """A new database, made by the lines of such a file."""
    connection = sqlite3.connect(":memory:", isolation_level=None)
    connection.executescript(path.read_text(encoding="utf-8"))
    return connection


def connected(rows, statements_kept):
    """An open database of sqlite3 with these rows, in which each statement is a transaction."""
    connection = sqlite3.connect(":memory:", isolation_level=None, cached_statements=statements_kept)
    connection.execute("create table t (id integer primary key, n integer, s text)")
    in_one_transaction(connection, "insert into t values (?, ?, ?)", rows)
    return connection


class Comparison:
    """Both over tables of so many rows. What was done and the microseconds of both are handed to `tell`."""

    def __init__(self, module, rows, tell):
        self.rows, self.tell, self.draw = rows, tell, random.Random(rows)
        made = [(2 * key, key, "abcdefgh") for key in self.draw.sample(range(rows), rows)]
        self.db = module.Database()
        self.db.execute("table t (id int, n int, s text)")
        for at in range(0, rows, ROWS_OF_A_BLOCK):
            self.db.load("t", made[at : at + ROWS_OF_A_BLOCK])
        self.connections = [connected(made, 0), connected(made, 128)]
        self.sides = ours(self.db), theirs(*self.connections)

    def keys(self, kind):
        """The keys in the tables are even, and new ones are odd."""
        if kind not in UNDONE_BY:
            return [2 * self.draw.randrange(self.rows) for _ in range(STATEMENTS)]
        is_new = kind == "insert by key"
        return [2 * key + is_new for key in self.draw.sample(range(self.rows), min(self.rows, STATEMENTS))]

    def seconds(self, kind, way, side):
        """The seconds of a statement. (The connection that keeps no statements has tables of its own.)"""
        keys, do, took = self.keys(kind), side[kind, way], 0
        undo = side[UNDONE_BY[kind], way] if kind in UNDONE_BY else None
        batches = STATEMENTS // len(keys)
        for _ in range(batches):
            took -= time.process_time_ns()
            for key in keys:
                do(key)
            took += time.process_time_ns()
            for key in keys if undo else ():
                undo(key)
        return took / 1e9 / (batches * len(keys))

    def seconds_of_a_range(self, side):
        """The seconds of a select of many rows."""
        begins = [2 * self.draw.randrange(self.rows - RANGE + 1) for _ in range(STATEMENTS // 100)]
        took = -time.process_time_ns()
        for least in begins:
            side["range"](least, least + 2 * RANGE)
        return (took + time.process_time_ns()) / 1e9 / len(begins)

    def seconds_of_many(self, side, call, made):
        """The seconds of a row where many are put in by one call, with what is made of a list of tuples."""
        keys = [2 * key + 1 for key in self.draw.sample(range(max(self.rows, MANY)), MANY)]
        rows = [(key, key, "abcdefgh") for key in keys]
        took = -time.process_time_ns()
        side[call](made(rows))
        took += time.process_time_ns()
        side["take out"]([(key,) for key in keys])
        return took / 1e9 / MANY

    def seconds_of_a_save(self, side, folder):
        """The seconds of a row where the whole database is written to a file."""
        took = -time.process_time_ns()
        side["save"](folder)
        return (took + time.process_time_ns()) / 1e9 / self.rows

    def seconds_of_a_restore(self, side, folder):
        """The seconds of a row where a new database is made from that file. It must have all rows."""
        took = -time.process_time_ns()
        restored = side["restore"](folder)
        took += time.process_time_ns()
        count = side["rows"](restored)
        restored.close()
        if count != self.rows:
            raise ValueError(f"of {self.rows} rows {count} were restored")
        return took / 1e9 / self.rows

    def best(self, kind, way, seconds):
        """Tells the best of some rounds, in which both come by turns."""
        all_took = [[seconds(side) for side in self.sides] for _ in range(ROUNDS)]
        self.tell(kind, way, *(min(each) * 1e6 for each in zip(*all_took)))

    def compare_whole(self):
        """Saves and restores the whole database of each."""
        with tempfile.TemporaryDirectory() as name:
            folder = pathlib.Path(name)
            self.best("save", "a row", lambda side: self.seconds_of_a_save(side, folder))
            self.best("restore", "a row", lambda side: self.seconds_of_a_restore(side, folder))

    def run(self):
        for kind in KINDS:
            for way in WAYS:
                self.best(kind, way, lambda side, kind=kind, way=way: self.seconds(kind, way, side))
        if self.rows >= RANGE:
            self.best(f"select {RANGE:,} rows", "parameters", self.seconds_of_a_range)
        for what, way in MANY_WAYS.items():
            self.best(what, "a row", lambda side, way=way: self.seconds_of_many(side, *way))
        if self.rows >= RANGE:
            self.compare_whole()
        self.db.close()
        for connection in self.connections:
            connection.close()
