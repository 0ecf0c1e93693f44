"""Streams in transactions: begin, commit and rollback are drawn among their units, nested to three, and a judge does the same. A unit is
asked for in one of several ways, or fed in two pieces, between which transactions begin and end. Outside of them readers may come.

What must hold: every unit is answered in a transaction as it is outside, and a rollback undoes it, drops and fed units too.
"""

import collections
import itertools

from . import model

MOST_OPEN = 3
# The chances that a transaction begins, is committed and is rolled back before a unit.
BEGUN, COMMITTED, ROLLED_BACK = 0.15, 0.07, 0.1
FED = 0.1
# The chance that something is changed that is there: a stream's own deletes and updates mostly find no rows, and its tables are mostly
# there.
CHANGED = 0.24
# The chances that readers share the tables for a while where no transaction is open, before a unit and between its two pieces.
VISITED, VISITED_BETWEEN = 0.06, 0.3
# The names of tables that are made then.
MADE = ("made", "more")
# The chances that a declaration is dropped then instead of another change, and that such a one is declared again.
DROPPED, AGAIN = 0.3, 0.6
# The changes that are undone, and what has to come in a run of many streams.
UNDONE = ("insert", "load", "update", "delete", "table", "index", "drop table", "drop index")
COVERED = [f"{what}, {number} open" for what in ("begun", "committed", "rolled back") for number in range(1, MOST_OPEN + 1)]
COVERED += ["tables gone", "indexes gone", "tables back", "indexes back", "another table gone", *(f"of {word} undone" for word in UNDONE)]
COVERED += ["fed around", "fed in one", "of a fed unit undone"]


def copy_of(table):
    copy = model.Table(table.name, table.columns)
    copy.indexes, copy.rows = list(table.indexes), [list(row) for row in table.rows]
    return copy


class Lists:
    """Plain lists of rows, which are copied at each begin."""

    def __init__(self, limits=model.Limits()):
        self.tables = model.Tables(limits)
        self.saved = []

    def answer(self, line, block):
        return self.tables.answer(line, block)

    def begin(self):
        self.saved.append({name: copy_of(table) for name, table in self.tables.by_name.items()})

    def commit(self):
        self.saved.pop()

    def roll_back(self):
        self.tables.by_name = self.saved.pop()


def lists(tables):
    """What stands in each table: its name, and for each index its column, its kind and how many rows it has."""
    for name, table in tables.by_name.items():
        indexes = [(0, "tree"), *table.indexes]
        yield name, [f"{table.columns[place].name},{kind},{len(table.rows)},".encode() for place, kind in indexes]


def handle_tells(handle, name, listed):
    told = handle.indexes(name.encode()).splitlines()[2:]
    return len(told) == len(listed) and all(line.startswith(front) for line, front in zip(told, listed))


def written(value):
    """A value as a line has it, or None where it can't have it."""
    if value is None or isinstance(value, int):
        return "null" if value is None else str(value)
    return None if set(value) & set(b"\r\n") else "'" + value.decode().replace("'", "''") + "'"


def word_of(line):
    """The first word of a line, where it is one."""
    try:
        symbols = model.symbols_of(model.text_of(model.without_return(line)) or "")
    except model.Refused:
        return ""
    return symbols[0] if symbols else ""


def change_of(line):
    """The first word of a line, and of a drop the second too."""
    word = word_of(line)
    return " ".join(line.decode().split()[:2]) if word == "drop" else word


class Run:
    """The units of a stream on a handle, in transactions, beside a judge. Each way asks for the answer to a unit."""

    def __init__(self, handle, judge, draw, ways, feeds=True, looks_always=False, readers=None):
        self.handle = handle
        self.judge = judge
        self.draw = draw
        self.ways = ways
        self.feeds = feeds
        self.looks_always = looks_always
        self.readers = readers
        # Whether the first piece of a unit was fed, and not yet its second.
        self.is_feeding = False
        self.open = 0
        # For each open transaction the words of the changes in it.
        self.changed = []
        self.misfits = []
        self.count = collections.Counter()

    def differences(self, units):
        """What differs where the units are done so. In the end no transaction is open."""
        left = iter(units)
        try:
            for unit in left:
                self.turn()
                self.do(*unit, left)
            self.end_all()
            self.look_at_all({})
        except AssertionError as why:
            self.misfits.append(f"a call ends so: {why}")
        return self.misfits

    # ---- transactions

    def turn(self):
        """Begins a transaction, ends one, changes something in one, has readers come, or does none of these."""
        self.have_visit(VISITED)
        luck = self.draw.random()
        if luck < BEGUN:
            if self.open < MOST_OPEN:
                self.begin()
        elif luck < BEGUN + COMMITTED + ROLLED_BACK and self.open:
            self.end(luck < BEGUN + COMMITTED)
        elif luck > 1 - CHANGED and self.open:
            is_drop = self.draw.random() < DROPPED
            self.change(self.drop_some if is_drop else self.draw.choice([self.take_some, self.set_some, self.declare_some]))

    def have_visit(self, chance):
        if self.readers and not self.open and self.draw.random() < chance:
            self.readers.visit(self.is_feeding)

    def change(self, some):
        """Changes a table, which has rows unless something is declared or dropped."""
        tables = [table for table in self.judge.tables.by_name.values() if table.rows or some in (self.declare_some, self.drop_some)]
        if tables:
            some(self.draw.choice(tables))

    def take_some(self, table):
        """Deletes rows that are there, and inserts one of them again."""
        values = [written(value) for value in self.draw.choice(table.rows)]
        if None not in values:
            sign = self.draw.choice(["=", "=", "<=", ">="])
            self.do_line(f"delete {table.name} where {table.columns[0].name} {sign} {values[0]}")
            self.do_line(f"insert {table.name} ({', '.join(values)})")

    def set_some(self, table):
        """Sets rows that are there to values of another one, and may delete one of them."""
        key, other = (written(self.draw.choice(table.rows)[0]) for _ in range(2))
        settings = zip(table.columns[1:], map(written, self.draw.choice(table.rows)[1:]))
        puts = [f"{column.name} = {value}" for column, value in settings if value is not None and self.draw.random() < 0.7]
        if puts and None not in (key, other):
            name, sign = table.columns[0].name, self.draw.choice(["=", "=", "<=", ">="])
            self.do_line(f"update {table.name} set {', '.join(puts)} where {name} {sign} {key}")
            if self.draw.random() < 0.3:
                self.do_line(f"delete {table.name} where {name} = {other}")

    def declare_some(self, table):
        """Makes an index of a table, or another table that refers to it, with some rows and an index."""
        kind = self.draw.choice(["tree", "hash"])
        if self.draw.random() < 0.6:
            self.do_line(f"index {table.name} {self.draw.choice(table.columns).name} {kind}")
            return
        name, keys = self.draw.choice(MADE), [written(row[0]) for row in table.rows]
        self.do_line(f"table {name} (id int, k ref {table.name} null)")
        for number, key in enumerate(self.draw.sample(keys, min(2, len(keys)))):
            self.do_line(f"insert {name} ({number}, {key or 'null'})")
        self.do_line(f"index {name} k {kind}")

    def drop_some(self, table):
        """Drops an index, or this table, and before it perhaps those that refer to it. It may be declared again, the table as another.
        Before all this some indexes may be made, and a savepoint behind them."""
        if self.open < MOST_OPEN and self.draw.random() < 0.5:
            for kind in self.draw.sample(["tree", "hash"], 2):
                self.do_line(f"index {table.name} {self.draw.choice(table.columns).name} {kind}")
            self.begin()
        tables = self.judge.tables.by_name
        indexes = [f"index {name} {of.columns[place].name} {kind}" for name, of in tables.items() for place, kind in of.indexes]
        if indexes and self.draw.random() < 0.5:
            index = self.draw.choice(indexes)
            self.do_line(f"drop {index}")
            if self.draw.random() < AGAIN:
                self.do_line(index)
            return
        names = [name for name, other in tables.items() if table.name in (column.to for column in other.columns)]
        for name in names if self.draw.random() < 0.7 else []:
            self.do_line(f"drop table {name}")
        self.do_line(f"drop table {table.name}")
        if self.draw.random() < AGAIN:
            self.make_another(table)

    def make_another(self, table):
        """Makes a table of a name that mostly is free, with some of the columns that another has had, and with one of its keys."""
        columns = [table.columns[0], *(column for column in table.columns[1:] if self.draw.random() < 0.5)]
        values = [written(row[0]) for row in table.rows[:1]] + ["null" if column.takes_null else "''" for column in columns[1:]]
        self.do_line(f"table {table.name} ({', '.join(column.declaration() for column in columns)})")
        if table.rows and None not in values:
            self.do_line(f"insert {table.name} ({', '.join(values)})")

    def begin(self):
        self.handle.begin()
        self.judge.begin()
        self.open += 1
        self.changed.append([])
        self.note("begun")

    def end(self, is_kept):
        self.note("committed" if is_kept else "rolled back")
        self.open -= 1
        changed = self.changed.pop()
        if is_kept:
            self.handle.commit()
            self.judge.commit()
            if self.open:
                self.changed[-1] += changed
            return
        before = self.judge.tables.by_name
        self.handle.roll_back()
        self.judge.roll_back()
        now = self.judge.tables.by_name
        self.count.update(("transactions", f"of {word} undone") for word in changed)
        self.count["transactions", "tables back"] += len(now.keys() - before.keys())
        others = sum(before[name].columns != now[name].columns for name in before.keys() & now.keys())
        self.count["transactions", "another table gone"] += others
        self.look_at_all(before)
        self.look_for(before.keys() - now.keys())

    def end_all(self):
        while self.open:
            self.end(self.draw.random() < 0.5)

    def note(self, what):
        self.count["transactions", f"{what}, {self.open} open"] += 1

    # ---- units

    def do_line(self, line):
        self.do(line.encode(), b"", iter(()))

    def do(self, line, block, left):
        is_fed = self.feeds and self.draw.random() < FED
        answer = self.fed(line, block, left) if is_fed else self.draw.choice(self.ways)(line, block)
        self.compare(line, block, answer)
        if self.readers and line.startswith(b"select") and b"?" not in line:
            # (one with a place of its own can't be done by a statement)
            self.readers.selects.append(line)
        if self.open:
            self.note_change(line, answer, is_fed)
        if self.looks_always:
            self.look_at_rows()

    def note_change(self, line, answer, is_fed):
        word = change_of(line)
        if answer.startswith(b"ok") and answer != b"ok 0\n" and word != "tables":
            self.changed[-1] += [word, *(["a fed unit"] if is_fed else [])]
            self.count["changes in transactions", word] += 1

    def fed(self, line, block, left):
        """The answer to a unit that is fed in two pieces, between them mostly others, among which transactions begin and end."""
        unit = line + b"\n" + block
        end = self.draw.randrange(len(unit))
        told = self.handle.feed(unit[:end])
        if self.draw.random() < 0.6:
            self.do_between(left)
        self.count["transactions", "fed in one"] += bool(self.open)
        return told + self.handle.feed(unit[end:])

    def do_between(self, left):
        self.count["transactions", "fed around"] += 1
        self.feeds, self.is_feeding = False, True
        self.have_visit(VISITED_BETWEEN)
        if self.open < MOST_OPEN:
            self.begin()
        for unit in itertools.islice(left, self.draw.randrange(1, 6)):
            self.do(*unit, left)
            self.turn()
        if self.draw.random() < 0.5:
            self.end_all()
        self.feeds, self.is_feeding = True, False

    # ---- what is compared

    def compare(self, line, block, answer):
        expected = self.judge.answer(line, block)
        if answer != expected:
            self.misfits.append(f"{line!r} is answered {answer!r}, not {expected!r}, where {self.open} transactions are open")

    def ask(self, line):
        self.compare(line.encode(), b"", self.handle.ask(line.encode(), b""))

    def look_at_rows(self):
        """All declarations and all rows."""
        for line in ["tables", *(f"dump {name}" for name in self.judge.tables.by_name)]:
            self.ask(line)

    def look_at_all(self, before):
        """Declarations, rows, indexes, and through each index some rows that stand there, or stood before in a table of that name. Indexes
        that there were before are looked for too."""
        if self.handle.transactions() != self.open:
            self.misfits.append(f"{self.handle.transactions()} transactions are open, not {self.open}")
        self.look_at_rows()
        for name, listed in lists(self.judge.tables):
            if not handle_tells(self.handle, name, listed):
                self.misfits.append(f"the indexes {listed} are told as {self.handle.indexes(name.encode())!r}")
        for name, table in list(self.judge.tables.by_name.items()):
            was = before.get(name, table)
            gone = [index for index in was.indexes if index not in table.indexes and index[0] < len(table.columns)]
            self.count["transactions", "indexes gone"] += len(gone)
            self.count["transactions", "indexes back"] += sum(index not in was.indexes for index in table.indexes)
            self.look_through(table, [(0, "tree"), *table.indexes, *gone], [*table.rows, *was.rows])

    def look_for(self, names):
        """Looks for tables that are gone, whose names are free again."""
        self.count["transactions", "tables gone"] += len(names)
        for name in sorted(names):
            for line in (f"dump {name}", f"select * from {name}", f"index {name} id tree"):
                self.ask(line)
            if not self.handle.indexes(name.encode()).startswith(b"error 30 "):
                self.misfits.append(f"the indexes of {name} are told, which is gone")
            self.make_for_a_while(name)

    def make_for_a_while(self, name):
        self.handle.begin()
        self.judge.begin()
        self.ask(f"table {name} (id int)")
        self.handle.roll_back()
        self.judge.roll_back()

    def look_through(self, table, indexes, rows):
        """Selects through these indexes what one of these rows has."""
        for place, kind in indexes:
            row = self.draw.choice(rows) if rows else []
            value = written(row[place]) if place < len(row) else None
            if value is not None:
                sign = "=" if kind == "hash" or value == "null" else self.draw.choice([">=", "<="])
                self.ask(f"select * from {table.name} where {table.columns[place].name} {sign} {value}")
