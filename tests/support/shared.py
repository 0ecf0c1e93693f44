"""Readers that are drawn between the units of a stream: handles that share the tables of another, read them, leave, and share them again.
A cursor of one of them is read meanwhile.

What must hold: a reader answers each select as the judge does, nothing changes while tables are shared, and afterwards the handle goes on.
"""

import collections

from . import embedded, model, prepared, transacted

# How many readers there are at most, how much they do in a visit, and the chances of its ends.
MOST_READERS = 3
STEPS = 8
CLOSED, HANDED_OVER = 0.3, 0.3
# How many rows a page of a cursor has at most.
PAGE = 2
NO_TABLE = b"error 30 no such table\n"
COVERED = ["opened", "shared again", "left", "closed", "reads", "reads refused", "reads after leaving", "changes declined"]
COVERED += ["indexes read", "cursors read", "tables handed over", "visits in a fed unit"]


class Reader:
    """A handle that shares tables, and its statements."""

    def __init__(self, source, draw, count):
        self.handle = embedded.Handle(shares=source)
        self.statements = prepared.Statements(self.handle, draw, count)


class Reading:
    """A cursor on the rows of a select, the first of which are read, and the answer that its line has."""

    def __init__(self, handle, line, answer):
        statement = handle.prepare(line)
        if statement is None:
            raise AssertionError(f"{line!r} is refused on a reader")
        self.line = line
        self.answer = answer
        self.names = [name for name, _ in handle.columns(statement)]
        self.cursor = embedded.Cursor(handle, statement)
        handle.finalize(statement)
        self.rows = self.cursor.page(PAGE)

    def end(self):
        """The answer that its pages make. It is closed."""
        while page := self.cursor.page(PAGE):
            self.rows += page
        self.cursor.close()
        return b"rows %d\n" % len(self.rows) + b"".join(map(model.record, [self.names, *self.rows]))


class Readers:
    """The readers of a handle, beside a judge."""

    def __init__(self, handle, judge, draw):
        self.handle = handle
        self.judge = judge
        self.draw = draw
        self.count = collections.Counter()
        # The selects of the stream so far.
        self.selects = []
        # Those that share the tables, and those that have left them.
        self.here, self.away = [], []
        self.misfits = []

    def visit(self, is_fed):
        """Some share the tables, and until they leave nothing changes."""
        self.note("visits in a fed unit", is_fed)
        for _ in range(self.draw.randrange(1, MOST_READERS + 1)):
            self.come()
        reading = self.begin_reading()
        steps = [self.read, self.read, self.read_again, self.read_indexes, self.decline, self.go_and_come]
        for _ in range(STEPS):
            self.draw.choice(steps)()
        if reading:
            self.end_reading(reading)
        if self.draw.random() < HANDED_OVER:
            self.hand_over()
        while self.here:
            self.go()

    def end(self):
        """What differed, and which rows of a statement changed until now. All readers are closed."""
        readers = self.away + self.here
        changed = [f"the rows of {text!r} of a reader changed" for reader in readers for text in reader.statements.changed()]
        for reader in readers:
            reader.handle.close()
        return self.misfits + changed

    def note(self, what, times=1):
        self.count["readers", what] += times

    # ---- who shares the tables

    def come(self):
        """One shares them that has left, or a new one. It gets them from any handle that has them."""
        source = self.draw.choice([self.handle, *(reader.handle for reader in self.here)])
        if self.away and (len(self.away) + len(self.here) == MOST_READERS or self.draw.random() < 0.7):
            reader = self.away.pop(self.draw.randrange(len(self.away)))
            source.share(reader.handle)
            self.note("shared again")
        else:
            reader = Reader(source, self.draw, self.count)
            self.note("opened")
        self.here.append(reader)

    def go(self):
        """One leaves, or is closed. One that has left finds no table."""
        reader = self.here.pop(self.draw.randrange(len(self.here)))
        if self.draw.random() < CLOSED:
            self.misfits += [f"the rows of {text!r} changed while they were shared" for text in reader.statements.changed()]
            reader.handle.close()
            self.note("closed")
            return
        reader.handle.leave()
        self.away.append(reader)
        self.note("left")
        for name in list(self.judge.tables.by_name)[:1]:
            self.compare(f"select * from {name}".encode(), reader.statements, NO_TABLE)
            self.note("reads after leaving")

    def go_and_come(self):
        self.go()
        self.come()

    def hand_over(self):
        """The handle leaves its tables to a reader, which alone has them, and shares them with it again."""
        while len(self.here) > 1:
            self.go()
        keeper = self.here[0].handle
        self.handle.leave()
        if self.handle.prepare(b"select * from t") is not None:
            self.misfits.append("a handle that has left has a table")
        keeper.begin()
        keeper.roll_back()
        keeper.share(self.handle)
        self.note("tables handed over")

    # ---- what they do

    def begin_reading(self):
        """A cursor of a reader, on a select of the stream, mostly with joins or `distinct`, or on a table; or None if there is none."""
        lines = sorted(self.selects, key=lambda line: b"join" not in line and b"distinct" not in line)
        for line in [*lines, *(f"select * from {name}".encode() for name in self.judge.tables.by_name)]:
            answer = self.judge.answer(line, b"")
            if answer.startswith(b"rows "):
                self.note("cursors read")
                return Reading(self.here[0].handle, line, answer)
        return None

    def end_reading(self, reading):
        told = reading.end()
        if told != reading.answer:
            self.misfits.append(f"{reading.line!r} is read by a cursor as {told!r}, not {reading.answer!r}")

    def compare(self, line, statements, expected):
        answer = statements.ask(line, b"")
        if answer != expected:
            self.misfits.append(f"{line!r} is answered {answer!r} on a reader, not {expected!r}")
        return answer

    def table(self):
        """One of the tables, or none."""
        tables = list(self.judge.tables.by_name.values())
        return self.draw.choice(tables) if tables else None

    def ask(self, line):
        answer = self.compare(line, self.draw.choice(self.here).statements, self.judge.answer(line, b""))
        self.note("reads refused" if answer.startswith(b"error ") else "reads")

    def read(self):
        """Through an index of a table a row that is there, or all rows."""
        table = self.table()
        if table is None:
            return
        line = f"select * from {table.name}"
        place, kind = self.draw.choice([(0, "tree"), *table.indexes])
        value = transacted.written(self.draw.choice(table.rows)[place]) if table.rows else None
        if value is not None:
            sign = "=" if kind == "hash" or value == "null" else self.draw.choice(["=", ">=", "<="])
            line += f" where {table.columns[place].name} {sign} {value}"
        self.ask(line.encode())

    def read_again(self):
        """A select of the stream, whatever has become of its tables."""
        if self.selects:
            self.ask(self.draw.choice(self.selects))

    def read_indexes(self):
        reader = self.draw.choice(self.here).handle
        for name, listed in transacted.lists(self.judge.tables):
            self.note("indexes read")
            if not transacted.handle_tells(reader, name, listed):
                self.misfits.append(f"the indexes {listed} are told as {reader.indexes(name.encode())!r} on a reader")

    def decline(self):
        """No handle that shares the tables changes them."""
        table = self.table()
        handle = self.draw.choice([self.handle, *(reader.handle for reader in self.here)])
        if table is not None:
            line = f"delete {table.name}".encode()
            if not handle.declines(line):
                self.misfits.append(f"{line!r} is not declined while the tables are shared")
            self.note("changes declined")
