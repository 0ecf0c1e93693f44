"""Random streams, judged by SQLite: the answers, and all tables after each command. The program answers them, and the library does
so in transactions, which are savepoints of SQLite's.

In large sizes (`tests/fire referee`) the environment selects streams: MMDB_FIRST is the number of the first, MMDB_STREAMS how many,
MMDB_SEED the seed, MMDB_JOBS how many processes judge.

What must hold: a stream depends on the seed and its number alone. Each planted mistake is seen, so that the judge is known to look.
"""

import collections
import concurrent.futures
import random
import time
import unittest

from support import embedded, harness, joined, model, prepared, random_streams, referee, sizes, streams, transacted


SEED = sizes.said("MMDB_SEED", 19860528)
FIRST = sizes.said("MMDB_FIRST", 0)
STREAMS = sizes.said("MMDB_STREAMS", sizes.size(200, 5_000, 60))
JOBS = sizes.said("MMDB_JOBS", 1)
AT_ONCE = 50
PLANTED_STREAMS = 60
# Each kind of command that SQLite has to have answered, and each refusal.
KINDS = (
    "table, drop table, index, drop index, insert, update, delete, load, dump, tables, select, select distinct,"
    " select of joins, select distinct of joins"
).split(", ")
BY_ROWS = (41, 42, 44)


def nulls(draw):
    """Commands on two columns where nulls can stand, which the streams of the model seldom join."""
    values = ["null", "null", "'a'", "'b'", "''"]
    rows = [f"insert f ({draw.randrange(9)}, {draw.choice(values)})" for _ in range(5)]
    rows += [f"insert e ({draw.randrange(9)}, {draw.randrange(3)}, {draw.choice(values)})" for _ in range(3)]
    draw.shuffle(rows)
    joined = draw.choice(["e join f on e.u = f.u", "f join e on e.u = f.u"])
    test = f" where {draw.choice(['e.u', 'f.u'])} {draw.choice(['=', '<>', '<', '>='])} {draw.choice(values)}"
    asked = ["select distinct u from f", f"select * from {joined}", f"select distinct f.u, e.t from {joined}{test}", f"delete f{test}"]
    return "".join(f"{line}\n" for line in ["table f (id int, u ref u null)", *rows, *asked]).encode()


def stream_at(number):
    """The stream of that number: every eighth about joins, the others of the model, and a third with nulls joined behind it."""
    draw = random.Random(f"{SEED} {number}")
    if number % 8 == 7:
        return joined.stream(draw)
    stream = random_streams.stream_and_answers(draw)[0]
    return stream if number % 3 else streams.whole_units_of(stream) + nulls(draw)


def told(listed):
    return b"".join(case.unit for case in listed)


def covered(listed):
    """How often each kind of command came, was answered by SQLite, showed rows, and was refused, and by whom."""
    count = collections.Counter()
    for case in listed:
        number = referee.refusal_of(case.answer())
        judge = "model" if case.by_sqlite is None else "SQLite"
        count["commands", case.kind] += 1
        if number:
            count[f"refused by {judge}", number] += 1
        elif judge == "SQLite":
            count["done by SQLite", case.kind] += 1
            count["rows shown or changed", case.kind] += case.answer().split(b"\n")[0] not in (b"ok 0", b"rows 0")
    return count


def judge(number):
    """What a stream differs by, with its number, and what it covered. The policies take turns."""
    listed = list(referee.cases(stream_at(number)))
    ended = harness.run_whole(told(listed), ["--policy", harness.POLICIES[number % len(harness.POLICIES)]])
    found = referee.difference(listed, ended.out)
    others, count = judge_in_transactions(number)
    differs = [*([found] if found else []), *others]
    return (f"stream {number} of seed {SEED}: " + "\n".join(differs) if differs else None), covered(listed) + count


def judge_in_transactions(number):
    """What a stream differs by in transactions, and what was counted of them."""
    draw = random.Random(f"{SEED} {number} in transactions")
    units = model.units_of(streams.whole(stream_at(number), b"")[0])
    with embedded.Handle(harness.POLICIES[number % len(harness.POLICIES)]) as handle:
        statements = prepared.Statements(handle, draw, collections.Counter())
        run = transacted.Run(handle, referee.Judge(), draw, [handle.ask, statements.ask], looks_always=True)
        return [f"in transactions: {misfit}" for misfit in run.differences(units)], run.count


def judge_some(numbers):
    judged = [judge(number) for number in numbers]
    return [found for found, _ in judged if found], sum((count for _, count in judged), collections.Counter())


def judge_all():
    """Judges all streams, some at once by each job, and tells how far it is."""
    numbers = [range(at, min(at + AT_ONCE, FIRST + STREAMS)) for at in range(FIRST, FIRST + STREAMS, AT_ONCE)]
    differences, count = [], collections.Counter()
    with concurrent.futures.ProcessPoolExecutor(JOBS) as jobs:
        for some, (found, more) in zip(numbers, jobs.map(judge_some, numbers)):
            differences += found
            count += more
            if sizes.is_large and some.stop % 1_000 == 0:
                print(f"{some.stop - FIRST} streams, the last of number {some.stop - 1}: {len(differences)} differ", flush=True)
    return differences, count


def tell(count, seconds):
    print(f"seed {SEED}, streams {FIRST} to {FIRST + STREAMS - 1}, {seconds:.0f} seconds, {JOBS} side by side")
    for what in dict.fromkeys(what for what, _ in sorted(count, key=str)):
        listed = sorted((kind, times) for (other, kind), times in count.items() if other == what)
        print(f"{what}: {sum(times for _, times in listed)}: " + ", ".join(f"{kind} {times}" for kind, times in listed), flush=True)


class Judged(unittest.TestCase):
    def test_sqlite_gives_the_same_answers_and_tables(self):
        began = time.monotonic()
        differences, count = judge_all()
        if sizes.is_large:
            tell(count, time.monotonic() - began)
        self.assertEqual(differences, [], "\n\n".join(differences[:5]))
        if STREAMS >= 1_000 or not sizes.is_large:
            self.assertEqual([kind for kind in KINDS if not count["rows shown or changed", kind]], [])
            self.assertEqual([number for number in BY_ROWS if not count["refused by SQLite", number]], [])
            self.assertEqual([what for what in transacted.COVERED if not count["transactions", what]], [])

    def test_the_rows_are_judged_so(self):
        for name, stream, _ in harness.rows():
            with self.subTest(row=name):
                listed = list(referee.cases(stream))
                self.assertIsNone(referee.difference(listed, harness.run_whole(told(listed)).out))


def update(self, name, settings, conditions):
    """Sets nothing."""
    rows = [list(row) for row in self.named(name).rows]
    answer = model.Tables.update(self, name, settings, conditions)
    self.named(name).rows = rows
    return answer


def shown(change):
    """Changes the rows that a select shows."""

    def select(self, *words):
        lines = model.Tables.select(self, *words).split(b"\n")
        rows = change(lines[2:-1])
        return b"\n".join([b"rows %d" % len(rows), lines[1], *rows, b""])

    return select


def select(self, distinct, *words):
    """Shows each list of values as often as it is found."""
    return model.Tables.select(self, False, *words)


def delete(self, name, conditions):
    """Takes rows out that are named."""
    table = self.named(name)
    self.check_conditions(table, conditions)
    kept = [row for row in table.rows if not table.meets(row, conditions)]
    gone, table.rows = len(table.rows) - len(kept), kept
    return b"ok %d\n" % gone


def load(self, name, length, block):
    """Leaves the rows that stand before the one that is refused."""
    table = self.named(name)
    try:
        return model.Tables.load(self, name, length, block)
    except model.Refused as why:
        if why.number in (41, 42):
            table.put(list(self.rows_of(table, block))[: why.record - 1])
        raise


def check_references(self, columns_and_values):
    """Takes references that name no row."""


def check_row(self, table, row, keys):
    """Looks at references before the key."""
    self.check_references(zip(table.columns, row))
    model.Tables.check_row(self, table, row, keys)


def members(_, tables, sides):
    """Joins nulls."""
    found = [[row] for row in tables[0].rows]
    for table, ((number, place), inner) in zip(tables[1:], sides):
        found = [[*member, row] for member in found for row in table.rows if member[number][place] == row[inner]]
    return found


def drop_index(self, name, column, kind):
    """Leaves the index."""
    indexes = list(self.named(name).indexes)
    answer = model.Tables.drop_index(self, name, column, kind)
    self.named(name).indexes = indexes
    return answer


def key_unseen():
    def check_row(self, table, row, _):
        """Takes a key that is there."""
        self.check_references(zip(table.columns, row))

    return check_row


def reference_seen_late():
    def update(self, name, settings, conditions):
        """Sets rows, and looks then whether the references name some."""
        self.check_references = lambda _: None
        answer = model.Tables.update(self, name, settings, conditions)
        del self.check_references
        table = self.named(name)
        self.check_references((table.columns[table.place(column)], value) for column, value in settings)
        return answer

    return update


def by_the_last_key():
    def members(_, tables, sides):
        """Joins rows in the order of the last table."""
        return sorted(model.Tables.members(tables, sides), key=lambda member: member[-1][0])

    return members


def null_unread():
    def row_of(self, table, fields):
        """Reads the empty text where a load says null."""
        row = model.Tables.row_of(self, table, fields)
        return [b"" if value is None and self.key_kind(column) == "text" else value for value, column in zip(row, table.columns)]

    return row_of


PLANTED = {
    "an update sets nothing": update,
    "a select leaves a row out": shown(lambda rows: rows[:-1]),
    "a select shows rows in the wrong order": shown(lambda rows: rows[::-1]),
    "a select shows a row twice": shown(lambda rows: rows + rows[-1:]),
    "distinct shows what is equal": select,
    "a delete takes rows that are named": delete,
    "a refused load leaves rows": load,
    "references name no row": check_references,
    "references are looked at before keys": check_row,
    "nulls are joined": members,
    "a dropped index stays": drop_index,
    "a key comes twice": key_unseen(),
    "a refused update sets rows": reference_seen_late(),
    "joins come in the order of the last table": by_the_last_key(),
    "a load reads no null": null_unread(),
}


def answers(stream, tables):
    return b"".join(tables.answer(*unit) for unit in model.units_of(stream))


class Planted(unittest.TestCase):
    """A mistake that is planted in the tables is seen, whether it is the program that has it, or the program and the model."""

    def test_each_planted_mistake_is_seen(self):
        drawn = [stream_at(number) for number in range(PLANTED_STREAMS)]
        units = [told(referee.cases(stream)) for stream in drawn]
        for name, method in PLANTED.items():
            faulty = type("Faulty", (model.Tables,), {method.__name__: method})
            with self.subTest(planted=name):
                self.assertTrue(any(self.differ(*both, faulty) for both in zip(drawn, units)))
                self.assertTrue(any(self.differ(*both, faulty, faulty) for both in zip(drawn, units)))

    def differ(self, stream, units, program, judge=model.Tables):
        listed = list(referee.cases(stream, judge(model.Limits())))
        return referee.difference(listed, answers(units, program(model.Limits())))


class Plain(transacted.Lists):
    """A handle whose tables are plain lists."""

    def ask(self, line, block):
        return self.answer(line, block)

    def transactions(self):
        return len(self.saved)

    def indexes(self, name):
        """How the indexes of a table stand, behind two lines, where there is such a table."""
        listed = dict(transacted.lists(self.tables)).get(name.decode())
        return b"error 30 no such table\n" if listed is None else b"".join(line + b"\n" for line in [b"", b"", *listed])


class KeepsAll(Plain):
    def roll_back(self):
        self.commit()


class KeepsWhatIsCommitted(Plain):
    """No rollback undoes what a transaction in its own has committed."""

    def commit(self):
        super().commit()
        now = {name: transacted.copy_of(table) for name, table in self.tables.by_name.items()}
        self.saved = [now for _ in self.saved]


class UndoesAll(Plain):
    """A rollback undoes the outer transactions too."""

    def roll_back(self):
        self.tables.by_name, _ = self.saved[0], self.saved.pop()


class ChangesRolledBack(Plain):
    """A rollback restores each table from its rows before and now, which a mistake mixes."""

    def roll_back(self):
        now = {name: {row[0]: row for row in table.rows} for name, table in self.tables.by_name.items()}
        super().roll_back()
        for name, table in self.tables.by_name.items():
            table.rows = self.mixed(table.rows, now.get(name, {}))


class LeavesDeleted(ChangesRolledBack):
    def mixed(self, before, now):
        return [row for row in before if row[0] in now]


class LeavesUpdated(ChangesRolledBack):
    def mixed(self, before, now):
        return [now.get(row[0], row) for row in before]


class LeavesInserted(ChangesRolledBack):
    def mixed(self, before, now):
        return sorted([*before, *(now[key] for key in now.keys() - {row[0] for row in before})], key=lambda row: row[0])


class LeavesEntries(Plain):
    """The indexes tell the rows that stood there before a rollback."""

    told = 0

    def roll_back(self):
        self.told = 1
        super().roll_back()

    def indexes(self, name):
        return super().indexes(name) + b"id,tree,0,\n" * self.told


class DeclaredRolledBack(Plain):
    """A rollback leaves or takes what was declared, and what is mixed so is in the tables."""

    def roll_back(self):
        now = self.tables.by_name
        super().roll_back()
        self.mix(self.tables.by_name, now)


class LeavesTables(DeclaredRolledBack):
    def mix(self, tables, now):
        tables |= {name: table for name, table in now.items() if name not in tables}


class LeavesEmptyTables(DeclaredRolledBack):
    def mix(self, tables, now):
        tables |= {name: model.Table(name, table.columns) for name, table in now.items() if name not in tables}


class LeavesIndexes(DeclaredRolledBack):
    def mix(self, tables, now):
        for name in tables.keys() & now.keys():
            tables[name].indexes = list(now[name].indexes)


class TakesTheLastIndex(DeclaredRolledBack):
    """It takes the last index of a table of which rows have changed, whenever that was made."""

    def mix(self, tables, now):
        for name in tables.keys() & now.keys():
            if tables[name].rows != now[name].rows:
                del tables[name].indexes[-1:]


class RemembersTables(Plain):
    """The name of a table that was rolled back stays taken."""

    def __init__(self):
        super().__init__()
        self.taken = set()

    def roll_back(self):
        now = self.tables.by_name.keys()
        super().roll_back()
        self.taken |= now - self.tables.by_name.keys()

    def answer(self, line, block):
        is_table = transacted.word_of(line) == "table" and not self.taken.isdisjoint(line.decode().split()[1:2])
        answer = super().answer(line, block)
        return model.Refused(31).answer() if is_table and answer == b"ok\n" else answer


class TellsIndexesOfNone(Plain):
    """The indexes of a table that is gone are told."""

    def indexes(self, name):
        return super().indexes(name).replace(b"error 30 no such table\n", b"rows 0\n\n")


class DroppedRolledBack(Plain):
    """A rollback brings what was dropped back, which a mistake mixes."""

    def roll_back(self):
        now = self.tables.by_name
        super().roll_back()
        tables = self.tables.by_name
        for name in tables.keys() - now.keys():
            self.mix_table(tables, name)
        for name in tables.keys() & now.keys():
            for index in [index for index in tables[name].indexes if index not in now[name].indexes]:
                self.mix_index(tables[name].indexes, index)

    def mix_table(self, tables, name):
        pass

    def mix_index(self, indexes, index):
        pass


class LosesDroppedTables(DroppedRolledBack):
    def mix_table(self, tables, name):
        del tables[name]


class LosesRowsOfDroppedTables(DroppedRolledBack):
    def mix_table(self, tables, name):
        tables[name].rows = []


class LosesIndexesOfDroppedTables(DroppedRolledBack):
    def mix_table(self, tables, name):
        tables[name].indexes = []


class BringsTablesBackAsTheLast(DroppedRolledBack):
    def mix_table(self, tables, name):
        tables[name] = tables.pop(name)


class LosesDroppedIndexes(DroppedRolledBack):
    def mix_index(self, indexes, index):
        indexes.remove(index)


class BringsIndexesBackAsTheLast(DroppedRolledBack):
    def mix_index(self, indexes, index):
        indexes.remove(index)
        indexes.append(index)


class KeepsTheOtherTable(Plain):
    """A table that was made under the name of a dropped one stays in its place."""

    def roll_back(self):
        now = self.tables.by_name
        super().roll_back()
        for name, table in self.tables.by_name.items():
            if name in now and now[name].columns != table.columns:
                self.tables.by_name[name] = now[name]


class PutsDropsOff(Plain):
    """A drop is done in no transaction."""

    def answer(self, line, block):
        return b"" if self.saved and transacted.word_of(line) == "drop" else super().answer(line, block)


MISTAKEN = (KeepsAll, KeepsWhatIsCommitted, UndoesAll, LeavesDeleted, LeavesUpdated, LeavesInserted, LeavesEntries, LeavesTables)
MISTAKEN += (LeavesEmptyTables, LeavesIndexes, TakesTheLastIndex, RemembersTables, TellsIndexesOfNone, LosesDroppedTables)
MISTAKEN += (LosesRowsOfDroppedTables, LosesIndexesOfDroppedTables, BringsTablesBackAsTheLast, LosesDroppedIndexes)
MISTAKEN += (BringsIndexesBackAsTheLast, KeepsTheOtherTable, PutsDropsOff)


class PlantedInTransactions(unittest.TestCase):
    """A mistake that is planted in transactions is seen, and without one nothing is."""

    def differ(self, faulty, number):
        draw, handle = random.Random(f"{SEED} {number} planted"), faulty()
        run = transacted.Run(handle, referee.Judge(), draw, [handle.ask], feeds=False)
        return run.differences(model.units_of(streams.whole(stream_at(number), b"")[0]))

    def test_none_is_seen_where_there_is_none(self):
        self.assertEqual([self.differ(Plain, number) for number in range(PLANTED_STREAMS // 4)], [[]] * (PLANTED_STREAMS // 4))

    def test_each_planted_mistake_is_seen(self):
        for faulty in MISTAKEN:
            with self.subTest(planted=faulty.__name__):
                self.assertTrue(any(self.differ(faulty, number) for number in range(PLANTED_STREAMS)))
