"""The tests of the study of index structures: search, insert, delete, mixes of them, scans, ranges, and storage."""

import array
import functools
import random
from typing import NamedTuple

from measuring import SIZES, Experiment, best, of_rows
from programs import Ours, Theirs, Work, fill, one_kind, repeated

# How many statements on one row make a batch, and how many that change rows.
STATEMENTS, CHANGES = 20_000, 5_000
# About how many rows a batch of statements on many rows looks at or answers.
READ = 1_000_000
MIXES = [80, 60, 40]
# The rows of a range, in a thousandth of a percent of the table.
RANGES = [10, 100, 1_000, 10_000, 100_000]


class Structure(NamedTuple):
    """The policy, or `sqlite3`; and what is declared on the numbers of the rows. Without numbers rows have their keys alone.
    The key has a tree in each."""

    policy: str
    indexes: tuple
    has_number: bool = True


STRUCTURES = {
    "auto": Structure("auto", ("tree", "hash")),
    "scan": Structure("scan", ()),
    "T-tree": Structure("tree", ("tree",)),
    "linear hash": Structure("auto", ("hash",)),
    "key's T-tree": Structure("auto", (), False),
    "sqlite3": Structure("sqlite3", ("tree",)),
    "sqlite3 key": Structure("sqlite3", (), False),
}
MIXED = {
    "key's T-tree": "key's T-tree",
    "T-tree": "T-tree",
    "linear hash": "linear hash",
    "both": "auto",
    "sqlite3 key": "sqlite3 key",
    "sqlite3 index": "sqlite3",
}
# The lines of the scan, each with its table and its select.
SCANS = {
    "key's T-tree": ("T-tree", "select n from t where id >= 0"),
    "T-tree, sorted": ("T-tree", "select n from t where n >= 0"),
    "walk by key": ("scan", "select n from t"),
    "key's T-tree, none": ("T-tree", "select n from t where id >= 0 and n = 1"),
    "as rows lie, none": ("scan", "select n from t where n = 1"),
    "sqlite3 table": ("sqlite3", "select n from t not indexed"),
    "sqlite3 index": ("sqlite3", "select n from t where n >= 0"),
}
# The lines of what changes rows, each with its structure: rows have just a key, or a number and what is declared on it.
CHANGED = {
    "key's T-tree": "key's T-tree",
    "and a T-tree": "T-tree",
    "and a linear hash": "linear hash",
    "and both": "auto",
    "sqlite3 key": "sqlite3 key",
    "sqlite3 key and index": "sqlite3",
}


class Items:
    """A table `t` of one structure. Its keys, and its numbers, are the even numbers below twice its size in random order; so odd
    ones are new. They go in row by row, so that the indexes have grown."""

    def __init__(self, loaded, structure, size):
        self.structure, self.size = structure, size
        self.program = Theirs(loaded) if structure.policy == "sqlite3" else Ours(loaded, structure.policy)
        self.places = 2 if structure.has_number else 1
        self.sought = "n" if structure.has_number else "id"
        self.program.table("t", *["id int", "n int"][: self.places])
        for kind in structure.indexes:
            self.program.index("t", "n", kind)
        fill(self.program, "t", *rows_of(size)[: self.places])
        self.select = f"select {self.sought} from t where {self.sought} = ?"
        self.insert = self.program.insert("t", self.places)
        self.delete = self.program.delete("t", self.sought)

    def new_rows(self, count):
        """The columns of rows that aren't there."""
        return [odd(self.size, count, seed) for seed in (3, 4)][: self.places]

    def changed(self, *steps):
        """Does these steps, each some lines and their work, in one transaction, and returns the outcome of the second."""
        return self.program.in_one(lambda: [self.program.execute(*step) for step in steps])[1]


def shuffled(values, seed):
    values = array.array("q", values)
    random.Random(seed).shuffle(values)
    return values


@functools.cache
def rows_of(size):
    return shuffled(range(0, 2 * size, 2), 1), shuffled(range(0, 2 * size, 2), 2)


@functools.cache
def odd(size, count, seed):
    return array.array("q", (2 * each + 1 for each in random.Random(seed).sample(range(size), count)))


@functools.cache
def even(size, count, seed):
    return array.array("q", (2 * each for each in random.Random(seed).sample(range(size), count)))


@functools.cache
def items(loaded, name, size):
    """One table for all experiments: each leaves it as it was."""
    return Items(loaded, STRUCTURES[name], size)


NOTHING = Work(b"", array.array("q"))


def search(loaded, put):
    for size in SIZES:
        tables = {name: items(loaded, name, size) for name in ["auto", "T-tree", "key's T-tree", "sqlite3 key", "sqlite3"]}
        tables["tree"] = tables.pop("T-tree")
        work = one_kind(even(size, STATEMENTS, 5))
        found = best({name: functools.partial(of.program.execute, [of.select], work) for name, of in tables.items()}, 1e6 / STATEMENTS)
        scanned = items(loaded, "scan", size)
        count = max(1, READ // size)
        work = one_kind(even(size, count, 5))
        looked = best({"scan": functools.partial(scanned.program.execute, [scanned.select], work)}, 1e6 / count)
        put("", size, {**found, **looked})


def insert(loaded, put):
    for size in SIZES:
        takes = {}
        for line, name in CHANGED.items():
            of = items(loaded, name, size)
            new = of.new_rows(CHANGES)
            into, out = ([of.insert], one_kind(*new)), ([of.delete], one_kind(new[-1]))
            takes[line] = functools.partial(of.changed, ([of.select], NOTHING), into, out)
        put("", size, best(takes, 1e6 / CHANGES))


def delete(loaded, put):
    """Rows that were put in go out in another order."""
    for size in SIZES:
        takes = {}
        for line, name in CHANGED.items():
            of = items(loaded, name, size)
            new = of.new_rows(CHANGES)
            into, out = ([of.insert], one_kind(*new)), ([of.delete], one_kind(shuffled(new[-1], 6)))
            takes[line] = functools.partial(of.changed, into, out)
        put("", size, best(takes, 1e6 / CHANGES))


def mixed(of, searches, steps):
    """Steps of which this percentage are searches, and half of the rest each inserts of new rows and deletes of rows that are there;
    and the steps that undo them. What is searched for stays there throughout."""
    changes = steps * (100 - searches) // 200
    new, found = of.new_rows(changes), even(of.size, steps, 7)
    keys, numbers = rows_of(of.size)
    gone = [column[:changes] for column in (keys, numbers)][: of.places]
    is_gone = {*keys[:changes], *numbers[:changes]}
    kinds = shuffled([0] * (steps - 2 * changes) + [1] * changes + [2] * changes, 8)
    sought, rows, deleted = (each for each in found if each not in is_gone), zip(*new), iter(gone[-1])
    values = array.array("q")
    for kind in kinds:
        values.extend([next(sought)] if kind == 0 else next(rows) if kind == 1 else [next(deleted)])
    undo = [([of.delete], one_kind(new[-1])), ([of.insert], one_kind(*gone))]
    return ([of.select, of.insert, of.delete], Work(bytes(kinds.tolist()), values)), undo


def mix(loaded, put):
    for size in SIZES:
        for searches in MIXES:
            takes = {}
            for line, name in MIXED.items():
                of = items(loaded, name, size)
                steps, undo = mixed(of, searches, STATEMENTS)
                takes[line] = functools.partial(of.changed, ([of.select], NOTHING), steps, *undo)
            put(of_rows(size), searches, best(takes, 1e6 / STATEMENTS))


def scan(loaded, put):
    """All rows are answered, or all are looked at and none is answered."""
    for size in SIZES:
        times = repeated(max(1, READ // size))
        takes = {line: functools.partial(items(loaded, name, size).program.execute, [text], times) for line, (name, text) in SCANS.items()}
        empty = {line: takes.pop(line) for line in SCANS if line.endswith("none")}
        factor = 1e9 / size / len(times.kinds)
        put("", size, {**best(takes, factor), **best(empty, factor)})


def ranges(loaded, put):
    for size in SIZES:
        for share in RANGES:
            rows = size * share // 100_000
            count = max(1, READ // 4 // max(rows, 1_000))
            starts = [2 * random.Random(9).randrange(size - rows + 1) for _ in range(count)]
            ends = [start + 2 * rows for start in starts]
            text = "select n from t where n >= ? and n < ?"
            looks = count if rows * 10 > size else max(1, READ // size)
            takes = {name: asked(loaded, name, size, text, starts, ends) for name in ["auto", "sqlite3"]}
            looked = {"scan": asked(loaded, "scan", size, text, starts[:looks], ends[:looks])}
            found = best(takes, 1e6 / count)
            put(of_rows(size), share / 1_000, {**found, **best(looked, 1e6 / min(looks, count))})


def asked(loaded, name, size, text, *columns):
    return functools.partial(items(loaded, name, size).program.execute, [text], one_kind(*columns))


def filled(loaded, policy, kinds, order):
    """A program with a table whose numbers come by an order, with these indexes on them, and the bytes that it holds."""
    before = loaded.memory_in_use()
    program = Theirs(loaded) if policy == "sqlite3" else Ours(loaded, policy)
    program.table("t", "id int", "n int")
    for kind in kinds:
        program.index("t", "n", kind)
    fill(program, "t", range(len(order)), order)
    return program, loaded.memory_in_use() - before


def entries(loaded, policy, kind_of, order):
    """The bytes of an entry by line, for each kind of index: as it grows with the rows, and made over rows that are there."""
    plain, without = filled(loaded, policy, [], order)
    for line, kind in kind_of.items():
        grown, held = filled(loaded, policy, [kind], order)
        grown.close()
        yield line, (held - without) / len(order)
        before = loaded.memory_in_use()
        plain.index("t", "n", kind)
        yield f"{line}, made", (loaded.memory_in_use() - before) / len(order)
        plain.drop_index("t", "n", kind)
    plain.close()


def storage(loaded, put):
    for size in SIZES:
        order = rows_of(size)[1]
        ours = entries(loaded, "auto", {"T-tree": "tree", "linear hash": "hash"}, order)
        theirs = entries(loaded, "sqlite3", {"sqlite3 index": "tree"}, order)
        put("", size, {**dict(ours), **dict(theirs)})


POINT_RIVALS = {"auto": ["tree", "scan"]}
EXPERIMENTS = [
    Experiment("search", "Search", "rows", "µs a search", search, POINT_RIVALS, not_drawn=("scan",)),
    Experiment("insert", "Insert", "rows", "µs an insert", insert),
    Experiment("delete", "Delete", "rows", "µs a delete", delete),
    Experiment("mixes", "Mixes of searches, inserts and deletes", "searches in %", "µs a step", mix, {}, False, False),
    Experiment("scan", "Scan of all rows", "rows", "ns a row", scan),
    Experiment("range", "Ranges", "rows of the range, in % of the table", "µs a select", ranges, {"auto": ["scan"]}),
    Experiment("storage", "Storage", "rows", "bytes an entry", storage, {}, True, False),
]
