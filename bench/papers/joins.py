"""The six join tests of the study of queries, and one of its precomputed joins."""

import array
import functools
import random
import time
from typing import NamedTuple

from measuring import HUNDREDFOLD, SIZES, Experiment, best, of_rows
from programs import Ours, Theirs, fill, one_kind, repeated

# The sizes of the papers, at which the last three tests also use other indexes.
SIZES_OF_ALL = [20_000, 30_000]
# Nested loops are left out where they would compare more pairs.
MOST_PAIRS = 1_000_000_000
# A join is left out where it would have more rows.
MOST_JOINED = 3_000_000
# Standard deviations of the repeated values, as shares of all values: a few are repeated most, or all about equally.
SKEWED, UNIFORM = 0.1, 0.8
RIVALS = ["hash", "tree", "nested loops"]


class Table(NamedTuple):
    """A table's name, and what its rows have in the column that is joined; the keys are 0, 1, 2 and so on."""

    name: str
    values: array.array


@functools.cache
def shuffled(count, seed):
    """The numbers below a count in an order that is drawn."""
    values = array.array("q", range(count))
    random.Random(seed).shuffle(values)
    return values


def drawn(rows, percent, deviation, seed):
    """A number of values of which this percentage repeats one of the others: 0, 1 and so on once each, and the rest drawn from a
    normal distribution that is cut off."""
    draw = random.Random(seed)
    different = max(1, rows - rows * percent // 100)
    values = array.array("q", range(different))
    while len(values) < rows:
        share = abs(draw.gauss(0, deviation))
        if share < 1:
            values.append(int(share * different))
    draw.shuffle(values)
    return values


def joined(outer, inner):
    """The number of rows of a join."""
    counts = {}
    for value in inner.values:
        counts[value] = counts.get(value, 0) + 1
    return sum(counts.get(value, 0) for value in outer.values)


class Joins:
    """Programs with the same tables, each table with a tree on the joined column: mmdb under some policies, and SQLite."""

    def __init__(self, loaded, tables, has_all):
        self.has_all, self.known = has_all, {}
        is_slow = max(len(table.values) for table in tables) ** 2 > MOST_PAIRS
        self.programs = {policy: Ours(loaded, policy) for policy in ["auto", "hash", "tree", *([] if is_slow else ["scan"])]}
        self.programs["sqlite3"] = Theirs(loaded)
        for program in self.programs.values():
            for table in tables:
                program.table(table.name, "id int", "x int")
                fill(program, table.name, range(len(table.values)), table.values)
                program.index(table.name, "x", "tree")

    def close(self):
        for program in self.programs.values():
            program.close()

    def measured(self, outer, inner, **more):
        """The milliseconds of a join by line, measured once: under each policy, in SQLite, by what else is handed in, and where
        `has_all`, with other indexes."""
        if (outer.name, inner.name) not in self.known:
            self.known[outer.name, inner.name] = self.newly_measured(outer, inner, **more)
        return self.known[outer.name, inner.name]

    def newly_measured(self, outer, inner, **more):
        text = join(outer, inner)
        takes = {LINES.get(name, name): functools.partial(asked, program, text) for name, program in self.programs.items()}
        if self.has_all:
            auto, by_hash = self.programs["auto"], self.programs["hash"]
            takes["auto, inner tree"] = functools.partial(with_inner_tree, auto, text, outer)
            takes["hash, declared"] = functools.partial(with_inner_hash, by_hash, text, inner)
            takes["merge after sorts"] = functools.partial(after_sorts, auto, text, outer, inner)
        return best({**takes, **more}, 1000)

    def linked(self, outer, inner):
        """A join by links, ready to be timed: of a new table whose rows refer to the rows that the outer ones are joined with."""
        program, name = self.programs["auto"], f"{outer.name}_to_{inner.name}"
        key_of = {value: key for key, value in enumerate(inner.values)}
        is_met = [value in key_of for value in outer.values]
        program.table(name, "id int", f"x ref {inner.name}{'' if all(is_met) else ' null'}")
        keys = array.array("q", (key for key, met in enumerate(is_met) if met))
        fill(program, name, keys, array.array("q", (key_of[outer.values[key]] for key in keys)))
        without = array.array("q", (key for key, met in enumerate(is_met) if not met))
        if without:
            program.execute([f"insert {name} (?, null)"], one_kind(without))
        text = f"select {name}.id, {inner.name}.id from {name} join {inner.name} on {name}.x = {inner.name}.id"
        return functools.partial(asked, program, text)


# Policies that are called by their plan.
LINES = {"scan": "nested loops"}


def join(outer, inner):
    o, i = outer.name, inner.name
    return f"select {o}.id, {i}.id from {o} join {i} on {o}.x = {i}.x"


def asked(program, text):
    return program.execute([text], repeated(1))


def with_inner_tree(program, text, outer):
    program.drop_index(outer.name, "x", "tree")
    outcome = asked(program, text)
    program.index(outer.name, "x", "tree")
    return outcome


def with_inner_hash(program, text, inner):
    program.index(inner.name, "x", "hash")
    outcome = asked(program, text)
    program.drop_index(inner.name, "x", "hash")
    return outcome


def after_sorts(program, text, outer, inner):
    """Both trees are made within the time: each is a sort."""
    for table in (outer, inner):
        program.drop_index(table.name, "x", "tree")
    before = time.process_time()
    for table in (outer, inner):
        program.index(table.name, "x", "tree")
    made = time.process_time() - before
    outcome = asked(program, text)
    return outcome._replace(seconds=outcome.seconds + made)


def part(size, percent):
    """A table with so many percent of the values of the whole one, or the whole."""
    return Table(f"p{percent}", shuffled(size, 2)[: size * percent // 100])


def shares(size):
    """The percentages of the parts."""
    return [10, 50, 100] if size >= HUNDREDFOLD else [1, 10, 25, 50, 100]


def whole(size):
    """A table whose values are in random order."""
    return Table("r", shuffled(size, 1))


def rising(size):
    """A table in which values rise by the keys."""
    return Table("q", array.array("q", range(size)))


@functools.cache
def of_different_values(loaded, size):
    """The programs of the first three tests, in which no value comes twice in a table."""
    return Joins(loaded, [whole(size), rising(size), *(part(size, percent) for percent in shares(size))], size < HUNDREDFOLD)


def by_cardinality(loaded, put):
    for size in [3_000, *SIZES]:
        programs, inner = of_different_values(loaded, size), part(size, 100)
        outer = whole(size)
        put("outer values in random order", size, programs.measured(outer, inner, links=programs.linked(outer, inner)))
        put("outer values rise by the keys", size, programs.measured(rising(size), inner))


def by_part(is_inner, loaded, put):
    """Joins of the whole table with parts of the other one, which are the inner or the outer ones. Where a part is the whole of the
    other table, both are the join of test 1."""
    for size in SIZES:
        programs = of_different_values(loaded, size)
        for percent in shares(size):
            outer, inner = (whole(size), part(size, percent)) if is_inner or percent == 100 else (part(size, percent), whole(size))
            links = {"links": programs.linked(outer, inner)} if programs.has_all and percent < 100 else {}
            put(of_rows(size), percent, programs.measured(outer, inner, **links))


def by_duplicates(deviation, percentages, loaded, put):
    for size in [20_000, 200_000, 2_000_000]:
        for percent in percentages if size < HUNDREDFOLD else [percent for percent in percentages if 0 < percent <= 25]:
            outer, inner = (Table(name, drawn(size, percent, deviation, name)) for name in "rs")
            if joined(outer, inner) <= MOST_JOINED:
                programs = Joins(loaded, [outer, inner], size in SIZES_OF_ALL)
                put(of_rows(size), percent, programs.measured(outer, inner))
                programs.close()


def by_selectivity(loaded, put):
    """Half of the values repeat others. Of the inner values this percentage is among the outer ones."""
    for size in SIZES:
        outer, values = Table("r", drawn(size, 50, UNIFORM, "r")), drawn(size, 50, UNIFORM, "s")
        inners = {percent: met(values, percent) for percent in ([10] if size >= HUNDREDFOLD else [1, 10, 25, 50, 100])}
        programs = Joins(loaded, [outer, *inners.values()], size in SIZES_OF_ALL)
        for percent, inner in inners.items():
            put(of_rows(size), percent, programs.measured(outer, inner))
        programs.close()


def met(values, percent):
    """A table with these values, of which all but a percentage are changed to values that no other table has."""
    different = max(values) + 1
    rank, kept = shuffled(different, 3), different * percent // 100
    return Table(f"s{percent}", array.array("q", (value if rank[value] < kept else value + different for value in values)))


def links(loaded, put):
    """Joins of rows and the rows that they refer to, from either side, under each policy."""
    for size in [3_000, *SIZES[:-1]]:
        linked = {policy: Ours(loaded, policy) for policy in ["auto", "hash", "tree", "merge"]} | {"sqlite3": Theirs(loaded)}
        for program in linked.values():
            program.table("s", "id int")
            fill(program, "s", range(size))
            program.table("l", "id int", "x integer references s" if isinstance(program, Theirs) else "x ref s")
            fill(program, "l", range(size), shuffled(size, 2))
            program.index("l", "x", "tree")
        for panel, text in LINKED.items():
            put(panel, size, best({name: functools.partial(asked, program, text) for name, program in linked.items()}, 1000))
        for program in linked.values():
            program.close()


LINKED = {
    "outer rows refer": "select l.id, s.id from l join s on l.x = s.id",
    "inner rows refer": "select s.id, l.id from s join l on l.x = s.id",
}


def of_join(number, what, x, measure, is_log_x=False):
    rivals = {"auto": RIVALS, "auto, inner tree": RIVALS}
    not_drawn = () if is_log_x else ("nested loops",)
    return Experiment(f"join-{number}", f"Join test {number}: {what}", x, "ms", measure, rivals, is_log_x, not_drawn=not_drawn)


EXPERIMENTS = [
    of_join(1, "the size of both tables", "rows of each table", by_cardinality, True),
    of_join(2, "the size of the inner table", "inner rows, in % of the outer ones", functools.partial(by_part, True)),
    of_join(3, "the size of the outer table", "outer rows, in % of the inner ones", functools.partial(by_part, False)),
    of_join(4, "duplicates, skewed", "duplicates in %", functools.partial(by_duplicates, SKEWED, [0, 10, 50, 75, 90])),
    of_join(5, "duplicates, uniform", "duplicates in %", functools.partial(by_duplicates, UNIFORM, [25, 50, 75, 90, 97])),
    of_join(6, "semijoin selectivity", "inner values that are met, in %", by_selectivity),
    Experiment("links", "Precomputed joins", "rows of each table", "ms", links, {"auto": ["hash", "tree", "merge"]}),
]
