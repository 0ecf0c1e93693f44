"""The two projection tests of the study of queries: a select of different values, by the size and by the duplicates."""

import functools
import time

from joins import UNIFORM, drawn, shuffled
from measuring import HUNDREDFOLD, SIZES, Experiment, best, of_rows
from programs import Ours, Theirs, fill, repeated

TEXT = "select distinct x from t"


def projected(loaded, values):
    """The milliseconds of a select of the different values: without an index, and for SQLite with one too. No policy makes a
    difference. Beside them, what it takes to sort the values: to declare a tree."""
    ours, theirs = Ours(loaded), Theirs(loaded)
    for program in (ours, theirs):
        program.table("t", "id int", "x int")
        fill(program, "t", range(len(values)), values)
    theirs.index("t", "x")
    takes = {
        "auto": functools.partial(ours.execute, [TEXT], repeated(1)),
        "sqlite3": functools.partial(theirs.execute, [f"{TEXT} not indexed"], repeated(1)),
        "sqlite3, index": functools.partial(theirs.execute, [TEXT], repeated(1)),
    }
    told = best(takes, 1000)
    told["sort alone"] = min(sort(ours) for _ in range(3)) * 1000
    ours.close()
    theirs.close()
    return told


def sort(ours):
    before = time.process_time()
    ours.index("t", "x", "tree")
    took = time.process_time() - before
    ours.drop_index("t", "x", "tree")
    return took


def by_cardinality(loaded, put):
    for size in [3_000, *SIZES]:
        put("", size, projected(loaded, shuffled(size, 1)))


def by_duplicates(loaded, put):
    for size in SIZES:
        for percent in [0, 25, 50, 75, 90, 99] if size < HUNDREDFOLD else [75, 99]:
            put(of_rows(size), percent, projected(loaded, drawn(size, percent, UNIFORM, 1)))


EXPERIMENTS = [
    Experiment("project-1", "Projection test 1: the size", "rows, all different", "ms", by_cardinality),
    Experiment("project-2", "Projection test 2: duplicates", "duplicates in %", "ms", by_duplicates, {}, False),
]
