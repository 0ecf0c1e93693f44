"""Very many random streams in one process over the library, judged by plain lists of rows: whole under each policy, in pieces, line by
line and as statements. Line by line each refusal has its number and a reason. As statements values are bound and rows are cells. In
transactions, whose ends are drawn, all of this is mixed, and after each rollback all tables and indexes are looked at. Between them readers
are drawn, which share the tables for a while and read cursors. Behind its lines a database is saved, and one that is restored of that is
like it.

In large sizes (`tests/fire many_streams`) the environment selects streams: MMDB_FIRST is the number of the first, MMDB_STREAMS how many,
MMDB_SEED the seed, MMDB_JOBS the number of processes. MMDB_KEPT names a file that keeps the progress, so that a run can go on later.

What must hold: a stream depends on the seed and its number alone.
"""

import collections
import concurrent.futures
import functools
import json
import os
import pathlib
import random
import re
import time
import unittest
import unittest.mock

import test_referee
from support import covered, embedded, harness, joined, model, prepared, random_streams, shapes, shared, sizes, streams, texts, transacted

SEED = sizes.said("MMDB_SEED", 20261127)
FIRST = sizes.said("MMDB_FIRST", 0)
STREAMS = sizes.said("MMDB_STREAMS", sizes.size(400, 100_000))
JOBS = sizes.said("MMDB_JOBS", 1)
KEPT = os.environ.get("MMDB_KEPT") if sizes.is_large else None
AT_ONCE = 100
DIFFERENCES_TOLD = 5
# No load of a stream that is fed is cut short, and memory is always found.
REFUSALS = sorted(str(number) for number in set(model.TEXTS) - {13, 90})
COLUMN = re.compile(rb"column (\d+): ")
METHODS = ("Nested", "HashJoin", "TreeJoin", "TreeMerge", "Precomputed")


# ---- which streams


def drawn(number, draw):
    """A stream, by its number about joins, about long texts, about large trees and hashes, or of the model, to which some have
    nulls behind."""
    if number % 20 == 3:
        return shapes.stream(draw)
    if number % 5 == 0:
        return joined.stream(draw)
    if number % 5 == 1:
        return texts.stream(draw)
    stream = random_streams.stream_of(draw)
    return streams.whole_units_of(stream) + test_referee.nulls(draw) if number % 5 == 2 else stream


def limits_of(draw):
    """The greatest limits, or such that tables are full and blocks too long."""
    few = model.Limits(draw.randrange(1, 12), draw.choice([0, 20, 60, 200, 1_000]))
    return draw.choice([model.Limits(), model.Limits(), few])


def whole(stream):
    """The part of a stream that a library answers to which it is fed: not a load at its end that is cut short."""
    return streams.whole(stream, b"")[0]


class Stream:
    """A stream, what is drawn for it, its limits and a policy, its units and their answers, and what is counted of it."""

    def __init__(self, stream, draw, limits, policy):
        self.bytes = stream
        self.draw = draw
        self.limits = limits
        self.policy = policy
        self.tables = covered.Tables(limits)
        self.count = self.tables.count
        self.units = list(model.units_of(stream))
        self.answers = [self.tables.answer(*unit) for unit in self.units]


def stream_at(number):
    """The stream of that number."""
    draw = random.Random(f"{SEED} {number}")
    while True:
        limits = limits_of(draw)
        try:
            return Stream(whole(drawn(number, draw)), draw, limits, harness.POLICIES[number % len(harness.POLICIES)])
        except model.OddQuotes:
            pass


# ---- how they are answered


def by_policies(stream):
    for policy in harness.POLICIES:
        yield f"whole under {policy}", embedded.answers_to([stream.bytes], policy, stream.limits)


def in_pieces(stream):
    pieces = random_streams.random_pieces(stream.draw, stream.bytes)
    return f"in {len(pieces)} pieces under {stream.policy}", embedded.answers_to(pieces, stream.policy, stream.limits)


class OneByOne:
    """A stream of which each unit is asked on its own. What is told beside an answer has to fit it: the refusal and its reason,
    and in the end how the indexes stand."""

    def __init__(self, stream):
        self.stream = stream
        self.reasons = []
        self.misfits = []

    def misfits_by_lines(self):
        shaped = covered.Shapes(self.stream.count)
        with embedded.Handle(self.stream.policy, self.stream.limits) as handle:
            self.ask_all(handle, handle.ask, lambda line: shaped.look(handle, line))
            self.check_indexes(handle)
            self.check_restored(handle)
        return self.misfits

    def misfits_by_statements(self):
        with embedded.Handle(self.stream.policy, self.stream.limits) as handle:
            statements = prepared.Statements(handle, self.stream.draw, self.stream.count)
            self.ask_all(handle, statements.ask, why=lambda: statements.why)
            self.check_indexes(handle)
            self.misfits += [f"the rows of {text!r} changed" for text in statements.changed()]
        return self.misfits

    def ask_all(self, handle, asks, then=lambda _: None, why=lambda: None):
        for (line, block), expected in zip(self.stream.units, self.stream.answers):
            answer = asks(line, block)
            number = int(answer[6:8]) if answer.startswith(b"error ") else 0
            told = handle.refusal()
            reason = handle.reason(line, block) if number else b"-"
            self.reasons.append(reason)
            if answer != expected or (told != number and line) or not reason or b"\n" in reason:
                beside = f"with the refusal {told} and the reason {reason!r}"
                self.misfits.append(f"{line!r} is answered {answer!r}, not {expected!r}, {beside}")
            if why() and not explains(*why(), number, reason):
                self.misfits.append(f"why the statement of {line!r} is refused by {number} is told as {why()!r}, not {reason!r}")
            if not number:
                then(line)

    def check_indexes(self, handle):
        for name, listed in transacted.lists(self.stream.tables):
            if not transacted.handle_tells(handle, name, listed):
                self.misfits.append(f"the indexes {listed} are told as {handle.indexes(name.encode())!r}")

    def check_restored(self, handle):
        """Another database that is restored of what this one is saved as has the same tables, rows and indexes."""
        dump = handle.saved()
        self.stream.count["saves", f"refused by {handle.refusal()}" if dump is None else "restored"] += 1
        if dump is None:
            return
        lines = [b"tables", *(f"select * from {name}".encode() for name in self.stream.tables.by_name)]
        pieces = harness.pieces_of(dump, len(dump) // 3)
        with embedded.Handle(self.stream.policy, self.stream.limits, restores=pieces) as other:
            self.check_indexes(other)
            for line in lines:
                if other.ask(line, b"") != handle.ask(line, b""):
                    self.misfits.append(f"a database that was restored of {dump!r} answers {line!r} by {other.answer()!r}")


def explains(text, why, number, reason):
    """Whether it is told why a statement was refused, as of its line but for the column of a value. Which symbol stops a line, and which
    of several values is of the wrong type, differs where some are places."""
    found = COLUMN.match(why)
    if number == 20:
        return found is not None or model.is_silent(text)
    is_pointed = found is None or text.decode()[int(found[1]) - 1] == "?"
    words = why[found.end() :] if found else why
    return is_pointed and words != b"" and b"\n" not in words and (number == 35 or words == reason)


def one_by_one(stream):
    """What differs where each line is asked on its own, and where it is done by a statement, whose reasons are the same."""
    lines, statements = OneByOne(stream), OneByOne(stream)
    found = [f"line by line under {stream.policy}: {misfit}" for misfit in lines.misfits_by_lines()]
    found += [f"by statements under {stream.policy}: {misfit}" for misfit in statements.misfits_by_statements()]
    differ = [pair for pair in zip(lines.reasons, statements.reasons) if pair[0] != pair[1]]
    return found + [f"the reasons of lines and of statements: {pair}" for pair in differ]


def in_transactions(stream):
    """What differs where the units are done in transactions. A load of odd quotes may be refused in the stream, before its block is read,
    and be done here. Then all is done anew without such loads, beside what differed until then."""
    found, is_whole = done_in_transactions(stream, stream.units)
    if not is_whole:
        found += done_in_transactions(stream, [unit for unit in stream.units if not model.has_odd_quotes(unit[1])])[0]
    return found


def done_in_transactions(stream, units):
    """What differs where these units are done so, up to a load of odd quotes, and whether all were done. No plan of the policy scan takes
    an index, so it is another then."""
    policy, is_whole = "auto" if stream.policy == "scan" else stream.policy, True
    with embedded.Handle(policy, stream.limits) as handle:
        statements = prepared.Statements(handle, stream.draw, collections.Counter())
        judge = transacted.Lists(stream.limits)
        readers = shared.Readers(handle, judge, stream.draw)
        run = transacted.Run(handle, judge, stream.draw, [handle.ask, statements.ask], readers=readers)
        try:
            run.differences(units)
        except model.OddQuotes:
            is_whole = False
        found = run.misfits + readers.end() + [f"the rows of {text!r} changed" for text in statements.changed()]
    stream.count.update(run.count + readers.count)
    return [f"in transactions under {policy}: {misfit}" for misfit in found], is_whole


def differences(stream):
    """What a stream's answers differ by, in all ways in which they are asked for."""
    answers = b"".join(stream.answers)
    runs = [*by_policies(stream), in_pieces(stream)]
    stream.count["streams", "judged"] += 1
    stream.count["streams", "answered"] += len(runs) + 3
    found = [f"{how}: {out!r}, not {answers!r}" for how, out in runs if out != answers]
    return found + one_by_one(stream) + in_transactions(stream)


def judge(number):
    """What a stream differs by, with its number, and what was counted of it."""
    stream = stream_at(number)
    found = differences(stream)
    told = f"stream {number} of seed {SEED}, under {stream.limits}: {stream.bytes!r}\n"
    return (told + "\n".join(found) if found else None), stream.count


# ---- all of them, and how far it is


class Progress:
    """What was found and counted so far, kept in a file where one is named."""

    def __init__(self):
        self.next = FIRST
        self.differences = []
        self.count = collections.Counter()
        self.seconds = 0.0
        self.began = time.process_time()
        if KEPT and os.path.exists(KEPT):
            self.take(json.loads(pathlib.Path(KEPT).read_text()))

    def take(self, kept):
        if (kept["seed"], kept["first"]) != (SEED, FIRST):
            raise AssertionError(f"{KEPT} is of other streams: it has seed {kept['seed']} and begins at {kept['first']}")
        self.next, self.differences, self.seconds = kept["next"], kept["differences"], kept["seconds"]
        self.count = collections.Counter({(what, kind): times for what, kind, times in kept["count"]})

    def add(self, numbers, found, count, seconds):
        self.next = numbers.stop
        self.differences += found
        self.count += count
        self.seconds += seconds
        if KEPT:
            self.keep()

    def keep(self):
        """Writes the file anew, so that it is whole whenever the run ends."""
        listed = [[*key, times] for key, times in sorted(self.count.items())]
        kept = {"seed": SEED, "first": FIRST, "next": self.next, "seconds": self.seconds, "differences": self.differences, "count": listed}
        new = pathlib.Path(f"{KEPT}.new")
        new.write_text(json.dumps(kept))
        os.replace(new, KEPT)

    def tell(self):
        print(f"seed {SEED}, streams {FIRST} to {self.next - 1}, {self.seconds:.0f} seconds of a processor, {len(self.differences)} differ")
        for what in dict.fromkeys(what for what, _ in sorted(self.count)):
            listed = sorted((kind, times) for (other, kind), times in self.count.items() if other == what)
            print(f"{what}: " + ", ".join(f"{kind} {times}" for kind, times in listed), flush=True)


def judge_some(numbers):
    began = time.process_time()
    judged = [judge(number) for number in numbers]
    count = sum((count for _, count in judged), collections.Counter())
    return [found for found, _ in judged if found], count, time.process_time() - began


def judge_all():
    progress = Progress()
    end = FIRST + STREAMS
    numbers = [range(at, min(at + AT_ONCE, end)) for at in range(progress.next, end, AT_ONCE)]
    if JOBS == 1:
        for some in numbers:
            progress.add(some, *judge_some(some))
        return progress
    with concurrent.futures.ProcessPoolExecutor(JOBS) as jobs:
        for some, judged in zip(numbers, jobs.map(judge_some, numbers)):
            progress.add(some, *judged)
    return progress


class Judged(unittest.TestCase):
    def test_the_library_answers_as_plain_lists_of_rows_do(self):
        progress = judge_all()
        if sizes.is_large:
            progress.tell()
        self.assertEqual(progress.differences, [], "\n\n".join(progress.differences[:DIFFERENCES_TOLD]))
        self.assertEqual([word for word in covered.WORDS if not progress.count["commands", word.replace("_", " ")]], [])
        self.assertEqual([number for number in REFUSALS if not progress.count["refusals", number]], [])
        self.assertEqual([what for what in covered.SHAPED if not progress.count["shapes", what]], [])
        self.assertEqual([what for what in transacted.COVERED if not progress.count["transactions", what]], [])
        self.assertEqual([what for what in shared.COVERED if not progress.count["readers", what]], [])
        self.assertEqual([what for what in ("restored", "refused by 64") if not progress.count["saves", what]], [])
        chosen = {kind.split()[1] for what, kind in progress.count if what.startswith("joins")}
        self.assertEqual(chosen, set(METHODS))


def is_open(handle):
    return bool(embedded.ctypes.c_void_p.from_address(handle).value)


def own_tables(reader):
    return embedded.OPEN(reader, 0, model.Limits().rows, model.Limits().block)


class Planted(unittest.TestCase):
    """Mistakes of calls that readers make are seen within a few streams."""

    STREAMS = 30
    MISTAKES = {
        "a handle stays that leaves": ("LEAVE", lambda call, reader: 0),
        "one that has left shares nothing again": ("SHARE", lambda call, db, reader: 0 if is_open(reader) else call(db, reader)),
        "a new one has tables of its own": ("SHARE", lambda call, db, reader: call(db, reader) if is_open(reader) else own_tables(reader)),
        "a change is told as done": ("QUERY", lambda call, db, *given: 0 * call(db, *given)),
        "a transaction begins": ("BEGIN", lambda call, db: 0 * call(db)),
        "a page of a cursor is passed over": ("CURSOR_FETCH", lambda call, *given: call(*given) or call(*given)),
    }

    def test_mistakes_are_seen(self):
        for mistake, (name, wrong) in self.MISTAKES.items():
            call = getattr(embedded, name)
            with self.subTest(mistake=mistake), unittest.mock.patch.object(embedded, name, functools.partial(wrong, call)):
                self.assertTrue(any(in_transactions(stream_at(number)) for number in range(self.STREAMS)))
