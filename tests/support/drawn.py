"""Statements that are drawn from the lines of random streams: some values of a line stay in it, the others are bound to its places. The
programs in programs/ read them as calls.
"""

import random
import re

from . import compiling, harness, model, random_streams, sizes, streams
from .calls import asked, call

STREAMS = sizes.size(300, 10_000)
BEGINNINGS = ("insert", "update", "delete", "select")
NOTHING = re.compile(rb"")


def statement_of(draw, line):
    """The line of an insert, an update, a delete or a select with places for some of its values, and these values; None
    of any other line."""
    text = model.text_of(model.without_return(line))
    if text is None or len(line) > 4_000:
        return None
    try:
        symbols = model.symbols_of(text)
    except model.Refused:
        return None
    if not symbols or symbols[0] not in BEGINNINGS:
        return None
    values = []
    for at, symbol in enumerate(symbols):
        value = value_of(symbol)
        if value and draw.random() < 0.7:
            symbols[at] = "?"
            values.extend(value)
    return " ".join(symbols), values


def value_of(symbol):
    """A list of the value that a symbol spells, which has none where it spells none."""
    if symbol == "null":
        return [None]
    if symbol.startswith("'"):
        return [symbol[1:-1].replace("''", "'")]
    integer = model.integer_of(symbol)
    return [] if integer is None else [integer]


def requests(draw):
    """The requests of a random stream, each with its block and the model's answer."""
    stream, _ = random_streams.stream_and_answers(draw)
    tables = model.Tables(model.Limits())
    for line, block in model.units_of(streams.whole_units_of(stream)):
        yield line, block, tables.answer(line, block)


def bound(value):
    """The call that hands over the value of the next place."""
    if value is None:
        return call(b"null", b"")
    return call(b"text", value.encode()) if isinstance(value, str) else call(b"integer", b"%d" % value)


def executed(way, line, values):
    """The calls that do a statement, which is `kept` by its line or `prepared` anew."""
    return [call(way, line.encode()), *map(bound, values), call(b"execute", b"")]


class Drawn:
    """Random streams under each policy by turns, as calls, with the answers that they must have."""

    def __init__(self, seed):
        self.calls = []
        self.answers = []
        self.done = {word: 0 for word in BEGINNINGS}
        draw = random.Random(seed)
        for number in range(STREAMS):
            self.calls.append(call(b"open", b"%d" % (number % len(harness.POLICIES))))
            for line, block, answer in requests(draw):
                self.take(draw, line, block, answer)

    def take(self, draw, line, block, answer):
        statement = statement_of(draw, line)
        if statement is None:
            self.calls.extend(asked(line, block))
        else:
            self.calls.extend(executed(draw.choice([b"kept", b"prepared"]), *statement))
            self.done[statement[0].split(" ")[0]] += bool(statement[1]) and not answer.startswith(b"error")
        self.answers.append(answer)


def check(test, program, seed, told=NOTHING):
    """A program gives the answers of the model, and each kind of statement with places is among those that are done. Gives what it told
    on standard error, which has to match."""
    drawn = Drawn(seed)
    ended = compiling.ran(program, b"".join(drawn.calls))
    found = told.fullmatch(ended.err)
    test.assertIsNotNone(found, ended.err.decode(errors="replace"))
    test.assertEqual(ended.status, 0)
    at = 0
    for number, answer in enumerate(drawn.answers):
        test.assertEqual(ended.out[at : at + len(answer)], answer, f"answer {number}")
        at += len(answer)
    test.assertEqual(ended.out[at:], b"")
    test.assertGreater(min(drawn.done.values()), STREAMS // 20)
    return found
