"""Lines as statements of the library: values are taken out of a line and bound to its places, and rows are read as cells.

What must hold: a line and its statement have the same answer, byte for byte, and the first rows of a statement are the front of its rows.
"""

from . import embedded, model

BEGINNINGS = (b"insert", b"update", b"delete", b"select")
TAKEN_OUT = 0.7
ENDED = 0.1
# How often a statement is asked for its first rows before it is executed, and how many of them at most.
ASKED = 0.3
MOSTS = (0, 1, 2, 5, 2**64 - 1)
OUT_OF_MEMORY = b"error 90 no memory\n"
TYPES = {embedded.INTEGER: int, embedded.TEXT: bytes}


def is_about_rows(line):
    """Whether a line begins as those do that can be prepared. It may be no command all the same, and is refused then."""
    return line.lstrip(b" \t").startswith(BEGINNINGS)


def spelled(symbol):
    """A list of the value that a symbol spells, and of none where it spells none."""
    if symbol == "null":
        return [None]
    if symbol.startswith("'"):
        return [symbol[1:-1].replace("''", "'").encode()]
    number = model.integer_of(symbol)
    return [] if number is None else [number]


def symbols_of(line):
    """The symbols of a line, or None where it has no such."""
    text = model.text_of(model.without_return(line))
    try:
        return model.symbols_of(text) if text is not None and len(line) <= model.LONGEST_LINE else None
    except model.Refused:
        return None


def parted(draw, line):
    """The line with places for some of its values, and these values; or None, where a place stands in it that isn't one of
    these."""
    symbols, values = symbols_of(line), []
    for at, symbol in enumerate(symbols or []):
        value = spelled(symbol)
        if value and draw.random() < TAKEN_OUT:
            symbols[at] = "?"
            values += value
    text = " ".join(symbols or []).encode()
    return (text, values) if symbols and len(text) <= model.LONGEST_LINE else (line, None if b"?" in line and not symbols else [])


def is_front(most, front, rows):
    """Whether these are the first of the rows of an execution, so many at most. Where that has none, these are None too."""
    return front is None if rows is None else front == rows.values()[:most]


class Statements:
    """Statements of a handle. Most are kept by their lines, and used again with other values, whatever has become of the
    tables; some are ended."""

    def __init__(self, handle, draw, count):
        self.handle = handle
        self.draw = draw
        self.count = count
        self.kept = {}
        # The rows of each kept statement whose last execution had some, and what stood in them.
        self.rows = {}
        # The line of the last statement and why it was refused, where it was.
        self.why = None

    def ask(self, line, block):
        """The answer to a line, by a statement where it can be one. One with a place of its own can't."""
        text, values = parted(self.draw, line) if is_about_rows(line) else (line, None)
        self.why = None
        return self.handle.ask(line, block) if values is None else self.answer(text, values)

    def answer(self, text, values):
        statement = self.prepared(text)
        if statement is None:
            self.why = text, self.handle.prepare_reason(text)
            return self.handle.answer()
        self.rows.pop(text, None)
        self.handle.bind(statement, values)
        asked = self.asked(statement) if self.draw.random() < ASKED else None
        if asked and self.handle.answer() == OUT_OF_MEMORY:
            return OUT_OF_MEMORY
        rows = self.handle.execute(statement)
        self.count["statements", "refused when executed" if rows is None else "done"] += 1
        if rows is None:
            self.why = text, self.handle.statement_reason(statement)
        answer = self.handle.answer() if rows is None else self.told(text, statement, rows)
        if asked and answer != OUT_OF_MEMORY and not is_front(*asked, rows if text.startswith(b"select") else None):
            answer = b"the first rows are others\n"
        if self.draw.random() < ENDED:
            self.end(text)
        return answer

    def asked(self, statement):
        """A drawn number, and so many of a statement's first rows at most; or None where it is refused, as each change is."""
        most = self.draw.choice(MOSTS)
        rows = self.handle.first(statement, most)
        self.count["statements", "asked for first rows"] += 1
        return most, None if rows is None else rows.values()

    def prepared(self, text):
        """The statement of that line, or None where it is refused."""
        if text in self.kept:
            self.count["statements", "used again"] += 1
            return self.kept[text]
        statement = self.handle.prepare(text)
        self.count["statements", "refused when prepared" if statement is None else "prepared"] += 1
        if statement:
            self.kept[text] = statement
        return statement

    def told(self, text, statement, rows):
        """What was done, as a line is answered."""
        if not text.startswith(b"select"):
            return b"ok %d\n" % rows.changed
        values = rows.values()
        self.rows[text] = rows, values
        self.count["statements", "rows read"] += len(values)
        if self.handle.count(statement) != rows.rows:
            return b"the rows are counted otherwise\n"
        columns = self.handle.columns(statement)
        if not all({*map(type, listed)} <= {TYPES[kind], type(None)} for (_, kind), listed in zip(columns, zip(*values))):
            return b"the kinds of columns are otherwise\n"
        return b"rows %d\n" % rows.rows + b"".join(map(model.record, [[name for name, _ in columns], *values]))

    def end(self, text):
        self.handle.finalize(self.kept.pop(text))
        self.rows.pop(text, None)

    def changed(self):
        """The kept statements whose rows stand otherwise than when they were read."""
        return [text for text, (rows, values) in self.rows.items() if rows.values() != values]
