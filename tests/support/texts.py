"""Texts of the lengths around which a row stores them in another way, and random streams about them. A text of at most 14 bytes is in its
cell, a longer one in a block of its own.

What must hold: the lengths include those on both sides of each boundary.
"""

from . import model

IN_A_CELL = 14
LENGTHS = (0, IN_A_CELL, IN_A_CELL + 1, 22, 23, model.LONGEST_TEXT)


def of_length(length, front=b""):
    """A text of so many bytes, with that in front."""
    return front + b"x" * (length - len(front))


def forms_of(length):
    """A front of each longer text, one that differs from it in its last byte, and one that ends with a letter of two bytes."""
    return [of_length(length), of_length(length)[:-1] + b"y", of_length(length - 2) + "é".encode()] if length else [b""]


EACH = [form for length in LENGTHS for form in forms_of(length)]
COLUMNS_OF = {"t": ["id", "s", "r"], "u": ["s", "n"], "e": ["id", "u"]}
TEXTS_OF = {"t": ["s", "r"], "u": ["s"], "e": ["u"]}
DECLARED = b"table t (id int, s text, r text)\ntable u (s text, n int)\ntable e (id int, u ref u null)\n"
KEYS = 60
INDEXES = [b"%s %s %s" % (*column, kind) for column in ((b"t", b"s"), (b"u", b"s"), (b"e", b"u")) for kind in (b"tree", b"hash")]
SIGNS = ["=", "=", "<>", "<", "<=", ">", ">="]


def written(value):
    """A value as a command has it."""
    return str(value) if isinstance(value, int) else "'" + value.decode().replace("'", "''") + "'"


def row(draw, name):
    """A row for a table. There are few keys, so that some are there already."""
    number, some, other = draw.randrange(KEYS), draw.choice(EACH), draw.choice(EACH)
    return {"t": [number, some, other], "u": [some, number], "e": [number, some]}[name]


def condition(draw, name):
    return f" where {name}.{draw.choice(TEXTS_OF[name])} {draw.choice(SIGNS)} {written(draw.choice(EACH))}"


def load(name, rows):
    block = b"".join(map(model.record, [[column.encode() for column in COLUMNS_OF[name]], *rows]))
    return b"load %s %d\n" % (name.encode(), len(block)) + block


def front(draw):
    """Three tables with some rows."""
    keys = draw.sample(EACH, len(EACH) // 2)
    rows_of_t = [[number, *draw.choices(EACH, k=2)] for number in draw.sample(range(KEYS), KEYS // 2)]
    rows_of_e = [[number, draw.choice(keys)] for number in draw.sample(range(KEYS), KEYS // 4)]
    return DECLARED + load("t", rows_of_t) + load("u", [[key, 0] for key in keys]) + load("e", rows_of_e)


def change(draw, name):
    """A row that comes, a text that becomes longer or shorter, or rows that go."""
    kind = draw.choice(["insert"] * 5 + ["update"] * 5 + ["delete"])
    if kind == "insert":
        return f"insert {name} ({', '.join(map(written, row(draw, name)))})"
    if kind == "delete":
        return f"delete {name} where {draw.choice(TEXTS_OF[name])} = {written(draw.choice(EACH))}"
    where = f" where id = {draw.randrange(KEYS)}" if draw.random() < 0.7 else condition(draw, "t").replace("t.", "")
    return f"update t set {draw.choice('sr')} = {written(draw.choice(EACH))}{where}"


def select(draw, name):
    """Some rows, what differs among them, or pairs of them."""
    words = draw.choice(["select", "select distinct"])
    if draw.random() < 0.5:
        where = condition(draw, name) if draw.random() < 0.8 else ""
        return f"{words} {draw.choice(['*', *TEXTS_OF[name]])} from {name}{where}"
    sides = draw.choice([("t.s", "u.s"), ("t.r", "u.s"), ("e.u", "t.s"), ("e.u", "u.s")])
    first, other = sides[0][0], sides[1][0]
    where = condition(draw, draw.choice([first, other]))
    return f"{words} {', '.join(sides)} from {first} join {other} on {' = '.join(sides)}{where}"


def line(draw):
    """A line, and for a load the block behind it."""
    name, luck = draw.choice("tttue"), draw.random()
    if luck < 0.1:
        return load(name, [row(draw, name) for _ in range(draw.randrange(1, 4))])
    if luck < 0.2:
        return draw.choice([b"index ", b"index ", b"drop index "]) + draw.choice(INDEXES) + b"\n"
    if luck < 0.25:
        return f"dump {name}\n".encode()
    return (change(draw, name) if luck < 0.7 else select(draw, name)).encode() + b"\n"


def stream(draw):
    """A stream, at whose end all rows are shown."""
    return front(draw) + b"".join(line(draw) for _ in range(draw.randrange(20, 60))) + b"dump t\ndump u\ndump e\n"
