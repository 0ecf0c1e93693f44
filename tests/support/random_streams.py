"""Random streams of commands and of noise, which are wrong in many ways, over three tables and others.

What must hold: a stream depends on its seed alone. A change here gives every seed other streams, so those that docs/testing.md names by
seed and number are gone.
"""

from . import model

SEED = 20260717
NAMES = ["t", "u", "e", "dept", "_x1", "n" * 32, "n" * 33, "select", "T"]
NUMBERS = ["0", "-0", "1", "2", "3", "-1", "007", "9223372036854775807", "9223372036854775808", "-9223372036854775808", "12x"]
TEXTS = ["''", "'a'", "'b'", "'it''s'", "''''", "'a,b'", "'\"'", "'é'", "'#'", "'\r'", "'open", "'a'b'"]
LONG_TEXTS = ["'" + "x" * 1024 + "'", "'" + "x" * 1025 + "'"]
COLUMNS = ["id", "n", "m", "k", "t", "u"]
SIGNS = ["=", "<>", "<", "<=", ">", ">="]
NO_SIGNS = ["< >", "==", "=<", "!="]
NOISE = ["", " ", "\t", "#", "# ok", "table", "drop", "drop t", "index", "tables t", "select * from", "insert t", "é", "(", "'", "--1", "- 1", "1-2", "\r"]
KINDS = ["int", "int", "text", "ref t", "ref u null", "ref dept"]
FIELDS = [b"", b"a", b"b", b"it's", b'"a,b"', b'""""', b'"\n"', b'"\r\n"', b"\xc3\xa9", b" a", b"null", b'"1"', b"007"]
BAD_FIELDS = [b"x" * 1025, b"\xff", b"+1", b"9223372036854775808", b"-", b"1,2"]
ENDS = [b"\n", b"\n", b"\n", b"\r\n", b"\r", b"\n\n"]
MARKS = [b"\xef\xbb\xbf", b"\xef\xbb\xbf" * 2, b"\xef\xbb", b"\n"]
INDEXES = ["tree", "hash", "tree", "hash", "list"]
FRONT = b"""table t (id int, n int, m text)
table u (id text, n int)
table e (id int, t ref t, u ref u null)
insert t (1, 0, 'a')
insert t (2, 1, 'b')
insert u ('a', 0)
insert e (1, 1, 'a')
insert e (2, 2, null)
"""
COLUMNS_OF = {"t": ["id", "n", "m"], "u": ["id", "n"], "e": ["id", "t", "u"]}
INTEGERS_OF = {"t": ["id", "n"], "u": ["n"], "e": ["id", "t"]}
TEXTS_OF = {"t": ["m"], "u": ["id"], "e": ["u"]}


def separated(draw, items, between=","):
    return draw.choice([between, between + " ", " " + between + "\t"]).join(items)


def rarely(draw, likely, unlikely, chance=0.05):
    return draw.choice(unlikely if draw.random() < chance else likely)


def value(draw):
    luck = draw.random()
    if luck < 0.6:
        return integer(draw)
    if luck < 0.7:
        return draw.choice([*NUMBERS, "null", "null"])
    return rarely(draw, TEXTS, LONG_TEXTS)


def own_column(draw, table):
    """A column, mostly one of that table."""
    return rarely(draw, COLUMNS_OF.get(table, COLUMNS), COLUMNS)


def column(draw, table):
    """A column, with a table's name before it or without."""
    name = own_column(draw, table)
    return name if draw.random() < 0.8 else separated(draw, [rarely(draw, [table], NAMES[:3]), name], ".")


def condition(draw, table):
    blank = draw.choice(["", " "])
    return column(draw, table) + blank + rarely(draw, SIGNS, NO_SIGNS) + blank + value(draw)


def conditions(draw, table):
    """No conditions, a few, or too many."""
    count = draw.choice([0, 0, 1, 1, 1, 2, 3] if draw.random() < 0.97 else [8, 9])
    return " where " + " and ".join(condition(draw, table) for _ in range(count)) if count else ""


def join(draw, tables):
    """A join of one table more, which joins the list of tables."""
    table = rarely(draw, [other for other in COLUMNS_OF if other not in tables] or NAMES, NAMES)
    outer = draw.choice(tables)
    columns = rarely(draw, [INTEGERS_OF, INTEGERS_OF, TEXTS_OF], [COLUMNS_OF])
    sides = [f"{other}.{draw.choice(columns.get(other, COLUMNS))}" for other in (table, outer)]
    tables.append(table)
    return f" join {table} on " + separated(draw, draw.sample(sides, 2), draw.choice([" = ", "="]))


def select_of_joins(draw, name):
    """A select of several tables, whose columns are mostly named with their tables."""
    tables = [name]
    joins = "".join(join(draw, tables) for _ in range(draw.choice([1, 1, 1, 2, 2, 3, 4])))

    def named():
        table = draw.choice(tables)
        return own_column(draw, table) if draw.random() < 0.1 else f"{table}.{own_column(draw, table)}"

    shown = "*" if draw.random() < 0.4 else ", ".join(named() for _ in range(draw.choice([1, 1, 2, 3])))
    tests = " and ".join(f"{named()} {draw.choice(SIGNS)} {value(draw)}" for _ in range(draw.choice([0, 0, 1, 1, 2])))
    return f"{shown} from {name}{joins}" + (f" where {tests}" if tests else "")


def declaration(draw):
    columns = draw.sample(COLUMNS, draw.randrange(1, 4)) if draw.random() < 0.9 else ["id", "n", "id"]
    kinds = [rarely(draw, KINDS[:3], KINDS), *(draw.choice(KINDS) for _ in columns[1:])]
    return separated(draw, map(" ".join, zip(columns, kinds)))


def setting(draw, table):
    return f"{rarely(draw, COLUMNS_OF.get(table, COLUMNS)[1:], COLUMNS, 0.2)} = {value(draw)}"


def items(draw, table):
    count = rarely(draw, [1, 1, 2, 3], [17])
    return "*" if draw.random() < 0.4 else separated(draw, [column(draw, table) for _ in range(count)])


def integer(draw):
    return str(draw.randrange(-4, 5))


def row(draw, name):
    """Values for a table of the front, or any."""
    if draw.random() < 0.3:
        return [value(draw) for _ in range(draw.choice([1, 2, 2, 3]))]
    text = draw.choice(TEXTS[:10])
    if name == "e":
        return [integer(draw), integer(draw), rarely(draw, TEXTS[:10], ["null"], 0.4)]
    return [text, integer(draw)] if name == "u" else [integer(draw), integer(draw), text]


def header(draw, name):
    """The names of a table's columns, mostly."""
    names = COLUMNS_OF.get(name, COLUMNS[:2])
    return ",".join(rarely(draw, [names], [names[::-1], names[1:], [*names, "n"], []])).encode()


def field(draw, kind):
    if draw.random() < 0.06:
        return draw.choice([*FIELDS, *BAD_FIELDS])
    return integer(draw).encode() if kind == "int" else draw.choice(FIELDS[:10])


def block(draw, name):
    """A block for that table, with up to four records."""
    columns = COLUMNS_OF.get(name, COLUMNS[:2])
    kinds = ["text" if column in TEXTS_OF.get(name, []) else "int" for column in columns]
    records = [b",".join(field(draw, kind) for kind in kinds) for _ in range(draw.randrange(5))]
    end = draw.choice(ENDS)
    text = rarely(draw, [b""], MARKS) + end.join([header(draw, name), *records])
    return text + draw.choice([b"", end, end])


def load(draw):
    """A load, mostly of as many bytes as its block has, and its block."""
    name = rarely(draw, NAMES[:3], NAMES)
    text = block(draw, name)
    lengths = [max(0, len(text) + draw.randrange(-3, 4)), 0, 2**24, 2**24 + 1, 2**63 - 1, 2**63, "x", "'3'"]
    length = rarely(draw, [len(text)], lengths, 0.08)
    return f"load {name} {length}".encode() + draw.choice([b"\n", b"\n", b" \r\n"]) + text


def command(draw):
    """A command, which may be wrong in many ways."""
    name = rarely(draw, NAMES[:3], NAMES, 0.2)
    others = ["table", "update", "update", "delete", "index", "index", "tables", "dump", "dump", "noise"]
    kind = draw.choice(["insert"] * 6 + ["select"] * 4 + others)
    if kind == "table":
        return f"table {name} ({declaration(draw)})" if draw.random() < 0.8 else f"drop table {name}"
    if kind == "index":
        return f"{rarely(draw, ['index'], ['drop index'], 0.4)} {name} {own_column(draw, name)} {rarely(draw, INDEXES[:4], INDEXES)}"
    if kind == "tables":
        return kind
    if kind == "dump":
        return f"dump {name}"
    if kind == "insert":
        return f"insert {name} ({separated(draw, row(draw, name))})"
    if kind == "update":
        settings = [setting(draw, name) for _ in range(draw.choice([1, 1, 2]))]
        return f"update {name} set {separated(draw, settings)}{conditions(draw, name)}"
    if kind == "delete":
        return f"delete {name}{conditions(draw, name)}"
    if kind == "select":
        words = "select distinct" if draw.random() < 0.3 else "select"
        if draw.random() < 0.5:
            return f"{words} {select_of_joins(draw, name)}"
        return f"{words} {items(draw, name)} from {name}{conditions(draw, name)}"
    return draw.choice(NOISE)


def line(draw):
    """A line of bytes: a command, a command with a byte changed, a long line or bytes of any value."""
    bytes_of_line = bytearray(command(draw), "utf-8")
    luck = draw.random()
    if luck < 0.05 and bytes_of_line:
        bytes_of_line[draw.randrange(len(bytes_of_line))] = draw.randrange(256)
    elif luck < 0.06:
        bytes_of_line += b" " * (draw.randrange(8188, 8196) - len(bytes_of_line))
    elif luck < 0.09:
        bytes_of_line = bytearray(draw.randrange(256) for _ in range(draw.randrange(40)))
    return bytes(bytes_of_line) + draw.choice([b"\n", b"\n", b"\n", b"\r\n"])


def stream_of(draw):
    """A stream of lines and loads, behind tables or none, whole or cut anywhere."""
    stream = b"".join(load(draw) if draw.random() < 0.15 else line(draw) for _ in range(draw.randrange(60)))
    if draw.random() < 0.8:
        stream = FRONT + stream
    return stream[: draw.randrange(len(stream))] if stream and draw.random() < 0.3 else stream


def stream_and_answers(draw):
    """A stream and its answers. One of odd quotes isn't taken, as it isn't said what is read there."""
    while True:
        stream = stream_of(draw)
        try:
            return stream, model.answers_to(stream)
        except model.OddQuotes:
            pass


def random_pieces(draw, stream):
    pieces = []
    while stream:
        size = draw.choice([1, 2, 3, 10, 100, 1000, 10_000])
        pieces.append(stream[:size])
        stream = stream[size:]
    return pieces
