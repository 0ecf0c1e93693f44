"""Random streams about joins: four tables with indexes of each kind, which come and go, and selects from one to four of them.

What must hold: the tables are large enough, and their numbers of rows differ enough, that every plan and every join method is chosen.
"""

from . import model

COLUMNS = {"a": ["id", "n", "s"], "b": ["id", "n", "a"], "c": ["id", "b", "s", "a"], "d": ["id", "n", "c"]}
INTEGERS = [("a", "id"), ("a", "n"), ("b", "n"), ("b", "a"), ("c", "id"), ("c", "a"), ("d", "id"), ("d", "n"), ("d", "c")]
TEXTS = [("a", "s"), ("b", "id"), ("c", "b"), ("c", "s")]
DECLARED = b"""table a (id int, n int, s text)
table b (id text, n int, a ref a null)
table c (id int, b ref b null, s text, a ref a)
table d (id int, n int, c ref c null)
"""
REFERENCES = {("b", "a"): "a", ("c", "b"): "b", ("c", "a"): "a", ("d", "c"): "c"}
TAKES_NULL = {("b", "a"), ("c", "b"), ("d", "c")}
MOST_ROWS = {"a": 24, "b": 16, "c": 40, "d": 12}
SIGNS = ["=", "=", "=", "<>", "<", "<=", ">", ">="]
KEYS = 24


def text(number):
    return b"k%d" % number if number % 4 else b"k%d, of a text that lies in a block of its own" % number


def value(draw, column, keys=None):
    """A value for a column. A reference is to one of these keys, where they are given by table."""
    if column in TAKES_NULL and draw.random() < 0.2:
        return None
    if keys and column in REFERENCES:
        return draw.choice(keys[REFERENCES[column]])
    number = draw.randrange(KEYS)
    return text(number) if column in TEXTS else number


def written(of):
    return "null" if of is None else str(of) if isinstance(of, int) else f"'{of.decode()}'"


def keys_of(draw, name):
    """Keys for a few rows of a table or many."""
    numbers = draw.sample(range(KEYS * 2), draw.choice([2, MOST_ROWS[name] // 2, MOST_ROWS[name]]))
    return [text(number) if (name, "id") in TEXTS else number for number in numbers]


def load(draw, name, keys):
    """A load of rows of those keys of its table, which refer to those of others."""
    records = [[column.encode() for column in COLUMNS[name]]]
    records += [[key, *(value(draw, (name, column), keys) for column in COLUMNS[name][1:])] for key in keys[name]]
    block = b"".join(map(model.record, records))
    return b"load %s %d\n" % (name.encode(), len(block)) + block


def index(draw):
    name = draw.choice("abcd")
    word = draw.choice(["index", "index", "index", "drop index"])
    return f"{word} {name} {draw.choice(COLUMNS[name])} {draw.choice(['tree', 'hash'])}"


def condition(draw, tables):
    name = draw.choice(tables)
    column = name, draw.choice(COLUMNS[name])
    return f"{'.'.join(column)} {draw.choice(SIGNS)} {written(value(draw, column))}"


def conditions(draw, tables):
    count = draw.choice([0, 1, 1, 2, 3])
    return " where " + " and ".join(condition(draw, tables) for _ in range(count)) if count else ""


def sides(draw, name, tables):
    """Two columns of one type, of that table and of one of those, or of a link between that table and the last of them."""
    links = [((of, column), (to, "id")) for (of, column), to in REFERENCES.items() if {of, to} == {name, tables[-1]}]
    if links and draw.random() < 0.3:
        return list(draw.choice(links))
    kinds = [kind for kind in (INTEGERS, INTEGERS, TEXTS) if any(of == name for of, _ in kind) and any(of in tables for of, _ in kind)]
    kind = draw.choice(kinds)
    return [draw.choice([side for side in kind if side[0] in among]) for among in ([name], tables)]


def join(draw, tables):
    """A join of one table more, which joins the list of tables."""
    name = draw.choice([other for other in COLUMNS if other not in tables])
    left, right = draw.sample(sides(draw, name, tables), 2)
    tables.append(name)
    return f" join {name} on {'.'.join(left)} = {'.'.join(right)}"


def select(draw):
    tables = [draw.choice("abcd")]
    joins = "".join(join(draw, tables) for _ in range(draw.choice([0, 1, 1, 1, 2, 2, 3])))
    shown = [".".join([name, draw.choice(COLUMNS[name])]) for name in draw.choices(tables, k=draw.choice([1, 2, 3]))]
    items = "*" if draw.random() < 0.3 else ", ".join(dict.fromkeys(shown))
    return f"select {draw.choice(['', '', 'distinct '])}{items} from {tables[0]}{joins}{conditions(draw, tables)}"


def change(draw):
    name = draw.choice("abcd")
    if draw.random() < 0.3:
        return f"delete {name}{conditions(draw, [name])}"
    if draw.random() < 0.5:
        column = name, draw.choice(COLUMNS[name][1:])
        return f"update {name} set {column[1]} = {written(value(draw, column))}{conditions(draw, [name])}"
    return f"insert {name} ({', '.join(written(value(draw, (name, column))) for column in COLUMNS[name])})"


def past_limits(draw):
    """A command with a text, or a list, that is longer than one can be."""
    key, long = draw.randrange(KEYS), "x" * (model.LONGEST_TEXT + 1)
    tests = " and ".join(condition(draw, ["a"]) for _ in range(9))
    return draw.choice([f"insert a ({key}, 0, '{long}')", f"update a set s = '{long}'", f"select * from a where {tests}", f"delete a where {tests}"])


def line(draw, keys):
    luck = draw.random()
    if luck > 0.98:
        return past_limits(draw).encode() + b"\n"
    if luck < 0.05:
        name = draw.choice("abcd")
        return load(draw, name, {**keys, name: keys_of(draw, name)})
    return (index(draw) if luck < 0.25 else change(draw) if luck < 0.5 else select(draw)).encode() + b"\n"


def stream(draw):
    """A stream that ends with all rows."""
    keys = {name: keys_of(draw, name) for name in "abcd"}
    front = DECLARED + b"".join(load(draw, name, keys) for name in "abcd")
    lines = b"".join(line(draw, keys) for _ in range(draw.randrange(10, 40)))
    return front + lines + b"dump a\ndump b\ndump c\ndump d\ntables\n"
