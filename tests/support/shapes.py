"""Random streams of tables that are large enough for trees of several levels and hashes of many buckets. Their rows arrive in rising,
falling and other orders, and change and go by ranges, so that trees rotate, nodes merge, and buckets split and fold.

What must hold: a stream depends on its seed alone, as in random_streams.
"""

from dataclasses import dataclass

from . import model

INDEXES = ["t n tree", "t n hash", "t s tree", "t s hash", "t id hash", "u t tree", "u t hash", "u id hash"]
VALUES = 40


@dataclass(frozen=True)
class Form:
    """How large the tables are, of which kind n is, and whether it falls as keys rise, so that no two rows have the same."""

    rows: int = 200
    kind: str = "int"
    falls: bool = False

    def n(self, draw, key):
        number = 9 * self.rows - key if self.falls else draw.randrange(VALUES)
        return number if self.kind == "int" else b"n%06d" % number

    def some(self, draw):
        """Such a value as it stands in a line."""
        value = self.n(draw, draw.randrange(-2 * self.rows, 2 * self.rows) if self.falls else None)
        return str(value) if self.kind == "int" else f"'{value.decode()}'"


FORM = Form()
# Those in which more becomes of trees, of sorted rows and of what is given back.
LARGE_FORMS = [Form(1_500, kind, falls) for kind in ("int", "text") for falls in (True, False)]


def text(number):
    return b"s%d" % number if number % 3 else b"s%d, of a text that lies in a block of its own" % number


def in_order(draw, keys):
    """The keys in an order that leans a tree to one side, or in none."""
    keys = sorted(keys)
    middle = len(keys) // 2
    orders = [keys, keys[::-1], keys[middle:] + keys[:middle], keys[::2] + keys[1::2], draw.sample(keys, len(keys))]
    return draw.choice(orders)


def load(name, names, rows):
    block = b"".join(map(model.record, [names, *rows]))
    return b"load %s %d\n" % (name, len(block)) + block


def load_of_t(draw, keys, form):
    rows = [[key, form.n(draw, key), text(draw.randrange(VALUES))] for key in keys]
    return load(b"t", [b"id", b"n", b"s"], rows)


def load_of_u(draw, keys, form):
    names = draw.sample(range(form.rows), draw.randrange(form.rows // 5))
    rows = [[text(name), draw.choice([*keys[:3], None])] for name in names]
    return load(b"u", [b"id", b"t"], rows)


def some_keys(draw, form):
    """Keys that lie side by side or apart."""
    first, step = draw.randrange(-2 * form.rows, 2 * form.rows), draw.choice([1, 1, 3])
    return in_order(draw, range(first, first + step * draw.choice([3, 40, 100, form.rows]), step))


def between(draw, form):
    """A range of a column, mostly of the key."""
    if draw.random() < 0.3:
        return f"n {draw.choice(['=', '<', '>='])} {form.some(draw)}"
    first = draw.randrange(-2 * form.rows, 2 * form.rows)
    return f"id >= {first} and id < {first + draw.choice([10, 40, 150, form.rows])}"


def inserts(draw, form):
    return "".join(f"insert t ({key}, {form.some(draw)}, '')\n" for key in some_keys(draw, form)[:30])


def select(draw, form):
    return draw.choice(
        [
            f"select id from t where n = {form.some(draw)}",
            f"select id, n from t where s = '{text(draw.randrange(VALUES)).decode()}'",
            f"select id from t where n >= {form.some(draw)} and n < {form.some(draw)}",
            "select distinct n from t",
            "select u.id, t.n from u join t on u.t = t.id",
            f"select t.id from t join u on t.id = u.t where t.n < {form.some(draw)}",
            "select distinct t.s from t join u on t.s = u.id",
        ]
    )


def line(draw, form=FORM):
    """A line, or some, with blocks where they are loads."""
    luck = draw.random()
    if luck < 0.2:
        return load_of_t(draw, some_keys(draw, form), form)
    if luck < 0.25:
        return load_of_u(draw, some_keys(draw, form), form)
    if luck < 0.35:
        return inserts(draw, form).encode()
    if luck < 0.55:
        told = f"update t set n = {form.some(draw)} where {between(draw, form)}"
    elif luck < 0.7:
        told = f"delete t where {between(draw, form)}"
    elif luck < 0.75:
        told = "update u set t = null" if draw.random() < 0.5 else "delete u"
    elif luck < 0.85:
        told = f"{draw.choice(['index', 'index', 'drop index'])} {draw.choice(INDEXES)}"
    else:
        told = select(draw, form)
    return told.encode() + b"\n"


def stream(draw, form=FORM):
    """A stream that ends with all rows."""
    declared = f"table t (id int, n {form.kind}, s text)\ntable u (id text, t ref t null)\n".encode()
    indexes = [b"index %s\n" % index.encode() for index in draw.sample(INDEXES, 4)]
    keys = some_keys(draw, form)
    loads = load_of_t(draw, keys, form), load_of_u(draw, keys, form)
    front = declared + b"".join(indexes[:2]) + loads[0] + b"".join(indexes[2:]) + loads[1]
    return front + b"".join(line(draw, form) for _ in range(draw.randrange(8, 20))) + b"dump t\ndump u\ntables\n"
