"""The command language in SQL, with SQLite as the judge of what the program answers.

SQLite reads no line and knows no limit. So `model` says what a line spells, and what is refused before any row is read. Everything else
is SQLite's answer: the rows that are found, the counts, the order of rows, the declarations, and the refusals that depend on rows (41,
42, 44), by SQLite's own constraints.

What must hold: no answer that depends on rows comes from `model`.
"""

import csv
import io
import re
import sqlite3
from dataclasses import dataclass

from . import model, streams, transacted

# What it is called that a command broke a constraint of SQLite's. Any other that breaks is a failure.
REFUSALS = {("UNIQUE", "insert"): 41, ("UNIQUE", "load"): 41}
REFUSALS |= {("FOREIGN KEY", "insert"): 42, ("FOREIGN KEY", "load"): 42, ("FOREIGN KEY", "update"): 42, ("FOREIGN KEY", "delete"): 44}
BY_ROWS = {None, *REFUSALS.values()}


def sql(name):
    """A name for SQLite, which takes `t` and `T` for one, and has names of its own."""
    return "[." + re.sub("[A-Z]", r"^\g<0>", name) + "]"


def plain(name):
    """The name that stands in SQLite's schema so."""
    return name[1:].replace("^", "")


def dotted(column):
    """A column, with the name of its table or without."""
    return ".".join(sql(name) for name in column if name)


def field(value):
    text = "" if value is None else str(value)
    return '"' + text.replace('"', '""') + '"' if set(text) & set(',"\r\n') else text


def records(rows):
    """Rows as records of CSV. That of one empty field is quoted, as it would be no record else."""
    return "".join((",".join(map(field, row)) or '""' * (len(row) == 1)) + "\n" for row in rows).encode()


def text_of(value):
    """A value of the language for SQLite, which orders texts by their UTF-8 bytes too."""
    return value.decode() if isinstance(value, bytes) else value


def value_of(text, kind, takes_null):
    """A field of a load as a value of such a column."""
    return None if takes_null and not text else int(text) if kind == "INT" else text


def where(conditions):
    """Conditions, and the values that they ask for. SQLite's `=` holds of no null; the language's `= null` is its IS NULL."""
    of_null = {"=": "IS NULL", "<>": "IS NOT NULL"}
    tests = [f"{dotted(column)} {of_null[sign] if value is None else f'{sign} ?'}" for column, sign, value in conditions]
    values = [text_of(value) for _, _, value in conditions if value is not None]
    return (" WHERE " + " AND ".join(tests) if tests else ""), values


def refused(why, word, number=None):
    return model.Refused(REFUSALS[str(why).split(" constraint")[0], word], number).answer()


class Referee:
    """A database of SQLite's that commands are told to."""

    def __init__(self):
        self.database = sqlite3.connect(":memory:", isolation_level=None)
        self.do("PRAGMA foreign_keys = ON")

    def do(self, text, values=()):
        return self.database.execute(text, values)

    def answer(self, word, said):
        """The answer to a command that is refused by rows or not at all."""
        try:
            return getattr(self, word)(*said) or b"ok\n"
        except sqlite3.IntegrityError as why:
            return refused(why, word)

    def names(self):
        """The tables, in the order of their declaration."""
        return [plain(name) for (name,) in self.do("SELECT name FROM sqlite_master WHERE type = 'table' ORDER BY rowid")]

    def columns(self, table):
        """A table's columns: for each its name, its type, and whether nulls can stand in it."""
        found = self.do('SELECT name, type, "notnull" FROM pragma_table_info(?) ORDER BY cid', [sql(table)[1:-1]])
        return [(plain(name), kind, not is_not_null) for name, kind, is_not_null in found]

    def key(self, table):
        return table, self.columns(table)[0][0]

    def references(self, table):
        """For each column that refers to a table, that table."""
        found = self.do('SELECT "from", "table" FROM pragma_foreign_key_list(?)', [sql(table)[1:-1]])
        return {plain(column): plain(to) for column, to in found}

    def table(self, name, columns):
        declared = []
        for column in columns:
            kind = self.columns(column.to)[0][1] if column.to else column.kind.upper()
            rules = " NOT NULL" * (not column.takes_null) + (f" REFERENCES {sql(column.to)}" if column.to else "")
            declared.append(f"{sql(column.name)} {kind}{rules}")
        key = sql(columns[0].name)
        self.do(f"CREATE TABLE {sql(name)} ({', '.join(declared)}, PRIMARY KEY ({key})) STRICT, WITHOUT ROWID")

    def drop_table(self, name):
        self.do(f"DROP TABLE {sql(name)}")

    def index(self, name, column, kind):
        self.do(f"CREATE INDEX {sql(f'{name}.{column[1]}.{kind}')} ON {sql(name)} ({sql(column[1])})")

    def drop_index(self, name, column, kind):
        self.do(f"DROP INDEX {sql(f'{name}.{column[1]}.{kind}')}")

    def tables(self):
        lines = []
        for table in self.names():
            to = self.references(table)
            kinds = [(name, f"ref {to[name]}" if name in to else kind.lower(), null) for name, kind, null in self.columns(table)]
            lines.append(f"table {table} ({', '.join(f'{name} {kind}' + ' null' * null for name, kind, null in kinds)})")
            indexes = "SELECT name FROM sqlite_master WHERE type = 'index' AND tbl_name = ? ORDER BY rowid"
            lines += [f"index {plain(name).replace('.', ' ')}" for (name,) in self.do(indexes, [sql(table)[1:-1]])]
        return "".join(f"{line}\n" for line in [*lines, f"ok {len(self.names())}"]).encode()

    def put(self, name, row):
        self.do(f"INSERT INTO {sql(name)} VALUES ({', '.join('?' * len(row))})", row)

    def insert(self, name, row):
        self.put(name, [text_of(value) for value in row])
        return b"ok 1\n"

    def load(self, name, block):
        """A load is inserts in one savepoint. The first that a constraint refuses is the record that the answer tells."""
        columns = self.columns(name)
        text = io.StringIO(block.decode("utf-8-sig"), newline="")
        rows = [fields for fields in csv.reader(text, strict=True) if fields][1:]
        self.do("SAVEPOINT load")
        try:
            for number, fields in enumerate(rows, 1):
                self.put(name, [value_of(text, kind, null) for text, (_, kind, null) in zip(fields, columns)])
        except sqlite3.IntegrityError as why:
            self.do("ROLLBACK TO load")
            return refused(why, "load", number)
        finally:
            self.do("RELEASE load")
        return b"ok %d\n" % len(rows)

    def dump(self, name):
        names = [column for column, _, _ in self.columns(name)]
        block = records([names, *self.do(f"SELECT * FROM {sql(name)} ORDER BY {sql(names[0])}")])
        return b"load %s %d\n" % (name.encode(), len(block)) + block

    def update(self, name, settings, conditions):
        """SQLite looks at a reference only where it puts it into a row. In the language it has to name a row all the same."""
        to = self.references(name)
        named = [(to[column], value) for (_, column), value in settings if column in to and value is not None]
        look = "SELECT * FROM {} WHERE {} = ?"
        exist = [self.do(look.format(sql(to), dotted(self.key(to))), [text_of(value)]).fetchone() for to, value in named]
        tests, values = where(conditions)
        puts = ", ".join(f"{sql(column)} = ?" for (_, column), _ in settings)
        count = self.do(f"UPDATE {sql(name)} SET {puts}{tests}", [text_of(value) for _, value in settings] + values).rowcount
        if None in exist:
            assert count == 0, "SQLite put a reference that names no row"
            return model.Refused(42).answer()
        return b"ok %d\n" % count

    def delete(self, name, conditions):
        tests, values = where(conditions)
        return b"ok %d\n" % self.do(f"DELETE FROM {sql(name)}{tests}", values).rowcount

    def select(self, distinct, items, name, joins, conditions):
        tables = [name, *(table for table, _, _ in joins)]
        every = [(table, column) for table in tables for column, _, _ in self.columns(table)]
        meant = [[one for one in every if name == one[1] and table in (None, one[0])][0] for table, name in items or []]
        shown = meant or every
        tests, values = where(conditions)
        joined = "".join(f" JOIN {sql(table)} ON {dotted(left)} = {dotted(right)}" for table, left, right in joins)
        # SQLite orders nulls before integers, and these before texts, too.
        order = map(str, range(1, len(shown) + 1)) if distinct else [dotted(self.key(table)) for table in tables]
        front = f"SELECT {'DISTINCT ' * distinct}{', '.join(map(dotted, shown))} FROM {sql(name)}"
        rows = self.do(f"{front}{joined}{tests} ORDER BY {', '.join(order)}", values).fetchall()
        return b"rows %d\n" % len(rows) + records([[f"{table}.{column}" for table, column in shown], *rows])


@dataclass
class Case:
    """A unit of a stream, and its answers by the model and by SQLite, which isn't asked (`None`) where it can't speak."""

    unit: bytes
    kind: str
    by_model: bytes
    by_sqlite: bytes | None

    def answer(self):
        return self.by_model if self.by_sqlite is None else self.by_sqlite


class Bench:
    """The model and SQLite side by side."""

    def __init__(self, tables):
        self.model = tables
        self.referee = Referee()

    def case(self, unit, line, block):
        answer = self.model.answer(line, block)
        number = refusal_of(answer)
        if answer == b"" or number in (10, 11, 20):
            return Case(unit, "no command" if answer else "silent", answer, None)
        word, said = model.command_of(model.without_return(line).decode())
        kind = word.replace("_", " ")
        if word == "select":
            kind = "select" + " distinct" * said[0] + " of joins" * bool(said[3])
        said = (said[0], block) if word == "load" else said
        return Case(unit, kind, answer, self.referee.answer(word, said) if number in BY_ROWS else None)

    def looks(self):
        """What shows all declarations and all rows."""
        for line in [b"tables", *(b"dump " + name.encode() for name in self.referee.names())]:
            yield self.case(line + b"\n", line, b"")


class Judge(transacted.Lists):
    """The model and SQLite, of which a transaction is a savepoint."""

    def __init__(self):
        super().__init__()
        self.bench = Bench(self.tables)

    def answer(self, line, block):
        case = self.bench.case(line + b"\n" + block, line, block)
        assert case.by_model == case.answer(), f"the model answers {case.by_model!r}, and SQLite {case.by_sqlite!r}"
        return case.answer()

    def begin(self):
        super().begin()
        self.bench.referee.do(f"SAVEPOINT open{len(self.saved)}")

    def commit(self):
        self.bench.referee.do(f"RELEASE open{len(self.saved)}")
        super().commit()

    def roll_back(self):
        self.bench.referee.do(f"ROLLBACK TO open{len(self.saved)}")
        self.bench.referee.do(f"RELEASE open{len(self.saved)}")
        super().roll_back()


def refusal_of(answer):
    return int(answer[6:8]) if answer.startswith(b"error ") else None


def cases(stream, tables=None):
    """The units of a stream, each with looks at all tables behind it. A last unit that isn't whole has none."""
    bench = Bench(tables or model.Tables(model.Limits()))
    whole = streams.whole_units_of(stream)
    for line, block in model.units_of(whole):
        yield bench.case(line + b"\n" + block, line, block)
        yield from bench.looks()
    for line, block in model.units_of(stream[len(whole) :]):
        yield bench.case(stream[len(whole) :], line, block)


def difference(listed, out):
    """The first case whose answers aren't all the same, and what SQLite, the model and the program say, or `None`."""
    at = 0
    for number, case in enumerate(listed):
        answer = case.answer()
        if case.by_model != answer or not out.startswith(answer, at):
            before = b"".join(other.unit for other in listed[:number] if other.kind not in ("tables", "dump", "silent"))
            told = {"SQLite": case.by_sqlite, "model": case.by_model, "program": out[at : at + len(answer) + 80], "behind": before}
            return f"{case.unit!r}\n" + "\n".join(f"{who}: {what!r}" for who, what in told.items())
        at += len(answer)
    return None if at == len(out) else f"behind all answers: {out[at : at + 200]!r}"
