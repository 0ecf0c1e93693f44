"""The largest lines, tables, blocks and dumps, each also with one more than allowed, and millions of rows in each structure."""

import resource
import unittest

from support import embedded, harness, model, sizes, streams, texts

LIMITS = model.Limits()
TABLES = 64
COLUMNS = 16
LONGEST = "x" * model.LONGEST_TEXT
NAME = "n" * 30
TOO_LONG = b"error 12 block too long\n"


class Lines(unittest.TestCase):
    """Lines of 8,192 bytes are read to their end."""

    def check(self, *lines, front=b""):
        for end in (b"\n", b"\r\n"):
            stream = front + b"".join(line + end for line in lines)
            self.assertEqual(harness.run_whole(stream).out, model.answers_to(stream))

    def filled(self, front, back, fill=b" "):
        """A line of 8,192 bytes, filled between its front and its back."""
        return front + (fill * model.LONGEST_LINE)[: model.LONGEST_LINE - len(front) - len(back)] + back

    def test_each_command_fills_a_line(self):
        fronts = [b"table t (id int, s text", b"index t s tree", b"insert t (1, 'a'", b"update t set s = 'b'", b"select * from t"]
        backs = [b")", b"", b")", b" where id = 1", b" where s = 'b'"]
        lines = [self.filled(front, back) for front, back in zip(fronts, backs)]
        self.check(*lines, *(line + b" " for line in lines), self.filled(b"drop index t s", b" tree"), self.filled(b"tables", b""))

    def test_a_load_and_a_dump_fill_a_line(self):
        block = b"id\n7\n" + self.filled(b"0", b"8", b"0") + b"\n9"
        loads = [self.filled(b"load t ", b"%d" % len(block), b"0"), self.filled(b"load", b"t 9"), self.filled(b"# load t 9", b"")]
        front = b"table t (id int)\n" + loads[0] + b"\n" + block + loads[1] + b" \n" + loads[2] + b"\n"
        self.check(self.filled(b"dump", b"t"), self.filled(b"dump", b"t") + b" ", front=front)

    def test_the_longest_numbers_and_texts(self):
        front = b"table t (id int, s text)\n"
        zeros = [self.filled(b"insert t (", b"7, '')", b"0"), self.filled(b"insert t (-", b"7, '')", b"0")]
        past = [self.filled(b"insert t (", b", '')", b"7"), self.filled(b"insert t (1, '", b"')", b"x")]
        quotes = [self.filled(b"select * from t where s %s '" % sign, b"'", b"''") for sign in (b">", b"<=")]
        self.check(*zeros, *past, *quotes, self.filled(b"select * from t where s = '", b"'", b"x"), front=front)

    def test_the_longest_select(self):
        columns = [f"{NAME}{number:02}" for number in range(COLUMNS)]
        front = f"table t ({', '.join(name + ' text' for name in columns)})\n".encode()
        shown = ", ".join("t." + name for name in columns)
        tests = [f"{name} >= '{'y' * 700}'" for name in columns[:8]]
        self.check(f"select {shown} from t where {' and '.join(tests)}".encode(), front=front)
        joined = f"select {shown}, u.id from t join u on u.id = t.{columns[0]}"
        self.check(b"table u (id text)", joined.encode(), front=front)
        self.check(f"select * from t where {' and '.join([*tests, columns[0]])} = ''".encode(), front=front)

    def test_the_longest_texts_that_are_stored(self):
        wide = "é" * (model.LONGEST_TEXT // 2)
        front = b"table t (id int, a text, b text, c text, d text, e text, f text, g text)\n"
        most = ", ".join(f"'{LONGEST}'" for _ in range(6))
        lines = [f"insert t (1, {most}, '{wide}')", f"insert t (2, {most}, '{wide}x')", f"insert t (2, {most}, '{LONGEST}')"]
        quotes = [b"update t set a = '%s'" % (b"''" * count) for count in (model.LONGEST_TEXT, model.LONGEST_TEXT + 1)]
        self.check(*(line.encode() for line in lines), *quotes, b"select * from t", front=front)


class Tables(unittest.TestCase):
    """64 tables of 16 columns, each with every index, and rows that refer to those of the tables before."""

    def setUp(self):
        columns = [f"{NAME}{number:02}" for number in range(1, COLUMNS)]
        self.stream = b""
        for table in range(TABLES):
            kinds = [f"ref t{other} null" for other in range(max(0, table - 7), table)]
            kinds += ["int", "text"] * COLUMNS
            self.add(f"table t{table} (id int, {', '.join(map(' '.join, zip(columns, kinds)))})")
            for column in columns:
                self.add(f"index t{table} {column} tree", f"index t{table} {column} hash")
            values = ["null" if kind.startswith("ref") else "1" if kind == "int" else "'x'" for kind in kinds[: len(columns)]]
            self.add(*(f"insert t{table} ({key}, {', '.join(values)})" for key in range(2)))
            self.add(*(f"update t{table} set {column} = 1 where id = 0" for column, kind in zip(columns, kinds) if kind[0] == "r"))

    def add(self, *lines):
        self.stream += "".join(f"{line}\n" for line in lines).encode()

    def check(self):
        ended = harness.run_whole(self.stream)
        self.assertEqual((ended.status, ended.err), (0, b""))
        self.assertEqual(ended.out, model.answers_to(self.stream))

    def test_most_tables_and_one_more(self):
        self.add("table more (id int)", "drop table t0", f"drop table t{TABLES - 1}", "table more (id int)", "table yet (id int)")
        self.add("tables", *(f"select * from t{table}" for table in range(TABLES)))
        self.check()

    def test_most_tables_lose_their_rows_and_go(self):
        self.add(*(f"delete t{table} where id = 1" for table in range(TABLES)))
        self.add(*(f"delete t{table}" for table in reversed(range(TABLES))))
        self.add(*(f"drop table t{table}" for table in reversed(range(TABLES))), "tables")
        self.check()

    def test_one_column_more(self):
        columns = [f"c{number} int" for number in range(COLUMNS + 1)]
        self.stream = b""
        self.add(f"table t ({', '.join(columns)})", f"table t ({', '.join(columns[1:])})", "tables")
        self.check()


class Widths(unittest.TestCase):
    """Tables of one column, of 16 and of each number between them, with texts that lie in their cells and longer ones."""

    def check(self, stream):
        ended = harness.run_whole(stream)
        self.assertEqual((ended.status, ended.err), (0, b""))
        self.assertTrue(ended.out == model.answers_to(stream), "the stream is answered otherwise")

    def table(self, name, columns, rows):
        """A table of texts, and a load of so many rows and two. A row's number stands in front of its key."""
        names = [b"c%d" % number for number in range(columns)]
        keys = [texts.of_length(texts.LENGTHS[1 + number % 4], b"%05d" % number) for number in range(rows)]
        keys += [texts.of_length(model.LONGEST_TEXT), b""]
        others = [[texts.of_length(texts.LENGTHS[(at + place) % 5]) for place in range(1, columns)] for at in range(len(keys))]
        block = b"".join(map(model.record, [names, *([key, *row] for key, row in zip(keys, others))]))
        return b"table %s (%s)\nload %s %d\n" % (name, b", ".join(name + b" text" for name in names), name, len(block)) + block

    def test_tables_of_one_column_and_of_most(self):
        """Some partitions are full of their rows. They change, some go, and others come."""
        some = list(map(texts.of_length, texts.LENGTHS))
        updates = [b"update t16 set c1 = '%s' where c15 = '%s'\n" % pair for pair in zip(some[1:], some)]
        stream = b""
        for columns, changes in ((1, []), (COLUMNS, updates)):
            name = b"t%d" % columns
            stream += self.table(name, columns, 600) + b"dump %s\n" % name + b"".join(changes)
            stream += b"delete %s where c0 > '002' and c0 < '004'\ninsert %s (%s)\n" % (name, name, b", ".join([b"'y'"] * columns))
            stream += b"select distinct c0 from %s where c0 >= '005'\ndump %s\n" % (name, name)
        self.check(stream + b"select t1.c0 from t1 join t16 on t1.c0 = t16.c0 where t16.c15 = ''\n")

    def test_most_tables_of_each_width(self):
        names = [b"t%d" % number for number in range(TABLES)]
        tables = b"".join(self.table(name, 1 + number % COLUMNS, 10) for number, name in enumerate(names))
        drops = b"".join(b"drop table %s\n" % name for name in names[::3])
        shown = b"".join(b"dump %s\n" % name for name in names)
        self.check(tables + shown + drops + self.table(b"more", COLUMNS, 10) + b"dump more\n" + shown)


class Blocks(unittest.TestCase):
    """A block as long as the limit is loaded and dumped, and one that is longer isn't."""

    HEADER = f"{','.join(f'c{number}' for number in range(COLUMNS))}\n".encode()
    FRONT = f"table t (c0 int, {', '.join(f'c{number} text' for number in range(1, COLUMNS))})\n".encode()

    def load(self, length):
        """A load of a block that is so long, and how many rows that has. All are as wide as they can be, save the last."""
        wide, narrow = f",{LONGEST}" * (COLUMNS - 1), "," * (COLUMNS - 1)
        rows, left = divmod(length - len(self.HEADER) - len(f"99999{narrow}\n"), len(f"10000{wide}\n"))
        last = "".join(f",{LONGEST[: max(0, left - at * len(LONGEST))]}" for at in range(COLUMNS - 1))
        records = [*(f"{key}{wide}\n" for key in range(10_000, 10_000 + rows)), f"99999{last}\n"]
        block = self.HEADER + "".join(records).encode()
        self.assertEqual(len(block), length)
        return b"load t %d\n" % length + block, rows + 1

    def check(self, stream, *answers):
        ended = harness.run_whole(stream)
        self.assertEqual((ended.status, ended.err), (0, b""))
        self.assertTrue(ended.out == b"".join(answers), ended.out[:100])

    def test_the_longest_block(self):
        load, rows = self.load(LIMITS.block)
        more = b"insert t (1%s)\n" % (b", ''" * (COLUMNS - 1))
        again = b"delete t where c0 = 1\n" + load + b"delete t\n" + load
        self.check(
            self.FRONT + load + b"dump t\n" + more + b"dump t\n" + again + b"dump t\n",
            b"ok\nok %d\n" % rows + load + b"ok 1\nerror 64 dump too long\n",
            b"ok 1\nerror 41 key exists (record 1)\nok %d\nok %d\n" % (rows, rows) + load,
        )

    def test_a_longer_block(self):
        load, _ = self.load(LIMITS.block + 1)
        dumped = b"load t %d\n" % len(self.HEADER) + self.HEADER
        self.check(self.FRONT + load + load + b"dump t\n" + load[:-1], b"ok\n", 2 * TOO_LONG, dumped, TOO_LONG)

    def test_a_block_of_short_records(self):
        rows = sizes.size(20_000, 2_000_000)
        block = b"id\n" + b"".join(b"%d\n" % key for key in range(rows))
        load = b"load t %d\n" % len(block) + block
        self.check(b"table t (id int)\n" + load + b"dump t\n", b"ok\nok %d\n" % rows, load)

    def test_a_block_of_empty_lines_and_one_of_quotes(self):
        length = sizes.size(100_000, LIMITS.block)
        empty = b"id" + b"\n" * (length - 2)
        quotes = b'id\n"' + b'""' * (length // 2 - 3) + b'"\n'
        loads = [b"load t %d\n" % len(block) + block for block in (empty, quotes)]
        self.check(b"table t (id text)\n" + b"".join(loads), b"ok\nok 0\nerror 62 bad record 1\n")

    @unittest.skipUnless(sizes.is_large, "16,777,216 rows need gigabytes: in large sizes only")
    def test_a_full_table(self):
        keys = [range(at, at + 2**20) for at in range(0, LIMITS.rows, 2**20)]
        blocks = [b"id\n" + b"".join(b"%d\n" % key for key in some) for some in keys]
        loads = b"".join(b"load t %d\n" % len(block) + block for block in blocks)
        full = b"error 43 table full\nerror 43 table full (record 1)\n"
        there = b"error 41 key exists\nerror 41 key exists (record 1)\n"
        self.check(
            b"table t (id int)\n" + loads + b"insert t (-1)\nload t 6\nid\n-1\ninsert t (5)\nload t 5\nid\n5\n",
            b"ok\n" + b"ok 1048576\n" * len(blocks) + full + there,
        )


class Millions(unittest.TestCase):
    """Eight million rows in the tree of a key, in a declared tree, in a hash and in links; and a full table with indexes."""

    ROWS = sizes.size(20_000, 2**23)
    FULL = sizes.size(30_000, LIMITS.rows)
    AT_ONCE = 2**19
    # It has no divisor in common with a number of rows, so that each number below that is met once.
    STEP = 7_654_321

    def load(self, handle, name, names, rows):
        """Loads rows in blocks, and each is told."""
        for at in range(0, len(rows), self.AT_ONCE):
            some = rows[at : at + self.AT_ONCE]
            block = names + b"".join(self.record(key) for key in some)
            self.assertEqual(handle.ask(b"load %s %d" % (name, len(block)), block), b"ok %d\n" % len(some))

    def record(self, key):
        return b"%d,%d\n" % (key, self.other(key))

    def other(self, key):
        """What stands beside a key: each number that is below that of the rows once, in another order."""
        return key * self.STEP % self.rows

    def key(self, other):
        return other * pow(self.STEP, -1, self.rows) % self.rows

    def asks(self, handle, line, *answers):
        self.assertEqual(handle.ask(line.encode(), b""), "".join(answers).encode(), line)

    def shows(self, handle, select, names, rows):
        records = "".join(",".join(map(str, row)) + "\n" for row in rows)
        self.asks(handle, select, f"rows {len(rows)}\n{names}\n{records}")

    def holds(self, handle, table, *indexes):
        """Each index has so many rows."""
        told = handle.indexes(table).decode().splitlines()[2:]
        self.assertEqual([line.split(",")[:3] for line in told], [index.split(",") for index in indexes])

    def tables(self, handle, rows):
        self.rows = rows
        for line in ("table t (id int, n int)", "index t n tree", "index t n hash"):
            self.asks(handle, line, "ok\n")
        self.load(handle, b"t", b"id,n\n", range(rows))
        self.holds(handle, b"t", f"id,tree,{rows}", f"n,tree,{rows}", f"n,hash,{rows}")

    def finds(self, handle, first, last, shown=None):
        """The rows that are there from the first key to one before the last are found by each index, and no others."""
        for key in (first - 1, first, (first + last) // 2, last - 1, last):
            some = [key] if first <= key < last else []
            other = self.other(key) if 0 <= key < self.rows else -7
            self.shows(handle, f"select n from t where id = {key}", "t.n", [[self.other(each)] for each in some])
            self.shows(handle, f"select id from t where n = {other}", "t.id", [[each] for each in some])
            near = range(max(0, other), min(self.rows, other + 9))
            found = sorted([each, number] for each, number in ((self.key(number), number) for number in near) if first <= each < last)
            self.shows(handle, f"select * from t where n >= {other} and n < {other + 9}", "t.id,t.n", found)

    def test_rows_in_each_structure(self):
        half = self.ROWS // 2
        with embedded.Handle() as handle:
            self.tables(handle, self.ROWS)
            self.finds(handle, 0, self.ROWS)
            self.asks(handle, "table u (id int, t ref t)", "ok\n")
            self.load(handle, b"u", b"id,t\n", range(self.ROWS))
            self.links(handle)
            self.asks(handle, f"delete t where id >= {half}", "error 44 row is referenced\n")
            self.asks(handle, f"delete u where id >= {half}", f"ok {self.ROWS - half}\n")
            self.asks(handle, f"update u set t = {half - 1}", f"ok {half}\n")
            self.asks(handle, f"delete t where id >= {half}", f"ok {self.ROWS - half}\n")
            self.holds(handle, b"t", f"id,tree,{half}", f"n,tree,{half}", f"n,hash,{half}")
            self.finds(handle, 0, half)
            self.shows(handle, f"select distinct t.id from u join t on u.t = t.id where t.n = {self.other(half - 1)}", "t.id", [[half - 1]])
            self.asks(handle, "drop table u", "ok\n")
            self.load(handle, b"t", b"id,n\n", range(half, self.ROWS))
            self.finds(handle, 0, self.ROWS)

    def links(self, handle):
        """What is joined by the links of a few rows, of all, and without them."""
        some = range(self.ROWS - 4, self.ROWS)
        rows = [[key, self.other(self.other(key))] for key in some]
        self.shows(handle, f"select u.id, t.n from u join t on u.t = t.id where u.id >= {some[0]}", "u.id,t.n", rows)
        rows = sorted([self.key(key), key] for key in map(self.key, range(5)))
        self.shows(handle, "select u.id, t.id from u join t on u.t = t.id where t.n < 5", "u.id,t.id", rows)
        self.shows(handle, "select u.id from t join u on t.id = u.t where t.id = 5", "u.id", [[self.key(5)]])

    def test_a_full_table_with_indexes(self):
        last = self.FULL - 1
        with embedded.Handle(limits=model.Limits(self.FULL)) as handle:
            self.tables(handle, self.FULL)
            self.is_full(handle)
            self.finds(handle, 0, self.FULL)
            self.asks(handle, f"update t set n = -9 where id = {last}", "ok 1\n")
            self.shows(handle, "select id from t where n = -9", "t.id", [[last]])
            self.shows(handle, "select id from t where n < 0", "t.id", [[last]])
            self.asks(handle, f"delete t where id = {last}", "ok 1\n")
            self.finds(handle, 0, last)
            self.asks(handle, f"insert t ({last}, {self.other(last)})", "ok 1\n")
            self.is_full(handle)
            self.finds(handle, 0, self.FULL)

    def is_full(self, handle):
        self.asks(handle, "insert t (-1, 0)", "error 43 table full\n")
        self.asks(handle, "insert t (0, 0)", "error 41 key exists\n")
        self.assertEqual(handle.ask(b"load t 10", b"id,n\n-1,0\n"), b"error 43 table full (record 1)\n")


class LimitsOfMemory(unittest.TestCase):
    """A program that may take so much memory and no more answers 90, and all else right."""

    MOST = sizes.size([40 * 2**20], [256 * 2**20, 512 * 2**20, 768 * 2**20])
    AT_ONCE = 2**17
    OF_A_ROW = 48

    def units(self, most):
        """Loads, of which the last have no room, each with a select of a row of its; and then rows that go, and come again."""
        yield b"table t (id int, n int)\n", None
        yield b"index t n tree\n", None
        yield b"index t n hash\n", None
        for number in [*range(most // self.AT_ONCE // self.OF_A_ROW + 2), -1, 0, 1]:
            if number == -1:
                yield b"delete t where id < %d\n" % (2 * self.AT_ONCE), None
                continue
            first = number * self.AT_ONCE
            block = b"id,n\n" + b"".join(b"%d,%d\n" % (key, key ^ 0x5555) for key in range(first, first + self.AT_ONCE))
            yield b"load t %d\n" % len(block) + block, None
            for select in (b"n = %d", b"n <= %d and n >= %d", b"id = %d"):
                value = first ^ 0x5555 if select[:1] == b"n" else first
                yield b"select id from t where " + select.replace(b"%d", b"%d" % value) + b"\n", first

    def check(self, most):
        """The rows of a load are found where it was done, and only then."""
        listed = [(unit[:30], key) for unit, key in self.units(most)]
        limited = lambda: resource.setrlimit(resource.RLIMIT_AS, (most, most))
        ended = harness.run_in_pieces((unit for unit, _ in self.units(most)), preexec_fn=limited)
        self.assertEqual((ended.status, ended.err), (0, b""))
        answers = streams.answers_of(ended.out)
        self.assertEqual(len(answers), len(listed))
        there = refused = done = 0
        for (unit, key), answer in zip(listed, answers):
            if key is not None:
                self.assertEqual(answer, b"rows 1\nt.id\n%d\n" % key if there else b"rows 0\nt.id\n", unit)
            elif unit.startswith(b"load"):
                there = answer == b"ok %d\n" % self.AT_ONCE
                done += there
                refused += not there
                self.assertIn(answer, (b"ok %d\n" % self.AT_ONCE, b"error 90 no memory\n"))
            else:
                self.assertIn(answer, (b"ok\n", b"ok %d\n" % (2 * self.AT_ONCE)))
        self.assertGreater(min(done, refused), 0, (done, refused))
        return done, refused

    def test_no_memory(self):
        for most in self.MOST:
            with self.subTest(most=most):
                done, refused = self.check(most)
                if sizes.is_large:
                    print(f"{most} bytes: {done} loads of {self.AT_ONCE} rows were done, {refused} were refused", flush=True)
