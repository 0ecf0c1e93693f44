"""What the shell shows: values in its modes, boxes in each style, and the position in a line."""

import html.parser
import json
import os
import unittest
import unittest.mock

from support import shell_modules

from mmdb_shell import boxes, modes, showing, terminals


class Tables(unittest.TestCase):
    """How values are shown."""

    NAMES = ("t.id", "t.s", "t.u")
    ROWS = [[1, "Ann", None], [-20, "", ""], [3, " a", "null"], [4, "日本|x", 'a,"b"\n'], [5, "e\u0301\x1b", "''"]]

    def shown(self, mode, rows=None, look=boxes.look("utf-8")):
        return "".join(modes.MODES[mode](self.NAMES, self.ROWS if rows is None else rows, look))

    def test_box(self):
        box = """\
┌──────┬────────┬──────────┐
│ t.id │ t.s    │ t.u      │
├──────┼────────┼──────────┤
│    1 │ Ann    │          │
│  -20 │ ''     │ ''       │
│    3 │ ' a'   │ null     │
│    4 │ 日本|x │ 'a,"b"␊' │
│    5 │ e\u0301␛     │ ''''     │
└──────┴────────┴──────────┘
"""
        self.assertEqual(self.shown("box"), box)
        self.assertEqual(self.shown("box", []).count("\n"), 4)
        self.assertEqual(showing.cell("\u0301"), "'\u0301'")

    def test_the_others(self):
        self.assertEqual(self.shown("csv"), 't.id,t.s,t.u\n1,Ann,\n-20,"",""\n3, a,null\n4,日本|x,"a,""b""\n"\n5,e\u0301\x1b,\'\'\n')
        self.assertEqual(json.loads(self.shown("json")), [dict(zip(self.NAMES, row)) for row in self.ROWS])
        self.assertEqual(self.shown("json", []), "[]\n")
        self.assertIn("| 4 | 日本\\|x | 'a,\"b\"␊' |\n", self.shown("markdown"))

    def test_column(self):
        expected = "t.id  t.s     t.u\n----  ------  --------\n   1  Ann\n -20  ''      ''\n   3  ' a'    null\n   4  日本|x  'a,\"b\"␊'\n   5  e\u0301␛      ''''\n"
        self.assertEqual(self.shown("column"), expected)

    def test_line(self):
        self.assertEqual(self.shown("line", self.ROWS[:2]), "t.id = 1\n t.s = Ann\n t.u =\n\nt.id = -20\n t.s = ''\n t.u = ''\n")
        self.assertEqual(self.shown("line", []), "")

    def test_tabs(self):
        self.assertEqual(self.shown("tabs", [[1, "a\tb\\", None], [2, "\r\n", ""]]), "t.id\tt.s\tt.u\n1\ta\\tb\\\\\t\\N\n2\t\\r\\n\t\n")

    def test_insert(self):
        self.assertEqual(self.shown("insert", [[1, "it's", None]]), "insert t (1, 'it''s', null)\n")
        self.assertEqual(self.shown("insert", [[1, "", None]], boxes.look("utf-8")._replace(table="u")), "insert u (1, '', null)\n")
        self.assertEqual("".join(modes.MODES["insert"](("t.a", "u.b"), [[1, 2]], boxes.look("utf-8"))), "insert rows (1, 2)\n")

    def test_html(self):
        read = []
        parser = html.parser.HTMLParser()
        parser.handle_data = read.append
        parser.feed(self.shown("html", [[1, "<&>", None], [2, '"', ""]]))
        self.assertEqual("".join(read).split(), ["t.idt.st.u", "1<&>", "2\"''"])
        self.assertEqual(self.shown("html", []), "<tr><th>t.id</th><th>t.s</th><th>t.u</th></tr>\n")

    def test_a_caret(self):
        with unittest.mock.patch.dict(os.environ, {"COLUMNS": "42"}):
            for line, column, pointed in (
                ("selct", 1, "  selct\n  ^\n"),
                ("tables;", 7, "  tables;\n        ^\n"),
                ("select", 7, "  select\n        ^\n"),
                ("\tinsert 日本 x", 12, "  ␉insert 日本 x\n               ^\n"),
                (f"{'a' * 30}bc{'d' * 30}", 32, f"  {'a' * 9}bc{'d' * 9}\n{' ' * 12}^\n"),
                (f"{'日' * 30}b", 31, f"  {'日' * 10}b\n{' ' * 22}^\n"),
            ):
                with self.subTest(line):
                    self.assertEqual(showing.pointed_at(line, column), pointed)

    def test_a_terminal_without_such_marks(self):
        cells = boxes.Cells(["a"], [["1"]], [True])
        self.assertEqual("".join(boxes.box(cells, boxes.look("ascii"))), "+---+\n| a |\n+---+\n| 1 |\n+---+\n")


class Folded(unittest.TestCase):
    """Tables that are wider than the terminal."""

    def lines(self, draw, columns, cells):
        with unittest.mock.patch.dict(os.environ, {"COLUMNS": str(columns), "LINES": "24"}):
            return "".join(draw(cells, boxes.look("utf-8", is_folded=True))).splitlines()

    def test_texts_are_folded_at_blanks(self):
        for text, places, pieces in (
            ("a word or two", 8, ["a word", "or two"]),
            ("a word or two", 9, ["a word or", "two"]),
            ("abcdefgh", 3, ["abc", "def", "gh"]),
            ("日本語", 4, ["日本", "語"]),
            ("日本", 1, ["日", "本"]),
            ("e\u0301e\u0301e", 2, ["e\u0301e\u0301", "e"]),
            ("", 3, [""]),
        ):
            with self.subTest(text):
                self.assertEqual(list(boxes.folded(text, places)), pieces)

    def test_a_box_as_wide_as_the_terminal(self):
        cells = boxes.Cells(["id", "text"], [["1", "one two three four five"], ["22", "short"]], [True, False])
        expected = [
            "┌────┬───────────┐",
            "│ id │ text      │",
            "├────┼───────────┤",
            "│  1 │ one two   │",
            "│    │ three     │",
            "│    │ four five │",
            "│ 22 │ short     │",
            "└────┴───────────┘",
        ]
        self.assertEqual(self.lines(boxes.box, 18, cells), expected)
        self.assertEqual(self.lines(boxes.columns, 13, cells), ["id  text", "--  ---------", " 1  one two", "    three", "    four five", "22  short"])

    def test_no_line_is_wider_than_the_terminal(self):
        rows = [["x" * at, "y" * (40 - at), "日" * 9] for at in range(40)]
        for columns in range(19, 90):
            for draw in (boxes.box, boxes.columns):
                lines = self.lines(draw, columns, boxes.Cells(["a", "b", "c"], rows, [False] * 3))
                self.assertLessEqual(max(map(boxes.width, lines)), columns)
                drawn = [line.replace("│", "").replace(" ", "") for line in lines]
                self.assertEqual(sum(line.count("x") for line in drawn), 39 * 20)

    def test_rows_below_the_first_thousand(self):
        texts = ["1"] * 1000 + ["wider"]
        self.assertEqual(self.lines(boxes.box, 80, boxes.Cells(["a"], ([text] for text in texts), [False]))[-2:], ["│ wider │", "└───────┘"])
        lines = self.lines(boxes.box, 80, boxes.Cells(["a"], ([text] for text in [*texts, "bye"]), [False], [["bye"]]))
        self.assertEqual(lines[-4:], ["│ wid │", "│ er  │", "│ bye │", "└─────┘"])

    def test_the_size_of_the_terminal(self):
        for columns, lines, size in (("7", "8", (7, 8)), ("", "x", (80, 24)), ("0", "8", (80, 8))):
            with unittest.mock.patch.dict(os.environ, {"COLUMNS": columns, "LINES": lines}):
                with unittest.mock.patch.object(os, "get_terminal_size", side_effect=OSError):
                    self.assertEqual(terminals.size(), size)
