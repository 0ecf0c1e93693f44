"""A load of 1,000 rows into a table with indexes, and an index that is declared over 1,000 rows, with each call for memory refused in turn.
Some of the texts have lengths around which a row stores them in another way.
"""

import concurrent.futures
import os
import random
import unittest

from support import harness, model, refusing, texts

ROWS = 1_000
TABLE = b"table m (id int, a int, s text)\n"
INDEXES = [b"index m a tree\n", b"index m a hash\n", b"index m s tree\n", b"index m s hash\n"]
KEYS = random.Random(ROWS).sample(range(ROWS), ROWS)
TEXTS = [*map(texts.of_length, texts.LENGTHS), *(b"x%d" % number for number in range(90))]
BLOCK = b"id,a,s\n" + b"".join(b"%d,%d,%s\n" % (key, key % 7, TEXTS[key % len(TEXTS)]) for key in KEYS)
LOAD = b"load m %d\n" % len(BLOCK) + BLOCK
SELECTS = b"select * from m\nselect id from m where a = 3\nselect id from m where a >= 5\nselect id from m where s = 'x7'\n"
SELECTS += b"".join(b"select id from m where s %s '%s'\n" % (sign, text) for sign in (b"=", b">") for text in TEXTS[1:6])
SELECTS += b"select distinct s from m\n"
NO_MEMORY = b"error 90 no memory\n"


class EachCallRefused(unittest.TestCase):
    """A command that finds no memory leaves all as it was, and then it does what it had done with all its memory."""

    def setUp(self):
        refuser = refusing.Refuser()
        self.addCleanup(refuser.close)
        self.refuser = refuser

    def calls(self, stream):
        return self.refuser.calls([harness.PROGRAM], stream)

    def check(self, front, command, looks):
        """Each call of a command refused, with looks at the tables behind it, the same command again, and the looks again."""
        rest = looks + command + looks
        whole, before = front + command + rest, model.answers_to(front)
        refused, done = before + NO_MEMORY + model.answers_to(front + rest)[len(before) :], model.answers_to(whole)
        calls = range(self.calls(front) + 1, self.calls(front + command) + 1)
        with concurrent.futures.ThreadPoolExecutor(os.cpu_count()) as threads:
            runs = threads.map(lambda nth: (nth, *self.refuser.run_over_file([harness.PROGRAM], whole, nth)), calls)
            met = [self.check_run(nth, ended, is_met, refused, done) for nth, ended, is_met in runs]
        self.assertIn(True, met, "no call for memory was refused")

    def check_run(self, nth, ended, is_met, refused, done):
        """Checks the answers of a run, and tells whether the command found no memory in it."""
        with self.subTest(refused_call=nth):
            self.assertEqual((ended.status, ended.err, is_met), (0, b"", True))
            self.assertTrue(ended.out in (refused, done), ended.out[:200])
        return ended.out == refused

    def test_a_load_puts_in_all_rows_or_none(self):
        self.check(TABLE + b"".join(INDEXES), LOAD, SELECTS)

    def test_an_index_has_all_rows_or_is_none(self):
        for number, index in enumerate(INDEXES):
            with self.subTest(index=index):
                self.check(TABLE + LOAD + b"".join(INDEXES[:number]), index, b"tables\n" + SELECTS)
