"""Transactions from C: each status, and every order of begin, insert, update, delete, commit and rollback beside plain lists.

Declarations and drops are undone too. Each call for memory is refused, and the bytes are counted that are held behind rounds of
rollbacks and behind a commit.
"""

import os
import re
import unittest

from support import compiling, preloading

TRANSACTIONS = compiling.PROGRAMS / "transactions.c"
UNDONE = ("deletes", "updates", "declarations", "drops")
DELETES, UPDATES, DECLARATIONS, DROPS = (compiling.PROGRAMS / f"undone_{what}.c" for what in UNDONE)
ROOM = compiling.Room()
ROUNDS = 100
HELD = re.compile(rb"\n\[held (\d+), most \d+\]\n([a-z ]+)\n")
# What a list that has grown again may have more than one that grew once.
LIST_STEP = 1_024
# The greatest part that is held behind later rollbacks beyond what the first leaves, and behind a commit beyond what the same changes
# outside leave.
MOST_SPARE = 0.05


def tearDownModule():
    ROOM.close()


class Transactions(compiling.Programs):
    """Each order, with and without the sanitizers; all memory comes back."""

    source = TRANSACTIONS

    def check(self, *sanitized):
        name = "-".join((self.source.stem, *(["sanitized"] if sanitized else [])))
        self.check_counted(ROOM.compiled(name, self.source, [*compiling.C, *sanitized], compiling.COUNTED))

    def test_as_it_is(self):
        self.check()

    def test_under_the_sanitizers_of_addresses(self):
        self.check(*compiling.SANITIZED)


class Deletes(Transactions):
    """Rows that are deleted and restored, with those that refer to them."""

    source = DELETES


class Updates(Transactions):
    """Values that are replaced and restored, references among them."""

    source = UPDATES


class Declarations(Transactions):
    """Tables and indexes that are made and gone again, and the statements on them."""

    source = DECLARATIONS


class Drops(Transactions):
    """Tables and indexes that are dropped and back again, with all that links them to others."""

    source = DROPS


class Memory(compiling.Programs):
    """A change that finds no memory changes nothing, and a rollback needs none. Rounds of rollbacks hold no more, and a commit sheds."""

    def test_each_call_for_memory_is_refused(self):
        words = [*compiling.C, *compiling.SANITIZED]
        self.check_counted(ROOM.compiled("rollbacks-refused", compiling.PROGRAMS / "rollbacks_refused.c", words, compiling.COUNTED))

    def marks(self):
        """What was done at each mark, and the bytes that are held there."""
        counter = preloading.Library("count_held")
        self.addCleanup(counter.close)
        program = ROOM.compiled("rollbacks", compiling.PROGRAMS / "rollbacks.c")
        ended = compiling.ran(program, env={**os.environ, "LD_PRELOAD": str(counter.path)})
        self.assertEqual((ended.status, ended.err), (0, b""))
        return [(what.decode(), int(held)) for held, what in HELD.findall(ended.out)]

    def test_what_is_held(self):
        marks = self.marks()
        rounds = [held for what, held in marks if what == "rolled back"]
        self.assertEqual(len(rounds), ROUNDS)
        self.assertEqual(set(rounds), {rounds[0]})
        # (a rollback in the order of keys fills nodes in another way than before, so two amounts may alternate)
        many = [held for what, held in marks if what == "many rolled back"]
        self.assertEqual(set(many[1:]), set(many[1:3]))
        self.assertLess(abs(many[2] - many[1]), LIST_STEP)
        self.assertLess(many[1], (1 + MOST_SPARE) * many[0])
        self.assertEqual({held for what, held in marks if what == "closed"}, {0})
        held = dict(marks)
        for what, plain in (("committed", "plain"), ("gone by a commit", "gone")):
            self.assertLess(held[what], (1 + MOST_SPARE) * held[plain], what)


if __name__ == "__main__":
    unittest.main()
