"""The memory that stores and indexes hold, counted from outside: a store that is dropped holds nothing, and neither does a reserve that is
released.

What must hold: the crates' tests whose names end in `_are_given_back`, `_are_forgotten` and `_go_with_their_partition` print the moments
that are compared here, in lines `held: MOMENT`.
"""

import os
import re
import subprocess
import unittest

from support import harness, preloading, tested

MOMENT = re.compile(r"\[held (\d+), most \d+\]\nheld: (.+)")
REFERENCES = 1_000
ENTRY = 12
SLOTS = 256
COUNT = 8


def moments_of(counter, binary, name):
    """Runs a test, and gives the bytes that it held at each moment that it named."""
    ran = subprocess.run(
        [binary, name],
        capture_output=True,
        text=True,
        timeout=harness.SECONDS,
        check=True,
        env={**os.environ, "LD_PRELOAD": str(counter.path)},
    )
    return {moment: int(held) for held, moment in MOMENT.findall(ran.stdout)}


@tested.requires_toolchain
class GivenBack(unittest.TestCase):
    """A T-tree and a linear hash fill with 1,000 references and empty, twice."""

    @classmethod
    def setUpClass(cls):
        counter = preloading.Library("count_held")
        cls.addClassCleanup(counter.close)
        tests = list(harness.crate_tests("_are_given_back"))
        cls.held = {name.rpartition("::")[2]: moments_of(counter, binary, name) for binary, name in tests}

    def each(self):
        self.assertGreater(len(self.held), 0, "no crate's tests were built")
        for name, held in self.held.items():
            with self.subTest(name):
                yield held

    def test_all_is_given_back_in_the_end(self):
        for held in self.each():
            self.assertEqual(held["dropped"], held["nothing"])

    def test_what_was_reserved_is_given_back_once_released(self):
        for held in self.each():
            self.assertGreater(held["reserved"], held["full"])
            self.assertEqual(held["released"], held["full"])

    def test_no_more_is_held_the_second_time(self):
        for held in self.each():
            self.assertEqual(held["emptied again"], held["emptied"])

    def test_no_node_is_held_once_all_are_out(self):
        """A tree holds nothing then, and a hash the heads of its buckets alone."""
        tree, bag = self.held["t_tree_nodes_are_given_back"], self.held["hash_nodes_are_given_back"]
        self.assertEqual(tree["emptied"], tree["nothing"])
        self.assertLess(bag["emptied"], bag["nothing"] + REFERENCES * ENTRY)

    def test_a_copy_of_a_tree_holds_as_much(self):
        tree = self.held["t_tree_nodes_are_given_back"]
        self.assertEqual(tree["copied"] - tree["full"], tree["full"] - tree["nothing"])


@tested.requires_toolchain
class Forgotten(unittest.TestCase):
    """A store of one partition keeps counts, forgets them, and gives its partition back."""

    @classmethod
    def setUpClass(cls):
        counter = preloading.Library("count_held")
        cls.addClassCleanup(counter.close)
        tests = list(harness.crate_tests("_are_forgotten"))
        cls.held = [moments_of(counter, binary, name) for binary, name in tests]

    def test_there_is_one(self):
        self.assertEqual(len(self.held), 1, "no crate's tests were built")

    def test_counts_are_held_where_they_are_kept_alone(self):
        for held in self.held:
            kept = held["counted"] - held["uncounted"]
            self.assertGreaterEqual(kept, SLOTS * COUNT)
            self.assertLess(kept, 2 * SLOTS * COUNT)

    def test_they_are_given_back(self):
        for held in self.held:
            self.assertEqual(held["forgotten"], held["uncounted"])
            self.assertEqual(held["released"], held["nothing"])


@tested.requires_toolchain
class OfTheMiddle(unittest.TestCase):
    """A store of three partitions gives back the one in the middle, and fills it again, and so does one that keeps counts."""

    @classmethod
    def setUpClass(cls):
        counter = preloading.Library("count_held")
        cls.addClassCleanup(counter.close)
        tests = list(harness.crate_tests("_go_with_their_partition"))
        cls.held = [moments_of(counter, binary, name) for binary, name in tests]

    def test_there_is_one(self):
        self.assertEqual(len(self.held), 1, "no crate's tests were built")

    def test_its_counts_go_and_come_with_it(self):
        for held in self.held:
            counts = {when: held[f"counted, {when}"] - held[f"uncounted, {when}"] for when in ("full", "without the second", "full again")}
            self.assertEqual(counts["full again"] - counts["without the second"], SLOTS * COUNT)
            self.assertGreaterEqual(counts["full"] - counts["without the second"], SLOTS * COUNT)
            self.assertLess(counts["full"] - counts["without the second"], SLOTS * (COUNT + 1))

    def test_all_is_given_back(self):
        for held in self.held:
            self.assertEqual(held["nothing again"], held["nothing"])
