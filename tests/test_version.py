"""The file VERSION, and every place that repeats the version.

What must hold: PLACES lists them all.
"""

import re
import unittest

from support import harness

# The places, and the texts there in which the version stands.
PLACES = (
    ("include/mmdb.h", r'^#define MMDB_VERSION "(.*)"$'),
    ("crates/mmdb/src/words.rt", r'\.version\("(.*)"\)'),
    ("bindings/python/mmdb/__init__.py", r'^__version__ = "(.*)"$'),
    ("bindings/rust/Cargo.toml", r'^version = "(.*)"$'),
    ("bindings/rust/Cargo.lock", r'^name = "mmdb"\nversion = "(.*)"$'),
    ("examples/rust/Cargo.lock", r'^name = "mmdb"\nversion = "(.*)"$'),
    ("docs/man/mmdb.1", r'^\.TH MMDB 1 \S+ "mmdb (.*?)" '),
    ("docs/man/mmdb-shell.1", r'^\.TH MMDB-SHELL 1 \S+ "mmdb (.*?)" '),
    ("docs/man/mmdb.3", r'^\.TH MMDB 3 \S+ "mmdb (.*?)" '),
)
CHANGES = re.compile(r"^## \[(.*?)\](?: - \d{4}-\d{2}-\d{2})?$", re.MULTILINE)


class Version(unittest.TestCase):
    """One version, everywhere."""

    def test_it_is_three_numbers(self):
        self.assertRegex((harness.ROOT / "VERSION").read_text(), r"\A(0|[1-9]\d*)(\.(0|[1-9]\d*)){2}\n\Z")

    def test_each_place_has_it(self):
        for place, text in PLACES:
            with self.subTest(place):
                found = re.findall(text, (harness.ROOT / place).read_text(), re.MULTILINE)
                self.assertEqual(found, [harness.VERSION])

    def test_the_header_has_its_numbers(self):
        header = (harness.ROOT / "include" / "mmdb.h").read_text()
        parts = ("MAJOR", "MINOR", "PATCH")
        numbers = [re.findall(rf"^#define MMDB_VERSION_{part} (\d+)$", header, re.MULTILINE) for part in parts]
        self.assertEqual(numbers, [[number] for number in harness.VERSION.split(".")])

    def test_the_newest_version_of_the_changelog_is_it(self):
        told = CHANGES.findall((harness.ROOT / "CHANGELOG.md").read_text())
        self.assertEqual([version for version in told if version != "Unreleased"][0], harness.VERSION)
