"""A value that is dropped frees what it owns, so only a value that is never dropped leaks. This searches the crates for the words that keep
a value from being dropped.

What must hold: RAW lists the crates that own raw memory, and no other crate has such a word.
"""

import re
import unittest

from support import harness

# These turn boxes into pointers, or lend and free blocks by them. The prover takes no drop of what they own there.
RAW = {"raw_box", "raw_handle", "part_raw", "ttree_node"}
KEEPS = re.compile(r"(?<!fn )(?<![.\w])forget\s*(?:::<|\()|\bmem::(?:\{[^}]*\b)?forget\b|\bManuallyDrop\b|\bleak\b|\binto_raw\w*")
COMMENT = re.compile(r"//.*")
WAYS = (
    "mem::forget(relation);",
    "use std::mem::{self, forget, replace};",
    "use std::mem::forget as keep;",
    "forget::<Relation>(relation);",
    "let kept = ManuallyDrop::new(relation);",
    "let kept = Box::leak(relation);",
    "let kept = rows.leak();",
    "let at = Box::into_raw(relation);",
)
OTHERS = ("self.statements.forget();", "pub fn forget(&mut self)", "let left = 1;")


def code_of(crate):
    """The lines of a crate's sources, without their comments."""
    for file in sorted((crate / "src").rglob("*.rt")):
        for number, line in enumerate(file.read_text().splitlines(), 1):
            yield f"{file.relative_to(harness.ROOT)}:{number}", COMMENT.sub("", line)


class OwnedMemory(unittest.TestCase):
    """No crate but those that own raw memory keeps a value from being dropped."""

    def test_each_way_is_seen(self):
        for way in WAYS:
            self.assertTrue(KEEPS.search(way), way)
        for other in OTHERS:
            self.assertFalse(KEEPS.search(other), other)

    def test_no_other_crate_has_one(self):
        crates = [it for it in sorted((harness.ROOT / "crates").iterdir()) if (it / "src").is_dir()]
        self.assertLess(RAW, {crate.name for crate in crates})
        found = [place for crate in crates if crate.name not in RAW for place, line in code_of(crate) if KEEPS.search(line)]
        self.assertEqual(found, [])
