"""`NoMemory` says that the allocator refused a growth. No contract can say so, so this searches the crates for what could say it without
such a growth.

What must hold: NoMemory is sealed, so a body outside of no_memory that makes one does not compile. An AllocError or an AllocFailed is made
in no_memory alone, since a NoMemory is made of them. A variant named NoMemory holds no value: it is made of a NoMemory or out of another
such variant, or its file is in PASSED_ON. check_size of no_memory is called in the files of CHECKED alone.
"""

import collections
import re
import unittest

from support import harness

# The values of std that say that a growth was refused. What is left of a line without its imports and types are expressions and patterns.
KIT = re.compile(r"\b(?:AllocError|AllocFailed)\b")
RENAMED = re.compile(r"\b(?:AllocError|AllocFailed)\s+as\b")
IMPORT = re.compile(r"\buse\b[^;]*;")
GENERIC = re.compile(r"<[^<>=;{]*>")
TYPE = re.compile(r"(?:: |-> )&?(?:\w+::)*(?:AllocError|AllocFailed)\b")
COMMENT = re.compile(r"//.*")

# The program's words: what the library clap refuses has an AllocError, of which no NoMemory is made.
MAKERS = {"no_memory", "mmdb"}

MADE = (
    "return Err(NoMemory::from(AllocError));",
    "let refused = AllocError;",
    "Err(AllocFailed { value })",
    "Err(Refusal::from(NoMemory::from(std::alloc::AllocError)))",
    "use std::alloc::AllocError as Refused;",
)
TAKEN = (
    "use std::alloc::{AllocError, AllocFailed};",
    "impl<T: Drop> From<AllocFailed<T>> for NoMemory {",
    "fn from(_: AllocError) -> NoMemory {",
    "fn from(refused: AllocFailed<T>) -> CellFault {",
    "pub fn tell(words: Result<String, AllocError>) -> Reason {",
    ") -> Result<(Slots<T>, Deed<T, A>), AllocError>",
)

VARIANT = re.compile(r"\b[A-Z]\w*::NoMemory\b")
TESTED = re.compile(r"(?:[=!]= |matches!.*)$")
CONVERTS = re.compile(r"^impl\b.*\bFrom<(?:NoMemory|AllocError|AllocFailed<T>)> for\b")

# How many variants a file gives that are made of no other: of a call that a growth alone can be refused to, or of what another library says
# of a growth. answered.rt and blocks.rt of language_tests name one beside others.
PASSED_ON = {
    "language_tests/src/blocks.rt": 1,
    "mm_batch/src/fault.rt": 1,
    "mm_batch/src/watched.rt": 3,
    "mm_csv/src/rows.rt": 1,
    "mm_database/src/cursors.rt": 1,
    "mm_database/src/firsts.rt": 1,
    "mm_database/src/given.rt": 1,
    "mm_database/src/many.rt": 1,
    "mm_database/src/statements.rt": 1,
    "mm_lang/src/stops.rt": 1,
    "mm_reason/src/answered.rt": 1,
    "mm_reason/src/blocks.rt": 1,
    "mm_reason/src/reasons.rt": 1,
    "mm_relation/src/keyed.rt": 1,
    "mm_relation/src/relation.rt": 1,
    "mm_session/src/stream/pending_block.rt": 1,
    "mm_session/src/stream/whole_run.rt": 1,
    "mm_statements/src/columns.rt": 1,
    "mmdb/src/main.rt": 4,
    "mmdb_c/src/clone_calls.rt": 1,
    "mmdb_c/src/sharing_calls.rt": 1,
    "relation_tests/src/searches.rt": 1,
}

# What calls check_size, which makes a NoMemory of a size that no block has. hiding.rt does so where a table would owe too many rows.
CHECKED = {"mm_catalog/src/hiding.rt": 1, "part_raw/src/block.rt": 1, "ttree_node/src/parts.rt": 1}
CHECK = re.compile(r"(?<!fn )\bcheck_size::<")


def code_of(file):
    """The lines of a source, without comments."""
    return [COMMENT.sub("", line) for line in file.read_text().splitlines()]


def sources():
    """The sources of each crate, by its name."""
    for crate in sorted((harness.ROOT / "crates").iterdir()):
        for file in sorted((crate / "src").rglob("*.rt")):
            yield crate.name, file


def makes_kit_error(line):
    """Whether a line makes or matches an error of std, or gives it another name."""
    if RENAMED.search(line):
        return True
    left, before = IMPORT.sub("", line), None
    while before != left:
        before, left = left, GENERIC.sub("", left)
    return KIT.search(TYPE.sub("", left)) is not None


def variants_made(lines):
    """How many variants named NoMemory are made in a source that are made of no other and of no refused growth."""
    made, converts = 0, False
    for line in lines:
        if line.startswith(("impl", "fn ", "pub fn ", "}")):
            converts = bool(CONVERTS.match(line))
        pattern, arrow, answer = line.partition("=>")
        if converts or (arrow and "NoMemory" in pattern):
            continue
        told = answer if arrow else pattern
        made += sum(1 for it in VARIANT.finditer(told) if not TESTED.search(told[: it.start()]))
    return made


class RefusedMemory(unittest.TestCase):
    """Nothing says that a growth was refused but where one was."""

    def test_no_memory_is_sealed(self):
        text = (harness.ROOT / "crates/no_memory/src/lib.rt").read_text()
        self.assertRegex(text, r"#\[non_exhaustive\]\npub struct NoMemory;")

    def test_each_way_is_seen(self):
        for line in MADE:
            self.assertTrue(makes_kit_error(line), line)
        for line in TAKEN:
            self.assertFalse(makes_kit_error(line), line)

    def test_a_variant_that_is_made_up_is_seen(self):
        self.assertEqual(variants_made(["fn gives_up() {", "    Err(Refusal::NoMemory)", "}"]), 1)
        self.assertEqual(variants_made(["        Err(_) => return Err(Refusal::NoMemory),"]), 1)
        self.assertEqual(variants_made(["        Err(ParseRefusal::NoMemory) => return Err(Refusal::NoMemory),"]), 0)
        self.assertEqual(variants_made(["impl From<NoMemory> for Refusal {", "        Refusal::NoMemory", "}"]), 0)
        self.assertEqual(variants_made(["    if refusal == Refusal::NoMemory {"]), 0)

    def test_no_other_crate_makes_an_error_of_std(self):
        found = [
            f"{file.relative_to(harness.ROOT)}:{number}"
            for crate, file in sources()
            if crate not in MAKERS
            for number, line in enumerate(code_of(file), 1)
            if makes_kit_error(line)
        ]
        self.assertEqual(found, [])

    def test_variants_are_made_of_a_refused_growth(self):
        made = collections.Counter()
        for _, file in sources():
            made[str(file.relative_to(harness.ROOT / "crates"))] += variants_made(code_of(file))
        self.assertEqual({file: count for file, count in made.items() if count}, PASSED_ON)

    def test_sizes_are_checked_where_it_is_known(self):
        found = collections.Counter()
        for crate, file in sources():
            if crate != "no_memory":
                found[str(file.relative_to(harness.ROOT / "crates"))] += sum(1 for line in code_of(file) if CHECK.search(line))
        self.assertEqual({file: count for file, count in found.items() if count}, CHECKED)
