"""The binding for Rust: its crate's own tests, the programs of its page, its example and its package. It needs cargo, and no network."""

import os
import pathlib
import random
import re
import shutil
import subprocess
import tempfile
import unittest

from support import compiling, drawn, embedding, harness, limited, sizes, tested
from support.binding import mmdb

CRATE = harness.ROOT / "bindings" / "rust"
EXAMPLE = harness.ROOT / "examples" / "rust"
SEED = 20261128
SECONDS = sizes.size(600, 3_600)
PASSED = re.compile(r"^test result: ok\. (\d+) passed; 0 failed; 0 ignored;", re.MULTILINE)
LICENSES = ("LICENSE-MIT", "LICENSE-APACHE")
PIECE = re.compile(r"^```rust\n(.*?)^```$", re.MULTILINE | re.DOTALL)


def saved(block, draw, path):
    """A database with two tables of drawn rows, which is saved to a file."""
    db = mmdb.Database(block=block)
    db.execute("table t (k text, n int)")
    db.execute("table u (id int, s text, t ref t null)")
    db.execute("index u t hash")
    keys = sorted({embedding.text(draw) + draw.choice(["", *embedding.LINE_FEEDS]) for _ in range(200)} | {"", "a"})
    db.load("t", [(key, -at) for at, key in enumerate(keys)])
    given = ((at, embedding.text(draw) + "x" * (at % 9), draw.choice([None, "a", "", *keys])) for at in range(25_000))
    db.executemany("insert u (?, ?, ?)", list(given))
    db.save(path)
    return db


class Cargo(unittest.TestCase):
    """What cargo makes stands in a folder of its own, not beside the sources."""

    @classmethod
    def setUpClass(cls):
        tested.requires("cargo")
        folder = tempfile.TemporaryDirectory()
        cls.addClassCleanup(folder.cleanup)
        cls.folder = pathlib.Path(folder.name)

    def cargo(self, at, *words, **variables):
        where = {"MMDB_LIBRARY": str(tested.library().resolve()), "CARGO_TARGET_DIR": str(self.folder / "target")}
        ran = subprocess.run(
            ["cargo", *words, "--offline"],
            cwd=at,
            capture_output=True,
            timeout=SECONDS,
            check=False,
            env={**os.environ, **where, **variables},
        )
        return harness.Ended(ran.returncode, ran.stdout.decode(), ran.stderr.decode())

    def check_tests(self, at):
        """All tests of a crate pass, and none is passed over."""
        ended = self.cargo(at, "test", "--locked")
        self.assertEqual(ended.status, 0, ended.out + ended.err)
        self.assertEqual(ended.out.count("test result:"), len(PASSED.findall(ended.out)), ended.out)
        self.assertGreater(sum(map(int, PASSED.findall(ended.out))), 0, ended.out)

    def check_run(self, at, printed, *words):
        ended = self.cargo(at, "run", "--quiet", *words)
        self.assertEqual((ended.err, ended.out, ended.status), ("", printed, 0))

    def test_the_crate(self):
        self.check_tests(CRATE)

    def test_the_example(self):
        self.check_tests(EXAMPLE)
        self.check_run(EXAMPLE, (EXAMPLE / "expected.txt").read_text())
        self.check_run(EXAMPLE, (EXAMPLE / "fixtures.txt").read_text(), "--bin", "fixtures")

    def check_program(self, name, program, printed):
        self.check_run(embedding.crate(self.folder, name, program), printed)

    def test_the_first_program_of_the_page(self):
        program, printed = embedding.first_program("docs/rust.md", "rust")
        self.assertEqual(program.count("\n"), 16)
        self.check_program("first", program, printed)

    def test_the_pieces_of_the_page(self):
        """Those behind the first program are one program."""
        pieces = PIECE.findall((harness.ROOT / "docs" / "rust.md").read_text())[1:]
        self.assertEqual(len(pieces), 11)
        program = f"#![allow(unused)]\nfn main() -> Result<(), mmdb::Error> {{\n{''.join(pieces)}Ok(())\n}}\n"
        refused = "error 42 no referenced row: column 19: dept has no row with the key 99, which column dept names"
        refused += "\n  insert emp (?, ?, ?)\n                    ^"
        self.check_program("pieces", program, f"1 Ann Some(10)\n2 O'Hara None\n{refused}\n")

    def test_random_streams(self):
        """Their statements have the answers of the model, whether they are kept by their lines or prepared."""
        crate = embedding.crate(self.folder, "by_statements", (compiling.PROGRAMS / "by_statements.rs").read_text())
        built = self.cargo(crate, "build")
        self.assertEqual(built.status, 0, built.err)
        self.assertNotIn("warning", built.err)
        drawn.check(self, self.folder / "target" / "debug" / "by_statements", SEED)

    @unittest.skipUnless(sizes.is_large, "it needs gigabytes: in large sizes only")
    def test_texts_of_more_than_4_gib_are_too_large(self):
        program = (compiling.PROGRAMS / "too_large.rs").read_text()
        ended = self.cargo(embedding.crate(self.folder, "too_large", program), "run", "--quiet")
        self.assertEqual((ended.status, ended.out, ended.err), (0, "", ""))

    def resave(self, block, *files):
        """What a program tells that restores a database from a file, under a limit of blocks, and saves it to another."""
        program = self.folder / "target" / "debug" / "resave"
        how = {"timeout": harness.SECONDS, "check": True, "capture_output": True, "text": True}
        # (a signal that comes of a full file is ignored)
        return subprocess.run([program, str(block), *files], restore_signals=False, **how).stdout

    def test_dumps_of_python(self):
        """What Python saves and Rust restores, Rust saves as it was, and Python restores it. So it is where a program in C has restored and
        saved it between. A full disk leaves a file as it was."""
        built = self.cargo(embedding.crate(self.folder, "resave", (compiling.PROGRAMS / "resave.rs").read_text()), "build")
        self.assertEqual(built.status, 0, built.err)
        self.assertNotIn("warning", built.err)
        first, second = self.folder / "first.mmdb", self.folder / "second.mmdb"
        room = compiling.Room()
        self.addCleanup(room.close)
        in_c = room.compiled("resave", compiling.PROGRAMS / "resave.c")
        draw = random.Random(SEED)
        for block in (1 << 11, 1 << 13, mmdb.MOST):
            with self.subTest(block=block), saved(block, draw, first) as db:
                self.assertEqual(self.resave(block, first, second), "")
                self.assertEqual(second.read_bytes(), first.read_bytes())
                with mmdb.Database.restore(second) as again:
                    self.assertEqual([again.dump(table) for table in "tu"], [db.dump(table) for table in "tu"])
                content = first.read_bytes()
                first.write_bytes(compiling.ran([in_c, str(block), "4096"], content).out)
                self.assertEqual(self.resave(block, first, second), "")
                self.assertEqual(second.read_bytes(), content)
                first.write_bytes(content)
        second.write_bytes(b"old")
        for most in (0, 1, 1000, first.stat().st_size - 1):
            with limited.small_files(most):
                self.assertIn("the dump can't be written: File too large", self.resave(mmdb.MOST, first, second))
            self.assertEqual(second.read_bytes(), b"old")
            self.assertEqual([path.name for path in self.folder.glob(".second*")], [])

    def test_the_package(self):
        """It is made without a warning, and has the licences."""
        made = self.cargo(CRATE, "package", "--allow-dirty", "--no-verify")
        self.assertEqual(made.status, 0, made.err)
        self.assertNotIn("warning", made.err)
        listed = self.cargo(CRATE, "package", "--allow-dirty", "--list")
        self.assertLessEqual({"Cargo.toml", "README.md", "build.rs", "src/lib.rs", *LICENSES}, set(listed.out.split()))
        for name in LICENSES:
            self.assertEqual((CRATE / name).read_bytes(), (harness.ROOT / name).read_bytes())

    def test_the_library_of_a_clone(self):
        """Where no variable names a folder, it is that of `release`, two folders up."""
        clone = self.folder / "clone"
        shutil.copytree(CRATE, clone / "bindings" / "rust", ignore=shutil.ignore_patterns("target"))
        where = {"MMDB_LIBRARY": "", "PKG_CONFIG_PATH": str(self.folder), "CARGO_TARGET_DIR": str(self.folder / "of_clone")}
        ended = self.cargo(clone / "bindings" / "rust", "build", **where)
        self.assertNotEqual(ended.status, 0)
        self.assertRegex(ended.err, "the variable MMDB_LIBRARY names no folder, the crate stands in no clone, and pkg-config knows no mmdb")
        (clone / "release").mkdir()
        shutil.copy(tested.library() / "libmmdb.a", clone / "release")
        ended = self.cargo(clone / "bindings" / "rust", "build", **where)
        self.assertEqual(ended.status, 0, ended.err)

    def test_a_relative_folder(self):
        """It begins where cargo is called, or else at the crate."""
        called = self.folder / "called"
        for folder in (called / "lib", CRATE):
            folder.mkdir(parents=True, exist_ok=True)
        shutil.copy(tested.library() / "libmmdb.a", called / "lib")
        program = "fn main() { mmdb::Database::open_in_memory().unwrap(); println!(\"open\"); }\n"
        crate = embedding.crate(self.folder, "relative", program)
        where = {"MMDB_LIBRARY": "lib", "PWD": str(called), "CARGO_TARGET_DIR": str(self.folder / "of_relative")}
        ended = self.cargo(called, "run", "--quiet", "--manifest-path", str(crate / "Cargo.toml"), **where)
        self.assertEqual((ended.err, ended.out, ended.status), ("", "open\n", 0))
        library = os.path.relpath(tested.library().resolve(), CRATE)
        ended = self.cargo(called, "run", "--quiet", "--manifest-path", str(crate / "Cargo.toml"), **{**where, "MMDB_LIBRARY": library})
        self.assertEqual((ended.err, ended.out, ended.status), ("", "open\n", 0))

    def test_no_library(self):
        ended = self.cargo(CRATE, "build", MMDB_LIBRARY=str(self.folder), CARGO_TARGET_DIR=str(self.folder / "none"))
        self.assertIn(f"mmdb: there is no {self.folder}/libmmdb.a", ended.err)
        self.assertNotEqual(ended.status, 0)
