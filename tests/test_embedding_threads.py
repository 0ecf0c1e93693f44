"""The library in four threads and in 64, each with a handle of its own, from C and from Rust, under sanitizers. In large sizes
(`tests/fire embedding_threads`) it also runs from C under valgrind's drd, which sees every read and write of the library.
"""

import os
import pathlib
import shutil
import subprocess
import unittest

from support import compiling, harness, sizes, tested

THREADS = (4, 64)
ROWS = sizes.size(100, 2_000)
# Under drd all is slower by far, so that there are fewer rows.
ROWS_WATCHED = 20
TARGET = "x86_64-unknown-linux-gnu"
SOURCE = compiling.PROGRAMS / "threads.c"
ROOM = compiling.Room()


def tearDownModule():
    ROOM.close()


class Threads(unittest.TestCase):
    def check(self, name, rows, words=(), before=()):
        for threads in THREADS:
            told = [f"-DTHREADS={threads}", f"-DROWS={rows}"]
            program = ROOM.compiled(f"{name}-{threads}", SOURCE, [*compiling.C, "-pthread", *told, *words])
            with self.subTest(threads=threads):
                ended = compiling.ran([*before, program])
                self.assertEqual((ended.status, ended.out, ended.err), (0, b"", b""))

    def test_each_has_its_own_answers(self):
        self.check("threads", ROWS)

    def test_under_the_sanitizer_of_threads(self):
        self.check("threads-thread", ROWS, ["-fsanitize=thread"])

    def test_under_the_sanitizers_of_addresses(self):
        self.check("threads-address", ROWS, compiling.SANITIZED)

    @unittest.skipUnless(sizes.is_large and shutil.which("valgrind"), "in large sizes only, with valgrind")
    def test_under_drd(self):
        words = ["valgrind", "--tool=drd", "--quiet", "--error-exitcode=9", "--check-stack-var=yes"]
        self.check("threads-drd", ROWS_WATCHED, before=words)


def has_nightly():
    """Whether there is a Rust that has sanitizers."""
    words = ["cargo", "+nightly", "--version"]
    return shutil.which("cargo") is not None and subprocess.run(words, capture_output=True, check=False).returncode == 0


class InRust(unittest.TestCase):
    """The same by the crate for Rust, whose databases are then asked by other threads than those that made them."""

    @classmethod
    def setUpClass(cls):
        tested.requires("cargo")
        cls.folder = pathlib.Path(ROOM.path) / "in-rust"
        (cls.folder / "src").mkdir(parents=True)
        crate = harness.ROOT / "bindings" / "rust"
        head = '[package]\nname = "threads"\nversion = "0.1.0"\nedition = "2021"\n\n[dependencies]\n'
        (cls.folder / "Cargo.toml").write_text(f'{head}mmdb = {{ path = "{crate}" }}\n')
        shutil.copy(compiling.PROGRAMS / "threads.rs", cls.folder / "src" / "main.rs")

    def check(self, rows, target, words=(), **variables):
        how = {**os.environ, "MMDB_LIBRARY": str(tested.library().resolve()), **variables}
        words = ["cargo", *words, "build", "--quiet", "--offline", "--target", TARGET, "--target-dir", target]
        subprocess.run(words, cwd=self.folder, check=True, env=how)
        for threads in THREADS:
            with self.subTest(threads=threads):
                ended = compiling.ran([self.folder / target / TARGET / "debug" / "threads", str(threads), str(rows)])
                self.assertEqual((ended.status, ended.out, ended.err), (0, b"", b""))

    def test_each_has_its_own_answers(self):
        self.check(ROWS, "plain")

    @unittest.skipUnless(sizes.is_large and has_nightly(), "in large sizes only, with a nightly Rust")
    def test_under_the_sanitizer_of_threads(self):
        sanitized = "-Zsanitizer=thread -Cunsafe-allow-abi-mismatch=sanitizer"
        self.check(ROWS, "sanitized", ["+nightly"], RUSTFLAGS=sanitized)
