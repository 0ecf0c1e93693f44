"""The released program: when ./run takes it, what its digest covers, and how scripts/check-release compares it. Scripts replace the
toolchain, so nothing is proved here.

What must hold: PLAIN lists the only commands that ./run needs without the toolchain.
"""

import os
import pathlib
import shutil
import signal
import subprocess
import tempfile
import time
import unittest

from support import harness

# What ./run may use on a machine without the toolchain.
PLAIN = ("bash", "cat", "dirname", "env", "readlink", "sha256sum")
# The crates of a copy: the program, the library, and some of the crates that they depend on.
CRATES = ("no_memory", "plain_tables", "mm_lang", "mm_session", "mmdb", "mmdb_c")
TOOLCHAIN = (harness.ROOT / "release" / "toolchain").read_text()
# What the program tells of its version.
TOLD = f"mmdb {harness.VERSION}\n".encode()

# A stand-in for the toolchain that proves at once, and whose program is the one that was built before.
PROVES = f"""#!/bin/sh
case $1 in
version) echo '{TOOLCHAIN.strip()}' ;;
run) mkdir -p out && cp '{harness.PROGRAM}' out/mmdb ;;
esac
"""


class Copies(unittest.TestCase):
    """Tests on a copy of what ./run reads, with a release of the program that was built."""

    def setUp(self):
        room = tempfile.TemporaryDirectory(prefix="mmdb-tests-")
        self.addCleanup(room.cleanup)
        self.top = pathlib.Path(room.name) / "copy"
        self.tools = pathlib.Path(room.name) / "tools"
        self.tools.mkdir()
        for command in PLAIN:
            (self.tools / command).symlink_to(shutil.which(command))
        shutil.copytree(harness.ROOT / "release", self.top / "release")
        shutil.copy(harness.ROOT / "run", self.top / "run")
        (self.top / "crates.txt").write_text(harness.list_of_crates(*CRATES))
        for folder in ("include", "scripts"):
            shutil.copytree(harness.ROOT / folder, self.top / folder)
        for crate in CRATES:
            for part in ("src", "specs", "proofs"):
                if (harness.ROOT / "crates" / crate / part).is_dir():
                    shutil.copytree(harness.ROOT / "crates" / crate / part, self.top / "crates" / crate / part)
        self.released = self.top / "release" / "mmdb"
        shutil.copy(harness.PROGRAM, self.released)
        self.note(self.released)

    def note(self, program):
        program.with_name("mmdb.digests").write_bytes(self.said_by("scripts/digest", program))

    def put_toolchain(self, text):
        """Puts a toolchain on the path that does what a script says, and all else that the machine has."""
        (self.tools / "rt").write_text(text)
        (self.tools / "rt").chmod(0o755)
        return f"{self.tools}:{os.environ['PATH']}"

    def said_by(self, *words, **variables):
        return self.command(*words, **variables).stdout

    def command(self, *words, stream=b"", **variables):
        how = {"PATH": str(self.tools), **variables}
        return subprocess.run([self.top / words[0], *words[1:]], input=stream, capture_output=True, timeout=harness.SECONDS, check=False, env=how)

    def change(self, file, at=-1):
        """Changes one byte of a file."""
        path = self.top / file
        data = bytearray(path.read_bytes())
        data[at] ^= 1
        path.write_bytes(data)


class Runs(Copies):
    """Which program ./run takes."""

    def test_the_released_program_answers_with_a_plain_system_alone(self):
        _, stream, answers = next(harness.rows())
        ran = self.command("run", stream=stream)
        self.assertEqual((ran.returncode, ran.stdout, ran.stderr), (0, answers, b""))

    def test_it_follows_links(self):
        links = self.top.parent / "links"
        links.mkdir()
        (links / "first").symlink_to(self.top / "run")
        (links / "second").symlink_to("first")
        for link in ("first", "second"):
            ran = subprocess.run([links / link, "--version"], capture_output=True, timeout=harness.SECONDS, check=False, env={"PATH": str(self.tools)})
            self.assertEqual((ran.returncode, ran.stdout, ran.stderr), (0, TOLD, b""))

    def test_with_other_sources_and_no_toolchain_nothing_runs(self):
        self.change("crates/mm_lang/src/lib.rt")
        self.check_refused()

    def test_a_release_of_other_bytes_is_not_taken(self):
        self.change("release/mmdb", at=self.released.stat().st_size // 2)
        self.check_refused()

    def check_refused(self):
        ran = self.command("run", "--version")
        self.assertEqual((ran.returncode, ran.stdout), (70, b""))
        self.assertIn(b"rt", ran.stderr)

    def test_with_other_sources_the_program_is_built_once(self):
        self.change("crates/mm_session/src/lib.rt")
        path = self.put_toolchain(PROVES)
        first = self.command("run", "--version", PATH=path)
        self.assertEqual((first.returncode, first.stdout), (0, TOLD))
        crates = self.said_by("scripts/digest", "--crates").split()
        first_line, second_line = first.stderr.splitlines()[:2]
        self.assertTrue(first_line.endswith(b"is of these sources as they stand"), first_line)
        self.assertTrue(second_line.startswith(b"mmdb: so it is built, once, which takes some minutes: its %d crates" % len(crates)), second_line)
        for crate in crates:
            self.assertIn(b": %s proved" % crate, first.stderr)
        self.assertIn(b"mmdb: %d of %d: mmdb proved and built in 0:0" % (len(crates), len(crates)), first.stderr)
        again = self.command("run", "--version")
        self.assertEqual((again.returncode, again.stdout, again.stderr), (0, TOLD, b""))

    def test_a_build_that_fails_says_why(self):
        self.change("crates/mm_session/src/lib.rt")
        path = self.put_toolchain("#!/bin/sh\necho 'no proof of it'; exit 1\n")
        ran = self.command("run", "--version", PATH=path)
        self.assertEqual((ran.returncode, ran.stdout), (70, b""))
        self.assertIn(b"no proof of it\n", ran.stderr)
        self.assertTrue(ran.stderr.endswith(b"could not be proved\n"), ran.stderr)

    def test_an_interrupted_build_leaves_nothing_behind(self):
        self.change("crates/mm_session/src/lib.rt")
        told = self.top / "told"
        path = self.put_toolchain(f"#!/bin/sh\necho $$ >>'{told}'; exec sleep 100\n")
        for number in (signal.SIGINT, signal.SIGTERM):
            heeding = ["env", f"--default-signal={number.name.removeprefix('SIG')}", self.top / "run"]
            with subprocess.Popen(heeding, stderr=subprocess.DEVNULL, env={"PATH": path}, start_new_session=True) as running:
                while not told.is_file() and running.poll() is None:
                    time.sleep(0.02)
                running.send_signal(number)
                self.assertEqual(running.wait(timeout=harness.SECONDS), -number)
            for process in told.read_text().split():
                self.assertFalse(os.path.exists(f"/proc/{process}"))
            told.unlink()


class Digests(Copies):
    """What the digest of the sources reads."""

    def test_each_change_of_the_sources_gives_another_digest(self):
        digests = [self.said_by("scripts/digest")]
        lang = self.top / "crates" / "mm_lang"
        changes = (
            lambda: self.change("crates/no_memory/src/lib.rt"),
            lambda: self.change("crates/mmdb/src/main.rt"),
            lambda: (lang / "src" / "lib.rt").rename(lang / "src" / "other.rt"),
            lambda: (lang / "proofs" / "Empty.antt").write_text(""),
            lambda: (lang / "proofs" / ".hidden").write_text(""),
            lambda: self.list_crates("mm_lang: plain_statements plain_tables common_lemmas itoa thiserror", "mm_lang: plain_statements plain_tables common_lemmas thiserror itoa"),
            lambda: self.list_crates("mmdb:", "mmdb opt_level=1:"),
        )
        for change in changes:
            change()
            digests.append(self.said_by("scripts/digest"))
        self.assertEqual(len({*digests}), len(digests))

    def test_what_is_no_source_of_the_program_leaves_the_digest(self):
        digest = self.said_by("scripts/digest")
        self.assertRegex(digest, rb"\A[0-9a-f]{64}  sources\n\Z")
        lines = (self.top / "crates.txt").read_text().splitlines()
        (self.top / "crates.txt").write_text("\n".join([*reversed(lines), "another: mmdb", "# A comment."]))
        os.utime(self.top / "crates" / "mmdb" / "src" / "main.rt", (0, 0))
        for folder in ("another/src", "mmdb/out", "mmdb/must-fail"):
            (self.top / "crates" / folder).mkdir(parents=True)
            (self.top / "crates" / folder / "lib.rt").write_text("no source")
        self.assertEqual(self.said_by("scripts/digest"), digest)
        self.assertEqual(self.said_by("scripts/digest", GLOBIGNORE="*", GLOBSORT="-size", LC_ALL="C.UTF-8"), digest)

    def list_crates(self, old, new):
        text = (self.top / "crates.txt").read_text()
        self.assertEqual(text.count(old), 1)
        (self.top / "crates.txt").write_text(text.replace(old, new))


class Comparisons(Copies):
    """What the comparison of the released program with the built one counts."""

    def setUp(self):
        super().setUp()
        built = self.top / "crates" / "mmdb" / "out" / "mmdb"
        built.parent.mkdir()
        shutil.copy(harness.PROGRAM, built)
        digests = self.said_by("scripts/digest", "--library", self.top / "release")
        (self.top / "release" / "libmmdb.digests").write_bytes(digests)
        self.path = self.put_toolchain(PROVES)

    def check(self, passed, failed):
        ran = self.command("scripts/check-release", PATH=self.path)
        self.assertEqual(ran.stdout.splitlines()[-1], b"%d passed, %d failed" % (passed, failed))
        self.assertEqual(ran.returncode, failed)

    def test_equal_files_pass(self):
        self.check(2, 0)

    def test_one_changed_byte_of_the_program_fails(self):
        self.change("release/mmdb", at=self.released.stat().st_size // 2)
        self.check(1, 1)
        self.note(self.released)
        self.check(1, 1)

    def test_a_digest_of_another_program_fails(self):
        self.change("release/mmdb.digests", at=-15)
        self.check(1, 1)

    def test_one_changed_byte_of_the_library_fails(self):
        for file in ("libmmdb.a", "libmmdb.so", "libmmdb.so.0", "mmdb.h", "mmdb.pc"):
            with self.subTest(file):
                self.change(f"release/{file}", at=20)
                self.check(1, 1)
                shutil.copy(harness.ROOT / "release" / file, self.top / "release" / file)

    def test_other_sources_count_for_nothing(self):
        self.change("include/mmdb.h")
        self.check(1, 0)
        self.change("crates/plain_tables/src/lib.rt")
        self.check(0, 0)

    def test_another_toolchain_counts_for_nothing(self):
        self.change("release/toolchain", at=0)
        self.check(0, 0)
